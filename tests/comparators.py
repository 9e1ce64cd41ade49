"""What a text in form brings about at the comparators (02, A1), told from its lines and the answers to them alone.

A change is told where 40 and 42 are read right before an event and 42 and 40 right after it. Which thresholds the voltages come
near is told from what was last written to 02, 04 and 0B.
"""
from histories import (BC_LVL_STEPS, CODES, MEAS_CC1, MEAS_CC2, MEAS_VBUS, PWR_MEASURE, VBUSOK_AT, VOLTAGE_MOST, cc_reference,
                       vbus_reference)

# Bits of 40, and the interrupt in 42.
READINGS = {'VBUSOK': (0x80, 0x80), 'COMP': (0x20, 0x20), 'BC_LVL': (0x03, 0x01)}
PINS, SW_RES, PD_RESET, REFUSED = 'voltages', 'SW_RES', 'PD_RESET', 'a refused write'
WRITES = {'w 02': 'a write of 02', 'w 04': 'a write of 04', 'w 0B': 'a write of 0B'}
AT_RESET = {'02': 0x03, '04': 0x31, '0B': 0x01}
NEAR = {-1: 'one below', 0: 'at', 1: 'one above'}


def due():
    """Everything that the long texts have to bring about, in words."""
    rules = set()
    for cause, readings in ((PINS, READINGS), (WRITES['w 02'], ('COMP', 'BC_LVL')), (WRITES['w 04'], ('COMP',)),
                            (WRITES['w 0B'], ('COMP', 'BC_LVL'))):
        rules |= {'%s %s at %s, its interrupt set' % (name, way, cause) for name in readings for way in ('rises', 'falls')}
        rules |= {'INT_N falls at %s' % cause, 'an interrupt of %s is masked' % cause}
    rules |= {'BC_LVL from %d to %d at %s' % (one, other, PINS) for one in range(4) for other in range(4) if one != other}
    rules |= {'%s falls at %s, its interrupt clear' % (name, SW_RES) for name in ('COMP', 'BC_LVL')}
    rules.add('VBUSOK stays at %s, its interrupt clear' % SW_RES)
    for cause in (PINS, *WRITES.values(), PD_RESET, REFUSED):
        rules |= {'%s stays at %s, its interrupt clear' % (name, cause) for name in READINGS}
    for near in NEAR.values():
        rules |= {'%s %s %d' % (pin, near, step) for pin in ('CC1', 'CC2') for step in BC_LVL_STEPS}
        rules |= {'%s %s its MDAC reference' % (pin, near) for pin in ('CC1', 'CC2', 'VBUS')}
        rules |= {'%s %s the reference of code %d' % (pin, near, code) for pin in ('CC', 'VBUS') for code in (CODES[0], CODES[-1])}
        rules.add('VBUS %s %d' % (near, VBUSOK_AT))
    return rules | {'%s is %d' % (pin, voltage) for pin in ('CC1', 'CC2', 'VBUS') for voltage in (0, VOLTAGE_MOST)}


def cause_of(event, line):
    """What may have changed a reading, or must not have."""
    if line.startswith('no'):
        return REFUSED
    if event[0] == 'v':
        return PINS
    if event[:4] == 'w 0C':
        commands = int(event[5:], 16) & 3
        return {0: None, 2: PD_RESET}.get(commands, SW_RES)
    return WRITES.get(event[:4])


def value(line):
    return int(line[1:3], 16)


def changes(events, lines):
    """What each event does that stands between two reads of 40 and 42."""
    for at in range(2, len(events) - 2):
        if events[at - 1] != 'r 42' or events[at + 1] != 'r 42' or events[at - 2] != 'r 40' or events[at + 2] != 'r 40':
            continue
        cause = cause_of(events[at], lines[at])
        if cause is None:
            continue
        before, interrupts, after = value(lines[at - 2]), value(lines[at + 1]), value(lines[at + 2])
        for name, (bits, interrupt) in READINGS.items():
            was, now = before & bits, after & bits
            way = 'rises' if now > was else 'falls' if now < was else 'stays' if now else None
            yield '%s %s at %s, its interrupt %s' % (name, way, cause, 'set' if interrupts & interrupt else 'clear')
        yield 'BC_LVL from %d to %d at %s' % (before & 3, after & 3, cause)
        level_before, level_after = lines[at - 1].split()[1], lines[at].split()[1]
        if level_before > level_after:
            yield 'INT_N falls at %s' % cause
        # 42 was read, so what it shows now is of this event.
        if interrupts and level_after == '1':
            yield 'an interrupt of %s is masked' % cause


def thresholds(registers, cc1, cc2, vbus):
    """The thresholds of what is measured, each with the voltage that is compared with it and its rules."""
    measured = registers['02'] & (MEAS_CC1 | MEAS_CC2)
    code = registers['04'] & CODES[-1]
    yield vbus, VBUSOK_AT, ['VBUS %%s %d' % VBUSOK_AT]
    if not registers['0B'] & PWR_MEASURE:
        return
    if measured in (MEAS_CC1, MEAS_CC2):
        pin, voltage = ('CC1', cc1) if measured == MEAS_CC1 else ('CC2', cc2)
        for step in BC_LVL_STEPS:
            yield voltage, step, ['%s %%s %d' % (pin, step)]
        if not registers['04'] & MEAS_VBUS:
            yield voltage, cc_reference(code), ['%s %%s its MDAC reference' % pin, 'CC %%s the reference of code %d' % code]
    elif not measured and registers['04'] & MEAS_VBUS:
        yield vbus, vbus_reference(code), ['VBUS %s its MDAC reference', 'VBUS %%s the reference of code %d' % code]


def met(setup, events):
    """Which thresholds the voltages come near, and which voltages are the lowest and the highest."""
    registers = dict(AT_RESET)
    for event in ['w ' + line for line in setup] + events:
        if event[0] == 'w' and event[2:4] in registers:
            registers[event[2:4]] = int(event[5:], 16)
        elif event[0] == 'w' and event[2:4] == '0C' and int(event[5:], 16) & 1:
            registers = dict(AT_RESET)
        elif event[0] == 'v':
            pins = [int(word) for word in event.split()[1:]]
            yield from ('%s is %d' % pair for pair in zip(('CC1', 'CC2', 'VBUS'), pins))
            for voltage, threshold, rules in thresholds(registers, *pins):
                if voltage - threshold in NEAR:
                    yield from (rule % NEAR[voltage - threshold] for rule in rules)


def at_the_pins(setup, events, lines):
    """Rules that the answers to a text in form show, as often as they do; among them those of `due`."""
    yield from changes(events, lines[len(setup):])
    yield from met(setup, events)
