"""Histories made for one rule of 01 or 02 each, by name: what random ones may miss. Events as in histories.py."""
from itertools import product

from histories import (BC_LVL_STEPS, CODES, EVERY_KIND, KIND_ON, MEAS_CC1, MEAS_CC2, MEAS_VBUS, PWR_MEASURE, SETS, VBUSOK_AT,
                       VOLTAGE_MOST, cc_reference, vbus_reference, with_crc)

NAME = [0x4F, 0x10, 0x6C, 0xC3, 0xA1, 0x21]
# A message that is its header alone, with MessageID 5.
SENT, SENT_ID = [0x4F, 0x1A], 5
HIGH = [VOLTAGE_MOST] * 3


def port(octets):
    return [('w', 0x43, octet) for octet in octets]


def queue(kind, message):
    return SETS[kind] + [0x80 + len(message)] + message + [0xFF, 0x14, 0xFE]


def statuses():
    return [('r', address) for address in range(0x3C, 0x43)]


def started(control3, kind=0, message=NAME, switches1=0x25):
    """A message sent with these retries and resets, the driver on."""
    return [('w', 0x03, switches1), ('w', 0x09, control3)] + port(queue(kind, message)) + [('w', 0x43, 0xA1)]


def heard(kind, message):
    return [('p', kind, with_crc(message))]


def good_crc(message_id, more=0):
    header = 1 | message_id << 9 | more
    return [header & 255, header >> 8]


def every_address():
    every = range(256)
    return {
        'every address read': [('r', a) for a in every],
        'every address written with 00': [('w', a, 0x00) for a in every] + [('r', a) for a in every],
        'every address written with FF': [('w', a, 0xFF) for a in every] + [('r', a) for a in every],
        'every stored bit alone': [e for a in range(2, 0x11) for bit in range(8) for e in (('w', a, 1 << bit), ('r', a))],
    }


def command_bits():
    ready = [('w', 0x03, 0x25), ('w', 0x07, 0x73)] + heard(1, [0x43, 0x0A]) + port(queue(0, NAME))
    commands = [(0x06, v) for v in (0x01, 0x40, 0x41, 0x6F)] + [(0x07, v) for v in (0x04, 0x77)]
    commands += [(0x09, v) for v in (0x40, 0x46, 0x7F)] + [(0x0C, v) for v in (0x01, 0x02, 0x03, 0xFE)]
    named = {}
    for address, value in commands:
        for opened in (0, 1):
            name = '%02X written %02X, a request %s' % (address, value, 'open' if opened else 'not open')
            named[name] = ready + [('w', 0x43, 0xA1)] * opened + [('w', address, value), ('r', address)] + statuses()
    return named


def off(switches1):
    """Start and SEND_HARD_RESET with the driver off."""
    return [('w', 0x03, switches1), ('w', 0x09, 0x46)] + port(queue(0, NAME) + [0xA1]) + [('w', 0x06, 0x01), ('w', 0x06, 0x40)]


def refusals():
    full = [('w', 0x43, 0x12)] * 48
    opened = started(0x00)
    return {
        '1: no such address': [('r', 0x00), ('w', 0x11, 1), ('w', 0x44, 1), ('r', 0xFF)],
        '2: read only': [('w', 0x01, 1)] + [('w', a, 1) for a in range(0x3C, 0x43)],
        '6: port and TX_START, request open': opened + port([0x12, 0x00, 0xA1]) + [('w', 0x06, 0x01), ('w', 0x06, 0x41)],
        '3: no token': [('w', 0x43, v) for v in range(256) if v != 0xA1 and not 0x82 <= v <= 0x9E],
        '5: 48 held': full + port([0x12, 0x00, 0xA1]) + statuses(),
        '5: data, 48 held': [('w', 0x43, 0x12)] * 47 + [('w', 0x43, 0x9E), ('w', 0x43, 0xA1), ('r', 0x41)],
        '4: not a message': [('w', 0x03, 0x20), ('w', 0x43, 0xA1), ('w', 0x06, 0x01), ('w', 0x06, 0x41)],
        '7: driver off': off(0x20) + off(0x23),
        '8: nothing held': [('r', 0x43)] + heard(0, [0x43, 0x0A]) + [('r', 0x43)] * 8,
        '11 and 9: kind and length': [('p', kind, [0] * n) for kind in (0, 4, 5, 9999999) for n in (0, 5, 6, 34, 35)],
        '10: time': opened + [('t', n) for n in (1001, 9999999, 1000, 0)],
    }


def almost_messages():
    on = [('w', 0x03, 0x21)]
    whole = queue(2, NAME)
    named = {
        'a message of each kind': [e for kind in range(5) for e in started(0x00, kind) + [('t', 1000)]],
        'a block of 2 and one of 30': [e for n in (2, 30) for e in started(0x00, 0, [0xA1] * n) + [('t', 1000)]],
        'reset tokens alone': on + port([0x15, 0x15, 0x15, 0x16, 0xA1]),
        'reset tokens as a set': on + port([0x15, 0x15, 0x15, 0x16] + whole[4:] + [0xA1]),
        'two blocks': on + port(whole[:11] + whole[4:] + [0xA1]),
    }
    for at in range(len(whole)):
        named['a message without its octet %d' % at] = on + port(whole[:at] + whole[at + 1:] + [0xA1]) + [('w', 0x06, 0x01), ('r', 0x41)]
    for more in (0x12, 0xFE, 0x82):
        named['a message and %02X' % more] = on + port(whole + [more]) + [('w', 0x06, 0x01), ('r', 0x41)]
    return named


def requests():
    named = {}
    for control3 in range(0x20):
        waits = [e for _ in range(10) for e in (('t', 1000), ('r', 0x3C), ('r', 0x3E))]
        named['to the end with 09 = %02X' % control3] = started(control3) + waits
    parts = [('t', n) for n in (999, 2, 998, 1, 700, 700, 600)]
    named['the rest of a time event counts'] = started(0x07) + parts
    changed = [('w', 0x03, 0x80), ('w', 0x09, 0x00), ('w', 0x06, 0x04)]
    named['03 and 09 changed in mid-request'] = started(0x1B) + [('t', 1000)] + changed + [('t', 1000)] * 6 + statuses()
    named['09 raised in mid-request'] = started(0x01) + [('w', 0x09, 0x1F)] + [('t', 1000)] * 3 + statuses()
    named['dropped by a Hard Reset heard'] = started(0x07) + [('h',), ('t', 1000)] + statuses() + [('w', 0x43, 0x12)]
    return named


def soft_resets():
    """The Soft_Reset goes out on the kind of the message that failed (02, A2)."""
    named = {}
    for kind in range(1, 5):
        for control3 in (0x08, 0x0D, 0x18, 0x1F):
            retries = (control3 >> 1 & 3) * (control3 & 1)
            waits = [('t', 1000)] * (retries + 1) + [('r', 0x3C), ('r', 0x3E)]
            name = 'a message on kind %d to the end with 09 = %02X' % (kind, control3)
            named[name] = started(control3, kind, SENT, 0xB5) + 2 * waits
    other = [('w', 0x07, EVERY_KIND)] + heard(3, [0x43, 0x0A]) + [('t', 1000)] + heard(0, [0x43, 0x0A]) + [('t', 1000)] * 2
    named['packets of other kinds in mid-request, a message on kind 2'] = started(0x0B, 2, SENT) + other + statuses()
    for kind in (0, 3):
        changed = [('w', 0x03, 0x52), ('t', 1000), ('w', 0x03, 0x00), ('t', 1000), ('w', 0x03, 0x15), ('t', 1000), ('t', 1000)]
        named['03 changed in mid-request, a message on kind %d' % kind] = started(0x0B, kind, SENT, 0xF5) + changed + statuses()
    return named


def awaited_good_crcs():
    """The GoodCRC that a request of each kind awaits, after those that it does not await or cannot hear."""
    named = {}
    for phase, awaited, waits in (('message', SENT_ID, 0), ('Soft_Reset', 0, 1)):
        for kind in range(5):
            name = 'the GoodCRC for a %s on kind %d, ' % (phase, kind)
            ended = heard(kind, good_crc(awaited)) + statuses() + [('t', 1000), ('r', 0x3C)]
            others = [pair for pair in product(range(5), (0, SENT_ID)) if pair != (kind, awaited)]
            events = started(0x08, kind, SENT) + [('w', 0x07, EVERY_KIND)] + [('t', 1000)] * waits
            events += [e for other, message_id in others for e in heard(other, good_crc(message_id))]
            named[name + 'heard after all others'] = events + [('r', 0x3E), ('r', 0x41), ('w', 0x43, 0x12)] + ended
            if kind == 0:
                continue
            # Sent again before it is heard.
            events = started(0x1B, kind, SENT) + [('t', 1000)] * (2 * waits + 1) + [('w', 0x07, EVERY_KIND & ~KIND_ON[kind])]
            events += heard(kind, good_crc(awaited)) + [('r', 0x3E), ('r', 0x41), ('r', 0x42)]
            named[name + 'heard while the kind is off, then on'] = events + [('w', 0x07, KIND_ON[kind])] + ended
            if phase == 'Soft_Reset':
                named[name + 'heard while the kind is off'] = events + [('t', 1000)] + statuses()
    return named


def good_crcs():
    named = {}
    for phase, waits in (('message', []), ('Soft_Reset', [('t', 1000)])):
        for kind in range(5):
            for on in (0x00, 0x73):
                for message_id in (0, SENT_ID):
                    name = 'GoodCRC of kind %d and MessageID %d for a %s on kind 2, 07 = %02X' % (kind, message_id, phase, on)
                    named[name] = started(0x08, 2, SENT) + [('w', 0x07, on)] + waits + heard(kind, good_crc(message_id)) + statuses()
    for more in (0x10, 0x8000, 0x8010, 0x1000):
        named['GoodCRC with %04X set' % more] = started(0x00, 0, SENT) + heard(0, good_crc(SENT_ID, more)) + statuses()
        named['Soft_Reset with %04X set' % more] = heard(0, [0x0D | more & 255, more >> 8]) + statuses()
    named['GoodCRC with octets behind it'] = started(0x00, 0, SENT) + heard(0, good_crc(SENT_ID) + [0, 0]) + statuses()
    full = heard(0, [0] * 30) * 2
    named['the awaited GoodCRC, Rx full'] = full + started(0x00, 0, SENT) + heard(0, good_crc(SENT_ID)) * 2 + statuses()
    return named


def packets():
    long = heard(0, [0] * 30)
    wrong = [('p', 0, with_crc([0x43, 0x0A])[:-1] + [0])]
    checked = [('r', 0x40), ('r', 0x42)]
    named = {
        'read empty, then stored again': long + [('r', 0x43)] * 36 + long + statuses(),
        'CRC right, wrong and right': heard(0, [0x43, 0x0A]) + checked + wrong + checked + heard(0, [0x43, 0x0C]) + checked,
    }
    for n in (4, 5, 6, 7):
        named['a packet of 34 with %d held' % (40 + n)] = long + heard(0, [0] * n) + long + statuses() + long + statuses()
    each = [e for kind in range(5) for e in heard(kind, [0x43, 0x0A]) + [('r', 0x3D), ('r', 0x41), ('r', 0x3F)]]
    for switches1 in (0x25, 0xB5, 0xF6, 0x27, 0x24, 0x21):
        for control0 in (0x04, 0x06):
            set_up = [('w', 0x03, switches1), ('w', 0x06, control0), ('w', 0x07, 0x73)]
            named['heard with 03 = %02X and 06 = %02X' % (switches1, control0)] = set_up + each
    return named


def masks():
    named = {}
    happens = started(0x00) + heard(0, good_crc(0)) + heard(0, [0x43, 0x0A]) + [('h',)]
    for mask in (0x00, 0xFF):
        for control0 in (0x04, 0x24):
            set_up = [('w', 0x0A, mask), ('w', 0x0E, mask), ('w', 0x0F, mask), ('w', 0x06, control0)]
            named['masks %02X, 06 = %02X' % (mask, control0)] = set_up + happens + statuses()
    return named


def not_built():
    # All but what is measured: MEAS_CC1, MEAS_CC2, MEAS_VBUS, MDAC and PWR bit 2.
    stored = {0x02: 0xF3, 0x05: 0xFF, 0x08: 0xEF, 0x0B: 0x0B, 0x0D: 0x0F, 0x10: 0x01}
    written = [('v', *HIGH)] + [('w', address, value) for address, value in stored.items()]
    return {'stored bits of what is not built, and their status': written + [('t', 1000)] + [('r', a) for a in stored] + statuses()}


def measuring(switches0, measure, power=PWR_MEASURE):
    return [('w', 0x02, switches0), ('w', 0x04, measure), ('w', 0x0B, power)]


def shown():
    return [('r', 0x40), ('r', 0x42)]


def stepped(pin, voltages, others=0):
    """A pin, CC1 being 0, CC2 1 and VBUS 2, at each of these voltages."""
    events = []
    for voltage in voltages:
        pins = [others] * 3
        pins[pin] = voltage
        events += [('v', *pins)] + shown()
    return events


def about(*voltages):
    return [voltage + more for voltage in voltages for more in (-1, 0, 1)]


# What is measured: 02 and MEAS_VBUS, by the pin's place in the event.
MEASURED = [(MEAS_CC1, 0), (MEAS_CC2, 0), (0, MEAS_VBUS)]


def thresholds():
    named = {'VBUSOK at 4,000 with no bit set': measuring(0, 0, 0) + stepped(2, about(VBUSOK_AT) + [4500, 0])}
    for pin, name in enumerate(('CC1', 'CC2')):
        for others in (0, VOLTAGE_MOST):
            events = measuring(MEASURED[pin][0], CODES[-1]) + stepped(pin, about(*BC_LVL_STEPS) + [0], others)
            named['BC_LVL of %s, the others at %d' % (name, others)] = events
    for pin, (name, reference) in enumerate((('CC1', cc_reference), ('CC2', cc_reference), ('VBUS', vbus_reference))):
        switches0, meas_vbus = MEASURED[pin]
        for code in (CODES[0], 23, CODES[-1]):
            events = measuring(switches0, meas_vbus | code) + stepped(pin, [*about(reference(code)), 0, VOLTAGE_MOST])
            named['COMP of %s with code %d' % (name, code)] = events
    for name, reference, switches0, meas_vbus in (('CC1', cc_reference, MEAS_CC1, 0), ('VBUS', vbus_reference, 0, MEAS_VBUS)):
        events = measuring(switches0, 0)
        for code in CODES:
            events.append(('w', 0x04, meas_vbus | code))
            for voltage in (reference(code) - 1, reference(code)):
                events += [('v', voltage, 0, voltage), ('r', 0x40)]
        named['COMP of %s with every code' % name] = events
    return named


def switches():
    """The settings in which something is measured, and those in which nothing is."""
    named = {}
    for pins in (HIGH, [700, 1300, 420]):
        for power in (0x0B, 0x04):
            events = [('v', *pins)]
            for switches0 in (0x00, MEAS_CC1, MEAS_CC1 | MEAS_CC2, MEAS_CC2):
                for measure in (0x00, MEAS_VBUS):
                    events += measuring(switches0, measure, power) + shown()
            named['each of MEAS_CC1, MEAS_CC2 and MEAS_VBUS with 0B = %02X and the pins at %d, %d, %d' % (power, *pins)] = events
    return named


def looked_at(events):
    """40 and 42 read after each event."""
    return [e for event in events for e in [event] + shown()]


def changes():
    on = [('w', 0x06, 0x04)] + measuring(MEAS_CC1, CODES[-1])
    standing = measuring(MEAS_CC2, CODES[-1]) + [('v', 500, VOLTAGE_MOST, 5000)]
    again = measuring(MEAS_CC2, 0x31) + shown() + measuring(MEAS_CC1, 0x31) + shown()
    up, down = [('v', *HIGH)], [('v', 0, 0, 0)]
    no_change = measuring(MEAS_CC2 | 0xC3, 0x3E, 0x0F) + measuring(MEAS_CC2, 0x00)
    elsewhere = [('w', address, 0x00) for address in (0x03, 0x05, 0x06, 0x08, 0x09, 0x0D, 0x10)]
    refused = [('w', *pair) for pair in ((0x00, 4), (0x11, 4), (0x40, 0), (0x42, 0), (0x43, 0), (0x06, 1), (0x09, 0x40))]
    named = {
        'a level to another, and back': on + stepped(0, [300, 300, 700, 2000, 700, 300, 0, 2000, 300, 2000, 0]),
        'all change at once': on + looked_at(up + down),
        'a change back before 42 is read': on + up + down + shown(),
        'writes that change no reading': standing + shown() + looked_at(no_change),
        'writes elsewhere': standing + shown() + looked_at(elsewhere),
        'refused writes with voltages standing': standing + shown() + looked_at(refused),
        'voltages while a request is open': started(0x01) + [('t', 999)] + up + [('t', 1)] + down + [('t', 1000)] + statuses(),
        'voltages beside CRC_CHK and ALERT': standing + heard(0, [0x43, 0x0A]) + [('w', 0x43, 0x12)] * 48 + shown() + looked_at(down),
    }
    for value in (0x01, 0x02, 0x03):
        reset = [('w', 0x0C, value)] + shown() + again
        named['0C written %02X with voltages standing' % value] = standing + reset
        named['0C written %02X with voltages standing, 42 read before' % value] = standing + shown() + reset
    for mask in (0x00, 0x7F, 0xDF, 0xFE, 0xFF):
        masked = [('w', 0x0A, mask)] + up + [('w', 0x06, 0x24), ('w', 0x06, 0x04)] + shown() + looked_at([('w', 0x0B, 0x00)])
        named['comparators and INT_N with 0A = %02X' % mask] = on + masked
    return named


def directed():
    """Every history by its name."""
    named = {}
    for part in (every_address, command_bits, refusals, almost_messages, requests, soft_resets, awaited_good_crcs, good_crcs, packets,
                 masks, not_built, thresholds, switches, changes):
        named.update(part())
    return named
