"""Random histories of events for the device, seeded: messages of every octet value, almost-messages, retries to the end,
Soft_Resets and what is heard after them, resets, full FIFOs, masks, voltages about the thresholds, refused events. An event
is a tuple: ('w', address, value), ('r', address), ('t', microseconds), ('h',), ('p', kind, octets) or
('v', cc1, cc2, vbus) in millivolts."""
import zlib

SETS = [
    [0x12, 0x12, 0x12, 0x13],
    [0x12, 0x12, 0x1B, 0x1B],
    [0x12, 0x1B, 0x12, 0x1B],
    [0x12, 0x16, 0x16, 0x1B],
    [0x12, 0x16, 0x1B, 0x13],
]
TOKENS = [0x12, 0x13, 0x1B, 0x15, 0x16, 0x82, 0x84, 0x9E, 0xFF, 0x14, 0xFE]
# The bit of 07 that turns each kind on; SOP always is.
KIND_ON = [0x00, 0x01, 0x02, 0x20, 0x40]
EVERY_KIND = sum(KIND_ON)

# The comparators (02, A1), in millivolts; an MDAC code has one reference for the CC pins and one for VBUS.
BC_LVL_STEPS, VBUSOK_AT, VOLTAGE_MOST = (200, 660, 1230), 4000, 65535
CODES = range(64)
MEAS_CC1, MEAS_CC2, MEAS_VBUS, PWR_MEASURE = 0x04, 0x08, 0x40, 0x04


def cc_reference(code):
    return 42 * (code + 1)


def vbus_reference(code):
    return 420 * (code + 1)


def with_crc(message):
    return list(message) + list(zlib.crc32(bytes(message)).to_bytes(4, 'little'))


class Histories:
    def __init__(self, rng):
        self.rng = rng
        self.kind = 0
        self.message_id = 0
        self.code = 0x31

    def octet(self):
        return self.rng.choice([0xA1, 0xC3, 0xFE, self.rng.randrange(256), self.rng.randrange(256)])

    def send(self):
        """A message, at times damaged, its start, and some waits with registers changed between them."""
        rng = self.rng
        self.kind = rng.randrange(5)
        message = [self.octet() for _ in range(rng.choice([2, 2, 2, 3, 6, 10, 30]))]
        self.message_id = message[1] >> 1 & 7
        queue = SETS[self.kind] + [0x80 + len(message)] + message + [0xFF, 0x14, 0xFE]
        if rng.random() < 0.15:
            queue[rng.randrange(len(queue))] = rng.randrange(256)
        yield 'w', 0x03, rng.choice([0x21, 0x22, 0x25, 0xB5, 0x26, 0x23, 0x20, rng.randrange(256)])
        if rng.random() < 0.6:
            yield 'w', 0x09, rng.choice([0x07, 0x05, 0x0B, 0x1B, 0x1F, 0x19, 0x01, 0x00, 0x18, 0x08, 0x09, rng.randrange(64)])
        if rng.random() < 0.3:
            yield 'w', 0x07, rng.choice([0x73, 0x01, 0x02, 0x20, 0x40, 0x04, rng.randrange(256)])
        for octet in queue:
            yield 'w', 0x43, octet
        yield rng.choice([('w', 0x43, 0xA1), ('w', 0x06, 0x01), ('w', 0x06, 0x05)])
        for _ in range(rng.randrange(12)):
            if rng.random() < 0.8:
                yield 't', rng.choice([1000, 1000, 1000, 999, 1, 500, 600, rng.randrange(1002)])
            else:
                yield 'w', rng.choice([0x03, 0x09]), rng.randrange(256)

    def hear(self):
        """A packet: often the GoodCRC that is awaited, a Soft_Reset, a wrong CRC, a wrong length."""
        rng = self.rng
        kind = rng.choice([0, 0, 1, 2, 3, 4, self.kind, 5])
        choice = rng.random()
        if choice < 0.35:
            header = 1 | (self.message_id if rng.random() < 0.7 else rng.randrange(8)) << 9
            header |= 0x10 * (rng.random() < 0.3) | 0x8000 * (rng.random() < 0.2) | 0x1000 * (rng.random() < 0.1)
            message = [header & 255, header >> 8]
        elif choice < 0.5:
            header = 0xD | rng.randrange(8) << 9
            message = [header & 255, header >> 8]
        else:
            message = [rng.randrange(256) for _ in range(rng.choice([2, 2, 6, 10, 30, 1, 31, 0]))]
        octets = with_crc(message)
        if rng.random() < 0.15:
            octets[rng.randrange(len(octets))] ^= 1 << rng.randrange(8)
        if rng.random() < 0.05:
            octets = octets[: rng.randrange(5)]
        if kind == self.kind and rng.random() < 0.5:
            yield 'w', 0x07, 0x73
        yield 'p', kind, octets

    def kinds_on(self):
        """07 with every kind on, with one of them off, or with none on; at times Rx empties."""
        return 'w', 0x07, self.rng.choice([0x00, 0x04 | EVERY_KIND] + [EVERY_KIND & ~bit for bit in KIND_ON])

    def unanswered(self):
        """A message that nobody answers while 03 changes, up to its Soft_Reset, and then GoodCRCs while 07 changes."""
        rng = self.rng
        self.kind = rng.randrange(5)
        retries = rng.choice([0, 0, 1, 2])
        yield 'w', 0x06, rng.choice([0x44, 0x64])
        yield 'w', 0x03, rng.choice([0x01, 0x02]) | rng.randrange(256) & 0xF4
        yield 'w', 0x09, rng.choice([0x08, 0x18]) | retries << 1 | (retries > 0)
        yield self.kinds_on()
        for octet in SETS[self.kind] + [0x82, self.octet(), self.octet(), 0xFF, 0x14, 0xFE, 0xA1]:
            yield 'w', 0x43, octet
        for _ in range(retries + 1):
            if rng.random() < 0.3:
                yield 'w', 0x03, rng.randrange(256)
            yield 't', 1000
        # The Soft_Reset's GoodCRC is awaited from here on.
        self.message_id = 0
        for _ in range(rng.randrange(1, 5)):
            if rng.random() < 0.3:
                yield 't', rng.choice([1000, 1000, 999, rng.randrange(1001)])
            if rng.random() < 0.4:
                yield self.kinds_on()
            yield 'r', 0x3E
            kind = rng.choice([self.kind] * 4 + [*range(5)])
            yield 'p', kind, with_crc([rng.choice([0x01, 0x41, 0x61]), rng.choice([0, 0, 0, rng.randrange(8)]) << 1])
            yield rng.choice([('r', 0x3E), ('r', 0x3E), ('w', 0x43, 0x12)])
        for _ in range(rng.randrange(3)):
            yield 't', 1000
        yield 'r', 0x3C

    def set_up(self):
        """CC1, CC2 or VBUS is measured, and nothing else."""
        rng = self.rng
        self.code = rng.choice([CODES[0], CODES[-1], rng.choice(CODES), rng.choice(CODES)])
        switches0, meas_vbus = rng.choice([(MEAS_CC1, 0), (MEAS_CC2, 0), (0, MEAS_VBUS)])
        yield 'w', 0x0B, rng.choice([PWR_MEASURE, 0x07, 0x0F])
        yield 'w', 0x02, switches0 | rng.choice([0x00, 0x03])
        yield 'w', 0x04, meas_vbus | self.code

    def measuring(self):
        """A write of one of the registers that say what is measured."""
        rng = self.rng
        address = rng.choice([0x02, 0x04, 0x0B])
        if address == 0x02:
            measured = rng.choice([0, MEAS_CC1, MEAS_CC1, MEAS_CC2, MEAS_CC2, MEAS_CC1 | MEAS_CC2])
            return 'w', address, measured | rng.choice([0x00, 0x03, rng.randrange(256) & 0xF3])
        if address == 0x0B:
            return 'w', address, rng.choice([PWR_MEASURE, PWR_MEASURE, 0x07, 0x0F, 0x00, 0x03, rng.randrange(256)])
        self.code = rng.choice([CODES[0], CODES[-1], rng.choice(CODES), rng.choice(CODES)])
        return 'w', address, self.code | rng.choice([0, 0, MEAS_VBUS, 0x80])

    def voltage(self, thresholds):
        """At a threshold, right below or right above it, or anywhere."""
        rng = self.rng
        anywhere = [0, VOLTAGE_MOST, rng.randrange(VOLTAGE_MOST + 1), rng.randrange(3000)]
        return rng.choice(thresholds) + rng.choice([-1, 0, 1]) if rng.random() < 0.7 else rng.choice(anywhere)

    def pins(self):
        cc = [*BC_LVL_STEPS, cc_reference(self.code)]
        return 'v', self.voltage(cc), self.voltage(cc), self.voltage([VBUSOK_AT, vbus_reference(self.code)])

    def touched(self):
        """An event that may change what the comparators say, or that must not."""
        rng = self.rng
        choice = rng.random()
        if choice < 0.55:
            return self.pins()
        if choice < 0.85:
            return self.measuring()
        if choice < 0.93:
            return 'w', 0x0C, rng.choice([0x01, 0x02, 0x03])
        return rng.choice([('w', 0x43, 0x00), ('w', 0x40, 0xFF), ('w', 0x11, 0xFF), ('w', 0x06, 0x41), ('t', 1000), ('h',)])

    def measured(self):
        """A pin is measured while the pins and what is measured change."""
        rng = self.rng
        if rng.random() < 0.8:
            yield from self.set_up()
        for _ in range(rng.randrange(1, 6)):
            yield self.touched()
            for address in rng.choice([[0x40], [0x42], [0x40, 0x42], []]):
                yield 'r', address

    def some(self):
        rng = self.rng
        if rng.random() < 0.25:
            yield from self.measured()
            return
        choice = rng.random()
        if choice < 0.15:
            yield from self.send()
        elif choice < 0.25:
            yield from self.unanswered()
        elif choice < 0.45:
            yield from self.hear()
        elif choice < 0.55:
            yield 'r', rng.choice([0x3C, 0x3D, 0x3E, 0x3F, 0x40, 0x41, 0x42, 0x43, 0x43, 0x01, rng.randrange(0x45), rng.randrange(256)])
        elif choice < 0.62:
            yield 't', rng.choice([1000, 1000, 999, 1001, rng.randrange(1200)])
        elif choice < 0.64:
            yield ('h',)
        elif choice < 0.75:
            value = rng.choice([0x41, 0x40, 0x01, 0x7F, 0x03, 0x02, 0x46, 0x04, 0x00, rng.randrange(256)])
            yield 'w', rng.choice([0x06, 0x07, 0x09, 0x0C]), value
        elif choice < 0.80:
            yield 'w', rng.choice([0x0A, 0x0E, 0x0F, 0x06, rng.randrange(0x12)]), rng.randrange(256)
        elif choice < 0.83:
            yield 'w', rng.randrange(256), rng.randrange(256)
        elif choice < 0.90:
            for _ in range(rng.choice([1, 3, 20, 49])):
                yield 'w', 0x43, rng.choice(TOKENS + [rng.randrange(256)])
        else:
            for _ in range(rng.choice([1, 5, 40, 81])):
                yield 'r', 0x43

    def history(self, length):
        events = []
        while len(events) < length:
            events.extend(self.some())
        return events[:length]


def as_line(event):
    """An event as a line of the bench's input."""
    if event[0] == 'w':
        return 'w %02X %02X' % event[1:]
    if event[0] == 'r':
        return 'r %02X' % event[1]
    if event[0] == 't':
        return 't %d' % event[1]
    if event[0] == 'h':
        return 'h'
    if event[0] == 'v':
        return 'v %d %d %d' % event[1:]
    return ' '.join(['p', str(event[1])] + ['%02X' % octet for octet in event[2]])
