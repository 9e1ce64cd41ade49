"""Texts for the bench's standard input, seeded: long ones in form, and short ones with damages.

A text in form is kept as its setup writes and its events, two lists of lines, until `joined` puts the counts before them.
"""
import os
import random
import re
import zlib

from directed import directed
from histories import EVERY_KIND, SETS, TOKENS, Histories, as_line

PORT = ['w 43 %02X' % octet for octet in range(256)]
STATUSES = ['r %02X' % address for address in range(0x3C, 0x43)]
DRIVER_ON = [0x21, 0x22, 0x25, 0x26, 0x65, 0x91, 0xB5, 0xD2, 0xF6]
LENGTHS = [2, 2, 2, 6, 10, 14, 30]
RX_CAPACITY, TX_CAPACITY = 80, 48


def packet(kind, message):
    octets = message + zlib.crc32(message).to_bytes(4, 'little')
    return 'p %d %s' % (kind, octets.hex(' ').upper())


class Term(Histories):
    """A term at the bench: the mix of Histories, and between it what that seldom brings about. Its parts are lists of lines."""

    def message(self):
        """A message of any octets, from an empty queue to its start, with the driver on."""
        rng = self.rng
        self.kind = rng.randrange(5)
        octets = rng.randbytes(rng.choice([*LENGTHS, rng.randrange(2, 31)]))
        self.message_id = octets[1] >> 1 & 7
        lines = [rng.choice(['w 06 44', 'w 06 64']), 'w 03 %02X' % rng.choice(DRIVER_ON)]
        lines.append('w 09 %02X' % rng.randrange(32))
        lines += [PORT[token] for token in SETS[self.kind]]
        lines.append(PORT[0x80 + len(octets)])
        lines += [PORT[octet] for octet in octets]
        lines += ['w 43 FF', 'w 43 14', 'w 43 FE', rng.choice(['w 43 A1', 'w 06 05', 'w 06 25'])]
        return lines

    def acknowledged(self):
        """A message and its GoodCRC, before or after some waits."""
        rng = self.rng
        lines = ['w 07 73'] + self.message()
        lines += ['t %d' % rng.choice([1000, 1000, 999, 300, 1]) for _ in range(rng.choice([0, 0, 1, 2, 5]))]
        lines.append(packet(self.kind, bytes([1, self.message_id << 1])))
        if rng.random() < 0.3:
            lines.append(packet(rng.choice([0, self.kind]), b'\x41\0'))
        return lines + rng.sample(STATUSES, 3)

    def worn_out(self):
        """A message that nobody answers: retries and automatic resets to the end, with 03 and 09 changed between."""
        rng = self.rng
        lines = self.message()
        for _ in range(rng.choice([2, 5, 9])):
            lines += ['t %d' % n for n in rng.choice([(1000,), (1000,), (999, 1), (600, 600), (999, 1000)])]
            lines.append(rng.choice(['r 3C', 'r 3E', 'r 41', 'w 03 %02X' % rng.randrange(256), 'w 09 %02X' % rng.randrange(32)]))
        return lines

    def heard(self):
        """Packets of every kind, some of them off."""
        rng = self.rng
        lines = ['w 03 %02X' % rng.choice(DRIVER_ON), 'w 07 %02X' % rng.choice([0x77, 0x67, 0x63, rng.randrange(256)])]
        for _ in range(rng.randrange(1, 4)):
            lines.append(packet(rng.randrange(5), rng.randbytes(rng.choice(LENGTHS))))
        lines += ['r 43'] * rng.choice([0, 3, 7, 14])
        return lines + rng.sample(STATUSES, 2)

    def filled_rx(self):
        """Rx filled to the last octet, to one less, or with one too many."""
        rng = self.rng
        lines, held = ['w 07 77'], 0
        end = rng.choice([RX_CAPACITY - 1, RX_CAPACITY, RX_CAPACITY, RX_CAPACITY + 1])
        while held < end:
            left = end - held
            # A packet takes 7 to 35 octets of Rx, so what is left after it is nothing or enough for another.
            taken = left if left <= 35 and rng.random() < 0.8 or left < 14 else rng.randrange(7, min(35, left - 7) + 1)
            lines.append(packet(rng.choice([0, 0, 1, 2, 3, 4]), rng.randbytes(taken - 5)))
            held += taken
        return lines + ['r 41', 'r 40', 'r 42'] + ['r 43'] * rng.choice([0, 1, 35, 79, 81]) + rng.sample(STATUSES, 2)

    def filled_tx(self):
        """The queue filled to the last octet and about it."""
        rng = self.rng
        lines = ['w 06 44']
        lines += [PORT[rng.choice(TOKENS)] for _ in range(rng.randrange(TX_CAPACITY - 2, TX_CAPACITY + 2))]
        return lines + ['r 41', 'r 40', 'w 43 A1', 'w 06 01', 'r 42']

    def masks(self):
        rng = self.rng
        lines = ['w %s %02X' % (address, rng.choice([0x00, 0xFF, rng.randrange(256)])) for address in ('0A', '0E', '0F')]
        return lines + [rng.choice(['w 06 04', 'w 06 04', 'w 06 24'])] + rng.sample(STATUSES, 2)

    def registers(self):
        """Some of 02 to 10 written with any value, and read; at times all of them after SW_RES."""
        rng = self.rng
        lines = []
        if rng.random() < 0.2:
            lines = [rng.choice(['w 0C 01', 'w 0C 03'])] + ['r %02X' % address for address in range(0x01, 0x11)]
        for address in rng.sample(range(0x02, 0x11), 4):
            lines += ['w %02X %02X' % (address, rng.randrange(256)), 'r %02X' % address]
        return lines

    def pins_measured(self):
        """What the comparators say, and their interrupts, before and after each of some events."""
        lines = [as_line(event) for event in self.set_up()] * (self.rng.random() < 0.8) + ['r 40']
        for _ in range(self.rng.choice([2, 4, 8])):
            lines += ['r 42', as_line(self.touched()), 'r 42', 'r 40']
        return lines

    def soft_reset_awaited(self):
        """A message that nobody answers, its Soft_Reset, and GoodCRCs for that and for others."""
        return [as_line(event) for event in self.unanswered()]

    def any_part(self):
        return [as_line(event) for event in self.some()]

    def parts(self):
        """What a text is made of; what stands here more often comes more often."""
        parts = [self.any_part] * 8 + [self.acknowledged] * 6 + [self.worn_out] * 4 + [self.heard] * 4
        parts += [self.soft_reset_awaited] * 3 + [self.pins_measured] * 3 + [self.masks] * 2
        return parts + [self.registers, self.filled_rx, self.filled_tx]

    def lines(self, count):
        parts, lines = self.parts(), []
        while len(lines) < count:
            lines += self.rng.choice(parts)()
        return lines[:count]


class Listening(Term):
    """Packets above all, while what decides about their replies changes, and Rx fills and empties."""

    def switched(self):
        """03, 06 or 07 written: each of their bits with any of the others, and often so that nothing stands against a reply."""
        rng = self.rng
        return rng.choice(['w 03 %02X' % rng.choice([0x25, 0x26, rng.randrange(256)]), 'w 06 %02X' % rng.choice([0x04, 0x06, 0x24, 0x26]),
                           'w 07 %02X' % rng.choice([EVERY_KIND, rng.randrange(256)])])

    def listened(self):
        rng = self.rng
        lines = [self.switched() for _ in range(rng.randrange(4))]
        for _ in range(rng.randrange(1, 5)):
            lines += [as_line(event) for event in self.hear()]
        if rng.random() < 0.2:
            # Almost a GoodCRC: octets behind it, or a kind that is too large and ends in the octets of SOP.
            lines.append(packet(rng.choice([0, 256, 65536]), b'\x41\x0A' + bytes(rng.randrange(3))))
        return lines + ['r 43'] * rng.choice([0, 0, 0, 1, 7, 35])

    def parts(self):
        return [self.listened] * 8 + [self.any_part, self.acknowledged, self.filled_rx]


def in_form(seed, count, mix=Term):
    """Setup writes and that many events."""
    rng = random.Random(seed)
    term = mix(rng)
    setup = [line[2:] for line in term.lines(rng.choice([0, 3, 60])) if line[0] == 'w']
    return setup, term.lines(count)


def joined(setup, events, end='\n'):
    return '\n'.join([str(len(setup)), *setup, str(len(events)), *events]).encode() + end.encode()


def directed_lines():
    """The events of the histories made for one rule each, by name."""
    return {name: [as_line(event) for event in events] for name, events in directed().items()}


# Damages: each takes the source of chances and a text, and gives the text back damaged.

ODD = b' \n\r\0\t-+=.0179AFGafgwrthpvWRTHPVx\x1a\x7f\x80\xa0\xc3\xff'


def put(text, at, octets, instead=0):
    return text[:at] + octets + text[at + instead:]


def octet_changed(rng, text):
    return put(text, rng.randrange(len(text) + 1), bytes([rng.choice([rng.choice(ODD), rng.randrange(256)])]), 1)


def octet_removed(rng, text):
    return put(text, rng.randrange(len(text) + 1), b'', 1)


def octet_doubled(rng, text):
    at = rng.randrange(len(text) + 1)
    return put(text, at, text[at:at + 1])


def octet_added(rng, text):
    return put(text, rng.randrange(len(text) + 1), bytes([rng.choice([0x00, 0x20, 0x0A, 0x0D, rng.randrange(0x80, 0x100)])]))


def digit_added(rng, text):
    return put(text, rng.randrange(len(text) + 1), bytes([rng.choice(b'0123456789ABCDEFabcdef')]))


def at_a_line_end(octets, instead=0):
    def damage(rng, text):
        ends = [at for at, octet in enumerate(text) if octet == 0x0A] or [len(text)]
        return put(text, rng.choice(ends), octets, instead)
    return damage


def every_line_ends_in_cr_lf(_, text):
    return text.replace(b'\n', b'\r\n')


def space_doubled(rng, text):
    spaces = [at for at, octet in enumerate(text) if octet == 0x20] or [0]
    return put(text, rng.choice(spaces), b' ')


def on_lines(change):
    """A damage of the list of lines; `change` gets a place in it."""
    def damage(rng, text):
        lines = text.split(b'\n')
        change(rng, lines, rng.randrange(len(lines)))
        return b'\n'.join(lines)
    return damage


@on_lines
def line_removed(_, lines, at):
    del lines[at]


@on_lines
def line_doubled(_, lines, at):
    lines.insert(at, lines[at])


@on_lines
def lines_swapped(rng, lines, at):
    other = rng.randrange(len(lines))
    lines[at], lines[other] = lines[other], lines[at]


@on_lines
def line_lowered(_, lines, at):
    lines[at] = lines[at].swapcase()


@on_lines
def line_stretched(rng, lines, at):
    """A line of 254 to 258 characters: a packet in form but for its length, or what was there and more."""
    length = rng.randrange(254, 259)
    if rng.random() < 0.7:
        digits = rng.choice([n for n in range(1, 8) if (length - 2 - n) % 3 == 0])
        lines[at] = b'p ' + b'%d' % rng.choice([0, 4, 5]) * digits + b' A1' * ((length - 2 - digits) // 3)
    else:
        lines[at] = lines[at].ljust(length, rng.choice([b' ', b'0', b'\0', b'\xff']))


@on_lines
def voltages_wrong(rng, lines, at):
    """A line of voltages, one that is there if any, with a number that is too large or too long, or otherwise out of form."""
    at = rng.choice([n for n, line in enumerate(lines) if line[:1] == b'v'] or [at])
    numbers = lines[at].split()[1:] if re.fullmatch(rb'v( \d+){3}', lines[at]) else [b'0', b'1230', b'5000']
    which = rng.randrange(3)
    if rng.random() < 0.6:
        numbers[which] = rng.choice([b'65535', b'65536', b'65536', b'99999', b'131072', b'9999999', b'0065535', b'0065536', b'00065535',
                                     b'65536000', b'', b'-1', b'1.5', b'FF'])
    line = b' '.join([b'v', *numbers])
    if rng.random() < 0.4:
        line = rng.choice([line.upper(), line + b' ', line + b' 0', line.rpartition(b' ')[0], line.replace(b' ', b'', 1),
                           line.replace(b' ', b'  ', 1), b' '.join([b'v', *numbers[:which], b'', *numbers[which:]])])
    lines[at] = line


@on_lines
def count_wrong(rng, lines, at):
    counts = [n for n, line in enumerate(lines) if line.isdigit()] or [at]
    line = rng.choice(counts)
    count = int(lines[line]) if lines[line].isdigit() else 0
    lines[line] = rng.choice([b'%d' % (count + 1), b'%d' % max(count - 1, 0), b'0', b'9999999', b'10000000', b'', b'-1',
                              b'%07d' % count, b'%08d' % count, b'%d0' % count])


def cut(rng, text):
    return text[:rng.randrange(len(text) + 1)]


DAMAGES = [
    octet_changed, octet_removed, octet_doubled, octet_added, digit_added, space_doubled, line_removed, line_doubled,
    lines_swapped, line_lowered, line_stretched, voltages_wrong, voltages_wrong, count_wrong, cut, every_line_ends_in_cr_lf,
    at_a_line_end(b'', 1), at_a_line_end(b'\r'), at_a_line_end(b' '), at_a_line_end(b'\0'), at_a_line_end(b'\n'),
]


def damaged(seed):
    """A short text with one to three damages."""
    rng = random.Random(seed)
    setup, events = in_form(rng.random(), rng.randrange(1, 25))
    text = joined(setup[:rng.randrange(6)], events)
    for _ in range(rng.choice([1, 1, 2, 3])):
        text = rng.choice(DAMAGES)(rng, text)
    return text


def examples():
    """The example texts, by name."""
    folder = os.path.join(os.path.dirname(os.path.dirname(os.path.abspath(__file__))), 'examples')
    named = {}
    for file in sorted(os.listdir(folder)):
        if file.endswith('.txt'):
            with open(os.path.join(folder, file), 'rb') as text:
                named['examples/' + file] = text.read()
    return named


def extremes():
    """Texts out of all measure, by name."""
    megabyte = 1 << 20
    return {
        'nothing at all': b'',
        'a megabyte of digits': b'0' * megabyte,
        'a megabyte of octets in one packet': b'0\n2\nh\np 0' + b' A1' * (megabyte // 3) + b'\nh\n',
        'a megabyte of NUL': b'0\n1\n' + bytes(megabyte),
        'a megabyte after the last event': b'0\n1\nh\n' + b'x' * megabyte,
        'a megabyte of empty lines': b'\n' * megabyte,
    }
