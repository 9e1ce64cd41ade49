"""What a text in form brings about with the automatic Soft_Reset (02, A2), told from its lines and the answers to them alone.

A Soft_Reset is told by its frame in the answer to a time event. That a GoodCRC ended it is told where 3E is read right before and
right after that packet. That one did not is told by what the open request does later: it sends the Soft_Reset again or the Hard
Reset, or 6 is given. Which kinds are on, and what 03 holds, is told from what was last written. Only messages with a MessageID
other than 0 are looked at, since otherwise a GoodCRC for the message and one for the Soft_Reset are the same.
"""
from itertools import product

from histories import KIND_ON
from records import EOP, HARD_RESET, NIBBLES, SETS, as_text, nibbles, with_crc

KINDS = range(5)
AT_RESET = {'03': 0x20, '07': 0x00}
SOFTFAIL, I_TXSENT = 0x20, 0x04

ENDED, UNENDED = 'a Soft_Reset on kind %d was ended by its GoodCRC', 'a Soft_Reset on kind %d was not ended by '
TURNED_ON, TURNED_OFF = ENDED + ', the kind off when it left', UNENDED + 'its GoodCRC, the kind turned off since it left'
BY_KIND, BY_ID, BY_OFF = UNENDED + 'a GoodCRC on kind %d', UNENDED + 'another MessageID', UNENDED + 'its GoodCRC, the kind off'
LEFT, AGAIN = 'a Soft_Reset left on kind %d, revision %d', 'a Soft_Reset was sent again on kind %d'
LATCHED = 'a Soft_Reset left on kind %d by 03 as it was at the start'
ON_SOP = 'a Soft_Reset left on kind 0, power role %d, data role %d'
WITHOUT = 'a Soft_Reset left on kind %d without the %s role of 03'
RAN_OUT, HARD = 'SOFTFAIL after a Soft_Reset on kind %d', 'a Hard Reset left after a Soft_Reset on kind %d'


def due():
    """Everything that the long texts have to bring about, in words."""
    rules = {rule % kind for rule in (ENDED, BY_ID, AGAIN, LATCHED, RAN_OUT, HARD) for kind in KINDS}
    rules |= {rule % kind for rule in (TURNED_ON, TURNED_OFF, BY_OFF) for kind in KINDS[1:]}
    rules |= {BY_KIND % pair for pair in product(KINDS, KINDS) if pair[0] != pair[1]}
    rules |= {LEFT % pair for pair in product(KINDS, range(4))} | {ON_SOP % roles for roles in product(range(2), range(2))}
    return rules | {WITHOUT % pair for pair in product(KINDS[1:], ('power', 'data'))}


def soft_reset(kind, revision, power, data):
    header = 0x0D | data << 5 | revision << 6 | power << 8
    return as_text([*SETS[kind], *nibbles(with_crc(header.to_bytes(2, 'little'))), EOP]).decode()


# What each Soft_Reset's symbols say: kind, revision, power role and data role.
SOFT_RESETS = {soft_reset(*said): said for said in product(KINDS, range(4), range(2), range(2))}
HARD_RESET_SET = as_text(SETS[HARD_RESET]).decode()
# The seventh symbol of a frame whose MessageID is 0.
MESSAGE_ID_0 = as_text(NIBBLES[:2]).decode().split()


def follows(symbols, message):
    """Whether this is a Soft_Reset on the kind of the message, which has another MessageID than 0."""
    return symbols in SOFT_RESETS and symbols[:11] == message[:11] and message[18:20] not in MESSAGE_ID_0


def is_on(kind, registers):
    return kind == 0 or registers['07'] & KIND_ON[kind] != 0


def by_03(kind, switches1):
    """What a Soft_Reset says that goes by this value of 03."""
    return kind, switches1 >> 5 & 3, *((switches1 >> 7, switches1 >> 4 & 1) if kind == 0 else (0, 0))


def left(said, latched, switches1):
    """What a Soft_Reset shows that leaves, with 03 as it was at the start and as it stands."""
    kind, revision, power, data = said
    yield LEFT % (kind, revision)
    if said == by_03(kind, latched) != by_03(kind, switches1):
        yield LATCHED % kind
    if kind == 0:
        yield ON_SOP % (power, data)
    for name, bit, sent in (('power', 0x80, power), ('data', 0x10, data)):
        if kind and latched & bit and not sent:
            yield WITHOUT % (kind, name)


def good_crc(event):
    """Kind and MessageID of a GoodCRC with a right CRC."""
    _, kind, *octets = event.split()
    packet = bytes.fromhex(''.join(octets))
    if len(packet) == 6 and packet == with_crc(packet[:2]) and packet[0] & 15 == 1 and not packet[1] >> 4 & 7:
        return int(kind), packet[1] >> 1 & 7
    return None


def unended(kind, on_when_it_left, heard, on):
    """Which rules a GoodCRC may show that is not to end a Soft_Reset on this kind."""
    if heard == (kind, 0):
        return [BY_OFF % kind] + [TURNED_OFF % kind] * on_when_it_left
    if heard[0] == kind:
        return [BY_ID % kind] * on
    return [BY_KIND % (kind, heard[0])] * (on and heard[1] == 0)


def with_soft_resets(setup, events, lines):
    """Rules that the answers to a text in form show, as often as they do; all of them are in `due`."""
    registers, message, latched = dict(AT_RESET), '', 0
    frame, kind, on_when_it_left, waiting = None, None, False, []
    events = ['w ' + line for line in setup] + events
    for at, (event, line) in enumerate(zip(events, lines)):
        reply, _, symbols = line.split(' ', 2)
        if event[0] == 'w' and event[2:4] in registers:
            registers[event[2:4]] = int(event[5:], 16)
        elif event[:4] == 'w 0C' and int(event[5:], 16) & 1:
            registers = dict(AT_RESET)
        elif event[0] == 'w' and symbols != '-':
            message, latched, frame = symbols, registers['03'], None
        elif event[0] == 't' and symbols != frame and follows(symbols, message):
            kind, frame, waiting = SOFT_RESETS[symbols][0], symbols, []
            on_when_it_left = is_on(kind, registers)
            yield from left(SOFT_RESETS[symbols], latched, registers['03'])
        elif frame and (reply == 'no6' or event[0] == 't' and symbols in (frame, HARD_RESET_SET)):
            yield from waiting
            waiting = []
            if reply == 'ok':
                yield (AGAIN if symbols == frame else HARD) % kind
        elif frame and event == 'r 3C' and int(reply[1:], 16) & SOFTFAIL:
            yield RAN_OUT % kind
            frame = None
        elif frame and event[0] == 'p' and reply == 'ok' and (heard := good_crc(event)):
            on = is_on(heard[0], registers)
            if heard != (kind, 0) or not on:
                waiting += unended(kind, on_when_it_left, heard, on)
            elif events[at - 1:at + 2:2] == ['r 3E'] * 2 and int(lines[at + 1][1:3], 16) & I_TXSENT:
                yield from [ENDED % kind] + [TURNED_ON % kind] * (not on_when_it_left)
