"""Records for the standard input of frames, seeded: the symbols of whole frames, with damages of the symbols and of the text."""
import random
import zlib

from texts import (at_a_line_end, cut, digit_added, every_line_ends_in_cr_lf, octet_added, octet_changed, octet_doubled,
                   octet_removed, put, space_doubled)

SETS = [bytes.fromhex(code) for code in ('18181811', '18180606', '18061806', '18191906', '18190611', '07070719')]
HARD_RESET = 5
NIBBLES = bytes.fromhex('1E0914150A0B0E0F121316171A1B1C1D')
EOP = 0x0D
CODES = [0x18, 0x11, 0x06, 0x07, 0x19, EOP]


def with_crc(message):
    return message + zlib.crc32(message).to_bytes(4, 'little')


def nibbles(octets):
    return [NIBBLES[nibble] for octet in octets for nibble in (octet & 15, octet >> 4)]


def frame(rng):
    """A frame: its kind, its octets with CRC and its symbols."""
    kind = rng.randrange(6)
    octets = b'' if kind == HARD_RESET else with_crc(rng.randbytes(rng.choice([2, 2, 3, 6, 10, 29, 30, rng.randrange(2, 31)])))
    return kind, octets, [*SETS[kind], *nibbles(octets), *[EOP] * (kind != HARD_RESET)]


def as_text(symbols):
    return bytes(symbols).hex(' ').upper().encode()


# Damages of the symbols: each takes the source of chances and a list of symbols, and changes the list.

def any_symbol(rng):
    return rng.choice([rng.choice(CODES), rng.choice(NIBBLES), rng.randrange(32), rng.randrange(256)])


def symbol_changed(rng, symbols):
    symbols[rng.randrange(len(symbols))] = any_symbol(rng)


def spoil(rng, symbols, at, count):
    """So many symbols of the set at a place."""
    for place in rng.sample(range(4), count):
        symbols[at + place] = any_symbol(rng)


def set_spoilt(rng, symbols):
    places = [at for at in range(len(symbols)) if bytes(symbols[at:at + 4]) in SETS]
    if places:
        spoil(rng, symbols, rng.choice(places), rng.randrange(1, 3))


def symbol_removed(rng, symbols):
    del symbols[rng.randrange(len(symbols))]


def symbol_added(rng, symbols):
    symbols.insert(rng.randrange(len(symbols) + 1), any_symbol(rng))


def symbol_doubled(rng, symbols):
    at = rng.randrange(len(symbols))
    symbols.insert(at, symbols[at])


def nibble_changed(rng, symbols):
    """What fits the frame and not its CRC."""
    places = [at for at, symbol in enumerate(symbols) if symbol in NIBBLES]
    if places:
        symbols[rng.choice(places)] = rng.choice(NIBBLES)


def record_cut(rng, symbols):
    del symbols[rng.randrange(len(symbols)):]


def beginning_cut(rng, symbols):
    del symbols[:rng.randrange(1, 6)]


def wrong_length(rng, symbols):
    """A frame with too few or too many octets, or half of one more, its CRC right."""
    octets = nibbles(with_crc(rng.randbytes(rng.choice([0, 1, 2, 29, 30, 31, 32]))))
    symbols += [*SETS[rng.randrange(5)], *octets, *rng.choices(NIBBLES, k=rng.randrange(2)), EOP]


SYMBOL_DAMAGES = [
    symbol_changed, symbol_removed, symbol_added, symbol_doubled, nibble_changed, nibble_changed, record_cut, record_cut,
    beginning_cut, wrong_length, set_spoilt,
]


# Damages of the text, besides those that texts.py has.

def separators(text):
    return [at for at, octet in enumerate(text) if octet in b' \n'] or [0]


def separator(*others):
    def damage(rng, text):
        return put(text, rng.choice(separators(text)), rng.choice(others), 1)
    return damage


def small_letter(rng, text):
    letters = [at for at, octet in enumerate(text) if octet in b'ABCDEF'] or [0]
    at = rng.choice(letters)
    return put(text, at, text[at:at + 1].lower(), 1)


def all_small(_, text):
    return text.lower()


def end(*ends):
    def damage(rng, text):
        return text.rstrip(b'\n') + rng.choice(ends)
    return damage


def beginning(*beginnings):
    def damage(rng, text):
        return rng.choice(beginnings) + text
    return damage


TEXT_DAMAGES = [
    octet_changed, octet_removed, octet_doubled, octet_added, digit_added, cut, space_doubled, every_line_ends_in_cr_lf, small_letter,
    all_small, at_a_line_end(b'\n'), at_a_line_end(b' '), at_a_line_end(b'', 1),
    separator(b''), separator(b'  ', b'\n\n', b' \n', b'\n '), separator(b',', b'\t', b'\r', b'\0', b'-', b'\x1a', b'\xa0', b'\xc3\xa1'),
    end(b' ', b'\n\n', b'\r\n', b'\n ', b' \n', b'\0', b'\x1a'), end(b' 1', b' 1\n', b'1', b' D', b'\n0'),
    beginning(b' ', b'\n', b'\r\n', b'\0', b'\xef\xbb\xbf'),
]


def record(seed):
    """Up to eight frames as a text, most of them damaged in their symbols, in the text, or in both."""
    rng = random.Random(seed)
    symbols = [symbol for _ in range(rng.randrange(9) or rng.randrange(9)) for symbol in frame(rng)[2]]
    on_symbols, on_text = rng.choice([(0, 0), (1, 0), (1, 0), (1, 0), (2, 0), (0, 1), (0, 1), (0, 2), (1, 1)])
    for _ in range(on_symbols):
        if symbols:
            rng.choice(SYMBOL_DAMAGES)(rng, symbols)
    text = as_text(symbols)
    lines = rng.randrange(4)
    if lines == 1:
        text = text.replace(b'0D ', b'0D\n')
    elif lines == 2:
        text = text.replace(b' ', b'\n')
    elif lines == 3:
        text = b''.join(rng.choice([b' ', b'\n']) if octet == 0x20 else bytes([octet]) for octet in text)
    if symbols and rng.random() < 0.6:
        text += b'\n'
    for _ in range(on_text):
        text = rng.choice(TEXT_DAMAGES)(rng, text)
    return text


def spoilt_sets(seed):
    """The symbols of up to eight whole frames, in whose sets up to two symbols are replaced by chance, mostly one."""
    rng = random.Random(seed)
    symbols = []
    for _ in range(rng.randrange(1, 9)):
        at = len(symbols)
        symbols += frame(rng)[2]
        spoil(rng, symbols, at, rng.choice([0, 1, 1, 1, 1, 2]))
    return symbols


def kinds_near(four):
    """The kinds whose sets agree with the four symbols in three places."""
    return [kind for kind, code in enumerate(SETS) if sum(one == other for one, other in zip(code, four)) == 3]


def long_record(seed, length):
    """A text of whole frames, of that many octets or a little more, and what frames prints of it."""
    rng = random.Random(seed)
    few = [frame(rng) for _ in range(997)]
    texts = [as_text(symbols) + b'\n' for _, _, symbols in few]
    rests = [' %d %s\n' % (kind, octets.hex(' ').upper() or '-') for kind, octets, _ in few]
    starts, place = [], 0
    for _, _, symbols in few:
        starts.append(place)
        place += len(symbols)
    again = -(-length // (3 * place))
    lines = [str(turn * place + start) + rest for turn in range(again) for start, rest in zip(starts, rests)]
    return b''.join(texts) * again, ''.join(lines).encode()
