#!/usr/bin/env python3
"""The program frames against the peer, an independent program, and against records worked out by hand.

    tests/frames_against_peer.py BENCH FRAMES PEER [SEED]

What a long run of the bench sends, through the shell line of README.md, against the frames that the peer's device says it sent;
3,000 records of frames, most of them damaged; 1,000 in whose sets up to two symbols are replaced; every four of seven symbols in
the place of a set; the edges by name, and the record that README.md shows; each of the 256 octets in a nibble's place; 30 MB of
frames in little memory; input that comes slowly, in pieces or not at all, and output that is closed or full. A record on which the
two differ is kept under target/tests/.
"""
import os
import platform
import re
import shutil
import subprocess
import sys
import time
from collections import Counter
from concurrent.futures import ThreadPoolExecutor
from itertools import product

from bench_against_peer import KEPT, NO_END, SECONDS, answers, awaited, first_difference, in_pieces, kept, left_open, output_endings
from records import CODES, EOP, HARD_RESET, NIBBLES, SETS, as_text, kinds_near, long_record, nibbles, record, spoilt_sets, with_crc
from texts import in_form, joined

ROOT = os.path.dirname(os.path.dirname(os.path.abspath(__file__)))
EVENTS, FEWEST_FRAMES = 250_000, 10_000
KINDS = set(range(HARD_RESET + 1))
RECORDS, FEWEST_OF_EACH = 3_000, 50
SPOILT, FEWEST_NEAR = 1_000, 30
EXAMPLES = 2
# Too little for the symbols of the long record, even at an octet each.
LONG, KILOBYTES = 30_000_000, 8_192
EMULATED = platform.machine() != 'x86_64'
PATIENCE = 5 if EMULATED else 1

SET = '18 18 18 11'
RESET = '07 07 07 19'
# The GoodCRC 41 00, CRC BB 6C BB A8, and a message with an accented letter, C3 A1.
GOOD_CRC = '09 0A 1E 1E 17 17 1A 0E 17 17 12 16 0D'
GOOD_CRC_OCTETS = '41 00 BB 6C BB A8'
NAME = '18 18 06 06 1D 0A 1E 09 1A 0E 15 1A 09 16 09 14 1A 1A 15 0F 1E 0A 0E 15 0D'
NAME_OCTETS = '4F 10 6C C3 A1 21 CC 73 40 36'
# 30 octets of 0 have the CRC 00043EB5.
LONGEST = SET + ' 1E' * 60 + ' 0B 17 1C 15 0A 1E 1E 1E 0D'

# Input and output by name.
EDGES = {
    'nothing': ('', ''),
    'a line end alone': ('\n', 'bad octet 1\n'),
    'two line ends alone': ('\n\n', 'bad octet 1\n'),
    'a space alone': (' ', 'bad octet 1\n'),
    'half a symbol': ('1', 'bad octet 1\n'),
    'half a symbol and a line end': ('1\n', 'bad octet 1\n'),
    'half a symbol at the end': ('18 1', 'bad octet 2\n'),
    'half a symbol at the end, and a line end': ('18 18 1\n', 'bad octet 3\n'),
    'half a symbol in the middle': ('18 1 18', 'bad octet 2\n'),
    'a comma between two': ('18,18', 'bad octet 2\n'),
    'a tab between two': ('18\t18', 'bad octet 2\n'),
    'nothing between two': ('1818', 'bad octet 2\n'),
    'three digits': ('181', 'bad octet 2\n'),
    'two spaces between two': ('18  18', 'bad octet 2\n'),
    'two line ends between two': ('18\n\n18', 'bad octet 2\n'),
    'a space and a line end between two': ('18 \n18', 'bad octet 2\n'),
    'a line end and a space between two': ('18\n 18', 'bad octet 2\n'),
    'CR between two': ('18\r18', 'bad octet 2\n'),
    'CR and LF between two': ('18\r\n18', 'bad octet 2\n'),
    'CR and LF at the end': (RESET + '\r\n', '0 5 -\nbad octet 5\n'),
    'a space at the end': ('18 18 ', 'bad octet 3\n'),
    'a space and a line end at the end': ('18 18 \n', 'bad octet 3\n'),
    'a line end and a space at the end': ('18 18\n ', 'bad octet 3\n'),
    'two line ends at the end': ('18 18\n\n', 'bad octet 3\n'),
    'a space at the beginning': (' 18', 'bad octet 1\n'),
    'a line end at the beginning': ('\n18', 'bad octet 1\n'),
    'NUL behind a symbol': ('18\0', 'bad octet 2\n'),
    'an accented letter in the text': ('18 \xc3\xa1', 'bad octet 2\n'),
    'a letter beyond F': ('1G', 'bad octet 1\n'),
    'a small letter': (SET + ' 1d', 'bad octet 5\n'),
    'a sign': ('+8', 'bad octet 1\n'),
    'one symbol': ('18', 'no14 1\n'),
    'one symbol and a line end': ('18\n', 'no14 1\n'),
    'a symbol that no set has': ('00', 'no14 1\n'),
    'a symbol above 31': ('20', 'no14 1\n'),
    'the highest octet': ('FF', 'no14 1\n'),
    'EOP alone': ('0D', 'no14 1\n'),
    'two symbols': ('18 18', 'no14 2\n'),
    'two symbols above 31': ('A1 C3', 'no14 2\n'),
    'three symbols': ('18 18 11', 'no14 3\n'),
    'three symbols above 31': ('FF FF FF\n', 'no14 3\n'),
    'three symbols, out of form behind them': ('18 18 11x', 'bad octet 4\n'),
    'three symbols, and a space at the end': ('18 18 11 ', 'bad octet 4\n'),
    'three symbols, one of them out of form': ('18 1x 11', 'bad octet 2\n'),
    "near SOP, SOP' and SOP''_Debug": ('18 18 06 11', 'no13 0\n'),
    "near SOP', SOP'_Debug and SOP''_Debug": ('18 19 06 06', 'no13 0\n'),
    "near SOP, SOP' and SOP'': a message behind it": ('18 18 18 06 ' + GOOD_CRC, 'no13 0\n'),
    'near no set': ('18 07 07 18', 'no13 0\n'),
    'near no set, out of form behind it': ('18 07 07 18x', 'no13 0\n'),
    'near no set, and a space at the end': ('18 07 07 18 ', 'no13 0\n'),
    'four symbols above 31': ('FF FF FF FF', 'no13 0\n'),
    'a Cable Reset': ('07 18 07 06', 'no13 0\n'),
    'a Hard Reset wrong in its first symbol': ('18 07 07 19', '0 5~ -\n'),
    'a Hard Reset wrong in its last symbol': ('07 07 07 07', '0 5~ -\n'),
    'a Hard Reset with an accented letter in it': ('07 A1 07 19', '0 5~ -\n'),
    'a Hard Reset wrong in two symbols': ('07 A1 C3 19', 'no13 0\n'),
    'a message on SOP with a wrong first symbol': ('1E 18 18 11 ' + GOOD_CRC, '0 0~ %s\n' % GOOD_CRC_OCTETS),
    "a message on SOP' with a wrong second symbol": ('18 0D 06 06 ' + GOOD_CRC, '0 1~ %s\n' % GOOD_CRC_OCTETS),
    "a message on SOP'' with a wrong third symbol": ('18 06 FF 06 ' + GOOD_CRC, '0 2~ %s\n' % GOOD_CRC_OCTETS),
    "a message on SOP'_Debug with a wrong last symbol": ('18 19 19 20 ' + GOOD_CRC, '0 3~ %s\n' % GOOD_CRC_OCTETS),
    "a message on SOP''_Debug with a wrong first symbol": ('00 19 06 11 ' + GOOD_CRC, '0 4~ %s\n' % GOOD_CRC_OCTETS),
    'a message on SOP with two wrong symbols': ('18 FF 20 11 ' + GOOD_CRC, 'no13 0\n'),
    'a wrong CRC behind a wrong symbol in the set': ('18 18 18 18 09 0A 1E 1E 17 17 1A 0E 17 17 12 17 0D', 'no15 16\n'),
    'EOP behind a set with a wrong symbol': ('18 18 18 0D 0D', 'no13 4\n'),
    'a set with a wrong symbol, and no more': ('18 18 18 0D', 'no14 4\n'),
    'a message cut, a wrong symbol in its set': ('18 18 18 0D 09 0A', 'no14 6\n'),
    'a Hard Reset': (RESET, '0 5 -\n'),
    'a Hard Reset and a line end': (RESET + '\n', '0 5 -\n'),
    'a Hard Reset, one symbol a line': ('07\n07\n07\n19\n', '0 5 -\n'),
    'a Hard Reset and a space': (RESET + ' ', '0 5 -\nbad octet 5\n'),
    'a Hard Reset and two line ends': (RESET + '\n\n', '0 5 -\nbad octet 5\n'),
    'a Hard Reset and half a symbol': (RESET + ' 0', '0 5 -\nbad octet 5\n'),
    'a Hard Reset and EOP': (RESET + ' 0D', '0 5 -\nno14 5\n'),
    'a Hard Reset and four EOP': (RESET + ' 0D 0D 0D 0D', '0 5 -\nno13 4\n'),
    'a Hard Reset cut': ('07 07 07', 'no14 3\n'),
    'two Hard Resets': (RESET + ' ' + RESET + '\n', '0 5 -\n4 5 -\n'),
    'two Hard Resets, the second cut': (RESET + '\n07 07', '0 5 -\nno14 6\n'),
    'a message on SOP': ('18 18 18 11 ' + GOOD_CRC, '0 0 %s\n' % GOOD_CRC_OCTETS),
    "a message on SOP'": ('18 18 06 06 ' + GOOD_CRC, '0 1 %s\n' % GOOD_CRC_OCTETS),
    "a message on SOP''": ('18 06 18 06 ' + GOOD_CRC, '0 2 %s\n' % GOOD_CRC_OCTETS),
    "a message on SOP'_Debug": ('18 19 19 06 ' + GOOD_CRC, '0 3 %s\n' % GOOD_CRC_OCTETS),
    "a message on SOP''_Debug": ('18 19 06 11 ' + GOOD_CRC, '0 4 %s\n' % GOOD_CRC_OCTETS),
    'an accented letter in a message': (NAME + '\n', '0 1 %s\n' % NAME_OCTETS),
    'two messages': ('%s %s\n%s' % (SET, GOOD_CRC, NAME), '0 0 %s\n17 1 %s\n' % (GOOD_CRC_OCTETS, NAME_OCTETS)),
    'a message, a Hard Reset, a message': ('%s\n%s\n%s %s\n' % (NAME, RESET, SET, GOOD_CRC),
                                          '0 1 %s\n25 5 -\n29 0 %s\n' % (NAME_OCTETS, GOOD_CRC_OCTETS)),
    'a message, another with a wrong symbol in its set, a Hard Reset with one': (
        '%s %s 18 18 18 0D %s\n07 07 07 FF' % (SET, GOOD_CRC, GOOD_CRC), '0 0 {0}\n17 0~ {0}\n34 5~ -\n'.format(GOOD_CRC_OCTETS)),
    'a message and a symbol that no set has': (NAME + ' 1E', '0 1 %s\nno14 26\n' % NAME_OCTETS),
    'a message and four symbols that no set has': (NAME + ' 1E 1E 1E 1E', '0 1 %s\nno13 25\n' % NAME_OCTETS),
    'a message with a small letter in its EOP': (NAME[:-1] + 'd', 'bad octet 25\n'),
    'a message cut before its EOP': (NAME[:-3], 'no14 24\n'),
    'a message cut before its EOP, and a space': (NAME[:-2], 'bad octet 25\n'),
    'a wrong CRC': (SET + ' 09 0A 1E 1E 17 17 1A 0E 17 17 12 17 0D', 'no15 16\n'),
    'a wrong CRC, out of form behind it': (SET + ' 09 0A 1E 1E 17 17 1A 0E 17 17 12 17 0D,', 'no15 16\n'),
    'a wrong CRC, a frame behind it': (SET + ' 09 0A 1E 1E 17 17 1A 0E 17 17 12 17 0D ' + RESET, 'no15 16\n'),
    'a wrong CRC in the second frame': ('%s\n%s 0A 0A 1E 1E 17 17 1A 0E 17 17 12 16 0D\n' % (NAME, SET),
                                        '0 1 %s\nno15 41\n' % NAME_OCTETS),
    'a wrong CRC that is still without its EOP': (SET + ' 09 0A 1E 1E 17 17 1A 0E 17 17 12 17', 'no14 16\n'),
    'EOP behind the ordered set': (SET + ' 0D', 'no13 4\n'),
    'EOP behind five octets': (SET + ' 09 0A 1E 1E 17 17 1A 0E 17 17 0D', 'no13 14\n'),
    'EOP behind half an octet': (SET + ' 09 0A 1E 1E 17 17 1A 0E 17 17 12 16 1E 0D', 'no13 17\n'),
    'an ordered set inside a frame': (SET + ' 09 0A 18', 'no13 6\n'),
    'the longest frame': (LONGEST, '0 0' + ' 00' * 30 + ' B5 3E 04 00\n'),
    'the longest frame cut before its EOP': (LONGEST[:-3], 'no14 72\n'),
    'a nibble too many': (LONGEST[:-2] + '1E', 'no13 72\n'),
    'a code where the longest frame has its EOP': (LONGEST[:-2] + '18', 'no13 72\n'),
}


def every_octet():
    """Input and output by name: a message with each octet in place of its first or second nibble."""
    for half, place in enumerate(('first', 'second')):
        for symbol in range(256):
            nibble = NIBBLES.find(symbol)
            octets = with_crc(bytes([max(nibble, 0) << 4 * half, 0]))
            symbols = [*SETS[0], *nibbles(octets), EOP]
            symbols[4 + half] = symbol
            due = 'no13 %d\n' % (4 + half) if nibble < 0 else '0 0 %s\n' % as_text(octets).decode()
            yield 'a message with %02X for its %s nibble' % (symbol, place), (as_text(symbols).decode(), due)


def unlike(one, other, whose):
    """How what was printed differs from what is due."""
    lines = one.split(b'\n'), other.split(b'\n')
    at = first_difference(*lines)
    said = [repr(some[at].decode('latin-1')[:80]) if at < len(some) else 'missing' for some in lines]
    return 'output line %d is %s, %s %s' % (at + 1, said[0], whose, said[1])


def readme():
    """The shell line that hands a run's symbols to frames, and what README.md says it prints of each example."""
    with open(os.path.join(ROOT, 'README.md'), encoding='utf-8') as page:
        found = re.findall(r'^    (\./bench (\S+) \| [^\n]* \| \./frames)$.*?^```text\n(.*?)^```$', page.read(), re.M | re.S)
    lines = {line.replace('./bench ' + example, '"$0" <"$2"').replace('./frames', '"$1"') for line, example, _ in found}
    if len(lines) != 1 or len(found) != EXAMPLES:
        sys.exit('frames against peer: README.md does not show one shell line from ./bench to ./frames with %d examples' % EXAMPLES)
    return lines.pop(), {example: printed.encode() for _, example, printed in found}


def shown_records():
    """Input and output by name: the records that README.md hands to frames, and what it says is printed."""
    with open(os.path.join(ROOT, 'README.md'), encoding='utf-8') as page:
        found = re.findall(r'^    \./frames (\S+)$.*?^```text\n(.*?)^```$', page.read(), re.M | re.S)
    if not found:
        sys.exit('frames against peer: README.md hands no record to ./frames')
    for file, printed in found:
        with open(os.path.join(ROOT, file), encoding='utf-8') as text:
            yield file, (text.read(), printed)


def shell_line(bench, frames, line, path):
    return answers(['sh', '-c', line, bench, frames, path])


def sent_frames(bench, frames, peer, seed):
    """What is wrong with the frames of README's examples and of a long run, and of the run's frames how many each kind has."""
    line, examples = readme()
    for example, printed in examples.items():
        shown = shell_line(bench, frames, line, os.path.join(ROOT, example))
        if shown != printed:
            return "README's shell line, %s: %s" % (example, unlike(shown, printed, 'in README')), None
    # The number of the bad line, 12, could pass for a symbol.
    for name, text in (('a bad line', b'0\n20\n' + b'h\n' * 9 + b'x\n'), ('nothing sent', b'1\n03 21\n2\nr 3E\nw 3E 00\n')):
        shown = shell_line(bench, frames, line, kept(name, text))
        if shown:
            return "README's shell line prints %r of a run with %s" % (shown[:80], name), None
    name = 'sent of seed %d' % seed
    text = joined(*in_form(name, EVENTS))
    path = kept(name, text)
    shown, due = shell_line(bench, frames, line, path), answers([peer, 'sent'], input=text)
    if shown != due:
        return '%s: %s; the events are %s' % (name, unlike(shown, due, 'the device sent'), path), None
    kinds = Counter(int(line.split(b' ', 2)[1]) for line in due.splitlines())
    if set(kinds) != KINDS or sum(kinds.values()) < FEWEST_FRAMES:
        return '%s: too few frames: %s' % (name, sorted(kinds.items())), None
    os.remove(path)
    return None, kinds


# A process for each record, with an end mark behind what it prints; a shell starts them faster than Python does.
EACH = 'ulimit -t 10; cd "$1" && for record in *; do "$0" $2 <"$record"; [ $? -lt 128 ] || echo ended by a signal; echo =; done'


def printed_of_each(folder, program, *mode):
    return answers(['sh', '-c', EACH, program, folder, *mode], 6 * SECONDS * PATIENCE, stdin=subprocess.DEVNULL).split(b'=\n')[:-1]


def printed_of_all(frames, peer, name, texts):
    """What is wrong on the first record on which the two differ, and what both print of each."""
    folder = os.path.join(KEPT, 'records')
    shutil.rmtree(folder, ignore_errors=True)
    os.makedirs(folder)
    for number, text in enumerate(texts):
        with open(os.path.join(folder, '%04d' % number), 'wb') as file:
            file.write(text)
    with ThreadPoolExecutor(2) as both:
        mine, other = both.map(lambda run: printed_of_each(folder, *run), [(frames,), (peer, 'frames')])
    at = first_difference(mine, other)
    if at < len(texts):
        said = unlike(mine[at], other[at], 'of the peer') if at < min(len(mine), len(other)) else 'no end'
        return '%s: %s; the record is %s' % (name % at, said, kept(name % at, texts[at])), None
    shutil.rmtree(folder)
    return None, mine


def damaged_records(frames, peer, seed):
    """What is wrong on the first record that differs, and how many records end in which way."""
    texts = [record('record %d of seed %d' % (n, seed)) for n in range(RECORDS)]
    wrong, printed = printed_of_all(frames, peer, 'record %%d of seed %d' % seed, texts)
    if wrong:
        return wrong, None
    last = [lines.splitlines()[-1:] for lines in printed]
    ends = Counter(re.match(rb'no1[345]|bad octet|', line[0]).group().decode() or 'whole' if line else 'empty' for line in last)
    if any(ends[end] < FEWEST_OF_EACH for end in ('whole', 'no13', 'no14', 'no15', 'bad octet')):
        return 'the records seldom end in some way: %s' % sorted(ends.items()), None
    return None, ends


def spoilt_records(frames, peer, seed):
    """What is wrong on the first record that differs; of the sets with wrong symbols, how many are taken and how many refused."""
    records = [spoilt_sets('spoilt record %d of seed %d' % (n, seed)) for n in range(SPOILT)]
    wrong, printed = printed_of_all(frames, peer, 'spoilt record %%d of seed %d' % seed, list(map(as_text, records)))
    if wrong:
        return wrong, None
    ways = Counter({'near %d' % kind: 0 for kind in KINDS} | {'near several': 0, 'near none': 0})
    for symbols, lines in zip(records, printed):
        ways.update('near ' + kind for kind in re.findall(r'^\d+ (\d)~ ', lines.decode(), re.M))
        refused = re.search(rb'^no13 (\d+)$', lines, re.M)
        if refused:
            place = int(refused.group(1))
            near = kinds_near(symbols[place:place + 4])
            if len(near) == 1:
                return 'refused at %d of %s, which is near kind %d alone' % (place, as_text(symbols).decode(), *near), None
            ways['near several' if near else 'near none'] += 1
    if min(ways.values()) < FEWEST_NEAR:
        return 'the spoilt records seldom have some set: %s' % sorted(ways.items()), None
    return None, ways


def every_four(frames, peer):
    """What is wrong on the first four symbols that either program takes for another set than 02, A4 says, and how many go which way."""
    octets = with_crc(bytes.fromhex('4100'))
    message = nibbles(octets) + [EOP]
    fours = list(product([*CODES, NIBBLES[0]], repeat=4))
    wrong, printed = printed_of_all(frames, peer, 'four symbols %d', [as_text([*four, *message]) for four in fours])
    if wrong:
        return wrong, None
    ways = Counter()
    for four, lines in zip(fours, printed):
        exact, near = [kind for kind in KINDS if SETS[kind] == bytes(four)], kinds_near(four)
        way = 'exact' if exact else ('none', 'near', 'several')[min(len(near), 2)]
        ways[way] += 1
        kind = (exact or near)[0] if way in ('exact', 'near') else None
        taken = None if kind is None else '0 %d%s %s' % (
            kind, '~' * (way == 'near'), '-' if kind == HARD_RESET else as_text(octets).decode())
        if lines.decode().split('\n')[0] != (taken or 'no13 0'):
            return 'the symbols %s, near %s: %r' % (as_text(four).decode(), near, lines), None
    return None, ways


def misread(frames, peer, cases):
    """What is wrong on the first case that either program gets wrong."""
    for name, (text, due) in cases.items():
        for program, command in (('frames', [frames]), ('the peer', [peer, 'frames'])):
            printed = answers(command, input=text.encode('latin-1'))
            if printed != due.encode():
                return '%s on %s: %s' % (program, name, unlike(printed, due.encode(), 'due'))
    return None


def little_memory(frames, seed):
    """A long record, in little memory where no emulator takes its own, which differs from run to run by more than that."""
    text, due = long_record('long record of seed %d' % seed, LONG)
    limit = 'unlimited' if EMULATED else KILOBYTES
    printed = answers(['sh', '-c', 'ulimit -v %s && exec "$0"' % limit, frames], 3 * SECONDS * PATIENCE, input=text)
    if printed != due:
        yield 'on %d MB of frames with %s kB of memory: %s' % (LONG // 1_000_000, limit, unlike(printed, due, 'due'))


def slow_input(frames):
    """Each line is there before the next frame comes."""
    with subprocess.Popen([frames], stdin=subprocess.PIPE, stdout=subprocess.PIPE, bufsize=0) as run:
        for text, due in ((RESET, '0 5 -'), ('\n' + NAME, '4 1 ' + NAME_OCTETS), (' ' + RESET, '29 5 -'), ('\n18 18 06 11', 'no13 33')):
            run.stdin.write(text.encode())
            due = due.encode() + b'\n'
            printed = awaited(run, len(due))
            if printed != due:
                yield 'prints %r for %r while the rest of its input is still to come' % (printed, text)
                run.kill()
                return


def input_endings(frames, seed):
    """Pieces make no difference, nothing is read after a stop, and what cannot be read is an empty record."""
    text, due = long_record('pieces of seed %d' % seed, 1)
    text, due = text + b'00 00 00 00', due + b'no13 %d\n' % (len(text) // 3)
    for sizes in ([1], [2], [3], [4], [255], [4095], [4096], [3, 500, 1, 77, 256, 2048, 11]):
        printed = left_open(frames, in_pieces(text, sizes), subprocess.PIPE, SECONDS)
        if printed != due:
            said = 'does not end after a stop' if printed == NO_END else unlike(printed, due, 'due')
            yield 'when its input comes in pieces of %s: %s' % (sizes, said)
            break
    for text, due in ((b'18 18 06 11', b'no13 0\n'), (b'18,', b'bad octet 2\n'), (b'18 x', b'bad octet 2\n')):
        printed = left_open(frames, [text], subprocess.PIPE, SECONDS)
        if printed != due:
            yield 'prints %r for %r before an input left open' % (printed[:80], text)
    for endless, due in (('yes', b'bad octet 1\n'), ("yes ''", b'bad octet 1\n'), ('yes 18', b'no13 4\n')):
        printed = answers(['sh', '-c', endless + ' | "$0"', frames], stdin=subprocess.DEVNULL)
        if printed != due:
            yield 'prints %r of what %s prints' % (printed[:80], endless)
    folder = os.open(KEPT, os.O_RDONLY)
    for name, printed in (('a directory', answers([frames], stdin=folder)),
                          ('closed', answers(['sh', '-c', 'exec "$0" <&-', frames], stdin=subprocess.DEVNULL))):
        if printed:
            yield 'prints %r when its input is %s' % (printed[:80], name)
    os.close(folder)


def counted(ways):
    return ', '.join('{:,} {}'.format(ways[way], way) for way in sorted(ways))


def main():
    started = time.monotonic()
    if len(sys.argv) not in (4, 5):
        sys.exit(__doc__)
    bench, frames, peer = (os.path.abspath(program) for program in sys.argv[1:4])
    seed = int(sys.argv[4]) if len(sys.argv) > 4 else 20
    os.makedirs(KEPT, exist_ok=True)
    unsent, kinds = sent_frames(bench, frames, peer, seed)
    differing, ends = damaged_records(frames, peer, seed)
    unlike_spoilt, spoilt = spoilt_records(frames, peer, seed)
    unlike_four, fours = every_four(frames, peer)
    octets = dict(every_octet())
    wrong = [one for one in (misread(frames, peer, dict(shown_records()) | EDGES | octets), unsent, differing, unlike_spoilt, unlike_four) if one]
    resets = (RESET + '\n').encode() * 50_000
    endings = (*little_memory(frames, seed), *slow_input(frames), *input_endings(frames, seed), *output_endings(frames, resets, resets))
    wrong += ['frames ' + one for one in endings]
    for one in wrong:
        print('frames against peer: seed %d: %s' % (seed, one))
    if wrong:
        sys.exit(1)
    print('frames against peer: {:,} frames of {:,} events as the device sent them, {} edges, {} MB in {} of memory'.format(
        sum(kinds.values()), EVENTS, len(EDGES), LONG // 1_000_000,
        'any amount' if EMULATED else '%d kB' % KILOBYTES))
    print("frames against peer: {} messages with each octet in a nibble's place, {} of them read".format(
        len(octets), sum(due.startswith('0 0 ') for _, due in octets.values())))
    print('frames against peer: {:,} records with spoilt sets ({})'.format(SPOILT, counted(spoilt)))
    print('frames against peer: {:,} times four symbols as a set ({})'.format(sum(fours.values()), counted(fours)))
    print('frames against peer: {:,} records ({}) agree, seed {}, {:.0f} s'.format(RECORDS, counted(ends), seed, time.monotonic() - started))


if __name__ == '__main__':
    main()
