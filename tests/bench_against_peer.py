#!/usr/bin/env python3
"""The bench against the peer, an independent program: what they print is equal to the last character.

    tests/bench_against_peer.py BENCH PEER [SEED]

Long texts in form, with 1,200,000 events in all, histories made for one rule each, the examples, and 3,000 short damaged texts.
Then how the bench ends when its output is closed or full, and when its input is left open, comes in pieces or cannot be read; and
whether each answer is there before the next line is given. Of the first text on which the two differ, the shortest beginning that
shows it is kept under target/tests/.
"""
import os
import re
import select
import signal
import subprocess
import sys
import threading
import time
from collections import Counter
from concurrent.futures import ProcessPoolExecutor

import comparators
import soft_resets
from texts import Term, damaged, directed_lines, examples, extremes, in_form, joined

FILES, EVENTS = 12, 100_000
DAMAGED, AT_ONCE = 3_000, 100
WORKERS = 2
SECONDS = 10
NO_END = b'did not end'
KEPT = os.path.join(os.path.dirname(os.path.dirname(os.path.abspath(__file__))), 'target', 'tests')

# What the long texts have to bring about: every reply, each bit that a read can show, both set and clear, and what comparators.py
# and soft_resets.py say.
READ_BITS = {
    '02': 0xFF, '03': 0xF7, '04': 0x7F, '05': 0xFF, '06': 0x2E, '07': 0x73, '08': 0xEF, '09': 0x3F, '0A': 0xFF, '0B': 0x0F,
    '0D': 0x0F, '0E': 0xFF, '0F': 0x01, '10': 0x01, '3C': 0x33, '3D': 0x07, '3E': 0x3F, '3F': 0x01, '40': 0xBB, '41': 0xFC,
    '42': 0xB9, '43': 0xFF,
}
READS = {'r ' + address: address for address in READ_BITS}
BITS = [(address, 1 << n) for address, bits in READ_BITS.items() for n in range(8) if bits >> n & 1]
DUE = {'ok', 'INT_N 0', 'INT_N 1', 'frame of 4', *('frame of %d' % n for n in range(17, 74, 2)), *('no%d' % n for n in range(1, 12)),
       *('%s: %02X %s' % (*bit, way) for bit in BITS for way in ('set', 'clear')),
       *comparators.due(), *soft_resets.due()}


def answers(command, seconds=SECONDS, **stdin):
    """What a program prints, and how it ended if not by itself."""
    try:
        run = subprocess.run(command, stdout=subprocess.PIPE, stderr=subprocess.DEVNULL, timeout=seconds, **stdin)
    except subprocess.TimeoutExpired:
        return NO_END
    return run.stdout + (b'ended by signal %d' % -run.returncode if run.returncode < 0 else b'')


def both(programs, text):
    """What two programs print, each given as a command and its arguments."""
    return [answers(program, input=text) for program in programs]


def differ(programs, text):
    one, other = both(programs, text)
    return one != other


def first_difference(one, other):
    """The number, from 0, of the first line in which two lists of lines differ."""
    return next((n for n, pair in enumerate(zip(one, other)) if pair[0] != pair[1]), min(len(one), len(other)))


def kept(name, text):
    path = os.path.join(KEPT, name.replace(' ', '_') + '.in')
    with open(path, 'wb') as file:
        file.write(text)
    return path


def difference(programs, name, text, beginning, most):
    """Keeps the shortest beginning that differs; says so, and after how many output lines. `beginning` gives so many lines."""
    shortest, shown = text, both(programs, text)
    if NO_END in shown:
        sys.exit('bench against peer: %s: no end within %d seconds; the text is %s' % (name, SECONDS, kept(name, text)))
    low, high = 0, most
    while low < high:
        middle = (low + high) // 2
        tried = beginning(middle)
        one, other = both(programs, tried)
        if one != other:
            high, shortest, shown = middle, tried, (one, other)
        else:
            low = middle + 1
    lines = [answer.split(b'\n') for answer in shown]
    at = first_difference(*lines)
    said = [repr(some[at].decode('latin-1')[:80]) if at < len(some) else 'missing' for some in lines]
    report = '%s: output line %d is %s, of the peer %s; the shortest beginning is %s'
    return report % (name, at + 1, *said, kept(name, shortest)), at + 1


def thinned(programs, setup, events):
    """Fewer events that still differ: spans are left out, ever shorter ones, as long as it does not take too long."""
    span, until = len(events) // 2, time.monotonic() + 2 * SECONDS
    while span and time.monotonic() < until:
        at = 0
        while at < len(events) and time.monotonic() < until:
            fewer = events[:at] + events[at + span:]
            if differ(programs, joined(setup, fewer)):
                events = fewer
            else:
                at += span
        span //= 2
    return joined(setup, events)


def brought_about(setup, events, printed):
    """Which of DUE the answers to a text in form show, and how often."""
    lines = printed.decode('latin-1').split('\n')
    values = {address: Counter() for address in READ_BITS}
    for event, line in zip(events, lines[len(setup):]):
        if event in READS and line[:1] == '=':
            values[READS[event]][int(line[1:3], 16)] += 1
    seen = Counter(comparators.at_the_pins(setup, events, lines))
    seen.update(soft_resets.with_soft_resets(setup, events, lines))
    for address, bit in BITS:
        for value, times in values[address].items():
            seen['%s: %02X %s' % (address, bit, 'set' if value & bit else 'clear')] += times
    for line in lines:
        reply, _, rest = line.partition(' ')
        seen[reply] += 1
        seen['INT_N ' + rest[:1]] += 1
        if len(rest) > 3:
            seen['frame of %d' % rest.count(' ')] += 1
    return Counter({rule: seen[rule] for rule in DUE if rule in seen})


def long_name(seed, number):
    return 'text %d of seed %d' % (number, seed)


def long_text(programs, seed, number):
    """Whether the two differ on a text in form, and what it brought about."""
    setup, events = in_form(long_name(seed, number), EVENTS)
    bench, peer = both(programs, joined(setup, events, last_end(number)))
    return bench != peer, brought_about(setup, events, peer)


def last_end(number):
    """In every other text the last line ends with the input."""
    return '\n' * (number % 2)


def form_difference(programs, name, setup, events, end='\n'):
    """The report for a text in form: beginnings of it have their counts made right, and are in form again."""
    def beginning(lines):
        return joined(setup[:lines], events[:max(0, lines - len(setup))], end)

    most = len(setup) + len(events)
    found, needed = difference(programs, name, beginning(most), beginning, most)
    # An answer hangs on its event and on those before it alone.
    thin = thinned(programs, setup, events[:max(0, needed - len(setup))])
    return '%s, and thinned %s' % (found, kept(name + ' thinned', thin))


def damaged_name(seed, number):
    return 'damaged text %d of seed %d' % (number, seed)


def bad_line(text, printed):
    """The bad line of a text, if there is one, and whether it stands among the events."""
    found = re.search(rb'^bad line (\d+)\n\Z', printed, re.M)
    if not found:
        return None, False
    number, lines = int(found.group(1)), text.split(b'\n') + [b'']
    # The lines before a bad line are in form.
    return lines[number - 1], number > 1 and number >= int(lines[0]) + 3


def damaged_texts(programs, seed, first):
    """The numbers of damaged texts on which the two differ, and how many had a bad line, one of voltages, or one that is bad by a
    voltage above 65,535 alone."""
    differing, bad = [], Counter()
    for number in range(first, min(first + AT_ONCE, DAMAGED)):
        text = damaged(damaged_name(seed, number))
        bench, peer = both(programs, text)
        line, among_events = bad_line(text, peer)
        bad['any'] += line is not None
        bad['voltages'] += among_events and line.lstrip()[:1] in (b'v', b'V')
        bad['above'] += among_events and re.fullmatch(rb'v( \d{1,7}){3}', line) is not None
        if bench != peer:
            differing.append(number)
            break
    return differing, bad


def raw_difference(programs, name, text):
    lines = text.split(b'\n')

    def beginning(count):
        return b'\n'.join(lines[:count]) + b'\n' * (count < len(lines))

    return difference(programs, name, text, beginning, len(lines))[0]


def in_pieces(text, sizes):
    """The text in pieces of these sizes, in turn."""
    at, turn = 0, 0
    while at < len(text):
        size = sizes[turn % len(sizes)]
        yield text[at:at + size]
        at, turn = at + size, turn + 1


def feed(writing, pieces):
    for piece in pieces:
        try:
            os.write(writing, piece)
        except BrokenPipeError:
            return


def left_open(program, pieces, stdout, seconds):
    """What the program prints, and how it ended, while its input gives these pieces and then stays open."""
    # A pipe of packets hands over one piece with each read.
    reading, writing = os.pipe2(os.O_CLOEXEC | os.O_DIRECT)
    run = subprocess.Popen([program], stdin=reading, stdout=stdout, stderr=subprocess.DEVNULL)
    os.close(reading)
    feeder = threading.Thread(target=feed, args=(writing, pieces))
    feeder.start()
    try:
        printed = run.communicate(timeout=seconds)[0] or b''
        return printed + (b'ended by signal %d' % -run.returncode if run.returncode < 0 else b'')
    except subprocess.TimeoutExpired:
        run.kill()
        run.communicate()
        return NO_END
    finally:
        feeder.join()
        os.close(writing)


def full_output():
    return os.open('/dev/full', os.O_WRONLY)


def unread_output():
    reading, writing = os.pipe()
    os.close(reading)
    return writing


def output_endings(program, unended, ended):
    """Output that is full or closed ends a program within a second, although after `unended` it would wait for more input."""
    allowed = {b'', b'ended by signal %d' % signal.SIGPIPE}

    def to(output):
        descriptor = output()
        printed = left_open(program, in_pieces(unended, [4096]), descriptor, 1.0)
        os.close(descriptor)
        return printed

    def to_nothing():
        # What a program's start may put in the place of a closed output takes all, so this input has an end.
        return answers(['sh', '-c', 'exec "$0" >&-', program], 1.0, input=ended)

    for name, run in (('full', lambda: to(full_output)), ('not read', lambda: to(unread_output)), ('closed', to_nothing)):
        # Three tries, since a loaded machine may be late itself.
        tries = []
        while len(tries) < 3 and not allowed & set(tries):
            tries.append(run())
        if not allowed & set(tries):
            yield 'ends wrongly when its output is %s: %s' % (name, tries[-1][-80:].decode('latin-1'))


def input_endings(bench, seed):
    """Pieces make no difference, nothing is read after the last event, and of what cannot be read line 1 is missing."""
    name = 'pieces of seed %d' % seed
    text = joined(*in_form(name, 2_000))
    whole = answers([bench], input=text)
    for sizes in ([1], [255], [256], [257], [4096], [3, 500, 1, 77, 256, 2048, 11]):
        printed = left_open(bench, in_pieces(text, sizes), subprocess.PIPE, SECONDS)
        if printed != whole:
            said = 'does not end after the last event' if printed == NO_END else 'answers otherwise'
            yield '%s when its input comes in pieces of %s: %s' % (said, sizes, kept(name, text))
            break
    folder = os.open(KEPT, os.O_RDONLY)
    for name, printed in (('a directory', answers([bench], stdin=folder)),
                          ('closed', answers(['sh', '-c', 'exec "$0" <&-', bench], stdin=subprocess.DEVNULL))):
        if printed != b'bad line 1\n':
            yield 'prints %s when its input is %s' % (printed[:80], name)
    os.close(folder)


def awaited(run, length):
    """So many octets of what a program prints while its input stays open, or fewer if no more come in time."""
    printed, until = b'', time.monotonic() + SECONDS
    while len(printed) < length and select.select([run.stdout], [], [], max(0, until - time.monotonic()))[0]:
        piece = os.read(run.stdout.fileno(), 4096)
        if not piece:
            break
        printed += piece
    return printed


def conversation(program, seed, mix, answered):
    """Each answer is there before more is given: the lines whole, octet by octet, and with a beginning of the next behind each."""
    _, events = in_form('conversation of seed %d' % seed, 300, mix)
    setup = ['06 04', '03 21', '09 07']
    said = iter(answers([program], input=joined(setup, events)).splitlines(keepends=True))
    lines = [b'%d\n%s\n' % (len(setup), setup[0].encode()), *(line.encode() + b'\n' for line in setup[1:])]
    lines += [b'%d\n%s\n' % (len(events), events[0].encode()), *(line.encode() + b'\n' for line in events[1:])]
    due = [next(said, b'') if line.splitlines()[-1].startswith(answered) else b'' for line in lines]
    for ahead, size in ((0, 4096), (0, 1), (1, 4096)):
        text, ends = b''.join(lines), []
        for line in lines:
            ends.append((ends[-1] if ends else 0) + len(line))
        with subprocess.Popen([program], stdin=subprocess.PIPE, stdout=subprocess.PIPE, bufsize=0) as run:
            given = 0
            for end, answer in zip(ends, due):
                for piece in in_pieces(text[given:end + ahead], [size]):
                    run.stdin.write(piece)
                given = min(end + ahead, len(text))
                printed = awaited(run, len(answer))
                if printed != answer:
                    yield 'prints %r, not %r, before the line behind %r is given' % (printed, answer, text[:end][-12:])
                    run.kill()
                    return


def endings(program, seed, event, mix=Term, answered=b''):
    """What is wrong with how a program ends and takes its input. Lines that begin with `answered` have an answer, `event` among them;
    the conversation is of this mix."""
    events = event * 300_000
    yield from output_endings(program, b'0\n9999999\n' + events, b'0\n300000\n' + events)
    yield from input_endings(program, seed)
    yield from conversation(program, seed, mix, answered)


def in_order(tasks):
    """The results of tasks in their order; those after one that differs are left out."""
    for number, task in enumerate(tasks):
        differing, result = task.result()
        yield number, differing, result
        if differing:
            for later in tasks:
                later.cancel()
            return


def main():
    started = time.monotonic()
    if len(sys.argv) not in (3, 4):
        sys.exit(__doc__)
    programs = [[program] for program in sys.argv[1:3]]
    seed = int(sys.argv[3]) if len(sys.argv) > 3 else 20
    os.makedirs(KEPT, exist_ok=True)
    wrong, seen, bad = [], Counter(), Counter()
    with ProcessPoolExecutor(WORKERS) as workers:
        for number, differing, some in in_order([workers.submit(long_text, programs, seed, n) for n in range(FILES)]):
            seen += some
            if differing:
                name = long_name(seed, number)
                wrong.append(form_difference(programs, name, *in_form(name, EVENTS), last_end(number)))
        firsts = range(0, DAMAGED, AT_ONCE)
        for _, differing, some in in_order([workers.submit(damaged_texts, programs, seed, first) for first in firsts]):
            bad.update(some)
            wrong += [raw_difference(programs, name, damaged(name)) for name in (damaged_name(seed, n) for n in differing)]
    directed = directed_lines()
    name = next((name for name, events in directed.items() if differ(programs, joined([], events))), None)
    wrong += [form_difference(programs, name, [], directed[name])] if name else []
    wrong += [raw_difference(programs, name, text) for name, text in (extremes() | examples()).items() if differ(programs, text)]
    wrong += ['%s has a bad line' % name for name, text in examples().items() if b'bad line' in answers(programs[1], input=text)]
    wrong += ['the bench ' + one for one in endings(sys.argv[1], seed, b'h\n')]
    if not wrong and seen.keys() != DUE:
        wrong.append('the long texts never bring about: ' + ', '.join(sorted(DUE - seen.keys())))
    counted = '{:,} damaged texts ({any:,} with a bad line, {voltages:,} with one of voltages, {above:,} with a voltage above 65,535)'
    counted = counted.format(DAMAGED, **bad)
    if not wrong and not 0 < bad['above'] < bad['voltages'] < bad['any'] < DAMAGED:
        wrong.append(counted)
    for one in wrong:
        print('bench against peer: seed %d: %s' % (seed, one))
    if wrong:
        sys.exit(1)
    rarest, times = seen.most_common()[-1]
    print('bench against peer: {:,} events in {} texts agree, and meet {} rules, the rarest {} times: {}'.format(
        FILES * EVENTS, FILES, len(seen), times, rarest))
    print('bench against peer: {} directed histories and {} agree, seed {}, {:.0f} s'.format(
        len(directed), counted, seed, time.monotonic() - started))


if __name__ == '__main__':
    main()
