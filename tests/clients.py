#!/usr/bin/env python3
"""The clients in C and Python: what they give is what the bench prints, and each error says what happened.

    tests/clients.py BENCH [SEED]

100,000 random events as calls, single ones and I2C ones of several octets, through the C client, through it with sanitizers,
and through the Python client, each beside a run of the bench on the same events. Programs that answer wrongly, late or not at
all, in the bench's place. The examples in the clients' head comments, and the example firmware. What differs is kept in
target/tests/clients/.
"""
import os
import random
import re
import shutil
import signal
import stat
import subprocess
import sys
import time
import zlib
from concurrent.futures import ThreadPoolExecutor

from frames_against_peer import PATIENCE
from texts import in_form, joined

ROOT = os.path.dirname(os.path.dirname(os.path.abspath(__file__)))
sys.path.insert(0, os.path.join(ROOT, 'clients', 'python'))
from fusb302 import Fusb302, NotOpen, Silent  # noqa: E402

MADE = os.path.join(ROOT, 'target', 'tests', 'clients')
EVENTS, TIMED = 100_000, 10_000
# Of the bench alone 3,200 are started by the threads, which takes an emulator about a minute.
SECONDS = 60 * PATIENCE
# Time limits of the clients: one that is waited for, and one that no answer should ever meet. A busy machine adds its own.
SHORT_MS, LONG_MS = 3_000, 20_000
BUSY = 6

STRICT = ['-std=c11', '-Wall', '-Wextra', '-Wpedantic', '-Werror', '-I' + os.path.join(ROOT, 'clients', 'c')]
SANITIZED = ['-g', '-fsanitize=address,undefined', '-fno-sanitize-recover=all']
CLIENT = os.path.join(ROOT, 'clients', 'c', 'fusb302.c')
PLAYER = os.path.join(ROOT, 'tests', 'clients', 'play.c')
FIRMWARE = os.path.join(ROOT, 'examples', 'firmware')

NOTHING_LEFT = 'left: 0 descriptors, no child'
ENDED = 'the model ended'
FORM = 'the model answered out of form'
SILENT = 'the model did not answer within the time limit'
MANY = 'more than 9,999,999 events'
START = 'the bench cannot be started'
CLOSED = 'no model is open'


def made(name):
    return os.path.join(MADE, name)


def kept(name, text):
    path = made(name.replace(' ', '_'))
    with open(path, 'w') as file:
        file.write(text)
    return path


def program(name, text):
    """A program in the bench's place."""
    path = kept(name, text)
    os.chmod(path, os.stat(path).st_mode | stat.S_IXUSR)
    return path


def compiled(name, flags, *sources):
    done = subprocess.run(['cc', *STRICT, *flags, '-o', made(name), *sources], capture_output=True, text=True)
    if done.returncode or done.stderr:
        sys.exit('clients: %s does not compile:\n%s' % (name, done.stderr))
    return made(name)


def players():
    """Programs that play calls through a client, by the client's name."""
    return {
        'C': [compiled('play', ['-O2'], PLAYER)],
        'C with sanitizers': [compiled('play_sanitized', ['-O1', *SANITIZED], PLAYER)],
        'Python': [sys.executable, '-W', 'error', os.path.join(ROOT, 'tests', 'clients', 'play.py')],
    }


def played(player, bench, calls, limit_ms=LONG_MS, **more):
    """What a player prints, line by line, how long the calls took, and how it ended if not by itself."""
    text = ''.join(call + '\n' for call in calls)
    try:
        run = subprocess.run([*player, bench, str(limit_ms)], input=text, capture_output=True, text=True, timeout=SECONDS, **more)
    except subprocess.TimeoutExpired:
        return ['no end within %d seconds' % SECONDS], 0.0
    said = run.stderr.strip()
    if run.returncode or not re.fullmatch(r'\d+\.\d+', said):
        return run.stdout.splitlines() + ['ended with %d: %s' % (run.returncode, said)], 0.0
    return run.stdout.splitlines(), float(said)


def first_difference(given, due):
    """Where two lists of lines differ, in words, or None."""
    if given == due:
        return None
    at = next((n for n, pair in enumerate(zip(given, due)) if pair[0] != pair[1]), min(len(given), len(due)))
    return 'line %d is %s, expected %s' % (at + 1, *(repr(lines[at]) if at < len(lines) else 'missing' for lines in (given, due)))


# What the bench prints, as calls.

def printed_by(bench, events):
    run = subprocess.run([bench], input=joined([], events), capture_output=True, timeout=SECONDS)
    return run.stdout.decode().splitlines()


def right_crc(words):
    octets = bytes.fromhex(''.join(words))
    return len(octets) >= 4 and zlib.crc32(octets[:-4]).to_bytes(4, 'little') == octets[-4:]


def single(event):
    """An event as a call. The client adds the CRC where that is the packet."""
    letter, *words = event.split()
    if letter == 'p' and right_crc(words[1:]):
        return ' '.join(['m', *words[:-4]])
    return event


def next_address(address):
    return address if address == 0x43 else address + 1


def burst(rng, events, answers, at):
    """How many events from here on are one I2C call: up to the first refusal, or by chance fewer."""
    letter, address = events[at][0], int(events[at].split()[1], 16)
    most, n = rng.choice([1, 2, 5, 60]), 0
    while at + n < len(events) and n < most and events[at + n][:4] == '%s %02X' % (letter, address):
        n += 1
        address = next_address(address)
        if answers[at + n - 1].startswith('no'):
            break
    return n


def i2c(rng, events, answers):
    """The call that is these events, and what it gives. Behind a refusal stand octets that must not be asked for."""
    letter, address = events[0].split()[:2]
    refused = answers[-1].startswith('no')
    spare = rng.choice([0, 1, 20]) if refused else 0
    reply, level, _ = answers[-1].split(' ', 2)
    symbols = ' '.join(text for text in (answer.split(' ', 2)[2] for answer in answers) if text != '-') or '-'
    taken = len(answers) - refused
    gives = '%s %s %s taken %d' % (reply, level, symbols, taken)
    if letter == 'w':
        octets = [event.split()[2] for event in events] + ['%02X' % rng.randrange(256) for _ in range(spare)]
        return 'W %s %s' % (address, ' '.join(octets)), gives
    octets = ' '.join(answer[1:3] for answer in answers[:taken]) or '-'
    return 'R %s %d' % (address, len(events) + spare), gives + ' ' + octets


def as_calls(rng, events, answers):
    """Calls that are these events, and what a player prints of them."""
    calls, due, at = [], [], 0
    while at < len(events):
        n = burst(rng, events, answers, at) if events[at][0] in 'wr' and rng.random() < 0.7 else 0
        if n:
            call, gives = i2c(rng, events[at:at + n], answers[at:at + n])
        else:
            n, call, gives = 1, single(events[at]), answers[at]
        calls.append(call)
        due.append(gives)
        at += n
    return calls, due + ['close: ok', NOTHING_LEFT]


def check_random(players, bench, seed):
    setup, events = in_form('clients, seed %d' % seed, EVENTS)
    events = (['w ' + line for line in setup] + events)[:EVENTS]
    answers = printed_by(bench, events)
    if len(answers) != EVENTS:
        return ['the bench gave %d answers to %d events' % (len(answers), EVENTS)]
    calls, due = as_calls(random.Random(seed), events, answers)
    with ThreadPoolExecutor(2) as pool:
        runs = list(pool.map(lambda player: played(player, bench, calls)[0], players.values()))
    kept('random.calls', '\n'.join(calls) + '\n')
    found = [(name, first_difference(given, due)) for name, given in zip(players, runs)]
    several = sum(call[0] in 'WR' for call in calls)
    print('clients: %d random events in %d calls, %d of them I2C, through %s' % (EVENTS, len(calls), several, ', '.join(players)))
    return ['random events: %s: %s; the calls are %s' % (name, wrong, made('random.calls')) for name, wrong in found if wrong]


# Calls whose answers are worked out here, on the bench itself.

LONG = '12 12 12 13 9E' + ' C3 A1' * 15 + ' FF 14 FE'
ON = ['w 06 04', 'w 03 21', 'w 09 07']


def symbols_of(bench, events):
    """The symbols that the last of these events sends."""
    return printed_by(bench, events)[-1].split(' ', 2)[2]


def directed(bench):
    """Name, calls, what they give."""
    message = symbols_of(bench, ['w 03 21'] + ['w 43 ' + octet for octet in LONG.split()] + ['w 43 A1'])
    yield 'no octets', ['W 43', 'R 43 0', 'W FF', 'i'], ['ok 1 - taken 0', 'ok 1 - taken 0 -', 'ok 1 - taken 0', '1']
    yield 'the address goes up', ['W 02 44 45 46', 'r 02', 'r 03', 'r 04', 'R 01 4'], \
        ['ok 1 - taken 3', '=44 1 -', '=45 1 -', '=46 1 -', '=46 1 - taken 4 91 44 45 46']
    yield 'the address stays at 43', ['m 0 41 00', 'R 42 20'], ['ok 1 -', 'no8 1 - taken 8 10 E0 41 00 BB 6C BB A8']
    yield 'the first refusal ends the call', ['W 10 01 02 03', 'W 3C 00 00', 'W 44 00', 'R 11 2', 'R FF 2', 'r 10'], \
        ['no1 1 - taken 1', 'no2 1 - taken 0', 'no1 1 - taken 0', 'no1 1 - taken 0 -', 'no1 1 - taken 0 -', '=01 1 -']
    yield 'INT_N', [*ON, 'i', 'w 09 46', 'i', 'W 43', 'r 3E', 'i'], \
        ['ok 1 -'] * 3 + ['1', 'ok 0 07 07 07 19', '0', 'ok 0 - taken 0', '=08 1 -', '1']
    yield 'a message and a Hard Reset in one call', [*ON, 'W 43 ' + LONG, 'W 06 05 00 02 46', 'R 3E 1'], \
        ['ok 1 -'] * 3 + ['ok 1 - taken 38', 'ok 0 %s 07 07 07 19 taken 4' % message, '=08 1 - taken 1 08']
    lengths = [*('m 0' + ' 00' * n for n in (31, 34, 35, 300)), *('p 0' + ' 00' * n for n in (35, 300)), 'm 0', 'm 0 00', 'p 0']
    yield 'packets too long and too short', lengths, ['no9 1 -'] * len(lengths)
    yield 'numbers too large', ['t 1001', 't 10000000', 't 4294967295', 'p 5 00', 'm 10000000', 'p 4294967295'], \
        ['no10 1 -'] * 3 + ['no11 1 -'] * 3
    measured = ['w 06 04', 'w 0B 04', 'w 02 04']
    yield 'voltages', [*measured, 'v 1230 0 4000', 'i', 'R 40 3', 'v 0 65535 65535', 'r 40', 'w 02 08', 'R 40 3', 'v 0 0 0', 'i'], \
        ['ok 1 -'] * 3 + ['ok 0 -', '0', '=81 1 - taken 3 83 28 81', 'ok 0 -', '=80 0 -', 'ok 0 -', '=21 1 - taken 3 A3 28 21', 'ok 0 -', '0']
    yield 'two models', [
        'o 0', 'w 03 21', 'o 1', 'r 03', 'w 03 22', 'o 2', 'o 0', 'r 03', 'x', 'o 1', 'r 03', 'o 0', 'r 03', 'x', 'o 2', 'r 03'], \
        ['ok 1 -', '=20 1 -', 'ok 1 -', '=21 1 -', 'close: ok', '=22 1 -', '=20 1 -', 'close: ok', '=20 1 -', *['close: ok'] * 2]
    yield 'too many events', ['n 9999998', 't 0', 't 0', 'r 01', 'W 02 00 00', 'W 02', 'i'], \
        ['ok 1 -', *['error: ' + MANY] * 2, *['error: %s taken 0' % MANY] * 2, '1', 'close: ' + MANY]
    yield 'too many events in one call', ['n 9999997', 'R 01 4'], ['error: %s taken 2 91 03' % MANY, 'close: ' + MANY]
    yield 'standard input closed', ['c', 'r 01', 'o 1', 'r 01'], [*['=91 1 -'] * 2, *['close: ok'] * 2]


def without_taken(line):
    """An error of the Python client is raised, and has no outcome beside it."""
    return re.sub(r'^(error: .*?) taken \d+.*', r'\1', line)


def check_calls(players, bench, name, calls, due, limit_ms=LONG_MS, **more):
    due = due + ([] if due and due[-1].startswith('close: ') else ['close: ok']) + [NOTHING_LEFT]
    for player, command in players.items():
        given, seconds = played(command, bench, calls, limit_ms, **more)
        lines = [[without_taken(line) for line in some] if player == 'Python' else some for some in (given, due)]
        wrong = first_difference(*lines)
        if wrong:
            yield '%s: %s: %s' % (name, player, wrong)
        # One call may wait; those after it give the error at once.
        elif seconds > limit_ms / 1000 + BUSY:
            yield '%s: %s: took %.1f s' % (name, player, seconds)


# Programs in the bench's place.

TALK = '#!/bin/sh\nread -r setup; read -r events\n'


def answering(text):
    """A program that gives this to every event. `text` is for printf."""
    return TALK + "while read -r event; do printf '%s'; done\n" % text


MALFORMED = {
    'nonsense': 'hello\\n', 'an empty line': '\\n', 'no level': 'ok\\n', 'no symbols': 'ok 1\\n', 'a level of 2': 'ok 2 -\\n',
    'a CR': 'ok 1 -\\r\\n', 'more behind it': 'ok 1 - 00\\n', 'a space behind it': 'ok 1 - \\n', 'two spaces': 'ok 1  -\\n',
    'a space before it': ' ok 1 -\\n', 'no0': 'no0 1 -\\n', 'no12': 'no12 1 -\\n', 'no13': 'no13 1 -\\n', 'no01': 'no01 1 -\\n',
    'no': 'no 1 -\\n', 'no100': 'no100 1 -\\n', 'half a symbol': 'ok 1 1\\n', 'a small digit': 'ok 1 1a\\n',
    'a symbol of 32': 'ok 1 20\\n', 'a symbol that is no hex': 'ok 1 0G\\n', '74 symbols': 'ok 1' + ' 18' * 74 + '\\n', 'a NUL': 'ok\\000 1 -\\n',
    'an octet in place of done': '=04 1 -\\n', 'two lines': 'ok 1 -\\nok 1 -\\n', 'a line and a half': 'ok 1 -\\nok',
    'bad line': 'bad line 3\\n', 'too long a line': 'ok 1' + ' 18' * 100 + '\\n', 'a long word': 'o' * 256, 'capitals': 'OK 1 -\\n',
}
MALFORMED_VALUES = {
    'done in place of an octet': 'ok 1 -\\n', 'one digit': '=4 1 -\\n', 'three digits': '=040 1 -\\n', 'no digit': '= 1 -\\n',
    'a small digit in a value': '=0a 1 -\\n',
}
NEVER_READS = '''#!/usr/bin/env python3
import fcntl, os, struct, termios, time
seen, until = len('0\\n9999999\\n'), time.monotonic() + 60
while time.monotonic() < until:
    waiting = struct.unpack('i', fcntl.ioctl(0, termios.FIONREAD, bytes(4)))[0]
    if waiting > seen:
        seen = waiting
        os.write(1, b'ok 1 -\\n')
    time.sleep(0.0002)
'''


def failing(error):
    """What two events give in a model that has failed, and its end."""
    return ['error: ' + error] * 2 + ['close: ' + error]


def standins():
    """Name, program, time limit, calls, what they give."""
    two, once = ['w 03 21', 'w 03 21'], "read -r e; echo 'ok 1 -'; "
    for name, text in MALFORMED.items():
        yield name, answering(text), LONG_MS, two, failing(FORM)
    for name, text in MALFORMED_VALUES.items():
        yield name, answering(text), LONG_MS, ['r 01', 'r 01'], failing(FORM)
    yield '73 symbols three times', answering('ok 1' + ' 18' * 73 + '\\n'), LONG_MS, ['W 02 00 00 00', 'W 02'], \
        ['error: %s taken 1' % FORM, 'error: %s taken 0' % FORM, 'close: ' + FORM]
    yield 'speaks unasked', TALK + "read -r e; echo 'ok 1 -'; sleep 0.2; echo 'ok 1 -'; read -r e\n", LONG_MS, \
        ['w 03 21', 's 4000', *two], ['ok 1 -', *failing(FORM)]
    yield 'no line end', TALK + "read -r e; printf 'ok 1 -'; exec sleep 60\n", SHORT_MS, two, failing(FORM)
    yield 'no line end, and ends', TALK + "read -r e; printf 'ok 1 -'\n", LONG_MS, two, failing(FORM)
    yield 'one character after the other', TALK + 'read -r e; while :; do printf o; sleep 0.2; done\n', SHORT_MS, two, failing(FORM)
    yield 'ends at once', '#!/bin/sh\nexit 0\n', LONG_MS, two, failing(ENDED)
    yield 'ends after the first event', TALK + "read -r e; echo 'ok 1 -'\n", LONG_MS, ['t 0', *two], ['ok 1 -', *failing(ENDED)]
    yield 'is killed', TALK + once + 'read -r e; kill -9 $$\n', LONG_MS, ['t 0', *two], ['ok 1 -', *failing(ENDED)]
    yield 'closes its output', TALK + 'exec >&-; exec sleep 60\n', LONG_MS, two, failing(ENDED)
    yield 'closes its input', TALK + "read -r e; exec <&-; echo 'ok 1 -'; exec sleep 60\n", SHORT_MS, ['t 0', 's 200', *two], \
        ['ok 1 -', *failing(SILENT)]
    yield 'never answers', '#!/bin/sh\nexec sleep 60\n', 300, two, failing(SILENT)
    yield 'never answers, among signals', '#!/bin/sh\nexec sleep 60\n', 300, ['a', *two], failing(SILENT)
    yield 'answers late, among signals', TALK + "while read -r e; do sleep 0.3; echo 'ok 1 -'; done\n", LONG_MS, \
        ['a', *two], ['ok 1 -'] * 2
    yield 'does not end', TALK + once + 'read -r e; exec sleep 60\n', SHORT_MS, ['t 0'], ['ok 1 -', 'close: ' + SILENT]
    yield 'answers in pieces', TALK + "while read -r e; do printf 'o'; sleep 0.1; printf 'k 1 '; sleep 0.1; echo 07; done\n", LONG_MS, \
        two, ['ok 1 07'] * 2


def check_never_reads(players, path, name, calls, limit_ms):
    """It is answered until the text that nobody reads has no room any more."""
    for player, command in players.items():
        given, _ = played(command, path, calls, limit_ms)
        answered = given.count('ok 1 -')
        due = ['error: ' + SILENT] * (len(calls) - answered) + ['close: ' + SILENT, NOTHING_LEFT]
        wrong = first_difference(given[answered:], due)
        if wrong or not 100 < answered < 1000:
            yield '%s: %s: after %d answers %s' % (name, player, answered, wrong)


def check_events(players, bench):
    """The directed calls, and those to other programs. These are made first: one that is being written cannot be started."""
    checks = [(check_calls, bench, *case) for case in directed(bench)]
    for name, text, limit_ms, calls, due in standins():
        checks.append((check_calls, program(name, text), name, calls, due, limit_ms))
    checks.append((check_never_reads, program('never reads', NEVER_READS), 'never reads', ['p 0' + ' 00' * 34] * 1000, SHORT_MS))
    with ThreadPoolExecutor(6) as pool:
        wrongs = pool.map(lambda check: list(check[0](players, *check[1:])), checks)
        print('clients: %d directed conversations, most with programs that answer wrongly, late or not at all' % len(checks))
        return [wrong for found in wrongs for wrong in found]


def running(pid):
    """Whether a process is there and more than a remainder."""
    try:
        with open('/proc/%d/stat' % pid) as file:
            return file.read().rpartition(')')[2].split()[0] != 'Z'
    except (FileNotFoundError, ProcessLookupError):
        return False


def check_grandchild(players):
    """What the program has started ends with it when it is ended by force."""
    for name, command in players.items():
        told = made('grandchild of ' + name.replace(' ', '_'))
        path = program('starts another for ' + name, '#!/bin/sh\nsleep 60 &\necho $! >"%s"\nwait\n' % told)
        given, _ = played(command, path, ['t 0', 't 0'], SHORT_MS)
        wrong = first_difference(given, failing(SILENT) + [NOTHING_LEFT])
        if not os.path.exists(told) or not os.path.getsize(told):
            yield 'starts another: %s: it never did' % name
            continue
        with open(told) as file:
            pid = int(file.read())
        until = time.monotonic() + 2
        while running(pid) and time.monotonic() < until:
            time.sleep(0.01)
        if wrong or running(pid):
            yield 'starts another: %s: %s' % (name, wrong or 'its child still runs')


def check_opening(players, bench):
    """What cannot be started, and what is found in PATH."""
    folder = made('folder')
    os.makedirs(folder, exist_ok=True)
    shutil.copy(bench, os.path.join(folder, 'bench'))
    two, found, none = ['w 03 21', 'r 03'], {'PATH': folder + ':' + os.environ['PATH']}, {'PATH': made('nowhere')}
    kept('not executable', '#!/bin/sh\n')
    cases = [
        (made('no_such_path'), 'No such file or directory', {}), (made('not_executable'), 'Permission denied', {}),
        (folder, 'Permission denied', {}), (program('no program', 'text\n'), 'Exec format error', {}),
        ('bench', 'No such file or directory', {**found}), ('-', 'No such file or directory', {**none}),
        (os.path.join(kept('a file', ''), 'bench'), 'Not a directory', {}),
    ]
    for path, why, more in cases:
        due = ['open: %s: %s' % (START, why), *['error: ' + CLOSED] * 2, 'close: ' + CLOSED]
        yield from check_calls(players, path, 'opens ' + path, two, due, cwd=MADE, env={**os.environ, **more})
    through = program('through', '#!/usr/bin/env bash\nexec %s <"${1:-/dev/stdin}"\n' % os.path.abspath(bench))
    for path in ('-', through, 'folder/bench'):
        yield from check_calls(players, path, 'opens ' + path, two, ['ok 1 -', '=21 1 -'], cwd=MADE, env={**os.environ, **found})


RECORD = '''#!/usr/bin/env python3
import sys
with open(%r, 'w') as kept:
    for n, line in enumerate(sys.stdin):
        kept.write(line)
        kept.flush()
        if n > 1:
            print('=00 1 -' if line[0] == 'r' else 'ok 1 -', flush=True)
'''


def check_text(players):
    """The lines that a client writes, its CRCs among them, against zlib."""
    rng = random.Random(0)
    calls, due = ['w 0A F0', 'r 3C', 't 0', 't 9999999', 'h', 'p 4', 'p 0 01 AB', 'v 0 0 0', 'v 1230 65535 4000'], ['0', '9999999']
    due += calls
    for n in list(range(31)) * 3:
        octets = rng.choice([rng.randbytes(n), bytes(n), b'\xff' * n, b'\xc3\xa1' * (n // 2) + bytes(n % 2)])
        calls.append(('m %d %s' % (n % 5, octets.hex(' ').upper())).strip())
        due.append('p %d %s' % (n % 5, (octets + zlib.crc32(octets).to_bytes(4, 'little')).hex(' ').upper()))
    for name, command in players.items():
        told = made('recorded')
        given, _ = played(command, program('records', RECORD % told), calls)
        with open(told) as file:
            wrong = first_difference(file.read().splitlines(), due)
        if wrong or given[-1] != NOTHING_LEFT:
            yield 'text written: %s: %s' % (name, wrong or given[-1])


# The examples.

def extracted(path, mark):
    """The lines of a head comment that stand four columns in, without them."""
    with open(path) as file:
        lines = [line.rstrip('\n') for line in file]
    return [line[len(mark):] for line in lines[:40] if line.startswith(mark)]


def ran(command, **more):
    try:
        run = subprocess.run(command, capture_output=True, text=True, timeout=SECONDS, **more)
    except subprocess.TimeoutExpired:
        return 'no end within %d seconds' % SECONDS
    return run.stdout + run.stderr + ('' if run.returncode == 0 else 'ended with %d\n' % run.returncode)


def check_head_examples(bench):
    """Ten lines each, run where target/bin/bench is the bench."""
    place = made('place')
    os.makedirs(os.path.join(place, 'target', 'bin'), exist_ok=True)
    shutil.copy(bench, os.path.join(place, 'target', 'bin', 'bench'))
    c = extracted(os.path.join(ROOT, 'clients', 'c', 'fusb302.h'), ' *     ')
    python = extracted(os.path.join(ROOT, 'clients', 'python', 'fusb302.py'), '    ')[:10]
    source, script = kept('reset.c', '\n'.join(c) + '\n'), kept('reset.py', '\n'.join(python) + '\n')
    if len(c) != 10 or python[-1] != '    print(error)':
        yield 'head examples: %d lines of C, and the Python ends %r' % (len(c), python[-1])
    path = {**os.environ, 'PYTHONPATH': os.path.join(ROOT, 'clients', 'python')}
    wanted = 'INT_N 1, 4 symbols left\n'
    runs = [(ran([compiled('reset', SANITIZED, source, CLIENT)], cwd=place), wanted + 'ok\n'),
            (ran([sys.executable, script], cwd=place, env=path), wanted + '43 is refused with 8\n')]
    for given, due in runs:
        wrong = first_difference(given.splitlines(), due.splitlines())
        if wrong:
            yield 'head example: ' + wrong


def check_firmware(bench):
    for port, expected in (('port', 'expected.txt'), ('port_cut', 'expected_cut.txt')):
        sources = [os.path.join(FIRMWARE, name + '.c') for name in ('main', 'driver', port)]
        firmware = compiled('firmware_' + port, SANITIZED, *sources, CLIENT)
        with open(os.path.join(FIRMWARE, expected)) as file:
            wrong = first_difference(ran([firmware, bench]).splitlines(), file.read().splitlines())
        if wrong:
            yield 'examples/firmware with %s.c: %s' % (port, wrong)


def check_threads(bench):
    said = ran([compiled('threads', ['-O2', '-pthread'], os.path.join(ROOT, 'tests', 'clients', 'threads.c')), bench])
    if said:
        yield 'models in threads: ' + said


def raises(kind, call, *arguments):
    try:
        call(*arguments)
    except kind:
        return []
    return ['Python: %s%r does not raise %s' % (call.__name__, arguments, kind.__name__)]


def check_python(bench):
    """What only Python has: numbers that are no octets, a call broken off, a model that is closed twice."""
    with Fusb302(bench) as model:
        for call, *arguments in ((model.write, 256, 0), (model.write, 0, -1), (model.read, -1), (model.pass_time, -1),
                                 (model.hear_packet, -1, b''), (model.hear_packet, 0, [256]), (model.i2c_read, 1, -1),
                                 (model.set_pins, 65536, 0, 0), (model.set_pins, 0, 65536, 0), (model.set_pins, 0, 0, 65536),
                                 (model.set_pins, -1, 0, 0), (model.set_pins, 0, -1, 0), (model.set_pins, 0, 0, -1)):
            yield from raises(ValueError, call, *arguments)
        yield from raises(TypeError, model.set_pins, 0, 3.3, 0)
        for call in (model.i2c_write, model.hear_packet, model.hear_packet_with_crc):
            yield from raises(TypeError, call, 0, 5)
        if model.read(0x03).value != 0x20 or model._events != 1:
            yield 'Python: a call that raised has asked something of the model'
    model.close()
    yield from raises(NotOpen, model.read, 0x03)
    late = program('answers late', TALK + "read -r e; sleep 2; echo '=00 1 -'; read -r e; echo '=01 1 -'\n")
    model = Fusb302(late, LONG_MS / 1000)
    signal.signal(signal.SIGALRM, signal.default_int_handler)
    signal.setitimer(signal.ITIMER_REAL, 0.5)
    yield from raises(KeyboardInterrupt, model.read, 0x03)
    time.sleep(3)
    try:
        yield 'Python: a call after one that was broken off gives %r' % (model.read(0x03),)
    except Silent as error:
        if 'broken off' not in str(error):
            yield 'Python: a call after one that was broken off says %s' % error
    model.close()


def say_times(players, bench):
    """How long an event takes as a line to the bench and a line back."""
    calls = ['r 41', 't 1', 'w 02 44', 'r 02'] * (TIMED // 4)
    times, due = {}, None
    for name, command in players.items():
        runs = [played(command, bench, calls) for _ in range(3)]
        times[name] = min(seconds for _, seconds in runs)
        due = due or runs[0][0]
        if len(due) < TIMED or any(given != due for given, _ in runs):
            yield 'timed: %s: answers otherwise, so its time says nothing' % name
    figures = ', '.join('%s %.1f' % (name, seconds / TIMED * 1e6) for name, seconds in times.items())
    print('clients: %d events over a pipe, microseconds an event: %s' % (TIMED, figures))


def main():
    if len(sys.argv) not in (2, 3):
        sys.exit(__doc__)
    bench, seed = os.path.abspath(sys.argv[1]), int(sys.argv[2]) if len(sys.argv) == 3 else 13
    shutil.rmtree(MADE, ignore_errors=True)
    os.makedirs(MADE)
    every = players()
    wrongs = check_random(every, bench, seed)
    wrongs += check_events(every, bench)
    for found in (check_grandchild(every), check_opening(every, bench), check_text(every), check_head_examples(bench),
                  check_firmware(bench), check_threads(bench), check_python(bench), say_times(every, bench)):
        wrongs += found
    for wrong in wrongs:
        print('clients: ' + wrong)
    if wrongs:
        sys.exit('clients: %d checks failed' % len(wrongs))


main()
