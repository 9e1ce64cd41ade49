#!/usr/bin/env python3
"""How fast the bench and the peer are on one file of a million events: a measurement, not a test.

    tests/compare_speed.py BENCH PEER [EVENTS [SEED]]

Both should be built optimised. They read a file and write to /dev/null, in five runs that take turns; the best of five counts,
in seconds on the wall clock and, since other work may share the machine, in seconds of processor time.
"""
import os
import subprocess
import sys
import time

from texts import in_form, joined

RUNS = 5
TEXT = os.path.join(os.path.dirname(os.path.dirname(os.path.abspath(__file__))), 'target', 'tests', 'speed.in')


def seconds(program):
    """Wall clock and processor seconds of a run."""
    with open(TEXT, 'rb') as text:
        started = time.perf_counter()
        run = subprocess.Popen([program], stdin=text, stdout=subprocess.DEVNULL)
        _, status, usage = os.wait4(run.pid, 0)
        run.returncode = os.waitstatus_to_exitcode(status)
        return time.perf_counter() - started, usage.ru_utime + usage.ru_stime


def peak_kilobytes(program, text):
    """The most memory the program ever held, asked for while it waits for its last line."""
    # The resource usage of a child would also count what this process held before it became the program.
    with subprocess.Popen([program], stdin=subprocess.PIPE, stdout=subprocess.DEVNULL) as run:
        last = text.rindex(b'\n', 0, -1) + 1
        run.stdin.write(text[:last])
        run.stdin.flush()
        time.sleep(0.5)
        with open('/proc/%d/status' % run.pid, encoding='ascii') as status:
            peak = next(int(line.split()[1]) for line in status if line.startswith('VmHWM'))
        run.communicate(text[last:])
    return peak


def main():
    if not 3 <= len(sys.argv) <= 5:
        sys.exit(__doc__)
    programs = {'bench': sys.argv[1], 'peer': sys.argv[2]}
    events, seed = [int(word) for word in sys.argv[3:]] + [1_000_000, 20][len(sys.argv) - 3:]
    text = joined(*in_form('speed of seed %d' % seed, events))
    os.makedirs(os.path.dirname(TEXT), exist_ok=True)
    with open(TEXT, 'wb') as file:
        file.write(text)
    printed = {name: subprocess.run([path], input=text, stdout=subprocess.PIPE).stdout for name, path in programs.items()}
    if printed['bench'] != printed['peer']:
        sys.exit('compare speed: the two answer otherwise, so their times say nothing')
    print('{:,} events, {:.1f} MB in, {:.1f} MB out'.format(events, len(text) / 1e6, len(printed['peer']) / 1e6))
    runs = {name: [] for name in programs}
    for _ in range(RUNS):
        for name, path in programs.items():
            runs[name].append(seconds(path))
    best = {name: [min(column) for column in zip(*rows)] for name, rows in runs.items()}
    for name, path in programs.items():
        print('{:5}  {:.3f} s, {:.3f} s of processor time, at most {:,} kB'.format(name, *best[name], peak_kilobytes(path, text)))
    print('ratio  {:.2f}, {:.2f} of processor time'.format(*(mine / other for mine, other in zip(best['bench'], best['peer']))))


main()
