#!/usr/bin/env python3
"""The acceptance files: programs with the bench's standard input against answers worked out from 01 and 02 by hand.

    tests/acceptance.py BENCH WHY PEER

Each tests/cases/NAME.in is run on the bench and the peer, each tests/cases/why/NAME.in on why and `PEER why`, and what is printed
compared with NAME.out, to the last character. A name says its rule. What README shows of three files of examples/, line by line
beside the answers of the bench or of why, is a case each.
"""
import os
import re
import subprocess
import sys
from itertools import product

ROOT = os.path.dirname(os.path.dirname(os.path.abspath(__file__)))
CASES = os.path.join(ROOT, 'tests', 'cases')
CASES_OF_WHY = os.path.join(CASES, 'why')
SECONDS = 20
# Headings of README, the file that each shows, and from which line on.
README = [('Attach code', 'attach.txt', 1), ('A plug that is silent', 'silent_plug.txt', 23)]
README_OF_WHY = [('Why was there no GoodCRC?', 'no_goodcrc.txt', 1)]


def contents(path):
    with open(path, 'rb') as file:
        return file.read()


def cases(folder):
    """Every case of a folder by its name: how it is compared, input and expected output."""
    names = {}
    for file in sorted(os.listdir(folder)):
        name, kind = os.path.splitext(file)
        if kind in ('.in', '.out'):
            names.setdefault(name, set()).add(kind)
    lonely = [name for name, kinds in names.items() if len(kinds) != 2]
    if lonely or not names:
        sys.exit('acceptance: %s' % ('only one of .in and .out: ' + ', '.join(lonely) if lonely else 'no cases'))
    return {name: (wrong, *(contents(os.path.join(folder, name + kind)) for kind in ('.in', '.out'))) for name in names}


def shown_in_readme(heading, example, first):
    """A file of examples/, and the answers that README shows beside its lines from this one on; `..` stands for more symbols."""
    section = contents(os.path.join(ROOT, 'README.md')).decode().split('### %s\n' % heading)[1].split('\n### ')[0]
    lines = [re.split(' {2,}', line.split('#')[0].strip()) for line in section.split('```text\n')[-1].split('```')[0].splitlines()]
    text = contents(os.path.join(ROOT, 'examples', example))
    if [line[0].encode() for line in lines] != text.splitlines()[first - 1:]:
        sys.exit('acceptance: README shows another examples/%s' % example)
    return text, [line[1].encode() for line in lines if len(line) > 1]


def shown(readme):
    return {'README, ' + heading: (unlike_shown, *shown_in_readme(heading, *example)) for heading, *example in readme}


def answered(command, text):
    """What the program prints, or how it ended if not by itself."""
    try:
        run = subprocess.run(command, input=text, capture_output=True, timeout=SECONDS)
    except subprocess.TimeoutExpired:
        return b'does not end within %d seconds' % SECONDS
    return b'ended by signal %d' % -run.returncode if run.returncode < 0 else run.stdout


def unlike_shown(command, text, shown):
    """How the end of the program's answer differs from what README shows of it, or None."""
    last = answered(command, text).splitlines()[-len(shown):]
    given = [line[:len(due) - 2] + b'..' if due.endswith(b' ..') else line for line, due in zip(last, shown)]
    return None if given == shown else 'its last lines are %s, in README %s' % (last, shown)


def wrong(command, text, expected):
    """How the program's answer differs from what is expected, or None."""
    printed = answered(command, text)
    if printed == expected:
        return None
    given, due = printed.split(b'\n'), expected.split(b'\n')
    at = next((n for n, (one, other) in enumerate(zip(given, due)) if one != other), min(len(given), len(due)))
    return 'output line %d is %s, expected %s' % (at + 1, *(lines[at] if at < len(lines) else 'missing' for lines in (given, due)))


def main():
    if len(sys.argv) != 4:
        sys.exit(__doc__)
    bench, why, peer = sys.argv[1:]
    of_bench, of_why = cases(CASES) | shown(README), cases(CASES_OF_WHY) | shown(README_OF_WHY)
    runs = [*product(([bench], [peer]), of_bench.items()), *product(([why], [peer, 'why']), of_why.items())]
    failed = 0
    for command, (name, (differs, text, expected)) in runs:
        found = differs(command, text, expected)
        if found:
            failed += 1
            print('acceptance: %s: %s: %s' % (' '.join(command), name, found))
    print('acceptance: %d of %d passed (%d cases of the bench, %d of why, 2 programs each)' % (
        len(runs) - failed, len(runs), len(of_bench), len(of_why)))
    sys.exit(failed > 0)


main()
