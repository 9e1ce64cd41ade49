#!/usr/bin/env python3
"""The program why against the peer, an independent program, and against the bench.

    tests/why_against_peer.py BENCH WHY PEER [SEED]

Long texts in form, with 1,200,000 events in all, half of them mostly packets; histories made for one rule each, the examples, and
1,000 short damaged texts. What why and the peer print is equal to the last character. And why has a line for each packet that the
bench answers, with its number, and no others: `leaves` exactly where the bench shows symbols, `refused N` where it says noN, and
the bench's bad line. Then how why ends, what it makes of its input, and whether each answer is there before the next line is given,
all as in bench_against_peer.py. A text on which something is wrong is kept under target/tests/.
"""
import os
import re
import sys
import time
from collections import Counter
from concurrent.futures import ProcessPoolExecutor
from itertools import chain

from bench_against_peer import (AT_ONCE, KEPT, NO_END, SECONDS, WORKERS, answers, both, damaged_name, endings, form_difference, in_order,
                                kept, last_end, raw_difference)
from frames_against_peer import unlike
from texts import Listening, Term, damaged, directed_lines, examples, extremes, in_form, joined

FILES, EVENTS = 12, 100_000
DAMAGED = 1_000
# What the peer and why say of a packet (02, A5), in the order of 01, and how often the long texts have to bring about each.
ANSWERS = ['refused 11', 'refused 9', 'kind off', 'CRC wrong', 'no room', 'it is a GoodCRC', 'AUTO_CRC off', 'AUTO_PRE on',
           'driver off', 'leaves']
FEWEST = 100
# The reasons that the bench's answer does not tell from each other.
NO_REPLY = b' no reply'
NOT_TOLD = re.compile(b' (%s)$' % '|'.join(ANSWERS[2:-1]).encode(), re.M)


def told(text, printed):
    """What the bench's answers to a text tell of what why prints."""
    lines, replies = text.split(b'\n'), printed.splitlines(keepends=True)
    bad = replies.pop() if replies and replies[-1].startswith(b'bad line') else b''
    # What comes before a bad line is in form.
    setup = int(lines[0]) if replies else 0
    due = []
    for number, (event, reply) in enumerate(zip(lines[setup + 2:], replies[setup:]), setup + 3):
        if event[:1] == b'p':
            refused, silent = re.match(rb'no(\d+) ', reply), reply.endswith(b' -\n')
            due.append(b'%d%s\n' % (number, b' refused ' + refused[1] if refused else NO_REPLY if silent else b' leaves'))
    return b''.join(due) + bad


def wrong_on(programs, name, text, parts=()):
    """What is wrong on a text, or None, and what why prints. Of a text in form, `parts` says what it was joined from."""
    bench, *pair = programs
    why, peer = both(pair, text)
    if NO_END in (why, peer):
        return '%s: no end within %d seconds; the text is %s' % (name, SECONDS, kept(name, text)), why
    if why != peer:
        return form_difference(pair, name, *parts) if parts else raw_difference(pair, name, text), why
    due = told(text, answers(bench, input=text))
    alike = NOT_TOLD.sub(NO_REPLY, why)
    if alike != due:
        return '%s: %s; the text is %s' % (name, unlike(alike, due, 'by the bench'), kept(name, text)), why
    return None, why


def long_text(programs, seed, number):
    """What is wrong on a text in form, or None, and which answers it brought about."""
    name = 'why %d of seed %d' % (number, seed)
    parts = *in_form(name, EVENTS, (Term, Listening)[number // 2 % 2]), last_end(number)
    wrong, why = wrong_on(programs, name, joined(*parts), parts)
    return wrong, Counter(line.partition(' ')[2] for line in why.decode('latin-1').splitlines())


def damaged_texts(programs, seed, first):
    """What is wrong on the first damaged text on which something is, and how many had a bad line, after answers or at all."""
    bad = Counter()
    for number in range(first, first + AT_ONCE):
        name = damaged_name(seed, number)
        wrong, why = wrong_on(programs, name, damaged(name))
        found = re.search(rb'^bad line \d+\n\Z', why, re.M)
        bad['any'] += found is not None
        bad['answered'] += found is not None and found.start() > 0
        if wrong:
            return wrong, bad
    return None, bad


def named_texts(programs, directed):
    """What is wrong on the first text on which something is, of those that are not made by chance."""
    in_parts = (wrong_on(programs, name, joined([], events), ([], events)) for name, events in directed.items())
    whole = (wrong_on(programs, name, text) for name, text in (extremes() | examples()).items())
    return next((wrong for wrong, _ in chain(in_parts, whole) if wrong), None)


def main():
    started = time.monotonic()
    if len(sys.argv) not in (4, 5):
        sys.exit(__doc__)
    bench, why, peer = sys.argv[1:4]
    programs = [bench], [why], [peer, 'why']
    seed = int(sys.argv[4]) if len(sys.argv) > 4 else 20
    os.makedirs(KEPT, exist_ok=True)
    wrong, met, bad, directed = [], Counter(), Counter(), directed_lines()
    with ProcessPoolExecutor(WORKERS) as workers:
        for _, found, some in in_order([workers.submit(long_text, programs, seed, n) for n in range(FILES)]):
            wrong.append(found)
            met += some
        firsts = range(0, DAMAGED, AT_ONCE)
        for _, found, some in in_order([workers.submit(damaged_texts, programs, seed, first) for first in firsts]):
            wrong.append(found)
            bad.update(some)
    wrong += [named_texts(programs, directed), *('why ' + one for one in endings(why, seed, b'p 5\n', Listening, b'p'))]
    wrong = [one for one in wrong if one]
    rarest = min(ANSWERS, key=lambda answer: met[answer])
    if not wrong and met[rarest] < FEWEST:
        wrong.append('the long texts bring about `%s` only %d times' % (rarest, met[rarest]))
    counted = '{:,} damaged texts ({any:,} with a bad line, {answered:,} of them after answers)'.format(DAMAGED, **bad)
    if not wrong and not 0 < bad['answered'] < bad['any'] < DAMAGED:
        wrong.append(counted)
    for one in wrong:
        print('why against peer: seed %d: %s' % (seed, one))
    if wrong:
        sys.exit(1)
    print('why against peer: {:,} packets among {:,} events in {} texts agree, and meet {} answers, the rarest {:,} times: {}'.format(
        sum(met.values()), FILES * EVENTS, FILES, len(met), met[rarest], rarest))
    print('why against peer: {} directed histories and {} agree, seed {}, {:.0f} s'.format(
        len(directed), counted, seed, time.monotonic() - started))


if __name__ == '__main__':
    main()
