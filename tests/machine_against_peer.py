#!/usr/bin/env python3
"""The machine's definitions against the peer, an independent program, event by event: histories made for one rule each, and
random ones.

    tests/machine_against_peer.py PEER [SEED [HISTORIES [LENGTH]]]

The peer runs each history. Its replies, INT_N levels and symbols, and of each packet why it gets no GoodCRC, become theorems about
the definitions, each by refl, in a copy of the crates under target/, and the checker computes them all.
"""
import os
import random
import re
import shutil
import subprocess
import sys

from directed import directed
from histories import Histories, as_line

SCRATCH = 'target/tests/machine'

HEAD = '''-- Histories, with what another program answers.
-- Assumes nothing.
use mathlib.Core.Path.{◌≡◌, refl}
use mathlib.Core.Bool.{Bool, true, false}
use mathlib.Core.List.{List, [], ◌∷◌}
use mathlib.Core.Option.{Option, none, some}
use Prim.Native.Nat.{ℕ}
use Rattle.line.specs.Frame.{joined}
use Rattle.machine.specs.State.{State, power_up}
use Rattle.machine.specs.Status.{int_low}
use Rattle.machine.specs.Events.{Event, write, read, pass, hard_reset, packet, sense, Reply, done, value, no}
use Rattle.machine.specs.Step.{step}
use Rattle.machine.specs.Why.{Reason, refused, kind_off, crc_wrong, no_room, is_good_crc, auto_crc_off, auto_pre_on, driver_off, first_cause, why}
use Rattle.machine.proofs.Computing.{computed}

pub record Seen : Type 0 where
  pub reply : Reply
  pub low : Bool
  pub line : List ℕ
  pub told : Option (Option Reason)

abbrev o : Reply → Bool → List ℕ → Option (Option Reason) → Seen
o r l x w = record { reply = r; low = l; line = x; told = w }

asked : State → Event → Option (Option Reason)
asked s (write r a v) = none
asked s (read r a) = none
asked s (pass r n) = none
asked s (hard_reset r) = none
asked s (packet r k m) = some (why s k m)
asked s (sense r x y z) = none

seen : State → List Event → List Seen
seen s [] = []
seen s (e ∷ es) =
    o (step s e).reply (int_low (step s e).state) (joined (step s e).frames) (asked s e) ∷ seen (step s e).state es
'''

REASONS = {
    'refused 11': 'refused 11', 'refused 9': 'refused 9', 'kind off': 'kind_off', 'CRC wrong': 'crc_wrong', 'no room': 'no_room',
    'it is a GoodCRC': 'is_good_crc', 'AUTO_CRC off': 'auto_crc_off', 'AUTO_PRE on': 'auto_pre_on', 'driver off': 'driver_off',
}


def listed(items):
    return ' ∷ '.join(list(items) + ['[]'])


def as_term(event):
    if event[0] == 'w':
        return 'write 73 %d %d' % event[1:]
    if event[0] == 'r':
        return 'read 73 %d' % event[1]
    if event[0] == 't':
        return 'pass 73 %d' % event[1]
    if event[0] == 'h':
        return 'hard_reset 73'
    if event[0] == 'v':
        return 'sense 73 %d %d %d' % event[1:]
    return 'packet 73 %d (%s)' % (event[1], listed(map(str, event[2])))


def as_told(why):
    """Of no packet nothing; of a packet that it is answered, or why not."""
    if why is None:
        return 'none'
    return 'some none' if why == 'leaves' else 'some (some (%s))' % REASONS[why]


def as_seen(line, why):
    reply, level, symbols = line.split(' ', 2)
    if reply == 'ok':
        term = 'done'
    elif reply[0] == '=':
        term = 'value 0x' + reply[1:]
    else:
        term = 'no ' + reply[2:]
    sent = [] if symbols == '-' else ['0x' + symbol for symbol in symbols.split()]
    return 'o (%s) %s (%s) (%s)' % (term, 'true' if level == '0' else 'false', listed(sent), as_told(why))


def said(*command, text):
    return subprocess.run(command, input=text, capture_output=True, text=True, check=True).stdout.splitlines()


def theorem(number, peer, events):
    text = '0\n%d\n%s\n' % (len(events), '\n'.join(map(as_line, events)))
    lines = said(peer, text=text)
    assert len(lines) == len(events), 'the peer refused its input'
    told = dict(line.split(' ', 1) for line in said(peer, 'why', text=text))
    seen = [as_seen(line, told.get(str(at))) for at, line in enumerate(lines, 3)]
    return '\nt%d : seen power_up (%s) ≡ %s\nunfolding computed int_low asked why first_cause seen\nt%d = refl\n' % (
        number, listed(map(as_term, events)), listed(seen), number)


def main():
    peer = sys.argv[1]
    seed, count, length = [int(word) for word in sys.argv[2:5]] + [20, 60, 250][len(sys.argv) - 2:]
    named = directed()
    maker = Histories(random.Random(seed))
    for number in range(count):
        named['random history %d of seed %d' % (number, seed)] = maker.history(length)
    names = list(named)
    shutil.rmtree(SCRATCH, ignore_errors=True)
    os.makedirs(SCRATCH)
    for folder in ('crates/line', 'crates/machine'):
        shutil.copytree(folder, os.path.join(SCRATCH, folder))
    with open(SCRATCH + '/crates.txt', 'w', encoding='utf-8') as crates:
        crates.write('line:\nmachine: line\n')
    with open(SCRATCH + '/crates/machine/proofs/Tried.antt', 'w', encoding='utf-8') as tried:
        tried.write(HEAD)
        for number, name in enumerate(names):
            tried.write(theorem(number, peer, named[name]))
    with open(SCRATCH + '/crates/machine/proofs/Lib.antt', 'a', encoding='utf-8') as lib:
        lib.write('pub mod Tried\n')
    run = subprocess.run(['rt', 'check'], cwd=SCRATCH + '/crates/machine', capture_output=True, text=True)
    if run.returncode != 0:
        report = run.stdout + run.stderr
        wrong = re.search(r'Tried\.antt[^\n]*`t(\d+)`', report)
        sys.exit('machine against peer: %s' % (names[int(wrong.group(1))] if wrong else report[-400:]))
    print('machine against peer: %d directed histories and %d random ones of %d events agree, seed %d' % (
        len(names) - count, count, length, seed))


main()
