#!/usr/bin/env python3
"""A code is not a voltage (02, A1): programs that put one number where the other is meant do not compile.

    tests/code_is_no_voltage.py

Each edit is made on a copy of the crates under target/, and the compiler must refuse it by the types.
"""
import os
import shutil
import subprocess
import sys

SCRATCH = 'target/tests/types'
PINS = 'crates/fusb302/src/pins.rt'
EDITS = {
    'the code for the reference': ('let reference = MdacCode::of(measure).reference(MDAC_STEP_CC);', 'let reference = MdacCode::of(measure);',
                                   'expected `Millivolts`, found `MdacCode`'),
    'the register for the reference': ('let reference = MdacCode::of(measure).reference(MDAC_STEP_CC);', 'let reference = measure;',
                                       'expected `Millivolts`, found `u8`'),
    'the register for the code': ('MdacCode::of(measure).reference(MDAC_STEP_VBUS)', 'measure.reference(MDAC_STEP_VBUS)',
                                  'no method named `reference` found for type `u8`'),
    'a voltage for the code': ('MdacCode::of(measure).reference(MDAC_STEP_VBUS)', 'self.pins.vbus.reference(MDAC_STEP_VBUS)',
                               'no method named `reference` found for type `Millivolts`'),
    'a bare number for a threshold': ('vbus.above(VBUS_THRESHOLD)', 'vbus.above(4000)', 'expected `Millivolts`, found an integer'),
}


def said_of(text):
    with open(os.path.join(SCRATCH, PINS), 'w', encoding='utf-8') as file:
        file.write(text)
    run = subprocess.run(['rt', 'check'], cwd=SCRATCH + '/crates/fusb302', capture_output=True, text=True)
    return run.returncode, run.stdout + run.stderr


def main():
    shutil.rmtree(SCRATCH, ignore_errors=True)
    for folder in ('crates/line', 'crates/machine', 'crates/fusb302'):
        shutil.copytree(folder, os.path.join(SCRATCH, folder))
    with open(SCRATCH + '/crates.txt', 'w', encoding='utf-8') as crates:
        crates.write('line:\nmachine: line\nfusb302: machine line\n')
    with open(PINS, encoding='utf-8') as file:
        pins = file.read()
    code, said = said_of(pins)
    if code != 0:
        sys.exit('code is no voltage: without an edit: ' + said[-400:])
    for name, (old, new, expected) in EDITS.items():
        if pins.count(old) != 1:
            sys.exit('code is no voltage: %s: its text is not there once' % name)
        code, said = said_of(pins.replace(old, new))
        errors = [line for line in said.splitlines() if 'error[' in line]
        if code == 0 or not errors or expected not in errors[0]:
            sys.exit('code is no voltage: %s: %s' % (name, errors[0] if errors else said[-400:]))
    print('code is no voltage: %d programs that take one for the other do not compile' % len(EDITS))


main()
