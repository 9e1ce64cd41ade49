#!/usr/bin/env python3
"""Plays calls from standard input through the Python client, and prints what each gives, as play.c does."""
import os
import signal
import sys
import time

sys.path.insert(0, os.path.join(os.path.dirname(os.path.abspath(__file__)), '..', '..', 'clients', 'python'))
from fusb302 import Error, Fusb302, NotOpen  # noqa: E402

BUSY = 6


def hexes(octets):
    return ' '.join('%02X' % octet for octet in octets) or '-'


def printed(outcome):
    """The outcome as the bench prints it."""
    reply = 'no%d' % outcome.number if outcome.refused else 'ok' if outcome.value is None else '=%02X' % outcome.value
    return '%s %d %s' % (reply, outcome.int_n, hexes(outcome.symbols))


class Player:
    def __init__(self, bench, limit_ms):
        self.bench, self.limit = None if bench == '-' else bench, limit_ms / 1000
        self.models, self.chosen, self.closed = {}, 0, 0

    def model(self):
        if self.chosen not in self.models:
            self.models[self.chosen] = None
            try:
                self.models[self.chosen] = Fusb302(self.bench, self.limit)
            except Error as error:
                print('open: %s: %s' % (error.text, os.strerror(error.__cause__.errno)))
        if self.models[self.chosen] is None:
            raise NotOpen
        return self.models[self.chosen]

    def close(self):
        model, before, text = self.models.pop(self.chosen), time.monotonic(), 'ok'
        try:
            if model is None:
                raise NotOpen
            # Closing is quiet in Python: the error that the model is in is looked up, so that both clients say the same here.
            if model._error is not None:
                text = model._error.text
            model.close()
        except Error as error:
            text = error.text
        print('close:', text)
        if time.monotonic() - before > self.limit + BUSY:
            print('close took %f s' % (time.monotonic() - before))

    def i2c(self, model, letter, words):
        address = int(words[0], 16)
        if letter == 'W':
            outcome = model.i2c_write(address, bytes.fromhex(''.join(words[1:])))
        else:
            outcome = model.i2c_read(address, int(words[1]))
        line = '%s taken %d' % (printed(outcome), outcome.taken)
        return line + ' ' + hexes(outcome.octets) if letter == 'R' else line

    def event(self, model, letter, words):
        if letter == 'w':
            return model.write(int(words[0], 16), int(words[1], 16))
        if letter == 'r':
            return model.read(int(words[0], 16))
        if letter == 't':
            return model.pass_time(int(words[0]))
        if letter == 'h':
            return model.hear_hard_reset()
        if letter == 'v':
            return model.set_pins(*map(int, words))
        hear = model.hear_packet if letter == 'm' else model.hear_packet_with_crc
        return hear(int(words[0]), bytes.fromhex(''.join(words[1:])))

    def answer(self, model, letter, words):
        if letter == 'i':
            return str(model.int_n)
        if letter in 'WR':
            return self.i2c(model, letter, words)
        outcome = self.event(model, letter, words)
        line = printed(outcome)
        if outcome.taken != (letter in 'wr' and not outcome.refused) or model.int_n != outcome.int_n:
            line += ' taken %d, INT_N %d' % (outcome.taken, model.int_n)
        return line

    def play(self, line):
        letter, *words = line.split()
        if letter == 'c':
            os.close(0)
            self.closed += 1
            return
        if letter == 'a':
            signal.signal(signal.SIGALRM, lambda *_: None)
            signal.setitimer(signal.ITIMER_REAL, 0.001, 0.001)
            return
        try:
            if letter == 'o':
                self.chosen = int(words[0])
            model = self.model()
            if letter == 'x':
                self.close()
            elif letter == 's':
                time.sleep(int(words[0]) / 1000)
            elif letter == 'n':
                model._events = int(words[0])
            elif letter != 'o':
                print(self.answer(model, letter, words))
        except Error as error:
            if letter == 'x':
                self.close()
            elif letter != 'o':
                print('error: ' + error.text)

    def close_all(self):
        for self.chosen in sorted(self.models):
            self.close()


def child():
    try:
        os.waitpid(-1, os.WNOHANG)
    except ChildProcessError:
        return 'no child'
    return 'a child'


def descriptors():
    return len(os.listdir('/proc/self/fd'))


def main():
    # A write that nobody reads must not end the caller, also where it has not ignored the signal.
    signal.signal(signal.SIGPIPE, signal.SIG_DFL)
    player = Player(sys.argv[1], int(sys.argv[2]))
    lines = sys.stdin.readlines()
    before, start = descriptors(), time.monotonic()
    for line in lines:
        player.play(line)
    seconds = time.monotonic() - start
    player.close_all()
    signal.setitimer(signal.ITIMER_REAL, 0)
    print('left: %d descriptors, %s' % (descriptors() - before + player.closed, child()))
    print('%.6f' % seconds, file=sys.stderr)


main()
