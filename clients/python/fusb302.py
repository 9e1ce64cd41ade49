"""The model of the FUSB302B for firmware in Python 3, with the standard library alone.

From the project's folder: PYTHONPATH=clients/python python3 reset.py (where the processor is not x86-64, open './bench')

    from fusb302 import Error, Fusb302
    try:
        with Fusb302('target/bin/bench') as model:
            model.write(0x03, 0x21)
            reset = model.write(0x09, 0x46)
            print('INT_N %d, %d symbols left' % (reset.int_n, len(reset.symbols)))
            refused = model.read(0x43)
            print('43 is refused with %d' % refused.number)
    except Error as error:
        print(error)

What the model answers is an Outcome, a refusal too. That it does not answer is an Error: NotStarted, Ended, OutOfForm, Silent,
TooManyEvents or NotOpen. After an error the model stays in it: every later event raises it again at once, and closing is quiet.
A number that is no octet, no voltage of a pin, or below 0, is a ValueError, and nothing is asked of the model.
Models are independent of each other. One model is for one thread at a time.
"""
import operator
import os
import re
import select
import signal
import subprocess
import time
import zlib
from typing import Iterable, NamedTuple, NoReturn, Optional, Type

SOP, SOP_PRIME, SOP_DOUBLE_PRIME, SOP_PRIME_DEBUG, SOP_DOUBLE_PRIME_DEBUG = range(5)

_PORT = 0x43
_LINE = 256  # the longest line of the bench, its LF among it
_DECIMAL_MOST = 9_999_999  # the largest decimal of the bench's text, and so the most events
_PACKET_MOST = 34
_VOLTAGE_MOST = 65_535
_LONGEST = 1_000_000  # seconds that one wait can last
_FRAME_SYMBOLS, _CALL_SYMBOLS = 73, 77  # a call over 06 and 09 can send a message and a Hard Reset
# The bench always lends enough symbols, and so never says no12.
_REPLY, _SYMBOL = rb'ok|=([0-9A-F]{2})|no([1-9]|1[01])', rb'[01][0-9A-F]'
_ANSWER = re.compile(rb'(%s) ([01]) (-|%s(?: %s){0,%d})\n' % (_REPLY, _SYMBOL, _SYMBOL, _FRAME_SYMBOLS - 1))


class Error(Exception):
    """Why the model did not answer."""
    text = 'no error'

    def __init__(self, why: str = ''):
        super().__init__(self.text + (': ' + why if why else ''))


class NotStarted(Error):
    text = 'the bench cannot be started'


class Ended(Error):
    text = 'the model ended'


class OutOfForm(Error):
    text = 'the model answered out of form'


class Silent(Error):
    text = 'the model did not answer within the time limit'


class TooManyEvents(Error):
    text = 'more than 9,999,999 events'


class NotOpen(Error):
    text = 'no model is open'


class Outcome(NamedTuple):
    """What came of a call; `refused` is true exactly when `number` is not 0, and then what
    was refused has changed nothing."""
    value: Optional[int] = None  # the octet that was read last, if one was
    number: int = 0              # why it was refused, 1 to 11, else 0
    int_n: int = 1               # the level of INT_N: 0 is low, an interrupt waits
    symbols: bytes = b''         # the symbols that left
    taken: int = 0               # how many octets were written or read
    octets: bytes = b''          # the octets that were read

    @property
    def refused(self) -> bool:
        return self.number != 0


def _hex(octets: Iterable[int]) -> str:
    return ''.join(' %02X' % octet for octet in octets)


def _decimal(number: int) -> str:
    """A decimal. One that is too large for the bench's text is refused like the largest that is not."""
    if operator.index(number) < 0:
        raise ValueError('%d is below 0' % number)
    return ' %d' % min(number, _DECIMAL_MOST)


def _voltage(pin: str, millivolts: int) -> str:
    """A decimal that is a voltage. One that is too large would end the bench's text as a bad line."""
    if not 0 <= operator.index(millivolts) <= _VOLTAGE_MOST:
        raise ValueError('%s at %d mV is outside 0 to %d' % (pin, millivolts, _VOLTAGE_MOST))
    return ' %d' % millivolts


def _milliseconds(until: float) -> float:
    return min(max(0, until - time.monotonic()), _LONGEST) * 1000


class Fusb302:
    """A model at power-up. `bench` is the path of the bench program, or None for the one named bench in PATH. No call takes
    longer than `limit` seconds."""

    def __init__(self, bench: Optional[str] = None, limit: float = 5.0):
        self._limit = min(limit, _LONGEST)
        self._events = 0
        self._int_n = 1
        self._error: Optional[Error] = NotOpen()
        self._start(bench)
        self._error = None
        # No setup writes, and as many events as the text can promise.
        self._send(b'0\n%d\n' % _DECIMAL_MOST, self._until())

    def __enter__(self) -> 'Fusb302':
        return self

    def __exit__(self, *_: object) -> None:
        self.close()

    # The events, one each.

    def write(self, address: int, value: int) -> Outcome:
        return self._call('w', address, bytes([value]))

    def read(self, address: int) -> Outcome:
        return self._call('r', address, bytes(1))

    def pass_time(self, microseconds: int) -> Outcome:
        """Microseconds pass, 0 to 1,000; more are refused with 10."""
        return self._event('t' + _decimal(microseconds), self._until())

    def hear_packet(self, kind: int, message: Iterable[int]) -> Outcome:
        """A packet is heard: a message of 2 to 30 octets, and its CRC behind them. Other lengths are refused with 9."""
        octets = bytes(iter(message))
        return self.hear_packet_with_crc(kind, octets + zlib.crc32(octets).to_bytes(4, 'little'))

    def hear_packet_with_crc(self, kind: int, octets: Iterable[int]) -> Outcome:
        """A packet is heard whose last four octets are its CRC, right or wrong: 6 to 34 octets. Other lengths are refused
        with 9."""
        # One octet too many is refused like any more, and the line stays short.
        return self._event('p' + _decimal(kind) + _hex(bytes(iter(octets))[:_PACKET_MOST + 1]), self._until())

    def hear_hard_reset(self) -> Outcome:
        return self._event('h', self._until())

    def set_pins(self, cc1: int, cc2: int, vbus: int) -> Outcome:
        """The pins are at these voltages from here on, in millivolts, 0 to 65,535; another is a ValueError. All are 0 at
        power-up, and SW_RES keeps them. Never refused."""
        return self._event('v' + _voltage('CC1', cc1) + _voltage('CC2', cc2) + _voltage('VBUS', vbus), self._until())

    # What an I2C driver does: octets to or from an address, one event each. The address goes up by one from octet to octet, and
    # stays when it is 43, the FIFO port. The first refusal ends the call. The outcome is that of the last octet that was asked
    # for, with all that were taken and all symbols that left, in their order. No octets: no event.

    def i2c_write(self, address: int, octets: Iterable[int]) -> Outcome:
        return self._call('w', address, bytes(iter(octets)))

    def i2c_read(self, address: int, n: int) -> Outcome:
        return self._call('r', address, bytes(n))

    @property
    def int_n(self) -> int:
        """The level of INT_N after the last event, and 1 at power-up."""
        return self._int_n

    def close(self) -> None:
        """Ends the model. One that does not end within the time limit is ended by force, and Silent is raised; one in error is
        ended at once, and nothing is. A second call does nothing."""
        if isinstance(self._error, NotOpen):
            return
        in_step = self._error is None or isinstance(self._error, TooManyEvents)
        self._error = NotOpen()
        for end in (self._input, self._input_kept, self._output):
            end.close()
        # The end of its input ends the bench; what is out of step is not waited for, and neither is what it started.
        if not in_step:
            self._kill()
            return
        try:
            self._bench.wait(self._limit)
        except subprocess.TimeoutExpired:
            self._kill()
            raise Silent() from None

    def _kill(self) -> None:
        try:
            os.killpg(self._bench.pid, signal.SIGKILL)
        except ProcessLookupError:
            pass
        self._bench.kill()
        self._bench.wait()

    def _start(self, bench: Optional[str]) -> None:
        # A path without a slash is a path all the same, and is not looked for in PATH.
        program = 'bench' if bench is None else os.path.join(os.curdir, bench)
        pipes = []
        try:
            for _ in range(2):
                pipes += [open(end, mode, buffering=0) for end, mode in zip(os.pipe(), ('rb', 'wb'))]
            # While the other end of its input is open here, no write meets a pipe without a reader, and SIGPIPE never comes.
            self._input_kept, self._input, self._output, output = pipes
            os.set_blocking(self._input.fileno(), False)
            # A session of its own: a key that interrupts the caller leaves the bench alone, and what it starts ends with it.
            self._bench = subprocess.Popen([program], stdin=self._input_kept, stdout=output, start_new_session=True)
            output.close()
            self._room, self._answers = select.poll(), select.poll()
            self._room.register(self._input, select.POLLOUT)
            self._answers.register(self._output, select.POLLIN)
        except (OSError, ValueError) as error:
            for end in pipes:
                end.close()
            raise NotStarted(str(error)) from error

    def _until(self) -> float:
        return time.monotonic() + self._limit

    def _call(self, letter: str, address: int, octets: bytes) -> Outcome:
        """Writes or reads as many octets, until one is refused."""
        until = self._until()
        whole = Outcome(int_n=self._int_n)
        bytes([address])  # raises what is no octet, also where none is asked for
        if self._error is not None:
            self._raise_again()
        for octet in octets:
            line = letter + _hex([address, octet] if letter == 'w' else [address])
            one = self._event(line, until)
            whole = Outcome(
                whole.value if one.value is None else one.value, one.number, one.int_n, whole.symbols + one.symbols,
                whole.taken + (not one.refused), whole.octets + one.octets)
            if len(whole.symbols) > _CALL_SYMBOLS:
                self._fail(OutOfForm, 'more symbols than one call can send')
            if one.refused:
                break
            # The FIFO port stays (004, note 10).
            address = address + (address != _PORT) & 0xFF
        return whole

    def _event(self, line: str, until: float) -> Outcome:
        """One event: its line and its answer. An error stays in the model."""
        if self._error is not None:
            self._raise_again()
        if self._events == _DECIMAL_MOST:
            self._fail(TooManyEvents)
        self._events += 1
        # What breaks the call off before its answer leaves the model out of step.
        self._error = Silent('a call was broken off')
        self._nothing_unasked()
        self._send(line.encode() + b'\n', until)
        outcome = self._outcome(line[0] == 'r', self._receive(until))
        self._error = None
        self._int_n = outcome.int_n
        return outcome

    def _raise_again(self) -> NoReturn:
        assert self._error is not None
        raise self._error.with_traceback(None)

    def _fail(self, error: Type[Error], why: str = '') -> NoReturn:
        self._error = error(why)
        raise self._error

    def _nothing_unasked(self) -> None:
        """A line that nobody asked for would be taken for the answer to the next event."""
        if self._answers.poll(0):
            self._fail(OutOfForm if self._output.read(1) else Ended)

    def _send(self, text: bytes, until: float) -> None:
        """A short line goes into a pipe whole or not at all; it waits only for a bench that does not read."""
        while self._input.write(text) is None:
            if not self._room.poll(_milliseconds(until)):
                self._fail(Silent)

    def _receive(self, until: float) -> bytes:
        """One line of answer. What came and is no line is out of form."""
        held = b''
        while len(held) < _LINE and b'\n' not in held:
            if not self._answers.poll(_milliseconds(until)):
                self._fail(OutOfForm if held else Silent, repr(held) if held else '')
            some = self._output.read(_LINE - len(held))
            if not some:
                self._fail(OutOfForm if held else Ended, repr(held) if held else '')
            held += some
        return held

    def _outcome(self, is_read: bool, answer: bytes) -> Outcome:
        match = _ANSWER.fullmatch(answer)
        if match is None:
            self._fail(OutOfForm, repr(answer))
        reply, value, number, level, symbols = match.groups()
        if number is None and is_read != (value is not None):
            self._fail(OutOfForm, repr(answer))
        octets = bytes.fromhex(value.decode()) if value else b''
        sent = b'' if symbols == b'-' else bytes.fromhex(symbols.decode())
        return Outcome(octets[0] if octets else None, int(number or 0), int(level), sent, 0, octets)
