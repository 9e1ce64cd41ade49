#!/usr/bin/env python3
"""The line code's CRC against zlib's crc32 (Python's module zlib): an outside program, not ours.

    tests/crc_vectors.py FILTER [SEED]

FILTER is the line code as a program (tests/crc.c). 4,000 messages of 2 to 30 octets, the check value of "123456789",
and each octet value alone between two others.
"""
import random
import subprocess
import sys
import zlib


def messages(seed):
    rng = random.Random(seed)
    yield b'123456789'
    for value in range(256):
        yield bytes([0xC3, value, 0xA1])
    for count in range(4000):
        yield bytes(rng.randrange(256) for _ in range(2 + count % 29))


def main():
    seed = int(sys.argv[2]) if len(sys.argv) > 2 else 20
    every = list(messages(seed))
    text = b''.join(bytes([len(message)]) + message for message in every)
    sums = subprocess.run([sys.argv[1]], input=text, capture_output=True, check=True).stdout
    if sums[:4] != 0xCBF43926.to_bytes(4, 'little'):
        sys.exit('crc vectors: the check value is wrong')
    if len(sums) != 4 * len(every):
        sys.exit('crc vectors: %d octets for %d messages' % (len(sums), len(every)))
    for at, message in enumerate(every):
        ours, theirs = int.from_bytes(sums[4 * at:4 * at + 4], 'little'), zlib.crc32(message)
        if ours != theirs:
            sys.exit('crc vectors: seed %d: %s gives %08X, zlib says %08X' % (seed, message.hex(' '), ours, theirs))
    print('crc vectors: %d messages agree with zlib %s' % (len(every), zlib.ZLIB_RUNTIME_VERSION))


main()
