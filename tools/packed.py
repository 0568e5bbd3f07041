#!/usr/bin/env python3
"""How small logs pack as they are and stored in strips: prints a table of sizes in bytes, in markdown.

    packed.py

The logs are those of the outside model's register, the same at every run: 4,095 rows, as many as whole operations fill. Its processors take
turns at random, of 1 to 30 words, or in rotation, a word each. The readings written are random, of 32 bits, or slow: each is the one
before or next to it. With bands, about half of the reads end with one, up to 5 wide on either side of the result.
"""

import bz2
import gzip
import lzma
import sys

sys.dont_write_bytecode = True

from model import MAX_ROWS, banded, bytes_of, fresh_register, store_file, take_turn
from verdict_logs import dice

ROWS = MAX_ROWS - 1
PACKERS = {
    'gzip -9': lambda data: gzip.compress(data, 9),
    'bzip2 -9': lambda data: bz2.compress(data, 9),
    'xz -9': lambda data: lzma.compress(data, preset=9),
}


def random_readings(pick):
    while True:
        yield pick(1 << 32)


def slow_readings(pick):
    reading = 1000
    while True:
        reading += pick(3) - 1
        yield reading


def random_turns(pick, n):
    while True:
        yield from [pick(n + 1)] * (1 + pick(30))


def rotation(pick, n):
    while True:
        yield from range(n + 1)


def log(n, readings, turns):
    """Every processor begins anew when it has ended."""
    pick = dice(n)
    values = readings(pick)
    register = fresh_register(n, next(values))
    for p in turns(pick, n):
        take_turn(register, p, lambda: next(values))
        if register.used == ROWS:
            return register.log[:ROWS]


def logs():
    for readings, what in (random_readings, 'random'), (slow_readings, 'slow'):
        for turns, how in (random_turns, 'random'), (rotation, 'rotation'):
            for n in 1, 4, 16:
                yield n, what, how, log(n, readings, turns)
    for n in 1, 4, 16:
        yield n, 'slow, bands', 'random', banded(dice(n), log(n, slow_readings, random_turns), 5)


def sizes(plain, stored):
    """Of a log and its strips, and by how much the second differs."""
    return f'{plain}, {stored} ({round(100 * (stored - plain) / plain):+} %)'


def main():
    print('| readers | readings | turns |', ' | '.join(['log, strips', *PACKERS]), '|')
    print('|---' * (4 + len(PACKERS)) + '|')
    for n, what, how, rows in logs():
        data = bytes_of(rows)
        stored = store_file(data)
        packed = [sizes(len(pack(data)), len(pack(stored))) for pack in PACKERS.values()]
        print(f'| {n} | {what} | {how} |', ' | '.join([sizes(len(data), len(stored)), *packed]), '|')


if __name__ == '__main__':
    main()
