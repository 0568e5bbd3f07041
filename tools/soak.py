#!/usr/bin/env python3
"""What the program soak prints, by the outside model: random lists of calls of both registers
for every number of readers, and a checksum of all that they leave.

    soak.py [ROUNDS]

For each n from 1 to 16 it runs so many rounds of each, 4 if no number is given, and prints a line
for each. A round is a set-up, a list of calls, and the judge on the used rows.
"""

import sys

sys.dont_write_bytecode = True

from model import LAST_STAMP, Counted, Register, judge, make_calls

WORD = (1 << 64) - 1
MARK = WORD  # what buffers hold before anything is written to them
SEED = 0x9E3779B97F4A7C15
CELLS = 280  # of every table, 8 more than 16 readers need
MOST_CALLS = 65536
LENGTHS = (3, 6, 17, 64, 300, 1024, 2500, 4096)  # of the log
WRITE, READ, STEP, RETIRE = (kind << 32 for kind in (1, 2, 3, 4))  # calls as words


def mix(x):
    """One step of xorshift64."""
    x ^= x << 13 & WORD
    x ^= x >> 7
    return x ^ x << 17 & WORD


def fold(sum_, word):
    """A checksum, with one more word."""
    return mix(sum_ ^ word) + SEED & WORD


class Source:
    """The calls of a round: mostly sub-steps of one processor after another, in bursts; begins;
    now and then a processor number out of range. One processor is passed over at first choice,
    and another one later. Now and then one is unplugged behind its burst."""

    def __init__(self, n, seed):
        self.x, self.n = mix(seed), n
        self.start = self.pick(4)
        self.rows = LENGTHS[self.pick(8)]
        self.burst = 1 + self.pick(4) * (n + 1)
        self.processor = self.left = self.paused = self.life = 0
        self.last = False  # whether the processor is unplugged behind its burst

    def pick(self, k):
        """A number from 0 to k-1."""
        self.x = mix(self.x)
        return (self.x >> 32) % k

    def calls(self):
        """As many calls as the log's length asks for."""
        self.renew()
        return [self.call() for _ in range(min(32 * self.rows, MOST_CALLS))]

    def renew(self):
        """Another life, of which a turn takes a burst: so long that mostly some readers are left
        when the log is full."""
        self.life = self.pick(11 * self.rows)
        self.last = False

    def call(self):
        if self.left > 0:
            self.left -= 1
            return STEP | self.processor
        if self.last:
            return self.unplug()
        self.turn()
        if self.life < self.burst:
            self.last = True
            return self.begin()
        self.life -= self.burst
        kind = self.pick(64)
        if kind == 0:
            return STEP | self.n + self.pick(3)
        if kind == 1:
            return READ | self.pick(self.n + 3)
        if kind == 2:
            return STEP | self.pick(1 << 32)
        if kind < 40:
            return self.begin()
        return STEP | self.processor

    def turn(self):
        """The next processor, its burst, and perhaps another one to pass over."""
        self.processor = self.pick(self.n + 1)
        if self.processor == self.paused:
            self.processor = self.pick(self.n + 1)
        self.left = self.pick(self.burst)
        if self.pick(128) == 0:
            self.paused = self.pick(self.n + 1)

    def unplug(self):
        """The processor whose turn it was, at times any number from 0 to n+1."""
        number = self.processor if self.pick(8) else self.pick(self.n + 2)
        self.renew()
        return RETIRE | number

    def begin(self):
        """Few readings, so that many writes have the same."""
        return WRITE | self.pick(4) if self.processor == 0 else READ | self.processor


def fresh_stamp(kind, word):
    """Of the counted register: 0, 5, one of the last 4, or any."""
    return (0, 5, LAST_STAMP - word % 4, word)[kind]


def set_up(counted, source):
    """A register of either sort, and the calls that the source has for it."""
    table, log = [MARK] * CELLS, [MARK] * source.rows
    if not counted:
        register = Register()
        register.set_up(source.n, source.start, table, log)
        return register, source.calls()
    register = Counted()
    fresh = fresh_stamp(source.pick(4), source.pick(1 << 32))
    register.set_up(source.n, source.start, fresh, table, log)
    return register, source.calls()


def round_of(counted, n, seed, sum_):
    """A round, folded: the answers, the whole table and log, the rows used, the number of open
    operations, the judge's answer and the order."""
    register, words = set_up(counted, Source(n, seed))
    answers = [MARK] * len(words)
    make_calls(register, words, answers)
    for word in answers + register.table + register.log + [register.used, register.busy]:
        sum_ = fold(sum_, word)
    answer = judge(register.log[:register.used])
    order = answer[1] if answer[0] == 'order' else []
    for word in [0 if answer[0] == 'order' else answer[1], len(order)] + order:
        sum_ = fold(sum_, word)
    return sum_


def soak_lines(rounds=4):
    for n in range(1, 17):
        for counted in (False, True):
            sum_ = SEED
            for k in range(rounds):
                sum_ = round_of(counted, n, SEED ^ (n << 32 | k), sum_)
            yield f'{"counted " if counted else ""}n {n}: {sum_:016x}'


if __name__ == '__main__':
    for line in soak_lines(*map(int, sys.argv[1:])):
        print(line)
