#!/usr/bin/env python3
"""Random lists of calls for the registers as C calls them, and what the outside model says they leave.

    register_lists.py OUTDIR COUNT

Writes COUNT lists to OUTDIR/in, in turn of the first register and of the counted one, the same at every run, and to OUTDIR/expected
what tests/registers.c must print; to OUTDIR/one-at-a-time the same calls for tests/calls.c, and to OUTDIR/answered what it must print for them; then prints
how many calls were made and how often each refusal was met. Among the lists are ones of no readers and
of more than 16, tables and logs of wrong lengths, retirements in the midst of reads, words that are no calls, and too few places for answers.
"""

import sys
from collections import Counter
from pathlib import Path

sys.dont_write_bytecode = True
sys.path.insert(0, str(Path(__file__).resolve().parent.parent / 'tools'))

from model import LAST_STAMP, Counted, Register, answer_word, cells_of, counted_cells_of, make_calls
from verdict_logs import dice, one_of

TABLE, LOG, ANSWERS = 0xABAB << 48, 0xCDCD << 48, 0xEFEF << 48  # what the first word of each buffer holds; the next one more
LENGTHS = (0, 2, 3, 4, 5, 9, 20, 60, 200, 400, 4096, 4097)


def word(pick):
    return pick(1 << 32)


def list_of_calls(pick, n, count):
    """Bursts of one processor, begins; now and then a retirement, another processor or a word that is no call."""
    calls, burst, rare = [], 1 + pick(3 * n + 3), 20 + pick(200)
    while len(calls) < count:
        p = pick(n + 1)
        if pick(3):
            calls.append(1 << 32 | word(pick) if p == 0 else 2 << 32 | p)
        calls += [3 << 32 | p] * pick(burst)
        if pick(rare) == 0:
            calls.append(4 << 32 | (p if pick(2) else pick(n + 2)))
        if pick(30) == 0:
            calls.append(one_of(pick, (2, 3, 4)) << 32 | one_of(pick, (0, n + 1, word(pick))))
        if pick(900) == 0:
            calls.append(one_of(pick, (0, pick(1 << 32), 5 << 32, word(pick) << 32 | 1, (1 << 64) - 1)))
    return calls[:count]


def given(pick, k):
    """What a run is given: the register, its readers, start reading and fresh stamp; the cells and rows; the calls; places for answers."""
    counted = k % 2
    n = pick(19) if pick(3) == 0 else 1 + pick(5)
    fresh = one_of(pick, (0, 5, LAST_STAMP, LAST_STAMP - 1 - pick(4), LAST_STAMP - 1 - pick(20), word(pick)))
    needed = counted_cells_of(n) if counted else cells_of(n)
    cells = max(0, needed + one_of(pick, (0, 0, 0, 0, 1, 7, -1)))
    rows = one_of(pick, LENGTHS) if pick(4) == 0 else 20 + pick(400)
    calls = list_of_calls(pick, n, pick(900))
    places = pick(len(calls) + 1) if pick(12) == 0 else len(calls) + pick(2)
    return counted, n, word(pick), fresh, cells, rows, calls, places


def left(counted, n, start, fresh, cells, rows, calls, places):
    """The result, the buffers with the word behind each, and how often each refusal was met."""
    table, log, answers = ([mark + i for i in range(length)] for mark, length in ((TABLE, cells), (LOG, rows), (ANSWERS, places)))
    register = Counted() if counted else Register()
    answer = register.set_up(n, start, *[fresh] * counted, table, log)
    made = 0 if answer[0] == 'refused' else make_calls(register, calls, answers)
    result = answer[1] << 32 if answer[0] == 'refused' else made
    met = Counter(answer >> 32 for answer in answers[:made]) + Counter([result >> 32] if result >> 32 else [])
    return [result, *table, TABLE + cells, *log, LOG + rows, *answers, ANSWERS + places], made, met


def one_at_a_time(calls):
    """The calls in the words, but for begins of a read by processor 0, which is the writer where a begin is told its processor."""
    return [call for call in calls if 1 <= call >> 32 <= 4 and call != 2 << 32]


def ones(bytes_):
    """A field of so many bytes, each 1."""
    return int('01' * bytes_, 16)


# The fields of a state by their bytes: those of the head, of the writer and of a reader.
HEAD, WRITER, READER = (1, 1, 4, 8, 8), (1, 1, 4, 8, 1, 1, 1, 4), (1, 1, 1, 1, 1, 1, 8, 1, 1, 8)


def fresh_fields(counted, n, fresh, rows):
    """“the writer's stamp, at first (0,1); each reader's stamp, at first none”; a write has no ticket yet; the rest is 0."""
    return [counted, 0, n, rows, 1, 0, 0, 0, 0, 63, 0, 1, fresh * counted, *[0, 0, 0, 0, 63, 63, 0, 0, 0, 0] * 16]


def answered(counted, n, start, fresh, cells, rows, calls):
    """What tests/calls.c prints: a refused set-up leaves the state, which is out of range."""
    table, log, answers = [TABLE + i for i in range(cells)], [LOG + i for i in range(rows)], [4 << 32] * len(calls)
    register = Counted() if counted else Register()
    answer = register.set_up(n, start, *[fresh] * counted, table, log)
    if answer[0] == 'refused':
        fields = [ones(size) for size in HEAD + WRITER + READER * 16]
        standing = [1, ones(8), 1, *[2] * 16]
    else:
        make_calls(register, calls, answers)
        fields = fresh_fields(counted, n, fresh, rows)
        standing = [register.busy, register.used, *(int(operation is not None) for operation in register.open), *[0] * (16 - n)]
        for reader in register.retired:
            standing[2 + reader] = 2
    return [answer_word(answer), *fields, *answers, *standing, ones(8), ones(8), *table, TABLE + cells, *log, LOG + rows]


def line(words):
    return ' '.join(f'{word:x}' for word in words)


def main(outdir, count):
    pick = dice(3)
    made, met = [0, 0], [Counter(), Counter()]
    given_file, expected, calls_file, answered_file = (
        open(Path(outdir) / name, 'w') for name in ('in', 'expected', 'one-at-a-time', 'answered'))
    with given_file, expected, calls_file, answered_file:
        for k in range(count):
            *numbers, calls, places = run = given(pick, k)
            words, calls_made, refusals = left(*run)
            print(*numbers, len(calls), places, line(calls), file=given_file)
            print(line(words), file=expected)
            singly = one_at_a_time(calls)
            print(*numbers, len(singly), line(singly), file=calls_file)
            print(line(answered(*numbers, singly)), file=answered_file)
            made[k % 2] += calls_made
            met[k % 2] += refusals
    for name, calls, refusals in zip(('first', 'counted'), made, met):
        del refusals[0]
        print(f'{name} register, {calls} calls; refused', ', '.join(f'{k}: {refusals[k]}' for k in sorted(refusals)))


main(sys.argv[1], int(sys.argv[2]))
