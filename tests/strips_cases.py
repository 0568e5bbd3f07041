#!/usr/bin/env python3
"""Logs and strips, the same at every run, for what stores and restores them, and what the outside model makes of each.

    strips_cases.py calls OUTDIR COUNT     writes COUNT calls of the two functions for C to OUTDIR/in, stores and restores in turn, and
                                           to OUTDIR/expected what tests/strips.c must print
    strips_cases.py files PROGRAM COUNT    runs the program strips on COUNT files, both ways in turn, and on wrong arguments, and stops
                                           at the first difference

Both print how often each answer was met. The logs are those of tests/host_logs.py, now and then at the greatest length or a row longer, with
places just enough, more, and too few. Most strips to restore are spoilt, in one of the ways listed below; some are longer than any log.
"""

import sys
import time
from collections import Counter
from pathlib import Path
from subprocess import PIPE, Popen

sys.dont_write_bytecode = True
sys.path.insert(0, str(Path(__file__).resolve().parent.parent / 'tools'))

from host_logs import changed, log_rows
from model import (
    MAX_INPUT, MAX_ROWS, Mismatch, banded, bytes_of, equal, must, pack_row, processor_of, random_log, restore, restore_file, store,
    store_file, strips_of)
from verdict_logs import dice, full_log, one_of

READ, WRITTEN = 0xABAB << 48, 0xCDCD << 48  # what the first word of a buffer holds that is read or written; the next one more
FULL = full_log()


# ---------------------------------------------------------------------------- Logs

def a_log(pick, k):
    """Every twentieth is long: a register's, or a random one with bands or without; some with a bit changed."""
    if k % 20:
        return log_rows(pick, k)
    length = MAX_ROWS - 1 + pick(3)
    rows = FULL if pick(4) == 0 else random_log(pick, 1 + pick(16), length, 4)
    rows = one_of(pick, (rows, banded(pick, rows, 1)))
    return one_of(pick, (rows, rows, changed(pick, rows)))


def places(pick, needed):
    """Just enough, more, one too few or none."""
    return max(0, needed + one_of(pick, (0, 0, 0, 0, 1, 9, -1, -needed)))


# ---------------------------------------------------------------------------- Spoilt strips
# Each is handed bytes and strips as lists, the second not empty, and spoils them in place.

def as_they_are(pick, data, strips):
    pass


def byte_changed(pick, data, strips):
    if data:
        data[pick(len(data))] = one_of(pick, (pick(17), pick(256)))


def swapped(pick, things):
    if things:
        i, j = pick(len(things)), pick(len(things))
        things[i], things[j] = things[j], things[i]


def bytes_swapped(pick, data, strips):
    swapped(pick, data)


def bytes_rearranged(pick, data, strips):
    for i in range(len(data)):
        j = i + pick(len(data) - i)
        data[i], data[j] = data[j], data[i]


def rows_swapped(pick, data, strips):
    swapped(pick, strips)


def neighbours_swapped(pick, data, strips):
    """Of the rows: mostly of one processor."""
    i = pick(len(strips))
    strips[i:i + 2] = strips[i:i + 2][::-1]


def row_changed(pick, data, strips):
    strips[:] = changed(pick, strips)


def row_dropped(pick, data, strips):
    del strips[pick(len(strips))]


def byte_dropped(pick, data, strips):
    del data[:1]


def row_and_byte_dropped(pick, data, strips):
    """Of one processor, so that they match."""
    if data:
        data.remove(processor_of(strips.pop(1 + pick(len(strips) - 1))))


def row_doubled(pick, data, strips):
    i = pick(len(strips))
    strips.insert(i, strips[i])


def byte_added(pick, data, strips):
    data.insert(pick(len(data) + 1), pick(17))


def none_at_all(pick, data, strips):
    for things in one_of(pick, ((data, strips), (data,), (strips,))):
        things.clear()


def falling(pick, data, strips):
    """By falling processor, each in log order."""
    strips[1:] = sorted(strips[1:], key=processor_of, reverse=True)


def renamed(pick, data, strips):
    """A processor becomes one that there is not, mostly both in the bytes and in the rows, which match then."""
    if not data:
        return
    old, new = one_of(pick, data), 17 + pick(239)
    rows = [row & ~(255 << 52) | new << 52 if processor_of(row) == old else row for row in strips[1:]]
    strips[1:] = sorted(rows, key=processor_of)
    if pick(4):
        data[:] = [new if p == old else p for p in data]


def lengthened(pick, data, strips):
    """Past 4,096 rows, mostly matching."""
    if data:
        times = 1 + MAX_ROWS // len(data)
        data *= times
        strips[1:] = [row for row in strips[1:] for _ in range(times)]
    one_of(pick, (as_they_are, as_they_are, byte_changed, byte_added, row_dropped))(pick, data, strips)


SPOILT = (
    as_they_are, as_they_are, as_they_are, byte_changed, bytes_swapped, bytes_rearranged, rows_swapped, neighbours_swapped, row_changed, row_dropped,
    byte_dropped, row_and_byte_dropped, row_doubled, byte_added, none_at_all, falling, renamed, lengthened)


def some_strips(pick, k):
    """The strips of a log, and often something wrong with them."""
    data, strips = strips_of(a_log(pick, k))
    data = list(data)
    one_of(pick, SPOILT)(pick, data, strips)
    return bytes(data), strips


def miscounted():
    """Strips whose counts would match if they were kept in 8, 12 or 16 bits, and longer ones that match."""
    head, write, begin = (pack_row(*row) for row in ((5, 1, 7), (1, 0, 5), (3, 1, 0)))
    for turn in (1 << 8, 1 << 12, 1 << 16):
        yield bytes(turn + 3) + b'\1' * 3, [head, *[write] * 3, *[begin] * (turn + 3)]
        yield b'', [head] + [begin] * turn
        yield b'\1' * turn, [head]
        yield b'\1' * turn, [head] + [begin] * turn


# ---------------------------------------------------------------------------- Calls from C

def words_left(mark, length, made=()):
    """A buffer and the word behind it, when its front has been filled."""
    return [*made, *(mark + i for i in range(len(made), length + 1))]


def bytes_left(length, made=b''):
    return [*made, *(0xC0 | i & 0x3F for i in range(len(made), length + 1))]


def stored(rows, byte_places, strip_places):
    """What tests/strips.c must print, as numbers."""
    answer = store(rows, byte_places, strip_places)
    number, data, strips = (answer, b'', []) if isinstance(answer, int) else (0, *answer)
    return [number, *words_left(READ, len(rows), rows), *bytes_left(byte_places, data), *words_left(WRITTEN, strip_places, strips)]


def restored(data, strips, log_places):
    """The same of restoring."""
    answer = restore(data, strips, log_places)
    number, rows = (answer, []) if isinstance(answer, int) else (0, answer)
    return [number, *bytes_left(len(data), data), *words_left(READ, len(strips), strips), *words_left(WRITTEN, log_places, rows)]


def call_cases(pick, count):
    """Letter, three lengths, what is read, and what must come of it."""
    for data, strips in miscounted():
        yield 'R', (len(data), len(strips), 5), [*data, *strips], restored(data, strips, 5)
    for k in range(count):
        if k % 2:
            data, strips = some_strips(pick, k // 2)
            lent = places(pick, len(strips))
            yield 'R', (len(data), len(strips), lent), [*data, *strips], restored(data, strips, lent)
        else:
            rows = [] if k % 200 == 0 else a_log(pick, k // 2)
            lent = places(pick, max(0, len(rows) - 1)), places(pick, len(rows))
            yield 'S', (len(rows), *lent), rows, stored(rows, *lent)


def line(words):
    return ' '.join(f'{word:x}' for word in words)


def told(tally):
    return ', '.join(f'{number}: {tally[number]}' for number in sorted(tally))


def calls(outdir, count):
    tallies = {'S': Counter(), 'R': Counter()}
    with open(Path(outdir) / 'in', 'w') as given, open(Path(outdir) / 'expected', 'w') as expected:
        for letter, lengths, words, wanted in call_cases(dice(12), count):
            print(letter, *lengths, line(words), file=given)
            print(line(wanted), file=expected)
            tallies[letter][wanted[0]] += 1
    print('store_strips', told(tallies['S']))
    print('restore_strips', told(tallies['R']))


# ---------------------------------------------------------------------------- The program

def log_file(pick, k):
    """A log as bytes; every fifth lacks some at its end."""
    data = bytes_of(a_log(pick, k))
    return data[:len(data) - pick(9)] if k % 5 == 0 else data


def strips_file(pick, k):
    """Strips as a file, every third of a log as it is; of some the count is wrong, or bytes are missing or too many at the end."""
    data, strips = some_strips(pick, k) if k % 3 else strips_of(a_log(pick, k))
    count = len(data) if k % 7 else one_of(pick, (len(data) + 1, len(data) + 8, pick(1 << 64), (1 << 64) - 8, 0))
    file = count.to_bytes(8, 'big') + data + bytes_of(strips)
    return one_of(pick, (file[:len(file) - pick(9)], file[:pick(20)], file + bytes(pick(9)))) if k % 5 == 0 else file


def edges():
    """Files about the lengths at which answers change."""
    longest = store_file(bytes_of(FULL))
    begun = [FULL[0]] + [pack_row(3, 1, 0)] * 7280  # no more fit into 65,536 bytes
    for data in b'', bytes(8), bytes_of(FULL), bytes_of(FULL) + bytes(8), bytes_of(FULL) + b'\0', bytes(1 << 18):
        yield 'store', data
    for data in b'', bytes(7), bytes(8), longest, bytes(MAX_INPUT), bytes(MAX_INPUT + 1), longest + bytes(MAX_INPUT), bytes(1 << 18):
        yield 'restore', data
    for count in (1 << 64) - 1, (1 << 64) - 8, 1 << 63, 1 << 32, (1 << 32) + MAX_ROWS - 1, MAX_ROWS:
        yield 'restore', count.to_bytes(8, 'big') + longest[8:]
    for rows in begun, begun[:MAX_ROWS + 1], begun[:MAX_ROWS]:
        data, strips = strips_of(rows)
        yield 'restore', len(data).to_bytes(8, 'big') + data + bytes_of(strips)


def file_cases(pick, count):
    yield from edges()
    for k in range(count // 2):
        yield 'store', log_file(pick, k)
        yield 'restore', strips_file(pick, k)


def run(program, words, data, in_parts=False):
    """What it writes to standard output and to standard error; half of its input may come a moment later."""
    with Popen([program, *words], stdin=PIPE, stdout=PIPE, stderr=PIPE) as process:
        if in_parts:
            half = len(data) // 2
            process.stdin.write(data[:half])
            process.stdin.flush()
            time.sleep(0.01)
            data = data[half:]
        return process.communicate(data)


def check_usage(program):
    """Wrong arguments: nothing on standard output, how to use it on standard error."""
    wrong = [], [''], ['-'], ['stor'], ['stores'], ['Store'], ['restor'], ['store', 'store'], ['restore', '-']
    for words in wrong:
        output, error = run(program, words, bytes_of(FULL))
        equal(output, b'', f'output with arguments {words}')
        for use in b'strips store < LOG > FILE', b'strips restore < FILE > LOG':
            must(use in error, f'no {use} on standard error with arguments {words}')
    return len(wrong)


def files(program, count):
    makers, tallies = {'store': store_file, 'restore': restore_file}, {'store': Counter(), 'restore': Counter()}
    for k, (word, data) in enumerate(file_cases(dice(2012), count)):
        made = makers[word](data)
        wanted = (b'', b'refused %d\n' % made) if isinstance(made, int) else (made, b'')
        in_parts = k % 4 == 3 and len(data) <= MAX_INPUT
        equal(run(program, [word], data, in_parts), wanted, f'strips {word}, file {k} of {len(data)} bytes')
        tallies[word][made if isinstance(made, int) else 0] += 1
    print('strips store', told(tallies['store']))
    print('strips restore', told(tallies['restore']))
    print(f'wrong arguments {check_usage(program)}')


if __name__ == '__main__':
    try:
        {'calls': calls, 'files': files}[sys.argv[1]](sys.argv[2], int(sys.argv[3]))
    except Mismatch as mismatch:
        sys.exit(f'mismatch: {mismatch}')
