#!/usr/bin/env python3
"""Random inputs for the program drill, the same at every run, and what the outside model prints for them.

    drill_cases.py OUTDIR COUNT

Writes COUNT input files to OUTDIR/inputs and, to OUTDIR/expected, their prints one behind the other in sorted order; the longest drill, of eight
turns each, to OUTDIR/longest.txt, its print to OUTDIR/longest.out; prints how often each answer was met, and how many lines the drills had.
In turn: a drill of up to 10 turns, now and then of up to 16, of which one processor has few; and one that is spoilt, in the ways listed below in turn.
"""

from collections import Counter
from pathlib import Path

from cases import counted, in_turn, run, written
from model import MAX_INPUT, drill, must
from verdict_logs import dice, one_of

WORD = 1 << 32
LONGEST = b'1 7 9 8 8\n'


# ---------------------------------------------------------------------------- Drills

def turns(pick, k):
    """Of the writer and of the reader."""
    if k % 7 == 0:
        length, few = 11 + pick(6), pick(4)
        return one_of(pick, ((few, length - few), (length - few, few)))
    length = 1 + pick(10)
    a = pick(length + 1)
    return a, length - a


def a_drill(pick, k):
    """The five fields, some with leading zeros; readers mostly so few that operations end."""
    n = one_of(pick, (1, 1, 1 + pick(3), 1 + pick(16)))
    readings = [one_of(pick, (7, 9, pick(WORD), WORD - 1)) for _ in range(2)]
    return [b'0' * one_of(pick, (0, 0, 0, pick(12))) + b'%d' % number for number in (n, *readings, *turns(pick, k))]


def line(fields):
    return b' '.join(fields) + b'\n'


# ---------------------------------------------------------------------------- Spoilt inputs
# Each is handed the fields of a drill; those that ask no more than some fields serve sizing_cases.py too. A few are none the worse for it.

def nothing(pick, fields):
    return one_of(pick, (b'', b'\n', b' '))


def unended(pick, fields):
    return line(fields)[:-1]


def cut_short(pick, fields):
    return line(fields)[:pick(len(line(fields)))]


def field_dropped(pick, fields):
    del fields[pick(len(fields))]
    return line(fields)


def field_added(pick, fields):
    fields.insert(pick(len(fields) + 1), b'%d' % pick(9))
    return line(fields)


def space_added(pick, fields):
    at = pick(len(fields))
    fields[at] = one_of(pick, (b' ' + fields[at], fields[at] + b' '))
    return line(fields)


def sign_added(pick, fields):
    at = pick(len(fields))
    fields[at] = one_of(pick, (b'+', b'-')) + fields[at]
    return line(fields)


def too_large(pick, fields):
    """A number of which the lower 32 bits would do."""
    at = pick(len(fields))
    fields[at] = b'%d' % (int(fields[at]) + WORD * one_of(pick, (1, 1 + pick(9), WORD)))
    return line(fields)


def byte_changed(pick, fields):
    data, at = line(fields), pick(len(line(fields)))
    byte = one_of(pick, (*b'\n\r\t\0 /:xw', pick(256)))
    return data[:at] + bytes([byte]) + data[at + pick(2):]


def more_behind(pick, fields):
    return line(fields) + one_of(pick, (b'\n', b' ', b'\0', b'1', line(fields), line(fields)[:-1], bytes(MAX_INPUT)))


def more_before(pick, fields):
    return one_of(pick, (b'\n', b'\xef\xbb\xbf', b'1 7\n')) + line(fields)


def no_turns(pick, fields):
    return line([*fields[:3], b'0', b'0'])


def too_many_turns(pick, fields):
    length = 17 + pick(one_of(pick, (1, 20, WORD - 17)))
    a = one_of(pick, (0, length, pick(length + 1)))
    return line([*fields[:3], b'%d' % a, b'%d' % (length - a)])


def turns_of_33_bits(pick, fields):
    """Of which the lower 32 would do, mostly."""
    a = one_of(pick, (WORD - 1 - pick(16), 17 + pick(WORD - 34)))
    b = WORD - a + pick(17)
    if b < WORD:
        fields[3:] = [b'%d' % number for number in one_of(pick, ((a, b), (b, a)))]
    return line(fields)


def strange_readers(pick, fields):
    return line([one_of(pick, (b'0', b'000', b'17', b'%d' % (17 + pick(WORD - 17)), b'4294967295')), *fields[1:]])


def strange_readers_and_worse(pick, fields):
    """A bad line comes before what n is."""
    fields[0] = one_of(pick, (b'0', b'17'))
    return one_of(pick, (unended, more_behind, no_turns, too_many_turns, turns_of_33_bits, field_dropped))(pick, fields)


def long(pick, fields):
    """About 65,536 bytes, by leading zeros."""
    at, length = pick(len(fields)), MAX_INPUT + one_of(pick, (-1, 0, 1, pick(100)))
    fields[at] = b'0' * (length - len(line(fields))) + fields[at]
    return line(fields)


SPOILT = (
    nothing, unended, cut_short, field_dropped, field_added, space_added, sign_added, too_large, byte_changed, more_behind, more_before, no_turns,
    too_many_turns, turns_of_33_bits, strange_readers, strange_readers_and_worse, long)


def main(outdir, count):
    pick, tally, drilled = dice(2011), Counter(), 0
    inputs = (in_turn(pick, a_drill, line, SPOILT, k) for k in range(count))
    for data, print_ in written(outdir, 'inputs', '.txt', inputs, drill):
        must('no order' not in print_, f'no order in the drill of {data[:80]!r}')
        lines = print_.splitlines()
        answer = lines[0] if lines[0] in ('bad line 1', 'refused 1') else 'drills'
        tally[answer] += 1
        drilled += len(lines) if answer == 'drills' else 0
    (Path(outdir) / 'longest.txt').write_bytes(LONGEST)
    (Path(outdir) / 'longest.out').write_text(drill(LONGEST))
    print(f'{counted(tally)}; lines of drills {drilled}')


if __name__ == '__main__':
    run(main)
