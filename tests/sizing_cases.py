#!/usr/bin/env python3
"""Random inputs for the program sizing, the same at every run, and what the outside model prints for them.

    sizing_cases.py OUTDIR COUNT

Writes COUNT input files to OUTDIR/inputs and, to OUTDIR/expected, their prints one behind the other in sorted order; prints how often each answer
was met. In turn: a sizing, of 0 to 17 readers in turn, with numbers of every size and about the limits; and one that is spoilt, in ways of
drill_cases.py in turn.
"""

from collections import Counter

from cases import counted, in_turn, run, written
from drill_cases import (
    WORD, byte_changed, cut_short, field_added, field_dropped, line, long, more_before, more_behind, nothing, sign_added, space_added, too_large,
    unended)
from model import MAX_EACH, MAX_READERS, must, sizing
from verdict_logs import dice, one_of

MOST = 2047  # operations, for which 4,095 rows are due
ANSWERS = ('figures', 'refused 1', 'more than 2000', 'more than 4096 rows', 'bad line 1')


def numbers(pick):
    """Writes and reads: few; any; about 2,000 each; about as many in all as a log has rows for; any of 32 bits."""
    writes = pick(MAX_EACH + 1)
    near = max(0, MOST - writes - 2 + pick(5))
    return one_of(pick, (
        (pick(9), pick(30)), (writes, pick(MAX_EACH + 1)), (MAX_EACH - 2 + pick(5), pick(MAX_EACH + 3)), (writes, near), (near, writes),
        (pick(90), MAX_EACH - 2 + pick(5)), (pick(WORD), pick(WORD)), (pick(9), WORD - 1), (WORD - 1 - pick(9), pick(9))))


def a_sizing(pick, k):
    """The three fields, some with leading zeros; now and then any number of readers."""
    n = pick(WORD) if k % 40 == 0 else k % (MAX_READERS + 2)
    return [b'0' * one_of(pick, (0, 0, 0, pick(12))) + b'%d' % number for number in (n, *numbers(pick))]


SPOILT = (
    nothing, unended, cut_short, field_dropped, field_added, space_added, sign_added, too_large, byte_changed, more_behind, more_before, long)


def main(outdir, count):
    pick, tally = dice(2014), Counter()
    inputs = (in_turn(pick, a_sizing, line, SPOILT, k) for k in range(count))
    for _, print_ in written(outdir, 'inputs', '.txt', inputs, sizing):
        tally['figures' if print_.startswith('tickets') else print_[:-1]] += 1
    must(min(tally[answer] for answer in ANSWERS) > count // 50, 'every answer is common')
    print(counted(tally))


if __name__ == '__main__':
    run(main)
