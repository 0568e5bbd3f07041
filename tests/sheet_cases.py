#!/usr/bin/env python3
"""Random logs for the program sheet, the same at every run, and what the outside model prints for them.

    sheet_cases.py OUTDIR COUNT

Writes COUNT log files to OUTDIR/logs and, to OUTDIR/expected, their prints one behind the other in sorted order; prints how often each answer was
met, and the largest total of lags.
In turn: a log of tests/host_logs.py, mostly without a sheet; a register's log, its processors at paces of their own; a log that has an order, but is not a
register's. Of the latter two, about half have bands. Every fiftieth is about 4,096 rows long: as it is, with a result replaced, or with a bit of one row changed.
"""

from collections import Counter

from cases import counted, run, written
from host_logs import changed, log
from model import MAX_ROWS, banded, bytes_of, damaged, random_log, sheet_print
from sheet_logs import explained, paced_log
from verdict_logs import dice, one_of


def paces(pick):
    """Turns of a writer and of 1 to 16 readers."""
    most = 1 + pick(12)
    return [1 + pick(most) for _ in range(2 + pick(16))]


def with_sheet(pick, k):
    """A log that has an order."""
    readings = 1 + pick(one_of(pick, (2, 6, 400)))
    if k % 50 == 0:
        return explained(pick, random_log(pick, 1 + pick(16), MAX_ROWS - 1 + pick(3), readings))
    if k % 3 == 2 and pick(2) == 0:
        return explained(pick, random_log(pick, 1 + pick(16), 1 + pick(300), readings))
    rows = paced_log(pick, paces(pick), pick(readings), 1 + pick(300), readings)
    return explained(pick, rows) if k % 3 == 2 else rows


def a_log(pick, k):
    """As bytes."""
    if k % 3 == 0 and k % 50:
        return log(pick, k // 3)
    rows = with_sheet(pick, k)
    rows = one_of(pick, (rows, banded(pick, rows, 1 + pick(3))))
    if k % 50 == 0:
        rows = one_of(pick, (rows, rows, damaged(pick, rows, 5), changed(pick, rows)))
    return bytes_of(rows)


def main(outdir, count):
    pick, tally, largest = dice(2010), Counter(), 0
    logs = (a_log(pick, k) for k in range(count))
    for _, print_ in written(outdir, 'logs', '.log', logs, sheet_print):
        last = print_.splitlines()[-1].split()
        if last[0] == 'all':
            largest = max(largest, int(last[-1]))
        tally[{'all': 'sheet', 'no': 'no order'}.get(last[0], ' '.join(last))] += 1
    print(f'{counted(tally)}; largest total of lags {largest}')


if __name__ == '__main__':
    run(main)
