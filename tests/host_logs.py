#!/usr/bin/env python3
"""Random logs for the judge as C calls it, and the numbers the outside model gives them.

    host_logs.py OUTDIR COUNT

Writes COUNT log files to OUTDIR, the same at every run, and prints a line for each in sorted order: the model's number, and
what the model says of its whole rows with 4,096 places for an order and with 3.
In turn: a register's log; one with a result replaced; a random well-formed log; a register's log with one bit of one
row changed. In two of three, about half of the reads end with a band. Every eleventh loses some of its last bytes.
"""

import sys
from pathlib import Path

sys.dont_write_bytecode = True
sys.path.insert(0, str(Path(__file__).resolve().parent.parent / 'tools'))

from model import banded, bytes_of, damaged, judge, judge_bytes, random_log, register_log, rows_of, verdict
from verdict_logs import dice


def changed(pick, rows):
    r = pick(len(rows))
    return rows[:r] + [rows[r] ^ 1 << pick(64)] + rows[r + 1:]


def log_rows(pick, k):
    n = 1 + pick(16)
    length = 1 + pick(300)
    readings = 1 + pick(4)
    if k % 4 == 2:
        rows = random_log(pick, n, length, readings)
    else:
        rows = register_log(pick, n, pick(readings), length, readings, 1 + pick(9))
    if k % 4 == 1:
        rows = damaged(pick, rows, readings)
    if k % 3:
        rows = banded(pick, rows, 1 + pick(2))
    return changed(pick, rows) if k % 4 == 3 else rows


def log(pick, k):
    data = bytes_of(log_rows(pick, k))
    return data[:len(data) - pick(9)] if k % 11 == 0 else data


def main(outdir, count):
    pick = dice(2026)
    for k in range(count):
        data = log(pick, k)
        (Path(outdir) / f'{k:05}.log').write_bytes(data)
        answer = judge_bytes(data)
        rows = rows_of(data[:len(data) // 8 * 8])
        lines = [verdict(judge(rows, places)) for places in (4096, 3)]
        print(0 if answer[0] == 'order' else answer[1], *lines, sep=', ')


if __name__ == '__main__':
    main(sys.argv[1], int(sys.argv[2]))
