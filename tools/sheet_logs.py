"""Logs for the program sheet, the same at every run, and the print that the outside model gives for each: first those whose figures
the model's self-test has by hand, then logs with large lags, then a choice of verdict's. `prints.py` writes them."""

from model import MAX_ROWS, SHEET_SESSIONS, banded, bytes_of, equal, fresh_register, log_of, must, sheet_print, sweep, take_turn, unpack_row
from verdict_logs import all_logs, dice, expected, numbered, written_logs


def paced_log(pick, paces, start, length, readings):
    """A log of the register: a call each turn, of processor p with the weight paces[p]."""
    turns = [p for p, pace in enumerate(paces) for _ in range(pace)]
    register = fresh_register(len(paces) - 1, start)
    while register.used < length:
        take_turn(register, turns[pick(len(turns))], lambda: pick(readings))
    return register.log[:length]


def explained(pick, rows):
    """A log with other results, so that it has an order: each is the reading of a write begun before the read's end, or of the start, and no
    older than what any operation shows that ended before the read's begin."""
    rows = list(rows)
    readings, floor, newest = [unpack_row(rows[0]).reading], {}, 0  # writes go by their places, the start's is 0
    for r, row in enumerate(map(unpack_row, rows)):
        if row.kind == 1:
            readings.append(row.reading)
        elif row.kind == 2:
            newest = max(newest, len(readings) - 1)
        elif row.kind == 3:
            floor[row.processor] = newest
        elif row.kind == 4:
            least = floor[row.processor]
            shown = least + min(pick(len(readings) - least) for _ in range(3))
            newest = max(newest, readings.index(readings[shown], least))
            rows[r] += readings[shown] - row.reading
    equal(sweep(rows)[0], 'order', 'a log made to have an order')
    return rows


# Readers 1 and 3 of five look over one write and over two, some of the same reading. The results are none yet.
SPARSE = log_of(5, 4, ', '.join(
    f'R 1, W {k % 4}, w, R 3, r 1 0, W {k % 3}, w, R 1, W {k % 5}, r 3 0, w, r 1 0' for k in range(8)))


def large_lags():
    """Sixteen readers that look through a whole log, with lags of 2,032 each; readers of different paces, on the register; and logs that have an
    order but are no register's. Some with bands."""
    begins, ends = ', '.join(f'R {i}' for i in range(1, 17)), ', '.join(f'r {i} 0' for i in range(1, 17))
    slowest = log_of(16, 0, f'{begins}, {"W 9, w, " * 2031}W 9, {ends}')
    equal(len(slowest), MAX_ROWS, 'rows of the slowest looks')
    yield 'slowest-4096', bytes_of(slowest)
    pick = dice(10)
    yield 'paces', bytes_of(paced_log(pick, (16, 8, 4, 2, 1), 7, 300, 1000))
    yield 'paces-few-readings', bytes_of(paced_log(pick, (12, 1, 2, 3), 1, 200, 3))
    yield 'paces-bands', bytes_of(banded(pick, paced_log(pick, (20, 2, 1, 1, 1, 1), 5, 250, 30), 2))
    yield 'explained', bytes_of(explained(pick, SPARSE))
    yield 'explained-bands', bytes_of(banded(pick, explained(pick, SPARSE), 1))


# Of verdict's logs: document 01's sessions, one reading more than once, unended reads, sixteen readers, large readings,
CHOSEN = [
    'session-bench', 'session-refused', 'twice-alternating', 'twice-latest-would-refuse', 'unended-reads-only', 'unended-reads-dropped',
    'sixteen-overlap', 'largest-numbers', 'band-across-all', 'band-sixteen',
    # every refusal,
    'no-bytes', 'bytes-7', 'bytes-15', 'rows-4097', 'malformed-row-0-no-readers', 'malformed-behind-a-failing-read', 'malformed-band-upside-down',
    'fails-neither-first', 'fails-again-later', 'band-sixteen-one-fails', 'register-3-150-damaged',
    # and longer ones.
    'random-5', 'band-random-3', 'register-3-150', 'register-16-200', 'band-register-4-90', 'rows-4096',
]


def chosen_logs():
    logs = dict(all_logs())
    yield from ((name, logs[name]) for name in CHOSEN)


def sheet_logs():
    """The log files, by name."""
    written = written_logs(session[:4] for session in SHEET_SESSIONS)
    logs = [*written, *large_lags(), *chosen_logs()]
    return numbered('.log', logs)


def expected_sheet(name, data):
    """The model's print; of a small log the order is sought by the definition, too."""
    print_, line = sheet_print(data), expected(name, data)
    must(line.startswith('order') or print_ == line + '\n', name + ' gets the judge\'s refusal')
    return print_


SHEET_INPUT = bytes_of(log_of(3, 7, 'W 5, R 3, w, r 3 7, R 1, r 1 5, R 3, W 6, w, r 3 4..5'))
