"""Logs for the program verdict, the same at every run, and the line that the outside model gives
for each. Small logs are judged three times, by the definition of an order, by report CS-R8704's and
by the sweep. `prints.py` writes them."""

from model import (
    MAX_ROWS, banded, brute, bytes_of, damaged, equal, is_atomic, judge_bytes, log_of, must,
    pack_row, random_log, register_log, rows_of, sweep, verdict)

BRUTE_ROWS = 17  # logs of at most this many rows are judged by the definitions too
WORD = (1 << 64) - 1


def dice(seed):
    """The fixed generator (splitmix64): pick(k) gives a number from 0 to k-1."""
    state = seed

    def pick(k):
        nonlocal state
        state = state + 0x9E3779B97F4A7C15 & WORD
        word = (state ^ state >> 30) * 0xBF58476D1CE4E5B9 & WORD
        word = (word ^ word >> 27) * 0x94D049BB133111EB & WORD
        return (word ^ word >> 31) % k

    return pick


def numbered(ending, named):
    """Files by name, in order, of pairs of a name and bytes."""
    return {f'{k:03}-{name}{ending}': data for k, (name, data) in enumerate(named, 1)}


def one_of(pick, things):
    return things[pick(len(things))]


# name, n, start reading, rows
WRITTEN_LOGS = [
    # Sessions of document 01.
    ('session-refused', 2, 7, 'W 5, R 1, r 1 5, R 2, r 2 7'),
    ('session-read-before-write', 2, 7, 'W 5, R 2, r 2 7, R 1, r 1 5'),
    ('session-earliest-write', 2, 7, 'W 5, R 1, w, W 6, w, W 5, r 1 5, R 2, r 2 6'),
    ('session-row-0-alone', 1, 7, ''),
    ('session-bench', 1, 7, 'W 9, w, R 1, r 1 9'),

    # One reading written more than once.
    ('twice-earliest-taken', 1, 7, 'W 5, w, R 1, W 5, w, r 1 5'),
    ('twice-floor-by-write', 1, 7, 'W 5, w, W 6, w, R 1, W 5, r 1 5'),
    ('twice-floor-by-read', 2, 7, 'W 5, w, W 6, R 1, r 1 6, R 2, w, W 5, r 2 5'),
    ('twice-floor-is-the-write', 1, 7, 'W 5, w, W 6, w, W 5, w, R 1, r 1 5'),
    ('twice-second-too-late', 2, 7, 'W 5, w, W 6, w, R 1, r 1 5, W 5, w'),
    ('twice-as-start-behind-start', 1, 5, 'R 1, W 5, w, r 1 5'),
    ('twice-as-start-floor', 1, 5, 'W 6, w, R 1, W 5, r 1 5'),
    ('twice-as-start-refused', 2, 5, 'W 6, R 1, r 1 6, R 2, r 2 5, w, W 5, w'),
    ('twice-alternating', 3, 1,
     'R 1, W 2, w, R 2, W 1, w, W 2, R 3, w, r 3 1, W 1, r 2 1, R 3, w, r 1 2, r 3 2'),
    ('twice-latest-would-refuse', 3, 7,
     'W 5, w, R 1, R 2, W 6, w, W 5, r 1 5, R 3, r 3 6, w, r 2 5'),
    ('twice-same-start-latest-would-refuse', 2, 7, 'R 1, W 6, w, W 7, r 1 7, R 2, r 2 6'),

    # Unended writes and reads.
    ('unended-write-read', 1, 7, 'W 5, R 1, r 1 5'),
    ('unended-write-not-read', 1, 7, 'W 5, R 1, r 1 7'),
    ('unended-write-alone', 1, 7, 'W 5'),
    ('unended-write-then-older', 3, 7, 'W 5, R 1, R 2, r 1 5, R 3, r 2 7, r 3 7'),
    ('unended-write-then-older-same-reader', 1, 7, 'W 5, R 1, r 1 5, R 1, r 1 7'),
    ('unended-write-with-equal-reading-ended', 2, 7, 'W 5, w, W 5, R 1, r 1 5, R 2, r 2 5'),
    ('unended-reads-only', 3, 7, 'R 3, R 1, R 2'),
    ('unended-reads-dropped', 3, 7, 'R 1, W 5, w, R 3, R 2, r 2 5'),
    ('ended-writes-only', 1, 7, 'W 5, w, W 5, w, W 7, w'),

    # Sixteen readers; the largest numbers.
    ('sixteen-overlap', 16, 0,
     'W 1, ' + ', '.join(f'R {i}' for i in range(16, 0, -1)) + ', w, W 2, '
     + ', '.join(f'r {i} {i * 7 % 3}' for i in range(1, 17))),
    ('sixteen-overlap-one-fails', 16, 0,
     'W 1, w, ' + ', '.join(f'R {i * 5 % 17}' for i in range(1, 17)) + ', W 2, w, '
     + ', '.join(f'r {i} {0 if i == 9 else 1 + i % 2}' for i in range(1, 17))),
    ('largest-numbers', 16, 4294967295,
     'R 16, W 4294967295, r 16 4294967295, w, R 16, W 2147483648, R 15, r 16 2147483648, w, '
     'W 0, r 15 0'),

    # Refusals.
    ('fails-ended-first-begun-later', 2, 7, 'W 5, w, R 1, R 2, r 2 7, r 1 7'),
    ('fails-neither-first', 3, 7, 'W 5, w, R 1, R 2, R 3, r 3 5, r 2 7, r 1 5'),
    ('fails-three-crossed', 4, 7, 'R 4, W 5, w, R 3, R 2, R 1, r 1 7, r 2 7, r 4 7, r 3 7'),
    ('fails-with-all-writes-kept', 2, 7, 'R 1, W 5, w, r 1 5, R 2, r 2 7'),
    ('fails-before-the-write', 1, 7, 'R 1, r 1 5, W 5, w'),
    ('fails-never-written', 2, 7, 'R 1, W 5, R 2, w, r 1 5, r 2 6'),
    ('fails-by-chain-of-reads', 4, 7,
     'W 5, R 4, R 1, r 1 5, R 2, r 2 5, R 3, r 3 7, r 4 7, w'),
    ('fails-again-later', 2, 7, 'W 5, R 1, r 1 5, R 2, r 2 7, w, R 1, r 1 7, R 2, r 2 5'),
]

# Logs of the requests of document 02, as they landed; they and what is made for them stand last, so
# that no file before them is renumbered.
REQUESTED_LOGS = [
    # Card 6, reads in the order they ended.
    ('ends-behind-the-start', 2, 7, 'R 1, R 2, r 2 7, r 1 7'),
    ('ends-behind-a-write', 3, 7, 'W 5, w, R 1, R 2, R 3, r 3 5, r 1 5, r 2 5'),
    ('ends-behind-the-unended-write', 2, 7, 'W 5, R 2, R 1, r 1 5, r 2 5'),
    ('ends-before-and-after-the-write', 3, 7, 'W 5, R 1, R 2, r 2 5, w, R 3, r 3 5, r 1 5'),
    ('ends-behind-each', 2, 7, 'R 1, R 2, r 2 7, r 1 7, W 5, R 1, R 2, r 2 5, r 1 5'),
    ('ends-later-but-behind-the-start', 2, 7, 'R 1, W 5, R 2, r 2 5, r 1 7'),
    ('ends-of-one-reader-between', 2, 7, 'R 1, R 2, r 2 7, R 2, r 2 7, R 2, r 1 7, r 2 7'),
    ('ends-falling-sixteen', 16, 7,
     ', '.join([f'R {i}' for i in range(1, 17)] + [f'r {i} 7' for i in range(16, 0, -1)])),

    # Card 9, two definitions.
    ('reports-regular-but-inverted', 2, 7, 'W 5, w, W 6, R 1, r 1 6, R 2, r 2 5'),
    ('reports-two-choices', 1, 7, 'W 5, w, W 7, R 1, r 1 7, R 1, r 1 5'),

    # Card 13, bands: met and missed by one, at either end;
    ('band-met', 1, 7, 'W 5, w, R 1, r 1 3..9'),
    ('band-met-at-its-lowest', 1, 7, 'R 1, r 1 7..9'),
    ('band-met-at-its-highest', 1, 7, 'R 1, r 1 3..7'),
    ('band-of-one-reading', 1, 7, 'R 1, r 1 7..7'),
    ('band-one-too-high', 1, 7, 'R 1, r 1 8..9'),
    ('band-one-too-low', 1, 7, 'R 1, r 1 3..6'),
    # across several writes;
    ('band-across-writes', 2, 0, 'R 1, W 5, w, W 6, w, W 7, w, r 1 6..7, R 2, r 2 0..65535'),
    ('band-across-all', 3, 7, 'R 1, R 2, W 5, w, R 3, W 6, r 1 5..7, w, W 8, r 2 6..8, r 3 0..9'),
    ('band-floor-by-write', 1, 7, 'W 5, w, W 6, w, R 1, W 5, r 1 4..5'),
    ('band-floor-by-read', 2, 7, 'W 5, w, W 6, R 1, r 1 6..8, R 2, w, W 5, r 2 4..6'),
    ('band-latest-would-refuse', 2, 7, 'W 5, R 1, w, W 6, w, W 5, r 1 4..5, R 2, r 2 6..6'),
    ('band-inverted', 2, 7, 'W 5, w, W 6, R 1, r 1 6..9, R 2, r 2 3..5'),
    ('band-before-the-write', 1, 7, 'R 1, r 1 4..6, W 5, w'),
    ('band-behind-the-unended-write', 2, 7, 'W 5, R 1, r 1 0..6, R 2, r 2 5..9'),
    ('band-by-end-row', 3, 7, 'R 1, R 2, R 3, r 3 6..8, r 1 7, r 2 0..7'),
    ('band-first-by-begin-row', 2, 7, 'W 5, w, R 1, R 2, r 2 6..9, r 1 0..4'),
    # sixteen readers;
    ('band-sixteen', 16, 0,
     'W 1, ' + ', '.join(f'R {i}' for i in range(16, 0, -1)) + ', w, W 2, '
     + ', '.join(f'r {i} {i % 3}..{max(i % 3, i % 5)}' for i in range(1, 17))),
    ('band-sixteen-one-fails', 16, 0,
     'W 1, w, ' + ', '.join(f'R {i * 5 % 17}' for i in range(1, 17)) + ', W 2, w, '
     + ', '.join(f'r {i} {"3..9" if i == 9 else "1..2"}' for i in range(1, 17))),
    # readings of 65,536 and more, and a band that is no reading;
    ('band-largest', 1, 65535, 'R 1, r 1 65535..65535, W 65536, R 1, r 1 0..65535'),
    ('band-reading-65536', 1, 7, 'W 65536, w, R 1, r 1 0..65535'),
    ('band-reading-by-its-low-bits', 1, 7, 'W 65541, w, R 1, r 1 5..5'),
    ('band-is-no-reading', 1, 7, 'W 327688, w, R 1, r 1 5..8'),
    # and one reader's reads with results and with bands.
    ('band-and-result', 1, 7, 'R 1, r 1 7, W 5, w, R 1, r 1 4..6, W 6, w, R 1, r 1 6, R 1, r 1 6..6'),
    ('band-then-older-result', 1, 7, 'W 5, R 1, r 1 4..6, R 1, r 1 7'),
    ('band-older-than-result', 1, 7, 'W 5, R 1, r 1 5, R 1, r 1 6..8'),
]

START, OPEN_WRITE, OPEN_READ = log_of(2, 7), log_of(2, 7, 'W 5'), log_of(2, 7, 'R 1')

# name, rows
MALFORMED_LOGS = [
    ('row-0-kind-1', [pack_row(1, 0, 7)]),
    ('row-0-kind-4', [pack_row(4, 2, 7)]),
    ('row-0-no-readers', log_of(0, 7)),
    ('row-0-readers-17', log_of(17, 7)),
    ('row-0-zero-bits', [START[0] | 1 << 51]),
    ('later-zero-bits', START + [pack_row(1, 0, 5) | 1 << 32]),
    ('later-kind-0', START + [pack_row(0, 0, 0)]),
    ('later-kind-5', START + START),
    ('band-first', START + [pack_row(6, 1, 0)]),
    ('later-kind-15', START + [pack_row(15, 1, 0)]),
    ('reading-in-write-end', OPEN_WRITE + [pack_row(2, 0, 5)]),
    ('reading-in-read-begin', START + [pack_row(3, 1, 1 << 31)]),
    ('processor-in-write-begin', START + [pack_row(1, 1, 5)]),
    ('processor-in-write-end', OPEN_WRITE + [pack_row(3, 1, 0), pack_row(2, 1, 0)]),
    ('read-begin-processor-0', START + [pack_row(3, 0, 0)]),
    ('read-begin-processor-3', START + [pack_row(3, 3, 0)]),
    ('read-end-processor-0', OPEN_WRITE + [pack_row(4, 0, 5)]),
    ('read-end-processor-3', OPEN_READ + [pack_row(4, 3, 7)]),
    ('write-end-first', log_of(2, 7, 'w')),
    ('read-end-first', log_of(2, 7, 'R 1, r 2 7')),
    ('write-begins-twice', log_of(2, 7, 'W 5, W 5')),
    ('read-begins-twice', log_of(2, 7, 'R 1, R 2, R 1')),
    ('write-ends-twice', log_of(2, 7, 'W 5, w, w')),
    ('read-ends-twice', log_of(2, 7, 'R 1, r 1 7, r 1 7')),
    ('behind-a-failing-read', log_of(2, 7, 'R 1, r 1 5, w')),
]

# Those of the requests.
REQUESTED_MALFORMED = [
    ('band-upside-down', log_of(2, 7, 'R 1, r 1 8..7')),
    ('band-upside-down-by-far', log_of(2, 7, 'R 1, r 1 65535..0')),
    ('band-zero-bits', OPEN_READ + [pack_row(6, 1, 7) | 1 << 32]),
    ('band-by-the-writer', OPEN_WRITE + [pack_row(6, 0, 5)]),
    ('band-processor-3', OPEN_READ + [pack_row(6, 3, 7)]),
    ('band-ends-twice', log_of(2, 7, 'R 1, r 1 0..7, r 1 0..7')),
    ('row-0-kind-6', [pack_row(6, 2, 7)]),
    ('later-kind-7', OPEN_READ + [pack_row(7, 1, 7)]),
]


def full_log():
    """A log of the register at the greatest length. It leaves the last of 4,096 rows free, since
    every operation has two rows beside row 0; a begin is added there."""
    return register_log(dice(1), 16, 7, MAX_ROWS - 1, 6, 40) + [pack_row(3, 16, 0)]


def long_logs():
    """Logs at the greatest length, and one row longer."""
    full = full_log()
    late = list(full)
    last = max(r for r, row in enumerate(full) if row >> 60 == 4)
    late[last] = late[last] >> 32 << 32 | 7  # the start reading, overwritten long ago
    yield 'rows-4096', bytes_of(full)
    yield 'rows-4096-fails-late', bytes_of(late)
    yield 'rows-4097', bytes_of(full + [pack_row(4, 16, 7)])


def odd_lengths():
    """Lengths that question 9 refuses."""
    yield 'no-bytes', b''
    yield 'bytes-7', bytes_of(START)[:7]
    yield 'bytes-15', bytes_of(START + START)[:15]


def register_logs():
    """Logs of the register, each also with one result damaged."""
    for n, length, readings, burst in ((1, 20, 3, 6), (1, 90, 2, 9), (2, 45, 2, 12),
                                       (2, 120, 4, 5), (3, 60, 3, 15), (3, 150, 2, 8),
                                       (5, 100, 3, 30), (16, 200, 5, 60)):
        pick = dice(1000 * n + length)
        rows = register_log(pick, n, pick(readings), length, readings, burst)
        yield f'register-{n}-{length}', bytes_of(rows)
        yield f'register-{n}-{length}-damaged', bytes_of(damaged(pick, rows, readings))


def random_logs():
    """Small logs with guessed results; every third is refused, the others have an order."""
    pick = dice(2)
    for k in range(27):
        wanted = 'refused' if k % 3 == 0 else 'order'
        rows = START
        while sweep(rows)[0] != wanted or len(rows) < 8:
            rows = random_log(pick, 2 + pick(3), 8 + pick(8), 2 + pick(2))
        yield f'random-{k + 1}', bytes_of(rows)


def banded_logs():
    """Logs of the register and random ones, with bands; the greatest length last."""
    pick = dice(13)
    for n, length in ((1, 40), (4, 90), (16, 200)):
        rows = register_log(pick, n, pick(9), length, 9, 20)
        yield f'band-register-{n}-{length}', bytes_of(banded(pick, rows, 3))
        yield f'band-register-{n}-{length}-damaged', bytes_of(banded(pick, damaged(pick, rows, 9), 1))
    for k in range(12):
        wanted = 'refused' if k % 3 == 0 else 'order'
        rows = START
        while sweep(rows)[0] != wanted or len(rows) < 8 or all(row >> 60 != 6 for row in rows):
            rows = banded(pick, random_log(pick, 2 + pick(3), 8 + pick(8), 3 + pick(4)), 2)
        yield f'band-random-{k + 1}', bytes_of(rows)
    yield 'band-rows-4096', bytes_of(banded(pick, full_log(), 1))


def written_logs(logs):
    for name, n, start, text in logs:
        yield name, bytes_of(log_of(n, start, text))


def malformed_logs(logs):
    for name, rows in logs:
        yield 'malformed-' + name, bytes_of(rows)


def all_logs():
    """Every log with its name."""
    yield from written_logs(WRITTEN_LOGS)
    yield from malformed_logs(MALFORMED_LOGS)
    yield from odd_lengths()
    yield from long_logs()
    yield from register_logs()
    yield from random_logs()
    yield from written_logs(REQUESTED_LOGS)
    yield from malformed_logs(REQUESTED_MALFORMED)
    yield from banded_logs()


def verdict_logs():
    """The log files, by name."""
    return numbered('.log', all_logs())


def expected(name, data):
    """The model's verdict line."""
    answer = judge_bytes(data)
    must(('malformed' in name) == (answer == ('refused', 10)), name)
    well_formed = answer[0] == 'order' or answer[1] == 12
    if well_formed and len(data) <= 8 * BRUTE_ROWS:
        equal(brute(rows_of(data)), answer, name)
        equal(is_atomic(rows_of(data)), answer[0] == 'order', name)
    return verdict(answer)


STANDARD_INPUT = dict(written_logs(WRITTEN_LOGS))['twice-alternating']
