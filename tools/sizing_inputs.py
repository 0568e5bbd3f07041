"""Inputs for the program sizing, the same at every run. `prints.py` writes them."""

from verdict_logs import numbered

SIZING_EXAMPLE = b'3 20 100\n'

# name, input
WRITTEN_SIZINGS = [
    ('example', SIZING_EXAMPLE),
    ('leading-zeros', b'0003 ' + b'0' * 40 + b'2 05\n'),
    ('nothing-to-do', b'1 0 0\n'),
    ('nothing-to-do-readers-16', b'16 0 0\n'),
    ('one-write', b'1 1 0\n'),
    ('one-read', b'1 0 1\n'),
    ('one-of-each', b'1 1 1\n'),
    ('writes-alone', b'7 1999 0\n'),
    ('reads-alone', b'7 0 1999\n'),

    # The reads that may have a second attempt: as many as there are reads, and as the writes have stores.
    ('fewer-reads-than-stores', b'4 3 11\n'),
    ('as-many-reads-as-stores', b'4 3 12\n'),
    ('more-reads-than-stores', b'4 3 13\n'),
    ('readers-2', b'2 10 30\n'),
    ('readers-15', b'15 100 900\n'),
    ('readers-16', b'16 100 900\n'),

    # The most that is answered with figures: 2,000 of a kind, 4,095 rows.
    ('writes-2000', b'1 2000 0\n'),
    ('reads-2000', b'16 0 2000\n'),
    ('rows-4095-writes', b'1 2000 47\n'),
    ('rows-4095-reads', b'16 47 2000\n'),
    ('rows-4095-half', b'16 1023 1024\n'),

    # More rows.
    ('rows-4097-writes', b'1 2000 48\n'),
    ('rows-4097-reads', b'16 48 2000\n'),
    ('rows-4097-half', b'16 1024 1024\n'),
    ('rows-8001', b'16 2000 2000\n'),

    # Larger numbers, which come first.
    ('writes-2001', b'1 2001 0\n'),
    ('reads-2001', b'1 0 2001\n'),
    ('both-2001', b'16 2001 2001\n'),
    ('writes-2001-rows-4097', b'16 2001 47\n'),
    ('reads-2001-rows-4097', b'16 47 2001\n'),
    ('largest', b'16 4294967295 4294967295\n'),
    ('rows-33-bits', b'1 2147483648 0\n'),

    # Readers not 1 to 16, which come before both.
    ('readers-0', b'0 1 1\n'),
    ('readers-17', b'17 1 1\n'),
    ('readers-largest', b'4294967295 0 0\n'),
    ('readers-0-writes-2001', b'0 2001 1\n'),
    ('readers-17-reads-2001', b'17 1 2001\n'),
    ('readers-17-rows-4097', b'17 2000 48\n'),

    # Bad lines, which come before all.
    ('bad-empty', b''),
    ('bad-line-feed', b'\n'),
    ('bad-unended', b'1 1 1'),
    ('bad-two-fields', b'1 1\n'),
    ('bad-four-fields', b'1 1 1 1\n'),
    ('bad-two-spaces', b'1  1 1\n'),
    ('bad-space-before', b' 1 1 1\n'),
    ('bad-space-behind', b'1 1 1 \n'),
    ('bad-tab', b'1 1\t1\n'),
    ('bad-carriage-return', b'1 1 1\r\n'),
    ('bad-sign', b'1 +1 1\n'),
    ('bad-minus', b'1 1 -1\n'),
    ('bad-letter', b'1 1 x\n'),
    ('bad-n-33-bits', b'4294967297 1 1\n'),
    ('bad-writes-33-bits', b'1 4294967297 1\n'),
    ('bad-reads-33-bits', b'1 1 4294967297\n'),
    ('bad-second-line', b'1 1 1\n1 1 1\n'),
    ('bad-second-line-empty', b'1 1 1\n\n'),
    ('bad-byte-behind', b'1 1 1\n1'),
    ('bad-first-line-empty', b'\n1 1 1\n'),
    ('bad-second-line-readers-0', b'0 1 1\n0 1 1\n'),
    ('bad-unended-writes-2001', b'1 2001 1'),

    # Lengths: 65,536 bytes are read, one more is too many.
    ('bytes-65536', b'1 ' + b'0' * 65530 + b'1 1\n'),
    ('bytes-65537', b'1 ' + b'0' * 65531 + b'1 1\n'),
]


def sizing_inputs():
    """The input files, by name."""
    return numbered('.txt', WRITTEN_SIZINGS)
