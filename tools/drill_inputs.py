"""Inputs for the program drill, the same at every run. `prints.py` writes them."""

from verdict_logs import numbered

DRILL_EXAMPLE = b'1 7 9 1 1\n'

# name, input
WRITTEN_DRILLS = [
    ('example', DRILL_EXAMPLE),
    ('leading-zeros', b'0001 ' + b'0' * 40 + b'7 09 000000000000001 00\n'),
    ('one-turn-of-the-writer', b'16 7 9 1 0\n'),
    ('one-turn-of-the-reader', b'16 7 9 0 1\n'),
    ('no-turn-of-the-writer', b'1 7 9 0 6\n'),
    ('no-turn-of-the-reader', b'1 7 9 3 0\n'),

    # Both operations end, and are refused a turn after that; a read that was overtaken needs nine turns.
    ('just-enough', b'1 7 9 2 5\n'),
    ('both-refused', b'1 7 9 3 6\n'),
    ('overtaken', b'1 7 9 2 9\n'),
    ('overtaken-and-refused', b'1 7 9 3 10\n'),
    ('write-of-the-start', b'1 7 7 3 6\n'),
    ('largest-readings', b'1 4294967295 4294967294 2 5\n'),

    # More readers.
    ('readers-2', b'2 7 9 5 8\n'),
    ('readers-2-half-way', b'2 7 9 3 7\n'),
    ('readers-3-write-refused', b'3 7 9 7 2\n'),
    ('readers-3-read-overtaken', b'3 7 9 4 9\n'),
    ('readers-16', b'16 7 9 8 3\n'),

    # Sixteen turns.
    ('turns-16-0', b'1 0 4294967295 16 0\n'),
    ('turns-0-16', b'1 7 9 0 16\n'),
    ('turns-1-15', b'1 7 9 1 15\n'),
    ('turns-15-1', b'2 7 7 15 1\n'),
    ('turns-4-12', b'1 7 9 4 12\n'),
    ('turns-3-13-readers-2', b'2 7 9 3 13\n'),

    # Bad lines.
    ('bad-empty', b''),
    ('bad-line-feed', b'\n'),
    ('bad-unended', b'1 7 9 1 1'),
    ('bad-four-fields', b'1 7 9 1\n'),
    ('bad-six-fields', b'1 7 9 1 1 1\n'),
    ('bad-two-spaces', b'1 7  9 1 1\n'),
    ('bad-space-before', b' 1 7 9 1 1\n'),
    ('bad-space-behind', b'1 7 9 1 1 \n'),
    ('bad-tab', b'1 7 9\t1 1\n'),
    ('bad-carriage-return', b'1 7 9 1 1\r\n'),
    ('bad-sign', b'1 +7 9 1 1\n'),
    ('bad-minus', b'1 7 9 1 -1\n'),
    ('bad-n-33-bits', b'4294967297 7 9 1 1\n'),
    ('bad-start-33-bits', b'1 4294967303 9 1 1\n'),
    ('bad-v-33-bits', b'1 7 4294967305 1 1\n'),
    ('bad-a-33-bits', b'1 7 9 4294967296 1\n'),
    ('bad-b-33-bits', b'1 7 9 1 4294967297\n'),
    ('bad-second-line', b'1 7 9 1 1\n1 7 9 1 1\n'),
    ('bad-second-line-empty', b'1 7 9 1 1\n\n'),
    ('bad-byte-behind', b'1 7 9 1 1\n1'),
    ('bad-first-line-empty', b'\n1 7 9 1 1\n'),

    # Turns not 1 to 16; sums that would be, or would be 0, in 32 bits.
    ('bad-turns-0', b'1 7 9 0 0\n'),
    ('bad-turns-17', b'1 7 9 8 9\n'),
    ('bad-turns-17-of-the-writer', b'1 7 9 17 0\n'),
    ('bad-turns-33-bits', b'1 7 9 4294967295 2\n'),
    ('bad-turns-33-bits-0', b'1 7 9 1 4294967295\n'),

    # Readers not 1 to 16, also with a bad line, which comes first.
    ('readers-0', b'0 7 9 1 1\n'),
    ('readers-17', b'17 7 9 8 8\n'),
    ('readers-largest', b'4294967295 7 9 16 0\n'),
    ('bad-turns-17-readers-0', b'0 7 9 8 9\n'),
    ('bad-second-line-readers-17', b'17 7 9 1 1\n17 7 9 1 1\n'),

    # Lengths: 65,536 bytes are read, one more is too many.
    ('bytes-65536', b'1 ' + b'0' * 65526 + b'7 9 1 1\n'),
    ('bytes-65537', b'1 ' + b'0' * 65527 + b'7 9 1 1\n'),
]


def drill_inputs():
    """The input files, by name."""
    return numbered('.txt', WRITTEN_DRILLS)
