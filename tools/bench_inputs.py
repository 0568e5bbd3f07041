"""Inputs for the bench, the same at every run. `prints.py` writes them."""

from verdict_logs import dice, numbered

EXAMPLE = b'1 7\nW 9\nS 0\nS 0\nR 1\n' + b'S 1\n' * 5

# name, input
WRITTEN_INPUTS = [
    ('example', EXAMPLE),
    ('half-way', b'2 7\nW 9\nS 0\nS 0\nS 0\nR 1\n' + b'S 1\n' * 7 + b'R 2\n' + b'S 2\n' * 7),
    ('no-calls', b'1 7\n'),
    ('no-calls-sixteen', b'16 4294967295\n'),
    ('empty', b''),
    ('line-feed', b'\n'),
    ('leading-zeros', b'0001 ' + b'0' * 40 + b'7\nW 000000000000004294967295\nS 00\nS 000\n'),

    # First lines.
    ('first-unended', b'1 7'),
    ('first-one-field', b'1\n'),
    ('first-three-fields', b'1 7 9\n'),
    ('first-two-spaces', b'1  7\n'),
    ('first-space-before', b' 1 7\n'),
    ('first-space-behind', b'1 7 \n'),
    ('first-no-start', b'1 \n'),
    ('first-no-readers', b' 7\n'),
    ('first-tab', b'1\t7\n'),
    ('first-carriage-return', b'1 7\r\n'),
    ('first-sign', b'1 +7\n'),
    ('first-minus', b'-1 7\n'),
    ('first-hexadecimal', b'1 0x7\n'),
    ('first-start-33-bits', b'1 4294967296\n'),
    ('first-start-34-bits', b'1 9999999999\n'),
    ('first-start-many-digits', b'1 100000000000000000000000000000000000000007\n'),
    ('first-readers-33-bits', b'4294967296 7\n'),
    ('first-is-a-call', b'W 9\n1 7\n'),
    ('first-zero-byte', b'1\x00 7\n'),
    ('first-byte-58', b'1 :\n'),
    ('first-byte-47', b'1 /\n'),

    # Refused set-ups.
    ('readers-0', b'0 7\nW 9\n'),
    ('readers-17', b'17 7\n'),
    ('readers-17-then-bad', b'17 7\nX\n'),
    ('readers-largest', b'4294967295 7\nW 9'),

    # Later lines.
    ('call-unended', b'1 7\nW 9\nS 0\nS 0'),
    ('call-empty-line', b'1 7\nW 9\n\nS 0\n'),
    ('call-no-number', b'1 7\nW 9\nW\nS 0\n'),
    ('call-no-number-space', b'1 7\nS \n'),
    ('call-two-spaces', b'1 7\nW  9\n'),
    ('call-space-behind', b'1 7\nW 9 \n'),
    ('call-two-numbers', b'1 7\nW 9 9\n'),
    ('call-small-letter', b'1 7\nw 9\n'),
    ('call-other-letter', b'1 7\nX 9\n'),
    ('call-tab', b'1 7\nW\t9\n'),
    ('call-carriage-return', b'1 7\nW 9\r\n'),
    ('call-sign', b'1 7\nW -9\n'),
    ('call-33-bits', b'1 7\nW 4294967295\nS 4294967296\n'),
    ('call-refused-then-bad', b'1 7\nS 1\nR 2\nW\nR 1\n'),
    ('call-made-then-unended', EXAMPLE + b'S'),
    ('call-zero-byte', b'1 7\nW \x009\n'),

    # Refused calls.
    ('refused-5', b'3 7\nR 0\nR 4\nS 4\nS 4294967295\nR 4294967295\nR 3\n'),
    ('refused-6', b'2 7\nW 1\nW 2\nR 2\nR 2\nS 2\nR 2\nS 0\nW 3\n'),
    ('refused-8', b'2 7\nS 0\nS 1\nS 2\nW 1\nS 0\nS 0\nS 0\nS 0\nS 0\n'),
    ('refused-7', b'1 7\n' + b''.join(b'W %d\nS 0\nS 0\n' % k for k in range(2047)) + b'W 5\nR 1\nS 0\nS 1\nR 2\n'),
    ('refused-7-open', b'2 7\nR 1\nR 2\n' + (b'W 9\n' + b'S 0\n' * 4) * 2045 + b'W 5\nS 1\n'),

    # Lengths: 65,536 bytes are read, one more is too many.
    ('bytes-65536', b'1 ' + b'0' * 65532 + b'7\n'),
    ('bytes-65537', b'1 ' + b'0' * 65533 + b'7\n'),
    ('bytes-65536-of-calls', b'00016 7\n' + (b'R 1\n' + b'S 1\n' * 35) * 455 + b'W 9\nS 0\n'),
    ('bytes-65537-of-calls', b'000016 7\n' + (b'R 1\n' + b'S 1\n' * 35) * 455 + b'W 9\nS 0\n'),
]


def random_input(pick, n, calls):
    """Calls of n readers' register, most of them sub-steps, some refused."""
    lines = [b'%d %d' % (n, pick(10))]
    for _ in range(calls):
        kind = pick(8)
        if kind == 0:
            lines.append(b'W %d' % pick(4))
        elif kind == 1:
            lines.append(b'R %d' % (pick(n + 1) + pick(2)))
        else:
            lines.append(b'S %d' % pick(n + 1))
    return b'\n'.join(lines) + b'\n'


def inputs():
    yield from WRITTEN_INPUTS
    for n, calls in [(1, 60), (2, 150), (3, 300), (5, 800), (16, 2000)]:
        for k in range(2):
            yield f'random-{n}-{k + 1}', random_input(dice(1000 * n + k), n, calls)


def bench_inputs():
    """The input files, by name."""
    return numbered('.txt', inputs())
