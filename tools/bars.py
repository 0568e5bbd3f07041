#!/usr/bin/env python3
"""A picture of a course sheet, for the wall.

    bars.py < PRINT > PICTURE.svg       of the print of sheet for one log

A bar for each reader and, last, one for all; its length is the mean lag of the reads. On its right are the mean lag and the number of reads. What
is no sheet, as a log's refusal, is told on standard error, and the exit status is 1.
"""

import re
import sys

sys.dont_write_bytecode = True

from draw import BAR, LEFT, SMALL, text
from model import MAX_READERS

LANE, TOP, LENGTH, WIDTH = 30, 64, 400, 660  # pixels; LENGTH is the axis's
MEANS, READS = LEFT + LENGTH + 74, WIDTH - 10  # where the figures on the right end
TITLE = 'How far behind the readers were: mean lag of their reads, in writes'
MEANING = 'lag of a read: writes begun before it ended, less the place, among the writes, of the one that it stands behind'
LINE = re.compile('(?:reader ([0-9]+)|all) reads ([0-9]{1,6}) lag ([0-9]{1,6})')


def parse(lines):
    """The reads and lags of each reader, and last of all; ends the program if these are not the lines of one sheet."""
    for line in lines:
        if not LINE.fullmatch(line):
            sys.exit(f'bars.py: this is no sheet: {line[:60]!r}')
    matches = [LINE.fullmatch(line) for line in lines]
    figures = [(int(match[2]), int(match[3])) for match in matches]
    readers = [match[1] for match in matches[:-1]]
    if (readers != [str(i) for i in range(1, len(lines))] or not 1 <= len(readers) <= MAX_READERS or matches[-1][1]
            or figures[-1] != tuple(map(sum, zip(*figures[:-1]))) or any(lags and not reads for reads, lags in figures)):
        sys.exit('bars.py: these are not the lines of one sheet')
    return figures


def scale(most):
    """Where the axis has numbers, in hundredths, up to one that is not below the most: in steps of 1, 2 or 5 and noughts, at most five."""
    step = next(digit * 10 ** noughts for noughts in range(9) for digit in (1, 2, 5) if most * 100 <= 5 * digit * 10 ** noughts)
    return range(0, -int(-most * 100 // step) * step + 1, step)


def mean(reads, lags):
    """With two decimals, halves rounded up."""
    hundredths = (200 * lags + reads) // (2 * reads)
    return f'{hundredths // 100}.{hundredths % 100:02}'


def labelled(y, name, reads, lags, pixels, fill):
    """One bar, pixels a write, with its name and figures."""
    counted = f'{reads} reads' if reads > 1 else '1 read' if reads else 'no reads'
    out = [text(10, y + 15, name), text(READS, y + 15, counted, SMALL + ' text-anchor="end"')]
    if reads:
        out += [f'<rect x="{LEFT}" y="{y}" width="{lags / reads * pixels:.1f}" height="{BAR}" fill="{fill}"/>',
                text(MEANS, y + 15, mean(reads, lags), 'font-weight="bold" text-anchor="end"')]
    return out


def draw(figures):
    numbers = scale(max([1, *(lags / reads for reads, lags in figures if reads)]))
    pixels = LENGTH * 100 / numbers[-1]
    bottom = TOP + LANE * len(figures) + 8
    height = bottom + 46
    out = [f'<svg xmlns="http://www.w3.org/2000/svg" width="{WIDTH}" height="{height}" font-family="sans-serif" font-size="13">',
           f'<rect width="{WIDTH}" height="{height}" fill="#fff"/>',
           text(10, 22, TITLE, 'font-size="15"'), text(10, 40, MEANING, SMALL)]
    for number in numbers:
        x = round(LEFT + number * pixels / 100, 1)
        out += [f'<line x1="{x:g}" y1="{TOP - 8}" x2="{x:g}" y2="{bottom}" stroke="{"#ddd" if number else "#999"}"/>',
                text(x, bottom + 14, f'{number / 100:g}', SMALL + ' text-anchor="middle"')]
    out.append(text(LEFT + LENGTH / 2, bottom + 32, 'mean lag', SMALL + ' text-anchor="middle"'))
    for i, (reads, lags) in enumerate(figures[:-1]):
        out += labelled(TOP + LANE * i, f'reader {i + 1}', reads, lags, pixels, '#8fb58a')
    y = TOP + LANE * (len(figures) - 1) + 4
    out.append(f'<line x1="10" y1="{y - 7}" x2="{WIDTH - 10}" y2="{y - 7}" stroke="#999"/>')
    out += labelled(y, 'all', *figures[-1], pixels, '#4a7ab5')
    return '\n'.join([*out, '</svg>', ''])


def bars(print_):
    """The picture of a print."""
    return draw(parse(print_.splitlines()))


def main(arguments):
    """See the head of this file."""
    if arguments:
        sys.exit(__doc__)
    sys.stdout.write(bars(sys.stdin.buffer.read().decode('ascii', 'replace')))


if __name__ == '__main__':
    main(sys.argv[1:])
