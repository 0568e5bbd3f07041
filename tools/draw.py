#!/usr/bin/env python3
"""A picture of a log and its order.

    draw.py < PRINT > PICTURE.svg       of the bench's print
    draw.py LOG < LINE > PICTURE.svg    of a log as bytes, and verdict's line for it

A lane for each processor, a bar for each operation from its begin row to its end row (to the right edge if it has none),
its reading above the bar (a band as lowest..highest), and a dot at an instant that the order allows. If there is no order, the
offending read is red. Below are the rows' numbers, and a legend.
"""

import sys
from dataclasses import dataclass
from html import escape
from pathlib import Path

sys.dont_write_bytecode = True

from model import judge_bytes, listing, rows_of

LANE, BAR, LEFT, TOP, STEP = 44, 20, 96, 40, 34  # pixels; STEP is the way from one row to the next
SMALL = 'fill="#666" font-size="10"'
DASHED = ' stroke="#444" stroke-dasharray="4 3"'


@dataclass
class Operation:
    lane: int
    begin: int
    end: int | None = None
    reading: str = ''


def parse(lines):
    """Readers, start reading, operations by begin row, order or None, offending row or None."""
    readers = start = order = offending = None
    operations, running = {}, {}
    for line in lines:
        words = line.split()
        if words[:1] == ['readers']:
            readers, start = int(words[1]), words[3]
        elif words[:1] == ['order']:
            order = [int(word) for word in words[1:]]
        elif words[:2] == ['no', 'order']:
            offending = int(words[2])
        elif readers is not None and len(words) >= 2 and words[0].isdigit():
            row, letter = int(words[0]), words[1]
            lane = 0 if letter in 'Ww' else int(words[2])
            if letter in 'WR':
                running[lane] = operations[row] = Operation(lane, row, reading=words[2] if letter == 'W' else '')
            else:
                running[lane].end = row
                if letter == 'r':
                    running[lane].reading = words[3]
    if readers is None:
        sys.exit('draw.py: there is no listing in this print')
    return readers, start, operations, order, offending


def instants(order):
    """Where each listed operation takes effect, in rows: after its begin and before its end, in the order's order."""
    at, latest = {}, 0
    for place, begin in enumerate(order):
        latest = max(latest, begin)
        at[begin] = latest + (place + 1) / (len(order) + 1)
    return at


def text(x, y, words, extra=''):
    return f'<text x="{x:g}" y="{y:g}" {extra}>{escape(words)}</text>'


def bar(operation, edge, red):
    x = LEFT + STEP * operation.begin
    width = LEFT + STEP * (edge if operation.end is None else operation.end) - x
    y = TOP + LANE * operation.lane
    fill = '#d33' if red else '#4a7ab5' if operation.lane == 0 else '#8fb58a'
    dashed = DASHED if operation.end is None else ''
    return [f'<rect x="{x}" y="{y}" width="{width}" height="{BAR}" rx="4" fill="{fill}"{dashed}/>',
            text(x, y - 4, operation.reading)]


def swatch(x, y, fill, dashed=''):
    return f'<rect x="{x}" y="{y - 9}" width="14" height="10" rx="2" fill="{fill}"{dashed}/>'


def dot(x, y, radius=5):
    return f'<circle cx="{x:g}" cy="{y:g}" r="{radius}" fill="#fff" stroke="#222" stroke-width="2"/>'


def legend(y, offending):
    """What the colours and the dots are."""
    bars = [('#4a7ab5', '', 'write'), ('#8fb58a', '', 'read'), ('#ccc', DASHED, 'not ended')]
    if offending is not None:
        bars.append(('#d33', '', 'the read begun there'))
    x, out = 10, []
    for fill, dashed, words in bars:
        out += [swatch(x, y, fill, dashed), text(x + 20, y, words, SMALL)]
        x += 36 + 5 * len(words)
    if offending is None:
        out += [dot(16, y + 12, 4), text(30, y + 16, 'an instant that the order allows', SMALL)]
    return out


def draw(readers, start, operations, order, offending):
    rows = 1 + max([0] + [max(o.begin, o.end or 0) for o in operations.values()])
    axis = TOP + LANE * (readers + 1) + 16
    width, height = max(LEFT + STEP * (rows + 1), 320), axis + 48
    out = [f'<svg xmlns="http://www.w3.org/2000/svg" width="{width}" height="{height}" font-family="sans-serif" font-size="13">',
           f'<rect width="{width}" height="{height}" fill="#fff"/>',
           text(10, 22, f'start {start}' if offending is None else f'start {start}: no order, read begun at row {offending}')]
    for lane in range(readers + 1):
        y = TOP + LANE * lane
        out.append(text(10, y + 15, f'reader {lane}' if lane else 'writer'))
        out.append(f'<line x1="{LEFT}" y1="{y + 10}" x2="{width - 10}" y2="{y + 10}" stroke="#ddd"/>')
    for operation in operations.values():
        out += bar(operation, rows, operation.begin == offending)
    for begin, x in instants(order or []).items():
        y = TOP + LANE * operations[begin].lane + 10
        out.append(dot(LEFT + STEP * x, y))
    out.append(text(10, axis, 'row of the log', SMALL))
    for row in range(1, rows):
        out.append(text(LEFT + STEP * row - 3, axis, str(row), SMALL))
    return '\n'.join(out + legend(axis + 20, offending) + ['</svg>', ''])


def picture(print_):
    """The picture of a print."""
    return draw(*parse(print_.splitlines()))


def listed(data):
    """The listing of a log's bytes, as the bench lists its own log."""
    answer = judge_bytes(data)
    if answer in (('refused', 9), ('refused', 10)):
        sys.exit(f'draw.py: this log is refused {answer[1]}')
    return ''.join(line + '\n' for line in listing(rows_of(data)))


def main(arguments):
    """See the head of this file."""
    if len(arguments) > 1:
        sys.exit(__doc__)
    try:
        rows = listed(Path(arguments[0]).read_bytes()) if arguments else ''
    except OSError as error:
        sys.exit(f'draw.py: {arguments[0]}: {error.strerror}')
    sys.stdout.write(picture(rows + sys.stdin.read()))


if __name__ == '__main__':
    main(sys.argv[1:])
