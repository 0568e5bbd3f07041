#!/usr/bin/env python3
"""Every stored print, made anew by the outside model: of the programs, with what they are run on, and of the examples.

    prints.py           writes those that have changed and names them
    prints.py --check   names them only; the exit status is 1 if there are any

A print is never taken from the program that it is held to.
"""

import sys
from pathlib import Path

sys.dont_write_bytecode = True

from bars import bars
from bench_inputs import EXAMPLE, bench_inputs
from draw import listed, picture
from drill_inputs import DRILL_EXAMPLE, drill_inputs
from model import (
    MAX_ROWS, NO_STAMP, Counted, Register, bench, bytes_of, drill, judge, listing, log_of, sizing, store_file, unpack_cell, unpack_counted)
from sheet_logs import SHEET_INPUT, expected_sheet, paced_log, sheet_logs
from sizing_inputs import SIZING_EXAMPLE, sizing_inputs
from soak import soak_lines
from trials_expected import trials_input, trials_lines
from verdict_logs import STANDARD_INPUT, dice, expected, verdict_logs

ROOT = Path(__file__).resolve().parent.parent


def judging():
    """What verdict is run on: its files and, last, its standard input."""
    logs = verdict_logs()
    yield 'stdin', STANDARD_INPUT
    yield 'args', lines_of([*logs, '-'])
    yield 'stdout', lines_of([*(expected(name, log) for name, log in logs.items()), expected('-', STANDARD_INPUT)])
    yield from (('data/' + name, log) for name, log in logs.items())


def adding():
    """What sheet is run on: its files and, last, its standard input."""
    logs = sheet_logs()
    yield 'stdin', SHEET_INPUT
    yield 'args', lines_of([*logs, '-'])
    yield 'stdout', ''.join([*(expected_sheet(name, log) for name, log in logs.items()), expected_sheet('-', SHEET_INPUT)]).encode()
    yield from (('data/' + name, log) for name, log in logs.items())


def stripping():
    """What strips is run on: a log of sixteen readers, some reads with a band, to be stored."""
    log = next(log for name, log in verdict_logs().items() if name.endswith('band-register-16-200.log'))
    yield 'args', b'store\n'
    yield 'stdin', log
    yield 'stdout', store_file(log)


def reading(print_of, example, inputs):
    """What the bench, drill or sizing is run on: its standard input and then its files."""
    yield 'stdin', example
    yield 'args', lines_of(['-', *inputs])
    yield 'stdout', ''.join(map(print_of, [example, *inputs.values()])).encode()
    yield from (('data/' + name, text) for name, text in inputs.items())


# Logs with a band, for examples.
SOUNDER_LOGS = {
    'sounder': log_of(2, 7, 'W 12, R 1, r 1 12, R 2, r 2 10..15, w'),
    'older': log_of(2, 7, 'W 12, R 1, r 1 12, R 2, r 2 5..9, w'),
}


# The course that is an example: turns of the writer, and of four readers, each half as fast as the one before it.
PACES = (6, 8, 4, 2, 1)


def examples():
    """The print of each example's input, of which one is drill's and one sizing's, and the picture of one; the logs that are examples, with verdict's
    line, a picture and their strips; a course with its sheet and the sheet's picture."""
    for path in sorted((ROOT / 'examples').glob('*.txt')):
        print_ = {'drill': drill, 'sizing': sizing}.get(path.stem, bench)(path.read_bytes())
        yield path.stem + '.out', print_.encode()
        if path.stem == 'patroller':
            yield path.stem + '.svg', picture(print_).encode()
    for path in sorted((ROOT / 'examples').glob('*.calls')):
        yield path.stem + '.out', lines_of(scope(path.read_text()))
    for path in sorted((ROOT / 'examples').glob('*.readings')):
        yield path.stem + '.out', lines_of(board(path.read_text()))
    for name, rows in SOUNDER_LOGS.items():
        data = bytes_of(rows)
        line = expected(name, data) + '\n'
        yield name + '.log', data
        yield name + '.out', line.encode()
        yield name + '.svg', picture(listed(data) + line).encode()
        yield name + '.strips', store_file(data)
    course = bytes_of(paced_log(dice(10), PACES, 90, 240, 360))
    print_ = expected_sheet('paces', course)
    yield 'paces.log', course
    yield 'paces.out', print_.encode()
    yield 'paces.svg', bars(print_).encode()


def scope(text):
    """What examples/scope.c prints for its calls."""
    first, *calls = text.splitlines()
    n, start, *fresh = map(int, first.split())
    register = Counted() if fresh else Register()
    register.set_up(n, start, *fresh, [0] * (n * n if fresh else n * n + n), [0] * MAX_ROWS)
    makers = {'W': register.begin_write, 'R': register.begin_read, 'S': register.step, 'U': register.retire}
    told = {'begun': 'begun', 'retired': 'retired', 'step': 'sub-step {}', 'refused': 'refused {}'}
    for call in calls:
        before = list(register.table)
        letter, number = call.split()
        what, *value = makers[letter](int(number))
        changed = [cell_text(i, word, fresh) for i, word in enumerate(register.table) if word != before[i]]
        yield ', '.join([f'{call}: {told[what].format(*value)}', *changed])
    yield ' '.join(['cells', *(f'{word:016X}' for word in register.table)])
    yield ' '.join(['rows', *(f'{word:016X}' for word in register.log[:register.used])])


def board(text):
    """What examples/board.c prints for readings and unplugged readers, of which none is refused."""
    start, *lines = text.splitlines()
    register = Register()
    register.set_up(2, int(start), [0] * 6, [0] * 200)

    def rounds(again):
        """A turn of each while the write goes on, or anything; of idle readers too if they look again."""
        while register.open[0] is not None if again else register.busy:
            for p in range(3):
                if p in register.retired:
                    continue
                if register.open[p] is not None:
                    register.step(p)
                elif p and again:
                    register.begin_read(p)

    for line in lines:
        if line.startswith('U '):
            register.retire(int(line[2:]))
        else:
            register.begin_write(int(line))
            rounds(True)
    rounds(False)
    rows = register.log[:register.used]
    yield from listing(rows)
    answer = judge(rows)
    yield f'judged {0 if answer[0] == "order" else answer[1]}'


def cell_text(i, word, counted):
    if counted:
        return f'cell {i} {word:016X} stamp {unpack_counted(word).stamp}'
    cell = unpack_cell(word)
    return f'cell {i} {word:016X} stamp {stamp_text(cell.stamp)} announced {stamp_text(cell.announced)}'


def stamp_text(stamp):
    return 'none' if stamp == NO_STAMP else '{},{}'.format(*stamp)


def lines_of(lines):
    return ''.join(line + '\n' for line in lines).encode()


# folder: the files in it that are made here
FOLDERS = {
    'crates/verdict': judging,
    'crates/sheet': adding,
    'crates/bench': lambda: reading(bench, EXAMPLE, bench_inputs()),
    'crates/drill': lambda: reading(drill, DRILL_EXAMPLE, drill_inputs()),
    'crates/sizing': lambda: reading(sizing, SIZING_EXAMPLE, sizing_inputs()),
    'crates/strips': stripping,
    'crates/trials': lambda: [('stdin', lines_of(trials_input())), ('stdout', lines_of(trials_lines()))],
    'crates/soak': lambda: [('stdout', lines_of(soak_lines()))],
    'examples': examples,
}


def main(arguments):
    """See the head of this file."""
    if arguments not in ([], ['--check']):
        sys.exit(__doc__)
    changed = False
    for folder, files in FOLDERS.items():
        made = {ROOT / folder / name: data for name, data in files()}
        strangers = set((ROOT / folder / 'data').glob('*')) - set(made)
        for path in sorted(strangers):
            changed = True
            print('not made here:', path.relative_to(ROOT))
        for path, data in made.items():
            if not path.exists() or path.read_bytes() != data:
                changed = True
                print('changed:', path.relative_to(ROOT))
                if not arguments:
                    path.parent.mkdir(parents=True, exist_ok=True)
                    path.write_bytes(data)
    sys.exit(1 if changed and arguments else 0)


if __name__ == '__main__':
    main(sys.argv[1:])
