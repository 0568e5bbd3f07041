"""What the makers of random cases for a program share: drill_cases.py, sheet_cases.py, sizing_cases.py."""

import sys
from pathlib import Path

sys.dont_write_bytecode = True
sys.path.insert(0, str(Path(__file__).resolve().parent.parent / 'tools'))

from model import Mismatch


def written(outdir, folder, ending, cases, print_of):
    """Writes the cases, bytes each, to OUTDIR/FOLDER and, to OUTDIR/expected, what the model prints for them; gives each with its print."""
    files = Path(outdir) / folder
    files.mkdir()
    with open(Path(outdir) / 'expected', 'w') as expected:
        for k, data in enumerate(cases):
            (files / f'{k:05}{ending}').write_bytes(data)
            print_ = print_of(data)
            expected.write(print_)
            yield data, print_


def in_turn(pick, good, line, spoilt, k):
    """The line of a good input, and one that is spoilt, in each way in turn."""
    fields = good(pick, k // 2)
    return spoilt[k // 2 % len(spoilt)](pick, fields) if k % 2 else line(fields)


def counted(tally):
    return ', '.join(f'{answer}: {times}' for answer, times in sorted(tally.items()))


def run(main):
    """With the folder and the number of cases that the arguments name."""
    try:
        main(sys.argv[1], int(sys.argv[2]))
    except Mismatch as mismatch:
        sys.exit(f'mismatch: {mismatch}')
