#!/usr/bin/env python3
"""Reads the source, and proves nothing: that every public function, and every function of a public trait, has a promise, an `ensures`, and asks
nothing, has no `requires`. Names those that do not, and counts the rest. Not part of the gate."""

import re
from pathlib import Path

# A function of a module, or a method: its body begins where the brace stands as far in as its head.
HEAD = re.compile(r'^( *)pub (?:extern "C" )?fn (\w+)(.*?)^\1\{$', re.DOTALL | re.MULTILINE)

# A public trait, and a function of it: with a body or with none.
TRAIT = re.compile(r'^pub trait .*?^\}$', re.DOTALL | re.MULTILINE)
TOLD = re.compile(r'^    (?:final )?fn (\w+)(.*?)(?:;$|^    \{$)', re.DOTALL | re.MULTILINE)


def heads(text):
    """Each public function's name and what stands before its body."""
    yield from ((name, head) for _, name, head in HEAD.findall(text))
    for trait in TRAIT.findall(text):
        yield from TOLD.findall(trait)


def main():
    crates = Path(__file__).resolve().parent.parent / 'crates'
    kept, broken = 0, []
    for source in sorted(crates.glob('*/src/**/*.rt')):
        for name, head in heads(source.read_text()):
            if 'ensures' in head and 'requires' not in head:
                kept += 1
            else:
                broken.append(f'{source.relative_to(crates)}: {name}')
    print(*broken, f'{kept} public functions, each with a promise and without a condition', sep='\n')
    return bool(broken)


if __name__ == '__main__':
    raise SystemExit(main())
