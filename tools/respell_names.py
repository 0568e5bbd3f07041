#!/usr/bin/env python3
"""Spells this project's own definitions and lemmas in snake case, once, behind the toolchain's port.py.

    respell_names.py [--dry]      at the top of the repository

A name that a file of specs/ or proofs/ declares and that begins with no capital, as packCell or cells-fit, becomes pack_cell or cells_fit, wherever
it stands: in specs/ and proofs/, in the clauses of src/, in must-fail edits, and in the pages, between backticks. Functions of src/, what a check
names (goals, steps), strings, inputs and outputs stay. Where two names would fall together, or one with a name that is there, the lemma (the one
with dashes) is called name_lem. It prints each name with its new one.
"""

import re
import sys
from collections import defaultdict
from pathlib import Path

WORD = re.compile(r"[^\s(){}\[\].;,@\"«»|`]+")
# A declaration: a name, or several, before a colon at the head of a line, with the words that may stand before it.
DECLARED = re.compile(r"^ *(?:(?:pub|abbrev|unfoldable|data|record|axiom) )*([^\s(){}\[\].;,@\"«»|:]+(?: [^\s(){}\[\].;,@\"«»|:]+)*?)(?: \{[^{}\n]*\}| \([^()\n]*\))* :(?: |$)")
# What a definition's new name would meet, named anew first.
FIRST = {
    "back_at": "back_at_lem", "counted_if": "counted_if_lem", "head_ok": "head_good", "is_read": "is_read_lem", "moved_on": "moved_on_lem",
    "one_line": "one_line_lem", "read_left": "left_read", "rows_fit": "rows_fit_lem", "rows_in": "rows_in_lem", "still_open": "still_open_lem",
    "value_in": "open_value", "zero_bits": "bits_zero",
}
# Where two names fall together and neither is a lemma, the second's own new name.
SECOND = {
    "bytes-number": "bytes_number", "new-ticket": "new_ticket", "no-order": "no_order", "read-ends": "read_ends", "begun-before": "begun_count",
    "in-range": "is_in_range", "readers-ok": "readers_pass", "writer-ok": "writer_passes", "stamp-ok": "stamp_passes",
}
# In a comment these are English.
PROSE = {"set-up", "well-formed"}
COMMENT = re.compile(r"(?:--|//) ")
# These stand in comments and strings alone: no name meets them.
FREE = {"row_place", "step_at"}
# A path into proofs/, or a step of an answer's c, up to the name
PATH = re.compile(r"(?:Rattle\.\w+\.proofs\.[\w.]*|\bc\.[\w.]*|::)$")
KEYWORDS = {"use", "module", "where", "let", "in", "elim", "as", "mod", "open", "unfolding"}
GOAL = re.compile(r"^ *(?:abbrev )?(?:pub )?(\S+) : (?:goal\.|tie\.|\{M)")
USE = re.compile(r"use ([^\s;{]+)\.?(?:\{([^}]*)\})?")


def snake(name):
    name = re.sub(r"(?<=[a-z0-9'])([A-Z]+)(?=[A-Z][a-z])", lambda m: "_" + m[1].lower() + "_", name)
    name = re.sub(r"(?<=[a-z0-9])([A-Z])", lambda m: "_" + m[1].lower(), name)
    return name.replace("-", "_")


def due(name):
    if not name or name[0].isupper() or name in KEYWORDS or "◌" in name or not name[0].isalpha():
        return False
    plain = name.replace("ℕ", "").replace("ℤ", "")
    return bool(re.search(r"[A-Z-]", plain)) and snake(name) != name


def texts(root):
    return sorted(p for d in ("src", "specs", "proofs") for p in root.glob(f"crates/*/{d}/**/*") if p.suffix in (".antt", ".rt"))


def own(path):
    """Whether a path of a use line is this project's."""
    return path.startswith("Rattle.") and path.split(".")[1] in CRATES


def main(root, dry):
    global CRATES
    CRATES = {p.name for p in (root / "crates").iterdir()}
    files = {p: p.read_text(encoding="utf-8") for p in texts(root)}
    declared, goals, taken, library = set(), set(), set(), defaultdict(set)
    for p, text in files.items():
        if p.suffix == ".antt":
            for line in text.split("\n"):
                g = GOAL.match(line)
                if g:
                    goals.add(g[1])
                    continue
                m = DECLARED.match(line)
                if m and not line.lstrip().startswith("--"):
                    declared |= set(m[1].split())
        for m in USE.finditer(text):
            if own(m[1]) and m[2]:
                declared |= {w.split(" as ")[1].strip() for w in m[2].split(",") if " as " in w}
            elif m[2]:
                library[p] |= {x.strip() for w in m[2].split(",") for x in w.split(" as ")}
        if p.suffix == ".antt":
            taken |= {m[0] for m in WORD.finditer(text) if not text[m.start() - 1 : m.start()] == "." and not text[m.end() : m.end() + 1] == "."}
    names = sorted(n for n in declared if due(n) and n not in goals)
    new, said = {n: t for n, t in FIRST.items() if n in taken}, []
    taken = taken - set(new) - FREE | set(new.values())
    wanted = defaultdict(list)
    for n in names:
        wanted[snake(n)].append(n)
    for s, olds in wanted.items():
        # the definition, if there is one, has the plain name
        olds.sort(key=lambda n: ("-" in n, n))
        free = s not in taken
        for n in olds:
            if n in SECOND and not free:
                new[n] = SECOND[n]
            elif free:
                new[n], free = s, False
            else:
                t = s + "_lem"
                while t in taken or t in new.values():
                    t += "_lem"
                new[n] = t
                said.append(f"falls together: {n} -> {t}")
    for n in names:
        print(n, new[n])
    print("\n".join(said), file=sys.stderr)
    print(len(names), "names", len(said), "with another", file=sys.stderr)
    if dry:
        return

    def turned(text, skip=(), first=True):
        # in a path of proofs/, and in src/, a name of FIRST is a function's
        def word(m):
            if m[0] in PROSE and COMMENT.search(text, text.rfind("\n", 0, m.start()) + 1, m.start()):
                return m[0]
            if m[0] not in new or m[0] in skip or (m[0] in FIRST and (not first or PATH.search(text[max(0, m.start() - 90) : m.start()]))):
                return m[0]
            return new[m[0]]

        return WORD.sub(word, text)

    for p, text in files.items():
        skip = library[p]
        after = turned(text, skip, p.suffix == ".antt")
        if after != text:
            p.write_text(after, encoding="utf-8")
    for p in sorted(root.glob("crates/*/must-fail/*.edit")):
        text = p.read_text(encoding="utf-8")
        after = turned(text)
        if after != text:
            p.write_text(after, encoding="utf-8")
    for p in [root / "README.md", *sorted((root / "docs").glob("*.md")), root / "examples/README.md"]:
        if p.name in ("PORT.md",):
            continue
        text = p.read_text(encoding="utf-8")
        after = re.sub(r"`[^`\n]*`", lambda m: turned(m[0], first=False), text)
        if after != text:
            p.write_text(after, encoding="utf-8")


if __name__ == "__main__":
    main(Path("."), "--dry" in sys.argv)
