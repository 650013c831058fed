#!/usr/bin/env python3
"""Writes docs/FIGURES.md: how large each crate is, by the sections of crates.txt.

    figures.py [--check]

Lines are counted as they stand, empty ones and comments included. With --check nothing is written: the status is 1 where the
file isn't what would be written, or where docs/ARCHITECTURE.md has a crate in another section than crates.txt, in another
order, or not at all.
"""

import glob
import os
import re
import sys

ROOT = os.path.dirname(os.path.dirname(os.path.dirname(os.path.abspath(__file__))))
PLACE, MAP = f"{ROOT}/docs/FIGURES.md", f"{ROOT}/docs/ARCHITECTURE.md"
PROGRAM = "mdprof"
FUNCTION = re.compile(rb"^\s*(?:pub(?:\(crate\))? )?(?:const )?fn ", re.MULTILINE)
PUBLIC = re.compile(rb"^\s*pub (?:const )?fn ", re.MULTILINE)
CASE = re.compile(rb"^case ", re.MULTILINE)
HEADS = ["Crate", "Code", "Specs", "Proofs", "Functions", "Public", "Edits", "Cases"]

OPENING = """# Figures by crate

`python3 tools/figures/figures.py` writes this file; run it when you have changed a crate.

| Column | Counts |
|---|---|
| Code | lines of `src/`, with contracts and comments |
| Specs | lines of `specs/`: the definitions |
| Proofs | lines of `proofs/`: lemmas, answers, invariants and worked results |
| Functions, Public | functions of `src/`, those of laws included, and how many of them are `pub fn` |
| Edits | wrong bodies in `must-fail/` |
| Cases | worked examples in the file `stdin` |
"""


def sections():
    """The sections of crates.txt with their crates in order, and the crates that each crate names."""
    found, uses = [], {}
    with open(f"{ROOT}/crates.txt", encoding="utf-8") as lines:
        for line in lines:
            head = re.match(r"# ([a-z]+): ", line)
            name, colon, libraries = line.split("#")[0].partition(":")
            if head:
                found.append((head.group(1), []))
            elif colon:
                found[-1][1].append(name.strip())
                uses[name.strip()] = libraries.split()
    return found, uses


def below(name, uses):
    """A crate and all of the repository's that it stands on."""
    found, left = set(), [name]
    while left:
        it = left.pop()
        if it in uses and it not in found:
            found.add(it)
            left += uses[it]
    return found


def text_of(crate, part, ending=""):
    """What the files of a part of a crate hold, one after the other."""
    found = []
    for path in sorted(glob.glob(f"{ROOT}/crates/{crate}/{part}/**/*{ending}", recursive=True)):
        if os.path.isfile(path):
            with open(path, "rb") as file:
                found.append(file.read())
    return b"".join(found)


def figures(crate):
    """The numbers of a crate's row."""
    code = text_of(crate, "src", ".rt")
    lines = [it.count(b"\n") for it in (code, text_of(crate, "specs", ".antt"), text_of(crate, "proofs", ".antt"))]
    stdin = f"{ROOT}/crates/{crate}/stdin"
    cases = 0
    if os.path.exists(stdin):
        with open(stdin, "rb") as file:
            cases = len(CASE.findall(file.read()))
    edits = len(glob.glob(f"{ROOT}/crates/{crate}/must-fail/*.edit"))
    return [*lines, len(FUNCTION.findall(code)), len(PUBLIC.findall(code)), edits, cases]


def row(name, numbers):
    return f"| {name} | " + " | ".join(f"{it:,}" if it else "" for it in numbers) + " |"


def table(head, rows):
    return "\n".join(["", f"## {head}", "", "| " + " | ".join(HEADS) + " |", "|---" + "|--:" * (len(HEADS) - 1) + "|", *rows, ""])


def added(rows):
    return [sum(column) for column in zip(*rows)]


def whole():
    """What docs/FIGURES.md has to hold."""
    found, uses = sections()
    of = {crate: figures(crate) for crate in uses}
    program = below(PROGRAM, uses)
    out = [OPENING]
    for head, crates in found:
        rows = [row(f"`{it}`", of[it]) for it in crates]
        out.append(table(head.capitalize(), [*rows, row("in all", added([of[it] for it in crates]))]))
    rows = [row(head, added([of[it] for it in crates])) for head, crates in found]
    rows.append(row(f"the {len(program)} crates of the program", added([of[it] for it in program])))
    rows.append(row(f"all {len(uses)} crates", added(list(of.values()))))
    out.append(table("In all", rows))
    return "".join(out)


def differences():
    """What the file and the map of the code have wrong."""
    if not os.path.exists(PLACE) or read(PLACE) != whole():
        yield "docs/FIGURES.md is old: run tools/figures/figures.py"
    there = []
    for line in read(MAP).split("\n"):
        head, crate = re.match(r"###? (\w+)", line), re.match(r"\| `(\w+)` \|", line)
        if head:
            there.append((head.group(1).lower(), []))
        elif crate and there:
            there[-1][1].append(crate.group(1))
    there = dict(there)
    for head, crates in sections()[0]:
        if there.get(head) != crates:
            yield f"docs/ARCHITECTURE.md has other crates in {head} than crates.txt, or another order"


def read(path):
    with open(path, encoding="utf-8") as file:
        return file.read()


def main():
    if sys.argv[1:] == ["--check"]:
        wrong = list(differences())
        print("\n".join(wrong), end="\n" if wrong else "")
        sys.exit(1 if wrong else 0)
    with open(PLACE, "w", encoding="utf-8") as file:
        file.write(whole())


if __name__ == "__main__":
    main()
