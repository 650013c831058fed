#!/usr/bin/env python3
"""Finds names and paths in README.md and docs/ that stand nowhere else in the repository.

    names.py

reads each piece of text between backticks. One that has a slash and no space has to be a path here, from the top or from
the file's own folder or in some crate (`NAME` and `*` stand for any name); so have links. Of any other, each word of three letters or more has
to stand somewhere in crates/, examples/, tools/, the launcher or crates.txt. Pieces of Mercury, of shells and of other
programs that stand nowhere there are named in `known.txt` beside this script, a word a line. What isn't found is printed, as
`FILE:LINE: name`, and the status is 1.
"""

import glob
import os
import re
import sys

HERE = os.path.dirname(os.path.abspath(__file__))
TOP = os.path.dirname(os.path.dirname(HERE))
SPAN = re.compile(r"`([^`]+)`")
LINK = re.compile(r"\]\(([^)#\s]+)[^)]*\)")
WORD = re.compile(r"[A-Za-z_][A-Za-z0-9_]{2,}")
PATH = re.compile(r"^[\w.*+@-]+(/[\w.*+@-]+)+/?$")
SOURCE = re.compile(r"\.(antt|rt|md|py|m)$")
SOURCES = ["crates/*/*/**/*.rt", "crates/*/*/**/*.antt", "crates/*/src/*.rt", "crates/*/specs/*.antt", "crates/*/must-fail/*",
           "crates/*/std*", "crates/*/args", "examples/*", "tools/*/*.py", "mdprof", "crates.txt", ".ci/run", "HANDLES"]


def words_of_sources():
    """The words that stand in sources, scripts and examples, and names of files and folders."""
    words = set()
    for pattern in SOURCES:
        for path in glob.glob(os.path.join(TOP, pattern), recursive=True):
            words.update(WORD.findall(os.path.relpath(path, TOP)))
            if os.path.isfile(path) and "/out/" not in path:
                with open(path, encoding="utf-8", errors="replace") as file:
                    words.update(WORD.findall(file.read()))
    return words


def known_spans():
    """Pieces that are words of other languages and programs, whole or a word of them."""
    with open(os.path.join(HERE, "known.txt"), encoding="utf-8") as file:
        return set(file.read().split())


def is_there(path, folder):
    """Whether a path is there, from the top or from a folder; names in capitals and stars stand for any."""
    pattern = re.sub(r"\b[A-Z][A-Z_]+\b(?!\.md|\.txt)", "*", path.rstrip("/"))
    return any(glob.glob(os.path.join(at, pattern)) for at in (TOP, os.path.join(TOP, "crates"), os.path.join(TOP, "crates/*"), folder))


def missing_in(line, folder, words):
    """The names and paths of a line that aren't there."""
    for target in LINK.findall(line):
        if not target.startswith("http") and not is_there(target, folder):
            yield target
    for span in SPAN.findall(line):
        if PATH.match(span):
            if span not in words and not is_there(span, folder) and (SOURCE.search(span) or not all(word in words for word in WORD.findall(span))):
                yield span
        else:
            yield from (word for word in WORD.findall(span) if word not in words)


def main():
    words = words_of_sources() | known_spans()
    paths = [os.path.join(TOP, "README.md"), *sorted(glob.glob(os.path.join(TOP, "docs/**/*.md"), recursive=True))]
    found = 0
    for path in paths:
        with open(path, encoding="utf-8") as file:
            fenced = False
            for number, line in enumerate(file, 1):
                if line.startswith("```"):
                    fenced = not fenced
                if fenced:
                    continue
                for name in missing_in(line, os.path.dirname(path), words):
                    print(f"{os.path.relpath(path, TOP)}:{number}: {name}")
                    found += 1
    sys.exit(1 if found else 0)


if __name__ == "__main__":
    main()
