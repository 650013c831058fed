#!/usr/bin/env python3
"""Checks the examples of docs/definitions/language.md: that those of its tables of slips are refused as it says, and that what is
to be written instead, and each example of a construct, is accepted.

    slips.py [PROGRAM]

judges them by the second reading in tools/crosscheck, which finds no second declarations, or by a built program. The first
program in the document after "## Constructs" is the frame. Words of the text say for what the next examples stand: "in place of" GOALS, WRITES or two
lines. What is judged differently is printed, and the status is 1.
"""

import os
import re
import subprocess
import sys
import tempfile

ROOT = os.path.dirname(os.path.dirname(os.path.dirname(os.path.abspath(__file__))))
PAGE = f"{ROOT}/docs/definitions/language.md"
PLACE = re.compile(r"[Ii]n place of (GOALS|WRITES|lines (\d) and \d)")
SPAN = re.compile(r"`([^`]+)`")
STANDING = {"GOALS": "true", "WRITES": "IO = IO0"}
sys.path.insert(0, f"{ROOT}/tools/crosscheck")


def filled(frame, place, text):
    """The frame with a text in place of a word or of two lines."""
    lines = list(frame)
    if place.startswith("lines"):
        first = int(place.split()[1]) - 1
        lines[first : first + 2] = [text]
        place = ""
    words = {**STANDING, place: text}
    return "\n".join(lines).replace("WRITES", words["WRITES"]).replace("GOALS", words["GOALS"]) + "\n"


def examples():
    """The examples of the page: the line where each stands, its program, and the line that tells of its fault, or accepted."""
    with open(PAGE, encoding="utf-8") as file:
        lines = file.read().split("\n")
    start = next(number for number, it in enumerate(lines) if it.startswith("## Constructs"))
    end = next(number for number, it in enumerate(lines) if it.startswith("## The grammar as a definition"))
    fences = [number for number in range(start, end) if lines[number].startswith("```")]
    frame, place, head = lines[fences[0] + 1 : fences[1]], "", []
    for number in range(fences[1] + 1, end):
        line = lines[number]
        cells = [it.strip().replace("\\|", "|") for it in re.split(r"(?<!\\)\|", line)[1:-1]]
        if not cells:
            head = []
            places = list(PLACE.finditer(line))
            place = places[-1].group(1) if places else place
            if places and ": `" in line[places[-1].end() :]:
                for text in SPAN.findall(line[places[-1].end() :]):
                    yield number + 1, filled(frame, place, text), "accepted"
        elif not head:
            head = cells
        elif not cells[0].startswith("---"):
            row = dict(zip(head, cells))
            place_here = PLACE.search(row.get("Where", ""))
            at = place_here.group(1) if place_here else place
            if "Written" in row:
                yield number + 1, filled(frame, at, SPAN.findall(row["Written"])[0]), SPAN.findall(row["Refused as"])[0]
                yield number + 1, filled(frame, at, SPAN.findall(row["Write instead"])[0]), "accepted"
            for text in SPAN.findall(row.get("Example", "")):
                yield number + 1, filled(frame, at, text), "accepted"


def read_again(text):
    """What the second reading says of a program."""
    import checks
    import reader

    found = reader.fault(text) or checks.fault(text)
    return f"mdprof: t.m:{found[0]}: {found[1]}" if found else "accepted"


def answered(program, text):
    """What a built program says of it."""
    with tempfile.TemporaryDirectory() as folder:
        with open(f"{folder}/t.m", "w", encoding="utf-8") as file:
            file.write(text)
        done = subprocess.run([program, "check", "t.m"], cwd=folder, capture_output=True, text=True, check=False)
    return (done.stdout + done.stderr).strip()


def main():
    program = os.path.abspath(sys.argv[1]) if len(sys.argv) > 1 else None
    wrong = count = 0
    for line, text, wanted in examples():
        if not program and wanted.endswith(": duplicate"):
            continue
        found = answered(program, text) if program else read_again(text)
        count += 1
        if found != wanted:
            wrong += 1
            print(f"language.md:{line}: {found} and not {wanted}:\n{text}")
    print(f"{count} examples, {wrong} judged otherwise than language.md says")
    sys.exit(1 if wrong else 0)


if __name__ == "__main__":
    main()
