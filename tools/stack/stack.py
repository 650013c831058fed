#!/usr/bin/env python3
"""Measures how much stack the built program mdprof takes for goals that are nested 200 deep.

    stack.py PROGRAM

finds for each way to nest goals and each part of the program the least limit (`ulimit -s`, in KiB) with which it ends as it
does with 8 MiB, and writes a line for each way. A text that is refused early takes only the parts before: one that ends in
a fault of syntax is only read, one with an unknown variable is read and its modes are checked, and so on. Then it lists the
recursions in the program's code, greatest frames first: which functions call each other, and how many bytes of the stack
each takes a call (`objdump`).
"""

import os
import re
import resource
import subprocess
import sys
import tempfile

DEPTH = 200
ROOMY = 8192
STEP = 4
# Frames of fewer bytes aren't listed.
LEAST = 200

# Each wraps a goal in one that opens one more, by its number.
WAYS = {
    "not": lambda goal, number: f"not ( {goal} )",
    "then": lambda goal, number: f"( true -> {goal} ; true )",
    "else": lambda goal, number: f"( fail -> true ; {goal} )",
    "condition": lambda goal, number: f"( {goal} -> true ; fail )",
    "arm": lambda goal, number: f"( fail ; {goal} )",
    "conjunction": lambda goal, number: f"( true, {goal} )",
    "some and conjunction": lambda goal, number: f"some [X{number}] ( X{number} = 1, {goal} )",
    "else and conjunction": lambda goal, number: f"( fail -> true ; true, {goal} )",
    "arm and conjunction": lambda goal, number: f"( fail ; true, {goal} )",
}

# Each part: the innermost goal, what the predicate is declared, and the words of the command.
PARTS = {
    "read": ("true true", "semidet", ["check", "t.m"]),
    "modes": ("Y = Z", "semidet", ["check", "t.m"]),
    "determinism": ("true", "failure", ["check", "t.m"]),
    "print": ("true", "semidet", ["check", "t.m", "--print"]),
    "run": ("true", "semidet", ["run", "t.m"]),
    "report": ("true", "semidet", ["report", "t.m", "procs"]),
    "cover": ("true", "semidet", ["cover", "t.m", "1"]),
    "feedback": ("true", "semidet", ["feedback", "t.m", "f.txt"]),
}


def program(way, inner, declared):
    """A program with a predicate whose body is nested so."""
    body = inner
    for number in range(DEPTH):
        body = WAYS[way](body, number)
    return (
        ":- module t.\n:- pred main(io::di, io::uo) is det.\n"
        "main(IO0, IO) :- ( p -> IO = IO0 ; IO = IO0 ).\n"
        f":- pred p is {declared}.\np :- {body}.\n"
    )


def ends(words, folder, kib):
    """How a command ends with this limit on the stack."""

    def limit():
        resource.setrlimit(resource.RLIMIT_STACK, (kib * 1024, kib * 1024))

    done = subprocess.run(words, cwd=folder, preexec_fn=limit, stdin=subprocess.DEVNULL, capture_output=True, check=False)
    return done.returncode, done.stdout, done.stderr


def least(words, folder):
    """The least limit with which it ends as with a roomy one, and its status."""
    due = ends(words, folder, ROOMY)
    low, high = 0, ROOMY
    while high - low > STEP:
        middle = (low + high) // 2 // STEP * STEP
        if ends(words, folder, middle) == due:
            high = middle
        else:
            low = middle
    return high, due[0]


def code(mdprof):
    """Of each function its frame in bytes, and the functions that it calls."""
    frames, calls, name, heads = {}, {}, None, True
    listing = subprocess.run(["objdump", "-d", "--no-show-raw-insn", mdprof], capture_output=True, text=True, check=True).stdout
    for line in listing.splitlines():
        if begun := re.match(r"^[0-9a-f]+ <(.+)>:$", line):
            name, heads = begun.group(1), True
            frames[name], calls[name] = 8, set()
        elif step := re.match(r"^\s+[0-9a-f]+:\s+(\S+)\s*(.*)$", line):
            what, operands = step.groups()
            if heads and what == "push":
                frames[name] += 8
            elif heads and what == "sub" and operands.endswith(",%rsp"):
                frames[name] += int(operands[1:].split(",")[0], 16)
                heads = False
            if what in ("call", "jmp") and (to := re.search(r"<([^>+]+)>$", operands)):
                calls[name].add(to.group(1))
    return frames, calls


def recursions(calls):
    """The lists of functions that call each other, each by any of the others."""
    sys.setrecursionlimit(100_000)
    order, low, open_ones, found = {}, {}, [], []

    def visit(name):
        order[name] = low[name] = len(order)
        open_ones.append(name)
        for to in calls[name] & calls.keys():
            if to not in order:
                visit(to)
            if to in open_ones:
                low[name] = min(low[name], low[to])
        if low[name] == order[name]:
            at = open_ones.index(name)
            cycle = open_ones[at:]
            del open_ones[at:]
            if len(cycle) > 1 or name in calls[name]:
                found.append(cycle)

    for name in calls:
        if name not in order:
            visit(name)
    return found


def main():
    if len(sys.argv) != 2:
        print(__doc__, file=sys.stderr)
        return 2
    mdprof = os.path.abspath(sys.argv[1])
    with tempfile.TemporaryDirectory() as folder:
        for way in WAYS:
            said = []
            for part, (inner, declared, words) in PARTS.items():
                with open(f"{folder}/t.m", "w", encoding="ascii") as it:
                    it.write(program(way, inner, declared))
                kib, status = least([mdprof, *words], folder)
                said.append(f"{part} {kib} ({status})")
            print(f"{way}: " + ", ".join(said), flush=True)
    frames, calls = code(mdprof)
    for cycle in sorted(recursions(calls), key=lambda cycle: -max(frames[it] for it in cycle)):
        if any("md_" in it for it in cycle) and max(frames[it] for it in cycle) >= LEAST:
            print(" + ".join(f"{it} {frames[it]}" for it in sorted(cycle, key=lambda it: -frames[it])))
    return 0


if __name__ == "__main__":
    sys.exit(main())
