#!/usr/bin/env python3
"""Compares `mdprof check` with a second reading of the rules, on programs made from the examples by small changes.

    python3 tools/crosscheck/crosscheck.py [COUNT [SEED]]

COUNT texts are made (1,000 if it is left out), each token on a line of its own, so that a line tells the token. Each text
that the two judge differently is kept and told, and the status is then 1.
"""

import random
import re
import subprocess
import sys
import tempfile
from pathlib import Path

import checks
import reader

ROOT = Path(__file__).resolve().parents[2]
EDGES = ["a" * 255, "a" * 256, "X" * 256, "a" * 256 + ".b", "a." + "b" * 256, str(2**63 - 1), str(2**63), str(2**63 + 1)]
EDGES += ['"' + "x" * 65535 + '"', '"' + "x" * 65536 + '"', "io.nl", "_", "?", "some", "[", "]", "call", "::", "pred"]
ALIKE = [("in", "out", "di", "uo"), ("det", "semidet", "multi", "nondet", "failure"), ("int", "string", "io")]
ALIKE += [("true", "fail"), ("<", "=<", ">", ">="), ("+", "-", "*"), (",", ";")]


def words(text):
    return [token.text for token in reader.tokens(text)[:-1]]


def joined(count, item, sign=","):
    """So many items with signs between them."""
    return f" {sign} ".join(item.format(number) for number in range(count))


def long_program():
    """A program about as long as a limit allows."""
    count = random.choice([254, 255, 256, 257])
    opening = random.choice(["( ", "not ( ", "some [ X ] ( ", "some [ ] ( ", "( fail ; "])
    depth = random.choice([199, 200, 201])
    head = ":- module t . :- pred q is det . q :- "
    modes = f"pred ( {joined(count, 'int')} ) :: in ( pred ( {joined(count, 'in')} ) is det )"
    return random.choice(
        [
            f"{head} p ( {joined(count, 'V{}')} ) .",
            f"{head} some [ {joined(count, 'V{}')} ] ( true ) .",
            f"{head} X = f ( {joined(count, 'V{}')} ) , call ( {joined(count, 'V{}')} ) .",
            f"{head} true , {opening * depth} fail {') ' * depth} .",
            f"{head} {joined(300, 'p ( X )')} .",
            f":- module t . :- type a ---> b ( {joined(count, 'int')} ) .",
            f":- module t . :- pred q ( {modes} ) is det . q ( X ) :- true .",
            f":- module t . :- pred q ( {joined(count, 'int :: in')} ) is det . "
            f"q ( {joined(count, 'V{}')} ) :- true .",
        ]
    )


def any_change(tokens, pool):
    """Another token, one more or one less, or a text that ends earlier."""
    place = random.randrange(len(tokens))
    change = random.randrange(4)
    if change == 0:
        return tokens[:place]
    return tokens[:place] + [random.choice(pool)] * (change > 1) + tokens[place + (change != 2) :]


def like_change(tokens):
    """A token of the same kind in the place of one, as a rule of modes or determinism may refuse."""
    place = random.randrange(len(tokens))
    token = tokens[place]
    alike = next((words for words in ALIKE if token in words), None)
    if alike is None:
        kind = reader.tokens(token)[0].kind
        near = tokens[max(0, place - 40) : place + 40]
        alike = [other for other in near if reader.tokens(other)[0].kind == kind and other not in reader.RESERVED]
    return tokens[:place] + [random.choice(alike or [token])] + tokens[place + 1 :]


def changed(programs, pool):
    """The text of a program after some changes, a token a line."""
    tokens = words(long_program()) if random.random() < 0.2 else list(random.choice(programs))
    by_kind = random.random() < 0.7
    for _ in range(random.choice([0, 1, 1, 2, 3])):
        if tokens:
            tokens = like_change(tokens) if by_kind else any_change(tokens, pool)
    return "\n".join(tokens) + "\n"


def expected(text):
    """What the second reading says: a line and why, or that the text is accepted."""
    return reader.fault(text) or checks.fault(text) or (0, "accepted")


def answered(path):
    """What `mdprof check` says."""
    done = subprocess.run([ROOT / "mdprof", "check", path], capture_output=True, text=True, check=False)
    told = re.search(r":(\d+): (.*)$", done.stderr.strip())
    return (int(told[1]), told[2]) if told else (0, done.stdout.strip() or done.stderr.strip())


def main():
    count = int(sys.argv[1]) if len(sys.argv) > 1 else 1000
    seed = int(sys.argv[2]) if len(sys.argv) > 2 else 1
    random.seed(seed)
    programs = [words(path.read_text()) for path in sorted((ROOT / "examples").glob("*.m"))]
    pool = sorted({token for program in programs for token in program}) + EDGES
    folder = Path(tempfile.mkdtemp(prefix="crosscheck-"))
    tally, differences = {}, 0
    for number in range(count):
        path = folder / f"{number}.m"
        path.write_text(changed(programs, pool))
        found = answered(path)
        kind = found[1].split(" ")[0] if found[1].startswith("declared") else found[1]
        tally[kind] = tally.get(kind, 0) + 1
        # Second declarations are left out: they are found after the grammar and before the modes.
        if found[1] == "duplicate" or found == expected(path.read_text()):
            path.unlink()
            continue
        differences += 1
        print(f"{path}: mdprof says {found}, the second reading {expected(path.read_text())}")
    print(f"seed {seed}: {count} texts, {differences} differences")
    for kind, times in sorted(tally.items(), key=lambda pair: -pair[1]):
        print(f"{times:6} {kind}")
    sys.exit(differences > 0)


if __name__ == "__main__":
    main()
