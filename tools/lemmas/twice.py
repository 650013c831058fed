#!/usr/bin/env python3
"""Finds statements that are proved twice: lemmas of one type, up to the names of its variables and of the lemma.

    twice.py [--kit] [--apart] [--most N] [CRATE ..]

reads crates/*/proofs/, and prints each statement that stands in two places or more, those that stand most often first, and
where they stand. CRATE: those that stand in one of these crates. --apart: those that stand in two crates or more. --kit: those
that a library of the kit has too (its proofs are read as those of a crate). --most N: the first N of them. The last line counts
all of them.

A statement is what stands behind the colon of a name at the beginning of a line, or in a module with parameters, which
count as its own. Definitions (abbrev, unfoldable, data, record) are none, nor are values (their types end in one word, or with List or Option)
and answers to goals (`goal.NAME`). Variables are numbered in the order in which they are bound; a variable in braces is one in
parentheses, and `A →` is a variable of type A that nothing names. What differs otherwise (the order of hypotheses, the sides of an
equation) is another statement.
"""

import argparse
import glob
import os
import re
import shutil
from collections import defaultdict

ROOT = os.path.dirname(os.path.dirname(os.path.dirname(os.path.abspath(__file__))))
VALUES = ("List", "Option")
NAME = re.compile(r"(?:pub )?([^\s(){}:]+) : (.*)")
MODULE = re.compile(r"(?:pub )?module \S+ (.*)")
OTHER = re.compile(r"(?:pub )?(?:abbrev|unfoldable|data|record|use|mod|rule|infix|mutual|where|--)")
TOKEN = re.compile(r"[(){}]|[^\s(){}]+")
DEFINED = re.compile(r"(?:(?:abbrev|unfoldable) )?(?:pub )?(?:(?:data|record) )?([^\s(){}:]+)(?= .*:)")
IMPORT = re.compile(r"use (Rattle\.\w+\.proofs\.\S+)\.\{(.*)\}")
ALIAS = re.compile(r"([^\s{},]+) as ([^\s{},]+)")
OF_KIT = " (kit)"
OPENS, CLOSES = ("(", "{"), (")", "}")


def blocks(path):
    """The parts of a file, each a line with those that stand further in below it: its indent, its line's number, its text."""
    found = []
    with open(path, encoding="utf-8") as file:
        for number, line in enumerate(file, 1):
            text = re.sub(r"(^|\s)--.*", "", line).rstrip()
            if text.strip():
                found.append((len(text) - len(text.lstrip()), number, text.strip()))
    return found


def own_names(path, lines):
    """What is meant by the names that a file defines, or takes from proofs of the repository: two files' may differ."""
    found = {}
    for _, _, text in lines:
        taken, defined = IMPORT.match(text), not text.startswith(("use ", "mod ", "pub mod ")) and DEFINED.match(text)
        if taken and not taken.group(1).startswith("Rattle.std."):
            found.update({name: f"{taken.group(1)}.{name}" for name in re.findall(r"[^\s,]+", taken.group(2))})
        elif defined:
            found[defined.group(1)] = f"{path}.{defined.group(1)}"
    return found


def statements(path, lines):
    """The statements of a file: the name of each, its line, and the tokens of its type, parameters of its modules before them."""
    modules, place, hidden, aliases = [], 0, None, {}
    while place < len(lines):
        indent, number, text = lines[place]
        place += 1
        modules = [it for it in modules if it[0] < indent]
        if hidden is not None and indent > hidden:
            continue
        hidden = None
        if text.startswith("use "):
            aliases.update({new: old for old, new in ALIAS.findall(text)})
        module, named = MODULE.match(text), not OTHER.match(text) and NAME.match(text)
        if module or named:
            whole = (module or named).group(module and 1 or 2)
            while place < len(lines) and (not whole.endswith("where") if module else lines[place][0] > indent):
                whole += " " + lines[place][2]
                place += 1
            if module:
                modules.append((indent, whole.removesuffix("where")))
            else:
                tokens = TOKEN.findall(" ".join([*(it[1] + " →" for it in modules), whole]))
                yield named.group(1), number, [aliases.get(it, it) for it in tokens]
                hidden = indent
        elif text != "mutual":
            # an equation, or a definition: what stands further in is its own
            hidden = indent


def pieces(tokens, sign):
    """The tokens between the signs that stand outside all parentheses."""
    depth, found = 0, [[]]
    for it in tokens:
        depth += (it in OPENS) - (it in CLOSES)
        if it == sign and not depth:
            found.append([])
        else:
            found[-1].append(it)
    return found


def groups(tokens):
    """The binders of a piece of a type, each as its names and the tokens of its type; or None where it is no list of binders."""
    found, place = [], 0
    while place < len(tokens):
        if tokens[place] not in OPENS:
            return None
        depth, end = 0, place
        while end < len(tokens):
            depth += (tokens[end] in OPENS) - (tokens[end] in CLOSES)
            if not depth:
                break
            end += 1
        names = pieces(tokens[place + 1 : end], ":")
        if len(names) != 2 or any(it in OPENS for it in names[0]):
            return None
        found.append((names[0], names[1]))
        place = end + 1
    return found


def bare(tokens):
    """A type without parentheses around the whole of it."""
    while tokens and tokens[0] == "(" and tokens[-1] == ")":
        depth = 0
        for place, it in enumerate(tokens):
            depth += (it in OPENS) - (it in CLOSES)
            if not depth and place < len(tokens) - 1:
                return tokens
        tokens = tokens[1:-1]
    return tokens


def is_statement(tokens):
    """Whether a type says something: it is no goal's, and no value's."""
    claim = pieces(tokens, "→")[-1]
    return not tokens[0].startswith("goal.") and len(claim) > 1 and claim[0] not in VALUES


def normal(tokens, own):
    """A type whose variables are numbered: the types of what is bound, in order, and what follows from them."""
    *binders, claim = pieces(tokens, "→")
    number, known, parts = 0, dict(own), []
    for piece in binders:
        for names, bound in groups(piece) or [([""], piece)]:
            kind = renamed(bare(bound), known)
            for name in names:
                known = {**known, name: f"#{number}"}
                number += 1
                parts.append(kind)
    return "\n".join([*parts, renamed(bare(claim), known)])


def renamed(tokens, known):
    """The tokens with the numbers of variables in place of their names."""
    known, found, place, inner = dict(known), [], 0, 0
    for place, it in enumerate(tokens):
        before = tokens[place - 1] if place else ""
        if it == "λ" or (it == ":" and before not in CLOSES):
            # names that are bound within: those before a colon in parentheses, and those behind a lambda
            names = names_before(tokens, place) if it == ":" else names_behind(tokens, place)
            for name in names:
                known[name] = f"#inner{inner}"
                inner += 1
            if it == ":" and names:
                found[-len(names) :] = [known[name] for name in names]
        head, dot, rest = it.partition(".")
        found.append(known.get(head, head) + dot + rest)
    return " ".join(found)


def names_before(tokens, place):
    start = place
    while start and tokens[start - 1] not in OPENS + CLOSES:
        start -= 1
    return tokens[start:place] if start and tokens[start - 1] in OPENS else []


def names_behind(tokens, place):
    names = []
    for it in tokens[place + 1 :]:
        if it in OPENS + CLOSES:
            break
        names.append(it.rstrip("."))
        if it.endswith("."):
            break
    return names


def files_of(kit):
    """The files with proofs, with the name of the crate of each."""
    for path in sorted(glob.glob(f"{ROOT}/crates/*/proofs/**/*.antt", recursive=True)):
        yield os.path.relpath(path, f"{ROOT}/crates").split(os.sep)[0], path
    if kit:
        top = os.path.dirname(os.path.dirname(os.path.realpath(shutil.which("rt")))) + "/rattle"
        for path in sorted(glob.glob(f"{top}/*/proofs/**/*.antt", recursive=True)):
            yield os.path.relpath(path, top).split(os.sep)[0] + OF_KIT, path


def main():
    words = argparse.ArgumentParser(description=__doc__, formatter_class=argparse.RawDescriptionHelpFormatter)
    words.add_argument("crates", nargs="*", metavar="CRATE")
    words.add_argument("--kit", action="store_true")
    words.add_argument("--apart", action="store_true")
    words.add_argument("--most", type=int)
    given = words.parse_args()
    found, count = defaultdict(list), 0
    for crate, path in files_of(given.kit):
        lines = blocks(path)
        own = own_names(path, lines)
        for name, line, tokens in statements(path, lines):
            if tokens and is_statement(tokens):
                count += 1
                found[normal(tokens, own)].append((crate, name, path, line, " ".join(tokens)))
    twice = []
    for places in found.values():
        crates = {it[0] for it in places}
        of_kit = {it for it in crates if it.endswith(OF_KIT)}
        wanted = crates != of_kit and len(places) > 1 and (of_kit or not given.kit) and (len(crates) > 1 or not given.apart)
        if wanted and (not given.crates or crates & set(given.crates)):
            twice.append(places)
    twice.sort(key=lambda it: (-len(it), it[0][2:4]))
    for places in twice[: given.most]:
        print(f"{len(places)} times: {places[0][4]}")
        for crate, name, path, line, _ in places:
            print(f"    {crate}: {name} ({path.removeprefix(ROOT + os.sep)}:{line})")
    print(f"{count} statements; {len(twice)} stand in two places or more, {sum(map(len, twice))} places in all")


if __name__ == "__main__":
    main()
