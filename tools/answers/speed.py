#!/usr/bin/env python3
"""Answers for speed alone: files whose every answer is the last thing that the search would try by itself.

    speed.py [CRATE ..]                                   lists them, and which of them aren't marked
    speed.py --mark CRATE ..                              gives each its mark, a first line that says what it is for
    speed.py --weigh CRATE .. --over CLONE [--drop]       tells how many seconds each saves
    speed.py --make CRATE::FUNCTION .. --over CLONE       writes the file of a function anew

Such a file, an Answers.antt, says `grind (arith, common_steps)` of each goal that it names, and nothing else. Without it the function
is proved as well, only more slowly, since the search tries its rules first. So a file is kept where it saves a second.

--weigh proves a crate twice in a copy of the repository, with all of these files and with none, one function at a time, and takes what
each function's steps took. It tells which functions aren't proved without their file: their answers aren't for speed alone. --drop
takes those files away that save less than a second. --make answers so what a function's results, its loops and its calls ask for, and
leaves out the answers that the check refuses. Both take the libraries below from CLONE, as tools/check/check.py does. Nothing else
should run meanwhile, since what is taken is the time of a clock.
"""

import argparse
import glob
import os
import re
import shutil
import subprocess
import sys
import tempfile

ROOT = os.path.dirname(os.path.dirname(os.path.dirname(os.path.abspath(__file__))))
sys.path.insert(0, f"{ROOT}/tools/check")
import check  # noqa: E402  (it stands in the folder that the line above names)

MARK = "-- for speed: the search comes to this last (tools/answers/speed.py)\n"
ANSWER = "grind (arith, common_steps)"
IMPORTS = "use Rattle.std.proofs.Common.{arith}\nuse Rattle.std.proofs.lemmas.Grind.{common_steps}\n"
TYPE = re.compile(r"(?:abbrev )?pub (\S+) : goal\.\1$")
EQUATION = re.compile(r"(\S+)((?: \S+)*) = (.+)$")
OFFERED = re.compile(r"^(\S+)((?: \S+)*) = \?$", re.M)
SLOW = re.compile(r"returns|loop-.*-preserved|.*-requires")
WORTH = 1.0


def answers_of(crate):
    """The files of a crate that are for speed alone, with the name of the function of each."""
    for path in sorted(glob.glob(f"{ROOT}/crates/{crate}/proofs/**/Answers.antt", recursive=True)):
        if is_for_speed(path):
            inner = os.path.relpath(os.path.dirname(path), f"{ROOT}/crates/{crate}/proofs")
            yield path, inner.replace(os.sep, "::")


def is_for_speed(path):
    """Whether each answer of a file is the one that the search tries last."""
    count = 0
    with open(path, encoding="utf-8") as file:
        for line in file.read().splitlines():
            equation = EQUATION.match(line)
            if equation and equation.group(3) == ANSWER:
                count += 1
            elif line and not line.startswith(("--", "use ")) and not TYPE.match(line):
                return False
    return count > 0


def is_marked(path):
    with open(path, encoding="utf-8") as file:
        return file.readline() == MARK


def mark(path):
    with open(path, encoding="utf-8") as file:
        text = file.read()
    with open(path, "w", encoding="utf-8") as file:
        file.write(MARK + text)


class Copy:
    """A copy of the repository's sources, in which files can be taken away while a check runs."""

    def __init__(self, over):
        self.folder = tempfile.mkdtemp(prefix="speed-")
        shutil.copytree(f"{ROOT}/crates", f"{self.folder}/crates", ignore=shutil.ignore_patterns("out"))
        shutil.copy(f"{ROOT}/crates.txt", self.folder)
        check.ROOT = self.folder
        self.check = check.Check(check.kit(), os.path.abspath(over), 1)

    def path(self, path):
        return f"{self.folder}/{os.path.relpath(path, ROOT)}"

    def run(self, crate, *flags):
        """Runs the check on a crate, and gives what it printed."""
        words = self.check.words(crate, "check", *flags)
        done = subprocess.run(words, cwd=self.check.folder(crate), capture_output=True, text=True, check=False)
        return done.stdout + done.stderr

    def proved(self, crate):
        """Proves a crate from nothing: the functions without a hole, and the seconds that each took."""
        with tempfile.TemporaryDirectory() as kept:
            out = self.run(crate, "--allow-holes", "--incremental", kept)
            return set(re.findall(rf"^fn {crate}::(\S+): no holes$", out, re.M)), seconds(kept, crate)

    def end(self):
        shutil.rmtree(self.folder)


def seconds(kept, crate):
    """What each part of a check took: the time between the file that it left and the one before."""
    found = []
    for path in glob.glob(f"{kept}/antt-checked-*/Rattle-*.oantt"):
        found.append((os.stat(path).st_mtime_ns, os.path.basename(path).removesuffix(".oantt")))
    found.sort()
    took, before = {}, found[0][0] if found else 0
    for time, name in found:
        if name.startswith(f"Rattle-{crate}-proofs."):
            took[name.removeprefix(f"Rattle-{crate}-proofs.")] = (time - before) / 1e9
        before = time
    return took


def of_function(took, function):
    name = function.replace("::", ".")
    return sum(time for part, time in took.items() if part == name or part.startswith(name + "."))


def weigh(crate, over, drop):
    """Tells what each file of a crate saves, and takes those away that save too little."""
    files, copy = list(answers_of(crate)), Copy(over)
    if files:
        fast = copy.proved(crate)[1]
        for path, _ in files:
            os.remove(copy.path(path))
        found, slow = copy.proved(crate)
        for path, function in files:
            if "::+" not in function and function not in found:
                print(f"{crate}::{function} isn't proved without its answers")
                continue
            saved = of_function(slow, function) - of_function(fast, function)
            print(f"{crate}::{function} saves {saved:.1f} s")
            if drop and saved < WORTH:
                os.remove(path)
    copy.end()


def make(name, over):
    """Writes the answers of a function that the search would find, those alone that the check takes."""
    crate, _, function = name.partition("::")
    inner = f"crates/{crate}/proofs/{function.replace('::', '/')}"
    copy = Copy(over)
    path = f"{copy.folder}/{inner}/Answers.antt"
    if os.path.exists(path):
        os.remove(path)
    generated = f"{copy.folder}/generated"
    copy.run(crate, "--generated", generated, "--start", function)
    with open(f"{generated}/Rattle-{crate}-proofs/{function.replace('::', '/')}/AnswersOffered.antt", encoding="utf-8") as file:
        goals = [goal for goal in OFFERED.findall(file.read()) if SLOW.match(goal[0])]
    os.makedirs(os.path.dirname(path), exist_ok=True)
    while goals:
        write(path, crate, function, goals)
        out = copy.run(crate, "--only", function, "--allow-holes")
        refused = {goal for goal in goals if re.search(rf"(?<![\w.+-]){re.escape(goal[0])}(?![\w.+-])", out)}
        if not refused:
            break
        goals = [goal for goal in goals if goal not in refused]
    if goals:
        os.makedirs(f"{ROOT}/{inner}", exist_ok=True)
        write(f"{ROOT}/{inner}/Answers.antt", crate, function, goals)
    print(f"{name}: {len(goals)} answers")
    copy.end()


def write(path, crate, function, goals):
    with open(path, "w", encoding="utf-8") as file:
        file.write(f"{MARK}{IMPORTS}use Rattle.{crate}.proofs.{function.replace('::', '.')}.Goals as goal\n")
        for goal, given in goals:
            file.write(f"\npub {goal} : goal.{goal}\n{goal}{given} = {ANSWER}\n")


def main():
    words = argparse.ArgumentParser(description=__doc__, formatter_class=argparse.RawDescriptionHelpFormatter)
    words.add_argument("names", nargs="*", metavar="CRATE")
    words.add_argument("--mark", action="store_true")
    words.add_argument("--weigh", action="store_true")
    words.add_argument("--make", action="store_true")
    words.add_argument("--drop", action="store_true")
    words.add_argument("--over", metavar="CLONE")
    given = words.parse_args()
    if (given.weigh or given.make) and not given.over:
        words.error("--weigh and --make want --over CLONE")
    names = given.names or sorted(os.listdir(f"{ROOT}/crates"))
    for name in names:
        if given.make:
            make(name, given.over)
        elif given.weigh:
            weigh(name, given.over, given.drop)
        else:
            show(name, given.mark)


def show(crate, marks):
    """Lists the files of a crate, or marks those that aren't marked yet."""
    files = list(answers_of(crate))
    bare = [path for path, _ in files if not is_marked(path)]
    for path in bare:
        if marks:
            mark(path)
        else:
            print(os.path.relpath(path, ROOT))
    if files:
        print(f"{crate}: {len(files)} for speed alone, {len(bare)} {'marked now' if marks else 'without a mark'}")


if __name__ == "__main__":
    main()
