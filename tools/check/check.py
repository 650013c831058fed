#!/usr/bin/env python3
"""Checks a crate over libraries that `rt ci` has proved in another clone, while it still runs there or after it.

    check.py CRATE --over CLONE [--jobs N] [--program] [FLAG ..]

`rt check` proves the libraries below a crate again in each clone; this takes them from CLONE, where a run of `rt ci` puts what it
has proved or kept, and builds here what isn't there. What it checks is kept in the crate's out/over, so a second check looks at
what changed alone. FLAGs go to `rattle check`, as --allow-holes or --test. With --program it builds the program CRATE, by LLVM, as
out/over/CRATE. It is no gate: `rt ci` decides.
"""

import argparse
import os
import shutil
import subprocess
import sys

ROOT = os.path.dirname(os.path.dirname(os.path.dirname(os.path.abspath(__file__))))


def kit():
    """The folder of the kit, beside whose `rt` the compiler stands."""
    return os.path.dirname(os.path.dirname(os.path.realpath(shutil.which("rt"))))


def uses():
    """The libraries that each crate names, as crates.txt lists them."""
    found = {}
    with open(f"{ROOT}/crates.txt", encoding="utf-8") as lines:
        for line in lines:
            name, colon, libraries = line.split("#")[0].partition(":")
            if colon:
                found[name.strip()] = libraries.split()
    return found


class Check:
    def __init__(self, kit, over, jobs):
        self.kit, self.over, self.jobs, self.uses, self.same = kit, over, jobs, uses(), {}

    def folder(self, name):
        return f"{ROOT}/crates/{name}"

    def kept(self, name):
        """Where what was checked of a crate is kept."""
        kept = f"{self.folder(name)}/out/over/kept"
        os.makedirs(kept, exist_ok=True)
        return kept

    def rlib(self, name):
        """The built library: the kit's, that of the other clone, or one that is built here."""
        if name not in self.uses:
            return f"{self.kit}/rlibs/{name}.rlib"
        there = f"{self.over}/crates/{name}/out/rlib/{name}.rlib"
        here = f"{self.folder(name)}/out/over/{name}.rlib"
        if self.is_same(name) and os.path.isdir(there):
            return there
        if not os.path.isdir(here) or self.is_stale(name, here):
            print(f"building {name}", flush=True)
            self.rattle(name, "build", "--incremental", self.kept(name), "-o", here)
        return here

    def is_stale(self, name, here):
        """Whether a source of a crate, or a library that was built here for it, is newer than the library built of it."""
        below = [self.rlib(it) for it in self.uses[name] if it in self.uses]
        times = [os.path.getmtime(it) for it in below if it.startswith(ROOT)]
        for part in ("src", "specs", "proofs"):
            for at, _, names in os.walk(f"{self.folder(name)}/{part}"):
                times += [os.path.getmtime(os.path.join(at, it)) for it in names]
        return max(times) > os.path.getmtime(here)

    def is_same(self, name):
        """Whether both clones have the same sources of a crate and of those below it."""
        if name not in self.same:
            mine, other = self.folder(name), f"{self.over}/crates/{name}"
            same = all(tree(f"{mine}/{it}") == tree(f"{other}/{it}") for it in ("src", "specs", "proofs"))
            self.same[name] = same and all(self.is_same(it) for it in self.uses[name] if it in self.uses)
        return self.same[name]

    def below(self, name):
        found = set()
        for it in self.uses[name]:
            if it in self.uses:
                found |= {it} | self.below(it)
        return found

    def words(self, name, command, *flags):
        """The words of a command of the compiler on a crate, which runs in the crate's folder."""
        folder = self.folder(name)
        root = "src/main.rt" if os.path.exists(f"{folder}/src/main.rt") else "src/lib.rt"
        words = [f"{self.kit}/bin/rattle", command, "--crate-name", name, root]
        for it in ["std", *self.uses[name]]:
            words += ["--extern", f"{it}={self.rlib(it)}"]
        for it in sorted({f"{self.kit}/rlibs", *(os.path.dirname(self.rlib(it)) for it in self.below(name))}):
            words += ["-L", f"dependency={it}"]
        words += ["--antt-project", f"{self.kit}/rattle/logic/antt-project.json", "--logic-built", f"{self.kit}/logic_built"]
        return [*words, "--jobs", str(self.jobs), *flags]

    def rattle(self, name, command, *flags):
        """Runs the compiler on a crate, and ends with its status where it fails."""
        os.makedirs(f"{self.folder(name)}/out/over", exist_ok=True)
        status = subprocess.run(self.words(name, command, *flags), cwd=self.folder(name), check=False).returncode
        if status:
            sys.exit(status)

    def program(self, name):
        """Builds a program, by LLVM."""
        made, toolchain = f"{self.folder(name)}/out/over/{name}", ["--toolchain", f"{self.kit}/toolchain"]
        self.rattle(name, "build", *toolchain, "--backend", "llvm", "-o", f"{made}.o")
        links = ["--target", "x86_64-unknown-linux-gnu", *toolchain, "-o", made, f"{made}.o"]
        links += [f"{self.kit}/c/libos_c.a", f"{self.kit}/c/liblibc_c.a"]
        subprocess.run([f"{self.kit}/bin/rattle-link", *links], check=True)


def tree(folder):
    """The files below a folder with what they hold."""
    found = {}
    for at, _, names in os.walk(folder):
        for it in names:
            with open(f"{at}/{it}", "rb") as file:
                found[os.path.relpath(f"{at}/{it}", folder)] = file.read()
    return found


def main():
    words = argparse.ArgumentParser(description=__doc__, formatter_class=argparse.RawDescriptionHelpFormatter)
    words.add_argument("crate")
    words.add_argument("--over", required=True, metavar="CLONE")
    words.add_argument("--jobs", type=int, default=2)
    words.add_argument("--program", action="store_true")
    given, flags = words.parse_known_args()
    check = Check(kit(), os.path.abspath(given.over), given.jobs)
    if given.program:
        check.program(given.crate)
    else:
        check.rattle(given.crate, "check", "--incremental", check.kept(given.crate), *flags)


if __name__ == "__main__":
    main()
