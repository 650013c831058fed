#!/usr/bin/env python3
"""Builds the program mdprof: proves the libraries that it stands on, those that don't wait for each other side by side,
and then the program. Tells on the error stream at which crate it is.

It calls the kit's compiler itself, as `rt ci` does: what is built of a library then has its statements without their
proofs, which the crates above load in a fraction of the time. It stays in the crate's folder out/build, and is built again
where a source of the crate or of one below has changed. In one clone one run builds at a time.
"""

import fcntl
import hashlib
import os
import re
import shutil
import subprocess
import sys
import time
from concurrent.futures import FIRST_COMPLETED, ThreadPoolExecutor, wait

ROOT = os.path.dirname(os.path.dirname(os.path.dirname(os.path.abspath(__file__))))
PROGRAM = "mdprof"
PLACE = f"{ROOT}/crates/{PROGRAM}/out/{PROGRAM}"
# What a check takes of memory, in bytes.
MEMORY = 2_000_000_000
# Seconds of one processor that a line of a library takes, until this build has told, and seconds that the program itself takes.
LINE, LAST = 0.024, 100
# From how many lines on a build is believed to tell.
EARLY = 10_000
SOURCES = ("src", "specs", "proofs")
# Lines of the compiler that say why a crate isn't built.
CAUSES = re.compile(r"\berror\b|\bnot proved that\b|: not proved$|: no proof$|could not tell")


def say(text):
    print(f"mdprof: {text}", file=sys.stderr, flush=True)


class Crate:
    """A crate of the repository: its name, the libraries that it names, and all of the repository's libraries below it."""

    def __init__(self, name, uses):
        self.name, self.uses, self.below = name, uses, set()
        self.folder = f"{ROOT}/crates/{name}"
        self.built = f"{self.folder}/out/build"
        self.rlib = f"{self.built}/{name}.rlib"
        self.files = sorted(f"{at}/{it}" for part in SOURCES for at, _, names in os.walk(f"{self.folder}/{part}") for it in names)
        texts = [read(it) for it in self.files]
        self.lines = sum(it.count(b"\n") for it in texts)
        self.sum = hashlib.sha256(repr((uses, [os.path.relpath(it, ROOT) for it in self.files], texts)).encode())

    def words(self, kit, crates, jobs):
        """The compiler's words for this crate: its root, the libraries that it names and those below, and the kit's logic."""
        words = ["--crate-name", self.name, "src/main.rt" if self.name == PROGRAM else "src/lib.rt"]
        for it in ["std", *self.uses]:
            words += ["--extern", f"{it}={crates[it].rlib if it in crates else f'{kit}/rlibs/{it}.rlib'}"]
        for it in [f"{kit}/rlibs", *(crates[it].built for it in sorted(self.below))]:
            words += ["-L", f"dependency={it}"]
        words += ["--antt-project", f"{kit}/rattle/logic/antt-project.json", "--logic-built", f"{kit}/logic_built"]
        return [*words, "--jobs", str(jobs)]

    def run(self, *words):
        """Runs a command in the crate's folder, and tells why it failed where it did. Returns whether it succeeded."""
        with open(f"{self.built}/log", "w+", encoding="utf-8", errors="replace") as log:
            how = {"stdin": subprocess.DEVNULL, "stdout": log, "stderr": subprocess.STDOUT}
            if not subprocess.run(words, cwd=self.folder, check=False, **how).returncode:
                return True
            log.seek(0)
            said = log.readlines()
        sys.stderr.writelines([it for it in said if CAUSES.search(it)][:10] or said[-5:])
        say(f"{self.name} can't be built; {os.path.relpath(log.name, ROOT)} has all that was said")
        return False


def read(file):
    with open(file, "rb") as it:
        return it.read()


def needed():
    """The crates that the program stands on and the program itself, by name."""
    uses = {}
    with open(f"{ROOT}/crates.txt", encoding="utf-8") as lines:
        for line in lines:
            name, colon, libraries = line.split("#")[0].partition(":")
            if colon:
                uses[name.strip()] = libraries.split()
    crates, left = {}, [PROGRAM]
    while left:
        name = left.pop()
        if name not in crates:
            crates[name] = Crate(name, uses[name])
            left += [it for it in uses[name] if it in uses]
    for it in crates.values():
        add_below(it, it, crates)
    return crates


def add_below(to, crate, crates):
    for name in crate.uses:
        if name in crates and name not in to.below:
            to.below.add(name)
            add_below(to, crates[name], crates)


def sums(kit, crates):
    """For each crate a sum of all that it is built from: the kit, its own sources, and those of the crates below it."""
    found = {}
    for crate in crates.values():
        whole = hashlib.sha256(read(f"{kit}/KIT-ID"))
        for name in sorted([crate.name, *crate.below]):
            whole.update(crates[name].sum.digest())
        found[crate.name] = whole.hexdigest()
    return found


def is_current(crate, sum):
    """Whether the library is built from these sources, or the program, and nothing else was put in its place."""
    try:
        made = sum_of_program(sum) if crate.name == PROGRAM else os.path.isdir(crate.rlib) and sum
        return made and read(f"{crate.built}/sum").decode() == made
    except OSError:
        return False


def sum_of_program(sum):
    return f"{sum} {hashlib.sha256(read(PLACE)).hexdigest()}"


def build_library(kit, crates, crate, jobs, sum):
    """Builds a library. Returns whether it could be built."""
    shutil.rmtree(crate.built, ignore_errors=True)
    os.makedirs(crate.built)
    if not crate.run(f"{kit}/bin/rattle", "build", *crate.words(kit, crates, jobs), "--statements", "-o", crate.rlib):
        return False
    write_sum(crate, sum)
    return True


def write_sum(crate, sum):
    with open(f"{crate.built}/sum", "w", encoding="utf-8") as it:
        it.write(sum)


def build_program(kit, crates, jobs, sum):
    """Builds the program over its libraries, and puts it in its place once it is whole. Returns whether it could be built."""
    program = crates[PROGRAM]
    made, toolchain = f"{program.built}/{PROGRAM}", ["--toolchain", f"{kit}/toolchain"]
    compiles = ["build", *program.words(kit, crates, jobs), *toolchain, "--backend", "llvm", "-o", f"{made}.o"]
    links = ["--target", "x86_64-unknown-linux-gnu", *toolchain, "-o", made, f"{made}.o"]
    links += [f"{kit}/c/libos_c.a", f"{kit}/c/liblibc_c.a"]
    if not (program.run(f"{kit}/bin/rattle", *compiles) and program.run(f"{kit}/bin/rattle-link", *links)):
        return False
    os.replace(made, PLACE)
    write_sum(program, sum_of_program(sum))
    return True


def lines_behind(crates):
    """For each crate how many lines the longest chain has that begins with it and goes on with crates that wait for it."""
    behind = {}
    for crate in sorted(crates.values(), key=lambda it: -len(it.below)):
        above = [behind[it.name] for it in crates.values() if crate.name in it.below]
        behind[crate.name] = crate.lines + max(above, default=0)
    return behind


def share(processors, crate, others):
    """How many processors a crate gets: its part of the lines of all that could be built beside it."""
    beside = sum(it.lines for it in others if it.name not in crate.below and crate.name not in it.below and it is not crate)
    return max(1, -(-processors * crate.lines // (crate.lines + beside)))


def minutes_left(crates, behind, built, processors, rate):
    """How many minutes a build takes on from here, by the lines that are left: those of all libraries, side by side, or those of
    the longest chain, whichever takes longer. A line takes `rate` seconds of one processor."""
    left = [it for it in crates.values() if it.name not in built]
    lines = max(sum(it.lines for it in left) / processors, max((behind[it.name] for it in left), default=0) / min(2, processors))
    return max(1, round((lines * rate + LAST) / 60))


def places():
    """How many crates are built side by side: one for each processor, as far as memory allows."""
    processors = len(os.sched_getaffinity(0))
    with open("/proc/meminfo", encoding="utf-8") as lines:
        free = next((int(line.split()[1]) * 1024 for line in lines if line.startswith("MemAvailable:")), MEMORY)
    return max(1, min(processors, free // MEMORY))


def build_libraries(kit, crates, processors, sum):
    """Builds each library that isn't current once those below it are. Returns whether all could be built."""
    behind = lines_behind(crates)
    left = sorted((it for it in crates.values() if it.name != PROGRAM), key=lambda it: -behind[it.name])
    anew = [it for it in left if any(not is_current(crates[name], sum[name]) for name in [it.name, *it.below])]
    built, running, left = {it.name for it in left if it not in anew}, {}, anew
    begun, lines, rate = time.time(), 0, LINE
    with ThreadPoolExecutor(processors) as pool:
        while left or running:
            for crate in [it for it in left if it.below <= built][: processors - len(running)]:
                minutes = minutes_left(crates, behind, built, processors, rate)
                say(f"building {crate.name} ({len(crates) - len(left)} of {len(crates)}, about {minutes} min left)")
                jobs = share(processors, crate, [*left, *running.values()])
                left.remove(crate)
                running[pool.submit(build_library, kit, crates, crate, jobs, sum[crate.name])] = crate
                lines += crate.lines / 2  # as if half of it were done
            for it in wait(running, return_when=FIRST_COMPLETED).done:
                crate = running.pop(it)
                built.add(crate.name)
                lines += crate.lines / 2
                if not it.result():
                    return False
            if lines > EARLY:
                rate = (time.time() - begun) * processors / lines
    return True


def build(kit, processors):
    """Builds what isn't current. Returns whether the program is."""
    begun, crates = time.time(), needed()
    sum, program = sums(kit, crates), crates[PROGRAM]
    if not is_current(program, sum[PROGRAM]):
        say("the program is being built and proved, which takes a while the first time")
        if not build_libraries(kit, crates, processors, sum):
            return False
        say(f"building {PROGRAM} ({len(crates)} of {len(crates)})")
        if not build_program(kit, crates, processors, sum[PROGRAM]):
            return False
    # A source that was changed since it was read is newer.
    os.utime(PLACE, (begun, begun))
    return True


def main():
    rt = shutil.which("rt")
    if not rt:
        say("the command rt isn't on the path")
        return 1
    kit, room = os.path.dirname(os.path.dirname(os.path.realpath(rt))), f"{os.path.dirname(PLACE)}/build"
    os.makedirs(room, exist_ok=True)
    with open(f"{room}/lock", "w", encoding="utf-8") as lock:
        try:
            fcntl.flock(lock, fcntl.LOCK_EX | fcntl.LOCK_NB)
        except OSError:
            say("waiting for another run that builds it")
            fcntl.flock(lock, fcntl.LOCK_EX)
        return 0 if build(kit, places()) else 1


if __name__ == "__main__":
    sys.exit(main())
