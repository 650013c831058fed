#!/usr/bin/env python3
"""Refuses mdprof memory at every point where it asks the system for more, and sees what each command leaves then.

    python3 tools/hostile/refused.py PROGRAM [--step BYTES]

PROGRAM is a built mdprof. Each command is run on the profile or the text of a run with 4,096 contexts, with a limit on the process's
addresses (RLIMIT_AS) that rises by --step (16,384) from the least with which the program starts to the first with which the command ends as
it does without. Below it the status is 8, what was written to each stream is a front of what is written without a limit (but for the
fault's line), and a file that the command stores is there whole or not at all. Then small files whose counts say 4,294,967,295 are
read with a limit of a megabyte more: they are damaged (5), and no room is taken for what they say. The status is 1 where something else came.
"""

import argparse
import os
import pathlib
import resource
import subprocess
import sys
import tempfile

EXAMPLES = pathlib.Path(__file__).resolve().parents[2] / "examples"
LINE = b"mdprof: want of memory\n"
# With less than this many bytes of addresses no program starts.
FIRST = 3 << 20
GIBIBYTE = 1 << 30


class Ended:
    """How a command ended: its status, its streams, and the file that it stored."""

    def __init__(self, program, words, folder, limit):
        stored = pathlib.Path(folder, "stored")
        stored.unlink(missing_ok=True)
        done = subprocess.run([program, *words], cwd=folder, stdin=subprocess.DEVNULL, capture_output=True,
                              preexec_fn=lambda: resource.setrlimit(resource.RLIMIT_AS, (limit, limit)))
        self.status, self.out, self.err = done.returncode, done.stdout, done.stderr
        self.stored = stored.read_bytes() if stored.exists() else None

    def is_as(self, other):
        return (self.status, self.out, self.err, self.stored) == (other.status, other.out, other.err, other.stored)

    def is_refused(self, whole):
        """Whether it wanted memory, and left nothing but fronts."""
        err = self.err[:-len(LINE)] if self.err.endswith(LINE) else self.err
        return (self.status == 8 and whole.out.startswith(self.out) and (whole.err.startswith(err) or LINE.startswith(err))
                and self.stored in (None, whole.stored))


def starts(program, folder, limit):
    """Whether the program starts at all: by its own words, which are none, it tells how it is used."""
    return Ended(program, [], folder, limit).status in (1, 8)


def commands():
    queens, steps = str(EXAMPLES / "queens.m"), ["--steps", "16777216"]
    yield ["check", "gen.m", "--print"]
    yield ["run", "gen.m", *steps, "--profile", "stored"]
    yield ["run", queens, "--profile", "stored"]
    yield ["report", "gen.m", "tree?least=0", *steps]
    yield ["page", "kept", "proc?id=12"]
    yield ["page", "kept", "flame"]
    yield ["migrate", "kept", "stored"]
    yield ["cover", queens, "queens.place/3"]
    yield ["feedback", "gen.m", "stored", *steps, "--least", "2"]
    yield ["dump", "kept"]
    yield ["undump", "text", "stored"]
    yield ["sum", "kept", "kept"]
    yield ["compare", "kept", "kept"]
    yield ["gen", "12", "--summary"]


def tried(program, words, folder, first, step):
    """How many limits were too low for the command, and what came otherwise than it has to."""
    whole = Ended(program, words, folder, GIBIBYTE)
    limit, low = first, 0
    while limit < GIBIBYTE:
        ended = Ended(program, words, folder, limit)
        if ended.is_as(whole):
            return low, None
        if not ended.is_refused(whole):
            return low, f"with {limit} bytes: status {ended.status}, {len(ended.out)} bytes written, {ended.err[-80:]!r}"
        limit, low = limit + step, low + 1
    return low, "never as without a limit"


def counted():
    """Small files that say there is much in them, each with the words that read it."""
    most = b"\xff\xff\xff\xff"
    module, proc, site = b"\x01\0\0\0\x01t", b"\x01\0\0\0\0\0\0\0\x04main\x02", b"\0\0\0\0"
    parts = [b"MDPROF02\x01", module, proc, site, b"\x01\0\0\0\0\0\0\0"]
    for k in range(1, 6):
        yield b"".join(parts[:k]) + most, ["page", "given", "menu"]
    lines = [b"mdprof dump 2\nfinished yes\n", b"modules 1\nt\n", b"procs 1\n0 main 2\n", b"sites 0\n", b"contexts 1\n0\n"]
    for k, name in enumerate([b"modules", b"procs", b"sites", b"contexts", b"links"], 1):
        yield b"".join(lines[:k]) + name + b" 4294967295\n", ["undump", "given", "stored"]


def main():
    a = argparse.ArgumentParser(description=__doc__, formatter_class=argparse.RawDescriptionHelpFormatter)
    a.add_argument("program")
    a.add_argument("--step", type=int, default=16384)
    a = a.parse_args()
    program, wrong = os.path.abspath(a.program), 0
    with tempfile.TemporaryDirectory() as folder:
        def kept(name, *words):
            pathlib.Path(folder, name).write_bytes(subprocess.run([program, *words], cwd=folder, capture_output=True, check=True).stdout)
        kept("gen.m", "gen", "12")
        kept("nothing", "run", "gen.m", "--steps", "16777216", "--profile", "kept")
        kept("text", "dump", "kept")
        first = next(n for n in range(FIRST, GIBIBYTE, a.step) if starts(program, folder, n))
        print(f"it starts with {first} bytes")
        for words in commands():
            low, what = tried(program, words, folder, first, a.step)
            print(f"{' '.join(words)}: {low} limits were too low{'' if what is None else ': ' + what}", flush=True)
            wrong += what is not None
        for given, words in counted():
            pathlib.Path(folder, "given").write_bytes(given)
            status = Ended(program, words, folder, first + (1 << 20)).status
            print(f"{words[0]} of {len(given)} bytes that count 4,294,967,295: status {status}")
            wrong += status != 5
    sys.exit(1 if wrong else 0)


if __name__ == "__main__":
    main()
