#!/usr/bin/env python3
"""Prints the ten dearest functions of commands over a profile of 2^N contexts, by valgrind's callgrind: instructions of the processor
for each context, where there are five or more, without those of the functions that they call.

  dearest.py MDPROF [--size N]

What the compiler has put inline counts for the function that it stands in."""
import argparse
import os
import re
import subprocess
import tempfile


def dearest(command, folder, contexts):
    """The whole and the ten dearest, each for one context."""
    out = os.path.join(folder, "callgrind")
    subprocess.run(["valgrind", "--tool=callgrind", f"--callgrind-out-file={out}", *command], cwd=folder, capture_output=True, check=True)
    told = subprocess.run(["callgrind_annotate", "--threshold=100", out], capture_output=True, text=True, check=True).stdout
    rows = re.findall(r"^\s*([\d,]+) \(\s*[\d.]+%\)\s+(\S+)", told, re.M)
    counts = [(int(n.replace(",", "")) / contexts, short(name)) for n, name in rows]
    return counts[0][0], counts[1:11]


def short(name):
    """A function's name without its file and what it is generic in."""
    name = name.rsplit("/", 1)[-1].split(":", 1)[-1] if ":" in name else name
    return re.sub(r"::<#\w+>|^\?+:|^_+(GI_+)?|_avx\w*", "", name)


def main():
    a = argparse.ArgumentParser(description=__doc__, formatter_class=argparse.RawDescriptionHelpFormatter)
    a.add_argument("mdprof")
    a.add_argument("--size", type=int, default=14)
    a = a.parse_args()
    program = os.path.abspath(a.mdprof)
    with tempfile.TemporaryDirectory() as folder:
        with open(os.path.join(folder, "g.m"), "wb") as out:
            subprocess.run([program, "gen", str(a.size)], stdout=out, check=True)
        steps = ["--steps", "16777216"]
        cases = [["run", "g.m", *steps, "--profile", "g.deep"], ["report", "g.m", "menu", *steps], ["page", "g.deep", "menu"],
                 ["page", "g.deep", "clique?id=1"], ["migrate", "g.deep", "new"], ["dump", "g.deep"], ["undump", "text", "new"]]
        print("| Command | whole | dearest functions |\n|---|---|---|")
        for words in cases:
            if words[0] == "undump":
                with open(os.path.join(folder, "text"), "wb") as out:
                    subprocess.run([program, "dump", "g.deep"], stdout=out, cwd=folder, check=True)
            whole, rows = dearest([program, *words], folder, 1 << a.size)
            shown = ", ".join(f"`{name}` {count:.0f}" for count, name in rows if count >= 5)
            print(f"| `{' '.join(w for w in words if w not in steps)}` | {whole:.0f} | {shown} |", flush=True)


if __name__ == "__main__":
    main()
