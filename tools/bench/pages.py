#!/usr/bin/env python3
"""Times stored profiles and their first pages, and how time grows with a profile, for the tables of docs/PERFORMANCE.md.

  pages.py MDPROF [--cliques BENCH_CLIQUES] [--rounds K] [--size N] [--from N] [--to N] [--cpu C]

MDPROF is a built `mdprof` (`tools/check/check.py mdprof .. --program` makes one). In a temporary folder it writes the text of
`gen N` and runs it with its profile stored, and makes profiles of other shapes by way of `undump`: a tree as that of `gen`, a
chain, parents at random, and those with as many links more, each to an ancestor. It then prints

- first pages: `menu`, `clique?id=1`, `procs`, `top` and others of 2^N contexts (--size, 20), with what the same page takes of the
  profile of `gen 1` taken off, so the time is that of reading, loading and writing;
- stored commands on the first of them: run with its file, page, migrate, dump, undump;
- growth: `page FILE menu` of a tree of 2^FROM to 2^TO contexts (16 to 22), each beside the one half as large;
- with --cliques, what `bench_cliques` takes on its shapes.

Each figure is the least wall time of K rounds (5), which go round all commands of a table or row in turn; memory is the most
that any took. Profiles of 2^22 contexts take some 200 MB of the folder each, and a minute to write.
"""
import argparse, os, random, shutil, subprocess, tempfile, time

words = argparse.ArgumentParser(description=__doc__, formatter_class=argparse.RawDescriptionHelpFormatter)
words.add_argument("mdprof")
words.add_argument("--cliques")
words.add_argument("--rounds", type=int, default=5)
words.add_argument("--size", type=int, default=20)
words.add_argument("--from", type=int, default=16, dest="low")
words.add_argument("--to", type=int, default=22, dest="high")
words.add_argument("--cpu", type=int, default=0)
BUDGET = "16777216"
PAGES = ["menu", "clique?id=1", "procs", "top?by=calls&n=10", "hot", "proc?id=1", "modules", "module?name=gen", "tree"]


def once(command):
    """Wall seconds and MB of memory that a command takes, which must end well."""
    null = os.open("/dev/null", os.O_RDWR)
    start = time.perf_counter()
    pid = os.posix_spawn(command[0], command, os.environ, file_actions=[(os.POSIX_SPAWN_DUP2, null, it) for it in (0, 1)])
    _, status, use = os.wait4(pid, 0)
    took = time.perf_counter() - start
    os.close(null)
    if status:
        raise SystemExit(f"{' '.join(command)} ended with {os.waitstatus_to_exitcode(status)}")
    return took, use.ru_maxrss / 1024


def least(rounds, commands):
    """For each command the least time and the most memory of so many rounds."""
    seen = [[] for _ in commands]
    for _ in range(rounds):
        for rows, command in zip(seen, commands):
            rows.append(once(command))
    return [(min(it[0] for it in rows), max(it[1] for it in rows)) for rows in seen]


class Files:
    """The profiles, made on demand in a folder of their own."""

    def __init__(self, mdprof, folder):
        self.mdprof, self.folder = mdprof, folder

    def path(self, name):
        return os.path.join(self.folder, name)

    def text(self, n):
        """The program of `gen N`."""
        path = self.path(f"gen{n}.m")
        if not os.path.exists(path):
            with open(path, "wb") as out:
                subprocess.run([self.mdprof, "gen", str(n)], stdout=out, check=True)
        return path

    def ran(self, n):
        """The profile of the run of `gen N`."""
        path = self.path(f"gen{n}.deep")
        if not os.path.exists(path):
            command = [self.mdprof, "run", self.text(n), "--steps", BUDGET, "--profile", path]
            subprocess.run(command, stdout=subprocess.DEVNULL, check=True)
        return path

    def drawn(self, n, shape):
        """A profile of 2^N contexts of a shape, by way of its text."""
        path, text = self.path(f"{shape}{n}.deep"), self.path(f"{shape}{n}.txt")
        if not os.path.exists(path):
            # In a process of its own, since what this one takes counts for those that it begins.
            child = os.fork()
            if child == 0:
                with open(text, "w", encoding="utf-8") as out:
                    out.writelines(lines_of(1 << n, shape))
                os._exit(0)
            os.waitpid(child, 0)
            subprocess.run([self.mdprof, "undump", text, path], stdout=subprocess.DEVNULL, check=True)
            os.remove(text)
        return path


SITES = 64


def parents(count, shape):
    """What is above each context but the first: a tree as `gen` has it, a chain, or parents at random."""
    drawn, line = random.Random(1), [(0, 0)]
    for node in range(1, count):
        if shape == "random":
            yield drawn.randrange(node)
        elif shape == "tree":
            while line[-1][1] == 2:
                line.pop()
            line[-1] = (line[-1][0], line[-1][1] + 1)
            yield line[-1][0]
            line.append((node, 0 if len(line) < count.bit_length() - 1 else 2))
        else:
            yield node - 1


def lines_of(count, shape):
    """The text of a profile: `main`, and a procedure `a` that calls itself at 64 sites, each time in a context of its own. The
    shape `back` is `random` with as many links more, each to an ancestor, so that contexts make cliques."""
    yield f"mdprof dump 2\nfinished yes\nmodules 1\ngen\nprocs 2\n0 main 2\n0 a 2\nsites {2 * SITES + 1}\n"
    yield "0 1 1\n" * SITES + "1 2 1\n" * SITES + "1 2 -\n"
    yield f"contexts {count}\n0\n"
    yield from ("1\n" for _ in range(count - 1))
    above = [0, *parents(count, "random" if shape == "back" else shape)]
    more = ancestors(above) if shape == "back" else []
    yield f"links {count + len(more)}\n- - 0 1 1 0 0 0 0 0\n"
    calls = [0] * count
    for node in range(1, count):
        caller = above[node]
        site = calls[caller] + (SITES if caller else 0)
        calls[caller] += 1
        yield f"{caller} {site} {node} {1 + node % 3} 1 0 0 {node % 5} {node % 7} 0\n"
    for caller, callee in more:
        yield f"{caller} {2 * SITES} {callee} 1 1 0 0 0 0 0\n"


def ancestors(above):
    """A pair for each context but the first two: it, and an ancestor other than the first context, at random."""
    drawn, found = random.Random(2), []
    for node in range(2, len(above)):
        up = node
        for _ in range(drawn.randrange(4)):
            up = above[up] or up
        found.append((node, up))
    return found


def first_pages(files, given):
    small, shapes = files.ran(1), [files.ran(given.size), *(files.drawn(given.size, it) for it in ("chain", "random", "back"))]
    print("| Page | " + " | ".join(f"{name}: seconds, MB" for name in ("`gen`", "chain", "random parents", "links back")) + " |")
    print("|---" * (len(shapes) + 1) + "|")
    for page in PAGES:
        rows = least(given.rounds, [[files.mdprof, "page", it, page] for it in [small, *shapes]])
        print(f"| `{page}` | " + " | ".join(f"{took - rows[0][0]:.3f}, {size:.0f}" for took, size in rows[1:]) + " |")


def stored(files, given):
    text, profile = files.text(given.size), files.ran(given.size)
    made, told = files.path("made.deep"), files.path("told.txt")
    with open(told, "wb") as out:
        subprocess.run([files.mdprof, "dump", profile], stdout=out, check=True)
    commands = {
        "run, with its file": ["run", text, "--steps", BUDGET, "--profile", made],
        "page menu": ["page", profile, "menu"],
        "migrate": ["migrate", profile, made],
        "dump": ["dump", profile],
        "undump": ["undump", told, made],
    }
    print("\n| Command | seconds | MB |\n|---|---|---|")
    for name, (took, size) in zip(commands, least(given.rounds, [[files.mdprof, *it] for it in commands.values()])):
        print(f"| `{name}` | {took:.3f} | {size:.0f} |")


def growth(files, given):
    sizes = range(given.low, given.high + 1)
    rows = least(given.rounds, [[files.mdprof, "page", files.drawn(n, "tree"), "menu"] for n in sizes])
    print("\n| Contexts | `page FILE menu`: seconds | MB | over half as many |\n|---|---|---|---|")
    for n, (took, size), half in zip(sizes, rows, [None, *rows]):
        print(f"| 2^{n} | {took:.3f} | {size:.0f} | {took / half[0]:.2f} |" if half else f"| 2^{n} | {took:.3f} | {size:.0f} | |")


def graphs(given):
    shapes = [("random", 1 << 22, 1 << 23), ("path", 10**6, 10**6), ("cycle", 10**6, 10**6), ("parallel", 1 << 22, 1 << 23), ("selves", 1 << 22, 1 << 23)]
    print("\n| Graph | nodes | links | seconds | MB |\n|---|---|---|---|---|")
    for (shape, nodes, links), (took, size) in zip(shapes, least(given.rounds, [[given.cliques, *map(str, it)] for it in shapes])):
        print(f"| `{shape}` | {nodes:,} | {links:,} | {took:.2f} | {size:.0f} |")


def main():
    given = words.parse_args()
    os.sched_setaffinity(0, {given.cpu})
    folder = tempfile.mkdtemp(prefix="pages.")
    try:
        files = Files(os.path.abspath(given.mdprof), folder)
        first_pages(files, given)
        stored(files, given)
        growth(files, given)
        if given.cliques:
            graphs(given)
    finally:
        shutil.rmtree(folder)


if __name__ == "__main__":
    main()
