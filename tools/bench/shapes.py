#!/usr/bin/env python3
"""Times runs of programs that are large in one way each, by `bench_machine`, a sink that keeps nothing: programs of four times the
size, long recursions, clauses of many variables, wide switches, many arguments, deep terms. Where a run could go badly with the size
of something it is timed at two sizes, and the ratio is that of the times over that of the sizes.

  shapes.py BENCH_MACHINE [--rounds N] [--cpu K]

For each it prints the least wall time in ms of so many rounds, and the peak memory in MB."""
import argparse
import functools
import itertools
import os
import string
import subprocess
import sys
import tempfile
import time

HERE = os.path.dirname(os.path.abspath(__file__))
STEPS = 4294967295
MAIN = ":- module t.\n:- pred main(io::di, io::uo) is det.\nmain(IO0, IO) :- %s, IO = IO0.\n"
LIST = ":- type list ---> nil ; cons(int, list).\n"


def once(words):
    start = time.perf_counter()
    process = subprocess.Popen(words, stdout=subprocess.PIPE, stderr=subprocess.STDOUT)
    said = process.stdout.read().decode()
    _, status, use = os.wait4(process.pid, 0)
    if status or "Finished" not in said:
        sys.exit(f"{' '.join(words)}: {said}")
    return (time.perf_counter() - start) * 1e3, use.ru_maxrss / 1024


def least(machine, text, rounds):
    """The least time and the most memory of a program's run."""
    with tempfile.NamedTemporaryFile("w", suffix=".m") as file:
        file.write(text)
        file.flush()
        seen = [once([machine, file.name, "1", str(STEPS)]) for _ in range(rounds)]
    return min(t for t, _ in seen), max(m for _, m in seen)


def bench(name, old="", new=""):
    with open(f"{HERE}/{name}.m") as file:
        text = file.read()
    if old and old not in text:
        sys.exit(f"{name}.m has no {old}")
    return text.replace(old, new)


@functools.lru_cache(None)
def tak(x, y, z):
    """What Takeuchi's function gives, and how many calls that takes."""
    if x <= y:
        return z, 1
    (a, i), (b, j), (c, k) = tak(x - 1, y, z), tak(y - 1, z, x), tak(z - 1, x, y)
    d, n = tak(a, b, c)
    return d, 1 + i + j + k + n


def count(n):
    return MAIN % f"N = {n}, count(N)" + ":- pred count(int::in) is det.\ncount(N) :- Z = 0, ( N =< Z -> true ; D = 1, M = N - D, count(M) ).\n"


def refused(n):
    """Each member of a list is refused, so that the next one is asked for. The member at place k comes out of k calls, by k exits, and is
    asked out of them again by k redos."""
    return (MAIN % f"N = {n}, range(N, L), ( some [X] ( member(X, L), Z = 0, X < Z ) -> true ; true )" + LIST
            + ":- pred range(int::in, list::out) is det.\nrange(N, L) :- Z = 0, ( N =< Z -> L = nil ; D = 1, M = N - D, range(M, T), L = cons(N, T) ).\n"
            + ":- pred member(int::out, list::in) is nondet.\nmember(X, L) :- L = cons(Y, T), ( X = Y ; member(X, T) ).\n")


def conditions(n):
    """A clause of n variables and n conditions."""
    goals = ", ".join(f"X{i} = {i}, ( X{i} < Z -> true ; true )" for i in range(n))
    return MAIN % "p" + f":- pred p is det.\np :- Z = 0, {goals}.\n"


def variables(n):
    """A clause of n variables, most of them the parts of a term of 255 parts, which is taken apart again and again."""
    first, rest = string.ascii_uppercase, string.ascii_letters + string.digits + "_"
    short = itertools.chain.from_iterable(map("".join, itertools.product(first, *[rest] * k)) for k in (2, 3))
    names = list(itertools.islice((x for x in short if x != "Tt"), n - 1))
    groups = [names[i:i + 255] for i in range(0, len(names) - 254, 255)]
    bound = ", ".join(f"{x} = 1" for x in groups[0])
    taken = ", ".join(f"Tt = t({','.join(group)})" for group in groups)
    return MAIN % "p" + f":- type t ---> t({', '.join(['int'] * 255)}).\n:- pred p is det.\np :- {bound}, {taken}.\n"


def switch(n, times):
    """The last of n functors is told from the others, again and again."""
    names = [f"c{i}" for i in range(n)]
    arms = " ; ".join(f"C = c{i}, R = {i}" for i in range(n))
    return (MAIN % f"N = {times}, C = c{n - 1}, again(N, C)" + ":- type colour ---> " + " ; ".join(names) + ".\n"
            + f":- pred pick(colour::in, int::out) is det.\npick(C, R) :- ( {arms} ).\n"
            + ":- pred again(int::in, colour::in) is det.\nagain(N, C) :- Z = 0, ( N =< Z -> true ; pick(C, R), D = 1, M = N - D, again(M, C) ).\n")


def literals(n, times, texts):
    """So it is with integers, or with texts."""
    value = (lambda i: f'"t{i}"') if texts else str
    kind = "string" if texts else "int"
    arms = " ; ".join(f"C = {value(i)}" for i in range(n))
    return (MAIN % f"N = {times}, C = {value(n - 1)}, again(N, C)"
            + f":- pred pick({kind}::in) is semidet.\npick(C) :- ( {arms} ).\n"
            + f":- pred again(int::in, {kind}::in) is det.\nagain(N, C) :- Z = 0, ( N =< Z -> true ; ( pick(C) -> true ; true ), D = 1, M = N - D, again(M, C) ).\n")


def arguments(n, times):
    """Calls with n arguments: the first is counted down."""
    heads = [f"X{i}" for i in range(1, n)]
    modes = ", ".join(["int::in"] * n)
    return (MAIN % (f"N = {times}, " + ", ".join(f"{x} = 1" for x in heads) + f", p(N, {', '.join(heads)})")
            + f":- pred p({modes}) is det.\np(N, {', '.join(heads)}) :- Z = 0, ( N =< Z -> true ; D = 1, M = N - D, p(M, {', '.join(heads)}) ).\n")


def deep(n):
    """Two terms of n cells, one in the other, are compared."""
    return (MAIN % f"N = {n}, range(N, L), range(N, K), ( L = K -> true ; true )" + LIST
            + ":- pred range(int::in, list::out) is det.\nrange(N, L) :- Z = 0, ( N =< Z -> L = nil ; D = 1, M = N - D, range(M, T), L = cons(N, T) ).\n")


def cases():
    """The name of a shape, its text, and, where it has one, the larger text and how many times as large it is."""
    yield "queens8", bench("queens8"), bench("queens8", "K = 6", "K = 24"), 4
    yield "tak", bench("tak"), bench("tak", "X = 27, Y = 4", "X = 43, Y = 4"), tak(43, 4, 0)[1] / tak(27, 4, 0)[1]
    yield "tree", bench("tree"), bench("tree", "K = 3", "K = 12"), 4
    yield "interp", bench("interp"), bench("interp", "N = 600", "N = 2400"), 4
    yield "nrev", bench("nrev"), bench("nrev", "N = 770", "N = 1540"), 4
    yield "count to a million", count(1000000), None, 1
    yield "each member of a list of 5,000 refused: 12.5 million exits", refused(2500), refused(5000), 4
    yield "a clause of 10,000 variables and conditions", conditions(2500), conditions(10000), 4
    yield "a clause of 200,000 variables", variables(50000), variables(200000), 4
    yield "a switch of 200 functors, 100,000 times", switch(2, 100000), switch(200, 100000), 1
    yield "a switch of 200 integers, 100,000 times", literals(2, 100000, False), literals(200, 100000, False), 1
    yield "a switch of 200 texts, 100,000 times", literals(2, 100000, True), literals(200, 100000, True), 1
    yield "calls with 255 arguments, 10,000 of them", arguments(63, 10000), arguments(255, 10000), 255 / 63
    yield "terms a million deep compared", deep(250000), deep(1000000), 4


def main():
    a = argparse.ArgumentParser(description=__doc__, formatter_class=argparse.RawDescriptionHelpFormatter)
    a.add_argument("machine")
    a.add_argument("--rounds", type=int, default=3)
    a.add_argument("--cpu", type=int, default=0)
    a = a.parse_args()
    os.sched_setaffinity(0, {a.cpu})
    print("| Shape | ms | MB | larger: ms | MB | times as large | times as long |\n|---|---|---|---|---|---|---|")
    for name, text, larger, ratio in cases():
        t, m = least(a.machine, text, a.rounds)
        row = f"| {name} | {t:.1f} | {m:.0f} |"
        if larger:
            u, n = least(a.machine, larger, a.rounds)
            row += f" {u:.1f} | {n:.0f} | {ratio:.2f} | {u / t:.2f} |"
        else:
            row += " | | | |"
        print(row, flush=True)


if __name__ == "__main__":
    main()
