#!/usr/bin/env python3
"""Hands mdprof the greatest inputs that its limits allow, in the shapes that are worst for it, and prints what each takes.

    python3 tools/hostile/greatest.py PROGRAM [texts|runs|files ..] [--folder DIR]

PROGRAM is a built mdprof. Texts have 1,048,576 bytes or little less; runs are given the most steps, and each step makes a frame, a
choice, a cell, a context or a byte of output; files have up to 1,073,741,824 bytes. For each there is the status, the wall time and the most
memory. The exit status is 1 where one ends by a signal, with a status that isn't due, or not within five minutes. Files take some
3 GB of the folder, and are made as they are needed.
"""

import argparse
import itertools
import os
import signal
import string
import struct
import sys
import tempfile
import time

TEXT = 1048576
FILE = 1073741824
STEPS = "16777216"
NONE = 0xFFFFFFFF
MAIN = ":- module t.\n:- pred main(io::di, io::uo) is det.\nmain(IO0, IO) :- %s.\n"
LIST = ":- type list ---> nil ; cons(int, list).\n"
RANGE = LIST + (":- pred range(int::in, list::out) is det.\n"
                "range(N, L) :- Z = 0, ( N =< Z -> L = nil ; D = 1, M = N - D, range(M, T), L = cons(N, T) ).\n")


# ---- texts

def filled(text, piece):
    """The text with as many pieces as there is room for; a piece is a text, or a function of its number."""
    parts, left = [text], TEXT - len(text)
    for i in itertools.count():
        more = piece if isinstance(piece, str) else piece(i)
        if len(more) > left:
            return "".join(parts)
        parts.append(more)
        left -= len(more)


def closed(text, piece, end):
    """So it is with an end behind them, for which room is left."""
    return filled(text + end, piece)[len(text + end):].join([text, end])


def names(count):
    """So many names of variables, the shortest first."""
    rest = string.ascii_letters + string.digits + "_"
    long = itertools.chain.from_iterable(map("".join, itertools.product(string.ascii_uppercase, *[rest] * k)) for k in (2, 3))
    return list(itertools.islice(long, count))


def variables():
    groups = [names(200000)[i:i + 255] for i in range(0, 199900, 255)]
    bound = ", ".join(f"{x} = 1" for x in groups[0])
    taken = ", ".join(f"Tttt = t({','.join(group)})" for group in groups)
    return MAIN % "p, IO = IO0" + f":- type t ---> t({', '.join(['int'] * 255)}).\n:- pred p is det.\np :- {bound}, {taken}.\n"


def nested():
    """Goals in 200 others each, one behind the other."""
    deep = "not ( " * 199 + "fail" + " )" * 199
    return closed(MAIN % "( p -> true ; true ), IO = IO0" + ":- pred p is semidet.\np :- true", f", {deep}", ".\n")


def texts():
    main = MAIN % "IO = IO0"
    yield "one comment", filled(main + "% ", "x"), {0}
    yield "an open bracket after another", filled(main + ":- pred p is det.\np :- ", "("), {3}
    yield "goals nested 200 deep, 500 of them", nested(), {0, 3}
    yield "predicates", filled(main, lambda i: f":- pred p{i} is det.\np{i} :- true.\n"), {0}
    yield "calls in one clause", closed(main + ":- pred p is det.\np :- true", ", p", ".\n"), {0}
    yield "a clause of 200,000 variables", variables(), {0}
    yield "types of one functor", filled(main, lambda i: f":- type t{i} ---> f{i}.\n"), {0}
    yield "types of 255 functors", filled(main, lambda i: f":- type t{i} ---> " + " ; ".join(f"f{i}x{j}" for j in range(255)) + ".\n"), {0}
    yield "texts of 65,535 bytes", closed(MAIN.split("%")[0] + "A = 1", lambda i: f", S{i} = \"{'x' * 65535}\"", ", IO = IO0.\n"), {0}
    yield "conditions, one in the else part of the other", closed(main + ":- pred p(int::in) is det.\np(X) :- Z = 0, ", "( X < Z -> true ; true ), ", "true.\n"), {0}
    yield "names of 255 bytes", filled(main, lambda i: f":- pred p{i:0254d} is det.\np{i:0254d} :- true.\n"), {0}
    yield "bytes of 255", "\xff" * TEXT, {3}


# ---- runs

def runs():
    yield "a call in each call", MAIN % "N = 4000000, count(N), IO = IO0" + (
        ":- pred count(int::in) is det.\ncount(N) :- Z = 0, ( N =< Z -> true ; D = 1, M = N - D, count(M) ).\n"), {0, 4}
    yield "a choice in each call", MAIN % "N = 4000000, ( p(N) -> true ; true ), IO = IO0" + (
        ":- pred p(int::in) is multi.\np(N) :- Z = 0, ( N =< Z -> true ; ( X = 1 ; X = 2 ), M = N - X, p(M) ).\n"), {0, 4}
    yield "a cell in each call", MAIN % "N = 4000000, range(N, L), IO = IO0" + RANGE, {0, 4}
    yield "a cell of 255 parts in each call", MAIN % ("N = 4000000, " + ", ".join(f"X{i} = 1" for i in range(254)) + f", again(N, {', '.join(f'X{i}' for i in range(254))}), IO = IO0") + (
        f":- type t ---> t({', '.join(['int'] * 254)}).\n:- pred again({', '.join(['int::in'] * 255)}) is det.\n"
        f"again(N, {', '.join(f'X{i}' for i in range(254))}) :- Z = 0, ( N =< Z -> true ; T = t({', '.join(f'X{i}' for i in range(254))}), D = 1, M = N - D, again(M, {', '.join(f'X{i}' for i in range(254))}) ).\n"), {0, 4}
    yield "a context for each call", MAIN % "p1, IO = IO0" + "".join(
        f":- pred p{i} is det.\np{i} :- {f'p{i + 1}, p{i + 1}' if i < 23 else 'true'}.\n" for i in range(1, 24)), {0, 4}
    yield "a call of a closure, and in it 255 calls, again and again", MAIN % "N = 30000, Q = p0, all(N, Q), IO = IO0" + (
        ":- pred all(int::in, pred(int)::in(pred(in) is det)) is det.\nall(N, Q) :- Z = 0, ( N =< Z -> true ; call(Q, N), D = 1, M = N - D, all(M, Q) ).\n"
        ":- pred p0(int::in) is det.\np0(N) :- " + ", ".join(f"p{i}(N)" for i in range(1, 256)) + ".\n"
        + "".join(f":- pred p{i}(int::in) is det.\np{i}(N) :- true.\n" for i in range(1, 256))), {0, 4}
    yield "a byte for each step", MAIN % f"S = \"{'x' * 60000}\", N = 280, write(N, S, IO0, IO)" + (
        ":- pred write(int::in, string::in, io::di, io::uo) is det.\nwrite(N, S, IO0, IO) :- Z = 0, ( N =< Z -> IO = IO0"
        " ; io.write_string(S, IO0, IO1), D = 1, M = N - D, write(M, S, IO1, IO) ).\n"), {0, 4}
    yield "two terms, 900,000 deep, compared", MAIN % "N = 900000, range(N, L), range(N, K), ( L = K -> true ; true ), IO = IO0" + RANGE, {0, 4}
    yield "4,096 answers, each out of a thousand calls", MAIN % "N = 1000, ( some [X] ( deep(N, X), Z = 9, Z < X ) -> true ; true ), IO = IO0" + (
        ":- pred deep(int::in, int::out) is multi.\ndeep(N, X) :- Z = 0, ( N =< Z -> bits(X) ; D = 1, M = N - D, deep(M, X) ).\n"
        ":- pred bits(int::out) is multi.\nbits(X) :- " + ", ".join(f"bit(A{i})" for i in range(12)) + ", X = A0.\n"
        ":- pred bit(int::out) is multi.\nbit(X) :- ( X = 0 ; X = 1 ).\n"), {0, 4}
    yield "no end", MAIN % "spin, IO = IO0" + ":- pred spin is det.\nspin :- spin.\n", {4}


# ---- files

def number(n):
    return struct.pack("<I", n)


def named(i, size):
    return bytes([size]) + b"p" + str(i).rjust(size - 1, "0").encode()


def head(modules=(b"\x01t",), procs=None, sites=((0, 1, 0),)):
    procs = procs if procs is not None else [number(0) + b"\x04main\x02"]
    return b"".join([b"MDPROF02\x01", number(len(modules)), *modules, number(len(procs)), *procs, number(len(sites)),
                     *(struct.pack("<III", *site) for site in sites)])


COUNTS = struct.pack("<IIIIIII", 1, 1, 0, 0, 0, 0, 0)
ROOT = struct.pack("<III", NONE, NONE, 0) + COUNTS


def linked(out, start, contexts, link, nodes=None, more=0):
    """A file of so many contexts, of procedure 0 or of `nodes`, with the links `link(i)` from 1 on: one for each context behind the
    first, and so many more."""
    links = contexts + more
    out.write(start + number(contexts) + (nodes or bytes(4 * contexts)) + number(links) + ROOT)
    step = 1 << 16
    for first in range(1, links, step):
        out.write(b"".join(struct.pack("<III", *link(i)) + COUNTS for i in range(first, min(first + step, links))))


def alternating(contexts):
    """Contexts of procedures 0 and 1 in turn."""
    return struct.pack("<II", 0, 1) * (contexts // 2)


def files():
    many = (FILE - 4096) // 44
    two = head(procs=[number(0) + b"\x04main\x02", number(0) + b"\x01a\x00"], sites=((0, 1, 1), (1, 2, 1), (1, 3, 1)))
    yield "a million procedures, a context each, in a chain", lambda out: chain(out, many // 2), {0, 5}
    yield "contexts by links of one higher-order site to one procedure", lambda out: linked(out, head(sites=((0, 1, NONE),)), many, lambda i: (0, 0, i)), {5}
    yield "names of modules, 255 bytes each", lambda out: out.write(lots(lambda i: named(i, 255), lambda m, n: b"MDPROF02\x01" + number(n) + m, number(1) + number(0) + b"\x04main\x02" + number(0))), {0, 5}
    pairs = many // 2 * 2
    turns = head(procs=[number(0) + b"\x04main\x02", number(0) + b"\x01a\x00"], sites=((0, 1, 1), (0, 2, 0), (1, 1, 0), (1, 2, 0)))
    yield "two procedures that call one another, a context a call, in a chain", lambda out: linked(
        out, turns, pairs, lambda i: (i - 1, 2 * ((i - 1) % 2), i), alternating(pairs)), {0, 5}
    half = (FILE - 4096) // 84 // 2 * 2
    yield "the same, each with a link back to the first: one clique", lambda out: linked(
        out, turns, half, lambda i: (i - 1, 2 * ((i - 1) % 2), i) if i < half else (i - half, 1 + 2 * ((i - half) % 2), 0), alternating(half), half), {0, 5}
    yield "the same chain, whose last link is one that was there", lambda out: linked(
        out, turns, pairs, lambda i: (i - 1, 2 * ((i - 1) % 2), i) if i < pairs else (0, 0, 1), alternating(pairs), 1), {5}
    yield "call sites of one procedure", lambda out: out.write(
        head(sites=()).removesuffix(number(0)) + number((FILE - 4096) // 12) + struct.pack("<III", 0, 1, 0) * ((FILE - 4096) // 12)
        + number(1) + number(0) + number(1) + ROOT), {0, 5}
    yield "zeros", lambda out: out.truncate(FILE), {5}
    yield "a count of 4,294,967,295 contexts, and zeros", lambda out: (out.write(two + number(NONE)), out.truncate(FILE)), {5}
    yield "a byte too many", lambda out: out.truncate(FILE + 1), {5}


def chain(out, contexts):
    """Each context is a procedure of its own module's list, called by the one before it."""
    procs = 1 << 20
    out.write(head(procs=[number(0) + b"\x04main\x02"] + [number(0) + named(i, 8) + b"\x00" for i in range(1, procs)],
                   sites=[(i, 1, i + 1) for i in range(procs - 1)]))
    out.write(number(procs) + struct.pack(f"<{procs}I", *range(procs)) + number(procs) + ROOT)
    out.write(b"".join(struct.pack("<III", i, i, i + 1) + COUNTS for i in range(procs - 1)))


def lots(item, wrap, rest):
    """As many items as a file has room for."""
    size = len(item(0))
    count = (FILE - 4096) // size
    return wrap(b"".join(item(i) for i in range(count)), count) + rest + number(1) + number(0) + number(1) + ROOT


# ---- measuring

def once(words):
    """The status, the wall seconds and the megabytes that a command takes; -1 where it doesn't end within five minutes."""
    null = os.open(os.devnull, os.O_RDWR)
    start = time.perf_counter()
    process = os.posix_spawn(words[0], words, os.environ, file_actions=[(os.POSIX_SPAWN_DUP2, null, n) for n in (0, 1, 2)])
    os.close(null)
    while True:
        done, status, use = os.wait4(process, os.WNOHANG)
        if done:
            return os.waitstatus_to_exitcode(status), time.perf_counter() - start, use.ru_maxrss / 1024
        if time.perf_counter() - start > 300:
            os.kill(process, signal.SIGKILL)
            os.wait4(process, 0)
            return -1, 300.0, 0.0
        time.sleep(0.001)


def tell(name, words, due):
    status, seconds, memory = once(words)
    print(f"| {name} | {status} | {seconds:.2f} | {memory:.0f} |{'' if status in due else ' NOT DUE'}", flush=True)
    return status in due


def main():
    a = argparse.ArgumentParser(description=__doc__, formatter_class=argparse.RawDescriptionHelpFormatter)
    a.add_argument("program")
    a.add_argument("parts", nargs="*", default=["texts", "runs", "files"])
    a.add_argument("--folder")
    a = a.parse_args()
    program, fine = os.path.abspath(a.program), True
    with tempfile.TemporaryDirectory(dir=a.folder) as folder:
        given = os.path.join(folder, "given")
        print("| Input | status | s | MB |\n|---|---|---|---|")
        for part in a.parts or ["texts", "runs", "files"]:
            for name, what, due in {"texts": texts, "runs": runs, "files": files}[part]():
                with open(given, "wb") as out:
                    what(out) if part == "files" else out.write(what.encode("latin-1"))
                words = {"texts": ["check", given], "files": ["page", given, "menu"],
                         "runs": ["run", given, "--steps", STEPS, "--profile", os.path.join(folder, "kept")]}[part]
                fine = tell(name, [program, *words], due) and fine
    sys.exit(0 if fine else 1)


if __name__ == "__main__":
    main()
