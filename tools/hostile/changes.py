#!/usr/bin/env python3
"""Hands mdprof programs, texts of profiles, words and heads of requests that are changed at random, and sees that it neither crashes
nor hangs, and that each status is one that is due.

    python3 tools/hostile/changes.py PROGRAM COUNT [programs|dumps|words|heads ..] [--seed S]

PROGRAM is a built mdprof; COUNT of each kind are tried. A changed program is run for a few steps, and refused with status 3 or ends
with 0, 4 or 10. A changed text of a profile is taken (`undump`) with status 0, and then `dump` writes it again, or refused with 5.
Words are those of the commands, in any order, with numbers at and beyond their bounds. A server answers each changed head with one
response, or with none, and tells in the end how many it answered. What is said of a changed program or profile file is compared
with a second reading by scripts of their own: tools/crosscheck and tools/damage.
"""

import argparse
import concurrent.futures
import os
import pathlib
import random
import socket
import subprocess
import sys
import tempfile
import time

EXAMPLES = pathlib.Path(__file__).resolve().parents[2] / "examples"
LONGEST = 10
PORT = 18081
WORDS = ["check", "run", "report", "page", "migrate", "cover", "feedback", "dump", "undump", "sum", "compare", "gen", "--print", "--steps",
         "--profile", "--least", "--summary", "--by", "--help", "--", "-", "", "hot", "menu", "clique?id=1", "tree?least=0", "proc?id=9", "top?by=calls&n=1",
         "find?name=%", "0", "1", "16", "17", "20", "21", "1000", "16777216", "16777217", "4294967295", "4294967296", "-1", "calls", "words", "kept", "new",
         "gone", "queens.m", "err.m", "t.main/2", "solve/3", "\u00e9", "x" * 300]
HEAD = ("GET /hot?by=calls HTTP/1.1\r\nHost: localhost:8080\r\nUser-Agent: Mozilla/5.0\r\nAccept: text/html,*/*;q=0.8\r\n"
        "Accept-Encoding: gzip\r\nConnection: keep-alive\r\n\r\n").encode()
PIECES = [b"\r\n", b"\n", b"\0", b"%", b"%41", b"?", b"&", b"=", b" ", b":", b"HEAD", b"POST", b"HTTP/1.0", b"//", b"id=4294967296", b"Content-Length: 9\r\n", b"\xff" * 9]


def changed(data, chance, pieces):
    """The bytes after one to three random changes."""
    for _ in range(chance.randrange(1, 4)):
        at = chance.randrange(len(data) + 1)
        end = min(len(data), at + chance.choice([0, 1, 1, 2, 5, 20]))
        kind = chance.randrange(4)
        if kind == 0:
            data = data[:at] + data[end:]
        elif kind == 1:
            data = data[:at] + chance.choice(pieces) + data[end:]
        elif kind == 2:
            data = data[:at] + data[at:end] * 2 + data[end:]
        else:
            data = data[:at] + bytes(chance.randrange(256) for _ in range(end - at)) + data[end:]
    return data


def ended(words, folder):
    """The status of a command and what it wrote; None where it doesn't end in time."""
    try:
        done = subprocess.run(words, cwd=folder, stdin=subprocess.DEVNULL, capture_output=True, timeout=LONGEST)
    except subprocess.TimeoutExpired:
        return None, b""
    return done.returncode, done.stdout


def programs(program, count, chance, folder):
    """The changed programs whose run ends otherwise than one may."""
    texts = [it.read_bytes() for it in sorted(EXAMPLES.glob("*.m"))]
    given = os.path.join(folder, "given.m")
    for _ in range(count):
        text = changed(chance.choice(texts), chance, [b"\n", b" ", b",", b";", b"(", b")", b"X", b"int", b"io", b"::in", b"nondet", b"not ( ", b"->", b"=", b"\"", b"%"])
        pathlib.Path(given).write_bytes(text)
        status, _ = ended([program, "run", "given.m", "--steps", "2000", "--profile", "kept"], folder)
        if status not in (0, 3, 4, 10):
            yield f"run, status {status}: {text!r}"


def dumps(program, count, chance, folder):
    """The changed texts that are neither refused with 5 nor written again as they were."""
    texts = []
    for example in sorted(EXAMPLES.glob("*.m")):
        if ended([program, "run", str(example), "--steps", "2000", "--profile", "kept"], folder)[0] in (0, 4, 10):
            texts.append(ended([program, "dump", "kept"], folder)[1])
    given = os.path.join(folder, "given")
    for _ in range(count):
        text = changed(chance.choice(texts), chance, [b"\n", b" ", b"-", b"0", b"4294967295", b"4294967296", b"links 1\n", b"yes", b"\xc3"])
        pathlib.Path(given).write_bytes(text)
        status, _ = ended([program, "undump", "given", "new"], folder)
        if status == 0 and ended([program, "dump", "new"], folder) != (0, text) or status not in (0, 5):
            yield f"undump, status {status}: {text!r}"


def words(program, count, chance, folder):
    """The words that end by a signal, not in time, or with a status that there isn't."""
    for name in ("queens.m", "err.m"):
        pathlib.Path(folder, name).write_bytes((EXAMPLES / name).read_bytes())
    for _ in range(count):
        ended([program, "run", "queens.m", "--profile", "kept"], folder) if not os.path.exists(os.path.join(folder, "kept")) else None
        given = [chance.choice(WORDS) for _ in range(chance.randrange(0, 7))]
        status, _ = ended([program, *given], folder)
        if status not in range(12):
            yield f"status {status}: {given}"


def heads(program, count, chance, folder):
    """What the server answers a changed head with, where it isn't one response or none; and how it ends."""
    ended([program, "run", str(EXAMPLES / "queens.m"), "--profile", "kept"], folder)
    port = PORT + chance.randrange(20000)
    server = subprocess.Popen([program, "serve", "kept", "--port", str(port), "--requests", str(count)], cwd=folder, stdout=subprocess.PIPE, stderr=subprocess.PIPE)
    answered = 0
    for _ in range(count):
        head = changed(HEAD, chance, PIECES)
        said = asked(port, head)
        answered += said.startswith(b"HTTP/1.1 ")
        if said and (not said.startswith(b"HTTP/1.1 ") or b"\r\n\r\n" not in said):
            yield f"{said[:80]!r} to {head!r}"
    out, err = server.communicate(timeout=60)
    if server.returncode or out != f"connections {count} answered {answered}\n".encode():
        yield f"status {server.returncode}, {out!r}, {err!r}, where {answered} were answered"


def asked(port, head):
    """All that comes back for a head that is sent and then ended."""
    for _ in range(200):
        try:
            link = socket.create_connection(("127.0.0.1", port), timeout=LONGEST)
            break
        except ConnectionRefusedError:
            time.sleep(0.02)
    with link:
        said = b""
        try:
            link.sendall(head)
            link.shutdown(socket.SHUT_WR)
            while piece := link.recv(65536):
                said += piece
        except ConnectionError:
            pass
        return said


def part(program, kind, count, seed):
    with tempfile.TemporaryDirectory() as folder:
        return list({"programs": programs, "dumps": dumps, "words": words, "heads": heads}[kind](program, count, random.Random(seed), folder))


def main():
    a = argparse.ArgumentParser(description=__doc__, formatter_class=argparse.RawDescriptionHelpFormatter)
    a.add_argument("program")
    a.add_argument("count", type=int)
    a.add_argument("kinds", nargs="*")
    a.add_argument("--seed", type=int, default=1)
    a = a.parse_args()
    program, wrong = os.path.abspath(a.program), 0
    parts = os.cpu_count() or 1
    with concurrent.futures.ThreadPoolExecutor(parts) as pool:
        for kind in a.kinds or ["programs", "dumps", "words", "heads"]:
            start = time.perf_counter()
            tried = [pool.submit(part, program, kind, -(-a.count // parts), a.seed * parts + k) for k in range(parts)]
            found = [line for it in tried for line in it.result()]
            print(f"{kind}: {-(-a.count // parts) * parts} tried in {time.perf_counter() - start:.0f} s, {len(found)} wrong")
            for line in found[:20]:
                print(f"  {line}")
            wrong += len(found)
    sys.exit(1 if wrong else 0)


if __name__ == "__main__":
    main()
