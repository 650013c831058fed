#!/usr/bin/env python3
"""Tries the built program mdprof where it meets the world: peers that say nothing, full disks, closed streams.

    edges.py PROGRAM [NAME ..]

does each case, or those of these names, and writes a line for each with what it measured. It ends with 1 where a case
didn't end as it has to. Faults of the system are brought about by strace, and a full disk by a small tmpfs; where they
aren't there, or may not be used, those cases are left out, which their lines say.
"""

import fcntl
import os
import random
import shutil
import signal
import socket
import struct
import subprocess
import sys
import tempfile
import threading
import time

HOME = os.path.dirname(os.path.dirname(os.path.dirname(os.path.abspath(__file__))))
EXAMPLES = f"{HOME}/examples"
HEAD = b"GET /clique?id=1 HTTP/1.1\r\nHost: here\r\n\r\n"
CASES = []


class LeftOut(Exception):
    """A case can't be tried here."""


def case(of):
    """A case is a function of the program and a folder of its own, which answers what it measured."""
    CASES.append(of)
    return of


def check(holds, *said):
    if not holds:
        raise AssertionError(" ".join(str(it) for it in said))


# ---- the program


def run(program, *words, cwd, stdin=subprocess.DEVNULL, **how):
    return subprocess.run([program, *words], cwd=cwd, stdin=stdin, capture_output=True, check=False, timeout=120, **how)


def example(name):
    return f"{EXAMPLES}/{name}.m"


def profile(program, folder, name="mdprof.data", of="queens"):
    """The bytes of a profile, stored under a name."""
    done = run(program, "run", example(of), "--profile", name, cwd=folder)
    check(done.returncode == 0, done)
    return read(f"{folder}/{name}")


def read(path):
    with open(path, "rb") as it:
        return it.read()


def write(path, data):
    with open(path, "wb") as it:
        it.write(data)


def left_over(folder):
    return [it for it in os.listdir(folder) if it.startswith(".mdprof-")]


def long_page(folder):
    """A program whose run has one clique of many contexts, so that the clique's page is long."""
    last = 17_999
    lines = [":- module t.", ":- pred main(io::di, io::uo) is det.", "main(IO0, IO) :- p0, IO = IO0."]
    for number in range(last + 1):
        lines += [f":- pred p{number} is det.", f"p{number} :- a, a, a, a, p{number + 1 if number < last else 0}."]
    lines += [":- pred a is det.", "a :- true."]
    write(f"{folder}/long.m", "\n".join(lines).encode() + b"\n")
    return f"{folder}/long.m"


class Server:
    """`serve` over the profile of a program, of as many connections as are wanted."""

    def __init__(self, program, folder, text=None, requests=1_000_000, before=()):
        self.folder, self.port = folder, free_port()
        text = text or example("queens")
        if not os.path.exists(f"{folder}/served.data"):
            done = run(program, "run", text, "--profile", "served.data", cwd=folder)
            check(done.returncode in (0, 4), done)
        words = ["serve", "served.data", "--port", str(self.port), "--requests", str(requests)]
        how = {"stdin": subprocess.DEVNULL, "stdout": subprocess.PIPE, "stderr": subprocess.PIPE}
        self.process = subprocess.Popen([*before, program, *words], cwd=folder, **how)
        self.wait()

    def wait(self):
        """Waits until it listens, without a connection."""
        for _ in range(1_000):
            with open("/proc/net/tcp", encoding="ascii") as lines:
                if any(it.split()[1].endswith(f":{self.port:04X}") and it.split()[3] == "0A" for it in lines if ":" in it.split()[0]):
                    return
            check(self.process.poll() is None, "serve ended")
            time.sleep(0.02)
        check(False, "serve doesn't listen")

    def connect(self):
        return socket.create_connection(("127.0.0.1", self.port))

    def get(self, head=HEAD):
        """The whole answer to a request, and how many seconds it took."""
        begun = time.time()
        with self.connect() as it:
            it.sendall(head)
            return whole(it), time.time() - begun

    def __enter__(self):
        return self

    def __exit__(self, *_):
        self.process.kill()
        self.process.communicate()


def free_port():
    with socket.socket() as it:
        it.bind(("127.0.0.1", 0))
        return it.getsockname()[1]


def whole(it):
    """All that a peer sends, which is a page: as long as its head says."""
    data = b""
    while piece := it.recv(1 << 20):
        data += piece
    head, end, body = data.partition(b"\r\n\r\n")
    check(end and head.startswith(b"HTTP/1.1 200"), data[:200])
    length = next(int(line.split(b":")[1]) for line in head.split(b"\r\n") if line.lower().startswith(b"content-length"))
    check(len(body) == length, len(body), "of", length, "bytes")
    return data


# ---- serve


def in_background(of):
    """Does something again and again until it is told to end."""
    ends = threading.Event()

    def loop():
        while not ends.is_set():
            try:
                of(ends)
            except OSError:
                pass

    thread = threading.Thread(target=loop, daemon=True)
    thread.start()
    return ends


@case
def page_beside_silent_peers(program, folder):
    """A hundred pages in a row beside a browser's spare connections, a silent peer and one that sends a byte a second."""
    with Server(program, folder) as server:

        def silent(ends):
            with server.connect() as it:
                it.settimeout(0.5)
                while not ends.is_set():
                    try:
                        if not it.recv(1):
                            return
                    except socket.timeout:
                        pass

        def slow(ends):
            with server.connect() as it:
                for byte in HEAD:
                    it.sendall(bytes([byte]))
                    if ends.wait(1):
                        return

        running = [in_background(it) for it in (silent, silent, silent, slow)]
        time.sleep(0.5)
        times = []
        for _ in range(100):
            times.append(server.get()[1])
            time.sleep(0.15)
        for it in running:
            it.set()
    check(max(times) < 1, "a page took", max(times))
    return f"100 pages over {sum(times) + 15:.0f} s, the slowest in {max(times) * 1000:.0f} ms"


@case
def page_behind_a_peer_that_does_not_read(program, folder):
    """A page is asked for behind a peer that asks for a long one and doesn't read it."""
    with Server(program, folder, long_page(folder)) as server:
        size = len(server.get()[0])
        with server.connect() as it:
            it.setsockopt(socket.SOL_SOCKET, socket.SO_RCVBUF, 4096)
            it.sendall(HEAD)
            time.sleep(0.2)
            _, seconds = server.get(b"GET / HTTP/1.1\r\n\r\n")
    check(seconds < 11, "it took", seconds)
    return f"the other page has {size:,} bytes; {seconds:.1f} s"


@case
def whole_page_with_bytes_behind_the_head(program, folder):
    """A long page arrives whole where the peer sends more behind its head while the page is sent."""
    with Server(program, folder, long_page(folder)) as server:
        for more in (1, 1_000, 60_000):
            with server.connect() as it:
                it.sendall(HEAD)
                first = it.recv(1)
                it.sendall(b"x" * more)
                time.sleep(0.3)
                check(first and len(first + rest(it)) > 1_000_000, more)
    return "with 1, 1,000 and 60,000 bytes behind it"


def rest(it):
    data = b""
    while piece := it.recv(1 << 20):
        data += piece
    return data


@case
def slow_reader_gets_its_page(program, folder):
    """A long page arrives whole at a peer that reads slowly."""
    with Server(program, folder, long_page(folder)) as server, server.connect() as it:
        it.setsockopt(socket.SOL_SOCKET, socket.SO_RCVBUF, 65_536)
        it.sendall(HEAD)
        begun, size = time.time(), 0
        while piece := it.recv(1 << 16):
            size += len(piece)
            time.sleep(0.1)
        seconds = time.time() - begun
        check(size > 1_000_000, size)
    return f"{size:,} bytes in {seconds:.0f} s"


@case
def times_of_a_head(program, folder):
    """How long a peer may take: two seconds without a byte of its head, ten for the whole head."""
    with Server(program, folder) as server:
        found = []
        for send in (b"", b"GET / HT"):
            with server.connect() as it:
                it.sendall(send)
                begun = time.time()
                rest_or_reset(it)
                found.append(time.time() - begun)
        with server.connect() as it:
            begun = time.time()
            try:
                while time.time() - begun < 20:
                    it.sendall(b"x")
                    time.sleep(0.5)
            except OSError:
                pass
            found.append(time.time() - begun)
    check(1.9 < found[0] < 2.5 and 1.9 < found[1] < 2.5 and 9.5 < found[2] < 11.5, found)
    return "silent {:.1f} s, half a head {:.1f} s, a byte each half second {:.1f} s".format(*found)


def rest_or_reset(it):
    try:
        return rest(it)
    except ConnectionResetError:
        return b""


@case
def many_peers_at_once(program, folder):
    """A hundred silent peers, then one that asks."""
    with Server(program, folder) as server:
        peers = [server.connect() for _ in range(100)]
        _, seconds = server.get()
        for it in peers:
            it.close()
    check(seconds < 5, seconds)
    return f"{seconds:.1f} s"


@case
def count_of_connections(program, folder):
    """What `serve` says at its end, and that the last page arrives whole."""
    with Server(program, folder, requests=3) as server:
        with server.connect() as it:
            rest_or_reset(it)
        server.get()
        server.get()
        out, err = server.process.communicate(timeout=20)
        check(server.process.returncode == 0 and out == b"connections 3 answered 2\n", out, err)
    return out.decode().strip()


@case
def a_thousand_connections(program, folder):
    """A thousand peers that ask for a page one after the other, none of which reads before all have asked."""
    with Server(program, folder, requests=1000) as server:
        begun = time.time()
        peers = []
        for _ in range(1000):
            peers.append(server.connect())
            peers[-1].sendall(HEAD)
        for it in peers:
            whole(it)
            it.close()
        seconds = time.time() - begun
        out, err = server.process.communicate(timeout=20)
        check(server.process.returncode == 0 and out == b"connections 1000 answered 1000\n", out, err)
    return f"{seconds:.1f} s"


@case
def peers_that_reset(program, folder):
    """Twenty peers that are gone by a reset, with half a head and a whole one sent; then one that asks."""
    with Server(program, folder, requests=21) as server:
        for head in (HEAD[:9], HEAD) * 10:
            with server.connect() as it:
                it.setsockopt(socket.SOL_SOCKET, socket.SO_LINGER, struct.pack("ii", 1, 0))
                it.sendall(head)
        server.get()
        out, err = server.process.communicate(timeout=20)
        check(server.process.returncode == 0 and out.startswith(b"connections 21 answered "), out, err)
    return out.decode().strip()


@case
def another_address(program, folder):
    """The port is listened at for peers of 127.0.0.1 alone."""
    with Server(program, folder) as server:
        try:
            socket.create_connection(("127.0.0.2", server.port)).close()
        except ConnectionRefusedError:
            return "refused"
    check(False, "reached at 127.0.0.2")


# ---- faults of the system


def traced(program, folder, *injects):
    """The words before a program that has strace bring these faults about."""
    strace = shutil.which("strace")
    if not strace:
        raise LeftOut("no strace")
    words = [strace, "-f", "-o", "/dev/null"]
    for it in injects:
        words += ["-e", f"inject={it}"]
    if subprocess.run([strace, "-o", "/dev/null", "true"], check=False, capture_output=True).returncode:
        raise LeftOut("strace may not trace")
    return words


@case
def accepts_that_fail_for_a_while(program, folder):
    """Accepts that fail by a passing fault are tried again, a hundred times in a row."""
    found = []
    for error, times in (("ECONNABORTED", 50), ("EPROTO", 50), ("EINTR", 50), ("EMFILE", 50), ("ENFILE", 50), ("ENOBUFS", 50)):
        before = traced(program, folder, f"accept4:error={error}:when=1..{times}")
        with Server(program, folder, requests=1, before=before) as server:
            found.append(server.get()[1])
            out, _ = server.process.communicate(timeout=20)
            check(out == b"connections 1 answered 1\n", error, out)
    before = traced(program, folder, "accept4:error=EMFILE")
    begun = time.time()
    with Server(program, folder, requests=1, before=before) as server:
        _, err = server.process.communicate(timeout=30)
        check(server.process.returncode == 9 and err == b"mdprof: network fault\n", server.process.returncode, err)
    return f"50 of each kind, the slowest page in {max(found):.1f} s; EMFILE for ever is status 9 after {time.time() - begun:.1f} s"


@case
def calls_that_signals_cut_short(program, folder):
    """Reads and writes that a signal cuts short are tried again, a hundred times in a row."""
    good = profile(program, folder)
    page = run(program, "page", "mdprof.data", "procs", cwd=folder).stdout
    before = traced(program, folder, "read:error=EINTR:when=5..20", "write:error=EINTR:when=1..90")
    done = subprocess.run([*before, program, "page", "mdprof.data", "procs"], cwd=folder, capture_output=True, check=False)
    check(done.returncode == 0 and done.stdout == page, done)
    before = traced(program, folder, "write:error=EINTR:when=1..90")
    done = subprocess.run([*before, program, "run", example("queens"), "--profile", "other.data"], cwd=folder, capture_output=True, check=False)
    check(done.returncode == 0 and read(f"{folder}/other.data") == good, done)
    before = traced(program, folder, "write:error=EINTR")
    done = subprocess.run([*before, program, "page", "mdprof.data", "procs"], cwd=folder, capture_output=True, check=False)
    check(done.returncode == 7, done)
    return "90 in a row are overcome; for ever is status 7"


@case
def faults_at_the_end_of_a_file(program, folder):
    """A close or a renaming that fails is told, and leaves what had the name."""
    good = profile(program, folder)
    for fault in (f"close:error=EIO:when={last_close(program, folder)}", "rename:error=EIO", "write:error=ENOSPC"):
        before = traced(program, folder, fault)
        done = subprocess.run([*before, program, "run", example("none"), "--profile", "mdprof.data"], cwd=folder, capture_output=True, check=False)
        # Where every write fails, so does the line that tells it.
        check(done.returncode == 7 and (fault.startswith("write") or done.stderr.endswith(b"mdprof: write fault\n")), fault, done)
        check(read(f"{folder}/mdprof.data") == good and not left_over(folder), fault, left_over(folder))
    return "close, rename and write: status 7, and the old profile stays"


def last_close(program, folder):
    """Which close it is, counted from 1, that comes before the renaming."""
    traced(program, folder)
    profile(program, folder, "traced.data")
    words = ["strace", "-o", f"{folder}/trace", "-e", "trace=close,rename", program, "run", example("none"), "--profile", "traced.data"]
    subprocess.run(words, cwd=folder, check=True, capture_output=True)
    calls = [it.split("(")[0] for it in read(f"{folder}/trace").decode().splitlines()]
    return calls[: calls.index("rename")].count("close")


@case
def killed_in_the_middle(program, folder):
    """A process that is killed while it writes leaves what had the name."""
    good = profile(program, folder)
    subprocess.run([program, "gen", "16"], stdout=open(f"{folder}/g.m", "wb"), check=True)
    for when in (1, 10, 30):
        before = traced(program, folder, f"write:signal=KILL:when={when}")
        subprocess.run([*before, program, "run", "g.m", "--steps", "16777216"], cwd=folder, capture_output=True, check=False)
        check(read(f"{folder}/mdprof.data") == good, when)
    left = left_over(folder)
    return f"the old profile stays; {len(left)} temporary files stay as well"


# ---- files


@case
def full_disk(program, folder):
    """A disk that is full leaves the old profile."""
    disk = f"{folder}/disk"
    os.mkdir(disk)
    if subprocess.run(["mount", "-t", "tmpfs", "-o", "size=1m", "tmpfs", disk], check=False, capture_output=True).returncode:
        raise LeftOut("no tmpfs may be mounted")
    try:
        good = profile(program, disk)
        subprocess.run([program, "gen", "16"], stdout=open(f"{folder}/g.m", "wb"), check=True)
        done = run(program, "run", f"{folder}/g.m", "--steps", "16777216", cwd=disk)
        check(done.returncode == 7 and done.stderr == b"mdprof: write fault\n", done.returncode, done.stderr)
        check(read(f"{disk}/mdprof.data") == good and not left_over(disk))
    finally:
        subprocess.run(["umount", disk], check=True)
    return "status 7, the old profile stays, and no temporary file"


@case
def two_runs_into_one_name(program, folder):
    """Runs into one name at once leave one whole profile or the other."""
    profiles = {profile(program, folder, f"{name}.data", name) for name in ("queens", "tour")}
    for _ in range(50):
        words = [[program, "run", example(name)] for name in ("queens", "tour")]
        running = [subprocess.Popen(it, cwd=folder, stdout=subprocess.DEVNULL) for it in words]
        for it in running:
            check(it.wait() in (0, 10), it)
        check(read(f"{folder}/mdprof.data") in profiles)
    check(not left_over(folder), left_over(folder))
    return "50 pairs of runs"


@case
def source_is_not_overwritten(program, folder):
    """A command doesn't write onto the file that it reads, however it is named."""
    source = read(example("queens"))
    write(f"{folder}/prog.m", source)
    os.symlink("prog.m", f"{folder}/link.m")
    os.link(f"{folder}/prog.m", f"{folder}/hard.m")
    count = 0
    for name in ("./prog.m", "link.m", "hard.m", f"{folder}/prog.m"):
        for words in (["run", "prog.m", "--profile", name], ["feedback", "prog.m", name]):
            done = run(program, *words, cwd=folder)
            check(done.returncode == 7 and done.stderr.endswith(b"mdprof: write fault\n"), words, done)
            check(read(f"{folder}/prog.m") == source, words)
            count += 1
    good = profile(program, folder)
    text = run(program, "dump", "mdprof.data", cwd=folder).stdout
    write(f"{folder}/dump.txt", text)
    done = run(program, "undump", "dump.txt", "./dump.txt", cwd=folder)
    check(done.returncode == 7 and read(f"{folder}/dump.txt") == text, done)
    done = run(program, "migrate", "mdprof.data", "./mdprof.data", cwd=folder)
    check(done.returncode in (5, 7) and read(f"{folder}/mdprof.data") == good, done)
    check(not left_over(folder))
    return f"{count} ways of run and feedback, undump and migrate"


@case
def links_and_modes(program, folder):
    """Links are followed to the file that they name, its mode is kept, and hard links part."""
    os.mkdir(f"{folder}/far")
    good = profile(program, folder, "far/there.data")
    write(f"{folder}/far/there.data", b"old")
    os.chmod(f"{folder}/far/there.data", 0o640)
    os.symlink("far/there.data", f"{folder}/link.data")
    os.link(f"{folder}/far/there.data", f"{folder}/hard.data")
    check(profile(program, folder, "link.data") == good and os.path.islink(f"{folder}/link.data"))
    check(read(f"{folder}/far/there.data") == good and os.stat(f"{folder}/far/there.data").st_mode & 0o777 == 0o640)
    check(read(f"{folder}/hard.data") == b"old")
    os.symlink("far/new.data", f"{folder}/dangling.data")
    check(profile(program, folder, "dangling.data") == good and os.path.islink(f"{folder}/dangling.data"))
    check(read(f"{folder}/far/new.data") == good and not left_over(f"{folder}/far") and not left_over(folder))
    return "a link, a link to no file yet, a mode, a hard link"


@case
def special_files(program, folder):
    """Devices, pipes and the program's own streams are written as they are."""
    good = profile(program, folder)
    done = run(program, "run", example("none"), "--profile", "/dev/null", cwd=folder)
    check(done.returncode == 0, done)
    done = run(program, "run", example("none"), "--profile", "/dev/stdout", cwd=folder)
    none = profile(program, folder, "none.data", "none")
    check(done.returncode == 0 and done.stdout.endswith(none), done)
    os.mkfifo(f"{folder}/fifo")
    reader = subprocess.Popen(["cat", "fifo"], cwd=folder, stdout=subprocess.PIPE)
    done = run(program, "run", example("queens"), "--profile", "fifo", cwd=folder)
    check(done.returncode == 0 and reader.communicate()[0] == good, done)
    with open(f"{folder}/stdout.txt", "wb") as out:
        done = subprocess.run([program, "run", example("none"), "--profile", "/dev/stdout"], cwd=folder, stdout=out, check=False)
    check(done.returncode == 0 and none in read(f"{folder}/stdout.txt"), done)
    return "/dev/null, /dev/stdout as a pipe and as a file, a pipe with a name"


@case
def folders_that_take_no_file(program, folder):
    """Where the folder takes no file the named one is written itself; one that may not be written stays."""
    good = profile(program, folder)
    os.mkdir(f"{folder}/shut")
    write(f"{folder}/shut/there.data", b"old")
    os.chmod(f"{folder}/shut/there.data", 0o666)
    os.chmod(f"{folder}/shut", 0o555)
    write(f"{folder}/kept.data", b"kept")
    os.chmod(f"{folder}/kept.data", 0o444)
    how = {"user": 65_534, "group": 65_534, "extra_groups": []} if os.getuid() == 0 else {}
    os.chmod(folder, 0o777)
    done = run(program, "run", example("queens"), "--profile", "shut/there.data", cwd=folder, **how)
    check(done.returncode == 0 and read(f"{folder}/shut/there.data") == good, done)
    done = run(program, "run", example("queens"), "--profile", "kept.data", cwd=folder, **how)
    check(done.returncode == 7 and read(f"{folder}/kept.data") == b"kept", done)
    os.chmod(f"{folder}/shut", 0o755)
    check(not left_over(folder))
    return "written itself; status 7"


# ---- streams


@case
def closed_streams(program, folder):
    """With any of the numbers 0 to 2 closed, the profile is whole, and a page is a fault where 1 is closed."""
    write(f"{folder}/silent.m", b":- module t.\n:- pred main(io::di, io::uo) is det.\nmain(IO0, IO) :- IO = IO0.\n")
    done = run(program, "run", "silent.m", "--profile", "good.data", cwd=folder)
    check(done.returncode == 0 and done.stdout == b"", done)
    good = read(f"{folder}/good.data")
    for closed in range(1, 8):
        numbers = [it for it in range(3) if closed >> it & 1]
        shell = " ".join(f"{it}{'<' if it == 0 else '>'}&-" for it in numbers)
        for words, due in (("run silent.m", 0), ("page good.data procs", 7 if 1 in numbers else 0)):
            if os.path.exists(f"{folder}/mdprof.data"):
                os.remove(f"{folder}/mdprof.data")
            done = subprocess.run(["sh", "-c", f"exec '{program}' {words} {shell}"], cwd=folder, capture_output=True, check=False)
            check(done.returncode == due, numbers, words, done)
            if due == 0 and words.startswith("run"):
                check(read(f"{folder}/mdprof.data") == good, numbers)
    return "each of the 7 choices: run ends with 0, page with 7 where 1 is closed"


@case
def broken_pipe(program, folder):
    """A reader that goes away is status 7, with its one line."""
    done = run(program, "run", long_page(folder), "--profile", "long.data", cwd=folder)
    check(done.returncode == 4, done)
    it = subprocess.Popen([program, "page", "long.data", "clique?id=1"], cwd=folder, stdout=subprocess.PIPE, stderr=subprocess.PIPE)
    it.stdout.readline()
    it.stdout.close()
    err = it.stderr.read()
    check(it.wait() == 7 and err == b"mdprof: write fault\n", it.returncode, err)
    return "status 7, one line"


@case
def stream_that_does_not_wait(program, folder):
    """A standard output that doesn't block is waited for, and isn't cut."""
    done = run(program, "run", long_page(folder), "--profile", "long.data", cwd=folder)
    check(done.returncode == 4, done)
    page = run(program, "page", "long.data", "clique?id=1", cwd=folder).stdout
    mine, its = os.pipe()
    fcntl.fcntl(its, fcntl.F_SETFL, fcntl.fcntl(its, fcntl.F_GETFL) | os.O_NONBLOCK)
    it = subprocess.Popen([program, "page", "long.data", "clique?id=1"], cwd=folder, stdout=its, stderr=subprocess.PIPE)
    os.close(its)
    time.sleep(2)
    data = b""
    while piece := os.read(mine, 30_000):
        data += piece
        time.sleep(0.002)
    os.close(mine)
    check(it.wait() == 0 and data == page, it.returncode, len(data), len(page))
    return f"{len(data):,} bytes"


@case
def stream_that_is_never_ready(program, folder):
    """A standard output that takes nothing for a minute is a fault."""
    done = run(program, "run", long_page(folder), "--profile", "long.data", cwd=folder)
    check(done.returncode == 4, done)
    mine, its = os.pipe()
    fcntl.fcntl(its, fcntl.F_SETFL, fcntl.fcntl(its, fcntl.F_GETFL) | os.O_NONBLOCK)
    begun = time.time()
    it = subprocess.Popen([program, "page", "long.data", "clique?id=1"], cwd=folder, stdout=its, stderr=subprocess.PIPE)
    os.close(its)
    err = it.stderr.read()
    seconds = time.time() - begun
    os.close(mine)
    check(it.wait() == 7 and err == b"mdprof: write fault\n" and 55 < seconds < 70, it.returncode, err, seconds)
    return f"status 7 after {seconds:.0f} s"


# ---- all of it


def main():
    if len(sys.argv) < 2:
        print(__doc__, file=sys.stderr)
        return 2
    program, names = os.path.abspath(sys.argv[1]), sys.argv[2:]
    failed = 0
    for of in CASES:
        if names and of.__name__ not in names:
            continue
        with tempfile.TemporaryDirectory() as folder:
            try:
                said = f"ok {of.__name__}: {of(program, folder)}"
            except LeftOut as why:
                said = f"left out {of.__name__}: {why}"
            except (AssertionError, OSError, subprocess.SubprocessError) as why:
                failed += 1
                said = f"FAILED {of.__name__}: {why}"
        print(said, flush=True)
    print(f"{failed} failed")
    return 1 if failed else 0


if __name__ == "__main__":
    sys.exit(main())
