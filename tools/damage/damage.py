"""Edits profile files at random, and compares what mdprof says of each with a second reading.

    python3 tools/damage/damage.py PROGRAM EDITS [SEED] [FILE..]

PROGRAM is a built mdprof, and the profiles of examples/ are edited besides those of each FILE. An edit cuts the
file, changes a byte or a number, moves, doubles or drops some bytes, or does several of these. The status is 1 where
the two readings differ.
"""

import collections
import concurrent.futures
import os
import pathlib
import random
import subprocess
import sys
import tempfile

import reader

EXAMPLES = pathlib.Path(__file__).resolve().parents[2] / "examples"

# The edits are made in so many parts, each with a seed of its own, as many at a time as there are processors.
PARTS = 64

NUMBERS = [0, 1, 2, 3, 255, 256, 0x7FFFFFFF, 0xFFFFFFFE, 0xFFFFFFFF]


def profiles(program, folder):
    """The profile of each example that runs, in both versions."""
    for example in sorted(EXAMPLES.glob("*.m")):
        kept = folder / "kept"
        words = [program, "run", str(example), "--steps", "20000", "--profile", str(kept)]
        ended = subprocess.run(words, stdin=subprocess.DEVNULL, capture_output=True).returncode
        if ended in (0, 4, 10):
            data = kept.read_bytes()
            yield data
            if ended != 10:
                yield version_1(data)


def version_1(data):
    """The same profile in the first version: no link has its count of exceptions."""
    fields = reader.Fields(data)
    reader.read_head(fields)
    procs = reader.read_procs(fields, reader.read_modules(fields))
    reader.read_sites(fields, procs)
    reader.read_contexts(fields, procs)
    links = fields.number()[1]
    head = data[:7] + b"1" + data[8:fields.at]
    return head + b"".join(data[fields.at + 40 * i:][:36] for i in range(links))


def changed(data, chance):
    """The bytes after one random edit."""
    at = chance.randrange(len(data))
    end = min(len(data), at + chance.choice([1, 2, 4, 8, 12, 36, 40]))
    kind = chance.randrange(12)
    if kind == 0:
        return data[:at]
    if kind == 1:
        return data[:at] + bytes([chance.randrange(256)]) + data[at + 1:]
    if kind == 2:
        return data[:at] + bytes([data[at] ^ 1 << chance.randrange(8)]) + data[at + 1:]
    if kind == 3:
        return data[:at] + bytes([chance.randrange(8)]) + data[at + 1:]
    if kind == 4:
        return data[:at] + chance.choice(NUMBERS).to_bytes(4, "little") + data[at + 4:]
    if kind == 5:
        return data[:at] + data[end:]
    if kind == 6:
        return data[:end] + data[at:]
    if kind == 7:
        return data + data[at:end]
    if kind > 8:
        return with_links(data, chance)
    other = chance.randrange(len(data))
    return data[:other] + data[at:end] + data[other + end - at:]


def with_links(data, chance):
    """The bytes with a link left out, doubled, moved or with one of its ends changed, where they can be read so far."""
    fields = reader.Fields(data)
    try:
        width = {49: 36, 50: 40}[reader.read_head(fields)]
        procs = reader.read_procs(fields, reader.read_modules(fields))
        reader.read_sites(fields, procs)
        contexts = reader.read_contexts(fields, procs)
    except reader.Damage:
        return data
    start = fields.at + 4
    links = [data[at:at + width] for at in range(start, len(data), width)]
    if len(links) < 2:
        return data
    one, other = (chance.randrange(1, len(links)) for _ in range(2))
    kind = chance.randrange(4)
    if kind == 0:
        del links[one]
    elif kind == 1:
        links.insert(other, links[one])
    elif kind == 2:
        links[one], links[other] = links[other], links[one]
    else:
        end = chance.choice([0, 8])
        number = chance.randrange(len(contexts)).to_bytes(4, "little")
        links[one] = links[one][:end] + number + links[one][end + 4:]
    return data[:start - 4] + len(links).to_bytes(4, "little") + b"".join(links)


def edited(data, chance):
    """The bytes after one edit or several."""
    for _ in range(chance.choice([1, 1, 1, 2, 3])):
        if data:
            data = changed(data, chance)
    return data


def told(program, path):
    """What the program says of a file."""
    ended = subprocess.run([program, "page", str(path), "menu"], capture_output=True, close_fds=False)
    if ended.returncode == 0 and ended.stdout.startswith(b"mdprof menu\n") and not ended.stderr:
        return "a profile"
    start = f"mdprof: {path}: "
    line = ended.stderr.decode(errors="replace")
    if ended.returncode == 5 and not ended.stdout and line.startswith(start):
        said = line[len(start):].rstrip("\n")
        # A file that keeps all rules and has no pages.
        return "a profile" if " is entered by links " in said else said
    return f"status {ended.returncode}, {line!r}"


def expected(data):
    try:
        reader.read(data)
    except reader.Damage as damage:
        return str(damage)
    return "a profile"


def compared(program, files):
    """How many of the files are of each kind, and the lines that tell of those on which the readings differ."""
    kinds, differ = collections.Counter(), []
    with tempfile.TemporaryDirectory() as name:
        path = pathlib.Path(name) / "edited.data"
        for data in files:
            path.write_bytes(data)
            wanted, said = expected(data), told(program, path)
            kinds[wanted.rpartition(": ")[2]] += 1
            if wanted != said:
                differ.append(f"{data.hex()}\n  wanted: {wanted}\n  said:   {said}")
    return kinds, differ


def compared_part(program, whole, edits, seed):
    """The same of so many edited files."""
    chance = random.Random(seed)
    return compared(program, (edited(chance.choice(whole), chance) for _ in range(edits)))


def main():
    program, edits = os.path.abspath(sys.argv[1]), int(sys.argv[2])
    seed = int(sys.argv[3]) if len(sys.argv) > 3 else 1
    with tempfile.TemporaryDirectory() as name:
        whole = list(profiles(program, pathlib.Path(name)))
    whole += [pathlib.Path(file).read_bytes() for file in sys.argv[4:]]
    kinds, differ = compared(program, whole)
    with concurrent.futures.ProcessPoolExecutor() as pool:
        parts = [(edits * (part + 1) // PARTS - edits * part // PARTS, f"{seed} {part}") for part in range(PARTS)]
        for some, lines in pool.map(compared_part, *zip(*[(program, whole, *part) for part in parts])):
            kinds += some
            differ += lines
    for line in differ:
        print(line)
    for kind in sorted(kinds):
        print(f"{kinds[kind]:>8} {kind}")
    print(f"{edits} edits of {len(whole)} files, {len(differ)} differ")
    return 1 if differ else 0


if __name__ == "__main__":
    sys.exit(main())
