"""A second reading of the profile file (docs/FILE.md): the first rule that bytes break, and where.

Written from the document alone, field by field, and without a thought for speed.
"""

NONE = 0xFFFFFFFF


class Damage(Exception):
    """The first broken rule: its place in the file and its name."""

    def __init__(self, at, kind):
        super().__init__(f"damaged at {at}: {kind}")
        self.at, self.kind = at, kind


class Fields:
    """The fields of a file, one after the other."""

    def __init__(self, data):
        self.data, self.at = data, 0

    def take(self, count):
        """The place and the bytes of the next field."""
        place = self.at
        if place + count > len(self.data):
            raise Damage(len(self.data), "short")
        self.at += count
        return place, self.data[place:self.at]

    def byte(self):
        place, taken = self.take(1)
        return place, taken[0]

    def number(self):
        place, taken = self.take(4)
        return place, int.from_bytes(taken, "little")

    def below(self, bound):
        """A number that has to be less than the bound."""
        place, number = self.number()
        if number >= bound:
            raise Damage(place, "range")
        return number

    def count(self, least):
        place, number = self.number()
        if number < least:
            raise Damage(place, "range")
        return number

    def name(self, is_taken):
        place, length = self.byte()
        _, name = self.take(length)
        letters = b"abcdefghijklmnopqrstuvwxyz"
        others = letters + letters.upper() + b"0123456789_"
        if not name or name[0] not in letters or any(byte not in others for byte in name):
            raise Damage(place, "text")
        if is_taken(name):
            raise Damage(place, "text")
        return name


def read_head(fields):
    for expected in b"MDPROF0":
        place, byte = fields.byte()
        if byte != expected:
            raise Damage(place, "magic")
    place, version = fields.byte()
    if version not in (49, 50):
        raise Damage(place, "magic")
    place, finished = fields.byte()
    if finished > 1:
        raise Damage(place, "flag")
    return version


def read_modules(fields):
    modules = []
    for _ in range(fields.count(1)):
        modules.append(fields.name(lambda name: name in modules))
    return modules


def read_procs(fields, modules):
    procs, taken = [], set()
    for _ in range(fields.count(1)):
        module = fields.below(len(modules))
        name = fields.name(lambda name: (module, name) in taken)
        taken.add((module, name))
        fields.byte()
        procs.append(module)
    return procs


def read_sites(fields, procs):
    sites, last = [], 0
    for _ in range(fields.count(0)):
        place, owner = fields.number()
        if owner >= len(procs) or owner < last:
            raise Damage(place, "range")
        last = owner
        place, line = fields.number()
        if line < 1:
            raise Damage(place, "range")
        place, callee = fields.number()
        if callee >= len(procs) and callee != NONE:
            raise Damage(place, "range")
        sites.append((owner, callee))
    return sites


def read_contexts(fields, procs):
    contexts = []
    for _ in range(fields.count(1)):
        place, proc = fields.number()
        if proc >= len(procs):
            raise Damage(place, "range")
        contexts.append((place, proc))
    return contexts


def read_root(fields, numbers):
    for expected in (NONE, NONE, 0):
        place, number = fields.number()
        if number != expected:
            raise Damage(place, "range")
    for _ in range(numbers):
        fields.number()


def read_link(fields, numbers, sites, contexts, keys):
    """A link's caller and callee."""
    first = fields.at
    caller = fields.below(len(contexts))
    site = fields.below(len(sites))
    callee = fields.below(len(contexts))
    for _ in range(numbers):
        fields.number()
    owner, plain = sites[site]
    proc = contexts[callee][1]
    if owner != contexts[caller][1] or plain not in (NONE, proc):
        raise Damage(first, "site mismatch")
    if (caller, site, proc) in keys:
        raise Damage(first, "double link")
    keys.add((caller, site, proc))
    return caller, callee


def read(data):
    """Raises the damage of bytes that are no profile."""
    fields = Fields(data)
    numbers = {49: 6, 50: 7}[read_head(fields)]
    procs = read_procs(fields, read_modules(fields))
    sites = read_sites(fields, procs)
    contexts = read_contexts(fields, procs)
    links, keys = [], set()
    for number in range(fields.count(1)):
        if number == 0:
            read_root(fields, numbers)
        else:
            links.append(read_link(fields, numbers, sites, contexts, keys))
    if fields.at < len(data):
        raise Damage(fields.at, "trailing")
    reached = {callee for caller, callee in links if caller < callee}
    for number, (place, _) in enumerate(contexts):
        if number > 0 and number not in reached:
            raise Damage(place, "orphan")
