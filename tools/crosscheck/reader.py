"""A second reader of the language, from its grammar: every alternative is followed, with no limit on anything.

The first token that no alternative takes is at fault for syntax. Each token that one takes, but that has more than the
limits allow, is at fault for a limit.
"""

import sys
from collections import namedtuple

# Goals stand in goals, some 200 deep.
sys.setrecursionlimit(20000)

LOWER = "abcdefghijklmnopqrstuvwxyz"
DIGITS = "0123456789"
WORD = LOWER + LOWER.upper() + DIGITS + "_"
SIGNS = ["--->", ":-", "->", "::", "=<", ">=", ";", ",", "(", ")", "[", "]", "=", "<", ">", "+", "-", "*"]
RESERVED = {"true", "fail", "not", "some", "call", "is", "pred"}
BUILTIN_TYPES = {"int", "string", "io"}
MODES = ("in", "out", "di", "uo")
DETERMINISMS = ("det", "semidet", "multi", "nondet", "failure")

MOST_ITEMS, MOST_GOALS, MOST_BYTES, GREATEST = 255, 200, 65535, 2**63 - 1

# `size` is the number of bytes of a string's value.
Token = namedtuple("Token", "kind text line size")


def span(text, start):
    """Where the letters, digits and underscores from `start` on end."""
    end = start
    while end < len(text) and text[end] in WORD:
        end += 1
    return end


def string_end(text, start):
    """Where the string that begins at `start` ends, and the size of its value; or None."""
    place, size = start + 1, 0
    while place < len(text):
        byte = text[place]
        if byte == '"':
            return place + 1, size
        if byte == "\\":
            if text[place + 1 : place + 2] not in ("n", "t", "\\", '"'):
                return None
            place += 1
        elif ord(byte) < 32 or ord(byte) == 127:
            return None
        place, size = place + 1, size + 1
    return None


def token_at(text, place, line):
    """The longest token at `place`, and where it ends; or None."""
    byte = text[place]
    if byte in LOWER:
        end = span(text, place)
        if text[end : end + 1] == "." and text[end + 1 : end + 2] and text[end + 1] in LOWER:
            end = span(text, end + 1)
            return Token("qualified", text[place:end], line, 0), end
        return Token("name", text[place:end], line, 0), end
    if byte in WORD and byte not in DIGITS:
        end = span(text, place)
        return None if text[place:end] == "_" else (Token("variable", text[place:end], line, 0), end)
    if byte in DIGITS:
        end = place
        while end < len(text) and text[end] in DIGITS:
            end += 1
        return Token("integer", text[place:end], line, 0), end
    if byte == '"':
        found = string_end(text, place)
        return found and (Token("string", text[place : found[0]], line, found[1]), found[0])
    if byte == ".":
        ends = text[place + 1 : place + 2] in ("", " ", "\t", "\n", "\r", "%")
        return (Token("end", ".", line, 0), place + 1) if ends else None
    for sign in SIGNS:
        if text.startswith(sign, place):
            return Token(sign, sign, line, 0), place + len(sign)
    return None


def tokens(text):
    """The tokens of a text; the last one is its end, or stands for bytes that make no token."""
    found, place, line = [], 0, 1
    while place < len(text):
        byte = text[place]
        if byte in " \t\r\n":
            line += byte == "\n"
            place += 1
        elif byte == "%":
            place = text.find("\n", place) if "\n" in text[place:] else len(text)
        else:
            next_token = token_at(text, place, line)
            if next_token is None:
                return found + [Token("bad", "", line, 0)]
            found.append(next_token[0])
            place = next_token[1]
    return found + [Token("stop", "", line, 0)]


class Reader:
    """Each method gives the places, as numbers of tokens, that its symbol may reach from a place."""

    def __init__(self, text):
        self.tokens = tokens(text)
        self.furthest = 0
        self.excesses = set()
        self.home = None

    def see(self, place):
        self.furthest = max(self.furthest, place)
        return self.tokens[place]

    def excess(self, place, is_excess):
        if is_excess:
            self.excesses.add(place)

    # ---- one token

    def sign(self, place, kind):
        return [place + 1] if self.see(place).kind == kind else []

    def word(self, place, *words):
        token = self.see(place)
        return [place + 1] if token.kind == "name" and token.text in words else []

    def name(self, place, forbidden):
        token = self.see(place)
        if token.kind != "name" or token.text in forbidden:
            return []
        self.excess(place, len(token.text) > MOST_ITEMS)
        return [place + 1]

    def parts(self, token):
        """The qualifier and the name of a predicate or functor, the own module's qualifier left out; or None."""
        if token.kind == "name" and token.text not in RESERVED:
            return None, token.text
        if token.kind == "qualified":
            qualifier, name = token.text.split(".")
            if name not in RESERVED:
                return (None if qualifier == self.home else qualifier), name
        return None

    def predicate_name(self, place):
        token = self.see(place)
        if self.parts(token) is None:
            return []
        self.excess(place, max(map(len, token.text.split("."))) > MOST_ITEMS)
        return [place + 1]

    def variable(self, place, others):
        token = self.see(place)
        if token.kind != "variable" or token.text in others:
            return []
        self.excess(place, len(token.text) > MOST_ITEMS)
        return [place + 1]

    # ---- lists

    def listed(self, place, item, closing):
        """Items with commas between them, and the closing sign; each item ends in one place at most."""
        count = 0
        while True:
            ends = item(place)
            self.excess(place, count == MOST_ITEMS and (bool(ends) or self.furthest > place))
            if not ends:
                return []
            count += 1
            close, comma = self.sign(ends[0], closing), self.sign(ends[0], ",")
            if close or not comma:
                return close
            place = comma[0]

    def variables(self, place, closing, others):
        """Variables that differ from each other and from the others, and the closing sign."""
        names = list(others)

        def item(start):
            ends = self.variable(start, names)
            if ends:
                names.append(self.tokens[start].text)
            return ends

        return self.listed(place, item, closing)

    def arguments(self, place, others):
        """Nothing, or variables in parentheses."""
        return [place] + [end for start in self.sign(place, "(") for end in self.variables(start, ")", others)]

    # ---- goals

    def conjunction(self, place, depth):
        ends, starts = [], [place]
        while starts:
            units = [end for start in starts for end in self.unit(start, depth) if end not in ends]
            ends += units
            starts = [after for end in units for after in self.sign(end, ",")]
        return ends

    def opening(self, place, depth):
        ends = self.sign(place, "(")
        if ends:
            self.excess(place, depth >= MOST_GOALS)
        return ends

    def inside(self, place, depth):
        """A conjunction in parentheses."""
        return [
            end
            for start in self.opening(place, depth)
            for last in self.conjunction(start, depth + 1)
            for end in self.sign(last, ")")
        ]

    def group(self, place, depth):
        """A conjunction, a disjunction or an if-then-else in parentheses."""
        ends = []
        for start in self.opening(place, depth):
            for first in self.conjunction(start, depth + 1):
                ends += self.sign(first, ")")
                arms = self.sign(first, ";")
                while arms:
                    lasts = [last for arm in arms for last in self.conjunction(arm, depth + 1)]
                    ends += [end for last in lasts for end in self.sign(last, ")")]
                    arms = [arm for last in lasts for arm in self.sign(last, ";")]
                for then in self.sign(first, "->"):
                    for last in self.conjunction(then, depth + 1):
                        for other in self.sign(last, ";"):
                            ends += [
                                end for last in self.conjunction(other, depth + 1) for end in self.sign(last, ")")
                            ]
        return ends

    def quantification(self, place, depth):
        ends = []
        for bracket in self.word(place, "some"):
            for start in self.sign(bracket, "["):
                for goal in self.sign(start, "]") + self.variables(start, "]", []):
                    ends += self.inside(goal, depth)
        return ends

    def term(self, place, left):
        token, ends = self.see(place), []
        for end in self.variable(place, [left]):
            ends.append(end)
            for operator in "+-*":
                for start in self.sign(end, operator):
                    ends += self.variable(start, [left, token.text])
        if token.kind == "integer":
            self.excess(place, int(token.text) > GREATEST)
            ends.append(place + 1)
        for start in self.sign(place, "-"):
            digits = self.see(start)
            if digits.kind == "integer":
                self.excess(start, int(digits.text) > GREATEST + 1)
                ends.append(start + 1)
        if token.kind == "string":
            self.excess(place, token.size > MOST_BYTES)
            ends.append(place + 1)
        return ends + [end for start in self.predicate_name(place) for end in self.arguments(start, [left])]

    def relation(self, place):
        left, ends = self.see(place).text, []
        for sign in self.variable(place, []):
            ends += [end for start in self.sign(sign, "=") for end in self.term(start, left)]
            for comparison in ("<", "=<", ">", ">="):
                ends += [end for start in self.sign(sign, comparison) for end in self.variable(start, [left])]
        return ends

    def unit(self, place, depth):
        ends = self.word(place, "true", "fail") + self.group(place, depth) + self.quantification(place, depth)
        ends += [end for start in self.word(place, "not") for end in self.inside(start, depth)]
        ends += self.relation(place)
        for bracket in self.word(place, "call"):
            ends += [end for start in self.sign(bracket, "(") for end in self.variables(start, ")", [])]
        ends += [end for start in self.predicate_name(place) for end in self.arguments(start, [])]
        return ends

    # ---- declarations

    def type_name(self, place):
        return self.name(place, RESERVED)

    def functor(self, place):
        ends = []
        for end in self.name(place, RESERVED):
            ends.append(end)
            ends += [last for start in self.sign(end, "(") for last in self.listed(start, self.type_name, ")")]
        return ends

    def type_declaration(self, place):
        ends = []
        for name in self.word(place, "type"):
            for sign in self.name(name, RESERVED | BUILTIN_TYPES):
                starts = self.sign(sign, "--->")
                while starts:
                    functors = [end for start in starts for end in self.functor(start)]
                    ends += [end for last in functors for end in self.sign(last, "end")]
                    starts = [start for last in functors for start in self.sign(last, ";")]
        return ends

    def path(self, places, *steps):
        """The places that are reached by these steps, one after the other."""
        for step in steps:
            places = [end for place in places for end in step(place)]
        return places

    def argument(self, place):
        def sign(kind):
            return lambda start: self.sign(start, kind)

        def word(*words):
            return lambda start: self.word(start, *words)

        plain = self.path(self.type_name(place), sign("::"), word(*MODES))
        types = self.path(self.word(place, "pred"), sign("("), lambda start: self.listed(start, self.type_name, ")"))
        inst = self.path(types, sign("::"), word("in", "out"), sign("("), word("pred"), sign("("))
        modes = self.path(inst, lambda start: self.listed(start, word(*MODES), ")"))
        return plain + self.path(modes, word("is"), word(*DETERMINISMS), sign(")"))

    def predicate(self, place):
        ends = []
        for name in self.word(place, "pred"):
            if self.tokens[name].text.startswith(("io.", "require.")) and self.see(name).kind == "qualified":
                continue
            for start in self.predicate_name(name):
                heads = [(start, 0)]
                for bracket in self.sign(start, "("):
                    for end in self.listed(bracket, self.argument, ")"):
                        heads.append((end, self.arity(bracket, end)))
                for head, arity in heads:
                    clauses = self.path(
                        [head],
                        lambda at: self.word(at, "is"),
                        lambda at: self.word(at, *DETERMINISMS),
                        lambda at: self.sign(at, "end"),
                    )
                    for clause in clauses:
                        ends += self.clause(clause, self.parts(self.tokens[name]), arity)
        return ends

    def arity(self, start, end):
        """How many arguments stand between these places: the commas outside of inner parentheses, and one."""
        depth, commas = 0, 0
        for token in self.tokens[start : end - 1]:
            depth += (token.kind == "(") - (token.kind == ")")
            commas += token.kind == "," and depth == 0
        return commas + 1

    def clause(self, place, name, arity):
        if self.parts(self.see(place)) != name:
            return []
        starts = [place + 1]
        if arity:
            starts = self.sign(place + 1, "(")
            names = []
            for number in range(arity):
                after = [end for start in starts for end in self.variable(start, names)]
                names += [self.tokens[start].text for start in starts]
                starts = [end for last in after for end in self.sign(last, "," if number < arity - 1 else ")")]
        bodies = [end for start in starts for end in self.sign(start, ":-")]
        return [end for body in bodies for last in self.conjunction(body, 0) for end in self.sign(last, "end")]

    def program(self):
        """Whether the whole text is a program."""
        places = []
        for name in self.path(self.sign(0, ":-"), lambda at: self.word(at, "module")):
            for end in self.name(name, {"io", "require"}):
                self.home = self.tokens[name].text
                places = self.sign(end, "end")
        while places:
            if any(self.see(place).kind == "stop" for place in places):
                return True
            starts = [start for place in places for start in self.sign(place, ":-")]
            places = [end for start in starts for end in self.type_declaration(start) + self.predicate(start)]
        return False


def fault(text):
    """The first token at fault as its line and why, or None. Syntax comes first where a token is both."""
    reader = Reader(text)
    is_program = reader.program()
    faults = [(place, 1, "limit") for place in reader.excesses]
    if not is_program:
        faults.append((reader.furthest, 0, "syntax"))
    if not faults:
        return None
    place, _, why = min(faults)
    return reader.tokens[place].line, why
