"""The rules of modes and determinism once more, for a text that is a program by the grammar.

A goal is a tuple: what it is, its line, and its parts. A type is `int`, `string` or `io`, `("user", name)`, or
`("pred", types, modes, determinism)`.
"""

from reader import RESERVED, tokens

# whether it may fail, and how many solutions it has: none, one or many (2)
PAIRS = {"det": (False, 1), "semidet": (True, 1), "multi": (False, 2), "nondet": (True, 2), "failure": (True, 0)}
NAMES = {pair: name for name, pair in PAIRS.items()}
STATE = [("io", "di"), ("io", "uo")]
BUILTINS = {
    (("io", "write_int"), 3): [("int", "in")] + STATE,
    (("io", "write_string"), 3): [("string", "in")] + STATE,
    (("io", "nl"), 2): STATE,
}
# throws: nothing comes after it
ERROR = ("require", "error")


class Fault(Exception):
    """The first fault of a program: its line, and why."""

    def __init__(self, line, why):
        super().__init__(line, why)
        self.line, self.why = line, why


# ---- programs


class Parser:
    """Takes a text apart that is known to be a program."""

    def __init__(self, text):
        self.tokens = tokens(text)
        self.place = 0
        self.home = None

    @property
    def token(self):
        return self.tokens[self.place]

    def take(self):
        self.place += 1
        return self.tokens[self.place - 1].text

    def eat(self, kind):
        found = self.token.kind == kind
        self.place += found
        return found

    def skip(self, count):
        self.place += count

    def name(self):
        qualified = self.token.kind == "qualified"
        text = self.take()
        qualifier, name = text.split(".") if qualified else (None, text)
        return (None if qualifier == self.home else qualifier), name

    def listed(self, item, closing=")"):
        found = [item()]
        while self.eat(","):
            found.append(item())
        self.skip(1)
        return found

    def variables(self):
        return self.listed(self.take) if self.eat("(") else []

    def type_name(self):
        name = self.take()
        return name if name in ("int", "string", "io") else ("user", name)

    def argument(self):
        if self.token.text != "pred":
            found = self.type_name()
            self.skip(1)
            return found, self.take()
        self.skip(2)
        types = self.listed(self.type_name)
        self.skip(1)
        mode = self.take()
        self.skip(3)
        modes = self.listed(self.take)
        self.skip(1)
        determinism = self.take()
        self.skip(1)
        return ("pred", tuple(types), tuple(modes), determinism), mode

    def functor(self):
        return self.take(), self.listed(self.type_name) if self.eat("(") else []

    def type_declaration(self, line):
        self.skip(1)
        name = self.take()
        self.skip(1)
        functors = [self.functor()]
        while self.eat(";"):
            functors.append(self.functor())
        self.skip(1)
        return name, line, functors

    def predicate(self, line):
        self.skip(1)
        name = self.name()
        arguments = self.listed(self.argument) if self.eat("(") else []
        self.skip(1)
        determinism = self.take()
        self.skip(1)
        clause_line = self.token.line
        self.skip(1)
        head = self.variables()
        self.skip(1)
        body = self.conjunction()
        self.skip(1)
        return Predicate(name, line, clause_line, arguments, determinism, head, body)

    def program(self):
        self.skip(2)
        self.home = self.take()
        self.skip(1)
        types, predicates = [], []
        while self.token.kind != "stop":
            line = self.token.line
            self.skip(1)
            if self.token.text == "type":
                types.append(self.type_declaration(line))
            else:
                predicates.append(self.predicate(line))
        return types, predicates

    def conjunction(self):
        line, units = self.token.line, [self.unit()]
        while self.eat(","):
            units.append(self.unit())
        return units[0] if len(units) == 1 else ("conjunction", units[0][1], units)

    def inside(self):
        self.skip(1)
        goal = self.conjunction()
        self.skip(1)
        return goal

    def group(self, line):
        self.skip(1)
        parts = [self.conjunction()]
        kind = "disjunction"
        while self.token.kind != ")":
            kind = "choice" if self.token.kind == "->" else kind
            self.skip(1)
            parts.append(self.conjunction())
        self.skip(1)
        return parts[0] if len(parts) == 1 else (kind, line, parts)

    def unit(self):
        line, kind, text = self.token.line, self.token.kind, self.token.text
        if kind == "(":
            return self.group(line)
        if kind == "variable":
            return self.relation(line)
        if kind != "name" or text not in RESERVED:
            name = self.name()
            return ("call", line, name, self.variables())
        self.skip(1)
        if text == "not":
            return ("not", line, [], self.inside())
        if text == "some":
            self.skip(1)
            variables = [] if self.eat("]") else self.listed(self.take)
            return ("some", line, variables, self.inside())
        if text == "call":
            closure, *rest = self.variables()
            return ("closure call", line, closure, rest)
        return (text, line)

    def relation(self, line):
        left, sign = self.take(), self.take()
        if sign != "=":
            return ("comparison", line, left, self.take())
        kind = self.token.kind
        if kind == "variable":
            right = self.take()
            if self.token.kind in ("+", "-", "*"):
                self.skip(1)
                return ("arithmetic", line, left, right, self.take())
            return ("same", line, left, right)
        if kind in ("-", "integer"):
            sign = -1 if self.eat("-") else 1
            return ("constant", line, left, "int", sign * int(self.take()))
        if kind == "string":
            return ("constant", line, left, "string", self.take())
        return ("functor", line, left, self.name(), self.variables())


class Predicate:
    def __init__(self, name, line, clause_line, arguments, determinism, head, body):
        self.name, self.line, self.clause_line, self.arguments = name, line, clause_line, arguments
        self.determinism, self.head, self.body = determinism, head, body


def variables_of(goal):
    """Each occurrence of a variable in a goal."""
    kind = goal[0]
    if kind in ("conjunction", "disjunction", "choice"):
        return [variable for part in goal[2] for variable in variables_of(part)]
    if kind in ("not", "some"):
        return goal[2] + variables_of(goal[3])
    if kind in ("true", "fail"):
        return []
    if kind in ("comparison", "arithmetic", "same"):
        return list(goal[2:])
    if kind == "constant":
        return [goal[2]]
    if kind == "functor":
        return [goal[2]] + goal[4]
    return ([goal[2]] if kind == "closure call" else []) + goal[3]


def outside(occurrences, goal):
    """The variables that occur outside of this goal, too."""
    rest = list(occurrences)
    for variable in variables_of(goal):
        rest.remove(variable)
    return set(rest)


# ---- modes


class Modes:
    """What is known before a goal is the types of the bound variables, and which io variables are used."""

    def __init__(self, text):
        self.module_line = tokens(text)[0].line
        self.types, self.predicates = Parser(text).program()
        self.functors = {
            (name, len(arguments)): (("user", declared), arguments)
            for declared, _, functors in self.types
            for name, arguments in functors
        }
        self.called = {predicate.name: predicate for predicate in self.predicates}
        self.before, self.after, self.classes = {}, {}, {}
        self.occurrences = []

    def check(self):
        for _, line, functors in self.types:
            for _, arguments in functors:
                for argument in arguments:
                    self.check_known(argument, line)
                    if argument == "io":
                        raise Fault(line, "type clash")
        for predicate in self.predicates:
            for argument, mode in predicate.arguments:
                self.check_argument(argument, mode, predicate.line)
        for predicate in self.predicates:
            self.check_clause(predicate)
        if not any(is_main(predicate) for predicate in self.predicates):
            raise Fault(self.module_line, "no main")

    def check_known(self, argument, line):
        if argument[0] == "user" and argument[1] not in [name for name, _, _ in self.types]:
            raise Fault(line, "unknown name")

    def check_argument(self, argument, mode, line):
        pairs = [(argument, mode)]
        if argument[0] == "pred":
            for part in argument[1]:
                self.check_known(part, line)
            if len(argument[1]) != len(argument[2]):
                raise Fault(line, "type clash")
            pairs += zip(argument[1], argument[2])
        self.check_known(argument, line)
        if any((part == "io") != (part_mode in ("di", "uo")) for part, part_mode in pairs):
            raise Fault(line, "type clash")

    def check_clause(self, predicate):
        self.occurrences = predicate.head + variables_of(predicate.body)
        pairs = list(zip(predicate.head, predicate.arguments))
        bound = {variable: argument for variable, (argument, mode) in pairs if mode in ("in", "di")}
        bound, used, is_reachable = self.goal(predicate.body, bound, frozenset(), False)
        for variable, (argument, mode) in pairs:
            if is_reachable and mode in ("out", "uo"):
                if variable not in bound:
                    raise Fault(predicate.clause_line, "unbound variable")
                if bound[variable] != argument:
                    raise Fault(predicate.clause_line, "type clash")
                if variable in used:
                    raise Fault(predicate.clause_line, "io used")

    # ---- one variable

    def take_input(self, variable, wanted, line, bound, used, strict):
        if variable not in bound:
            raise Fault(line, "unbound variable")
        if bound[variable] == "io" and (strict or variable in used):
            raise Fault(line, "io used")
        if wanted not in (None, bound[variable]):
            raise Fault(line, "type clash")

    def take_arguments(self, variables, pairs, line, bound, used, strict):
        bound = dict(bound)
        for variable, (wanted, mode) in zip(variables, pairs):
            if mode in ("in", "di"):
                self.take_input(variable, wanted, line, bound, used, strict)
                used = used | {variable} if mode == "di" else used
                continue
            if variable in bound:
                raise Fault(line, "variable bound twice")
            if strict and wanted == "io":
                raise Fault(line, "io used")
            bound[variable] = wanted
        return bound, used, True

    # ---- goals

    def goal(self, goal, bound, used, strict):
        """What is known after a goal, and whether the place after it is reachable."""
        self.before[id(goal)] = bound
        rule = getattr(self, goal[0].replace(" ", "_") + "_goal")
        result = rule(goal, bound, used, strict)
        self.after[id(goal)] = result[0]
        return result

    def true_goal(self, goal, bound, used, strict):
        return bound, used, True

    def fail_goal(self, goal, bound, used, strict):
        return bound, used, False

    def conjunction_goal(self, goal, bound, used, strict):
        is_reachable = True
        for part in goal[2]:
            bound, used, is_part_reachable = self.goal(part, bound, used, strict)
            is_reachable = is_reachable and is_part_reachable
        return bound, used, is_reachable

    def disjunction_goal(self, goal, bound, used, strict):
        return self.join(goal, bound, used, [self.goal(arm, bound, used, strict) for arm in goal[2]])

    def choice_goal(self, goal, bound, used, strict):
        condition, then, other = goal[2]
        tested, tested_used, _ = self.goal(condition, bound, used, True)
        self.check_binds_inside(goal, bound, tested)
        arms = [self.goal(then, tested, tested_used, strict), self.goal(other, bound, used, strict)]
        return self.join(goal, bound, used, arms)

    def not_goal(self, goal, bound, used, strict):
        tested, _, _ = self.goal(goal[3], bound, used, True)
        self.check_binds_inside(goal, bound, tested)
        if any(variable in outside(self.occurrences, goal) for variable in goal[2]):
            raise Fault(goal[1], "branches bind differently")
        return bound, used, True

    some_goal = not_goal

    def check_binds_inside(self, goal, bound, tested):
        others = outside(self.occurrences, goal)
        if any(variable in others and variable not in bound for variable in tested):
            raise Fault(goal[1], "branches bind differently")

    def join(self, goal, bound, used, arms):
        live = [(arm, arm_used) for arm, arm_used, is_reachable in arms if is_reachable]
        for variable in outside(self.occurrences, goal) - set(bound):
            if sum(variable in arm for arm, _ in live) not in (0, len(live)):
                raise Fault(goal[1], "branches bind differently")
        if not live:
            return bound, used, False
        shared = set.intersection(*(set(arm) for arm, _ in live))
        if any(len({arm[variable] for arm, _ in live}) > 1 for variable in shared):
            raise Fault(goal[1], "type clash")
        return {name: live[0][0][name] for name in shared}, frozenset().union(*(more for _, more in live)), True

    # ---- goals without parts

    def same_goal(self, goal, bound, used, strict):
        _, line, left, right = goal
        if left in bound and right in bound:
            if bound[left] != bound[right]:
                raise Fault(line, "type clash")
            if bound[left][0] == "pred":
                raise Fault(line, "closure compared")
            if bound[left] == "io":
                raise Fault(line, "io used")
            self.classes[id(goal)] = "test"
            return bound, used, True
        source, target = (left, right) if left in bound else (right, left)
        self.take_input(source, None, line, bound, used, strict)
        used = used | {source} if bound[source] == "io" else used
        return {**bound, target: bound[source]}, used, True

    def constant_goal(self, goal, bound, used, strict):
        _, line, left, wanted, _ = goal
        if left not in bound:
            return {**bound, left: wanted}, used, True
        if bound[left] != wanted:
            raise Fault(line, "type clash")
        self.classes[id(goal)] = "deconstruct"
        return bound, used, True

    def functor_goal(self, goal, bound, used, strict):
        _, line, left, (qualifier, name), variables = goal
        if qualifier is not None or (name, len(variables)) not in self.functors:
            return self.closure(goal, bound, used, strict)
        declared, wanted = self.functors[name, len(variables)]
        if left not in bound:
            for variable, part in zip(variables, wanted):
                self.take_input(variable, part, line, bound, used, strict)
            return {**bound, left: declared}, used, True
        if bound[left] != declared:
            raise Fault(line, "type clash")
        for variable, part in zip(variables, wanted):
            if bound.get(variable, part) != part:
                raise Fault(line, "type clash")
        self.classes[id(goal)] = "deconstruct"
        return {**dict(zip(variables, wanted)), **bound}, used, True

    def closure(self, goal, bound, used, strict):
        _, line, left, (qualifier, name), variables = goal
        if (qualifier, name) not in self.called:
            is_functor = qualifier is None and name in [functor for functor, _ in self.functors]
            raise Fault(line, "wrong number of arguments" if is_functor else "unknown name")
        predicate = self.called[qualifier, name]
        taken, left_open = predicate.arguments[: len(variables)], predicate.arguments[len(variables) :]
        if not left_open:
            raise Fault(line, "wrong number of arguments")
        if left in bound:
            raise Fault(line, "closure compared")
        if any(mode != "in" for _, mode in taken) or any(argument[0] == "pred" for argument, _ in left_open):
            raise Fault(line, "type clash")
        for variable, (wanted, _) in zip(variables, taken):
            self.take_input(variable, wanted, line, bound, used | {variable}, strict)
        parts, modes = zip(*left_open)
        return {**bound, left: ("pred", parts, modes, predicate.determinism)}, used, True

    def arithmetic_goal(self, goal, bound, used, strict):
        if goal[2] in bound:
            raise Fault(goal[1], "variable bound twice")
        self.comparison_goal(goal[:2] + goal[3:], bound, used, strict)
        return {**bound, goal[2]: "int"}, used, True

    def comparison_goal(self, goal, bound, used, strict):
        return self.take_arguments(goal[2:], [("int", "in"), ("int", "in")], goal[1], bound, used, strict)

    def call_goal(self, goal, bound, used, strict):
        _, line, name, variables = goal
        if name == ERROR and len(variables) == 1:
            self.classes[id(goal)] = "throws"
            bound, used, _ = self.take_arguments(variables, [("string", "in")], line, bound, used, strict)
            return bound, used, False
        pairs = BUILTINS.get((name, len(variables)))
        if pairs is None:
            if name not in self.called:
                raise Fault(line, "unknown name")
            pairs = self.called[name].arguments
            self.classes[id(goal)] = self.called[name].determinism
        if len(pairs) != len(variables):
            raise Fault(line, "wrong number of arguments")
        return self.take_arguments(variables, pairs, line, bound, used, strict)

    def closure_call_goal(self, goal, bound, used, strict):
        _, line, closure, variables = goal
        self.take_input(closure, None, line, bound, used, strict)
        if bound[closure][0] != "pred":
            raise Fault(line, "type clash")
        _, parts, modes, determinism = bound[closure]
        if len(parts) != len(variables):
            raise Fault(line, "wrong number of arguments")
        self.classes[id(goal)] = determinism
        return self.take_arguments(variables, list(zip(parts, modes)), line, bound, used, strict)


def is_main(predicate):
    return predicate.name == (None, "main") and predicate.arguments == STATE and predicate.determinism == "det"


# ---- determinism


class Determinism:
    """The pair of each goal, and the faults, by the order of the goals in the text."""

    def __init__(self, modes):
        self.modes = modes
        self.occurrences = []
        self.faults = []

    def check(self):
        for predicate in self.modes.predicates:
            declared = PAIRS[predicate.determinism]
            if any(argument == "io" for argument, _ in predicate.arguments) and predicate.determinism != "det":
                raise Fault(predicate.line, "io in backtracking")
            self.occurrences = predicate.head + variables_of(predicate.body)
            inferred = self.pair(predicate.body, False, False)
            if self.faults:
                raise self.faults[0]
            if inferred[0] > declared[0] or inferred[1] > declared[1]:
                told = f"declared {predicate.determinism}, inferred {NAMES[inferred]}"
                raise Fault(predicate.line, told)

    def names_io(self, goal):
        before, after = self.modes.before[id(goal)], self.modes.after[id(goal)]
        return any("io" in (before.get(variable), after.get(variable)) for variable in variables_of(goal))

    def pair(self, goal, in_backtracking, begins_arm):
        """Whether a goal may fail, and its bound."""
        kind, line = goal[0], goal[1]
        place = len(self.faults)
        if kind == "conjunction":
            return self.product(goal, in_backtracking, begins_arm)
        if kind == "disjunction":
            return self.sum(goal, in_backtracking)
        if kind == "choice":
            condition, *parts = goal[2]
            bound = self.pair(condition, in_backtracking, False)[1]
            pairs = [self.pair(part, in_backtracking, False) for part in parts]
            if bound == 2 and self.binds_outside(condition):
                self.faults.insert(place, Fault(line, "condition with many solutions binds"))
            return any(fails for fails, _ in pairs), max(bound for _, bound in pairs)
        if in_backtracking and self.names_io(goal):
            self.faults.append(Fault(line, "io in backtracking"))
        if kind in ("not", "some"):
            fails, bound = self.pair(goal[3], in_backtracking, False)
            return (True, 1) if kind == "not" else (fails, min(bound, 1))
        if kind in ("fail", "comparison"):
            return True, 0 if kind == "fail" else 1
        found = self.modes.classes.get(id(goal))
        if found == "throws":
            return False, 0
        if found == "deconstruct":
            return not self.always_matches(goal, begins_arm), 1
        return PAIRS.get(found, (found == "test", 1))

    def product(self, goal, in_backtracking, begins_arm):
        pairs = []
        for number, part in enumerate(goal[2]):
            pairs.append(self.pair(part, in_backtracking, begins_arm and number == 0))
            in_backtracking = in_backtracking or pairs[-1][1] == 2
        bounds = [bound for _, bound in pairs]
        return any(fails for fails, _ in pairs), 0 if 0 in bounds else max(bounds)

    def sum(self, goal, in_backtracking):
        is_switch, is_missing = self.switch(goal)
        pairs = [self.pair(arm, in_backtracking or not is_switch, is_switch) for arm in goal[2]]
        fails, bounds = [fails for fails, _ in pairs], [bound for _, bound in pairs]
        return (any(fails) or is_missing, max(bounds)) if is_switch else (all(fails), min(2, sum(bounds)))

    def binds_outside(self, condition):
        bound = set(self.modes.after[id(condition)]) - set(self.modes.before[id(condition)])
        return bool(bound & outside(self.occurrences, condition))

    def functors_of(self, declared):
        return next((functors for name, _, functors in self.modes.types if declared == ("user", name)), None)

    def always_matches(self, goal, begins_arm):
        before = self.modes.before[id(goal)]
        if goal[0] == "functor" and any(variable in before for variable in goal[4]):
            return False
        functors = self.functors_of(before[goal[2]])
        return begins_arm or (functors is not None and len(functors) == 1)

    def switch(self, goal):
        """Whether a disjunction is a switch, and whether a functor is missing in it."""
        before, firsts = self.modes.before[id(goal)], []
        for arm in goal[2]:
            firsts.append(arm[2][0] if arm[0] == "conjunction" else arm)
        if any(self.modes.classes.get(id(first)) != "deconstruct" for first in firsts):
            return False, False
        keys = [first[3:] if first[0] == "constant" else (first[3][1], len(first[4])) for first in firsts]
        names = {first[2] for first in firsts}
        if len(names) > 1 or not names <= set(before) or len(set(keys)) < len(keys):
            return False, False
        functors = self.functors_of(before[names.pop()])
        return True, functors is None or any((name, len(parts)) not in keys for name, parts in functors)


def fault(text):
    """The first fault of modes or determinism of a program, as its line and why, or None."""
    modes = Modes(text)
    try:
        modes.check()
        Determinism(modes).check()
    except Fault as found:
        return found.line, found.why
    return None
