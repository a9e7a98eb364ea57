"""Runs a C program of the language, and answers the points that the run passes, as the formula of the report counts them. Used by
schedule_picture.py, whose check compares the cycles of these points with those that `cosim` gives.

The points are those of docs/REPORT.md. The program and its data must be ones that `cosim` accepts.
"""
import dataclasses
import itertools
import math

import c_tree as tree
from c_tree import INT
from c_values import constant, kind_of, operated, parts, promoted, wrap
from faults_names import shape_of


class Limit(Exception):
    """The run passes more points than may be kept."""


@dataclasses.dataclass
class Event:
    """A point that is passed: its kind, its token and the path of calls to it. Loops, iterations and calls are opened and closed around them."""

    sort: str
    at: object
    path: tuple


@dataclasses.dataclass
class Variable:
    """A scalar or an array, row by row, and how often an element was assigned."""

    kind: tree.Kind
    lengths: list
    values: list
    assigned: int = 0


@dataclasses.dataclass
class Returned:
    """A `return` with its number, and whether it is in a tail position."""

    number: object
    is_tail: bool


def place_text(at):
    return f"{at.line}:{at.column}" + (f".{at.part}" if at.part else "")


def path_text(path):
    return ",".join(place_text(at) for at in path) or "-"


def acts(t):
    """Whether an operand has a call, an assignment, `++`, `--` or a comma, so that its operator passes points."""
    return isinstance(t, (tree.Call, tree.Assign, tree.Bump, tree.Comma)) or any(map(acts, parts(t)))


class Run:
    """A run of a function on values for its parameters, given by name. `events` are what it passes, in order."""

    def __init__(self, items, top, values, most=200_000):
        self.events, self.most, self.path = [], most, ()
        self.functions = {f.at.text: f for f in items if isinstance(f, tree.Function) and f.body}
        self.names = {}
        for item in items:
            for one in item.objects if isinstance(item, tree.Objects) else []:
                self.names[one.name()] = self.declared(one, {})
                self.fill(self.names[one.name()], one, {})
        f = self.functions[top]
        given = []
        for p in f.parameters:
            variable = Variable(p.kind, shape_of(p), list(values[p.name()]))
            given.append(variable if p.lengths else variable.values[0])
        self.result = self.function(f, given)
        self.stores = {p.name(): value.assigned for p, value in zip(f.parameters, given) if p.lengths}

    # ---- events

    def event(self, sort, at):
        if len(self.events) >= self.most:
            raise Limit
        self.events.append(Event(sort, at, self.path))

    # ---- functions

    def function(self, f, given):
        names = dict(self.names)
        for p, value in zip(f.parameters, given):
            names[p.name()] = value if isinstance(value, Variable) else Variable(p.kind, [], [wrap(p.kind, value)])
        self.event("open call", f.at)
        self.event("begin", f.at)
        left = self.items(f.body.body, names, f.kind, True)
        self.event("end", f.at)
        self.event("close", f.at)
        return left.number if isinstance(left, Returned) else None

    def call(self, t, names):
        f = self.functions[t.at.text]
        given = [
            names[a.at.text] if isinstance(a, tree.Name) and names[a.at.text].lengths else self.value(a, names)[1] for a in t.arguments
        ]
        outer, self.path = self.path, (*self.path, t.at)
        result = self.function(f, given)
        self.path = outer
        return f.kind or INT, result if result is not None else 0

    # ---- objects

    def declared(self, one, names):
        lengths = shape_of(one)
        return Variable(one.kind, lengths, [0] * math.prod(lengths))

    def fill(self, variable, one, names):
        if one.init is not None:
            variable.values = [0] * len(variable.values)
            self.initialise(variable, one.init, variable.lengths, 0, names)

    def initialise(self, variable, init, lengths, first, names):
        if isinstance(init, tree.Single):
            variable.values[first] = wrap(variable.kind, self.value(init.value, names)[1])
            return
        size = math.prod(lengths[1:])
        for k, item in enumerate(init.items):
            self.initialise(variable, item, lengths[1:], first + k * size, names)

    def element(self, t, names):
        """The variable and the number of the element that a name with its subscripts is."""
        variable, number = names[t.at.text], 0
        for length, subscript in zip(variable.lengths, t.subscripts if isinstance(t, tree.Index) else []):
            number = number * length + self.value(subscript, names)[1]
        return variable, number

    # ---- expressions: the kind and the number

    def value(self, t, names):
        if isinstance(t, tree.Number):
            return t.kind, t.value
        if isinstance(t, (tree.Name, tree.Index)):
            variable, number = self.element(t, names)
            return variable.kind, variable.values[number]
        if isinstance(t, tree.Call):
            return self.call(t, names)
        if isinstance(t, tree.Cast):
            return t.kind, wrap(t.kind, self.value(t.arg, names)[1])
        if isinstance(t, tree.Unary):
            return self.unary(t, names)
        if isinstance(t, tree.Binary):
            return self.binary(t, names)
        if isinstance(t, tree.Choice):
            return self.choice(t, names)
        if isinstance(t, tree.Comma):
            self.value(t.left, names)
            return self.value(t.right, names)
        return self.change(t, names)

    def unary(self, t, names):
        kind, number = self.value(t.arg, names)
        if t.at.text == "!":
            return INT, int(not number)
        kind, number = promoted(kind), wrap(promoted(kind), number)
        return kind, wrap(kind, ~number if t.at.text == "~" else -number if t.at.text == "-" else number)

    def binary(self, t, names):
        kind, number = self.value(t.left, names)
        sign, forks = t.at.text, acts(t.right)
        if sign not in ("&&", "||"):
            other, right = self.value(t.right, names)
            return self.kind_of(t, names), operated(sign, kind, number, other, right, t.at)
        result = int(bool(number))
        if bool(number) == (sign == "&&"):
            if forks:
                self.event("arm", t.at)
            result = int(bool(self.value(t.right, names)[1]))
        if forks:
            self.event("end", t.at)
        return INT, result

    def choice(self, t, names):
        holds, forks = self.value(t.test, names)[1], acts(t.left) or acts(t.right)
        if forks:
            self.event("arm", t.at if holds else t.colon)
        number = self.value(t.left if holds else t.right, names)[1]
        if forks:
            self.event("end", t.at)
        kind = self.kind_of(t, names)
        return kind, wrap(kind, number)

    def change(self, t, names):
        variable, number = self.element(t.target, names)
        old, sign = variable.values[number], t.at.text
        if isinstance(t, tree.Bump):
            new = operated(sign[0], variable.kind, old, INT, 1, t.at)
        else:
            kind, value = self.value(t.value, names)
            new = value if sign == "=" else operated(sign[:-1], variable.kind, variable.values[number], kind, value, t.at)
        variable.values[number] = wrap(variable.kind, new)
        variable.assigned += 1
        is_post = isinstance(t, tree.Bump) and t.at.start > t.target.at.start
        return variable.kind, old if is_post else variable.values[number]

    def kind_of(self, t, names):
        def of_name(name):
            return names[name].kind if name in names else self.functions[name].kind

        return kind_of(t, of_name)

    # ---- statements: None, `break`, `continue` or what is returned

    def items(self, body, names, result, is_tail):
        names = dict(names)
        for k, s in enumerate(body):
            left = self.statement(s, names, result, is_tail and k == len(body) - 1)
            if left is not None:
                return left
        return None

    def statement(self, s, names, result, is_tail):
        if isinstance(s, tree.Block):
            return self.items(s.body, names, result, is_tail)
        if isinstance(s, tree.Declare):
            return self.declare(s, names)
        if isinstance(s, tree.Act):
            for action in s.actions:
                self.value(action, names)
            return None
        if isinstance(s, tree.If):
            return self.branch(s, names, result, is_tail)
        if isinstance(s, tree.Switch):
            return self.switch(s, names, result)
        if isinstance(s, tree.Case):
            self.event("arm", s.at)
            return self.statement(s.body, names, result, False)
        if isinstance(s, tree.Return):
            number = None if s.value is None else self.value(s.value, names)[1]
            return Returned(number if result is None or number is None else wrap(result, number), is_tail)
        if isinstance(s, (tree.Break, tree.Continue)):
            return s.at.text
        return self.loop(s, dict(names), result)

    def declare(self, s, names):
        for one in s.objects:
            variable = self.declared(one, names)
            names[one.name()] = variable
            self.fill(variable, one, names)
        return None

    def branch(self, s, names, result, is_tail):
        left = None
        if self.value(s.test, names)[1]:
            self.event("arm", s.at)
            left = self.statement(s.body, names, result, is_tail)
        elif s.other:
            self.event("arm", s.else_at)
            left = self.statement(s.other, names, result, is_tail)
        if left is None or isinstance(left, Returned) and left.is_tail:
            self.event("end", s.at)
        return left

    def switch(self, s, names, result):
        kind, number = self.value(s.test, names)
        wanted = wrap(promoted(kind), number)
        values = [case.value for case in labels(s.body.body)]
        found = [v for v in values if v is not None and wrap(promoted(kind), constant(v)[1]) == wanted]
        aim = found[0] if found else None
        left = None
        if found or None in values:
            left = self.jump(s.body.body, aim, dict(names), result)
        if left is None or left == "break":
            self.event("end", s.at)
            return None
        return left

    def jump(self, body, aim, names, result):
        """The statements of a switch from a label on; what is declared before it is in scope too."""
        for k, s in enumerate(body):
            if isinstance(s, tree.Declare):
                for one in s.objects:
                    names[one.name()] = self.declared(one, names)
            while isinstance(s, tree.Case):
                if s.value is aim:
                    left = self.statement(s, names, result, False)
                    return left if left is not None else self.items(body[k + 1 :], names, result, False)
                s = s.body
        return None

    def loop(self, s, names, result):
        if isinstance(s, tree.For) and s.first:
            self.statement(s.first, names, result, False)
        self.event("open loop", s.at)
        left = None
        for _ in itertools.count():
            self.event("open iteration", s.at)
            left = self.round(s, names, result)
            self.event("close", s.at)
            if left is not None:
                break
        if not isinstance(left, Returned):
            self.event("end", s.at)
            left = None
        self.event("close", s.at)
        return left

    def round(self, s, names, result):
        """An iteration: None if the loop goes on."""
        if not isinstance(s, tree.Do):
            self.event("test", s.at)
            if s.test is not None and not self.value(s.test, names)[1]:
                return "over"
        self.event("body", s.at)
        left = self.statement(s.body, names, result, False)
        if left is not None and left != "continue":
            return left
        if isinstance(s, tree.For) and s.step:
            self.event("step", s.at)
            for action in s.step:
                self.value(action, names)
        if isinstance(s, tree.Do):
            self.event("test", s.at)
            return None if self.value(s.test, names)[1] else "over"
        return None


def labels(body):
    for s in body:
        while isinstance(s, tree.Case):
            yield s
            s = s.body
