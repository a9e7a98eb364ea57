"""Finds what is wrong with the names, types and calls of a program, as the compiler does. Used by tools/explain.py.

`Checker` finds every fault that the compiler looks for, and makes a message of the one with the rule and the place that the compiler gave.
"""
import dataclasses

import c_tree as tree
from c_tree import INT, Kind
from c_values import NotConstant, Undefined, common, constant, kind_of, parts, promoted, rounded, wrap
from faults_names import LIMIT, Declared, NameMessages, declaration_text, lengths_of, same_shape, shape_of, usable


@dataclasses.dataclass
class Access:
    """An access of a name, and the operator where it is a change."""

    at: object
    operator: object = None

    def name(self):
        return self.at.text


@dataclasses.dataclass
class Operation:
    """An operator that may be undefined: the type that it computes in, and whether it has two operands."""

    kind: Kind
    is_binary: bool


@dataclasses.dataclass
class Around:
    """What a statement stands in: a function, a loop, a switch, and what holds it there."""

    function: object
    loop: object = None
    switch: object = None
    breaks: bool = False
    is_direct: bool = False
    holder: object = None

    def within(self, holder, **more):
        return dataclasses.replace(self, is_direct=False, holder=holder, **more)


class Checker(NameMessages):
    """Finds the faults of a program: `found` has the place and the rule of each. The message of the wanted one is made where it is found."""

    def __init__(self, source, items, top, wanted=None):
        self.source, self.items, self.top, self.wanted, self.message = source, items, top, wanted, None
        self.found, self.names, self.starts, self.ended = [], [], [0], []
        self.operations, self.arrays, self.variables, self.caller = {}, {}, {}, None
        self.functions = [item for item in items if isinstance(item, tree.Function)]
        self.bodies = {}
        for one in self.functions:
            if one.body:
                self.bodies.setdefault(one.at.text, one)
        self.calls = {}
        self.text_of = declaration_text
        self.check()

    def fault(self, rule, at, make, *words):
        place = at if isinstance(at, tuple) else at.place()
        self.found.append((place, rule))
        if self.message is None and self.wanted == (place, rule):
            self.message = make(*words)

    def least(self):
        return min(self.found, default=None)

    # ---- names

    def sense(self, name):
        return next((one for one in reversed(self.names) if one.name == name), None)

    def declare(self, name, node, sort):
        self.names.append(Declared(name, node, sort))

    def enter(self):
        self.starts.append(len(self.names))

    def leave(self):
        start = self.starts.pop()
        self.ended += self.names[start:]
        del self.names[start:]

    def in_scope(self, name):
        return next((one for one in reversed(self.names[self.starts[-1] :]) if one.name == name), None)

    def kind_of_name(self, name):
        found = self.sense(name)
        return found.node.kind if found else None

    # ---- programs

    def check(self):
        for item in self.items:
            if isinstance(item, tree.Objects):
                for one in item.objects:
                    self.object(one, "file")
            else:
                self.function(item)
        self.limits()
        self.recursion()
        if self.top not in self.bodies:
            self.fault(19, self.source.end(), self.no_top)

    def function(self, f):
        name, known = f.at.text, self.sense(f.at.text)
        before = [one for one in self.functions[: self.functions.index(f)] if one.at.text == name and one.body]
        if known and not (isinstance(known.node, tree.Function) and self.same_declaration(known.node, f)):
            self.fault(8, f.at, self.other_declaration, known, f)
        elif f.body and before:
            self.fault(8, f.at, self.two_bodies, before[0], f)
        if not known:
            self.declare(name, f, "function")
        if len(f.parameters) > 32:
            self.fault(34, f.parameters[32].at, self.too_many_parameters, f)
        arrays = [p for p in f.parameters if p.lengths] + (list(arrays_in(f.body.body)) if f.body else [])
        if len(arrays) > 32:
            self.fault(35, arrays[32].at, self.too_many_arrays, arrays, f"`{name}`")
        self.calls.setdefault(name, [])
        self.caller = f
        self.enter()
        for p in f.parameters:
            self.parameter(p, f)
        if f.body:
            self.statements(f.body.body, Around(f))
        self.leave()
        self.caller = None

    def parameter(self, p, f):
        if p.is_named and self.in_scope(p.name()):
            self.fault(8, p.at, self.declared_twice, self.in_scope(p.name()), p)
        if not p.is_named and f.body:
            self.fault(9, p.at, self.no_name, p, f)
        self.form(p, "parameter")
        self.lengths(p)
        if p.is_named:
            self.declare(p.name(), p, "parameter")

    def object(self, one, sort):
        if self.in_scope(one.name()):
            self.fault(8, one.at, self.declared_twice, self.in_scope(one.name()), one)
        self.form(one, sort)
        self.lengths(one)
        self.declare(one.name(), one, sort)
        if one.init:
            self.init(one.init)

    def lengths(self, one):
        for length in one.lengths:
            if length is not None:
                self.expression(length)

    def init(self, init):
        if isinstance(init, tree.Single):
            self.expression(init.value)
        else:
            for item in init.items:
                self.init(item)

    # ---- statements

    def statements(self, body, around):
        for one in body:
            self.statement(one, around)

    def scope(self, body, around):
        self.enter()
        self.statements(body, around)
        self.leave()

    def statement(self, s, around):
        if isinstance(s, tree.Block):
            self.scope(s.body, around.within(s.at))
        elif isinstance(s, tree.Declare):
            for one in s.objects:
                self.object(one, "local")
        elif isinstance(s, tree.Act):
            for action in s.actions:
                self.expression(action, False)
        elif isinstance(s, tree.Return):
            self.return_(s, around)
        elif isinstance(s, tree.Case):
            self.case(s, around)
        elif isinstance(s, (tree.Break, tree.Continue)):
            if not (around.breaks if isinstance(s, tree.Break) else around.loop):
                self.fault(15, s.at, self.misplaced_jump, s, around)
        elif isinstance(s, tree.Switch):
            self.expression(s.test)
            self.labels(s)
            self.scope(s.body.body, dataclasses.replace(around, switch=s, breaks=True, is_direct=True, holder=None))
        elif isinstance(s, tree.If):
            self.expression(s.test)
            self.scope([s.body], around.within(s.at))
            if s.other:
                self.scope([s.other], around.within(s.at))
        else:
            self.loop(s, around.within(s.at, loop=s, breaks=True))

    def loop(self, s, inside):
        self.enter()
        if isinstance(s, tree.For):
            if s.first:
                self.statement(s.first, inside)
            if s.test:
                self.expression(s.test)
            for action in s.step:
                self.expression(action, False)
        if isinstance(s, tree.While):
            self.expression(s.test)
        self.scope([s.body], inside)
        if isinstance(s, tree.Do):
            self.expression(s.test)
        self.leave()

    def return_(self, s, around):
        if (around.function.kind is None) == (s.value is not None):
            self.fault(14, s.at, self.wrong_return, s, around.function)
        if s.value is not None:
            self.expression(s.value)

    def case(self, s, around):
        if not around.is_direct:
            self.fault(15, s.at, self.misplaced_label, s, around)
        if s.value is not None:
            try:
                constant(s.value)
            except (NotConstant, Undefined) as error:
                self.fault(17, s.at, self.no_constant, "the `case` label", error, s.at)
            self.expression(s.value)
        self.statement(s.body, around)

    def labels(self, s):
        kind, seen = promoted(kind_of(s.test, self.kind_of_name)), {}
        for one in s.body.body:
            while isinstance(one, tree.Case):
                try:
                    value = None if one.value is None else wrap(kind, constant(one.value)[1])
                except (NotConstant, Undefined):
                    value = one
                if value in seen:
                    self.fault(16, one.at, self.label_twice, value, seen[value], one)
                elif value is not one:
                    seen[value] = one
                one = one.body

    # ---- expressions

    def expression(self, t, is_used=True):
        self.note_operation(t)
        if isinstance(t, tree.Name):
            self.use(t, 0)
        elif isinstance(t, tree.Index):
            self.use(t, len(t.subscripts))
            self.among(t.subscripts)
            self.inside([a for a in self.accesses(t) if a.at is t.at], self.all_accesses(t.subscripts))
            for part in t.subscripts:
                self.expression(part)
        elif isinstance(t, tree.Call):
            self.call(t, is_used)
        elif isinstance(t, tree.Assign):
            self.target(t, self.accesses(t.value))
            self.expression(t.value)
        elif isinstance(t, tree.Bump):
            self.target(t, [])
        elif isinstance(t, tree.Comma):
            self.expression(t.left, False)
            self.expression(t.right)
        else:
            if isinstance(t, tree.Binary) and t.at.text not in ("&&", "||"):
                self.between(self.accesses(t.left), self.accesses(t.right))
            for part in parts(t):
                self.expression(part)

    def note_operation(self, t):
        """Keeps the type in which an operator computes, for what is undefined in a run."""
        kinds = [kind_of(part, self.kind_of_name) for part in parts(t)]
        if isinstance(t, tree.Bump):
            kinds.append(INT)
        if kinds and not isinstance(t, (tree.Name, tree.Index, tree.Call)):
            is_shift = t.at.text[:2] in ("<<", ">>")
            kind = promoted(kinds[0]) if is_shift or len(kinds) == 1 else common(kinds[0], kinds[1])
            self.operations[t.at.place()] = Operation(kind, isinstance(t, tree.Binary))

    def use(self, t, subscripts, how="value"):
        found = self.sense(t.at.text)
        if found and found.is_object():
            (self.arrays if found.is_array() else self.variables)[t.at.place()] = found.node
        if not found:
            self.fault(7, t.at, self.undeclared, t, subscripts)
        elif not found.is_object():
            self.fault(9, t.at, self.function_as_object, found, how)
        elif found.is_array() != (subscripts > 0):
            self.fault(9, t.at, self.whole_array if found.is_array() else self.scalar_with_subscripts, found, t, how)
        elif len(found.node.lengths) != subscripts:
            self.fault(10, t.at, self.wrong_subscripts, found, t)
        return found

    def target(self, t, valued):
        """The object that an assignment, `++` or `--` changes."""
        target = t.target
        subscripts = target.subscripts if isinstance(target, tree.Index) else []
        found = self.use(target, len(subscripts), "target")
        if found and found.is_object() and found.node.is_const:
            self.fault(12, target.at, self.const_changed, found, t)
        own = [a for a in self.target_accesses(t) if a.operator is t.at and a.at is target.at]
        inner = self.all_accesses(subscripts)
        self.among(subscripts)
        self.between(inner, valued)
        self.inside(own, inner)
        self.inside(own, valued)
        for part in subscripts:
            self.expression(part)

    def call(self, t, is_used):
        found = self.sense(t.at.text)
        is_function = bool(found) and not found.is_object()
        parameters = found.node.parameters if is_function else []
        if not (found and found.is_object()):
            self.calls.setdefault(self.caller.at.text if self.caller else "", []).append((t.at.text, t.at))
        if not found:
            self.fault(7, t.at, self.undeclared_call, t)
        elif not is_function:
            self.fault(9, t.at, self.object_called, found, t)
        else:
            if t.at.text not in self.bodies:
                self.fault(7, t.at, self.no_body, found)
            if is_used and found.node.kind is None:
                self.fault(9, t.at, self.no_value, found)
            if len(parameters) != len(t.arguments):
                self.fault(10, t.at, self.wrong_arguments, found, t)
            for k, (p, argument) in enumerate(zip(parameters, t.arguments)):
                if p.lengths and self.misfit(p, argument):
                    self.fault(11, t.at, self.wrong_array, found, p, argument, k)
                    break
        self.among(t.arguments)
        for k, argument in enumerate(t.arguments):
            if k < len(parameters) and parameters[k].lengths and isinstance(argument, tree.Name):
                given = self.sense(argument.at.text)
                if not given:
                    self.fault(7, argument.at, self.undeclared, argument, 0)
                elif not given.is_object():
                    self.fault(9, argument.at, self.function_as_object, given, "argument")
            else:
                self.expression(argument)

    def misfit(self, p, argument):
        """Why an argument does not fit an array parameter, in a word."""
        if not isinstance(argument, tree.Name):
            return "form"
        found = self.sense(argument.at.text)
        if not found or not found.is_object():
            return "unknown"
        if not found.is_array():
            return "scalar"
        if found.node.kind != p.kind:
            return "kind"
        if shape_of(found.node) != shape_of(p) or None in shape_of(p):
            return "lengths"
        return "const" if found.node.is_const and not p.is_const else None

    # ---- accesses (rule 24)

    def accesses(self, t):
        if isinstance(t, (tree.Assign, tree.Bump)):
            return self.target_accesses(t) + (self.accesses(t.value) if isinstance(t, tree.Assign) else [])
        own = [Access(t.at)] if isinstance(t, (tree.Name, tree.Index)) and self.is_access(t) else []
        return own + self.all_accesses(parts(t))

    def target_accesses(self, t):
        own = [Access(t.target.at, t.at)] if self.is_access(t.target) else []
        return own + self.all_accesses(parts(t.target))

    def all_accesses(self, these):
        return [access for one in these for access in self.accesses(one)]

    def is_access(self, t):
        found = self.sense(t.at.text)
        return bool(found) and found.is_object() and found.is_array() == bool(parts(t))

    def clash(self, these, others):
        for one in these:
            other = next((a for a in others if a.name() == one.name()), None)
            if one.operator and other:
                self.fault(24, one.operator, self.no_order, one, other)

    def between(self, these, others):
        self.clash(these, others)
        self.clash(others, these)

    def inside(self, own, inner):
        self.clash(own, [access for access in inner if access.operator])
        self.clash(inner, own)

    def among(self, these):
        before = []
        for one in these:
            accesses = self.accesses(one)
            self.between(before, accesses)
            before = before + accesses

    # ---- forms of declarations

    def form(self, one, sort):
        lengths = lengths_of(one)
        if any(length is None or isinstance(length, int) and usable(length) is None for length in lengths):
            self.fault(13, one.at, self.bad_length, one, lengths, sort)
        elif None not in [usable(length) for length in lengths] and lengths and rounded(lengths) > LIMIT:
            self.fault(13, one.at, self.too_large, one, lengths)
        error = next((length for length in lengths if isinstance(length, Exception)), None)
        if error:
            self.fault(17, one.at, self.no_constant, f"the length of `{one.name()}`" if one.name() else "the length", error, one.at)
        elif sort == "file" and one.init and self.not_fixed(one.init):
            self.fault(17, one.at, self.no_constant, f"the initialiser of `{one.name()}`", self.not_fixed(one.init), one.at)
        wrong = misshapen(shape_of(one), one.init) if one.init else None
        if wrong:
            self.fault(22, one.at, self.wrong_initialiser, one, *wrong)

    def not_fixed(self, init):
        if isinstance(init, tree.Braced):
            return next((error for error in map(self.not_fixed, init.items) if error), None)
        try:
            constant(init.value)
        except (NotConstant, Undefined) as error:
            return error
        return None

    def same_declaration(self, f, g):
        return f.kind == g.kind and len(f.parameters) == len(g.parameters) and all(map(same_shape, f.parameters, g.parameters))

    # ---- limits

    def limits(self):
        names = []
        for f in self.functions:
            if f.at.text not in names:
                names.append(f.at.text)
                if len(names) == 65:
                    self.fault(33, f.at, self.too_many_functions, f)
        objects = [one for item in self.items if isinstance(item, tree.Objects) for one in item.objects]
        arrays = [one for one in objects if one.lengths]
        if len(arrays) > 32:
            self.fault(35, arrays[32].at, self.too_many_arrays, arrays, "the file scope")
        total, kept = 0, []
        for one in arrays:
            if not one.is_const and None not in shape_of(one):
                total += rounded(shape_of(one))
                kept.append(one)
                if total > LIMIT:
                    self.fault(21, one.at, self.too_much_at_file_scope, kept, total)
                    break

    def recursion(self):
        order = [f.at.text for f in self.functions if f.body]
        for name, calls in self.calls.items():
            for callee, at in calls:
                if callee in order and name in order and order.index(callee) <= order.index(name):
                    path = self.way(callee, name)
                    if path is not None:
                        self.fault(18, at, self.round_trip, name, callee, at, path)

    def way(self, start, end):
        """The calls by which a function comes to another, the fewest, or None."""
        ways, seen = [(start, [])], {start}
        while ways:
            name, path = ways.pop(0)
            if name == end:
                return path
            for callee, at in self.calls.get(name, []):
                if callee not in seen:
                    seen.add(callee)
                    ways.append((callee, path + [(name, callee, at)]))
        return None


def arrays_in(body):
    """The arrays that statements declare, in the order of the text."""
    for s in body:
        if isinstance(s, tree.Declare):
            yield from (one for one in s.objects if one.lengths)
        elif isinstance(s, tree.Block):
            yield from arrays_in(s.body)
        elif isinstance(s, tree.If):
            yield from arrays_in([s.body] + ([s.other] if s.other else []))
        elif isinstance(s, tree.Switch):
            yield from arrays_in(s.body.body)
        elif isinstance(s, tree.For):
            yield from arrays_in(([s.first] if s.first else []) + [s.body])
        elif isinstance(s, (tree.While, tree.Do, tree.Case)):
            yield from arrays_in([s.body])


@dataclasses.dataclass
class Given:
    """The items of an initialiser in braces, and whether they are values and no rows."""

    count: int
    is_last: bool


def misshapen(lengths, init):
    """The case, the token, the room and the items of what is wrong with an initialiser, or None."""
    if isinstance(init, tree.Single):
        return ("no braces", init.at, 0, None) if lengths else None
    if not lengths:
        return "braces", init.at, 0, None
    lone = next((item for item in init.items if isinstance(item, tree.Single)), None)
    if lone and len(lengths) > 1:
        return "no braces", lone.at, 0, None
    if lengths[0] is not None and len(init.items) > lengths[0]:
        return "too many", init.items[lengths[0]].at, lengths[0], Given(len(init.items), len(lengths) == 1)
    return next((wrong for wrong in (misshapen(lengths[1:], item) for item in init.items) if wrong), None)
