"""An estimate of what a program weighs once each call is replaced by a copy of its function. Used by tools/explain.py for rule 36.

docs/LANGUAGE.md says what weighs. The estimate counts what is written; the compiler counts what the program becomes, which differs by little.
"""
import c_tree as tree
from c_values import NotConstant, Undefined, constant, parts, rounded

LEAST_SHARE = 8


class Weigher:
    """Weighs each function without its calls, and counts its calls of each other one."""

    def __init__(self, functions):
        self.own, self.calls = {}, {}
        for f in functions:
            if f.body:
                self.name = f.at.text
                self.calls[self.name] = {}
                self.own[self.name] = self.statements(f.body.body)

    def expression(self, t):
        weight = 1
        if isinstance(t, tree.Call):
            calls = self.calls[self.name]
            calls[t.at.text] = calls.get(t.at.text, 0) + 1
            # The call, the variable of its result, and one assignment for each scalar argument.
            weight = 2 + len(t.arguments)
        elif isinstance(t, tree.Assign):
            weight = 1 if t.at.text == "=" else 3
            return weight + sum(map(self.expression, parts(t.target))) + self.expression(t.value)
        elif isinstance(t, tree.Bump):
            return 4 + sum(map(self.expression, parts(t.target)))
        elif isinstance(t, tree.Comma):
            weight = 0
        return weight + sum(map(self.expression, parts(t)))

    def init(self, one):
        if isinstance(one.init, tree.Single):
            return 1 + self.expression(one.init.value)
        count = 1
        for length in one.lengths:
            try:
                count *= len(one.init.items) if length is None else constant(length)[1]
            except (NotConstant, Undefined):
                pass
        return count * (2 + len(one.lengths)) if one.init else 0

    def object(self, one):
        weight = self.init(one)
        if one.lengths:
            try:
                lengths = [len(one.init.items) if n is None else constant(n)[1] for n in one.lengths]
                weight += 1 + rounded(lengths) // 64
            except (NotConstant, Undefined, AttributeError):
                weight += 1
        return weight

    def statements(self, body):
        return sum(map(self.statement, body))

    def statement(self, s):
        if isinstance(s, tree.Declare):
            return sum(map(self.object, s.objects))
        if isinstance(s, tree.Act):
            return sum(self.expression(a) for a in s.actions)
        if isinstance(s, tree.Block):
            return self.statements(s.body)
        if isinstance(s, tree.If):
            return 1 + self.expression(s.test) + self.statement(s.body) + (self.statement(s.other) if s.other else 0)
        if isinstance(s, tree.Switch):
            return 1 + self.expression(s.test) + self.statements(s.body.body)
        if isinstance(s, tree.Case):
            return 1 + self.statement(s.body)
        if isinstance(s, (tree.While, tree.Do)):
            return 1 + self.expression(s.test) + self.statement(s.body)
        if isinstance(s, tree.For):
            parts_ = (self.statement(s.first) if s.first else 0) + (self.expression(s.test) if s.test else 1)
            return 1 + parts_ + sum(map(self.expression, s.step)) + self.statement(s.body)
        if isinstance(s, tree.Return) and s.value is not None:
            return 2 + self.expression(s.value)
        return 1


def copies(calls, top):
    """How often each function is there once calls are replaced, and the functions in an order in which callers come first."""
    order, seen = [], set()

    def visit(name):
        if name not in seen:
            seen.add(name)
            for callee in calls.get(name, {}):
                visit(callee)
            order.append(name)

    visit(top)
    order.reverse()
    count = {name: 0 for name in order}
    count[top] = 1
    for name in order:
        for callee, times in calls.get(name, {}).items():
            count[callee] += count[name] * times
    return order, count


def weigh(functions, top):
    """The weight of the whole, and for each function its own weight and its copies."""
    weigher = Weigher(functions)
    order, count = copies(weigher.calls, top)
    rows = [(name, weigher.own[name], count[name]) for name in order if name in weigher.own]
    return sum(own * times for _, own, times in rows), rows, weigher


def heaviest(functions, top, items):
    """Lines on the functions that weigh most, and the whole weight."""
    total, rows, weigher = weigh(functions, top.at.text)
    arrays = [one for item in items if isinstance(item, tree.Objects) for one in item.objects]
    total += sum(weigher.object(one) if not one.lengths else 0 for one in arrays)
    rows.sort(key=lambda row: -row[1] * row[2])
    lines = []
    for name, own, times in rows[:5]:
        if own * times * LEAST_SHARE >= total or not lines:
            lines.append(f"`{name}`: {own:,}" + (f" in each of {times:,} copies, {own * times:,} in all" if times > 1 else ""))
    return lines, total
