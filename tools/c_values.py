"""Types and values of constant expressions, and what a source is estimated to weigh. Used by tools/explain.py and the modules beside it."""
import c_tree as tree
from c_tree import BOOL, INT, Kind


class Undefined(Exception):
    """A constant expression without a value: the reason and the operator."""

    def __init__(self, reason, at):
        super().__init__(reason)
        self.reason, self.at = reason, at


class NotConstant(Exception):
    """The node that is in no constant expression."""

    def __init__(self, found):
        super().__init__("not constant")
        self.found = found


def wrap(kind, value):
    """The conversion of a number to a type."""
    if kind == BOOL:
        return int(value != 0)
    value %= 2**kind.bits
    return value - 2**kind.bits if kind.is_signed and value >= 2 ** (kind.bits - 1) else value


def is_of(kind, value):
    return wrap(kind, value) == value


def promoted(kind):
    return kind if kind.bits >= 32 else INT


def common(left, right):
    left, right = promoted(left), promoted(right)
    bits = max(left.bits, right.bits)
    return Kind(bits, all(kind.is_signed for kind in (left, right) if kind.bits == bits))


def binary_kind(sign, left, right):
    if sign in ("<<", ">>"):
        return promoted(left)
    if sign in ("<", ">", "<=", ">=", "==", "!=", "&&", "||"):
        return INT
    return common(left, right)


def kind_of(t, kind_of_name):
    """The type of an expression; `kind_of_name` has that of a name which is used as an object or called."""
    inner = lambda part: kind_of(part, kind_of_name)
    if isinstance(t, tree.Number):
        return t.kind
    if isinstance(t, (tree.Name, tree.Index, tree.Call)):
        return kind_of_name(t.at.text) or INT
    if isinstance(t, tree.Unary):
        return INT if t.at.text == "!" else promoted(inner(t.arg))
    if isinstance(t, tree.Binary):
        return binary_kind(t.at.text, inner(t.left), inner(t.right))
    if isinstance(t, tree.Choice):
        return common(inner(t.left), inner(t.right))
    if isinstance(t, tree.Cast):
        return t.kind
    if isinstance(t, (tree.Assign, tree.Bump)):
        return kind_of_name(t.target.at.text) or INT
    return inner(t.right)


def constant(t):
    """The kind and the number of a constant expression."""
    check_form(t)
    return kind_of(t, lambda name: None), number(t)


def check_form(t):
    for part in parts(t):
        check_form(part)
    if not isinstance(t, (tree.Number, tree.Unary, tree.Binary, tree.Choice, tree.Cast)):
        raise NotConstant(t)


def parts(t):
    """The expressions directly inside an expression, in the order of the text."""
    if isinstance(t, tree.Index):
        return t.subscripts
    if isinstance(t, tree.Call):
        return t.arguments
    if isinstance(t, (tree.Unary, tree.Cast)):
        return [t.arg]
    if isinstance(t, (tree.Binary, tree.Comma)):
        return [t.left, t.right]
    if isinstance(t, tree.Choice):
        return [t.test, t.left, t.right]
    if isinstance(t, tree.Assign):
        return [t.target, t.value]
    return [t.target] if isinstance(t, tree.Bump) else []


def number(t):
    none = lambda name: None
    if isinstance(t, tree.Number):
        return t.value
    if isinstance(t, tree.Cast):
        return wrap(t.kind, number(t.arg))
    if isinstance(t, tree.Choice):
        return wrap(kind_of(t, none), number(t.left) if number(t.test) else number(t.right))
    if isinstance(t, tree.Unary):
        kind = promoted(kind_of(t.arg, none))
        value = wrap(kind, number(t.arg))
        return int(not value) if t.at.text == "!" else wrap(kind, ~value) if t.at.text == "~" else value if t.at.text == "+" else in_range(kind, -value, t.at)
    left, sign = number(t.left), t.at.text
    if sign in ("&&", "||"):
        return int(bool(number(t.right))) if bool(left) == (sign == "&&") else int(sign == "||")
    return operated(sign, kind_of(t.left, none), left, kind_of(t.right, none), number(t.right), t.at)


def in_range(kind, value, at):
    if kind.is_signed and not is_of(kind, value):
        raise Undefined(f"the result {value} is outside `{kind.text()}`", at)
    return wrap(kind, value)


def operated(sign, left_kind, x, right_kind, y, at):
    kind = promoted(left_kind) if sign in ("<<", ">>") else common(left_kind, right_kind)
    x, y = wrap(kind, x), wrap(promoted(right_kind) if sign in ("<<", ">>") else kind, y)
    if sign in ("<<", ">>"):
        return shifted(sign, kind, x, y, at)
    if sign in ("/", "%"):
        if y == 0:
            raise Undefined("the divisor is 0", at)
        quotient = abs(x) // abs(y) * (1 if (x < 0) == (y < 0) else -1)
        if not is_of(kind, quotient):
            raise Undefined(f"the quotient {quotient} is outside `{kind.text()}`", at)
        return quotient if sign == "/" else x - quotient * y
    if sign in "+-*":
        return in_range(kind, x + y if sign == "+" else x - y if sign == "-" else x * y, at)
    if sign in "&|^":
        return wrap(kind, x & y if sign == "&" else x | y if sign == "|" else x ^ y)
    return int({"<": x < y, ">": x > y, "<=": x <= y, ">=": x >= y, "==": x == y, "!=": x != y}[sign])


def shifted(sign, kind, x, count, at):
    if not 0 <= count < kind.bits:
        raise Undefined(f"the count {count} is not from 0 to {kind.bits - 1}", at)
    if sign == ">>":
        return x >> count
    if kind.is_signed and (x < 0 or not is_of(kind, x << count)):
        raise Undefined(f"the result {x << count} is outside `{kind.text()}`" if x >= 0 else "a negative number is shifted to the left", at)
    return wrap(kind, x << count)


def rounded(lengths):
    """The product of the lengths, each rounded up to a power of two, at least 2."""
    product = 1
    for length in lengths:
        product *= 2 ** max(1, (length - 1).bit_length())
    return product
