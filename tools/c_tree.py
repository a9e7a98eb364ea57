"""The program that a source's tokens are, or the token at which they stop being one. Used by tools/explain.py and the modules beside it.

The grammar is that of docs/LANGUAGE.md. A node's `at` is the token at which the compiler places it.
"""
import dataclasses
import sys

from c_words import ASSIGNMENTS, EXACT_TYPES, TYPE_WORDS, Token

BINARY = {sign: level for level, signs in enumerate("||,&&,|,^,&,== !=,< > <= >=,<< >>,+ -,* / %".split(",")) for sign in signs.split()}
STATEMENT_BEGINS = frozenset("; { if switch case default while do for break continue return".split())


@dataclasses.dataclass(frozen=True)
class Kind:
    """An integer type. `_Bool` has one bit; a function without a result has the kind None."""

    bits: int
    is_signed: bool

    def text(self):
        if self.bits == 1:
            return "_Bool"
        return ("" if self.is_signed else "unsigned ") + {8: "char", 16: "short", 32: "int", 64: "long"}[self.bits]


INT, BOOL = Kind(32, True), Kind(1, False)


@dataclasses.dataclass
class Open:
    """A construct that is not complete: its sort, the token that begins it, and a name that says more."""

    sort: str
    at: Token
    name: str = ""


class Stop(Exception):
    """No program goes on with the token of this index. `wanted` is what has to come, as text or in words, and `role` where."""

    def __init__(self, index, wanted, role, about, parser):
        super().__init__(wanted)
        self.index, self.wanted, self.role, self.about = index, wanted, role, about
        self.opened, self.operators, self.declared = list(parser.opened), parser.operators, parser.declared


def node(name, *fields):
    return dataclasses.make_dataclass(name, [("at", Token), *fields], eq=False)


Number = node("Number", "value", "kind")
Name = node("Name")
Index = node("Index", "subscripts")
Call = node("Call", "arguments")
Unary = node("Unary", "arg")
Binary = node("Binary", "left", "right")
Choice = node("Choice", "test", "left", "right", "colon")
Cast = node("Cast", "kind", "arg")
Assign = node("Assign", "target", "value")
Bump = node("Bump", "target")
Comma = node("Comma", "left", "right")

Block = node("Block", "body", "end")
Declare = node("Declare", "objects")
Act = node("Act", "actions")
If = node("If", "test", "body", "other", "else_at")
Switch = node("Switch", "test", "body")
Case = node("Case", "value", "body")
While = node("While", "test", "body")
Do = node("Do", "body", "test")
For = node("For", "first", "test", "step", "body")
Break = node("Break")
Continue = node("Continue")
Return = node("Return", "value")

Single = node("Single", "value")
Braced = node("Braced", "items")


@dataclasses.dataclass(eq=False)
class Object:
    """A variable, array or parameter. Without a name its place is the first token of its type."""

    at: Token
    kind: Kind
    is_const: bool
    type_text: str
    lengths: list
    init: object = None
    is_named: bool = True
    first: Token = None

    def name(self):
        return self.at.text if self.is_named else ""


@dataclasses.dataclass(eq=False)
class Function:
    """A function, with or without a body: its first token, the one that closes its parameters, and its last one."""

    at: Token
    kind: Kind
    parameters: list
    body: object
    first: Token
    close: Token
    end: Token = None


@dataclasses.dataclass
class Objects:
    """The objects of a declaration at file scope."""

    objects: list


def number_of(text):
    """The value and the kind of a well-formed integer constant."""
    lower = text.lower()
    body = lower.rstrip("ul")
    suffix = lower[len(body) :]
    base = 16 if body.startswith("0x") else 8 if body.startswith("0") else 10
    try:
        value = int(body, base)
    except ValueError:
        return 0, INT
    for bits in (64,) if "l" in suffix else (32, 64):
        for is_signed in (False,) if "u" in suffix else (True,) if base == 10 else (True, False):
            if value < 2 ** (bits - is_signed):
                return value, Kind(bits, is_signed)
    return value, Kind(64, False)


def kind_of_words(words):
    """The kind of a list of type words, False where they are no type, and None for `void`."""
    rest = sorted(word for word in words if word not in ("signed", "unsigned"))
    signs = len(words) - len(rest)
    is_signed = "unsigned" not in words
    if rest in (["void"], ["_Bool"]) and not signs:
        return None if rest == ["void"] else BOOL
    bits = {"": 32, "int": 32, "char": 8, "short": 16, "int short": 16, "long": 64, "int long": 64, "long long": 64, "int long long": 64}.get(" ".join(rest))
    if bits is None or signs > 1 or not words:
        return False
    return Kind(bits, is_signed)


class Parser:
    """Reads the tokens as the compiler's grammar does. With `last`, it stops at the token of that index."""

    def __init__(self, tokens, last=None):
        self.tokens, self.last, self.i = tokens, last, 0
        self.opened, self.operators, self.declared = [], 0, {}
        sys.setrecursionlimit(max(sys.getrecursionlimit(), 20_000))

    # ---- tokens

    def text(self, ahead=0):
        at = self.i + ahead
        if self.last is not None and at >= self.last:
            return ""
        if at >= len(self.tokens) or self.tokens[at].kind not in ("word", "number", "punct", "type"):
            return ""
        return self.tokens[at].text

    def here(self):
        return self.tokens[self.i] if self.i < len(self.tokens) else None

    def take(self):
        self.i += 1
        return self.tokens[self.i - 1]

    def stop(self, wanted, role, about=None):
        raise Stop(self.i, wanted, role, about, self)

    def need(self, text, role, about=None):
        return self.take() if self.text() == text else self.stop(text, role, about)

    def is_name(self):
        return self.text() and self.here().is_name()

    def is_kind(self):
        """Whether a type that has values may begin here."""
        return self.text() and (self.here().kind == "type" or self.text() in TYPE_WORDS - {"void"} or self.text() == "const")

    def push(self, sort, at, name=""):
        self.opened.append(Open(sort, at, name))

    def pop(self):
        self.opened.pop()

    # ---- expressions

    def operand(self):
        text, at = self.text(), self.here()
        if text and at.kind == "number":
            return Number(self.take(), *number_of(text))
        if self.is_name():
            return self.after_name(self.take())
        if text == "(":
            return self.group()
        if text and text in "~!+-":
            self.push("prefix", self.take())
            arg = self.operand()
            self.pop()
            return Unary(at, arg)
        if text in ("++", "--"):
            self.push("prefix", self.take())
            target = self.target()
            self.pop()
            return Bump(at, target)
        return self.stop("an operand", "operand")

    def after_name(self, name):
        if self.text() == "(":
            return self.call(name)
        target = self.subscripts(name)
        return Bump(self.take(), target) if self.text() in ("++", "--") else target

    def subscripts(self, name):
        found = []
        while self.text() == "[":
            found.append(self.enclosed("subscript", "]", self.expression, name.text))
        return Index(name, found) if found else Name(name)

    def target(self):
        return self.subscripts(self.take()) if self.is_name() else self.stop("a name", "target")

    def enclosed(self, sort, close, part, name=""):
        """What stands between this bracket and its partner, with a count of operators of its own."""
        outer, self.operators = self.operators, 0
        self.push(sort, self.take(), name)
        found = part()
        self.need(close, sort + " end", self.opened[-1].at)
        self.pop()
        self.operators = outer
        return found

    def call(self, name):
        return Call(name, self.enclosed("arguments", ")", self.arguments, name.text))

    def arguments(self):
        if self.text() == ")":
            return []
        found = [self.assign()]
        while self.text() == ",":
            self.take()
            self.operators = 0
            found.append(self.assign())
        return found

    def group(self):
        if not self.is_group_of_type():
            return self.enclosed("parentheses", ")", self.expression)
        at = self.here()
        kind = self.enclosed("cast", ")", self.type_name)
        self.push("prefix", at)
        arg = self.operand()
        self.pop()
        return Cast(at, kind, arg)

    def is_group_of_type(self):
        self.i += 1
        found = self.is_kind()
        self.i -= 1
        return found

    def type_name(self):
        return self.kind()[0]

    def choice(self, first=None):
        """Operators of ten levels, and `?:`."""
        left = self.operators_from(first or self.operand(), 0)
        if self.text() != "?":
            return left
        at = self.take()
        self.push("choice", at)
        middle = self.expression()
        colon = self.need(":", "choice colon", at)
        right = self.choice()
        self.pop()
        return Choice(at, left, middle, right, colon)

    def operators_from(self, left, level):
        while BINARY.get(self.text(), -1) >= level:
            at = self.take()
            self.operators += 1
            right = self.operand()
            while BINARY.get(self.text(), -1) > BINARY[at.text]:
                right = self.operators_from(right, BINARY[at.text] + 1)
            left = Binary(at, left, right)
        return left

    def assign(self, is_action=False):
        first = None
        if self.is_name():
            first = self.after_name(self.take())
            if isinstance(first, (Name, Index)) and self.text() in ASSIGNMENTS:
                at = self.take()
                self.operators = 0 if is_action else self.operators + 1
                return Assign(at, first, self.assign())
        return self.choice(first)

    def expression(self):
        left = self.assign()
        while self.text() == ",":
            at = self.take()
            self.operators += 1
            left = Comma(at, left, self.assign())
        return left

    # ---- types and objects

    def kind(self, is_void_taken=False):
        """The kind, whether it is const, and its text."""
        first, words, is_const, named = self.i, [], False, None
        while True:
            text = self.text()
            if text == "const":
                is_const = True
            elif text and self.here().kind == "type" and not words and not named:
                named = text
            elif text in TYPE_WORDS and not named and (text != "void" or (is_void_taken and not words)):
                if kind_of_words([*words, text]) is False or "void" in words:
                    break
                words.append(text)
            else:
                break
            self.take()
        if not words and not named:
            self.stop("a type", "type")
        kind = Kind(*EXACT_TYPES[named]) if named else kind_of_words(words)
        return kind, is_const, " ".join(t.text for t in self.tokens[first : self.i])

    def lengths(self, name):
        found = []
        while self.text() == "[":
            found.append(self.enclosed("length", "]", lambda: None if self.text() == "]" else self.choice(), name))
        return found

    def object(self, kind, role):
        if not self.is_name():
            self.stop("a name", role)
        return self.object_behind(self.take(), kind)

    def object_behind(self, name, kind):
        found = self.declared[name.text] = Object(name, *kind, [])
        found.lengths = self.lengths(name.text)
        if self.text() == "=":
            at = self.take()
            self.operators = 0
            found.init = self.init(at)
        return found

    def init(self, about):
        if self.text() != "{":
            if not (self.is_name() or self.text() and (self.here().kind == "number" or self.text() in ("(", "~", "!", "+", "-", "++", "--"))):
                self.stop("a value", "initialiser", about)
            return Single(self.here(), self.assign())
        at = self.take()
        self.push("initialiser", at)
        items = [self.init(at)]
        while self.text() == ",":
            self.take()
            self.operators = 0
            if self.text() == "}":
                break
            items.append(self.init(at))
        self.need("}", "initialiser end", at)
        self.pop()
        return Braced(at, items)

    def declaration(self):
        first = self.here()
        kind = self.kind()
        return Declare(first, self.objects(kind, first, []))

    def objects(self, kind, first, found):
        """The objects of a declaration up to its semicolon; the first of them may be there already."""
        if not found:
            found.append(self.object(kind, "object"))
        while self.text() == ",":
            self.take()
            found.append(self.object(kind, "object"))
        self.need(";", "object end", first)
        for one in found:
            one.first = first
        return found

    # ---- statements

    def statement(self):
        self.operators = 0
        text, at = self.text(), self.here()
        reader = {
            "{": self.block, "if": self.if_, "switch": self.switch, "case": self.case, "default": self.case, "while": self.while_, "do": self.do,
            "for": self.for_, "break": self.jump, "continue": self.jump, "return": self.return_,
        }.get(text)
        if text == ";":
            return Act(self.take(), [])
        if reader:
            self.push(text, at)
            found = reader()
            self.pop()
            return found
        if not self.begins_action():
            self.stop("a statement", "statement")
        self.push("action", at)
        found = Act(at, self.actions())
        self.need(";", "action end", at)
        self.pop()
        return found

    def begins_action(self):
        return self.is_name() or self.text() and (self.here().kind == "number" or self.text() in ("(", "~", "!", "+", "-", "++", "--"))

    def actions(self):
        found = [self.action()]
        while self.text() == ",":
            self.take()
            self.operators = 0
            found.append(self.action())
        return found

    def action(self):
        if self.text() not in ("++", "--"):
            return self.assign(True)
        at = self.take()
        self.push("prefix", at)
        bump = Bump(at, self.target())
        self.pop()
        return self.choice(bump)

    def body(self, close):
        """Statements and declarations up to the brace."""
        found = []
        while self.text() != "}":
            if self.i >= len(self.tokens):
                self.stop("}", "body end", close)
            found.append(self.declaration() if self.is_kind() else self.statement())
        return found

    def block(self, sort="block", name=""):
        at = self.take()
        self.push(sort, at, name)
        body = self.body(at)
        self.pop()
        return Block(at, body, self.take())

    def test(self, at):
        if self.text() != "(":
            self.stop("(", "open test", at)
        return self.enclosed("test", ")", self.expression, at.text)

    def inner(self, about):
        """The statement that a loop, a branch or a label holds."""
        if self.is_kind() or not (self.begins_action() or self.text() in STATEMENT_BEGINS):
            self.stop("a statement", "inner statement", about)
        return self.statement()

    def if_(self):
        at = self.take()
        test = self.test(at)
        body = self.inner(at)
        if self.text() != "else":
            return If(at, test, body, None, None)
        other = self.take()
        self.opened[-1] = Open("else", other)
        return If(at, test, body, self.inner(other), other)

    def switch(self):
        at = self.take()
        test = self.test(at)
        if self.text() != "{":
            self.stop("{", "switch block", at)
        return Switch(at, test, self.block("switch block"))

    def case(self):
        at = self.take()
        value = self.choice() if at.text == "case" else None
        self.need(":", "label colon", at)
        return Case(at, value, self.inner(at))

    def while_(self):
        at = self.take()
        test = self.test(at)
        return While(at, test, self.inner(at))

    def do(self):
        at = self.take()
        body = self.inner(at)
        again = self.need("while", "do end", at)
        test = self.test(again)
        self.need(";", "action end", at)
        return Do(at, body, test)

    def for_(self):
        at = self.take()
        if self.text() != "(":
            self.stop("(", "open test", at)
        first, test, step = self.enclosed("for head", ")", self.for_head)
        return For(at, first, test, step, self.inner(at))

    def for_head(self):
        at = self.here()
        first = test = None
        if self.text() == ";":
            self.take()
        elif self.is_kind():
            first = self.declaration()
        else:
            if not self.begins_action():
                self.stop("a statement", "for first", at)
            first = Act(at, self.actions())
            self.need(";", "for first end", at)
        self.operators = 0
        if self.text() != ";":
            test = self.expression()
        self.need(";", "for test end", at)
        self.operators = 0
        return first, test, [] if self.text() == ")" else self.actions()

    def jump(self):
        at = self.take()
        self.need(";", "jump end", at)
        return Break(at) if at.text == "break" else Continue(at)

    def return_(self):
        at = self.take()
        value = None if self.text() == ";" else self.expression()
        self.need(";", "return end", at)
        return Return(at, value)

    # ---- functions and programs

    def program(self):
        items = []
        while self.i < len(self.tokens) and (self.last is None or self.i < self.last):
            items.append(self.item())
        return items

    def item(self):
        first = self.here()
        while self.text() in ("static", "inline"):
            self.take()
        if not (self.is_kind() or self.text() == "void"):
            self.stop("a type", "item", first)
        kind = self.kind(True)
        if not self.is_name():
            self.stop("a name", "declarator", first)
        name = self.take()
        if self.text() == "(" or kind[0] is None:
            return self.function(first, kind, name)
        return self.file_objects(first, kind, name)

    def file_objects(self, first, kind, name):
        if self.text() not in ("[", "=", ",", ";"):
            self.stop("; or (", "after declarator", first)
        return Objects(self.objects(kind, first, [self.object_behind(name, kind)]))

    def function(self, first, kind, name):
        if self.text() != "(":
            self.stop("(", "open parameters", name)
        parameters = self.enclosed("parameters", ")", self.parameters, name.text)
        found = self.declared[name.text] = Function(name, kind[0], parameters, None, first, self.tokens[self.i - 1])
        if self.text() == ";":
            found.end = self.take()
            return found
        if self.text() != "{":
            self.stop("{", "definition", name)
        found.body = self.block("body", name.text)
        found.end = found.body.end
        return found

    def parameters(self):
        if self.text() == "void":
            self.take()
            return []
        if not self.is_kind():
            return []
        found = [self.parameter()]
        while self.text() == ",":
            self.take()
            if not self.is_kind():
                self.stop("a type", "parameter")
            found.append(self.parameter())
        return found

    def parameter(self):
        first = self.here()
        kind = self.kind()
        is_named = bool(self.is_name())
        found = Object(self.take() if is_named else first, *kind, [], None, is_named, first)
        if is_named:
            self.declared[found.at.text] = found
        found.lengths = self.lengths(found.name())
        return found


def parse(tokens, last=None):
    """The items of the program and None, or None and where the tokens stop."""
    parser = Parser(tokens, last)
    try:
        return parser.program(), None
    except Stop as stop:
        return None, stop
