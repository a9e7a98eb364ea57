"""Tokens of a C source, its directives and the replacement of its macros. Used by tools/explain.py and the modules beside it.

The tokenizer is tolerant: it goes on behind what the compiler refuses, and marks it as a token of the kind `bad`, `string` or `character`.
Lines and columns count from 1, and a column counts bytes, as the compiler counts them.
"""
import dataclasses
import re

KEYWORDS = frozenset(
    "auto break case char const continue default do double else enum extern float for goto if inline int long register restrict return short "
    "signed sizeof static struct switch typedef union unsigned void volatile while _Alignas _Alignof _Atomic _Bool _Complex _Generic "
    "_Imaginary _Noreturn _Static_assert _Thread_local".split()
)
# The keywords that no source of the language has (rule 20).
UNSUPPORTED = frozenset(
    "auto double enum extern float goto register restrict sizeof struct typedef union volatile _Alignas _Alignof _Atomic _Complex _Generic "
    "_Imaginary _Noreturn _Static_assert _Thread_local".split()
)
TYPE_WORDS = frozenset("void _Bool char short int long signed unsigned".split())
# The types of <stdint.h>: bits, and whether they are signed.
EXACT_TYPES = {f"{sign}int{bits}_t": (bits, not sign) for bits in (8, 16, 32, 64) for sign in ("", "u")}
PUNCTUATORS = (
    "<<= >>= ... ++ -- << >> <= >= == != && || += -= *= /= %= &= |= ^= -> ## ( ) [ ] { } ; , : ? ~ ! + - * / % & | ^ < > = . #".split()
)
ASSIGNMENTS = frozenset("= += -= *= /= %= &= |= ^= <<= >>=".split())
DEPTH = 200

LETTER = re.compile(r"[A-Za-z_][A-Za-z0-9_]*")
NUMBER = re.compile(r"[0-9](?:[eEpP][+-]|[A-Za-z0-9_.])*")
STRING = re.compile(r'"(?:\\.|[^"\\\n])*"?')
CHARACTER = re.compile(r"'(?:\\.|[^'\\\n])*'?")
LINE_COMMENT = re.compile(r"//(?:\\\r?\n|[^\n])*")


@dataclasses.dataclass
class Token:
    """A token with its place. `origin` is the token of a `#define` line that it was copied from, and `macro` that macro's name."""

    kind: str
    text: str
    line: int
    column: int
    start: int = 0
    part: int = 0
    is_first: bool = False
    is_glued: bool = False
    origin: object = None
    macro: str = ""

    def place(self):
        return self.line, self.column, self.part

    def end(self):
        """The place behind the last byte."""
        return self.line, self.column + (len(self.text) if not self.part else 0), self.part

    def is_word(self):
        return self.kind == "word"

    def is_name(self):
        return self.kind == "word" and self.text not in KEYWORDS

    def touches(self, other):
        """Whether the other token follows without white space."""
        return not self.part and not other.part and self.start + len(self.text) == other.start


@dataclasses.dataclass
class Macro:
    name: Token
    body: list
    parameters: bool = False


@dataclasses.dataclass
class Directive:
    """A line that begins with `#`: the word behind it, if there is one, and the other tokens."""

    mark: Token
    tokens: list

    def word(self):
        return self.tokens[0].text if self.tokens else ""


def scan(text):
    """The tokens of a text, one byte a character. A comment that is not closed becomes a token of the kind `comment`."""
    found, at, line, line_start, is_first, is_glued, is_pragma = [], 0, 1, 0, True, False, False
    while at < len(text):
        here = text[at]
        step, kind = 1, ""
        if here in " \t\v\f\r":
            is_glued = False
        elif here == "\n":
            is_first, is_glued, is_pragma = True, False, False
        elif text.startswith(("\\\n", "\\\r\n"), at):
            step, is_glued = text.index("\n", at) + 1 - at, False
        elif text.startswith("//", at):
            step, is_glued = LINE_COMMENT.match(text, at).end() - at, False
        elif text.startswith("/*", at):
            close = text.find("*/", at + 2)
            step, is_glued = (close + 2 if close >= 0 else len(text)) - at, False
            kind = "" if close >= 0 else "comment"
        elif is_pragma:
            pass
        else:
            kind, step = token_at(text, at, is_first)
        if kind:
            token = Token(kind, text[at : at + step], line, at - line_start + 1, at, is_first=is_first, is_glued=is_glued)
            if kind == "word" and token.text == "pragma" and found and found[-1].text == "#" and found[-1].is_first and found[-1].line == line:
                is_pragma = True
                found.pop()
            else:
                found.append(token)
            is_first, is_glued = False, True
        passed = text.count("\n", at, at + step)
        if passed:
            line += passed
            line_start = text.rindex("\n", at, at + step) + 1
        at += step
    return found


def token_at(text, at, is_first):
    """The kind and the length of the token that begins here."""
    for kind, pattern in (("word", LETTER), ("number", NUMBER), ("string", STRING), ("character", CHARACTER)):
        match = pattern.match(text, at)
        if match:
            return kind, match.end() - at
    for sign in PUNCTUATORS:
        if text.startswith(sign, at):
            return ("bad" if sign == "#" and not is_first else "punct"), len(sign)
    length = 1
    while text[at] >= "\x80" and at + length < len(text) and "\x80" <= text[at + length] < "\xc0":
        length += 1
    return "bad", length


class Source:
    """A source: its bytes, tokens, directives, macros, and the tokens behind replacement."""

    def __init__(self, data):
        self.data = data
        self.text = data.decode("latin-1")
        self.raw = scan(self.text)
        self.directives, self.tokens, self.macros, self.all_macros = [], [], {}, []
        self.included = None
        self.read()

    def end(self):
        """The place just behind the last byte."""
        return self.text.count("\n") + 1, len(self.text) - self.text.rfind("\n"), 0

    def line(self, number):
        lines = self.text.split("\n")
        return lines[number - 1].rstrip("\r") if 0 < number <= len(lines) else ""

    def read(self):
        at = 0
        while at < len(self.raw):
            token = self.raw[at]
            at += 1
            if token.text == "#" and token.is_first:
                last = at
                while last < len(self.raw) and not self.raw[last].is_first:
                    last += 1
                self.obey(Directive(token, self.raw[at:last]))
                at = last
            elif token.is_word() and token.text in self.macros:
                self.replace(token)
            elif len(self.tokens) < 100_000:
                self.tokens.append(self.typed(token))

    def typed(self, token):
        if self.included and token.is_word() and token.text in EXACT_TYPES:
            return dataclasses.replace(token, kind="type")
        return token

    def obey(self, directive):
        self.directives.append(directive)
        word, rest = directive.word(), directive.tokens[1:]
        if word == "include" and "".join(t.text for t in rest) == "<stdint.h>":
            self.included = self.included or directive.mark
        elif word == "define" and rest and rest[0].is_word():
            made = Macro(rest[0], rest[1:], bool(rest[1:]) and rest[1].text == "(" and rest[1].is_glued)
            self.all_macros.append(made)
            if not made.parameters:
                self.macros.setdefault(rest[0].text, made)
        elif word == "undef" and rest:
            self.macros.pop(rest[0].text, None)

    def replace(self, token):
        """Puts what a macro's name stands for in its place."""
        row = []
        self.expand(token, frozenset(), row)
        for part, (copied, name) in enumerate(row, 1):
            if len(self.tokens) < 100_000:
                self.tokens.append(
                    self.typed(Token(copied.kind, copied.text, token.line, token.column, token.start, part, origin=copied, macro=name))
                )

    def expand(self, token, hidden, row, name=""):
        macro = self.macros.get(token.text) if token.is_word() and token.text not in hidden else None
        if macro is None or len(hidden) > DEPTH:
            row.append((token, name))
            return
        for inner in macro.body:
            if len(row) > 100_000:
                return
            self.expand(inner, hidden | {token.text}, row, token.text)

    def raw_at(self, place):
        """The token of the source that covers this place."""
        for token in self.raw:
            if token.line == place[0] and token.column <= place[1] < token.column + max(1, len(token.text)):
                return token
        return None

    def index_at(self, place):
        """The index of the token with this place, behind replacement; the number of tokens for the end of the source."""
        for index, token in enumerate(self.tokens):
            if token.place() == place:
                return index
        return len(self.tokens)

    def token_at(self, place):
        index = self.index_at(place)
        return self.tokens[index] if index < len(self.tokens) else None
