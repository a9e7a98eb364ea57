"""The token at which the grammar stops, and what is around it. Used by faults_syntax.py and faults_types.py."""
import c_tree as tree
from c_words import TYPE_WORDS

OPERAND_ENDS = frozenset([")", "]"])
MOST_TOKENS = 80


class Syntax:
    """The place where the grammar stops. Tokens are named by their distance from it: 0 is the one that cannot be there."""

    def __init__(self, source, stop):
        self.source, self.stop, self.tokens = source, stop, source.tokens
        self.at = self.token(0)
        self.text, self.before = self.word(0), self.word(-1)

    def token(self, ahead):
        index = self.stop.index + ahead
        return self.tokens[index] if 0 <= index < len(self.tokens) else None

    def word(self, ahead):
        found = self.token(ahead)
        return found.text if found else ""

    def is_name(self, ahead):
        found = self.token(ahead)
        return bool(found) and found.is_name()

    def is_kind(self, ahead):
        """Whether the token may be a part of a type."""
        found = self.token(ahead)
        return bool(found) and (found.kind == "type" or found.text in TYPE_WORDS or found.text == "const")

    def ends_operand(self, ahead):
        found = self.token(ahead)
        return bool(found) and (found.kind == "number" or found.is_name() or found.text in OPERAND_ENDS)

    def place_behind(self, ahead=-1):
        """The place just after a token; that of the macro's name where the token comes from a macro."""
        return self.token(ahead).end() if self.token(ahead) else None

    def found(self):
        return f"`{self.text}`" if self.at else "the end of the source"

    def inside(self, *sorts):
        """The innermost open construct of these sorts."""
        return next((one for one in reversed(self.stop.opened) if one.sort in sorts), None)

    def innermost(self):
        return self.stop.opened[-1].sort if self.stop.opened else ""

    def function(self):
        """The function whose body is open."""
        return self.inside("body")

    def is_array(self, name):
        found = self.stop.declared.get(name)
        return isinstance(found, tree.Object) and bool(found.lengths)

    def line_starts(self):
        """Whether the token is on a later line than the one before."""
        return bool(self.at) and bool(self.token(-1)) and self.at.line > self.token(-1).line

    def begin_of_action(self):
        """The first token of the statement, or of the head of a `for`."""
        one = self.inside("action", "for head")
        if one is None or one.sort == "action":
            return one and one.at
        index = next((k for k, token in enumerate(self.tokens) if token is one.at), len(self.tokens))
        return self.tokens[index + 1] if index + 1 < len(self.tokens) else None

    def type_before(self):
        """The words of a type directly before the place."""
        k = -1
        while self.is_kind(k):
            k -= 1
        return [self.token(j) for j in range(k + 1, 0)]

    def tokens_up_to(self, ahead, last):
        """The tokens from this one on, up to the first with this text."""
        found = []
        while self.token(ahead) and self.word(ahead) != last and len(found) < MOST_TOKENS:
            found.append(self.token(ahead))
            ahead += 1
        return found

    def depth_of_lists(self):
        return sum(1 for one in self.stop.opened if one.sort == "initialiser")


def written(tokens):
    """Tokens as they are written: with a space where there is white space between them."""
    text = ""
    for k, token in enumerate(tokens):
        text += (" " if k and not tokens[k - 1].touches(token) else "") + token.text
    return text


def braces(tokens):
    """The braces that are open at the end, and the first pair of which the closing brace has another indentation than the line of the opening one."""
    opened, odd, indents = [], None, {}
    for token in tokens:
        indents.setdefault(token.line, token.column)
        if token.text == "{":
            opened.append(token)
        elif token.text == "}" and opened:
            first = opened.pop()
            begins_line = indents[token.line] == token.column and token.line > first.line
            if begins_line and not odd and indents[token.line] != indents[first.line] and not token.part:
                odd = first, token
    return opened, odd
