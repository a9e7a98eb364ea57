"""A message for standard error: what is wrong, where, and what to write. Used by tools/explain.py and the modules beside it."""
import dataclasses
import os
import pathlib
import sys

WIDTH = 100


@dataclasses.dataclass
class Message:
    """The problem in one sentence, its place, notes with places of their own, and what to write instead."""

    title: str
    place: tuple = None
    notes: list = dataclasses.field(default_factory=list)
    helps: list = dataclasses.field(default_factory=list)

    def note(self, text, place=None):
        self.notes.append((text, place))
        return self

    def help(self, *texts):
        self.helps.extend(texts)
        return self


def plural(count, word):
    """The count with the word: `1 element`, `2 elements`, `65,536 elements`."""
    return f"{count:,} {word}" + ("" if count == 1 else "s")


def listed(words, last="and"):
    """`a`, `a and b`, or `a, b and c`."""
    words = list(words)
    return words[0] if len(words) == 1 else ", ".join(words[:-1]) + f" {last} {words[-1]}" if words else ""


def quoted(words):
    return [f"`{word}`" for word in words]


def nearest(word, words):
    """The word that differs least, if it differs in little: at most a third of its letters, or in their case."""
    best = min(((distance(word.lower(), other.lower()), other) for other in set(words) if other != word), default=None)
    return best[1] if best and best[0] <= max(1, min(len(word), len(best[1])) // 3) and (len(word) > 2 or best[0] == 0) else None


def distance(a, b):
    """The least number of letters to insert, remove, replace or exchange with their neighbour."""
    before, row = [], list(range(len(b) + 1))
    for i, x in enumerate(a, 1):
        older, before, row = before, row, [i]
        for j, y in enumerate(b, 1):
            least = min(before[j] + 1, row[j - 1] + 1, before[j - 1] + (x != y))
            if i > 1 and j > 1 and x == b[j - 2] and a[i - 2] == y:
                least = min(least, older[j - 2] + 1)
            row.append(least)
    return row[-1]


class Paper:
    """Lines for standard error, coloured if it is a terminal and NO_COLOR is not set."""

    def __init__(self):
        self.is_coloured = sys.stderr.isatty() and not os.environ.get("NO_COLOR")
        self.lines, self.texts = [], {}

    def paint(self, text, code):
        return f"\033[{code}m{text}\033[0m" if self.is_coloured else text

    def title(self, text, rule=None):
        self.lines.append(self.paint(f"error[rule {rule}]:" if rule else "error:", "1;31") + self.paint(f" {text}", "1"))

    def note(self, text):
        self.entry("note:", "1;36", text)

    def help(self, text):
        self.entry("help:", "1;32", text)

    def entry(self, head, code, text):
        first, *rest = text.split("\n")
        self.lines.append(self.paint(head, code) + " " + first)
        self.lines.extend("      " + line for line in rest)

    def text_of(self, name):
        if name not in self.texts:
            try:
                self.texts[name] = pathlib.Path(name).read_bytes().split(b"\n")
            except OSError:
                self.texts[name] = None
        return self.texts[name]

    def show(self, name, line, column=None):
        """The line of a file, with a caret under the column."""
        text = self.text_of(name)
        if text is None:
            return
        self.lines.append(self.paint(f"  --> {name}:{line}" + (f":{column}" if column else ""), "1"))
        raw = text[line - 1].rstrip(b"\r") if line <= len(text) else b""
        column = column and min(column, len(raw) + 1)
        start = max(0, (column or 1) - 1 - WIDTH // 2) if len(raw) > WIDTH else 0
        before, after = clean(raw[start : (column or 1) - 1]), clean(raw[(column or 1) - 1 : start + WIDTH])
        dots = ".." if start else ""
        self.lines.append(f"{line:>7} | {dots}{before}{after}" + (".." if start + WIDTH < len(raw) else ""))
        if column:
            blank = "".join(c if c == "\t" else " " for c in dots + before)
            self.lines.append("        | " + blank + self.paint("^", "1;32"))

    def message(self, name, message, rule=None, source=None):
        """All of a message about this file. `source` shows where a token of a macro was copied from."""
        self.title(message.title, rule)
        self.at(name, message.place, source)
        for text, place in message.notes:
            self.note(text)
            self.at(name, place, source)
        for text in message.helps:
            self.help(text)

    def at(self, name, place, source):
        if not place:
            return
        if not place[0]:
            self.lines.append(self.paint(f"  --> {name}", "1"))
            return
        self.show(name, *place[:2])
        token = source.token_at(place) if source and place[2] else None
        if token and token.origin:
            self.note(f"`{token.text}` comes from the macro `{token.macro}`")
            self.show(name, token.origin.line, token.origin.column)

    def put(self):
        try:
            sys.stderr.write("\n".join(self.lines) + "\n" if self.lines else "")
        except OSError:
            pass


def clean(part):
    return "".join(c if c == "\t" or c.isprintable() else "?" for c in part.decode(errors="replace"))
