"""What is wrong with a run file (docs/REPORT.md says what one is). Used by tools/explain.py for status 7."""
import math
import pathlib
import re

import c_tree as tree
from c_words import Source
from faults_names import declaration_text, shape_of
from message import Message, listed, nearest, plural, quoted

MOST_BYTES = 16_777_216
NUMBER = re.compile(r"-?(0|[1-9][0-9]*)")
LINE = re.compile(r"([A-Za-z_][A-Za-z0-9_]*) += +(\S+(?: +\S+)*)")


def parameters_of(source, top):
    """The parameters of the function with this name, or None where the source cannot be read."""
    try:
        items, _ = tree.parse(Source(pathlib.Path(source).read_bytes()).tokens)
    except OSError:
        return None
    found = [f for f in items or [] if isinstance(f, tree.Function) and f.at.text == top and f.body]
    return found[0].parameters if found else None


def range_of(kind):
    return (-(2 ** (kind.bits - 1)), 2 ** (kind.bits - 1) - 1) if kind.is_signed else (0, 2**kind.bits - 1)


def template(p):
    """A line for the parameter, with zeros."""
    count = math.prod(shape_of(p))
    return f"{p.name()} = " + (" ".join(["0"] * count) if count <= 8 else "0 0 0 ..")


class RunFile:
    """The lines of a run file, and the parameters that they are for."""

    def __init__(self, name, parameters):
        self.data = pathlib.Path(name).read_bytes()
        self.text = self.data.decode("latin-1")
        self.parameters = {p.name(): p for p in parameters}
        self.lines = self.text.removesuffix("\n").split("\n") if self.text else []
        self.given = {}

    def message(self, number):
        if len(self.data) > MOST_BYTES:
            return Message(f"the run file has {len(self.data):,} bytes; the limit is {MOST_BYTES:,}")
        for k, line in enumerate(self.lines[: number - 1], 1):
            match = LINE.fullmatch(line.removesuffix("\r"))
            if match:
                self.given.setdefault(match.group(1), k)
        if number > len(self.lines):
            return self.missing(number)
        message = self.line(number, self.lines[number - 1], number == len(self.lines) and not self.text.endswith("\n"))
        message.place = message.place or (number, 1, 0)
        return message

    def missing(self, number):
        lacking = [p for name, p in self.parameters.items() if name not in self.given]
        words = listed(quoted(p.name() for p in lacking))
        message = Message(f"the run file has no line for the parameter{'s' if len(lacking) > 1 else ''} {words}", (0, 0, 0))
        return message.help("add:\n" + "\n".join(map(template, lacking[:4])) + ("\n.." if len(lacking) > 4 else ""))

    def line(self, number, line, is_open):
        place = lambda column: (number, column + 1, 0)
        if line.endswith("\r"):
            if is_open:
                return Message("the last line ends with a CR and no LF", place(len(line) - 1)).help("end the line with LF")
            line = line[:-1]
        shape = self.shape(line, place)
        if shape:
            return shape
        name, values = LINE.fullmatch(line).groups()
        if name not in self.parameters:
            near = nearest(name, self.parameters)
            message = Message(f"`{name}` is not a parameter of the function", place(0))
            if not self.parameters:
                return message.help("remove the line: the function has no parameters")
            return message.help(f"did you mean `{near}`?" if near else "the parameters are " + listed(quoted(self.parameters)))
        if name in self.given:
            return Message(f"the parameter `{name}` has two lines", place(0)).note("the first one is here", (self.given[name], 1, 0)).help("remove one of the two")
        return self.values(self.parameters[name], line, values.split(), place)

    def shape(self, line, place):
        """What keeps a line from having the form `NAME = V V ..`."""
        if LINE.fullmatch(line):
            return None
        help_text = "write `NAME = V V ..`, with spaces between the words and none at the ends"
        bad = re.search(r"[^\x20-\x7e]", line)
        if bad:
            what = "a tab" if bad.group() == "\t" else f"the byte {ord(bad.group())}"
            return Message(f"{what} cannot be in the line; words are separated by spaces", place(bad.start())).help(help_text)
        if line.startswith(" "):
            comment = "; a comment begins with `#` in the first column" if line.lstrip().startswith("#") else ""
            return Message("the line begins with a space", place(0)).help("remove it" + comment)
        if line.endswith(" ") and LINE.fullmatch(line.rstrip()):
            return Message("the line ends with a space", place(len(line.rstrip()))).help("remove it")
        if "=" not in line:
            return Message("the line has no `=`", place(0)).help(help_text)
        at = line.index("=")
        if not line[at + 1 :].strip():
            return Message("the line has no value", place(len(line))).help(help_text)
        if line[at - 1 : at] != " " or line[at + 1 : at + 2] != " ":
            return Message("expected a space on each side of `=`", place(at)).help(help_text)
        return Message("the line does not have the form `NAME = V V ..`", place(0)).help(help_text)

    def values(self, p, line, values, place):
        wanted = math.prod(shape_of(p))
        low, high = range_of(p.kind)
        at = line.index("=") + 1
        for k, value in enumerate(values):
            at = line.index(value, at)
            if not NUMBER.fullmatch(value):
                why = "has a leading zero" if re.fullmatch(r"-?0\d+", value) else "is not a decimal number"
                return Message(f"`{value}` {why}", place(at)).help("write decimal digits, with `-` before a negative number")
            if k >= wanted:
                return Message(f"`{p.name()}` takes {plural(wanted, 'value')}, but {len(values):,} are given", place(at)).help(self.count_help(p))
            if not low <= int(value) <= high:
                return Message(f"{value} is outside `{p.kind.text()}`, the type of `{p.name()}`", place(at)).help(f"write a value from {low} to {high}")
            at += len(value)
        given = f"{len(values):,} {'is' if len(values) == 1 else 'are'} given"
        return Message(f"`{p.name()}` takes {plural(wanted, 'value')}, but {given}", place(len(line))).help(self.count_help(p))

    def count_help(self, p):
        return f"write all elements of `{declaration_text(p)}`, row by row" if p.lengths else "write one value"


def run_message(source, run, top, number):
    """The message for a line of the run file, or None where the files cannot be read."""
    parameters = parameters_of(source, top)
    if parameters is None:
        return None
    try:
        return RunFile(run, parameters).message(number)
    except OSError:
        return None
