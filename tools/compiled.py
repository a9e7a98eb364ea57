"""A source that is compiled and run: its pins, the data of its run file, and what the run in C gives. Used by testbench.py, waves.py and schedule_picture.py."""
import dataclasses
import math
import os
import pathlib
import subprocess
import sys

import c_tree as tree
from c_words import Source
from faults_names import shape_of
from run_file import LINE

ROOT = pathlib.Path(__file__).resolve().parent.parent
HLS = os.environ.get("HLS", str(ROOT / "hls"))
RUN_OPTIONS = ("--points", "--cycles")


@dataclasses.dataclass
class Pin:
    """A parameter: a scalar with its pin, or an array with its number at `h_sel`."""

    name: str
    kind: tree.Kind
    lengths: list
    number: int
    values: list

    def is_array(self):
        return bool(self.lengths)

    def bits_of(self):
        """The address bits of each dimension."""
        return [max(1, (length - 1).bit_length()) for length in self.lengths]

    def address(self, k):
        """The address of the element that is number k, row by row."""
        found, shift = 0, 0
        for length, bits in reversed(list(zip(self.lengths, self.bits_of()))):
            found |= k % length << shift
            k, shift = k // length, shift + bits
        return found

    def element(self, k):
        """The element that is number k, as it is written in C."""
        found = []
        for length in reversed(self.lengths):
            found.insert(0, f"[{k % length}]")
            k //= length
        return self.name + "".join(found)


class Arguments:
    """The words of a tool: files, `--top`, the folder of `-o`, options of the tool itself, and options of synth and cosim."""

    def __init__(self, words, count, usage, own=()):
        self.files, self.options, self.folder, self.top, self.own = [], [], ".", "", {}
        words = list(map(str, words))
        while words:
            word = words.pop(0)
            name, equals, value = word.partition("=")
            if not word.startswith("-"):
                self.files.append(word)
            elif word == "--plain":
                self.options.append(word)
            elif not equals and not words:
                sys.exit(usage)
            else:
                self.take(name, value if equals else words.pop(0), own, usage)
        if len(self.files) != count or not self.top:
            sys.exit(usage)

    def take(self, name, value, own, usage):
        if name == "--top":
            self.top = value
        elif name == "-o":
            self.folder = value
        elif name in own:
            self.own[name] = value
        elif name in ("--mul", "--div", "--ports", "--period", *RUN_OPTIONS):
            self.options += [name, value]
        else:
            sys.exit(usage)

    def of(self, is_run):
        """The options of cosim, or those of synth."""
        found, words = [], list(self.options)
        while words:
            word = words.pop(0)
            part = [word] if word == "--plain" else [word, words.pop(0)]
            found += part if (word in RUN_OPTIONS) == is_run else []
        return found


class Compiled:
    """The module and the report of a source, and the run that the run file gives."""

    def __init__(self, source, run, arguments, folder):
        self.source, self.run, self.top = pathlib.Path(source), pathlib.Path(run), arguments.top
        self.module, self.report = folder / f"hls_{self.top}.v", folder / f"hls_{self.top}.rep"
        self.call("synth", source, self.module, self.report, "--top", self.top, *arguments.of(False))
        self.lines = self.call("cosim", source, self.module, self.report, run, "--top", self.top, *arguments.of(True))
        self.text = Source(self.source.read_bytes())
        self.items = tree.parse(self.text.tokens)[0]
        self.function = next(f for f in self.items if isinstance(f, tree.Function) and f.at.text == self.top and f.body)
        self.pins = list(self.read_pins())
        self.read_lines()

    def call(self, *words):
        done = subprocess.run([HLS, *map(str, words)], stdin=subprocess.DEVNULL, stdout=subprocess.PIPE, text=True)
        if done.returncode != 0:
            print(done.stdout, end="")
            sys.exit(done.returncode)
        return done.stdout.splitlines()

    def read_pins(self):
        data = {}
        for line in self.run.read_text().splitlines():
            match = LINE.fullmatch(line)
            if match:
                data[match.group(1)] = [int(word) for word in match.group(2).split()]
        numbers = [0, 0]
        for p in self.function.parameters:
            is_array = bool(p.lengths)
            yield Pin(p.name(), p.kind, shape_of(p), numbers[is_array], data[p.name()])
            numbers[is_array] += 1

    def read_lines(self):
        """What `cosim` says of the run: its result, the elements afterwards, and the cycles."""
        self.result, self.elements, self.cycles = None, {}, 0
        for line in self.lines:
            words = line.split()
            if words[:2] == ["c", "ret"] and words[2] != "-":
                self.result = int(words[2])
            elif words[0] == "array":
                self.elements[words[1]] = [int(word) for word in words[2:]]
            elif words[0] == "formula":
                self.cycles = int(words[1])

    def scalars(self):
        return [pin for pin in self.pins if not pin.is_array()]

    def arrays(self):
        return [pin for pin in self.pins if pin.is_array()]

    def kind(self):
        """The type of the result, or None."""
        return self.function.kind


def count(pin):
    return math.prod(pin.lengths)


def literal(value, kind):
    """A number of Verilog with the bits of its type."""
    if value == -(2 ** (kind.bits - 1)):
        return f"{kind.bits}'h{2 ** (kind.bits - 1):x}"
    return f"{'-' if value < 0 else ''}{kind.bits}'{'s' if kind.is_signed else ''}d{abs(value)}"
