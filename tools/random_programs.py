#!/usr/bin/env python3
"""Draws C programs of the language, compiles them, and compares module, program and gcc.

    tools/random_programs.py COUNT [SEED]

Each program is a function with scalars, arrays, loops, branches, switches, calls and contents at file scope, and each is
compiled with options drawn with it. `cosim` must say `agree`; result and elements must be those of the same file compiled by gcc;
and Icarus Verilog, where it is there, must show them after the same cycles. A program that C leaves undefined, or that does not
end, counts as such. HLS names the program, else it is ./hls.
"""
import dataclasses
import math
import os
import pathlib
import random
import shutil
import subprocess
import sys
import tempfile
import types

import examples

ROOT = pathlib.Path(__file__).resolve().parent.parent
HLS = os.environ.get("HLS", str(ROOT / "hls"))
os.environ.setdefault("HLS_PLAIN", "1")

# bits, and whether it is signed
TYPES = {
    "int": (32, True), "unsigned": (32, False), "short": (16, True), "unsigned short": (16, False), "signed char": (8, True),
    "unsigned char": (8, False), "long": (64, True), "unsigned long": (64, False), "_Bool": (1, False),
}
LENGTHS = (1, 2, 3, 4, 5, 8, 16)


@dataclasses.dataclass
class Object:
    """A scalar, or an array by the lengths of its dimensions."""

    name: str
    kind: str
    lengths: tuple = ()
    is_const: bool = False

    def declared(self):
        return ("const " if self.is_const else "") + f"{self.kind} {self.name}" + "".join(f"[{n}]" for n in self.lengths)

    def count(self):
        return math.prod(self.lengths)


@dataclasses.dataclass
class Function:
    name: str
    params: list
    result: str


@dataclasses.dataclass
class Scope:
    """What may be read and written where a statement is drawn. Counters of loops are read alone."""

    scalars: list
    arrays: list
    functions: list
    counters: list
    in_loop: bool
    result: str

    def inner(self, **changes):
        lists = {name: list(getattr(self, name)) for name in ("scalars", "arrays", "functions", "counters")}
        return dataclasses.replace(self, **{**lists, **changes})

    def readable(self):
        return self.scalars + self.counters

    def writable(self):
        return [array for array in self.arrays if not array.is_const]


def wrapped(text):
    return text if text.startswith("(") else f"({text})"


def indented(lines):
    return ["    " + line for line in lines]


class Writer:
    """Draws the text of a program, its inputs and its options from a seed."""

    def __init__(self, seed):
        self.draw = random.Random(seed)
        self.names = 0
        self.budget = 0
        self.globals = Scope([], [], [], [], False, "")
        self.lines = []
        self.file_scope()
        for _ in range(self.draw.choice((0, 0, 1, 2))):
            result = self.draw.choice(("int", "unsigned", "void", "short"))
            self.function(self.name("h"), self.parameters(self.draw.randint(0, 3)), result, self.draw.randint(1, 8))
        result = self.draw.choice(("int", "unsigned", "void", "long", "unsigned long", "signed char", "unsigned short", "_Bool"))
        self.top = self.function("f", self.parameters(self.draw.randint(0, 4)), result, self.draw.randint(3, 30))
        self.inputs = [(param, self.values(param.kind, param.count())) for param in self.top.params]
        self.options = self.drawn_options()

    def text(self):
        return "\n".join(self.lines) + "\n"

    def chance(self, share):
        return self.draw.random() < share

    def name(self, prefix):
        self.names += 1
        return f"{prefix}{self.names}"

    def kind(self):
        return self.draw.choice(list(TYPES))

    # ---- expressions

    def number(self):
        d = self.draw
        value = d.choice((d.randint(0, 9), d.randint(0, 300), d.randint(0, 2**31 - 1), d.choice((0, 1, 2, 255, 256, 65535, 2**31 - 1))))
        return f"{value}{d.choice(('', '', '', 'u', 'l', 'ul'))}"

    def element(self, scope, array, depth):
        """An element, by subscripts that are inside."""
        parts = []
        for length in array.lengths:
            index = self.draw.choice(scope.counters).name if scope.counters and self.chance(0.5) else self.expression(scope, depth + 2)
            parts.append(f"[({index}) & {length - 1}]" if length & (length - 1) == 0 else f"[(unsigned)({index}) % {length}]")
        return array.name + "".join(parts)

    def leaf(self, scope, depth):
        roll = self.draw.random()
        if roll < 0.25 or not scope.readable():
            return self.number()
        if roll < 0.5 and scope.arrays and depth < 4:
            return self.element(scope, self.draw.choice(scope.arrays), depth)
        return self.draw.choice(scope.readable()).name

    def expression(self, scope, depth=0):
        """An expression without calls and changes. Most are defined for all values."""
        d = self.draw
        if depth >= 4 or self.chance(0.2):
            return self.leaf(scope, depth)

        def operand():
            return self.expression(scope, depth + 1)

        roll = d.random()
        if roll < 0.35:
            sign = d.choice(("(unsigned)", "(unsigned)", "(unsigned long)", "(short)", ""))
            return f"({sign}{wrapped(operand())} {d.choice(('+', '-', '*', '&', '|', '^'))} {operand()})"
        if roll < 0.45:
            return f"({operand()} {d.choice(('<', '<=', '>', '>=', '==', '!='))} {operand()})"
        if roll < 0.52:
            return f"({operand()} {d.choice(('/', '%'))} ({wrapped(operand())} | 1))"
        if roll < 0.6:
            sign = d.choice(("(unsigned)", "(unsigned long)", ""))
            return f"({sign}{wrapped(operand())} {d.choice(('<<', '>>'))} ({wrapped(operand())} & {d.choice((3, 7, 15))}))"
        if roll < 0.68:
            return f"({operand()} {d.choice(('&&', '||'))} {operand()})"
        if roll < 0.76:
            return f"({operand()} ? {operand()} : {operand()})"
        if roll < 0.84:
            return f"{d.choice(('~', '!', '-(int)(short)', '+'))}{wrapped(operand())}"
        if roll < 0.9:
            return f"({self.kind()}){wrapped(operand())}"
        return self.leaf(scope, depth)

    def call(self, scope, functions):
        """A call of one of these functions, where each of its arrays has one of its shape."""
        if not functions:
            return None
        called = self.draw.choice(functions)
        words = []
        for param in called.params:
            fits = [a for a in scope.writable() if (a.kind, a.lengths) == (param.kind, param.lengths)]
            if param.lengths and not fits:
                return None
            words.append(self.draw.choice(fits).name if param.lengths else self.expression(scope, 2))
        return f"{called.name}({', '.join(words)})"

    def value(self, scope, depth=0):
        """An expression, or a call alone: among other operands C would leave the order of its changes open."""
        called = self.call(scope, [f for f in scope.functions if f.result != "void"]) if self.chance(0.25) else None
        return called or self.expression(scope, depth)

    # ---- statements

    def changed(self, target, scope):
        operator = self.draw.choice(("+=", "-=", "^=", "|=", "&=", "*="))
        cast = "(unsigned)" if self.chance(0.7) else "(short)"
        return f"{target} {operator} {cast}{wrapped(self.expression(scope))};"

    def assignment(self, scope):
        if scope.writable() and self.chance(0.45):
            target = self.element(scope, self.draw.choice(scope.writable()), 1)
            return f"{target} = {self.expression(scope)};" if self.chance(0.7) else self.changed(target, scope)
        if not scope.scalars:
            return ";"
        target = self.draw.choice(scope.scalars).name
        if self.chance(0.15):
            return self.draw.choice((f"{target}++;", f"--{target};", f"{target} += 1u;"))
        return f"{target} = {self.value(scope)};" if self.chance(0.7) else self.changed(target, scope)

    def block(self, scope, depth, length=None):
        inner = scope.inner()
        lines = []
        for _ in range(length or self.draw.randint(1, 4)):
            if self.budget > 0:
                lines.extend(self.statement(inner, depth + 1))
        return ["{", *indented(lines), "}"]

    def conditional(self, scope, depth):
        lines = [f"if ({self.expression(scope, 1)})", *self.block(scope, depth, self.draw.randint(1, 2))]
        return lines + ["else", *self.block(scope, depth, self.draw.randint(1, 2))] if self.chance(0.5) else lines

    def simple_block(self, scope):
        """Assignments without calls, and perhaps a condition: a body that may be pipelined."""
        quiet = scope.inner(functions=[])
        lines = []
        for _ in range(self.draw.randint(1, 3)):
            self.budget -= 1
            lines.append(self.assignment(quiet))
        if self.chance(0.4):
            lines.insert(self.draw.randint(0, len(lines)), f"if ({self.expression(quiet, 2)}) {self.assignment(quiet)}")
        return ["{", *indented(lines), "}"]

    def test(self, scope, counted):
        """The test of a loop, with a further condition perhaps."""
        return f"{counted} && {self.expression(scope, 2)}" if self.chance(0.3) else counted

    def counted(self, scope, depth):
        d = self.draw
        name, kind, bound = self.name("i"), d.choice(("int", "unsigned", "unsigned char", "long")), d.choice((1, 2, 3, 4, 5, 7, 8, 12, 16))
        inner = scope.inner(in_loop=True)
        inner.counters.append(Object(name, kind))
        if self.chance(0.25):
            first, end = (bound - 1, ">= 0") if TYPES[kind][1] else (bound, "!= 0")
            head = f"for ({kind} {name} = {first}; {self.test(inner, f'{name} {end}')}; {name}--)"
        else:
            head = f"for ({kind} {name} = 0; {self.test(inner, f'{name} < {bound}')}; {name} {d.choice(('++', '++', '+= 1', '+= 2'))})"
        return [head, *(self.simple_block(inner) if self.chance(0.5) else self.block(inner, depth))]

    def repeated(self, scope, depth):
        name = self.name("k")
        inner = scope.inner(in_loop=True)
        inner.counters.append(Object(name, "int"))
        body = self.block(inner, depth)
        body.insert(1, f"    {name}--;" if self.chance(0.6) else f"    {name} -= 1;")
        test = f"{name} > 0" if self.chance(0.5) else f"{name} > 0 && {self.expression(inner, 2)}"
        first = f"int {name} = {self.draw.randint(1, 9)};"
        return [first, f"while ({test})", *body] if self.chance(0.5) else [first, "do", *body, f"while ({test});"]

    def switch(self, scope, depth):
        labels = self.draw.sample(range(8), self.draw.randint(1, 4))
        other = self.draw.randint(0, len(labels)) if self.chance(0.7) else -1
        lines = []
        for position, label in enumerate(labels):
            lines += ["default:"] if position == other else []
            lines.append(f"case {label}:")
            for _ in range(self.draw.randint(0, 2)):
                if self.budget > 0:
                    lines.extend(indented(self.statement(scope.inner(), depth + 1, declares=False)))
            lines += ["    break;"] if self.chance(0.6) else []
        return [f"switch ({self.expression(scope, 1)} & 7)", "{", *lines, "    ;", "}"]

    def declaration(self, scope):
        made = Object(self.name("v"), self.kind()) if self.chance(0.7) else Object(self.name("t"), self.kind(), (self.draw.choice(LENGTHS),))
        value = f"{{{self.items(made)}}}" if made.lengths else self.value(scope, 1)
        (scope.arrays if made.lengths else scope.scalars).append(made)
        return [f"{made.declared()} = {value};"]

    def leaving(self, scope):
        jumps = ["break", "continue"] if scope.in_loop and self.chance(0.6) else []
        jump = self.draw.choice(jumps) if jumps else "return" if scope.result == "void" else f"return {self.value(scope, 2)}"
        return [f"if ({self.expression(scope, 2)}) {jump};"]

    def statement(self, scope, depth, declares=True):
        self.budget -= 1
        roll = self.draw.random()
        if declares and roll < 0.17:
            return self.declaration(scope)
        if depth < 5 and roll < 0.32:
            return self.conditional(scope, depth)
        if depth < 4 and roll < 0.46:
            return self.counted(scope, depth)
        if declares and depth < 4 and roll < 0.54:
            return self.repeated(scope, depth)
        if depth < 4 and roll < 0.6:
            return self.switch(scope, depth)
        if roll < 0.68:
            return self.leaving(scope)
        called = self.call(scope, scope.functions) if roll < 0.75 else None
        return [called + ";" if called else self.assignment(scope)]

    # ---- the program

    def items(self, array):
        return ", ".join(str(self.draw.randint(0, 100)) for _ in range(array.count()))

    def file_scope(self):
        for _ in range(self.draw.randint(0, 2)):
            scalar = Object(self.name("g"), self.kind())
            self.lines.append(f"static {scalar.declared()} = {self.draw.randint(0, 100)};" if self.chance(0.6) else f"{scalar.declared()};")
            self.globals.scalars.append(scalar)
        for _ in range(self.draw.randint(0, 2)):
            array = Object(self.name("s"), self.kind(), (self.draw.choice(LENGTHS),), self.chance(0.5))
            self.lines.append(f"static {array.declared()} = {{{self.items(array)}}};")
            self.globals.arrays.append(array)

    def parameters(self, count):
        params = []
        for _ in range(count):
            dimensions = self.draw.choice((1, 1, 1, 2)) if self.chance(0.4) else 0
            params.append(Object(self.name("a" if dimensions else "p"), self.kind(), tuple(self.draw.choice(LENGTHS) for _ in range(dimensions))))
        return params

    def function(self, name, params, result, budget):
        """Adds a function, which may call those before it."""
        self.budget = budget
        scope = self.globals.inner(result=result)
        for param in params:
            (scope.arrays if param.lengths else scope.scalars).append(param)
        body = []
        while self.budget > 0:
            body.extend(self.statement(scope, 0))
        if result != "void":
            body.append(f"return {self.value(scope)};")
        self.lines += [f"{result} {name}({', '.join(p.declared() for p in params) or 'void'})", "{", *indented(body), "}"]
        made = Function(name, params, result)
        self.globals.functions.append(made)
        return made

    def values(self, kind, count):
        bits, is_signed = TYPES[kind]
        low, high = (-(2 ** (bits - 1)), 2 ** (bits - 1) - 1) if is_signed else (0, 2**bits - 1)
        return [self.draw.choice((self.draw.randint(low, high), max(low, min(high, self.draw.randint(-20, 20))))) for _ in range(count)]

    def drawn_options(self):
        words = []
        for option, most, share in (("--mul", 8, 0.4), ("--div", 4, 0.3), ("--ports", 2, 0.4), ("--period", 130, 0.4)):
            words += [option, str(self.draw.randint(1, most))] if self.chance(share) else []
        return words + (["--plain"] if self.chance(0.25) else [])


# ---- gcc and Icarus Verilog


def literal(value):
    """The number as an expression of C."""
    return f"({value + 1}L - 1)" if value == -(2**63) else f"{value}{'UL' if value >= 2**63 else 'L'}"


def shown(kind, value):
    """The format of `printf` for a value of the type, and the value."""
    return ("%lu", f"(unsigned long){value}") if kind == "unsigned long" else ("%ld", f"(long){value}")


def harness(program):
    """A `main` that calls the function on the inputs and prints what `cosim` prints of the run in C."""
    lines, words = ["#include <stdio.h>", "int main(void)", "{"], []
    arrays = [(param, values) for param, values in program.inputs if param.lengths]
    for param, values in arrays:
        lines.append(f"    static {param.kind} {param.name}_[] = {{{', '.join(map(literal, values))}}};")
    for param, values in program.inputs:
        words.append(f"(void *){param.name}_" if param.lengths else f"({param.kind}){literal(values[0])}")
    call = f"f({', '.join(words)})"
    if program.top.result == "void":
        lines += [f"    {call};", '    printf("c ret -\\n");']
    else:
        spelled, value = shown(program.top.result, call)
        lines.append(f'    printf("c ret {spelled}\\n", {value});')
    for param, values in arrays:
        spelled, value = shown(param.kind, f"{param.name}_[k]")
        lines.append(f'    printf("array {param.name}");')
        lines.append(f'    for (int k = 0; k < {len(values)}; k++) printf(" {spelled}", {value});')
        lines.append('    printf("\\n");')
    return "\n".join([*lines, "    return 0;", "}"]) + "\n"


def pins_of(program):
    """What the test bench of the examples asks of a program."""
    bits, is_signed = TYPES.get(program.top.result, (0, False))
    parameters = [types.SimpleNamespace(name=p.name, lengths=list(p.lengths), bits=TYPES[p.kind][0], is_signed=TYPES[p.kind][1]) for p in program.top.params]
    return types.SimpleNamespace(
        top="f", is_void=program.top.result == "void", result_bits=bits, is_signed=is_signed, parameters=parameters,
        data={param.name: [f"-64'd{-v}" if v < 0 else f"64'd{v}" for v in values] for param, values in program.inputs},
        shown=lambda pin, bits, is_signed: f"$signed({pin}[{bits - 1}:0])" if is_signed else f"{pin}[{bits - 1}:0]",
    )


def run(*words):
    done = subprocess.run([str(w) for w in words], stdin=subprocess.DEVNULL, capture_output=True, text=True, timeout=300)
    return done.returncode, done.stdout, done.stderr


def outside(program, folder, lines):
    """What gcc or Icarus Verilog shows otherwise than these lines of `cosim`, if anything."""
    found = [line for line in lines if line.startswith(("c ", "array "))]
    (folder / "main.c").write_text(program.text() + harness(program))
    status, _, error = run("gcc", "-w", "-std=c11", "-O1", "-fwrapv", "-o", folder / "main", folder / "main.c")
    if status != 0:
        return f"gcc refuses it: {error[:300]}"
    wanted = run(folder / "main")[1].splitlines()
    if wanted != found:
        return f"gcc says {wanted[:4]}, hls {found[:4]}"
    if shutil.which("iverilog"):
        pins = pins_of(program)
        (folder / "bench.v").write_text(examples.bench(pins))
        seen = examples.by_icarus(pins, folder)
        if seen != found + [line for line in lines if line.startswith("verilog ")]:
            return f"Icarus Verilog shows {seen[:4]}, hls {lines[:4]}"
    return None


def compare(program, folder):
    """What came of a program: `agrees`, `undefined`, `runs on`, or, behind `differs: `, what differs."""
    source, module, report, data = (folder / name for name in ("p.c", "m.v", "p.rep", "p.run"))
    source.write_text(program.text())
    data.write_text("".join(f"{param.name} = {' '.join(map(str, values))}\n" for param, values in program.inputs))
    status, out, _ = run(HLS, "synth", source, module, report, "--top", "f", *program.options)
    if status != 0:
        return f"differs: synth ({program.options}) ended with {status}: {out.strip()}"
    status, out, _ = run(HLS, "cosim", source, module, report, data, "--top", "f", "--points", "20000", "--cycles", "1000000")
    if status == 9:
        return "undefined"
    if status == 6 and out.startswith("running c "):
        return "runs on"
    if status != 0:
        return f"differs: cosim ({program.options}) ended with {status}: {out.strip()[-200:]}"
    difference = outside(program, folder, out.splitlines())
    return f"differs: {difference}" if difference else "agrees"


def main(words):
    if len(words) not in (1, 2):
        print(__doc__.strip())
        return 2
    if not shutil.which("gcc"):
        print("random programs: gcc is not there, the comparison is skipped")
        return 0
    count, first = int(words[0]), int(words[1]) if len(words) == 2 else 1
    tally = {}
    with tempfile.TemporaryDirectory() as work:
        for seed in range(first, first + count):
            seen = compare(Writer(seed), pathlib.Path(work))
            kind = seen.split(":")[0]
            tally[kind] = tally.get(kind, 0) + 1
            if kind == "differs":
                print(f"{seed}: {seen}", flush=True)
    print("random programs: " + ", ".join(f"{n} {kind}" for kind, n in sorted(tally.items())))
    return 1 if "differs" in tally else 0


if __name__ == "__main__":
    sys.exit(main(sys.argv[1:]))
