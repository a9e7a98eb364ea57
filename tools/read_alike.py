#!/usr/bin/env python3
"""Says whether Yosys reads modules as the compiler does.

    tools/read_alike.py [MODULE.v ..]   these modules, or those of all programs in corpus/programs and examples

Of each module the compiler makes a graph (`blast`) and Yosys makes another from the same text (proc, memory_map, simplemap, aigmap). Inputs, outputs, registers and
words of memories are matched by name, and ABC proves that every output and every next bit is equal, for all contents and all inputs. Products are hard to compare, so
each `*` is taken out of the text first: its operands become outputs and its result an input. The operator itself is compared at each width that a module has: by ABC
in so many seconds, else at 12 bits by ABC and at its width by simulation of both graphs. A bit that Yosys leaves undefined is taken as 0, and the next bits of a
register or word that Yosys leaves out are not compared. A module that is too large for a graph is skipped. HLS names the program, else it is ./hls. The status is 1
where a module is read differently.
"""
import concurrent.futures
import os
import pathlib
import random
import re
import shutil
import subprocess
import sys
import tempfile

import graph

SCRIPT = "read_verilog {text}; hierarchy -auto-top; proc -noopt; memory_collect; memory_map; simplemap; dffunmap; techmap; simplemap; aigmap; setundef -zero; write_aiger -ascii -vmap map.txt yosys.aag"
# ABC gets so long for a module.
SECONDS = 60
PRODUCT = re.compile(r"wire \[(\d+):0\] (\w+) = (\S+) \* (\S+);")
# How many pairs of operands a product is simulated on.
DRAWN = 2000
BIT = re.compile(r"(input|output|latch|invlatch|wire) (\d+) (\d+) (\S+)")


def order(text):
    """The names of the bits of a module, as the compiler numbers them: inputs, then registers and words of memories, and outputs; the lowest bit first."""
    inputs, registers, memories, outputs = [], [], [], []
    for line in text.splitlines():
        if match := re.match(r"input (?:\[(\d+):0\] )?(\w+);", line):
            if match[2] != "clk":
                inputs += [(match[2], k) for k in range(int(match[1] or 0) + 1)]
        elif match := re.match(r"output (?:\[(\d+):0\] )?(\w+);", line):
            outputs += [(match[2], k) for k in range(int(match[1] or 0) + 1)]
        elif match := re.match(r"reg \[(\d+):0\] (\w+) \[0:(\d+)\];", line):
            memories += [(f"{match[2]}[{word}]", k) for word in range(int(match[3]) + 1) for k in range(int(match[1]) + 1)]
        elif match := re.match(r"reg (?:\[(\d+):0\] )?(\w+);", line):
            registers += [(match[2], k) for k in range(int(match[1] or 0) + 1)]
    return inputs, registers + memories, outputs


def by_yosys(module, folder):
    """The graph that Yosys makes of a module, with inputs, latches and outputs in the compiler's order."""
    text = pathlib.Path(module).resolve()
    ran = subprocess.run(["yosys", "-q", "-p", SCRIPT.format(text=text)], cwd=folder, capture_output=True, text=True)
    if ran.returncode:
        raise ValueError(f"{module}: yosys: {ran.stderr.strip()[-300:]}")
    made = graph.read((pathlib.Path(folder) / "yosys.aag").read_text())
    places = {"input": {}, "latch": {}, "output": {}, "wire": {}}
    for line in (pathlib.Path(folder) / "map.txt").read_text().splitlines():
        if match := BIT.match(line):
            places["latch" if match[1].endswith("latch") else match[1]][match[4], int(match[3])] = int(match[2])
    inputs, latches, outputs = order(text.read_text())
    # Outputs stand in the order of the pins; the map leaves out bits that are constant.
    if any(outputs[place] != bit for bit, place in places["output"].items() if bit in set(outputs)):
        raise ValueError(f"{module}: outputs of Yosys in another order")
    there = [k for k, bit in enumerate(latches) if bit in places["latch"]]
    missing = [k for k, bit in enumerate(latches) if bit not in places["latch"]]
    found = made.ordered([places["input"][bit] for bit in inputs], [places["latch"][latches[k]] for k in there], range(len(made.outputs)))
    # A bit that nothing changes is an input in the graph of Yosys; one that nothing reads is not there.
    free = 2 + max([literal for literal in made.inputs] + [latch for latch, _ in made.latches] + [gate for gate, _, _ in made.gates], default=0)
    found.inputs += [places["wire"].get(latches[k], free + 2 * k) for k in missing]
    return found, there, missing


def without_products(text):
    """The text of a module in which the operands of each product are outputs and its result is an input, and the widths of the products."""
    lines, inputs, outputs, shown, widths = [], [], [], [], []
    for line in text.splitlines():
        if match := PRODUCT.match(line):
            high, number = match[1], len(widths)
            widths.append(int(high) + 1)
            inputs.append((f"product_{number}", high))
            for side, atom in (("left", match[3]), ("right", match[4])):
                outputs.append((f"{side}_{number}", high))
                shown.append(f"assign {side}_{number} = {atom};")
            line = f"wire [{high}:0] {match[2]} = product_{number};"
        lines.append(line)
    if not widths:
        return text, widths
    pins = ", ".join(name for name, _ in inputs)
    last_input = max(k for k, line in enumerate(lines) if line.startswith("input "))
    last_output = max(k for k, line in enumerate(lines) if line.startswith("output "))
    last_assign = max(k for k, line in enumerate(lines) if line.startswith("assign "))
    first_output = next(re.match(r"output (?:\[\d+:0\] )?(\w+);", line)[1] for line in lines if line.startswith("output "))
    head = lines[0].replace(f" {first_output},", f" {pins}, {first_output},").replace(f" {first_output})", f" {pins}, {first_output})")
    lines[0] = head.replace(");", ", " + ", ".join(name for name, _ in outputs) + ");")
    more = {
        last_input: [f"input [{high}:0] {name};" for name, high in inputs],
        last_output: [f"output [{high}:0] {name};" for name, high in outputs],
        last_assign: shown,
    }
    return "".join(f"{line}\n" for k, old in enumerate(lines) for line in [old, *more.get(k, [])]), widths


def product(width):
    """A module that multiplies numbers of so many bits."""
    pins = "".join(f"{kind} [{width - 1}:0] {name};\n" for kind, name in (("input", "a"), ("input", "b"), ("output", "y")))
    return f"module product (clk, a, b, y);\ninput clk;\n{pins}wire [{width - 1}:0] w0 = a * b;\nassign y = w0;\nendmodule\n"


def graphs_of(text, folder):
    """The graphs of the compiler and of Yosys of a module's text, and how many bits Yosys leaves out; or None where the module is too large."""
    module = pathlib.Path(folder) / "compared.v"
    module.write_text(text)
    ours = graph.blasted(module, folder)
    if not ours:
        return None
    theirs, there, missing = by_yosys(module, folder)
    left_out = [ours.latches[k][0] for k in missing]
    ours = ours.ordered(range(len(ours.inputs)), there, range(len(ours.outputs)))
    ours.inputs += left_out
    return ours, theirs, len(missing)


def product_alike(width):
    """Whether Yosys multiplies numbers of so many bits as the compiler does, and how that is known."""
    with tempfile.TemporaryDirectory() as folder:
        ours, theirs, _ = graphs_of(product(width), folder)
        found = graph.are_equal(ours, theirs, folder, SECONDS)
        if found is not None:
            return found, "proved by ABC"
        small = graphs_of(product(12), folder)
        draw = random.Random(width)
        words = [draw.getrandbits(DRAWN) for _ in ours.inputs]
        same = ours.values(words, DRAWN) == theirs.values(words, DRAWN)
        return same and graph.are_equal(*small[:2], folder) is True, f"proved by ABC at 12 bits, simulated on {DRAWN} pairs of operands"


def verdict(module):
    """What is said of one module, whether it is read alike (True, False, or None where it was skipped), and the widths of its products."""
    text, widths = without_products(module.read_text())
    with tempfile.TemporaryDirectory() as folder:
        both = graphs_of(text, folder)
        if not both:
            return "too large for a graph, skipped", None, []
        ours, theirs, missing = both
        counts = [(len(it.inputs), len(it.latches), len(it.outputs)) for it in (ours, theirs)]
        if counts[0] != counts[1]:
            return f"{counts[0]} inputs, latches and outputs, and {counts[1]}", False, widths
        found = graph.are_equal(ours, theirs, folder, SECONDS)
        sizes = f"{len(ours.gates)} gates, {len(theirs.gates)} by Yosys" + (f"; {missing} bits that Yosys leaves out" if missing else "")
        return {True: f"read alike; {sizes}", False: f"READ DIFFERENTLY; {sizes}", None: f"no answer; {sizes}"}[found], found, widths


def compiled(source, folder):
    """The module of a source, with the options that stand beside it."""
    options = source.with_suffix(".opts")
    words = options.read_text().split() if options.exists() else []
    if "--top" not in words:
        words += ["--top", source.stem if re.search(rf"\b{source.stem}\(", source.read_text()) else "f"]
    module = pathlib.Path(folder) / f"{source.parent.name}_{source.stem}.v"
    subprocess.run([graph.HLS, "synth", str(source), str(module), str(module.with_suffix(".rep")), *words], check=True, stdout=subprocess.DEVNULL)
    return module


def main():
    if not graph.ABC or not shutil.which("yosys"):
        print("read alike: yosys or berkeley-abc is not there, skipped")
        return 0
    os.environ.setdefault("HLS_PLAIN", "1")
    with tempfile.TemporaryDirectory() as folder, concurrent.futures.ThreadPoolExecutor(os.cpu_count()) as pool:
        modules = [pathlib.Path(word) for word in sys.argv[1:]]
        if not modules:
            sources = [it for where in ("corpus/programs", "examples", "examples/bench", "examples/pipeline") for it in sorted((graph.ROOT / where).glob("*.c"))]
            modules = list(pool.map(lambda it: compiled(it, folder), sources))
        rows = list(pool.map(verdict, modules))
    for module, (said, _, _) in zip(modules, rows):
        print(f"{module.stem}: {said}")
    products = {width: product_alike(width) for width in sorted({width for _, _, widths in rows for width in widths})}
    for width, (found, how) in products.items():
        print(f"products of {width} bits: {'alike' if found else 'DIFFERENT'}, {how}")
    count = lambda kind: sum(found is kind for _, found, _ in rows)
    print(f"read alike: {count(True)} of {len(rows)}, {count(False)} read differently; of {count(None)} nothing is known")
    return 1 if count(False) or not all(found for found, _ in products.values()) else 0


if __name__ == "__main__":
    sys.exit(main())
