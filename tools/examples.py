#!/usr/bin/env python3
"""Runs each example of examples/ through the built compiler, and compares `cosim` with the same C compiled by gcc and with the expected lines.

    tools/examples.py [--write]   with --write the lines that were found become the expected ones, where gcc agrees with them

Icarus Verilog and Verilator run each module through its pins too. A tool that is missing is named and skipped.
HLS names the program, else it is ./hls.
"""
import concurrent.futures
import os
import pathlib
import re
import shutil
import subprocess
import sys
import tempfile

ROOT = pathlib.Path(__file__).resolve().parent.parent
EXAMPLES = ROOT / "examples"
HLS = os.environ.get("HLS", str(ROOT / "hls"))
os.environ.setdefault("HLS_PLAIN", "1")


def run(words, **more):
    return subprocess.run(list(map(str, words)), stdin=subprocess.DEVNULL, capture_output=True, text=True, **more)


KINDS = {"char": (8, True), "short": (16, True), "int": (32, True), "long": (64, True), "unsigned": (32, False), "_Bool": (1, False), "void": (0, False)}


def kind_of(text):
    """The bits of a type in a declaration of the examples, and whether it is signed."""
    named = re.search(r"\b(u?)int(\d+)_t\b", text)
    if named:
        return int(named.group(2)), not named.group(1)
    bits, signed = next(KINDS[word] for word in re.findall(r"\w+", text) if word in KINDS)
    return bits, signed


class Parameter:
    def __init__(self, text, defines):
        self.text = text
        self.bits, self.is_signed = kind_of(text)
        self.name = re.match(r".*?(\w+)\s*(\[|$)", text).group(1)
        self.lengths = [int(defines.get(n, n)) for n in re.findall(r"\[(\w+)\]", text)]


def head_of(source):
    """The name of the top function of a file, the type of its result, and its parameters."""
    text = source.read_text()
    defines = dict(re.findall(r"#define (\w+) (\d+)", text))
    top = source.stem if re.search(rf"\b{source.stem}\(", text) else "f"
    kind, words = re.search(rf"^(\w+) {top}\(([^)]*)\)", text, re.M).groups()
    return top, kind, [Parameter(word.strip(), defines) for word in words.split(",") if word.strip() != "void"]


class Example:
    """A C file, its top function (named as the file, or f), the options of `synth` in its file of options, if there is one, and the data
    of its run file, which stands beside it if none is named."""

    def __init__(self, source, run_file=None):
        self.source, self.run_file = source, run_file or source.with_suffix(".run")
        options = source.with_suffix(".opts")
        self.options = options.read_text().split() if options.exists() else []
        self.top, kind, self.parameters = head_of(source)
        self.is_void = kind == "void"
        self.result_bits, self.is_signed = kind_of(kind)
        self.data = {}
        for line in self.run_file.read_text().splitlines():
            if line and not line.startswith("#"):
                name, values = line.split("=")
                self.data[name.strip()] = values.split()

    def shown(self, pin, bits, is_signed):
        """The number that the low bits of a pin stand for, as Verilog."""
        return f"$signed({pin}[{bits - 1}:0])" if is_signed else f"{pin}[{bits - 1}:0]"

    def harness(self):
        """A C program that calls the function on the data, and prints what `cosim` says of C."""
        lines = ["#include <stdio.h>", f'#include "{self.source}"', "int main(void) {"]
        for p in self.parameters:
            if p.lengths:
                kind = re.sub(r"const |\w+\s*\[.*", "", p.text)
                lengths = "".join(f"[{n}]" for n in p.lengths)
                lines.append(f"static {kind} {p.name}{lengths};")
                lines.append(f"{{ static const long long v[] = {{{', '.join(self.data[p.name])}}};")
                lines.append(f"for (unsigned i = 0; i < sizeof v / sizeof *v; i++) (({kind} *){p.name})[i] = ({kind})v[i]; }}")
        words = ", ".join(p.name if p.lengths else self.data[p.name][0] + ("u" if "unsigned" in p.text else "") for p in self.parameters)
        call = f"{self.top}({words})"
        lines.append(f'{call}; puts("c ret -");' if self.is_void else f'printf("c ret %lld\\n", (long long){call});')
        for p in self.parameters:
            if p.lengths:
                kind = re.sub(r"const |\w+\s*\[.*", "", p.text)
                count = len(self.data[p.name])
                lines.append(f'printf("array {p.name}"); for (int i = 0; i < {count}; i++) printf(" %lld", (long long)(({kind} *){p.name})[i]); puts("");')
        return "\n".join([*lines, "return 0; }"]) + "\n"


def by_gcc(example, work):
    (work / "h.c").write_text(example.harness())
    built = run(["gcc", "-std=c11", "-w", "-fwrapv", "-o", work / "h", work / "h.c"])
    return run([work / "h"]).stdout.splitlines() if built.returncode == 0 else [built.stderr]


def by_cosim(example, work, options=(), limits=()):
    """The lines of `cosim` for the module that `synth` makes with these options."""
    module, report = work / "m.v", work / "m.rep"
    made = run([HLS, "synth", example.source, module, report, "--top", example.top, *example.options, *options])
    if made.returncode != 0:
        return [made.stdout.strip()]
    return run([HLS, "cosim", example.source, module, report, example.run_file, "--top", example.top, *limits]).stdout.splitlines()


def addresses(lengths):
    """The addresses of an array's elements, row by row: each subscript has as many bits as its dimension asks for, at least one."""
    found = [0]
    for length in lengths:
        bits = max(1, (length - 1).bit_length())
        found = [(before << bits) + k for before in found for k in range(length)]
    return found


def bench(example):
    """A test bench that drives the module through its pins, and prints the lines of `cosim` from `c ret` on, with the cycles."""
    scalars = [p for p in example.parameters if not p.lengths]
    arrays = [p for p in example.parameters if p.lengths]
    pins = ", ".join(f".arg_{k}({example.data[p.name][0]})" for k, p in enumerate(scalars))
    ret = "" if example.is_void else ", .ret(ret)"
    steps = []
    for k, p in enumerate(arrays):
        for address, value in zip(addresses(p.lengths), example.data[p.name]):
            steps.append(f"h_en = 1; h_we = 1; h_sel = {k}; h_addr = {address}; h_wdata = {value}; @(negedge clk);")
    steps.append("h_en = 0; h_we = 0; start = 1; @(negedge clk); start = 0; cycles = 1;")
    steps.append("while (!done) begin @(negedge clk); cycles = cycles + 1; end")
    steps.append('$display("c ret -");' if example.is_void else f'$display("c ret %0d", {example.shown("ret", example.result_bits, example.is_signed)});')
    for k, p in enumerate(arrays):
        steps.append(f'$write("array {p.name}");')
        for address in addresses(p.lengths):
            steps.append(f"h_en = 1; h_sel = {k}; h_addr = {address}; @(negedge clk); h_en = 0;")
            steps.append(f'$write(" %0d", {example.shown("h_rdata", p.bits, p.is_signed)}); @(negedge clk);')
        steps.append('$write("\\n");')
    steps.append('$display("verilog %0d", cycles); $finish;')
    body = "\n    ".join(steps)
    width = max(1, example.result_bits)
    return f"""module bench;
  reg clk = 0, reset = 1, start = 0, h_en = 0, h_we = 0;
  reg [4:0] h_sel = 0; reg [15:0] h_addr = 0; reg [63:0] h_wdata = 0;
  wire ready, done; wire [63:0] h_rdata; wire [{width - 1}:0] ret; integer cycles = 0;
  hls_{example.top} dut (.clk(clk), .reset(reset), .start(start), .h_en(h_en), .h_we(h_we), .h_sel(h_sel), .h_addr(h_addr), .h_wdata(h_wdata), .ready(ready), .done(done), .h_rdata(h_rdata){ret}{", " + pins if pins else ""});
  always #5 clk = ~clk;
  initial begin
    @(negedge clk); @(negedge clk); reset = 0; @(negedge clk);
    while (!ready) @(negedge clk);
    {body}
  end
endmodule
"""


def by_icarus(example, work):
    built = run(["iverilog", "-g2005", "-o", work / "bench", work / "bench.v", work / "m.v"])
    return run(["vvp", "-n", work / "bench"]).stdout.splitlines() if built.returncode == 0 else [built.stderr]


def by_verilator(example, work):
    """What Verilator, which makes a program of the module, shows for the bench of Icarus Verilog."""
    quick = "OPT_GLOBAL=-O0 OPT_FAST=-O0 OPT_SLOW=-O0"
    words = ["verilator", "--binary", "--timing", "-O0", "-Wno-fatal", "-Wno-lint", "-MAKEFLAGS", quick, "--top-module", "bench", "-Mdir", work / "verilated", "-o", "bench"]
    built = run([*words, work / "bench.v", work / "m.v"])
    if built.returncode != 0:
        return [built.stderr]
    return [line for line in run([work / "verilated" / "bench"]).stdout.splitlines() if "$finish" not in line]


def can_verilate():
    """Verilator 5 and later take a bench with times."""
    if not shutil.which("verilator"):
        return False
    version = re.search(r"Verilator (\d+)", run(["verilator", "--version"]).stdout)
    return bool(version) and int(version.group(1)) >= 5


def check(example, work, write):
    """What is wrong with the example, if anything."""
    found = by_cosim(example, work)
    if found[-1:] != ["agree"]:
        return f"cosim says {found[-1:]}"
    if shutil.which("gcc"):
        wanted = by_gcc(example, work)
        if found[: len(wanted)] != wanted:
            return f"gcc says {wanted}, cosim {found}"
    (work / "bench.v").write_text(bench(example))
    for name, simulator in SIMULATORS.items():
        shown = simulator(example, work)
        if shown != [line for line in found if line.split()[0] in ("c", "array", "verilog")]:
            return f"{name} says {shown}, cosim {found}"
    expected = example.source.with_suffix(".lines")
    if write:
        expected.write_text("\n".join(found) + "\n")
    elif expected.read_text().splitlines() != found:
        return f"other lines than expected: {found}"
    return None


def check_one(source, write):
    with tempfile.TemporaryDirectory() as work:
        return check(Example(source), pathlib.Path(work), write)


SIMULATORS = {}


def main(words):
    if shutil.which("iverilog"):
        SIMULATORS["Icarus Verilog"] = by_icarus
    if can_verilate():
        SIMULATORS["Verilator"] = by_verilator
    for name, is_there in (("gcc", shutil.which("gcc")), ("Icarus Verilog", "Icarus Verilog" in SIMULATORS), ("Verilator 5", "Verilator" in SIMULATORS)):
        if not is_there:
            print(f"examples: {name} is not there, its comparison is skipped")
    sources, wrong = sorted(EXAMPLES.glob("*.c")), 0
    with concurrent.futures.ThreadPoolExecutor(os.cpu_count()) as pool:
        for source, difference in zip(sources, pool.map(lambda one: check_one(one, "--write" in words), sources)):
            if difference:
                wrong += 1
                print(f"{source.stem}: {difference}")
    print(f"examples: {len(sources) - wrong} as wanted, {wrong} not")
    sys.exit(1 if wrong else 0)


if __name__ == "__main__":
    main(sys.argv[1:])
