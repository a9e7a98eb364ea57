#!/usr/bin/env python3
"""LUTs, flip-flops, memory blocks and multipliers of the module of each example on three families, its clock on an iCE40, and the same of kernels written by hand.

    tools/cells.py [NAME ..]   all examples, or these

Yosys maps each module (synth_ice40, synth_ecp5, synth_xilinx), and nextpnr-ice40, where it is there, places and routes it on an hx8k with registers at its pins.
A module of tools/by_hand has the pins and the cycles of the one that the compiler makes; Icarus Verilog, where it is there, runs it
on the data of the example before it is counted. HLS names the program, else it is ./hls.
"""
import concurrent.futures
import os
import pathlib
import re
import shutil
import subprocess
import sys
import tempfile

sys.path.insert(0, str(pathlib.Path(__file__).resolve().parent))
import examples

ROOT = examples.ROOT
BY_HAND = ROOT / "tools" / "by_hand"
PIN = re.compile(r"\b(input|output)\s+(?:reg\s+)?(?:\[(\d+):0\]\s*)?(\w+)")


def wrapper(top, text):
    """A module with three pins around another one, whose pins are registers that are shifted in and out."""
    pins = [(kind, int(high or 0) + 1, name) for kind, high, name in PIN.findall(text) if name != "clk"]
    ins = [(bits, name) for kind, bits, name in pins if kind == "input"]
    outs = [(bits, name) for kind, bits, name in pins if kind == "output"]
    wires = "".join(f"  wire [{bits - 1}:0] {name};\n" for bits, name in ins + outs)
    ports = ", ".join(f".{name}({name})" for _, name in ins + outs)
    ni, no = sum(b for b, _ in ins), sum(b for b, _ in outs)
    return f"""module shell (input clk, input shift, input from, output to);
  reg [{ni - 1}:0] in; reg [{no - 1}:0] out;
{wires}  assign {{{", ".join(n for _, n in ins)}}} = in;
  {top} inner (.clk(clk), {ports});
  assign to = out[{no - 1}];
  always @(posedge clk) begin
    in <= {{in, from}};
    out <= shift ? {{out, from}} : {{{", ".join(n for _, n in outs)}}};
  end
endmodule
"""


class Family:
    """How Yosys maps to a family, and which of its cells count: by a pattern of names, how many of the kind a cell is."""

    def __init__(self, name, script, luts, flops, memories, products):
        self.name, self.script = name, script
        self.kinds = (luts, flops, memories, products)

    def counted(self, text):
        """LUTs, flip-flops, memory blocks and multipliers of what `stat` says."""
        cells = {name: int(count) for name, count in re.findall(r"^\s+(\w+)\s+(\d+)$", text, re.M)}
        return tuple(sum(times * count for pattern, times in kind.items() for name, count in cells.items() if re.fullmatch(pattern, name)) for kind in self.kinds)


# A LUT of the second family serves a carry cell's half, and four a distributed memory of 16 words of 4 bits; of the third, four a distributed memory of several ports.
FAMILIES = [
    Family("iCE40", "synth_ice40", {"SB_LUT4": 1}, {"SB_DFF\\w*": 1}, {"SB_RAM\\w*": 1}, {"SB_MAC16": 1}),
    Family("ECP5", "synth_ecp5", {"LUT4": 1, "CCU2C": 2, "TRELLIS_DPR16X4": 4}, {"TRELLIS_FF": 1}, {"DP16KD": 1}, {"MULT18X18D": 1}),
    Family("Xilinx 7", "synth_xilinx", {"LUT[1-6]": 1, "RAM(32|64)M": 4, "RAM\\d+X1D": 2, "SRL\\w*": 1}, {"FD\\w*": 1}, {"RAMB18E1": 1, "RAMB36E1": 2}, {"DSP48E1": 1}),
]


def measure(module, top, work):
    """For each family what it counts, and the longest path on an iCE40 in nanoseconds, where it is known."""
    numbers = []
    for family in FAMILIES:
        done = examples.run(["yosys", "-p", f"read_verilog {module}; {family.script} -top {top}; stat"])
        numbers.append(family.counted(done.stdout.split("Number of cells:")[-1]))
    return numbers, path_of(module, top, work)


def path_of(module, top, work):
    if not shutil.which("nextpnr-ice40"):
        return None
    (work / "shell.v").write_text(wrapper(top, module.read_text()))
    examples.run(["yosys", "-q", "-p", f"read_verilog {module} {work}/shell.v; synth_ice40 -top shell -json {work}/shell.json"])
    placed = examples.run(["nextpnr-ice40", "--hx8k", "--package", "ct256", "--json", work / "shell.json", "--seed", "1", "--freq", "100"])
    speeds = re.findall(r"Max frequency for clock[^:]*: ([\d.]+) MHz", placed.stderr)
    return 1000 / float(speeds[-1]) if speeds else None


def behaves(example, module, work):
    """Whether a module that was written by hand gives the results and the cycles of the example."""
    if not shutil.which("iverilog"):
        return True
    (work / "m.v").write_text(module.read_text())
    (work / "bench.v").write_text(examples.bench(example))
    expected = example.source.with_suffix(".lines").read_text().splitlines()
    return examples.by_icarus(example, work) == [line for line in expected if line.split()[0] in ("c", "array", "verilog")]


def row(name, numbers, path):
    cells = " | ".join(" ".join(map(str, counts)) for counts in numbers)
    return f"| {name} | {cells} | {f'{1000 / path:.0f}' if path else '-'} |"


def ratios(name, found, other):
    """The compiler's module in LUTs and flip-flops by those of the one that was written by hand, and its clock by the other's."""
    cells = " | ".join(" ".join(f"{one[k] / two[k]:.2f}" if two[k] else "-" for k in (0, 1)) for one, two in zip(found[0], other[0]))
    clock = f"{other[1] / found[1]:.2f}" if found[1] and other[1] else "-"
    return f"| {name}, ratio | {cells} | {clock} |"


def one(source):
    example, lines = examples.Example(source), []
    top = "hls_" + example.top
    with tempfile.TemporaryDirectory() as folder:
        work = pathlib.Path(folder)
        made = examples.run([examples.HLS, "synth", source, work / "made.v", work / "made.rep", "--top", example.top, *example.options])
        if made.returncode != 0:
            return [f"| {source.stem} | {made.stdout.strip()} | | | |"]
        found = measure(work / "made.v", top, work)
        lines.append(row(source.stem, *found))
        hand = BY_HAND / f"{source.stem}.v"
        if hand.exists():
            if not behaves(example, hand, work):
                return lines + [f"| {source.stem} by hand | other results than the example | | | |"]
            other = measure(hand, top, work)
            lines.append(row(f"{source.stem} by hand", *other))
            lines.append(ratios(source.stem, found, other))
    return lines


def main(names):
    if not shutil.which("yosys"):
        print("cells: yosys is not there, skipped")
        return
    sources = [s for s in sorted(examples.EXAMPLES.glob("*.c")) if not names or s.stem in names]
    heads = " | ".join(family.name for family in FAMILIES)
    print(f"| Module | {heads} | MHz |\n|{'---|' * (len(FAMILIES) + 2)}")
    with concurrent.futures.ThreadPoolExecutor(max(1, os.cpu_count() // 2)) as pool:
        for lines in pool.map(one, sources):
            print("\n".join(lines), flush=True)


if __name__ == "__main__":
    main(sys.argv[1:])
