#!/usr/bin/env python3
"""Sets the gates that `blast` makes of each example's module beside those of Yosys' `aigmap` after its optimisations. Enables of registers are gates in both.

    tools/graph_sizes.py [NAME ..]   all examples, or these

Prints a row for each module and the geometric mean of the ratios. A module that is too large for a graph is left out. HLS names the program, else it is ./hls.
"""
import concurrent.futures
import math
import os
import pathlib
import re
import shutil
import subprocess
import sys
import tempfile

import examples
import graph

SCRIPT = "read_verilog {text}; hierarchy -auto-top; proc; opt -nodffe -nosdff; memory; opt -nodffe -nosdff; techmap; opt -nodffe -nosdff; dffunmap; techmap; opt -nodffe -nosdff; aigmap; opt_clean; stat"


def one(source):
    """The gates of the graph of an example's module, and those by Yosys; None if it is too large."""
    example = examples.Example(source)
    with tempfile.TemporaryDirectory() as folder:
        module = pathlib.Path(folder) / "made.v"
        examples.run([examples.HLS, "synth", source, module, module.with_suffix(".rep"), "--top", example.top, *example.options])
        ours = graph.blasted(module, folder)
        if not ours:
            return None
        said = subprocess.run(["yosys", "-p", SCRIPT.format(text=module)], capture_output=True, text=True).stdout
        cells = dict(re.findall(r"^\s+(\$_\w+_)\s+(\d+)$", said.split("Number of cells:")[-1], re.M))
        return source.stem, len(ours.gates), int(cells.get("$_AND_", 0)) + int(cells.get("$_NAND_", 0))


def main(names):
    if not shutil.which("yosys"):
        print("graph sizes: yosys is not there, skipped")
        return
    sources = [s for s in sorted(examples.EXAMPLES.glob("*.c")) if not names or s.stem in names]
    with concurrent.futures.ThreadPoolExecutor(os.cpu_count()) as pool:
        rows = [row for row in pool.map(one, sources) if row]
    print("| Module | Gates | by `aigmap` | Ratio |\n|---|---|---|---|")
    for name, ours, theirs in rows:
        print(f"| {name} | {ours:,} | {theirs:,} | {ours / theirs:.2f} |")
    print(f"geometric mean: {math.exp(sum(math.log(ours / theirs) for _, ours, theirs in rows) / len(rows)):.2f}")


if __name__ == "__main__":
    main(sys.argv[1:])
