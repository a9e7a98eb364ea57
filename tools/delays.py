#!/usr/bin/env python3
"""Sets the delay that `timing` gives beside the longest path that nextpnr finds on an iCE40, for the examples.

    tools/delays.py [NAME ..]   all examples, or these

Prints a row for each module, by delay, and the rank correlation of the two columns. HLS names the program, else it is ./hls.
"""
import concurrent.futures
import os
import pathlib
import shutil
import sys
import tempfile

import cells
import examples


def one(source):
    """The delay of the module of an example, the wires of its path, and nextpnr's path in nanoseconds."""
    example = examples.Example(source)
    with tempfile.TemporaryDirectory() as folder:
        work = pathlib.Path(folder)
        module = work / "made.v"
        examples.run([examples.HLS, "synth", source, module, work / "made.rep", "--top", example.top, *example.options])
        said = examples.run([examples.HLS, "timing", module]).stdout.split()
        return source.stem, int(said[1]), len(said) - 3, cells.path_of(module, "hls_" + example.top, work)


def ranks(values):
    """The rank of each value; equal ones share the mean of theirs."""
    order = sorted(values)
    return [order.index(it) + (order.count(it) - 1) / 2 for it in values]


def correlation(one_side, other):
    """The rank correlation of two columns (Spearman)."""
    a, b = ranks(one_side), ranks(other)
    mean = (len(a) - 1) / 2
    top = sum((x - mean) * (y - mean) for x, y in zip(a, b))
    squares = sum((x - mean) ** 2 for x in a) * sum((y - mean) ** 2 for y in b)
    return top / squares**0.5 if squares else 0


def main(names):
    if not shutil.which("yosys") or not shutil.which("nextpnr-ice40"):
        print("delays: yosys or nextpnr-ice40 is not there, skipped")
        return
    sources = [s for s in sorted(examples.EXAMPLES.glob("*.c")) if not names or s.stem in names]
    with concurrent.futures.ThreadPoolExecutor(max(1, os.cpu_count() // 2)) as pool:
        rows = [row for row in pool.map(one, sources) if row[3]]
    print("| Module | Delay | Wires | nextpnr, ns |\n|---|---|---|---|")
    for name, delay, wires, path in sorted(rows, key=lambda row: row[1]):
        print(f"| {name} | {delay} | {wires} | {path:.1f} |")
    print(f"rank correlation of {len(rows)} modules: {correlation([row[1] for row in rows], [row[3] for row in rows]):.2f}")


if __name__ == "__main__":
    main(sys.argv[1:])
