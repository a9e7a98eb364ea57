#!/usr/bin/env python3
"""What `--period` does to the examples: cycles of their runs, cells and clock on an iCE40, and the time of a run.

    tools/periods.py [NAME ..]   these examples, or some

Yosys and nextpnr-ice40 give LUTs and the clock, as tools/cells.py does. HLS names the program, else it is ./hls.
"""
import concurrent.futures
import os
import pathlib
import re
import shutil
import sys
import tempfile

import cells
import examples

NAMES = ("crc32", "fir", "sha256", "adpcm", "integer_root", "dct8x8", "median", "traffic_light")
PERIODS = (0, 2, 8, 33, 64, 128)


def one(source, period):
    """The row of an example at a period: cycles, LUTs, megahertz and microseconds of a run."""
    example = examples.Example(source)
    words = ["--period", str(period)] if period else []
    with tempfile.TemporaryDirectory() as folder:
        work = pathlib.Path(folder)
        module, report = work / "made.v", work / "made.rep"
        examples.run([examples.HLS, "synth", source, module, report, "--top", example.top, *example.options, *words])
        said = examples.run([examples.HLS, "cosim", source, module, report, source.with_suffix(".run"), "--top", example.top]).stdout
        cycles = re.search(r"^verilog (\d+)$", said, re.M)
        agree = said.rstrip().endswith("agree")
        luts = cells.FAMILIES[0].counted(examples.run(["yosys", "-p", f"read_verilog {module}; synth_ice40 -top hls_{example.top}; stat"]).stdout.split("Number of cells:")[-1])[0]
        path = cells.path_of(module, "hls_" + example.top, work)
        return int(cycles[1]) if cycles and agree else None, luts, 1000 / path if path else None


def main(names):
    if not shutil.which("yosys") or not shutil.which("nextpnr-ice40"):
        print("periods: yosys or nextpnr-ice40 is not there, skipped")
        return
    sources = [examples.EXAMPLES / f"{name}.c" for name in names or NAMES]
    cases = [(source, period) for source in sources for period in PERIODS]
    with concurrent.futures.ThreadPoolExecutor(max(1, os.cpu_count() // 2)) as pool:
        rows = dict(zip(cases, pool.map(lambda it: one(*it), cases)))
    print("| Example | " + " | ".join(f"period {it}" if it else "without" for it in PERIODS) + " |\n|---|" + "---|" * len(PERIODS))
    for source in sources:
        found = [rows[source, period] for period in PERIODS]
        print(f"| {source.stem} | " + " | ".join(f"{cycles} {luts} {clock:.0f} {cycles / clock:.2f}" if cycles and clock else "-" for cycles, luts, clock in found) + " |")


if __name__ == "__main__":
    main(sys.argv[1:])
