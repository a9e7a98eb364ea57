#!/usr/bin/env python3
"""Cells of linked stages beside the sum of those of the stages.

    tools/chain_cells.py [DEPTH ..]   with queues of so many items (2, 16, 256)

Links one to four stages of 32 bits, maps the linked module and each stage with Yosys, and prints LUTs and flip-flops for each queue, of which there is one more than stages. HLS names the program, else it is ./hls.
"""
import pathlib
import shutil
import sys
import tempfile

import cells
import examples

STAGE = "unsigned f(unsigned a){return a*3u+1u;}\n"
COUNTS = (1, 2, 4)


def counted(module, top):
    """LUTs, flip-flops and memory blocks on each family."""
    found = []
    for family in cells.FAMILIES:
        done = examples.run(["yosys", "-p", f"read_verilog {module}; {family.script} -top {top}; stat"])
        found.append(family.counted(done.stdout.split("Number of cells:")[-1])[:3])
    return found


def main(words):
    if not shutil.which("yosys"):
        print("chain cells: yosys is not there, skipped")
        return
    heads = " | ".join(family.name for family in cells.FAMILIES)
    print(f"| Stages, depth | {heads} |\n|{'---|' * (len(cells.FAMILIES) + 1)}")
    with tempfile.TemporaryDirectory() as name:
        work = pathlib.Path(name)
        (work / "s.c").write_text(STAGE)
        for k in range(max(COUNTS)):
            examples.run([examples.HLS, "synth", work / "s.c", work / f"s{k}.v", work / "s.rep", "--top", "f"])
        stage = counted(work / "s0.v", "hls_f")
        for depth in words or ("2", "16", "256"):
            for count in COUNTS:
                examples.run([examples.HLS, "link", work / "chain.v", depth, *(work / f"s{k}.v" for k in range(count))])
                linked = counted(work / "chain.v", "hls_chain")
                rows = [" ".join(f"{(whole - count * part) / (count + 1):.0f}" for whole, part in zip(one, other)) for one, other in zip(linked, stage)]
                print(f"| {count}, {depth} | {' | '.join(rows)} |")


if __name__ == "__main__":
    main(sys.argv[1:])
