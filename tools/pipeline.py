#!/usr/bin/env python3
"""Compiles the three stages of examples/pipeline, links them, and runs the linked module on drawn pixels with stalls at both ends.

    tools/pipeline.py [DEPTH [COUNT]]   with queues of so many items (2), on so many pixels (200)

Icarus Verilog and Verilator drive the module `hls_chain` through its pins; the levels that are taken out are compared with the same functions composed in C, by gcc. It also says
how many cycles pass from item to item where nothing stalls. A tool that is missing is named and skipped. HLS names the program, else it is ./hls.
"""
import pathlib
import random
import shutil
import sys
import tempfile

import examples

STAGES = ("gray", "smooth", "threshold")
FOLDER = examples.EXAMPLES / "pipeline"


def link(work, depth):
    """The linked module of the stages."""
    for name in STAGES:
        made = examples.run([examples.HLS, "synth", FOLDER / f"{name}.c", work / f"{name}.v", work / f"{name}.rep", "--top", name])
        if made.returncode:
            sys.exit(f"pipeline: {name}: {made.stdout.strip()}")
    linked = examples.run([examples.HLS, "link", work / "m.v", depth, *(work / f"{name}.v" for name in STAGES)])
    if linked.returncode:
        sys.exit(f"pipeline: {linked.stdout.strip()}")


def by_gcc(work, pixels):
    """The levels of these pixels, by the composed functions."""
    includes = "".join(f'#include "{FOLDER / name}.c"\n' for name in STAGES)
    rows = ", ".join(f"{pixel}u" for pixel in pixels)
    (work / "h.c").write_text(f'#include <stdio.h>\n{includes}static const unsigned pixels[] = {{{rows}}};\nint main(void) {{ for (unsigned i = 0; i < {len(pixels)}; i++) printf("%u\\n", threshold(smooth(gray(pixels[i])))); }}\n')
    built = examples.run(["gcc", "-std=c11", "-w", "-o", work / "h", work / "h.c"])
    return examples.run([work / "h"]).stdout.split() if built.returncode == 0 else [built.stderr]


def bench(pixels, stalls):
    """A test bench that offers the pixels in order and takes the levels; with stalls it waits at random at both ends."""
    chance = "$random & 1" if stalls else "1"
    rows = "\n".join(f"      {k}: pixel = {pixel};" for k, pixel in enumerate(pixels))
    return f"""module bench;
  reg clk = 0, reset = 1, in_valid = 0, out_take = 0; integer given = 0, taken = 0, cycle = 0, first = 0;
  wire in_room, out_valid; wire [7:0] out_data; reg [31:0] pixel;
  always @* case (given)
{rows}
      default: pixel = 0;
    endcase
  hls_chain dut (.clk(clk), .reset(reset), .in_valid(in_valid), .in_data(pixel), .out_take(out_take), .in_room(in_room), .out_valid(out_valid), .out_data(out_data));
  always #5 clk = ~clk;
  initial begin
    @(negedge clk); reset = 0; @(negedge clk);
    while (taken < {len(pixels)} && cycle < 1000000) begin
      in_valid = given < {len(pixels)} && ({chance}); out_take = {chance};
      #1;
      if (out_valid && out_take) begin $display("level %0d", out_data); taken = taken + 1; if (taken == 1) first = cycle; end
      if (in_valid && in_room) begin @(posedge clk); #1 given = given + 1; end
      @(negedge clk); cycle = cycle + 1;
    end
    $display("cycles %0d", cycle - first); $finish;
  end
endmodule
"""


def main(words):
    depth, count = (int(word) for word in (words + ["2", "200"][len(words):])[:2])
    rand = random.Random(depth)
    pixels = [rand.randrange(1 << 24) for _ in range(count)]
    simulators = {}
    if shutil.which("iverilog"):
        simulators["Icarus Verilog"] = examples.by_icarus
    if examples.can_verilate():
        simulators["Verilator"] = examples.by_verilator
    if not simulators or not shutil.which("gcc"):
        print("pipeline: gcc, or both Icarus Verilog and Verilator 5, are not there, skipped")
        return 0
    wrong = 0
    with tempfile.TemporaryDirectory() as name:
        work = pathlib.Path(name)
        link(work, depth)
        wanted = by_gcc(work, pixels)
        for simulator, runs in simulators.items():
            for stalls in (False, True):
                (work / "bench.v").write_text(bench(pixels, stalls))
                shown = runs(None, work)
                levels = [line.split()[1] for line in shown if line.startswith("level ")]
                wrong += levels != wanted
                cycles = next((int(line.split()[1]) for line in shown if line.startswith("cycles ")), 0)
                said = f"{cycles / (count - 1):.1f} cycles an item" if levels == wanted else f"WRONG: {len(levels)} levels, {shown[-1:]}"
                print(f"pipeline: {simulator}, {'stalls at both ends' if stalls else 'no stalls'}: {said}")
    return 1 if wrong else 0


if __name__ == "__main__":
    sys.exit(main(sys.argv[1:]))
