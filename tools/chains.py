#!/usr/bin/env python3
"""Links drawn stages, and compares the linked module with a chain of boxes, cycle by cycle.

    tools/chains.py [COUNT [SEED]]   so many chains (20), from this seed on (1)

A chain has 1 to 16 stages and queues of 1 to 1,024 items. `synth` compiles each stage, `link` links them, and Icarus Verilog runs the module from random contents on a drawn
stream of items and stalls. A model of the chain, in which each stage is a box that takes its result's cycles, gives the outputs that are expected. HLS names the program, else it is ./hls.
"""
import concurrent.futures
import os
import pathlib
import random
import shutil
import subprocess
import sys
import tempfile

ROOT = pathlib.Path(__file__).resolve().parent.parent
HLS = os.environ.get("HLS", str(ROOT / "hls"))
CYCLES = 600


def low(value, bits):
    return value & (1 << bits) - 1


def signed(value, bits):
    return low(value, bits) - (1 << bits if value >> bits - 1 & 1 else 0)


def loop_sum(a):
    return sum(range(low(a, 3)))


# The type of the argument and that of the result in bits, the source of a function `f`, and its result for the bits of an argument.
STAGES = [
    (32, 32, "int f(int a){return (int)((unsigned)a+1);}", lambda a: a + 1),
    (32, 32, "unsigned f(unsigned a){return a*3u;}", lambda a: a * 3),
    (32, 32, "int f(int a){return a/7;}", lambda a: abs(signed(a, 32)) // 7 * (1 if signed(a, 32) >= 0 else -1)),
    (32, 32, "int f(int a){int s=0; for(int i=0;i<(a&7);i++) s=s+i; return s;}", loop_sum),
    (32, 64, "long f(int a){return (long)a<0?-1:(long)a*2;}", lambda a: -1 if signed(a, 32) < 0 else 2 * a),
    (64, 32, "unsigned f(unsigned long a){return (unsigned)(a>>5);}", lambda a: a >> 5),
    (32, 8, "unsigned char f(unsigned a){return (unsigned char)(a^(a>>9));}", lambda a: a ^ a >> 9),
    (8, 32, "int f(unsigned char a){if(a&1) return a; return 1000-a;}", lambda a: a if a & 1 else 1000 - a),
    (64, 64, "unsigned long f(unsigned long a){return a+(a<<3);}", lambda a: a + (a << 3)),
]


def hls(*words):
    return subprocess.run([HLS, *map(str, words)], capture_output=True, text=True, env={**os.environ, "HLS_PLAIN": "1"})


class Stage:
    """A stage in a folder: its module, its result, and its cycles by the argument."""

    def __init__(self, kind, folder, name):
        self.taken, self.given, self.source, self.result = STAGES[kind]
        self.folder, self.name, self.counts = folder, name, {}
        (folder / f"{name}.c").write_text(self.source + "\n")
        made = hls("synth", folder / f"{name}.c", folder / f"{name}.v", folder / f"{name}.rep", "--top", "f")
        if made.returncode:
            raise ValueError(f"{self.source}: {made.stdout.strip()}")

    def cycles(self, argument):
        """The cycles of a run, by `cosim`; they depend on the low bits of the argument and on its sign alone."""
        key = low(argument, 3), argument >> self.taken - 1
        if key not in self.counts:
            shown = argument if self.taken != 32 or "unsigned a" in self.source else signed(argument, 32)
            (self.folder / f"{self.name}.run").write_text(f"a = {shown}\n")
            said = hls("cosim", *(self.folder / f"{self.name}.{it}" for it in ("c", "v", "rep", "run")), "--top", "f").stdout
            self.counts[key] = next(int(line.split()[1]) for line in said.splitlines() if line.startswith("verilog "))
        return self.counts[key]


class Chain:
    """Boxes with queues of at most `depth` items before, between and behind them."""

    def __init__(self, stages, depth):
        self.stages, self.depth = stages, depth
        self.queues = [[] for _ in range(len(stages) + 1)]
        self.left = [None] * len(stages)  # cycles until a box is done, None where it is idle
        self.results, self.fresh = [0] * len(stages), [False] * len(stages)

    def outputs(self):
        last = self.queues[-1]
        return len(self.queues[0]) < self.depth, bool(last), last[0] if last else None

    def step(self, valid, data, take):
        """One cycle: all that happens reads the state before it."""
        room, full, _ = self.outputs()
        count = len(self.stages)
        gives = [self.left[k] == 0 and self.fresh[k] and len(self.queues[k + 1]) < self.depth for k in range(count)]
        starts = [self.left[k] in (None, 0) and (not self.fresh[k] or gives[k]) and bool(self.queues[k]) for k in range(count)]
        items = [self.queues[k][0] if starts[k] else None for k in range(count)]
        if take and full:
            self.queues[-1].pop(0)
        for k, stage in enumerate(self.stages):
            if gives[k]:
                self.queues[k + 1].append(self.results[k])
            if starts[k]:
                self.queues[k].pop(0)
                self.left[k] = stage.cycles(items[k]) - 1
                self.results[k] = low(stage.result(items[k]), stage.given)
            elif self.left[k]:
                self.left[k] -= 1
            self.fresh[k] = starts[k] or self.fresh[k] and not gives[k]
        if valid and room:
            self.queues[0].append(data)


def drawn_stages(rand, folder):
    """The stages of a chain: each takes what the one before gives."""
    kinds = [rand.randrange(len(STAGES))]
    for _ in range(rand.choice((0, 1, 2, 3, 15))):
        kinds.append(rand.choice([k for k, it in enumerate(STAGES) if it[0] == STAGES[kinds[-1]][1]]))
    return [Stage(kind, folder, f"s{k}") for k, kind in enumerate(kinds)]


def drawn_stream(rand, bits):
    """For each cycle whether an item is offered, the item, and whether one is taken; the chances change from time to time."""
    rows, offers, takes = [], 0.5, 0.5
    for cycle in range(CYCLES):
        if cycle % 60 == 0:
            offers, takes = rand.choice((0.1, 0.5, 1)), rand.choice((0, 0.1, 0.5, 1))
        rows.append((int(rand.random() < offers), low(rand.getrandbits(64) >> rand.randrange(64), bits), int(rand.random() < takes)))
    return rows


def bench(stream, taken, given, seed):
    """A test bench that resets the chain in the first cycle, and prints its outputs in each one."""
    rows = "\n".join(f"{valid:x}{data:016x}{take:x}" for valid, data, take in stream)
    return rows, f"""module bench;
  reg clk = 0, reset = 1; reg [71:0] rows [0:{len(stream) - 1}]; reg [71:0] row = 0; integer i;
  wire in_room, out_valid; wire [{given - 1}:0] out_data;
  hls_chain dut (.clk(clk), .reset(reset), .in_valid(row[68]), .in_data(row[{taken + 3}:4]), .out_take(row[0]), .in_room(in_room), .out_valid(out_valid), .out_data(out_data));
  always #5 clk = ~clk;
  initial begin
    $readmemh("rows", rows);
    @(negedge clk); reset = 0;
    for (i = 0; i < {len(stream)}; i = i + 1) begin
      row = rows[i]; #1 $display("%b %b %h", in_room, out_valid, out_data); @(negedge clk);
    end
    $finish;
  end
endmodule
"""


def compare(seed):
    """What differs in the chain of this seed, or None, and its size."""
    rand = random.Random(seed)
    with tempfile.TemporaryDirectory() as name:
        folder = pathlib.Path(name)
        stages = drawn_stages(rand, folder)
        depth = rand.choice((1, 2, 3, 4, 7, 64, 1024))
        said = f"{len(stages)} stages, depth {depth}"
        linked = hls("link", folder / "chain.v", depth, *(folder / f"{it.name}.v" for it in stages))
        if linked.stdout != f"linked {len(stages)} stages\n":
            return f"link: {linked.stdout.strip()}", said
        stream = drawn_stream(rand, stages[0].taken)
        rows, text = bench(stream, stages[0].taken, stages[-1].given, seed)
        (folder / "rows").write_text(rows + "\n")
        (folder / "bench.v").write_text(text)
        built = subprocess.run(["iverilog", "-g2005", "-o", "bench", "bench.v", "chain.v"], cwd=folder, capture_output=True, text=True)
        if built.returncode:
            return built.stderr.strip()[-300:], said
        found = [line.split() for line in subprocess.run(["vvp", "-n", "bench"], cwd=folder, capture_output=True, text=True).stdout.splitlines() if line.count(" ") == 2]
        chain, count = Chain(stages, depth), 0
        for cycle, row in enumerate(stream):
            room, full, data = chain.outputs()
            wanted = [str(int(room)), str(int(full)), data]
            shown = found[cycle][:2] + [int(found[cycle][2], 16) if full and "x" not in found[cycle][2] else None]
            if shown != wanted:
                return f"cycle {cycle + 1}: wanted {wanted}, found {found[cycle]}", said
            count += full and row[2]
            chain.step(*row)
        return None, f"{said}, {count} items out"


def main(words):
    count, seed = (int(word) for word in (words + ["20", "1"][len(words):])[:2])
    if not shutil.which("iverilog"):
        print("chains: iverilog is not there, skipped")
        return 0
    wrong = 0
    with concurrent.futures.ThreadPoolExecutor(os.cpu_count()) as pool:
        for k, (difference, said) in enumerate(pool.map(compare, range(seed, seed + count))):
            if difference:
                wrong += 1
                print(f"chain {seed + k} ({said}): {difference}")
    print(f"chains: {count - wrong} of {count} as the chain of boxes")
    return 1 if wrong else 0


if __name__ == "__main__":
    sys.exit(main(sys.argv[1:]))
