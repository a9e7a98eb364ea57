#!/usr/bin/env python3
"""Draws the schedule of a function: a whole run of it, or each pipelined loop of a report.

    tools/schedule_picture.py SRC RUN --top NAME [-o FOLDER] [--iterations N] [OPTION ..]   writes FOLDER/NAME_run.svg
    tools/schedule_picture.py REPORT FOLDER [ITERATIONS]   writes FOLDER/NAME.svg, and NAME_2.svg and so on for further loops
    tools/schedule_picture.py --check   compares the pictures of the examples with the known cycles, and with the stores of the C program

The first form compiles the source and draws the run of the run file over clock cycles: the blocks by the points of the report, loops with their
iterations, calls, and what the multipliers, dividers and memory ports do, which is found by a simulation of the module. Of a loop with many
iterations the first N (3) and the last are drawn. The options are those of `synth` and `cosim`. HLS names the program, else it is ./hls.

In the second form each row is an iteration, with what the report says of it: the initiation interval, the exit, the chain of dependences that
bounds the interval, and the block after the loop. The report does not say where an operation begins within its iteration, so the first
operation of the chain is drawn at the beginning.
"""
import pathlib
import sys
import tempfile
import xml.etree.ElementTree

import c_run
import timeline
from compiled import ROOT, Arguments, Compiled
from netlist import Run

MOST_CYCLES = 4000
MOST_EVENTS = 400_000
ROW, LEFT, TOP = 30, 120, 70
STYLE = "font-family='sans-serif' font-size='12'"


class Loop:
    def __init__(self, words):
        self.place, self.path = words[1], words[2]
        self.interval, self.exit = int(words[4]), int(words[6])
        self.edges, self.behind = [], 0

    def chain(self):
        """The edges in turn, from the node that an earlier iteration leads to."""
        first = next((k for k, edge in enumerate(self.edges) if edge[3] > 0), -1) + 1
        return self.edges[first:] + self.edges[:first]


def loops(report):
    """The top function's name and the loops of a report, each with the length of the block after it."""
    found, ends, top = [], {}, ""
    for line in report.splitlines():
        words = line.split()
        if words[0] == "top":
            top = words[1]
        elif words[0] == "cost" and words[2] == "end":
            ends[words[3], words[4]] = int(words[1])
        elif words[0] == "loop":
            found.append(Loop(words))
        elif words[0] == "edge":
            found[-1].edges.append(tuple(map(int, words[1:])))
    for loop in found:
        loop.behind = ends[loop.place, loop.path] - loop.exit - 2
    return top, found


class Picture:
    def __init__(self, loop, count):
        self.loop, self.count = loop, count
        self.cycles = loop.interval * count + loop.exit + 2 + loop.behind
        self.cell = max(5, min(34, 860 // self.cycles))
        self.parts = []

    def text(self, x, y, words, more=""):
        self.parts.append(f"<text x='{x:.0f}' y='{y:.0f}' {STYLE} {more}>{words}</text>")

    def at(self, cycle):
        return LEFT + cycle * self.cell

    def box(self, row, cycle, length, colour, words=""):
        y = TOP + row * ROW
        self.parts.append(f"<rect x='{self.at(cycle)}' y='{y}' width='{length * self.cell}' height='{ROW - 8}' fill='{colour}' stroke='#555'/>")
        if words and len(words) * 7 < length * self.cell:
            self.text(self.at(cycle + length / 2), y + 15, words, "text-anchor='middle'")

    def axis(self, rows):
        step = 1 if self.cell > 14 else 10
        for cycle in range(self.cycles + 1):
            if cycle % step == 0:
                x, bottom = self.at(cycle), TOP + rows * ROW
                self.parts.append(f"<line x1='{x}' y1='{TOP - 6}' x2='{x}' y2='{bottom}' stroke='#ddd'/>")
                if cycle < self.cycles:
                    self.text(self.at(cycle + 0.5), TOP - 10, str(cycle), "text-anchor='middle' fill='#555'")

    def iteration(self, k):
        """Row k + 1: all of an iteration that counts is done an interval and the exit after its beginning."""
        loop, begin = self.loop, 1 + k * self.loop.interval
        self.text(8, TOP + (k + 1) * ROW + 15, f"iteration {k}")
        self.box(k + 1, begin, loop.interval + loop.exit, "#e8eef7")
        time = begin
        for origin, _, latency, distance in loop.chain():
            if latency:
                self.box(k + 1, time, latency, "#f4b183", str(origin))
            time += latency
            if distance and k + distance < self.count:
                x, y = self.at(time), TOP + (k + 1) * ROW + ROW - 8
                self.parts.append(f"<line x1='{x}' y1='{y}' x2='{x}' y2='{y + 8 + (distance - 1) * ROW}' stroke='#c00' stroke-width='2' marker-end='url(#tip)'/>")

    def drawn(self, title):
        rows = self.count + 3
        loop, end = self.loop, 1 + self.count * self.loop.interval
        self.axis(rows)
        self.text(8, TOP + 15, "first values")
        self.box(0, 0, 1, "#d9d9d9")
        for k in range(self.count):
            self.iteration(k)
        self.text(8, TOP + (self.count + 1) * ROW + 15, "test fails, exit")
        self.box(self.count + 1, end, loop.exit + 1, "#d9d9d9")
        if loop.behind:
            self.text(8, TOP + (self.count + 2) * ROW + 15, "block after it")
            self.box(self.count + 2, end + loop.exit + 1, loop.behind, "#d5e8d4")
        self.text(8, 20, title, "font-weight='bold'")
        note = "orange: the operations, by their numbers in the report, that bound the initiation interval" if loop.edges else "no dependence bounds the initiation interval"
        self.text(8, 38, note)
        width, height = self.at(self.cycles) + 20, TOP + rows * ROW + 10
        tip = "<defs><marker id='tip' markerWidth='6' markerHeight='6' refX='3' refY='3' orient='auto'><path d='M0,0 L6,3 L0,6 z' fill='#c00'/></marker></defs>"
        head = f"<svg xmlns='http://www.w3.org/2000/svg' width='{max(width, 640)}' height='{height}'>{tip}<rect width='100%' height='100%' fill='white'/>"
        return head + "\n" + "\n".join(self.parts) + "\n</svg>\n"


# ---- a whole run


class Schedule:
    """The run of a compiled source: its report, the tree of its parts, and its units, which are None for a long run."""

    def __init__(self, compiled):
        self.compiled = compiled
        self.report = timeline.Report(compiled.report.read_text())
        values = {pin.name: pin.values for pin in compiled.pins}
        self.run = c_run.Run(compiled.items, compiled.top, values, MOST_EVENTS)
        self.root = timeline.Builder(self.report, self.run.events).root
        self.circuit = Run(compiled.module.read_text(), compiled, MOST_CYCLES)
        self.units = self.circuit.units() if self.circuit.cycles is not None else None

    def line_of(self, place):
        return self.compiled.text.line(int(place.split(":")[0])).strip()

    def drawn(self, shown):
        c = self.compiled
        title = f"{c.top} of {c.source.name} with {c.run.name}: done in cycle {self.root.end}"
        return timeline.Picture(self.report, self.root, self.units, shown, title, self.line_of).drawn()


def draw(words):
    arguments = Arguments(words, 2, __doc__, ("--iterations",))
    shown = arguments.own.get("--iterations", "3")
    if not shown.isdigit() or int(shown) < 1:
        sys.exit(__doc__)
    folder = pathlib.Path(arguments.folder)
    folder.mkdir(parents=True, exist_ok=True)
    with tempfile.TemporaryDirectory() as work:
        try:
            picture = Schedule(Compiled(*arguments.files, arguments, pathlib.Path(work))).drawn(int(shown))
        except c_run.Limit:
            sys.exit(f"schedule picture: the run passes more than {MOST_EVENTS} points")
    name = folder / f"{arguments.top}_run.svg"
    name.write_text(picture)
    print(name)


# ---- the check after the gate


def check_one(source, run, options):
    """What is wrong with the picture of a run, if anything."""
    arguments = Arguments([source, run, *options], 2, __doc__)
    with tempfile.TemporaryDirectory() as work:
        compiled = Compiled(source, run, arguments, pathlib.Path(work))
        schedule = Schedule(compiled)
        if schedule.root.end != compiled.cycles:
            return f"its parts end in cycle {schedule.root.end}, wanted {compiled.cycles}"
        if schedule.circuit.cycles not in (None, compiled.cycles):
            return f"the simulated module takes {schedule.circuit.cycles} cycles, wanted {compiled.cycles}"
        if schedule.units is not None:
            difference = other_stores(schedule)
            if difference:
                return difference
        xml.etree.ElementTree.fromstring(schedule.drawn(3))
    return None


def other_stores(schedule):
    """Whether the ports of an array parameter store as often as the C program assigns an element of it."""
    for pin in schedule.compiled.arrays():
        found = sum(word == "store" for unit in schedule.units if unit.name.split(",")[0] == f"memory {pin.name}" for _, word in unit.uses)
        if found != schedule.run.stores[pin.name]:
            return f"{found} stores of {pin.name} are drawn, wanted {schedule.run.stores[pin.name]}"
    return None


def check():
    cases = []
    for source in sorted((ROOT / "examples").glob("*.c")):
        top = source.stem if f" {source.stem}(" in source.read_text() else "f"
        cases += [(source, source.with_suffix(".run"), ["--top", top, *more]) for more in ([], ["--plain"], ["--ports", "2", "--mul", "2"])]
    for source in sorted((ROOT / "corpus" / "programs").glob("*.c")):
        cases.append((source, source.with_suffix(".run"), source.with_suffix(".opts").read_text().split()))
    wrong = 0
    for source, run, options in cases:
        difference = check_one(source, run, options)
        if difference:
            wrong += 1
            print(f"{source.stem} {' '.join(options)}: {difference}")
    print(f"schedule pictures: {len(cases) - wrong} of {len(cases)} as wanted")
    sys.exit(1 if wrong else 0)


def main(words):
    if words == ["--check"]:
        check()
    if any(word.split("=")[0] == "--top" for word in words):
        draw(words)
        return
    if len(words) not in (2, 3):
        sys.exit(__doc__)
    top, found = loops(pathlib.Path(words[0]).read_text())
    count = int(words[2]) if words[2:] else 4
    for k, loop in enumerate(found):
        title = f"{top}, loop at {loop.place}: initiation interval {loop.interval}, exit {loop.exit}; n iterations take {loop.interval} n + {loop.exit + 2} cycles"
        name = pathlib.Path(words[1]) / (top + (f"_{k + 1}" if k else "") + ".svg")
        name.write_text(Picture(loop, count).drawn(title))
        print(name)


if __name__ == "__main__":
    main(sys.argv[1:])
