#!/usr/bin/env python3
"""Runs a run file on the module in Icarus Verilog, and leaves the waves of the pins as a VCD and as a picture.

    tools/waves.py SRC RUN --top NAME [-o FOLDER] [OPTION ..]   writes FOLDER/hls_NAME.vcd and FOLDER/hls_NAME.svg, beside what testbench.py writes
    tools/waves.py --check                                      does so with examples, and compares the waves with the known cycles

The VCD has the pins and all that is inside the module (`dut`). The picture has a column for each clock cycle: inputs are held through it, and
outputs are what is read before the edge that ends it. A value is shown where it matters: an address in an access, an element in the cycle
after its read, the result while `done` is high. Long rows of cycles that are alike are left out in the middle. HLS names the program, else it
is ./hls.
"""
import pathlib
import shutil
import subprocess
import sys
import tempfile
import xml.etree.ElementTree

import testbench
from compiled import Arguments, Compiled
from svg import Drawing

LEFT, TOP, ROW, HIGH = 90, 70, 30, 20
CONTROL = ("reset", "start", "h_en", "h_we", "ready", "done")
FIRST, LAST = 3, 2


# ---- the waves


def columns(path, bench):
    """The values of the testbench's signals just before each rising edge of the clock; None for one that is not known."""
    names, values, before, found, scope = {}, {}, {}, [], []
    for line in path.open():
        words = line.split()
        if not words:
            continue
        if words[0] == "$scope":
            scope.append(words[2])
        elif words[0] == "$upscope":
            scope.pop()
        elif words[0] == "$var" and scope == [bench]:
            names[words[3]] = words[4]
        elif words[0][0] == "#":
            before = dict(values)
        elif words[0][0] in "01xzXZ" or words[0][0] in "bB":
            number, code = (words[0][1:], words[1]) if words[0][0] in "bB" else (words[0][0], words[0][1:])
            if code in names:
                values[names[code]] = int(number, 2) if set(number) <= {"0", "1"} else None
                if names[code] == "clk" and values["clk"] == 1:
                    found.append(before)
    return found


def kept(found):
    """The columns that are shown, in rows without a gap: of columns that are alike the first and the last ones."""
    rows, k = [[]], 0
    while k < len(found):
        end = k
        while end < len(found) and all(found[end].get(pin) == found[k].get(pin) for pin in (*CONTROL, "h_sel")):
            end += 1
        if end - k > FIRST + LAST + 1:
            rows[-1] += range(k, k + FIRST)
            rows.append(list(range(end - LAST, end)))
        else:
            rows[-1] += range(k, end)
        k = end
    return rows


# ---- the picture


def signed(value, kind):
    """The number of this type that the low bits of a value are."""
    value %= 2**kind.bits
    return value - 2**kind.bits if kind.is_signed and value >= 2 ** (kind.bits - 1) else value


class Picture:
    def __init__(self, compiled, found):
        self.compiled, self.found, self.drawing = compiled, found, Drawing()
        self.rows = kept(found)
        self.arrays = {pin.number: pin for pin in compiled.arrays()}
        self.pins = self.shown_pins()
        self.cell = max(34, 10 + max((7 * len(self.value(pin, k)) for pin in self.pins for row in self.rows for k in row), default=0))
        self.place, x = {}, max(LEFT, 24 + max(7 * len(self.label(pin)) for pin in self.pins))
        for row in self.rows:
            for k in row:
                self.place[k] = x
                x += self.cell
            x += 24

    def shown_pins(self):
        host = ["h_en", "h_we", *(["h_sel"] if len(self.arrays) > 1 else []), "h_addr", "h_wdata", "h_rdata"] if self.arrays else []
        scalars = [f"arg_{pin.number}" for pin in self.compiled.scalars()]
        return ["clk", "reset", "start", *scalars, *host, "ready", "done", *(["ret"] if self.compiled.kind() else [])]

    def label(self, pin):
        """The name of the pin, with that of the parameter."""
        return f"{pin} ({self.compiled.scalars()[int(pin[4:])].name})" if pin.startswith("arg_") else pin

    def is_bus(self, pin):
        return pin not in ("clk", *CONTROL)

    def value(self, pin, k):
        """What is shown of a bus in a column: a number where it matters, else nothing."""
        column, earlier = self.found[k], self.found[k - 1] if k else {}
        if pin.startswith("arg_"):
            return str(self.compiled.scalars()[int(pin[4:])].values[0]) if column.get("start") else ""
        if pin == "ret":
            return self.number(column.get("ret"), self.compiled.kind()) if column.get("done") else ""
        if pin == "h_rdata":
            is_read = earlier.get("h_en") and not earlier.get("h_we") and earlier.get("ready") and not earlier.get("start")
            return self.number(column.get("h_rdata"), self.arrays[earlier["h_sel"]].kind) if is_read and earlier["h_sel"] in self.arrays else ""
        if not self.is_bus(pin) or not column.get("h_en") or pin == "h_wdata" and not column.get("h_we"):
            return ""
        return self.number(column.get(pin), self.arrays[column["h_sel"]].kind if pin == "h_wdata" else None)

    def number(self, value, kind):
        return "x" if value is None else str(signed(value, kind) if kind else value)

    def drawn(self):
        d, c = self.drawing, self.compiled
        d.text(8, 20, f"hls_{c.top}: {c.source.name} with {c.run.name}", "font-weight='bold'")
        for row in self.rows:
            for k in row:
                d.text(self.place[k] + self.cell / 2, TOP - 8, str(k), "text-anchor='middle' fill='#777'")
                d.line(self.place[k], TOP - 4, self.place[k], TOP + len(self.pins) * ROW, "stroke='#eee'")
        for number, pin in enumerate(self.pins):
            y = TOP + number * ROW + 4
            d.text(8, y + 15, self.label(pin))
            for row in self.rows:
                (self.clock if pin == "clk" else self.bus if self.is_bus(pin) else self.wire)(pin, row, y)
        self.gaps()
        self.run()
        return d.written()

    def clock(self, pin, row, y):
        points = []
        for k in row:
            x = self.place[k]
            points += [(x, y), (x + self.cell / 2, y), (x + self.cell / 2, y + HIGH), (x + self.cell, y + HIGH)]
        self.drawing.path(points, "fill='none' stroke='#888'")

    def wire(self, pin, row, y):
        points = []
        for k in row:
            value, x = self.found[k].get(pin), self.place[k]
            level = y + (0 if value else HIGH)
            points += [(x, level), (x + self.cell, level)]
            if value is None:
                self.drawing.box(x, y, self.cell, HIGH, "#ddd", "not known", "stroke='none'")
        self.drawing.path(points, "fill='none' stroke='#1f4e79' stroke-width='1.5'")

    def bus(self, pin, row, y):
        for k in row:
            value, x = self.value(pin, k), self.place[k]
            if not value:
                self.drawing.line(x, y + HIGH / 2, x + self.cell, y + HIGH / 2, "stroke='#bbb'")
                continue
            end, middle = x + self.cell, y + HIGH / 2
            corners = [(x, middle), (x + 4, y), (end - 4, y), (end, middle), (end - 4, y + HIGH), (x + 4, y + HIGH), (x, middle)]
            self.drawing.path(corners, "fill='#e8eef7' stroke='#1f4e79'")
            self.drawing.text(x + self.cell / 2, middle + 4, value, "text-anchor='middle'")

    def gaps(self):
        """How many cycles are left out between two rows."""
        for row, later in zip(self.rows, self.rows[1:]):
            if row and later:
                x, bottom = self.place[later[0]] - 12, TOP + len(self.pins) * ROW
                self.drawing.line(x, TOP - 4, x, bottom, "stroke='#c00' stroke-dasharray='3 3'")
                self.drawing.text(x, bottom + 14, f"{later[0] - row[-1] - 1} cycles", "text-anchor='middle' fill='#c00'")

    def run(self):
        """The arrow from the cycle of the start to the first cycle of `done`."""
        begin, end = run_of(self.found)
        if begin in self.place and end in self.place:
            y = TOP - 28
            first, last = self.place[begin], self.place[end]
            self.drawing.line(first, y, last, y, "stroke='#c00' marker-end='url(#tip)'")
            self.drawing.text((first + last) / 2, y - 5, f"{end - begin} cycles from start to done", "text-anchor='middle' fill='#c00'")


def run_of(found):
    """The column of the start and the first one after it with `done`."""
    begin = next((k for k, column in enumerate(found) if column.get("start") and column.get("ready")), None)
    end = next((k for k in range(begin + 1, len(found)) if found[k].get("done")), None) if begin is not None else None
    return begin, end


# ---- running


def make(compiled, folder):
    """Runs the testbench, and answers the paths of the VCD and of the picture, and the columns."""
    bench = testbench.write(compiled, folder).stem
    built = subprocess.run(["iverilog", "-g2005", "-o", f"{bench}.vvp", f"{bench}.v", compiled.module.name], cwd=folder, capture_output=True, text=True)
    if built.returncode != 0:
        sys.exit(built.stderr)
    done = subprocess.run(["vvp", "-n", f"{bench}.vvp", "+dump"], cwd=folder, capture_output=True, text=True)
    (folder / f"{bench}.vvp").unlink()
    waves, picture = folder / f"hls_{compiled.top}.vcd", folder / f"hls_{compiled.top}.svg"
    (folder / f"{bench}.vcd").replace(waves)
    found = columns(waves, bench)
    picture.write_text(Picture(compiled, found).drawn())
    last = (done.stdout.splitlines() or [""])[-1]
    if not last.startswith("PASS"):
        print(done.stdout, end="")
    return waves, picture, found


def check_one(name):
    source, run, top = testbench.example(name)
    with tempfile.TemporaryDirectory() as folder:
        work = pathlib.Path(folder)
        compiled = Compiled(source, run, Arguments([source, run, "--top", top], 2, __doc__), work)
        _, picture, found = make(compiled, work)
        begin, end = run_of(found)
        if begin is None or end is None or end - begin != compiled.cycles:
            return f"the waves have a run from {begin} to {end}, wanted {compiled.cycles} cycles"
        texts = [part.text for part in xml.etree.ElementTree.parse(picture).iter("{http://www.w3.org/2000/svg}text")]
        wanted = [f"{compiled.cycles} cycles from start to done", "clk", "ready", "done"]
        wanted += [str(compiled.result)] if compiled.kind() else []
        wanted += [str(values[-1]) for values in compiled.elements.values()]
        missing = [word for word in wanted if word not in texts]
        return f"the picture lacks {missing}" if missing else None


def check():
    if not shutil.which("iverilog"):
        print("waves: iverilog was not found, skipped")
        sys.exit(0)
    wrong = 0
    for name in testbench.TRIED:
        difference = check_one(name)
        if difference:
            wrong += 1
            print(f"{name}: {difference}")
    print(f"waves: {len(testbench.TRIED) - wrong} of {len(testbench.TRIED)} as wanted")
    sys.exit(1 if wrong else 0)


def main(words):
    if words == ["--check"]:
        check()
    arguments = Arguments(words, 2, __doc__)
    if not shutil.which("iverilog"):
        sys.exit("waves: iverilog was not found")
    folder = pathlib.Path(arguments.folder)
    folder.mkdir(parents=True, exist_ok=True)
    waves, picture, _ = make(Compiled(*arguments.files, arguments, folder), folder)
    print(waves)
    print(picture)


if __name__ == "__main__":
    main(sys.argv[1:])
