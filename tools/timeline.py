"""A run of a function as a picture over its cycles: blocks, loops with their iterations, calls, and the units of the circuit. Used by schedule_picture.py."""
import dataclasses

import c_run
from svg import Drawing

LEFT, TOP, ROW, HIGH = 150, 64, 26, 18
GAP = 46
LONG = 30
COLOURS = {"begin": "#d5e8d4", "body": "#d5e8d4", "step": "#d5e8d4", "arm": "#e2f0d9", "end": "#d5e8d4", "test": "#fff2cc"}
LEGEND = (
    ("#d5e8d4", "block"), ("#fff2cc", "test"), ("#e8eef7", "loop"), ("#dae3f3", "iteration of a pipelined loop"),
    ("#f4b183", "operation of the chain, or store"), ("#9dc3e6", "load"), ("#c9a6e4", "product"), ("#c9c9c9", "quotient"),
)
USES = {"load": "#9dc3e6", "store": "#f4b183", "product": "#c9a6e4", "quotient": "#c9c9c9"}


# ---- the report


@dataclasses.dataclass
class Pipelined:
    """A pipelined loop of a report: its initiation interval, its exit, and the chain of dependences that allows no smaller interval."""

    interval: int
    exit: int
    edges: list

    def chain(self):
        """The edges in turn, from the operation that an earlier iteration leads to."""
        first = next((k for k, edge in enumerate(self.edges) if edge[3] > 0), -1) + 1
        return self.edges[first:] + self.edges[:first]


class Report:
    def __init__(self, text):
        self.costs, self.loops, self.units, self.base, self.top = {}, {}, [], 1, ""
        last = None
        for line in text.splitlines():
            words = line.split()
            if words[0] == "top":
                self.top = words[1]
            elif words[0] == "base":
                self.base = int(words[1])
            elif words[0] == "cost":
                self.costs[words[2], words[3], words[4]] = int(words[1])
            elif words[0] == "loop":
                last = self.loops[words[1], words[2]] = Pipelined(int(words[4]), int(words[6]), [])
            elif words[0] == "edge":
                last.edges.append(tuple(map(int, words[1:])))
            elif words[0] in ("settings", "units", "memory", "registers"):
                self.units.append(line)


# ---- the run as a tree over cycles


@dataclasses.dataclass
class Node:
    """A part of the run: a block, a loop, an iteration or a call, from its first cycle up to the one after its last. Of a loop `shown` has the
    iterations that are drawn."""

    sort: str
    place: str
    path: str
    start: int
    end: int = 0
    pipelined: Pipelined = None
    name: str = ""
    parts: list = dataclasses.field(default_factory=list)
    shown: list = None

    def iterations(self):
        return [part for part in self.parts if part.sort == "iteration"]

    def has_loops(self):
        """Whether an iteration has loops of its own, directly or in a call."""
        return any(part.sort == "loop" or part.has_loops() for one in self.iterations()[:1] or self.parts for part in one.parts)

    def lanes(self):
        """The rows for the iterations of a pipelined loop: as many as are under way at once, and no more than are drawn."""
        loop = self.pipelined
        return min(len(self.drawn()), -(-(loop.interval + loop.exit) // loop.interval))

    def drawn(self):
        return self.iterations() if self.shown is None else self.shown

    def rows(self):
        if self.sort in ("iteration", "run"):
            return max((part.rows() for part in self.parts), default=0)
        if self.pipelined:
            return 1 + self.lanes()
        parts = self.drawn() + [part for part in self.parts if part.sort != "iteration"]
        return 1 + max((part.rows() for part in parts), default=0)


class Builder:
    """Puts the points of a run one after another, each with the cycles of the block that begins at it."""

    def __init__(self, report, events):
        self.report, self.time = report, report.base
        self.root = Node("run", "", "-", self.time)
        self.stack, self.closed = [self.root], 0
        for event in events:
            self.take(event)
        self.root.end = self.time

    def take(self, event):
        place, path = c_run.place_text(event.at), c_run.path_text(event.path)
        if event.sort.startswith("open"):
            self.open(event.sort.split()[1], place, path, event.at.text if event.sort != "open iteration" else "")
        elif event.sort == "close":
            if self.closed:
                self.closed -= 1
            else:
                self.close()
        else:
            if event.sort == "end" and self.stack[-1].sort in ("loop", "call") and self.stack[-1].place == place and self.stack[-1].path == path:
                self.close()
                self.closed += 1
            self.block(event.sort, place, path)

    def open(self, sort, place, path, name):
        node = Node(sort, place, path, self.time, name=name)
        if sort == "loop":
            node.pipelined = self.report.loops.get((place, path))
        owner = self.stack[-1]
        if sort == "iteration" and owner.pipelined:
            node.start = owner.start + 1 + len(owner.iterations()) * owner.pipelined.interval
        self.stack.append(node)

    def close(self):
        """Ends the innermost part. An iteration of which only the test ran is none."""
        node = self.stack.pop()
        owner = self.stack[-1]
        node.end = self.time
        if node.sort == "loop" and node.pipelined:
            self.pipeline(node)
        if node.sort == "iteration":
            if owner.pipelined:
                if node.name == "":
                    return
                node.end = node.start + owner.pipelined.interval + owner.pipelined.exit
            elif node.name == "":
                owner.parts += node.parts
                return
            node.name = f"iteration {len(owner.iterations())}"
        owner.parts.append(node)

    def pipeline(self, node):
        """The end of a pipelined loop: its first values, its iterations, the failing test and the exit."""
        loop = node.pipelined
        node.end = node.start + len(node.iterations()) * loop.interval + loop.exit + 2

    def block(self, sort, place, path):
        cost = self.report.costs.get((sort, place, path), 0)
        owner = self.stack[-1]
        if sort == "body" and owner.sort == "iteration":
            owner.name = "body"
        inside = next((one for one in reversed(self.stack) if one.sort == "loop"), None)
        if inside and inside.pipelined and owner.sort == "iteration":
            self.time += cost
            return
        loop = self.report.loops.get((place, path)) if sort == "end" else None
        length = cost - loop.exit - 2 if loop else cost
        first = self.time + (loop.exit + 2 if loop else 0)
        if length:
            owner.parts.append(Node(sort, place, path, first, first + length))
        self.time += cost


# ---- cycles to places in the picture


class Axis:
    """Where a cycle is drawn. Long rows of iterations, and the middle of long blocks, are left out."""

    def __init__(self, root, shown):
        self.shown, self.left_out = shown, []
        self.look(root)
        self.left_out = merged(self.left_out)
        cycles = root.end - sum(end - start for start, end, _ in self.left_out)
        self.cell = max(9, min(30, 1300 // max(1, cycles)))
        self.last = root.end

    def look(self, node):
        parts = node.parts
        rounds = node.iterations()
        shown = 1 if node.has_loops() else self.shown
        if len(rounds) > shown + 1 and rounds[-1].start - rounds[shown].start > 2:
            self.left_out.append((rounds[shown].start, rounds[-1].start, f"{len(rounds) - shown - 1} iteration" + ("s" if len(rounds) > shown + 2 else "")))
            node.shown = rounds[:shown] + rounds[-1:]
            parts = [part for part in parts if part.sort != "iteration"] + node.shown
        if not parts and node.end - node.start > LONG and node.sort != "iteration":
            self.left_out.append((node.start + 6, node.end - 4, "of one block"))
        for part in parts:
            self.look(part)

    def x(self, cycle):
        """The left side of a cycle."""
        before = 0
        x = LEFT
        for start, end, _ in self.left_out:
            if cycle <= start:
                break
            x += (start - before) * self.cell
            if cycle < end:
                return x + GAP / 2
            x += GAP
            before = end
        return x + (cycle - before) * self.cell

    def segments(self, start, end):
        """The left and right sides of what is drawn of these cycles."""
        found, first = [], start
        for begin, close, _ in self.left_out:
            if close <= first or begin >= end:
                continue
            if begin > first:
                found.append((self.x(first), self.x(begin)))
            first = close
        if first < end:
            found.append((self.x(first), self.x(end)))
        return found or [(self.x(start), self.x(end))]

    def is_shown(self, cycle):
        return not any(start <= cycle < end for start, end, _ in self.left_out)

    def cycles(self):
        return (cycle for cycle in range(self.last + 1) if self.is_shown(cycle))


def merged(intervals):
    """Intervals in order, without those inside others; overlapping ones are joined."""
    found = []
    for start, end, words in sorted(intervals, key=lambda one: (one[0], -one[1])):
        if end - start < 3:
            continue
        if found and start < found[-1][1]:
            found[-1] = (found[-1][0], max(end, found[-1][1]), found[-1][2])
        else:
            found.append((start, end, words))
    return found


# ---- the picture


class Picture:
    def __init__(self, report, root, units, shown, title, line_of):
        self.report, self.root, self.units, self.line_of = report, root, units, line_of
        self.axis, self.drawing, self.title = Axis(root, shown), Drawing(), title
        self.counts = {}

    def drawn(self):
        d = self.drawing
        d.text(8, 20, self.title, "font-weight='bold'")
        rows = self.root.rows()
        bottom = TOP + (rows + len(self.units or []) + 1) * ROW
        self.grid(bottom)
        d.text(8, TOP + 14, "start")
        d.box(self.axis.x(0), TOP + 2, self.axis.cell, HIGH, "#d9d9d9", "the cycle of the start")
        for part in self.root.parts:
            self.node(part, 0)
        y = TOP + rows * ROW + 10
        for unit in self.units or []:
            self.unit(unit, y)
            y += ROW
        if self.units is None:
            d.text(8, y + 14, "the run is too long for the rows of the units")
        self.gaps(bottom)
        self.legend(bottom + 44)
        return d.written()

    def grid(self, bottom):
        axis, d = self.axis, self.drawing
        step = 1 if axis.cell >= 18 else 5
        previous = None
        for cycle in axis.cycles():
            x = axis.x(cycle)
            if cycle % step == 0 or previous != cycle - 1:
                d.line(x, TOP - 4, x, bottom, "stroke='#e6e6e6'")
            if cycle % step == 0 and cycle < axis.last:
                d.text(x + axis.cell / 2, TOP - 8, cycle, "text-anchor='middle' fill='#777'")
            previous = cycle
        d.line(axis.x(axis.last), TOP - 4, axis.x(axis.last), bottom, "stroke='#c00'")
        d.text(axis.x(axis.last), TOP - 22, f"done in cycle {axis.last}", "text-anchor='middle' fill='#c00'")

    def bar(self, start, end, row, colour, words, title, more="stroke='#555'"):
        x, width = self.axis.x(start), self.axis.x(end) - self.axis.x(start)
        if width <= 0:
            return
        y = TOP + row * ROW + 2
        self.drawing.box(x, y, width, HIGH, colour, title, more)
        left, right = max(self.axis.segments(start, end), key=lambda one: one[1] - one[0])
        for text in words if isinstance(words, (list, tuple)) else [words]:
            if text and len(text) * 7 + 4 < right - left:
                self.drawing.text((left + right) / 2, y + 13, text, "text-anchor='middle'")
                break

    def is_hidden(self, node):
        return not any(self.axis.is_shown(cycle) for cycle in (node.start, node.end - 1))

    def node(self, node, row):
        if node.end <= node.start or self.is_hidden(node):
            return
        if node.sort == "loop":
            self.loop(node, row)
        elif node.sort == "call":
            where = f"{node.name} at {node.place}" + (f", called from {node.path}" if node.path != "-" else "")
            words = [f"{node.name}, {node.end - node.start} cycles", node.name]
            self.bar(node.start, node.end, row, "#f2f2f2", words, f"{where}, cycles {node.start} to {node.end - 1}")
            for part in node.parts:
                self.node(part, row + 1)
        elif node.sort == "iteration":
            for part in node.parts:
                self.node(part, row)
        else:
            title = f"block of `{node.sort}` at {node.place}" + (f" under {node.path}" if node.path != "-" else "") + f", cycles {node.start} to {node.end - 1}"
            self.bar(node.start, node.end, row, COLOURS[node.sort], [f"{node.sort} {node.place}", node.sort], title)

    def loop(self, node, row):
        rounds = node.iterations()
        count = f"{len(rounds)} iteration" + ("" if len(rounds) == 1 else "s")
        self.counts.setdefault((node.place, node.path), []).append(len(rounds))
        words = [f"{node.name} {node.place}: {count}", f"{node.name} {node.place}", node.name]
        if node.pipelined:
            words.insert(0, f"{node.name} {node.place}: {count}, initiation interval {node.pipelined.interval}")
        self.bar(node.start, node.end, row, "#e8eef7", words, f"{self.line_of(node.place)} -- {count}, cycles {node.start} to {node.end - 1}")
        if node.pipelined:
            self.pipeline(node, row + 1)
            return
        for part in node.parts:
            if part.sort == "iteration" and not self.is_hidden(part):
                x, y = self.axis.x(part.start), TOP + row * ROW + 2
                self.drawing.line(x, y, x, y + HIGH, "stroke='#1f4e79'")
            self.node(part, row + 1)

    def pipeline(self, node, row):
        """Iterations that overlap, in as many rows as there are under way at once, with the chain that bounds the interval."""
        loop, lanes, number = node.pipelined, node.lanes(), {id(part): k for k, part in enumerate(node.iterations())}
        self.bar(node.start, node.start + 1, row, "#d9d9d9", "", "the first values of the loop are loaded")
        for lane, part in enumerate(node.drawn()):
            k, at, end = number[id(part)], row + lane % lanes, min(part.end, node.end)
            if self.is_hidden(part) or not self.axis.is_shown(part.start):
                continue
            self.bar(part.start, end, at, "#dae3f3", [f"iteration {k}", str(k)] if not loop.edges else "", f"iteration {k}, cycles {part.start} to {end - 1}")
            self.chain(loop, part, at)
            if loop.edges:
                self.drawing.text(self.axis.x(part.start) - 3, TOP + at * ROW + 15, str(k), "text-anchor='end' fill='#1f4e79'")

    def chain(self, loop, part, row):
        time = part.start
        for origin, _, latency, _ in loop.chain():
            if latency and self.axis.is_shown(time):
                x, end = self.axis.x(time), self.axis.x(time + latency)
                title = f"node {origin} of the chain, {latency} cycle{'s' if latency > 1 else ''}"
                self.drawing.box(x + 1, TOP + row * ROW + 6, max(2, end - x - 2), HIGH - 8, "#f4b183", title, "stroke='#c55a11'")
                if end - x > 16:
                    self.drawing.text((x + end) / 2, TOP + row * ROW + 15, str(origin), "text-anchor='middle'", 10)
            time += latency

    def unit(self, unit, y):
        d = self.drawing
        d.text(8, y + 14, unit.name)
        for cycle, word in unit.uses:
            end = min(cycle + unit.length, self.axis.last)
            if not self.axis.is_shown(cycle):
                continue
            x, width = self.axis.x(cycle), self.axis.x(end) - self.axis.x(cycle)
            if unit.length == 2:
                width = self.axis.cell
            d.box(x, y + 2, width, HIGH, USES[word], f"{word} in cycle {cycle}")
            shown = word if width > 7 * len(word) + 4 else word[0].upper()
            d.text(x + width / 2, y + 15, shown, "text-anchor='middle'", 10)

    def gaps(self, bottom):
        for start, end, words in self.axis.left_out:
            x = self.axis.x(start) + GAP / 2
            self.drawing.box(x - GAP / 2 + 2, TOP, GAP - 4, bottom - TOP, "white", f"cycles {start} to {end - 1} are left out", "stroke='none' fill-opacity='0.85'")
            self.drawing.line(x, TOP - 4, x, bottom, "stroke='#c00' stroke-dasharray='3 3'")
            self.drawing.text(x, bottom + 14, f"{end - start} cycles", "text-anchor='middle' fill='#c00'")
            self.drawing.text(x, bottom + 28, words, "text-anchor='middle' fill='#c00'", 10)

    def legend(self, y):
        """What the colours mean, the loops with their source lines and chains, and the units of the report."""
        d, x = self.drawing, 8
        for colour, words in LEGEND:
            d.box(x, y - 11, 14, 12, colour)
            d.text(x + 20, y, words)
            x += 44 + 7 * len(words)
        y += 28
        for (place, path), loop in sorted(self.report.loops.items(), key=lambda item: [int(n) for n in item[0][0].replace(".", ":").split(":")]):
            under = f" under {path}" if path != "-" else ""
            d.text(8, y, f"loop {place}{under}: {self.line_of(place)}", "font-weight='bold'")
            each = "n" if loop.interval == 1 else f"{loop.interval} n"
            d.text(28, y + 16, f"initiation interval {loop.interval}, exit {loop.exit}: n iterations take {each} + {loop.exit + 2} cycles")
            d.text(28, y + 32, chain_text(loop))
            y += 54
        for line in self.report.units:
            d.text(8, y, line)
            y += 16
        if any(loop.edges for loop in self.report.loops.values()):
            d.text(8, y + 4, "A chain is drawn from the beginning of its iteration; the report does not say where its first operation begins.", "fill='#777'")


def chain_text(loop):
    """The chain of dependences in words, by the numbers of its nodes; node 0 is the beginning of an iteration."""
    edges = loop.chain()
    if not edges:
        return "no chain of dependences bounds the interval"
    node = lambda number: f"node {number}" if number else "the beginning of the iteration"
    steps = [node(origin) + (f" ({latency} cycle{'' if latency == 1 else 's'})" if latency else "") for origin, _, latency, _ in edges]
    latency, distance = sum(edge[2] for edge in edges), sum(edge[3] for edge in edges)
    ahead = "the next iteration" if distance == 1 else f"the iteration {distance} later"
    last = f"{node(edges[-1][1])} of {ahead}" if edges[-1][1] else ahead
    return f"the chain that bounds the interval: {', '.join(steps)}, then {last}: {latency} cycles in {distance} iteration{'' if distance == 1 else 's'}"
