"""And-inverter graphs in the ASCII form of AIGER, as combinational circuits: each latch is an input and its next literal an output. Used by same_circuit.py and read_alike.py."""
import dataclasses
import itertools
import os
import pathlib
import resource
import shutil
import subprocess

ROOT = pathlib.Path(__file__).resolve().parent.parent
HLS = os.environ.get("HLS", str(ROOT / "hls"))
ABC = next((it for it in ("berkeley-abc", "yosys-abc", "abc") if shutil.which(it)), None)


@dataclasses.dataclass
class Graph:
    """A graph: the literals of inputs, pairs of a latch and its next literal, outputs, gates, and the names that the text gives."""

    inputs: list
    latches: list
    outputs: list
    gates: list
    names: dict

    def ordered(self, inputs, latches, outputs):
        """The graph whose inputs, latches and outputs have these numbers, in this order."""
        pick = lambda items, numbers: [items[k] for k in numbers]
        return Graph(pick(self.inputs, inputs), pick(self.latches, latches), pick(self.outputs, outputs), self.gates, {})

    def combinational(self):
        """The bytes of the binary form, in which each latch is an input and its next literal an output."""
        given = self.inputs + [latch for latch, _ in self.latches]
        number = {0: 0}
        for literal in given:
            number[literal >> 1] = len(number)
        body = bytearray()
        for gate, left, right in self.gates:
            own = 2 * len(number)
            number[gate >> 1] = own >> 1
            high, low = sorted((2 * number[it >> 1] | it & 1 for it in (left, right)), reverse=True)
            body += delta(own - high) + delta(high - low)
        tops = [2 * number[it >> 1] | it & 1 for it in self.outputs + [after for _, after in self.latches]]
        head = f"aig {len(given) + len(self.gates)} {len(given)} 0 {len(tops)} {len(self.gates)}\n"
        return head.encode() + "".join(f"{it}\n" for it in tops).encode() + bytes(body)

    def values(self, words, count):
        """What the outputs and the next literals show for these words of so many bits, one for each input and latch: bit k of each is the k-th case."""
        every = (1 << count) - 1
        found = {0: 0, **{literal: word for literal, word in zip(self.inputs + [latch for latch, _ in self.latches], words)}}
        shown = lambda literal: found[literal] if literal in found else every ^ found[literal ^ 1]
        for gate, left, right in self.gates:
            found[gate] = shown(left) & shown(right)
        return [shown(literal) for literal in self.outputs + [after for _, after in self.latches]]


def delta(number):
    """A number in groups of seven bits, the lowest first."""
    found = bytearray()
    while number >= 128:
        found.append(number & 127 | 128)
        number >>= 7
    return bytes(found + bytearray([number]))


def read(text):
    """The graph of a text. Gates are put in order, each behind those that it names."""
    lines = text.splitlines()
    _, most, ins, latches, outs, ands = lines[0].split()
    ends = list(itertools.accumulate([int(ins), int(latches), int(outs), int(ands)], initial=1))
    inputs, registers, outputs, gates = ([[int(word) for word in line.split()] for line in lines[first:end]] for first, end in itertools.pairwise(ends))
    names = {}
    for line in lines[ends[-1] :]:
        if line == "c":
            break
        kind, _, name = line.partition(" ")
        names[kind] = name
    return Graph([row[0] for row in inputs], [row[:2] for row in registers], [row[0] for row in outputs], behind(gates), names)


def behind(gates):
    """The gates, each behind those that it names."""
    by_number = {gate[0] >> 1: gate for gate in gates}
    placed, found = set(), []
    for gate in gates:
        open_gates = [gate]
        while open_gates:
            top = open_gates[-1]
            below = [by_number[it >> 1] for it in top[1:] if it >> 1 in by_number and it >> 1 not in placed]
            if below:
                open_gates += below
            else:
                open_gates.pop()
                if top[0] >> 1 not in placed:
                    placed.add(top[0] >> 1)
                    found.append(tuple(top))
    return found


def blasted(module, folder):
    """The graph that the compiler makes of a module, or None where the module is too large; another rejection is raised."""
    text = pathlib.Path(folder) / "module.aag"
    ran = subprocess.run([HLS, "blast", str(module), str(text)], capture_output=True, text=True, env={**os.environ, "HLS_PLAIN": "1"})
    if ran.returncode == 8 and ran.stdout.split()[:3] in (["module", "rule", "70"], ["module", "rule", "72"]):
        return None
    if ran.returncode:
        raise ValueError(f"{module}: {ran.stdout.strip() or ran.stderr.strip() or ran.returncode}")
    return read(text.read_text())


def are_equal(one, other, folder, seconds=None):
    """Whether two combinational circuits with the same inputs have the same outputs, by ABC: True, False, or None if it cannot tell, or not within so many seconds of a processor."""
    names = []
    for k, graph in enumerate((one, other)):
        names.append(f"graph{k}.aig")
        (pathlib.Path(folder) / names[k]).write_bytes(graph.combinational())
    limit = lambda: resource.setrlimit(resource.RLIMIT_CPU, (seconds, seconds)) if seconds else None
    ran = subprocess.run([ABC, "-c", f"cec -n {names[0]} {names[1]}"], cwd=folder, capture_output=True, text=True, preexec_fn=limit)
    if "Networks are equivalent" in ran.stdout:
        return True
    return False if "NOT EQUIVALENT" in ran.stdout else None
