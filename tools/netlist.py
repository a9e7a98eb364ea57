"""Runs the module that `synth` wrote, cycle by cycle, and says in which cycles its units are busy. Used by schedule_picture.py.

The text is what docs/CIRCUIT.md describes: each wire has one operator over earlier wires, registers and memories change at the clock's edge.
"""
import dataclasses
import re

NUMBER = re.compile(r"(\d+)'h([0-9a-f]+)")
NAME = r"[A-Za-z_]\w*"
WIRE = re.compile(rf"wire \[(\d+):0\] ({NAME}) = (.*);")
REGISTER = re.compile(rf"reg \[(\d+):0\] ({NAME});")
MEMORY = re.compile(rf"reg \[(\d+):0\] ({NAME}) \[0:(\d+)\];")
INPUT = re.compile(rf"input (?:\[(\d+):0\] )?({NAME});")
ASSIGN = re.compile(rf"assign ({NAME}) = (.*);")
STORE = re.compile(rf"if \((.*?)\) ({NAME})\[(.*?)\] <= (.*?);")
CHANGE = re.compile(rf"always @\(posedge clk\) if \((.*?)\) ({NAME}) <= (.*);")
PICK = re.compile(r"(\S+) \? (\S+) : (\S+)")
READ = re.compile(rf"({NAME})\[({NAME}|\d+'h[0-9a-f]+)\]")
COUNTDOWN = re.compile(rf"({NAME}) \+ (?:7'h7f|6'h3f)")


@dataclasses.dataclass
class Unit:
    """A port of a memory, a multiplier or a divider, and what it does: pairs of a first cycle and a word."""

    name: str
    length: int
    uses: list


@dataclasses.dataclass
class Capture:
    """A register that takes the value of a unit: the nets that have to be 1 for it, and those that have to be 0."""

    register: str
    ones: list
    zeros: list


class Module:
    """The nets of a module."""

    def __init__(self, text):
        self.widths, self.wires, self.changes, self.stores, self.memories, self.outputs, self.inputs = {}, {}, {}, [], {}, {}, []
        for line in text.splitlines():
            self.read(line)

    def read(self, line):
        for pattern, take in ((MEMORY, self.memory), (WIRE, self.wire), (REGISTER, self.register), (INPUT, self.input), (CHANGE, self.change)):
            match = pattern.match(line)
            if match:
                return take(*match.groups())
        if line.startswith("always"):
            self.stores += [match.groups() for match in STORE.finditer(line)]
        match = ASSIGN.match(line)
        if match:
            self.outputs[match.group(1)] = match.group(2)
        return None

    def memory(self, bits, name, last):
        self.memories[name] = int(last) + 1

    def wire(self, bits, name, net):
        self.widths[name], self.wires[name] = int(bits) + 1, net

    def register(self, bits, name):
        self.widths[name] = int(bits) + 1

    def input(self, bits, name):
        self.widths[name] = int(bits or 0) + 1
        self.inputs.append(name)

    def change(self, test, name, net):
        self.changes[name] = test, net

    # ---- one cycle, as a function of Python

    def code(self, net):
        """A net as an expression of Python over the locals of a cycle."""
        pick = PICK.fullmatch(net)
        if pick:
            test, left, right = map(self.atom, pick.groups())
            return f"({left} if {test} else {right})"
        read = READ.fullmatch(net)
        if read and read.group(1) in self.memories:
            return f"{read.group(1)}[{self.atom(read.group(2))}]"
        part = re.fullmatch(rf"({NAME})\[(\d+):(\d+)\]", net)
        if part:
            name, high, low = part.group(1), int(part.group(2)), int(part.group(3))
            return f"({name} >> {low} & {2 ** (high - low + 1) - 1})"
        join = re.fullmatch(r"\{(\S+), (\S+)\}", net)
        if join:
            return f"({self.atom(join.group(1))} << {self.width(join.group(2))} | {self.atom(join.group(2))})"
        if net[0] == "~":
            return f"~{self.atom(net[1:])}"
        words = net.split(" ")
        if len(words) == 1:
            return self.atom(net)
        left, sign, right = words
        if sign in ("<<", ">>"):
            return f"({self.atom(left)} {sign} {self.atom(right)} if {self.atom(right)} < 128 else 0)"
        code = f"({self.atom(left)} {sign} {self.atom(right)})"
        return f"int{code}" if sign in ("<", "==") else code

    def atom(self, text):
        number = NUMBER.fullmatch(text)
        return str(int(number.group(2), 16)) if number else text

    def width(self, text):
        number = NUMBER.fullmatch(text)
        return int(number.group(1)) if number else self.widths[text]

    def cycle(self):
        """A function from the inputs and the state to all nets; it changes the state."""
        lines = ["def cycle(pins, state, memories):"]
        lines += [f"    {name} = pins.get({name!r}, 0)" for name in self.inputs]
        lines += [f"    {name} = state[{name!r}]" for name in self.changes]
        lines += [f"    {name} = memories[{name!r}]" for name in self.memories]
        lines += [f"    {name} = {self.code(net)} & {2 ** self.widths[name] - 1}" for name, net in self.wires.items()]
        lines += ["    nets = locals()"]
        lines += [f"    if {self.atom(test)}: state[{name!r}] = {self.code(net)}" for name, (test, net) in self.changes.items()]
        lines += [f"    if {self.atom(test)}: {name}[{self.atom(address)}] = {self.atom(value)}" for test, name, address, value in self.stores]
        lines += ["    return nets"]
        scope = {}
        exec("\n".join(lines), scope)  # pylint: disable=exec-used
        return scope["cycle"]

    # ---- captures

    def captures(self, source):
        """The registers that take the value of a net directly, or through a choice."""
        found = []
        for name, (test, net) in self.changes.items():
            for ones, zeros in self.ways(net, source, 0):
                found.append(Capture(name, [test, *ones], zeros))
        return found

    def ways(self, net, source, depth):
        """The choices by which a net is this source, or a part of it."""
        if net == source:
            yield [], []
            return
        net = self.wires.get(net, net)
        if net == source or re.fullmatch(rf"{source}\[\d+:\d+\]", net):
            yield [], []
            return
        pick = PICK.fullmatch(net)
        if pick and depth < 40:
            test, left, right = pick.groups()
            yield from (([test, *ones], zeros) for ones, zeros in self.ways(left, source, depth + 1))
            yield from ((ones, [test, *zeros]) for ones, zeros in self.ways(right, source, depth + 1))


def number_of(text):
    """The value of a constant, or None for a name."""
    match = NUMBER.fullmatch(text)
    return int(match.group(2), 16) if match else None


def value_of(nets, text):
    number = number_of(text)
    return nets[text] if number is None else number


def holds(nets, capture):
    return all(value_of(nets, text) for text in capture.ones) and not any(value_of(nets, text) for text in capture.zeros)


class Needs:
    """Goes back through a run from its end, and finds which values of each cycle its outputs and memories come from.

    Of a choice only the chosen value counts, of `&` with 0 only the 0, and of a register that keeps its value what it had before. So a load
    or a product of an iteration that does not take place is not needed.
    """

    def __init__(self, module):
        self.module = module
        self.order = list(module.wires)
        self.registers, self.words = set(), set()

    def back(self, nets, outputs):
        """From what is needed after a cycle to what is needed before it."""
        found, kept, words = set(), set(), set()
        for pin in outputs:
            found.add(self.module.outputs[pin])
        for register in self.registers:
            test, net = self.module.changes[register]
            found.add(test)
            if value_of(nets, test):
                found.add(net)
            else:
                kept.add(register)
        for memory, at in self.words:
            self.word(memory, at, nets, found, words)
        for wire in reversed(self.order):
            if wire in found:
                found.update(self.operands(self.module.wires[wire], nets, words))
        self.registers = kept | {name for name in found if name in self.module.changes}
        self.words = words
        return found

    def word(self, memory, at, nets, found, words):
        """A word of a memory that is needed after a cycle: what was stored in it, or what it was before."""
        is_stored = False
        for test, name, address, value in self.module.stores:
            if name == memory:
                found.add(test)
                if value_of(nets, test):
                    found.add(address)
                    if value_of(nets, address) == at:
                        found.add(value)
                        is_stored = True
        if not is_stored:
            words.add((memory, at))

    def operands(self, net, nets, words):
        pick = PICK.fullmatch(net)
        if pick:
            test, left, right = pick.groups()
            return [test, left if value_of(nets, test) else right]
        read = READ.fullmatch(net)
        if read and read.group(1) in self.module.memories:
            words.add((read.group(1), value_of(nets, read.group(2))))
            return [read.group(2)]
        atoms = [atom for atom in re.findall(rf"\d+'h[0-9a-f]+|{NAME}", re.sub(r"\[\d+:\d+\]", "", net)) if number_of(atom) is None]
        if " & " in net or " * " in net:
            zeros = [atom for atom in atoms if nets[atom] == 0]
            return zeros[:1] or atoms
        if " | " in net:
            full = [atom for atom in atoms if nets[atom] == 2 ** self.module.widths[atom] - 1]
            return full[:1] or atoms
        return atoms


class Activity:
    """The units of a module, and what each does in a run: cycles count from that of the start."""

    def __init__(self, module, names):
        self.module, self.units, self.rules = module, [], []
        ports = {}
        for wire, net in module.wires.items():
            match = READ.fullmatch(net)
            if match and match.group(1) in module.memories:
                ports.setdefault(match.group(1), {})[match.group(2)] = wire
        for _, memory, address, _ in module.stores:
            ports.setdefault(memory, {}).setdefault(address, None)
        for number, memory in enumerate(sorted(ports, key=lambda name: int(name[1:]))):
            name = names[number] if number < len(names) else memory
            for k, (address, wire) in enumerate(ports[memory].items()):
                self.port(f"memory {name}" + (f", port {k + 1}" if len(ports[memory]) > 1 else ""), memory, wire, address)
        self.arithmetic()

    def add(self, name, length):
        self.units.append(Unit(name, length, []))
        return self.units[-1]

    def port(self, name, memory, wire, address):
        """The word that is read goes into a register in each cycle, and from there, in the next cycle, to the register of the load."""
        unit = self.add(name, 1)
        held = [capture.register for capture in self.module.captures(wire) if number_of(capture.ones[0])] if wire else []
        for register in held:
            self.rules += [(unit, capture, 1, "load") for capture in self.module.captures(register)]
        self.rules += [(unit, Capture("", [test], []), 0, "store") for test, of, at, _ in self.module.stores if (of, at) == (memory, address)]

    def arithmetic(self):
        wires = self.module.wires
        for name, net in wires.items():
            if " * " in net:
                unit = self.add(f"multiplier, {self.module.widths[name]} bits", 2)
                self.rules += [(unit, capture, 1, "product") for capture in self.module.captures(name)]
            pick = PICK.fullmatch(net)
            if pick and pick.group(2) in ("7'h40", "6'h20") and COUNTDOWN.fullmatch(wires.get(pick.group(3), "")):
                self.divider(pick.group(1), 64 if pick.group(2) == "7'h40" else 32)

    def divider(self, start, bits):
        """A quotient takes its operands in the cycle of its start; what it takes goes into registers that choose by the start."""
        unit = self.add(f"divider, {bits} bits", bits + 2)
        for register, (_, net) in self.module.changes.items():
            pick = PICK.fullmatch(self.module.wires.get(net, net))
            if pick and pick.group(1) == start and number_of(pick.group(2)) is None:
                self.rules.append((unit, Capture(register, [start], []), 0, "quotient"))

    def note(self, cycle, nets, needed):
        """What the units do in a cycle, where these registers are needed after it."""
        for unit, capture, earlier, word in self.rules:
            if (not capture.register or capture.register in needed) and holds(nets, capture) and (cycle - earlier, word) not in unit.uses:
                unit.uses.append((cycle - earlier, word))


class Run:
    """A run of the module on the data of a run file, in at most so many cycles; `cycles` is None where it takes more."""

    def __init__(self, text, compiled, most):
        self.module, self.compiled = Module(text), compiled
        self.step = self.module.cycle()
        self.state = {name: 0 for name in self.module.changes}
        self.memories = {name: [0] * size for name, size in self.module.memories.items()}
        self.cycles, self.result, self.nets = None, None, []
        self.prepare()
        pins = {f"arg_{pin.number}": pin.values[0] % 2**pin.kind.bits for pin in compiled.scalars()}
        for cycle in range(most):
            nets = self.step(pins | {"start": 1} if cycle == 0 else pins, self.state, self.memories)
            self.nets.append({name: value for name, value in nets.items() if isinstance(value, int)})
            if cycle and self.output(nets, "done"):
                self.cycles, self.result = cycle, self.output(nets, "ret") if compiled.kind() else None
                break

    def output(self, nets, pin):
        return value_of(nets, self.module.outputs[pin])

    def prepare(self):
        """A reset, the initial sequence, and the elements of the arrays."""
        pins = {"reset": 1}
        while True:
            nets = self.step(pins, self.state, self.memories)
            if not pins and self.output(nets, "ready"):
                break
            pins = {}
        for pin in self.compiled.arrays():
            for k, value in enumerate(pin.values):
                self.step({"h_en": 1, "h_we": 1, "h_sel": pin.number, "h_addr": pin.address(k), "h_wdata": value % 2**64}, self.state, self.memories)

    def units(self):
        """What the units do in the run, as far as its result, its memories and its time come from it."""
        names = [line.split()[1] for line in self.compiled.report.read_text().splitlines() if line.startswith("memory ")]
        activity, needs = Activity(self.module, names), Needs(self.module)
        needs.words = {(name, at) for name, size in self.module.memories.items() for at in range(size)}
        for cycle in range(self.cycles, -1, -1):
            if cycle < self.cycles:
                activity.note(cycle, self.nets[cycle], needs.registers)
            pins = ["ready", "done"] + (["ret"] if cycle == self.cycles and "ret" in self.module.outputs else [])
            needs.back(self.nets[cycle], pins)
        for unit in activity.units:
            unit.uses.sort()
        return activity.units
