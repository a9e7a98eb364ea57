#!/usr/bin/env python3
"""Compiles a source and writes a Verilog testbench that checks the module on the data of a run file.

    tools/testbench.py SRC RUN --top NAME [-o FOLDER] [OPTION ..]
    tools/testbench.py --check   runs the testbenches of the examples, and of modules that were changed, which must fail

It writes FOLDER/hls_NAME.v (the module), FOLDER/hls_NAME.rep (its report) and FOLDER/hls_NAME_tb.v (the testbench). The options are those of
`synth` and `cosim`. The testbench needs no other file: it has the arguments and arrays of the run file, drives them through the host pins,
and compares the result, the arrays and the cycles with those of the C program, which `cosim` has run. It is Verilog-2005; Icarus Verilog and
Verilator 5 run it. Its last line is PASS or FAIL. HLS names the program, else it is ./hls.
"""
import pathlib
import shutil
import subprocess
import sys
import tempfile

from compiled import ROOT, Arguments, Compiled, count, literal

HEAD = """// Testbench of the module {module}, written by tools/testbench.py from {source} and {run}.
//
//   $ iverilog -g2005 -o {bench} {bench}.v {module}.v && vvp -n {bench}
//   $ verilator --binary --timing {bench}.v {module}.v && obj_dir/V{bench}
//
// It writes the arrays through the host pins, starts the module, and compares the result, the arrays and the cycles with the expected ones.
// The last line is PASS or FAIL. With +dump it writes {bench}.vcd (Verilator: compile with --trace).
// Inputs change at the falling edge of the clock, and outputs are read there.
"""


def names(compiled):
    """The names of C in the testbench, where a name of Verilog or of the testbench itself gets an underscore."""
    taken = set(TAKEN)
    found = {}
    for pin in compiled.arrays():
        name = pin.name
        while any(name + end in taken for end in ("", "_in", "_out", "_address")):
            name += "_"
        taken |= {name, name + "_in", name + "_out"}
        found[pin.name] = name
    return found


TAKEN = (
    "clk reset start ready done ret cycles errors limit i h_en h_we h_sel h_addr h_wdata h_rdata write_element read_element check "
    "always and assign begin buf bufif0 bufif1 case casex casez cell cmos config deassign default defparam design disable edge else end "
    "endcase endconfig endfunction endgenerate endmodule endprimitive endspecify endtable endtask event for force forever fork function "
    "generate genvar highz0 highz1 if ifnone incdir include initial inout input instance integer join large liblist library localparam "
    "macromodule medium module nand negedge nmos nor not notif0 notif1 or output parameter pmos posedge primitive pull0 pull1 pulldown "
    "pullup pulsestyle_onevent pulsestyle_ondetect rcmos real realtime reg release repeat rnmos rpmos rtran rtranif0 rtranif1 scalared "
    "showcancelled signed small specify specparam strong0 strong1 supply0 supply1 table task time tran tranif0 tranif1 tri tri0 tri1 "
    "triand trior trireg unsigned use uwire vectored wait wand weak0 weak1 while wire wor xnor xor"
).split()


class Testbench:
    """The text of a testbench."""

    def __init__(self, compiled):
        self.compiled, self.names = compiled, names(compiled)
        self.module = f"hls_{compiled.top}"
        self.bench = self.module + "_tb"

    def text(self):
        c = self.compiled
        head = HEAD.format(module=self.module, bench=self.bench, source=c.source.name, run=c.run.name)
        parts = [head, f"module {self.bench};", *self.declarations(), "", *self.instance(), "", *self.tasks(), "", *self.run(), "endmodule", ""]
        return "\n".join(parts)

    def width(self):
        return max(1, self.compiled.kind().bits) if self.compiled.kind() else 0

    def declarations(self):
        c = self.compiled
        yield f"  localparam [63:0] CYCLES = 64'd{c.cycles};  // from the cycle of `start` to the first cycle of `done`"
        yield ""
        yield "  reg clk = 1'b0, reset = 1'b1, start = 1'b0, h_en = 1'b0, h_we = 1'b0;"
        yield "  reg [4:0] h_sel = 5'd0;"
        yield "  reg [15:0] h_addr = 16'd0;"
        yield "  reg [63:0] h_wdata = 64'd0;"
        yield "  wire ready, done;"
        yield "  wire [63:0] h_rdata;"
        if c.kind():
            yield f"  wire [{self.width() - 1}:0] ret;"
        yield "  reg [63:0] cycles = 64'd0;"
        yield "  integer errors = 0;"
        for pin in c.arrays():
            name = self.names[pin.name]
            shape = "".join(f"[{length}]" for length in pin.lengths)
            yield f"  reg [{pin.kind.bits - 1}:0] {name}_in [0:{count(pin) - 1}], {name}_out [0:{count(pin) - 1}];  // {pin.kind.text()} {pin.name}{shape}, row by row"

    def instance(self):
        c = self.compiled
        pins = ["clk", "reset", "start", "h_en", "h_we", "h_sel", "h_addr", "h_wdata"]
        yield f"  {self.module} dut ("
        yield "    " + ", ".join(f".{pin}({pin})" for pin in pins) + ","
        for pin in c.scalars():
            yield f"    .arg_{pin.number}({literal(pin.values[0], pin.kind)}),  // {pin.kind.text()} {pin.name}"
        yield "    .ready(ready), .done(done), .h_rdata(h_rdata)" + (", .ret(ret)" if c.kind() else "")
        yield "  );"
        yield ""
        yield "  always #5 clk = ~clk;"

    def tasks(self):
        """One task to write an element, and one to compare it."""
        yield "  task write_element(input integer number, input integer address, input [63:0] value);"
        yield "    begin"
        yield "      h_en = 1'b1; h_we = 1'b1; h_sel = number[4:0]; h_addr = address[15:0]; h_wdata = value;"
        yield "      @(negedge clk);"
        yield "      h_en = 1'b0; h_we = 1'b0;"
        yield "    end"
        yield "  endtask"
        yield ""
        yield "  // The element is at h_rdata in the cycle after its address."
        yield "  task read_element(input integer number, input integer address);"
        yield "    begin"
        yield "      h_en = 1'b1; h_sel = number[4:0]; h_addr = address[15:0];"
        yield "      @(negedge clk);"
        yield "      h_en = 1'b0;"
        yield "    end"
        yield "  endtask"
        for pin in self.compiled.arrays():
            yield ""
            yield from self.address(pin)

    def address(self, pin):
        """A function from the number of an element, row by row, to its address."""
        name, total = self.names[pin.name], count(pin)
        yield f"  // The address of element k of {pin.name}: its subscripts side by side, each with as many bits as its dimension needs."
        yield f"  function integer {name}_address(input integer k);"
        terms, passed, shift = [], 1, 0
        for length, bits in reversed(list(zip(pin.lengths, pin.bits_of()))):
            part = f"k / {passed} % {length}" if passed > 1 else f"k % {length}" if length < total else "k"
            terms.append(f"({part}) * {2**shift}" if shift else part)
            passed, shift = passed * length, shift + bits
        yield f"    {name}_address = {' + '.join(reversed(terms))};"
        yield "  endfunction"

    def run(self):
        c = self.compiled
        yield "  integer i;"
        yield "  initial begin"
        for pin in c.arrays():
            yield from self.data(pin)
        yield "    if ($test$plusargs(\"dump\")) begin"
        yield f'      $dumpfile("{self.bench}.vcd");'
        yield f"      $dumpvars(0, {self.bench});"
        yield "    end"
        yield ""
        yield "    @(negedge clk); @(negedge clk); reset = 1'b0;"
        yield "    @(negedge clk); while (!ready) @(negedge clk);"
        for pin in c.arrays():
            name = self.names[pin.name]
            yield f"    for (i = 0; i < {count(pin)}; i = i + 1) write_element({pin.number}, {name}_address(i), {self.wide(pin, f'{name}_in[i]')});"
        yield ""
        yield "    start = 1'b1;"
        yield "    @(negedge clk); start = 1'b0; cycles = 64'd1;"
        yield "    while (!done && cycles < 64'd2 * CYCLES + 64'd100) begin @(negedge clk); cycles = cycles + 64'd1; end"
        yield ""
        yield "    if (!done) begin"
        yield "      errors = errors + 1;"
        yield '      $display("done is not high after %0d cycles, expected it after %0d", cycles, CYCLES);'
        yield "    end else if (cycles !== CYCLES) begin"
        yield "      errors = errors + 1;"
        yield '      $display("done rose after %0d cycles, expected %0d", cycles, CYCLES);'
        yield "    end"
        yield from self.checks()
        yield "    @(negedge clk); @(negedge clk);"
        yield '    if (errors == 0) $display("PASS: %0d cycles", cycles);'
        yield '    else $display("FAIL: %0d differences", errors);'
        yield "    $finish;"
        yield "  end"

    def data(self, pin):
        """The elements before the run and those that are expected after it."""
        name = self.names[pin.name]
        for k, (before, after) in enumerate(zip(pin.values, self.compiled.elements[pin.name])):
            yield f"    {name}_in[{k}] = {literal(before, pin.kind)}; {name}_out[{k}] = {literal(after, pin.kind)};"
        yield ""

    def wide(self, pin, value):
        return value if pin.kind.bits == 64 else f"{{{64 - pin.kind.bits}'d0, {value}}}"

    def shown(self, value, kind):
        return f"$signed({value})" if kind.is_signed else value

    def checks(self):
        c = self.compiled
        if c.kind():
            kind, value = c.kind(), literal(c.result, c.kind())
            yield f"    if (ret !== {value}) begin"
            yield "      errors = errors + 1;"
            yield f'      $display("the result is %0d, expected {c.result}", {self.shown("ret", kind)});'
            yield "    end"
        for pin in c.arrays():
            name, bits = self.names[pin.name], pin.kind.bits
            value = f"h_rdata[{bits - 1}:0]" if bits < 64 else "h_rdata"
            yield f"    for (i = 0; i < {count(pin)}; i = i + 1) begin"
            yield f"      read_element({pin.number}, {name}_address(i));"
            yield f"      if ({value} !== {name}_out[i]) begin"
            yield "        errors = errors + 1;"
            yield f'        $display("element %0d of {pin.name} is %0d, expected %0d", i, {self.shown(value, pin.kind)}, {self.shown(f"{name}_out[i]", pin.kind)});'
            yield "      end"
            yield "    end"


def write(compiled, folder):
    """Writes the testbench, and answers its path."""
    bench = Testbench(compiled)
    path = pathlib.Path(folder) / f"{bench.bench}.v"
    path.write_text(bench.text())
    return path


# ---- the check after the gate

TRIED = ("sum", "prefix_sum", "fir", "matmul", "weighted_mean", "traffic_light")
CHANGES = (("assign ret = ", "assign ret = ~"), ("assign h_rdata = ", "assign h_rdata = ~"), ("assign done = ", "assign done = ~"))


def example(name):
    """The source, the run file and the top function of an example."""
    source = ROOT / "examples" / f"{name}.c"
    return source, source.with_suffix(".run"), name if f" {name}(" in source.read_text() else "f"


def by_icarus(work, top):
    call = lambda *words: subprocess.run(words, cwd=work, stdin=subprocess.DEVNULL, capture_output=True, text=True)
    built = call("iverilog", "-g2005", "-o", "bench", f"hls_{top}_tb.v", f"hls_{top}.v")
    return (call("vvp", "-n", "bench").stdout.splitlines() or [""])[-1] if built.returncode == 0 else built.stderr


def by_verilator(work, top):
    call = lambda *words: subprocess.run(words, cwd=work, stdin=subprocess.DEVNULL, capture_output=True, text=True)
    quick = ("-O0", "-MAKEFLAGS", "OPT_GLOBAL=-O0 OPT_FAST=-O0 OPT_SLOW=-O0")
    built = call("verilator", "--binary", "--timing", *quick, "-o", "bench", f"hls_{top}_tb.v", f"hls_{top}.v")
    lines = [line for line in call("obj_dir/bench").stdout.splitlines() if "$finish" not in line] if built.returncode == 0 else []
    return (lines or [built.stderr])[-1]


def check_one(name, simulators):
    """What is wrong with the testbench of an example, if anything."""
    source, run, top = example(name)
    with tempfile.TemporaryDirectory() as folder:
        work = pathlib.Path(folder)
        compiled = Compiled(source, run, Arguments([source, run, "--top", top], 2, __doc__), work)
        write(compiled, work)
        for simulator in simulators:
            last = simulator(work, top)
            if last != f"PASS: {compiled.cycles} cycles":
                return f"{simulator.__name__} says {last}"
        module = compiled.module.read_text()
        for old, new in CHANGES:
            if old in module and (compiled.arrays() or "h_rdata" not in old):
                compiled.module.write_text(module.replace(old, new))
                last = simulators[0](work, top)
                if not last.startswith("FAIL"):
                    return f"says {last} with `{new}` in place of `{old}`"
    return None


def check():
    simulators = [tool for command, tool in (("iverilog", by_icarus), ("verilator", by_verilator)) if shutil.which(command)]
    for command in ("iverilog", "verilator"):
        if not shutil.which(command):
            print(f"testbench: {command} was not found, its runs are skipped")
    wrong = 0
    for name in TRIED if simulators else ():
        difference = check_one(name, simulators if name in TRIED[:2] else simulators[:1])
        if difference:
            wrong += 1
            print(f"{name}: {difference}")
    print(f"testbenches: {len(TRIED) - wrong} of {len(TRIED)} as wanted" if simulators else "testbenches: skipped")
    sys.exit(1 if wrong else 0)


def main(words):
    if words == ["--check"]:
        check()
    arguments = Arguments(words, 2, __doc__)
    folder = pathlib.Path(arguments.folder)
    folder.mkdir(parents=True, exist_ok=True)
    compiled = Compiled(*arguments.files, arguments, folder)
    print(write(compiled, folder))


if __name__ == "__main__":
    main(sys.argv[1:])
