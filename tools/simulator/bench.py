"""Writes a test bench for a module of circuit.txt: the same numbers as run.txt draws for power-up and pins. Words: MODULE SEED CYCLES SHOW"""
import re
import sys

text = open(sys.argv[1]).read()
seed, cycles, show = int(sys.argv[2]), int(sys.argv[3]), sys.argv[4] == "1"
regs = re.findall(r"^reg \[\d+:0\] (r\d+);", text, re.M)
mems = re.findall(r"^reg \[\d+:0\] (m\d+) ?\[0:(\d+)\];", text, re.M)
ins = re.findall(r"^input (\[\d+:0\]) (\w+);", text, re.M)
outs = re.findall(r"^output (\[\d+:0\]) (\w+);", text, re.M)
lines = ["module bench;", "reg clk = 0; reg [63:0] x, p, q, sum; integer i, k;"]
lines += [f"reg {bits} {name};" for bits, name in ins]
lines += [f"wire {bits} {name};" for bits, name in outs]
lines.append("t dut(.clk(clk), %s);" % ", ".join(f".{name}({name})" for _, name in ins + outs))
lines.append("task next; x = x * 64'd6364136223846793005 + 64'd1442695040888963407; endtask")
lines.append("task pin; begin next; p = x >> 33; next; q = x >> 33; p = (p << 33) ^ (q << 5) ^ p; end endtask")
lines.append(f"initial begin x = {seed}; sum = 0;")
lines += [f"next; dut.{name} = x >> 33;" for name in regs]
lines += [f"for (k = 0; k <= {last}; k = k + 1) begin next; dut.{name}[k] = x >> 33; end" for name, last in mems]
lines.append(f"for (i = 0; i < {cycles}; i = i + 1) begin")
lines += [f"pin; {name} = p;" for _, name in ins]
lines.append("#1;")
lines += [f"sum = ((sum << 5) | (sum >> 59)) ^ {name};" for _, name in outs]
if show:
    lines.append('$display("%s shown", %s);' % (" ".join("%0h" for _ in outs), ", ".join(name for _, name in outs)))
lines.append("clk = 1; #1; clk = 0; #1; end")
lines.append(f'$display("{seed} sum %0h shown", sum); $finish; end endmodule')
print("\n".join(lines))
