#!/usr/bin/env bash
# Has other tools read a module that the compiler writes: Icarus Verilog runs it, Verilator and Yosys check it. A tool that is not there is skipped with a line.
set -u
root=$(cd "$(dirname "${BASH_SOURCE[0]}")/.." && pwd)
work=$(mktemp -d)
trap 'rm -rf "$work"' EXIT
failed=0

skip() { command -v "$1" >/dev/null && return 1; echo "outside check: $1 is not there, skipped"; }
check() { if "${@:2}" >"$work/log" 2>&1; then echo "outside check: $1 passed"; else cat "$work/log"; echo "outside check: $1 FAILED"; failed=1; fi; }

# Where no tool would read the module, the compiler need not be built.
if command -v iverilog || command -v verilator || command -v yosys; then
    "$root/hls" synth "$root/examples/sum.c" "$work/sum.v" "$work/sum.rep" --top f || exit 1
fi >/dev/null

# Power-up contents are all ones. A reset, then each pair is started, and `done` has to rise after exactly three cycles.
cat >"$work/bench.v" <<'V'
module bench;
  reg clk = 0, reset = 1, start = 0;
  reg [31:0] a = 0, b = 0;
  wire ready, done;
  wire [63:0] h_rdata;
  wire [31:0] ret;
  integer i, cycles, wrong = 0;
  hls_f dut (.clk(clk), .reset(reset), .start(start), .h_en(1'b0), .h_we(1'b0), .h_sel(5'b0), .h_addr(16'b0), .h_wdata(64'b0),
             .arg_0(a), .arg_1(b), .ready(ready), .done(done), .h_rdata(h_rdata), .ret(ret));
  always #5 clk = ~clk;
  initial begin
    dut.r0 = 2'b11; dut.r1 = ~0; dut.r2 = ~0; dut.r3 = ~0;
    @(negedge clk); reset = 0;
    if (ready !== 1 || done !== 0) begin wrong = wrong + 1; $display("not idle after the reset"); end
    for (i = 0; i < 1000; i = i + 1) begin
      a = (i == 0) ? 32'hffffffff : $random; b = (i == 0) ? 1 : $random; start = 1;
      @(negedge clk); start = $random; cycles = 1;
      while (done !== 1 && cycles < 10) begin
        if (ready !== 0) begin wrong = wrong + 1; $display("ready while busy"); end
        @(negedge clk); start = 0; cycles = cycles + 1;
      end
      if (cycles != 3 || ret !== a + b) begin wrong = wrong + 1; $display("%0d cycles, %0d + %0d gave %0d", cycles, a, b, ret); end
    end
    if (wrong == 0) $display("agree"); else $display("%0d differences", wrong);
    $finish;
  end
endmodule
V
icarus() { iverilog -o "$work/bench" "$work/bench.v" "$work/sum.v" && [ "$(vvp -n "$work/bench")" = agree ]; }

skip iverilog || check "Icarus Verilog" icarus
skip verilator || check "Verilator" verilator --lint-only -Wno-UNUSED "$work/sum.v"
skip yosys || check "Yosys" yosys -q -p "read_verilog $work/sum.v; hierarchy -check -top hls_f; proc; check -assert"
"$root/tools/simulator_check.sh" || failed=1
exit $failed
