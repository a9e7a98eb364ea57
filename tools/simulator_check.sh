#!/usr/bin/env bash
# Compares the simulator with Icarus Verilog: the outputs of some dozen drawn circuits in each cycle, on the same pins and power-up contents; and with the word `speed` the cycles per second on one large circuit.
set -u
root=$(cd "$(dirname "${BASH_SOURCE[0]}")/.." && pwd)
for tool in rt iverilog vvp python3; do
    command -v "$tool" >/dev/null || { echo "simulator check: $tool is not there, skipped"; exit 0; }
done
work=$(mktemp -d)
trap 'rm -rf "$work"' EXIT

# A repository of its own: the crates below, and two programs that draw circuits. Both are run by `rt try`, which proves nothing;
# only `speed` proves and builds one of them.
mkdir -p "$work/crates"
for crate in hls_base ir_core rtl_core verilog_print verilog_cycle; do
    mkdir "$work/crates/$crate"
    cp -r "$root/crates/$crate/src" "$root/crates/$crate/specs" "$root/crates/$crate/proofs" "$work/crates/$crate/"
    grep "^$crate:" "$root/crates.txt" >>"$work/crates.txt"
done
echo "simulator_probe: hls_base rtl_core verilog_cycle" >>"$work/crates.txt"
echo "simulator_text: hls_base rtl_core verilog_print" >>"$work/crates.txt"
for crate in simulator_probe simulator_text; do
    mkdir -p "$work/crates/$crate"/{src,specs,proofs}
    touch "$work/crates/$crate"/{specs,proofs}/Lib.antt
    cp "$root/tools/simulator/circuit.txt" "$work/crates/$crate/src/circuit.rt"
done
cp "$root/tools/simulator/text.txt" "$work/crates/simulator_text/src/main.rt"
cp "$root/tools/simulator/run.txt" "$work/crates/simulator_probe/src/main.rt"
mkdir "$work/crates/simulator_probe/proofs"/{words_in,run,simulate}
cp "$root/tools/simulator/words_in_invariants.txt" "$work/crates/simulator_probe/proofs/words_in/Invariants.antt"
cp "$root/tools/simulator/words_in_answers.txt" "$work/crates/simulator_probe/proofs/words_in/Answers.antt"
cp "$root/tools/simulator/run_invariants.txt" "$work/crates/simulator_probe/proofs/run/Invariants.antt"
cp "$root/tools/simulator/run_answers.txt" "$work/crates/simulator_probe/proofs/run/Answers.antt"
cp "$root/tools/simulator/simulate_answers.txt" "$work/crates/simulator_probe/proofs/simulate/Answers.antt"

# Writes the modules of circuits: their wires, registers, first seed, 1 for wide wires, and number.
modules() {
    (cd "$work/crates/simulator_text" && rt try -- "$@" 2>&1) | awk -v to="$work/m" '/^circuit [0-9]+$/ { file = to $2 ".v"; next } file { print > file } /^endmodule$/ { file = "" }'
}

# The probe's lines for these words, by `rt try` or `rt run`.
simulate() { (cd "$work/crates/simulator_probe" && rt "$1" -- "${@:2}" 2>&1) | grep ' shown$'; }

# Icarus Verilog's lines for a circuit: its seed, the cycles, and whether each is shown.
icarus() {
    python3 "$root/tools/simulator/bench.py" "$work/m$1.v" "$1" "$2" "$3" >"$work/bench.v" &&
        iverilog -o "$work/bench" "$work/bench.v" "$work/m$1.v" && vvp -n "$work/bench" | grep ' shown$'
}

if [ "${1:-}" = speed ]; then
    modules 2000 200 7 0 1
    simulate run 0 2000 200 7 10 0 1 >/dev/null
    program=$work/crates/simulator_probe/out/simulator_probe
    time "$program" 0 2000 200 7 20000 0 1
    time icarus 7 20000 0
    exit
fi

circuits=36
modules 60 12 100 1 $circuits
for ((seed = 100; seed < 100 + circuits; seed++)); do icarus "$seed" 200 1; done >"$work/theirs"
simulate try 1 60 12 100 200 1 $circuits >"$work/ours"
if [ "$(wc -l <"$work/ours")" -eq $((circuits * 201)) ] && cmp -s "$work/ours" "$work/theirs"; then
    echo "simulator check: $circuits circuits agree in $((circuits * 200)) cycles"
else
    diff "$work/ours" "$work/theirs" | head
    echo "simulator check: FAILED"
    exit 1
fi
