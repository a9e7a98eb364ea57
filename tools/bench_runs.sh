#!/usr/bin/env bash
# The processor time of a run of C: a loop over an array of 1,024 elements, again and again, for 1,000,000 points.
# The program that runs it is made, proved and built in a temporary folder; where the crates have been checked before, that takes a minute.
set -u
root=$(cd "$(dirname "${BASH_SOURCE[0]}")/.." && pwd)
command -v rt >/dev/null || { echo "bench: the command rt of the Rattle kit is not on the path" >&2; exit 1; }
work=$(mktemp -d)
trap 'rm -rf "$work"' EXIT
used="hls_base c_token c_lexer c_macro c_tree c_syntax c_parser c_value pieces c_meaning c_names c_calls c_types c_machine c_moves c_interpreter"
mkdir -p "$work/crates/bench_runs/src"
for crate in $used; do
    cp -r "$root/crates/$crate" "$work/crates/"
    grep "^$crate:" "$root/crates.txt" >>"$work/crates.txt"
done
echo "bench_runs: $used" >>"$work/crates.txt"
cp "$root/HANDLES" "$work/"
cat >"$work/crates/bench_runs/src/main.rt" <<'RT'
//! Runs a program of C for 1,000,000 points.
#![tactic(auto)]

use c_meaning::checks::Checked;
use c_interpreter::execution::run::start;
use c_lexer::lex;
use c_macro::replace;
use c_meaning::outcome::Outcome;
use c_parser::parse;
use c_types::program::check;
use hls_base::inputs::Inputs;
use hls_base::place::Place;
use hls_base::text::Text;
use hls_base::words::{Arrays, Words};
use std::alloc::Global;
use std::process::ExitCode;

const SOURCE: &[u8] = b"int f(int a[1024]){int s=0;for(;;)for(int i=0;i<1024;i++)s=s^a[i];return s;}";

fn checked(alloc: Global) -> Option<Checked> {
    let end = Place {
        line: 1,
        column: 1,
        part: 0,
    };
    let tokens = lex(alloc, SOURCE).ok()?;
    let replaced = replace(alloc, tokens.as_slice()).ok()?;
    let Ok(program) = parse(alloc, replaced.as_slice(), end) else {
        return None;
    };
    if program.items.len() > 1 {
        return None;
    }
    let top = Text::from_slice(alloc, b"f").ok()?;
    check(alloc, program, &top).ok()
}

fn inputs(alloc: Global) -> Option<Inputs> {
    let mut words = Vec::new(alloc);
    for i in 0..1024u64 {
        words.push(i).ok()?;
    }
    let mut arrays = Vec::new(alloc);
    arrays.push(Words::new(words)).ok()?;
    Some(Inputs {
        scalars: Words::new(Vec::new(alloc)),
        arrays: Arrays::new(arrays),
    })
}

fn goes_on(alloc: Global) -> Option<bool> {
    let checked = checked(alloc)?;
    let mut run = start(alloc, &checked, &inputs(alloc)?).ok()?;
    let outcome = run.go(alloc, 1_000_000).ok()?;
    Some(matches!(outcome, Outcome::Running))
}

fn main(rt: HostRuntime) -> ExitCode {
    match goes_on(rt.alloc()) {
        Some(true) => ExitCode::from(0),
        _ => ExitCode::from(1),
    }
}
RT
(cd "$work/crates/bench_runs" && rt run) >"$work/log" 2>&1
program=$work/crates/bench_runs/out/bench_runs
[ -x "$program" ] || { tail -n 20 "$work/log" >&2; echo "bench: the program was not built" >&2; exit 1; }
TIMEFORMAT='%U %S'
for _ in 1 2 3; do
    took=$({ time "$program"; } 2>&1) || { echo "bench: the run did not go on" >&2; exit 1; }
    read -r user system <<<"$took"
    printf '1000000 points  %5d ms\n' $((10#${user/./} + 10#${system/./}))
done
