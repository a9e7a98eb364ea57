#!/usr/bin/env python3
"""Gives the compiler the deepest programs within its limits, and little stack.

    tools/deep_programs.py [SHAPE ..]   all shapes, or those named

Each shape nests one construct 60 deep in each of up to 62 functions, where each function calls the next from the innermost place; fewer
functions if the source would have too many tokens. The program has to accept or reject every source with 8 MB of stack, and those of one function
with 1 MB. Prints each source for which it does not, with the signal or status that it ended with. For each shape it prints the last line, the
time for most functions, and how many times that for half of them it is. HLS_PROGRAM names the program, else it is ./hls.
"""
import os
import pathlib
import re
import resource
import signal
import subprocess
import sys
import tempfile
import time

ROOT = pathlib.Path(__file__).resolve().parent.parent
PROGRAM = os.environ.get("HLS_PROGRAM", str(ROOT / "hls"))
DEPTH = 60
FUNCTIONS = 62
TOKENS = 16_384
LARGE, SMALL = 8 << 20, 1 << 20


def statement(before, behind="", levels=1, last="a=CALL;"):
    """A statement in a statement; a turn has so many levels of nesting."""
    turns = DEPTH // levels
    return before * turns + last + behind * turns + "return a;"


def expression(before, behind, levels=1, last="CALL"):
    turns = (DEPTH - 2) // levels
    return "return " + before * turns + last + behind * turns + ";"


SHAPES = {
    "if": statement("if(a)"),
    "if and else": statement("if(a)", "else a=1;"),
    "else": statement("if(a)a=1;else "),
    "while": statement("while(a)"),
    "do": statement("do ", "while(a);"),
    "for": statement("for(;a;)"),
    "for with a step": statement("for(;a;a--)"),
    "blocks": statement("{", "}"),
    "blocks with objects": statement("{int b=a;", "}"),
    "early returns": statement("if(a){if(a>9)return a;", "}", 2),
    "early returns of loops": statement("while(a){if(a>9)return a;", "}", 2),
    "breaks": statement("while(a){if(a>9)break;", "}", 2),
    "steps": statement("for(;a;a--){if(a>9)continue;", "}", 2),
    "switch": statement("switch(a){case 1:", "}", 3),
    "switch with arms": statement("switch(a){case 2:a=1;break;default:", "}", 3),
    "choice": expression("a?", ":a"),
    "last choice": expression("a?a:", ""),
    "and": expression("a&&(", ")"),
    "or": expression("a||(", ")"),
    "sum": expression("a+(", ")"),
    "sum before": expression("(", ")+a"),
    "prefix": expression("- ", ""),
    "cast": expression("(char)", ""),
    "subscript": expression("c[", "]"),
    "comma": expression("(a=1,", ")"),
    "argument": expression("h(", ")", 1),
}


def source(shape, count):
    text = "const int c[2]={0,1};int h(int a){return a;}int f0(int a){return a;}"
    for k in range(1, count):
        text += f"int f{k}(int a){{{SHAPES[shape].replace('CALL', f'f{k - 1}(a)')}}}"
    return text + f"int f(int a){{{SHAPES[shape].replace('CALL', f'f{count - 1}(a)')}}}"


def fits(text):
    return len(re.findall(r"\w+|--|\+\+|&&|\|\||[^\w\s]", text)) <= TOKENS


def most_functions(shape):
    return max(count for count in range(1, FUNCTIONS + 1) if fits(source(shape, count)))


def run(text, stack):
    """The status, or the negative signal, and the seconds."""
    with tempfile.TemporaryDirectory() as work:
        (pathlib.Path(work) / "s.c").write_text(text)
        began = time.monotonic()
        done = subprocess.run(
            [PROGRAM, "synth", "s.c", "s.v", "s.rep", "--top", "f"],
            cwd=work,
            stdin=subprocess.DEVNULL,
            stdout=subprocess.PIPE,
            stderr=subprocess.DEVNULL,
            env={**os.environ, "HLS_PLAIN": "1"},
            preexec_fn=lambda: resource.setrlimit(resource.RLIMIT_STACK, (stack, stack)),
        )
        return done.returncode, done.stdout.decode().strip(), time.monotonic() - began


def ended(status):
    return f"crashes by {signal.Signals(-status).name}" if status < 0 else f"ends with status {status}"


def main(names):
    wrong = 0
    for shape in names or SHAPES:
        most = most_functions(shape)
        seconds = {}
        for count in (1, 2, most // 2, most):
            text = source(shape, count)
            for stack in (LARGE, SMALL) if count == 1 else (LARGE,):
                status, line, seconds[count] = run(text, stack)
                if status not in (0, 1):
                    wrong += 1
                    print(f"{shape}, {count} functions, {len(text)} bytes, {stack >> 20} MB of stack: {ended(status)}", flush=True)
        print(f"{shape}: {line or 'no line'}; {seconds[most]:.2f} s for {most} functions, {seconds[most] / seconds[most // 2]:.1f} times that for {most // 2}", flush=True)
    print(f"deep programs: {wrong} wrong")
    sys.exit(1 if wrong else 0)


main(sys.argv[1:])
