#!/usr/bin/env python3
"""Runs the stages of programs operation by operation, and prints where one differs from the run in C: in result, elements, steps,
or in how often the point of a node is passed.

    tools/stages.py [FOLDER] [NAME..]   each NAME.c with NAME.run (its run file) and NAME.opts (the options of `synth`); the folder is
                                        corpus/programs, if none is named

Each program is run twice: with pipelined loops and, as with `--plain`, without. STAGES names the program, else it is the one
that `rt ci` built, crates/stages/out/stages.
"""
import concurrent.futures
import os
import pathlib
import subprocess
import sys

ROOT = pathlib.Path(__file__).resolve().parent.parent
STAGES = os.environ.get("STAGES", str(ROOT / "crates" / "stages" / "out" / "stages"))
NAMES = ["lowered", "numbered", "converted"]


def difference(case, more):
    """What the program says that is not wanted, or nothing."""
    options = case.with_suffix(".opts").read_text().split()
    top = options[options.index("--top") + 1]
    done = subprocess.run([STAGES, case, top, case.with_suffix(".run"), *more], stdin=subprocess.DEVNULL, capture_output=True, text=True)
    lines = done.stdout.splitlines()
    if done.returncode == 0 and [line.split()[0] for line in lines] == [*NAMES, "agree"]:
        return None
    return f"status {done.returncode}, {lines}"


def compare(case):
    for more in ([], ["plain"]):
        found = difference(case, more)
        if found:
            return " ".join([*more, found])
    return None


def main(words):
    folder = pathlib.Path(words[0]) if words else ROOT / "corpus" / "programs"
    cases = [folder / f"{name}.c" for name in words[1:]] or sorted(case for case in folder.glob("*.c") if case.with_suffix(".opts").exists())
    wrong = 0
    with concurrent.futures.ThreadPoolExecutor(os.cpu_count()) as pool:
        for case, found in zip(cases, pool.map(compare, cases)):
            if found:
                wrong += 1
                print(f"{case.stem}: {found}")
    print(f"stages: {len(cases) - wrong} of {len(cases)} agree")
    sys.exit(1 if wrong or not cases else 0)


main(sys.argv[1:])
