#!/usr/bin/env python3
"""Runs the built compiler over programs with known answers, and prints what differs.

    tools/programs.py FOLDER [NAME..]   each NAME.c with NAME.run (its run file), NAME.opts (the options of `synth`),
                                        NAME.report and NAME.lines, or NAME.cycles and NAME.loops

The report has no `registers` and `edge` lines, which are not determined; the lines are those of `cosim` up to `clock`,
behind which `verilog`, with the formula's number, and `agree` are expected. NAME.cycles has the cycles of the run and those with
`--plain`, and NAME.loops the interval and the exit of each pipelined loop; nothing else is compared then. HLS names the program, else it is ./hls.
"""
import concurrent.futures
import os
import pathlib
import subprocess
import sys
import tempfile

ROOT = pathlib.Path(__file__).resolve().parent.parent
HLS = os.environ.get("HLS", str(ROOT / "hls"))
os.environ.setdefault("HLS_PLAIN", "1")
FREE = ("registers ", "edge ")


def run(words):
    done = subprocess.run([HLS, *map(str, words)], stdin=subprocess.DEVNULL, capture_output=True, text=True)
    return done.stdout, done.returncode


def expected_lines(text):
    """The lines of `cosim`, with those that follow from the others."""
    lines = text.splitlines()
    for line in lines:
        if line.startswith("formula "):
            return lines + ["verilog " + line.split()[1], "agree"]
    return lines


def fixed(report):
    return [line for line in report.splitlines() if not line.startswith(FREE)]


def first_difference(kind, wanted, found):
    for k in range(max(len(wanted), len(found))):
        a = wanted[k] if k < len(wanted) else "(nothing)"
        b = found[k] if k < len(found) else "(nothing)"
        if a != b:
            return f"{kind}: wanted `{a}`, found `{b}`"
    return None


def fields(text):
    return dict(line.split(" ", 1) for line in text.splitlines() if " " in line)


def compare_cycles(case, options, top):
    """The cycles of the formula, the timed program and the module, pipelined and plain, and the loops of the report."""
    wanted = fields(case.with_suffix(".cycles").read_text())
    for more, cycles in ((), wanted["cycles"]), (("--plain",), wanted["plain"]):
        with tempfile.TemporaryDirectory() as work:
            module, report = pathlib.Path(work) / "m.v", pathlib.Path(work) / "m.rep"
            said, status = run(["synth", case, module, report, *options, *more])
            if status != 0:
                return f"synth: status {status}, {said.strip()!r}"
            loops = [line.split(" ", 3)[3] for line in report.read_text().splitlines() if line.startswith("loop ")]
            if not more and loops != case.with_suffix(".loops").read_text().splitlines():
                return f"loops: found {loops}"
            said, status = run(["cosim", case, module, report, case.with_suffix(".run"), "--top", top])
            found = fields(said)
            if status != 0 or [found.get(name) for name in ("formula", "clock", "verilog")] != 3 * [cycles]:
                return f"cosim {' '.join(more)}: wanted {cycles} cycles, found status {status}, {said.splitlines()}"
    return None


def compare(case):
    options = case.with_suffix(".opts").read_text().split()
    top = options[options.index("--top") + 1]
    if case.with_suffix(".cycles").exists():
        return compare_cycles(case, options, top)
    with tempfile.TemporaryDirectory() as work:
        module, report = pathlib.Path(work) / "m.v", pathlib.Path(work) / "m.rep"
        said, status = run(["synth", case, module, report, *options])
        if said != f"made hls_{top}\n" or status != 0:
            return f"synth: status {status}, {said.strip()!r}"
        found = first_difference("report", fixed(case.with_suffix(".report").read_text()), fixed(report.read_text()))
        said, status = run(["cosim", case, module, report, case.with_suffix(".run"), "--top", top])
        lines = first_difference("cosim", expected_lines(case.with_suffix(".lines").read_text()), said.splitlines())
        return found or lines or (None if status == 0 else f"cosim: status {status}")


def main(words):
    if not words:
        sys.exit(__doc__)
    folder = pathlib.Path(words[0])
    cases = [folder / f"{name}.c" for name in words[1:]] or [c for c in sorted(folder.glob("*.c")) if c.with_suffix(".lines").exists() or c.with_suffix(".cycles").exists()]
    wrong = 0
    with concurrent.futures.ThreadPoolExecutor(os.cpu_count()) as pool:
        for case, difference in zip(cases, pool.map(compare, cases)):
            if difference:
                wrong += 1
                print(f"{case.stem}: {difference}")
    print(f"programs: {len(cases) - wrong} of {len(cases)} as wanted")
    sys.exit(1 if wrong or not cases else 0)


main(sys.argv[1:])
