#!/usr/bin/env python3
"""Gives modules and reports with known answers to `cosim` of the built compiler, and prints what differs.

    tools/texts.py FOLDER   FOLDER/modules has NAME.v and FOLDER/reports NAME.rep, each beside NAME.line:
                            `design` or `report`, or the rule and the place of the first fault

A module without a fault is refused all the same, by rule 57 at its name, since its pins are not those of a function without parameters.
So is the module that stands beside a report without a fault. HLS names the program, else it is ./hls.
"""
import os
import pathlib
import re
import subprocess
import sys
import tempfile

ROOT = pathlib.Path(__file__).resolve().parent.parent
HLS = os.environ.get("HLS", str(ROOT / "hls"))
os.environ.setdefault("HLS_PLAIN", "1")
NAME = re.compile(rb"(?:\s|//[^\n]*\n|/\*.*?\*/)*module(?:\s|//[^\n]*\n|/\*.*?\*/)*", re.S)


def hls(*words):
    return subprocess.run([HLS, *map(str, words)], stdin=subprocess.DEVNULL, capture_output=True, text=True)


def name_place(text):
    """The line and the column of a module's name."""
    before = NAME.match(text).group()
    return f"{before.count(10) + 1}:{len(before) - before.rfind(10)}"


class Texts:
    def __init__(self, work):
        self.work = work
        (work / "f.c").write_text("int f(void){return 7;}")
        (work / "f.run").write_text("")
        hls("synth", work / "f.c", work / "f.v", work / "f.rep", "--top", "f")

    def cosim(self, module, report):
        done = hls("cosim", self.work / "f.c", module, report, self.work / "f.run", "--top", "f")
        return done.stdout.strip() if done.returncode == 8 else f"status {done.returncode}, {done.stdout.strip()}"

    def module(self, path, line):
        wanted = f"rule 57 at {name_place(path.read_bytes())}" if line == "design" else line
        return "module " + wanted, self.cosim(path, self.work / "f.rep")

    def report(self, path, line):
        other = ROOT / "corpus" / "modules" / "counter.v"
        wanted = "module rule 57 at " + name_place(other.read_bytes()) if line == "report" else "report " + line
        return wanted, self.cosim(other, path)


def main(words):
    if len(words) != 1:
        sys.exit(__doc__)
    folder, wrong, count = pathlib.Path(words[0]), 0, 0
    with tempfile.TemporaryDirectory() as work:
        texts = Texts(pathlib.Path(work))
        for path in sorted([*folder.glob("modules/*.v"), *folder.glob("reports/*.rep")]):
            line = path.with_suffix(".line").read_text().strip()
            wanted, found = (texts.module if path.suffix == ".v" else texts.report)(path, line)
            count += 1
            if wanted != found:
                wrong += 1
                print(f"{path.name}: wanted `{wanted}`, found `{found}`")
    print(f"texts: {count - wrong} of {count} as wanted")
    sys.exit(1 if wrong or not count else 0)


main(sys.argv[1:])
