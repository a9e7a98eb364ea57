#!/usr/bin/env python3
"""Runs a command, by default the gate as CI does it, and prints for each crate the processor seconds of its checks, by what they were for, and when the first began and the last ended, in seconds from the start.

    tools/gate_times.py [WORD ..]    for example  tools/gate_times.py rt ci
    tools/gate_times.py --fill LOG   writes the table of such a run's output into docs/PERFORMANCE.md

Only processes that the command started count. A check belongs to the crate that it names, and any other process to the crate in whose folder it works. What a process did between its last look and its end is not seen: looks are a second apart. "Edits" has what a crate's must-fail edits cost: a check of the crate as it stands where it has more than one, and a check for each.
"""
import os
import pathlib
import re
import subprocess
import sys
import time

ROOT = pathlib.Path(__file__).resolve().parent.parent
TICKS = os.sysconf("SC_CLK_TCK")
KINDS = ("Proof", "Tests", "Edits")


def fields_of(pid):
    """The fields of a process's state behind its name: its parent is the second, and its ticks are the twelfth and thirteenth."""
    return pathlib.Path(f"/proc/{pid}/stat").read_text().rsplit(")", 1)[1].split()


def started(root):
    """The processes that this one started, and those that they started, with their processor seconds, without those of processes that ended."""
    states = {}
    for pid in filter(str.isdigit, os.listdir("/proc")):
        try:
            states[pid] = fields_of(pid)
        except (OSError, IndexError):
            continue
    found, left = {}, [str(root)]
    while left:
        parent = left.pop()
        for pid, fields in states.items():
            if fields[1] == parent and pid not in found:
                found[pid] = (int(fields[11]) + int(fields[12])) / TICKS
                left.append(pid)
    return found


def work_of(pid):
    """The crate that a process works for, and what it does there: one of the columns of the table. None where it works for no crate."""
    words = pathlib.Path(f"/proc/{pid}/cmdline").read_bytes().replace(b"\0", b" ").decode(errors="replace")
    folder = os.readlink(f"/proc/{pid}/cwd")
    crate = re.search(r"--crate-name (\w+)", words) or re.search(r"/crates/(\w+)", folder)
    if not crate:
        return None
    if "/rt-edit-" in folder:
        return crate.group(1), "Edits"
    return crate.group(1), "Tests" if re.search(r" --test( |$)", words) else "Proof"


def look(root, used, spans, now):
    for pid, spent in started(root).items():
        try:
            work = work_of(pid)
        except OSError:
            continue
        if work is None:
            continue
        used.setdefault(work, {})[pid] = spent
        first, _ = spans.get(work[0], (now, now))
        spans[work[0]] = (first, now)


def print_table(used, spans):
    """Prints the table, and returns the sum of its seconds."""
    print(f"| Crate | Processor seconds | {' | '.join(KINDS)} | Began | Ended |\n|---|---|{'---|' * len(KINDS)}---|---|")
    spent = lambda name, kind: sum(used.get((name, kind), {}).values())
    total = {name: sum(spent(name, kind) for kind in KINDS) for name in spans}
    for name in sorted(spans, key=lambda n: -total[n]):
        parts = " | ".join(f"{spent(name, kind):.0f}" for kind in KINDS)
        print(f"| {name} | {total[name]:.0f} | {parts} | {spans[name][0]:.0f} | {spans[name][1]:.0f} |")
    return sum(total.values())


def fill(log):
    """Puts the table at the end of a log, with its sum, between the marks of the page."""
    page = ROOT / "docs" / "PERFORMANCE.md"
    found = re.search(r"^\| Crate \| Processor seconds .*?\n\n(.*)$", pathlib.Path(log).read_text(), re.S | re.M)
    if not found:
        sys.exit(f"{log} has no table")
    text = re.sub(r"(<!-- gate -->\n).*?(<!-- end -->)", lambda m: m[1] + found[0].strip() + "\n" + m[2], page.read_text(), flags=re.S)
    page.write_text(text)


def main(words):
    if words[:1] == ["--fill"]:
        fill(words[1])
        return
    began = time.time()
    used, spans = {}, {}
    command = subprocess.Popen(words or ["bash", ".ci/run"], cwd=ROOT, stdin=subprocess.DEVNULL)
    while command.poll() is None:
        look(command.pid, used, spans, time.time() - began)
        time.sleep(1)
    total = print_table(used, spans)
    print(f"\n{total / 60:.0f} processor minutes, {(time.time() - began) / 60:.0f} minutes")
    sys.exit(command.returncode)


main(sys.argv[1:])
