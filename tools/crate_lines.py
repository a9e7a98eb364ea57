#!/usr/bin/env python3
"""Compares crates.txt with what the crates name in src, specs and proofs.

    tools/crate_lines.py          prints what a crate names and its line lacks, and what its line lists and it does not name
    tools/crate_lines.py NAME..   the same of these crates

A line is best with exactly what is named: each name more multiplies the ways through the graph that the kit walks.
"""
import pathlib
import re
import sys

ROOT = pathlib.Path(__file__).resolve().parent.parent


def crates():
    """The crates of the repository, each with the libraries that its line lists."""
    below = {}
    for line in (ROOT / "crates.txt").read_text().splitlines():
        line = line.split("#")[0].strip()
        if line:
            name, deps = line.split(":")
            below[name.split()[0]] = deps.split()
    return below


def named(crate, names):
    """The libraries among these that the crate names."""
    folder = ROOT / "crates" / crate
    own = {crate} | {path.stem for path in (folder / "src").rglob("*.rt")}
    found = set()
    for part, pattern in (("src", "*.rt"), ("specs", "*.antt"), ("proofs", "*.antt")):
        for path in (folder / part).rglob(pattern):
            text = path.read_text()
            found |= set(re.findall(r"\bRattle\.([a-z_0-9]+)\b", text))
            if pattern == "*.rt":
                found |= set(re.findall(r"(?<![\w:])([a-z_0-9]+)::", text)) - own
    return (found & names) - {crate}


def main(words):
    listed = crates()
    names = set(listed) | {name for line in listed.values() for name in line}
    for crate in words or listed:
        uses = named(crate, names)
        lacking, more = sorted(uses - set(listed[crate])), sorted(set(listed[crate]) - uses)
        if lacking:
            print(f"{crate}: lacks {' '.join(lacking)}")
        if more:
            print(f"{crate}: does not name {' '.join(more)}")


if __name__ == "__main__":
    main(sys.argv[1:])
