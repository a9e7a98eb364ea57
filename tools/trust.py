#!/usr/bin/env python3
"""Lists the definitions that the contract of hls_cli's `run` stands on, crate by crate, with their lines.

    tools/trust.py [CRATE/NAME ..]   begins with these definitions in place of those that `run` names

Types that are declared in sources (`specs.declared`) and the definitions of the kit are not followed.
"""
import collections
import pathlib
import re
import sys

CRATES = pathlib.Path(__file__).resolve().parent.parent / "crates"
USED = re.compile(r"use\s+(?:Rattle\.)?(\w+)\.specs\.(\w+(?:\.\w+)*)")


def used(text):
    """The definitions that a text names, each as its crate and its file, where they are of this repository."""
    found = set()
    for crate, path in USED.findall(text):
        parts = path.split(".")
        files = ["/".join(parts[: count + 1]) for count in range(len(parts))]
        found |= {(crate, name) for name in [it for it in files if (CRATES / crate / "specs" / f"{it}.antt").exists()][-1:]}
    return found


def main(words):
    waiting = [tuple(word.split("/")) for word in words] or list(used((CRATES / "hls_cli" / "src" / "run.rt").read_text()))
    lines = {}
    while waiting:
        crate, name = one = waiting.pop()
        if one not in lines:
            text = (CRATES / crate / "specs" / f"{name}.antt").read_text()
            lines[one] = len(text.splitlines())
            waiting += used(text)
    crates = collections.defaultdict(list)
    for crate, name in sorted(lines):
        crates[crate].append(f"{name} {lines[crate, name]}")
    for crate, names in crates.items():
        print(f"{crate}: {', '.join(names)}")
    print(f"{len(lines)} files, {sum(lines.values())} lines")


main(sys.argv[1:])
