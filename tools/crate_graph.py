#!/usr/bin/env python3
"""Says how many paths the graph of crates has, and fails if there are too many.

    tools/crate_graph.py

The toolchain finds the crates below a crate by walking each path of crates.txt, several times a run, so the count of paths is time.
"""
import functools
import pathlib
import sys

LIMIT = 3_000_000
ROOT = pathlib.Path(__file__).resolve().parent.parent


def graph():
    """Each crate of the repository with those that its line names."""
    rows = {}
    for line in (ROOT / "crates.txt").read_text().splitlines():
        head, colon, below = line.split("#")[0].partition(":")
        if colon:
            rows[head.split()[0]] = below.split()
    return {name: [it for it in below if it in rows] for name, below in rows.items()}


def main():
    below = graph()

    @functools.cache
    def paths(name):
        return 1 + sum(map(paths, below[name]))

    @functools.cache
    def depth(name):
        return 1 + max(map(depth, below[name]), default=0)

    total = sum(map(paths, below))
    print(f"crates: {len(below)}, paths: {total:,}, depth: {max(map(depth, below))}")
    if total > LIMIT:
        sys.exit(f"crates: more than {LIMIT:,} paths: join crates, or list only what a crate names")


main()
