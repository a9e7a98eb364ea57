#!/usr/bin/env python3
"""Finds the weights of programs by the rule that refuses what is above 8,192, and prints what differs from the known ones.

    tools/weights.py FOLDER [NAME..]   each NAME.c with NAME.opts (which name the top function) and NAME.weight

Each program gets a block before its first statement that brings it to exactly 8,192, which is taken, and then one that
brings it to 8,193, which is refused. HLS names the program, else it is ./hls.
"""
import concurrent.futures
import os
import pathlib
import re
import subprocess
import sys
import tempfile

ROOT = pathlib.Path(__file__).resolve().parent.parent
HLS = os.environ.get("HLS", str(ROOT / "hls"))
os.environ.setdefault("HLS_PLAIN", "1")
MOST = 8_192
# The block's own statements, without what is repeated in it: an object that is set at its declaration and once more.
BLOCK = "{unsigned pad_=0u;%spad_=%spad_;}"


def padding(weight):
    """A block of this weight: 4 for each addition that is assigned, 1 for each operator of one operand."""
    rest = weight - block_weight()
    return BLOCK % ("pad_=pad_+1u;" * (rest // 4), "~" * (rest % 4))


def block_weight(found=[]):
    """The weight of the block with nothing repeated, by a program whose weight is 4: `return a+1u`."""
    if not found:
        source = "unsigned f(unsigned a){%sreturn a+1u;}"
        fits = [n for n in range(32) if line(source % (BLOCK % ("pad_=pad_+1u;" * ((MOST - 4 - n) // 4), "~" * ((MOST - 4 - n) % 4))), "f")[1] == 0]
        found.append(min(fits))
    return found[0]


def line(source, top):
    with tempfile.TemporaryDirectory() as work:
        path = pathlib.Path(work) / "s.c"
        path.write_text(source)
        done = subprocess.run([HLS, "synth", path, path.with_suffix(".v"), path.with_suffix(".rep"), "--top", top], stdin=subprocess.DEVNULL, capture_output=True, text=True)
    return done.stdout.strip(), done.returncode


def compare(case):
    top = re.search(r"--top (\w+)", case.with_suffix(".opts").read_text())[1]
    weight, source = int(case.with_suffix(".weight").read_text()), case.read_text()
    body = [it.end() for it in re.finditer(rf"\b{top}\s*\([^;{{]*\)\s*\{{", source)]
    if not body:
        return "its top function was not found"
    taken = line(source[: body[-1]] + padding(MOST - weight) + source[body[-1] :], top)
    if taken[1] != 0:
        return f"at {MOST}: {taken[0]}"
    refused = line(source[: body[-1]] + padding(MOST + 1 - weight) + source[body[-1] :], top)
    if not refused[0].startswith("rule 36 at"):
        return f"at {MOST + 1}: {refused[0]}"
    return None


def main():
    if len(sys.argv) < 2:
        sys.exit(__doc__.split("\n\n")[1])
    cases = sorted(it.with_suffix(".c") for it in pathlib.Path(sys.argv[1]).glob("*.weight") if not sys.argv[2:] or it.stem in sys.argv[2:])
    block_weight()
    with concurrent.futures.ThreadPoolExecutor(2) as pool:
        found = list(pool.map(compare, cases))
    for case, difference in zip(cases, found):
        if difference:
            print(f"{case.stem}: {difference}")
    print(f"weights: {found.count(None)} of {len(cases)} programs as known")
    sys.exit(0 if cases and not any(found) else 1)


if __name__ == "__main__":
    main()
