#!/usr/bin/env python3
"""Runs the kernels of examples/bench with four settings, and compares `cosim` with the same C compiled by gcc, and cycles with docs/PERFORMANCE.md.

    tools/bench_kernels.py [--write] [NAME ..]   all kernels, or these; with --write the table becomes that of the cycles that were found

Fourteen kernels are integer forms of kernels of PolyBench at its smallest size, and three are in the manner of CHStone. Their data is made
here, from fixed seeds. HLS names the program, else it is ./hls.
"""
import concurrent.futures
import os
import pathlib
import re
import shutil
import sys
import tempfile

sys.path.insert(0, str(pathlib.Path(__file__).resolve().parent))
import examples

KERNELS = examples.EXAMPLES / "bench"
PAGE = examples.ROOT / "docs" / "PERFORMANCE.md"
MARKED = re.compile(r"(<!-- kernels -->\n)(.*?)(<!-- end -->)", re.S)
SETTINGS = (["--plain"], [], ["--ports", "2"], ["--ports", "2", "--mul", "4"])
HEAD = "| Kernel | `--plain` | default | `--ports 2` | `--ports 2 --mul 4` |\n|---|---|---|---|---|\n"
LIMITS = ["--points", 10**8, "--cycles", 10**8]
ROW = re.compile(r"\| (\w+) \| ([\d,]+) \| ([\d,]+) \| ([\d,]+) \| ([\d,]+) \|")


# ---- the data of the runs


def drawn(seed):
    """Numbers below 2^31, one after the other."""
    while True:
        seed = seed * 1103515245 + 12345 & 0x7FFFFFFF
        yield seed >> 8


def between(least, most):
    """An array of numbers in a range."""
    return lambda lengths, numbers: [least + next(numbers) % (most - least + 1) for _ in range(product(lengths))]


def square(below, diagonal, above):
    """A square matrix whose parts have ranges of their own."""

    def fill(lengths, numbers):
        for i in range(lengths[0]):
            for j in range(lengths[1]):
                least, most = below if j < i else diagonal if i == j else above
                yield least + next(numbers) % (most - least + 1)

    return fill


def product(lengths):
    found = 1
    for length in lengths:
        found *= length
    return found


def speech(lengths, numbers):
    """Noise through a filter of two poles, as in a vowel."""
    last = before = 0
    for _ in range(lengths[0]):
        last, before = (410 * last - 205 * before) // 256 + next(numbers) % 401 - 200, last
        yield last


def arctangent(inverse, unit):
    """The angle whose tangent is 1 / inverse, in parts of the unit."""
    total = term = unit // inverse
    k = 1
    while term:
        term //= -inverse * inverse
        total += term // (2 * k + 1)
        k += 1
    return total


def pi_words(first, count):
    """Words of 32 bits of the binary digits of pi behind the point."""
    unit = 1 << 32 * (first + count) + 64
    pi = 4 * (4 * arctangent(5, unit) - arctangent(239, unit))
    return [pi >> 64 + 32 * (first + count - 1 - k) & 0xFFFFFFFF for k in range(first, first + count)]


SMALL = between(-9, 9)
WIDE = between(0, 9999)
DATA = {
    "gemver": {"a": between(0, 255)},
    "trisolv": {"l": square((0, 3), (64, 127), (0, 0)), "b": between(-4000, 4000)},
    "lu": {"a": square((-99, 99), (5120, 9999), (-99, 99))},
    "floyd_warshall": {"path": square((1, 999), (0, 0), (1, 999))},
    "jacobi_1d": {"a": WIDE, "b": WIDE},
    "jacobi_2d": {"a": WIDE, "b": WIDE},
    "seidel_2d": {"a": WIDE},
    "heat_3d": {"a": WIDE, "b": WIDE},
    "lpc": {"sample": speech},
    "blowfish": {
        "p": lambda lengths, numbers: pi_words(0, 18),
        "s": lambda lengths, numbers: pi_words(18, 1024),
        "key": lambda lengths, numbers: bytes.fromhex("0123456789abcdef"),
        "text": lambda lengths, numbers: [0x11111111] * 16,
    },
    "processor": {"memory": WIDE},
}
SCALARS = {"alpha": 3, "beta": 2}
# A block of the cipher that is known: that of its key and text in the list that the author of the cipher published.
KNOWN = {"blowfish": "array text " + " ".join([str(0x61F9C380), str(0x2281B096)] * 8)}


def run_text(source):
    """The run file of a kernel."""
    lines, numbers = [], drawn(7)
    for p in examples.head_of(source)[2]:
        fill = DATA.get(source.stem, {}).get(p.name, SMALL)
        values = fill(p.lengths, numbers) if p.lengths else [SCALARS[p.name]]
        lines.append(f"{p.name} = {' '.join(map(str, values))}\n")
    return "".join(lines)


# ---- the comparison


def cycles(source, options):
    """The cycles of a kernel with these options, or what is wrong."""
    with tempfile.TemporaryDirectory() as folder:
        work = pathlib.Path(folder)
        (work / "k.run").write_text(run_text(source))
        example = examples.Example(source, work / "k.run")
        found = examples.by_cosim(example, work, options, LIMITS)
        if found[-1:] != ["agree"]:
            return f"cosim says {found[-1:]}"
        if KNOWN.get(source.stem, found[0]) not in found:
            return "another result than the known one"
        if shutil.which("gcc"):
            wanted = examples.by_gcc(example, work)
            if found[: len(wanted)] != wanted:
                return f"gcc says {wanted}, cosim {found}"
        return next(int(line.split()[1]) for line in found if line.startswith("verilog "))


def table(text):
    """The rows of the page, by their kernels."""
    return {row[0]: [int(n.replace(",", "")) for n in row[1:]] for row in ROW.findall(MARKED.search(text).group(2))}


def main(words):
    names = [word for word in words if word != "--write"]
    if not shutil.which("gcc"):
        print("kernels: gcc is not there, its comparison is skipped")
    sources = [source for source in sorted(KERNELS.glob("*.c")) if not names or source.stem in names]
    text = PAGE.read_text()
    rows, wrong = table(text), 0
    with concurrent.futures.ThreadPoolExecutor(os.cpu_count()) as pool:
        calls = [[pool.submit(cycles, source, options) for options in SETTINGS] for source in sources]
        for source, found in zip(sources, [[call.result() for call in row] for row in calls]):
            faults = [f"{' '.join(options) or 'default'}: {one}" for options, one in zip(SETTINGS, found) if isinstance(one, str)]
            if not faults and "--write" in words:
                rows[source.stem] = found
            elif not faults and rows.get(source.stem) != found:
                faults = [f"{found} cycles, and docs/PERFORMANCE.md has {rows.get(source.stem)}"]
            for fault in faults:
                print(f"{source.stem}: {fault}")
            wrong += bool(faults)
    if "--write" in words:
        made = HEAD + "".join(f"| {name} | {' | '.join(f'{n:,}' for n in row)} |\n" for name, row in sorted(rows.items()))
        PAGE.write_text(MARKED.sub(lambda m: m.group(1) + made + m.group(3), text))
    print(f"kernels: {len(sources) - wrong} of {len(sources)} as wanted")
    sys.exit(1 if wrong or not sources else 0)


if __name__ == "__main__":
    main(sys.argv[1:])
