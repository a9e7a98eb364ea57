#!/usr/bin/env python3
"""Runs `./hls` on bad input with known explanations, and prints what differs.

    tools/messages.py [--write] [NAME ..]   all cases, or those whose names begin so; --write makes the answers found the expected ones

corpus/messages/cases.txt has the cases, each with these parts:

    === NAME                  and the source s.c in the lines after it, where \\xNN is a byte, and `%repeat A B TEXT` a line for each number
    >>> run                   and the run file s.run, where the command reads one
    >>> top NAME              the function of the module s.v, where it is another one than that of the command
    --- WORDS                 the arguments, and the expected answer after it: the status, the line on standard output, and the explanation on
                              standard error without its excerpts of the source; with `--- full WORDS` the excerpts count too. No arguments
                              are `synth s.c s.v s.rep --top f`, and `cosim` alone is `cosim s.c s.v s.rep s.run --top f`
    +++                       and the corrected source, with which the same command must succeed; `+++ WORDS` gives other arguments
    +++ run                   and the corrected run file

Before `cosim` the source is compiled to s.v and s.rep. link.c is a link to s.c, and d a directory. HLS_PROGRAM names another program.
"""
import concurrent.futures
import os
import pathlib
import re
import shlex
import subprocess
import sys
import tempfile

ROOT = pathlib.Path(__file__).resolve().parent.parent
CASES = ROOT / "corpus" / "messages" / "cases.txt"
EXCERPT = re.compile(r" *[0-9]+ \| .*| {8}\| *\t*.*")
ENVIRONMENT = {k: v for k, v in os.environ.items() if k != "HLS_PLAIN"} | {"HLS_EXPLAIN_STRICT": "1", "NO_COLOR": "1"}
MARKS = (">>> ", "---", "+++")
SHORT = {"": "synth s.c s.v s.rep --top f", "cosim": "cosim s.c s.v s.rep s.run --top f"}


class Case:
    """A bad input, the answer that is expected, and the corrected input."""

    def __init__(self, name):
        self.name, self.source, self.run, self.words, self.expected = name, [], None, "", []
        self.fixes, self.top = [], ""

    def part(self, mark):
        """The list that takes the lines after a mark."""
        head, _, rest = mark.partition(" ")
        if mark == ">>> run":
            self.run = []
            return self.run
        if head == ">>>":
            self.top = rest.removeprefix("top ")
            return []
        if head == "---":
            self.words = rest
            return self.expected
        self.fixes.append((rest, []))
        return self.fixes[-1][1]

    def text(self):
        lines = [f"=== {self.name}", *self.source]
        if self.run is not None:
            lines += [">>> run", *self.run]
        if self.top:
            lines.append(f">>> top {self.top}")
        lines += [f"--- {self.words}".rstrip(), *self.expected]
        for rest, fixed in self.fixes:
            lines += [f"+++ {rest}".rstrip(), *fixed]
        return "\n".join(lines)

    def is_full(self):
        return self.words.split(" ")[0] == "full"

    def arguments(self):
        words = self.words.removeprefix("full").strip()
        return shlex.split(SHORT.get(words, words))

    def call(self, work, arguments):
        return subprocess.run([ROOT / "hls", *arguments], cwd=work, stdin=subprocess.DEVNULL, capture_output=True, env=ENVIRONMENT)

    def prepare(self, work, source, run):
        text = "".join(line + "\n" for line in repeated(source)).encode()
        (work / "s.c").write_bytes(re.sub(rb"\\x([0-9a-f]{2})", lambda byte: bytes.fromhex(byte.group(1).decode()), text))
        (work / "s.run").write_text("".join(line + "\n" for line in run or []))
        (work / "d").mkdir(exist_ok=True)
        if not (work / "link.c").exists():
            (work / "link.c").symlink_to("s.c")

    def compile(self, work, arguments):
        if arguments[:1] == ["cosim"] and "--top" in arguments:
            self.call(work, ["synth", "s.c", "s.v", "s.rep", "--top", self.top or arguments[arguments.index("--top") + 1]])

    def found(self):
        """The answer: status, the last line on standard output, the explanation."""
        with tempfile.TemporaryDirectory() as folder:
            work, arguments = pathlib.Path(folder), self.arguments()
            self.prepare(work, self.source, self.run)
            self.compile(work, arguments)
            done = self.call(work, arguments)
            lines = done.stderr.decode(errors="replace").replace("\r", "").splitlines()
            if not self.is_full():
                lines = [line for line in lines if not EXCERPT.fullmatch(line)]
            answer = done.stdout.decode(errors="replace").splitlines()[-1:]
            return [f"{done.returncode} {''.join(answer)}".rstrip(), *lines]

    def unfixed(self):
        """What is wrong with the corrected input, if anything."""
        source, run, arguments = self.source, self.run, self.arguments()
        for rest, lines in self.fixes:
            if rest == "run":
                run = lines
            else:
                source, arguments = lines or source, shlex.split(SHORT.get(rest, rest)) if rest else arguments
        with tempfile.TemporaryDirectory() as folder:
            work = pathlib.Path(folder)
            self.prepare(work, source, run)
            self.compile(work, arguments)
            done = self.call(work, arguments)
            return None if done.returncode == 0 else f"the corrected input ends with {done.returncode}, {done.stdout.decode(errors='replace').strip()}"


def repeated(lines):
    """The lines of a source, where `%repeat A B TEXT` stands for TEXT with each number from A to B in the place of `%k`."""
    for line in lines:
        match = re.fullmatch(r"%repeat (\d+) (\d+) (.*)", line)
        if match:
            yield from (match.group(3).replace("%k", str(k)) for k in range(int(match.group(1)), int(match.group(2)) + 1))
        else:
            yield line


def read(path):
    """The cases of a file, and its head."""
    head, cases = [], []
    lines = head
    for line in path.read_text().splitlines():
        if line.startswith("=== "):
            cases.append(Case(line[4:]))
            lines = cases[-1].source
        elif cases and line.startswith(MARKS):
            lines = cases[-1].part(line)
        else:
            lines.append(line)
    return head, cases


def compare(case):
    found, difference = case.found(), None
    if found != case.expected:
        k = next((k for k, (a, b) in enumerate(zip(found, case.expected)) if a != b), min(len(found), len(case.expected)))
        at = lambda lines: lines[k] if k < len(lines) else "(nothing)"
        difference = f"wanted `{at(case.expected)}`, found `{at(found)}`"
    return found, difference or (case.unfixed() if case.fixes else None)


def signals():
    """A program that dies of a signal is said to have died."""
    with tempfile.TemporaryDirectory() as folder:
        work = pathlib.Path(folder)
        (work / "dies").write_text("#!/bin/sh\nkill -SEGV $$\n")
        (work / "dies").chmod(0o755)
        (work / "s.c").write_text("int f(void){return 7;}\n")
        words, environment = [ROOT / "hls", *SHORT[""].split()], ENVIRONMENT | {"HLS_PROGRAM": "./dies"}
        done = subprocess.run(words, cwd=work, capture_output=True, text=True, env=environment)
        found = [str(done.returncode), done.stdout, *done.stderr.splitlines()[:1]]
        wanted = ["139", "", "error: the compiler was ended by signal 11 (SIGSEGV), and gave no answer"]
        return None if found == wanted else f"wanted {wanted}, found {found}"


def main(words):
    write = "--write" in words
    names = [word for word in words if word != "--write"]
    head, cases = read(CASES)
    chosen = [case for case in cases if not names or any(case.name.startswith(name) for name in names)]
    wrong = 0
    with concurrent.futures.ThreadPoolExecutor(min(4, os.cpu_count() or 1)) as pool:
        for case, (found, difference) in zip(chosen, pool.map(compare, chosen)):
            if write:
                case.expected = found
                difference = case.unfixed() if case.fixes else None
            if difference:
                wrong += 1
                print(f"{case.name}: {difference}")
    if write:
        CASES.write_text("\n".join([*head, *(case.text() for case in cases)]) + "\n")
    count = len(chosen)
    if not names:
        count += 1
        difference = signals()
        if difference:
            wrong += 1
            print(f"a program that dies: {difference}")
    print(f"messages: {count - wrong} of {count}")
    sys.exit(1 if wrong or not chosen else 0)


if __name__ == "__main__":
    main(sys.argv[1:])
