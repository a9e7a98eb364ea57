#!/usr/bin/env python3
"""Gives bad input to the built compiler: words, files, damaged texts, and each limit at its last value and one further.

    tools/bad_input.py [NAME ..]   all cases, or those whose names begin so

Prints each case whose status, line or files are not the wanted ones. HLS names the program, else it is ./hls.
"""
import concurrent.futures
import os
import pathlib
import re
import subprocess
import sys
import tempfile

ROOT = pathlib.Path(__file__).resolve().parent.parent
HLS = os.environ.get("HLS", str(ROOT / "hls"))
os.environ.setdefault("HLS_PLAIN", "1")
USAGE = "usage: hls COMMAND ARGUMENTS"
SEVEN = "int f(void){return 7;}"
LOOP = "int f(int n){int s=0; for(int i=0;i<n;i++) s=s+i; return s;}"
SYNTH = ["synth", "s.c", "s.v", "s.rep", "--top", "f"]
COSIM = ["cosim", "s.c", "s.v", "s.rep", "s.run", "--top", "f"]
COUNTER = (ROOT / "corpus" / "modules" / "counter.v").read_text()


class Case:
    """Files, the words of one or more calls, and what the last call has to answer."""

    def __init__(self, name, status, line, words=SYNTH, source=SEVEN, make=False, files=None, there=(), absent=(), output=None):
        self.name, self.status, self.line, self.words = name, status, line, words
        self.source, self.files = source, files or {}
        self.make, self.there, self.absent, self.output = make, there, absent, output

    def call(self, work, words, output=None):
        done = subprocess.run([HLS, *words], cwd=work, stdin=subprocess.DEVNULL, stdout=output or subprocess.PIPE, stderr=subprocess.PIPE, text=True)
        return done.returncode, (done.stdout or "").rstrip("\n")

    def found(self):
        """What is wrong, if anything."""
        with tempfile.TemporaryDirectory() as folder:
            work = pathlib.Path(folder)
            (work / "s.c").write_text(self.source)
            if self.make:
                self.call(work, SYNTH)
            for name, text in self.files.items():
                if text is None:
                    (work / name).unlink(missing_ok=True)
                elif text == "/":
                    (work / name).unlink(missing_ok=True)
                    (work / name).mkdir()
                else:
                    (work / name).write_bytes(text.encode() if isinstance(text, str) else text)
            if self.output:
                with open(self.output, "w") as output:
                    status, line = self.call(work, self.words, output)
            else:
                status, line = self.call(work, self.words)
            last = line.splitlines()[-1] if line else ""
            if status != self.status or not re.fullmatch(self.line, last):
                return f"wanted status {self.status}, `{self.line}`; found {status}, `{last[:200]}`"
            for name in self.there:
                if not (work / name).is_file():
                    return f"{name} is not there"
            for name in self.absent:
                if (work / name).exists():
                    return f"{name} is there"
        return None


def fits(name, text, **more):
    return Case(name, 0, "made hls_f", source=text, **more)


def refused(name, text, rule, line, column):
    return Case(name, 1, f"rule {rule} at {line}:{column}", source=text, absent=("s.v", "s.rep"))


def words():
    wrong = [
        [], ["foo"], ["synth"], ["synth", "s.c", "s.v"], SYNTH[:4], [*SYNTH[:4], "--top"], [*SYNTH, "--foo"], [*SYNTH, "more"], [*SYNTH, "--top", "f"],
        ["cosim"], SYNTH[1:], ["cosim", *SYNTH[1:]], [*COSIM, "--plain"], [*COSIM, "--mul", "1"],
        [*SYNTH, "--points", "1"], ["soak"], ["soak", "x"], ["soak", "-1"], ["soak", "+1"], ["soak", ""], ["soak", "1", "2"], ["soak", "18446744073709551616"],
        ["timing"], ["timing", "s.v", "t.v"], ["timing", "s.v", "--top", "f"], ["blast", "s.v"], ["blast", "s.v", "s.v"], ["blast", "s.v", "a", "b"],
        ["link"], ["link", "o.v"], ["link", "o.v", "2"], ["link", "o.v", "0", "s.v"], ["link", "o.v", "1025", "s.v"], ["link", "o.v", "+2", "s.v"], ["link", "o.v", "x", "s.v"],
        ["link", "s.v", "2", "s.v"], ["link", "o.v", "2", "s.v", "t.v", "s.v"],
        ["synth", "x", "x", "y", "--top", "f"],
    ]
    for option, most in (("--mul", 8), ("--div", 4), ("--ports", 2), ("--period", 1000)):
        wrong += [[*SYNTH, option, value] for value in ("0", str(most + 1), "-1", "x", "", "1.0", "99999999999999999999999")] + [[*SYNTH, option]]
        wrong.append([*SYNTH, option, "1", option, "1"])
        yield Case(f"words {option} {most}", 0, "made hls_f", words=[*SYNTH, option, str(most)])
    for option in ("--points", "--cycles"):
        wrong += [[*COSIM, option, value] for value in ("0", "1000000001", "-5", "x")]
        yield Case(f"words {option} 1000000000", 0, "agree", words=[*COSIM, option, "1000000000"], make=True, files={"s.run": ""})
    names = ["s.c", "s.v", "s.rep", "s.run"]
    for command, count in (("synth", 3), ("cosim", 4)):
        for k in range(count):
            for earlier in range(k):
                twice = names[:count]
                twice[k] = twice[earlier]
                wrong.append([command, *twice, "--top", "f"])
    for k, line in enumerate(wrong):
        yield Case(f"words {k} {' '.join(line)}", 2, USAGE, words=line, absent=("s.v", "s.rep"))


def files():
    yield Case("files no source", 3, "fault", files={"s.c": None}, absent=("s.v", "s.rep"))
    yield Case("files source is a folder", 3, "fault", files={"s.c": None, "d": "/"}, words=["synth", "d", *SYNTH[2:]], absent=("s.v", "s.rep"))
    yield Case("files module in no folder", 3, "fault", words=["synth", "s.c", "none/s.v", *SYNTH[3:]], there=("s.rep",))
    yield Case("files report in no folder", 3, "fault", words=["synth", "s.c", "s.v", "none/s.rep", *SYNTH[4:]], absent=("s.v",))
    yield Case("files module is a folder", 3, "fault", files={"s.v": "/"}, there=("s.rep",))
    yield Case("files report is a folder", 3, "fault", files={"s.rep": "/"}, absent=("s.v",))
    yield Case("files module cannot be written", 3, "fault", words=["synth", "s.c", "/dev/full", *SYNTH[3:]], there=("s.rep",))
    yield Case("files report cannot be written", 3, "fault", words=["synth", "s.c", "s.v", "/dev/full", *SYNTH[4:]], absent=("s.v",))
    yield Case("files output cannot be written", 3, "", output="/dev/full", there=("s.v", "s.rep"))
    yield Case("files refusal cannot be written", 3, "", source="", output="/dev/full", absent=("s.v", "s.rep"))
    for name in ("s.c", "s.v", "s.rep", "s.run"):
        yield Case(f"files cosim without {name}", 3, "fault", words=COSIM, make=True, files={"s.run": "", name: None})
        yield Case(f"files cosim with a folder {name}", 3, "fault", words=COSIM, make=True, files={"s.run": "", name: "/"})


def end(text):
    """The place just behind the last byte."""
    return f"{text.count(chr(10)) + 1}:{len(text) - text.rfind(chr(10))}"


def damaged(report):
    for k in range(len(COUNTER) - 1):
        yield Case(f"module cut after {k}", 8, r"module rule 5[01] at \d+:\d+", words=COSIM, make=True, files={"s.run": "", "s.v": COUNTER[:k]})
    for text in (COUNTER, COUNTER[:-1]):
        yield Case("module of other pins", 8, "module rule 57 at 1:8", words=COSIM, make=True, files={"s.run": "", "s.v": text})
    for k in range(len(report)):
        yield Case(f"report cut after {k}", 8, f"report rule 60 at {end(report[:k])}", words=COSIM, source=LOOP, make=True, files={"s.run": "n = 10\n", "s.rep": report[:k]})
    yield Case("report without its first line", 8, "report rule 60 at 1:1", words=COSIM, source=LOOP, make=True, files={"s.run": "n = 10\n", "s.rep": report.split("\n", 1)[1]})


def run_files():
    source = "int f(int n,signed char a[2]){return n+a[0]+a[1];}"
    good = ["n = 1\na = 2 3\n", "a = 2 3\nn = 1", "# x\n\nn  =  1\r\na = -128 127\r\n", "n = -0\na = 0 0\n", "n = -2147483648\na = 127 1\n"]
    for k, text in enumerate(good):
        yield Case(f"run file good {k}", 0, "agree", words=COSIM, source=source, make=True, files={"s.run": text})
    bad = {
        "": 1, "\n": 2, "n = 1\n": 2, "n = 1": 2, "n = 1\nn = 1\na = 2 3\n": 2, "n = 1\na = 2\n": 2, "n = 1\na = 2 3 4\n": 2, "n = 1\na = 2 128\n": 2,
        "n = 1\na = -129 2\n": 2, "n = 2147483648\na = 2 3\n": 1, "n = -2147483649\na = 2 3\n": 1, "n = 1\nb = 1\na = 2 3\n": 2, "n = 01\na = 2 3\n": 1,
        "n = +1\na = 2 3\n": 1, "n = 0x1\na = 2 3\n": 1, " n = 1\na = 2 3\n": 1, "n = 1 \na = 2 3\n": 1, "n =1\na = 2 3\n": 1, "n= 1\na = 2 3\n": 1, "n=1\na = 2 3\n": 1,
        "n\t= 1\na = 2 3\n": 1, "n =\na = 2 3\n": 1, "n 1\na = 2 3\n": 1, "n = 1 1\na = 2 3\n": 1, "n = -\na = 2 3\n": 1, "n = 1\na = 2 3\nx": 3, "n = 1\n #\na = 2 3\n": 2,
        "n = 99999999999999999999999999\na = 2 3\n": 1, "n = 1\na = 2 3\n\0\n": 3, "n = 1\na = 2 3\r": 2,
    }
    for text, line in bad.items():
        yield Case(f"run file {text!r}", 7, f"run line {line}", words=COSIM, source=source, make=True, files={"s.run": text})
    filled = "#" + "x" * (16_777_216 - len(good[0]) - 2) + "\n" + good[0]
    yield Case("run file of 16777216 bytes", 0, "agree", words=COSIM, source=source, make=True, files={"s.run": filled})
    yield Case("run file of 16777217 bytes", 7, "run line 1", words=COSIM, source=source, make=True, files={"s.run": filled + "\n"})


def text_limits(report):
    cosim = {"words": COSIM, "make": True}
    yield Case("limit 56 last", 8, "module rule 57 at 1:8", files={"s.run": "", "s.v": COUNTER.ljust(67_108_864)}, **cosim)
    yield Case("limit 56 further", 8, "module rule 56 at 1:1", files={"s.run": "", "s.v": COUNTER.ljust(67_108_865)}, **cosim)
    yield Case("limit 60 last", 8, f"report rule 60 at {end(report)}", source=LOOP, files={"s.run": "", "s.rep": report.ljust(16_777_216)}, **cosim)
    yield Case("limit 60 further", 8, "report rule 60 at 1:1", source=LOOP, files={"s.run": "", "s.rep": report.ljust(16_777_217)}, **cosim)
    yield Case("limit soak", 0, r"soak 18446744073709551615 muls \d+ cycles \d+ ret \d+ agree", words=["soak", "18446744073709551615"])


def source_limits():
    yield fits("limit 4 last", f"int f(int {'x' * 64}){{return 1;}}")
    yield refused("limit 4 further", f"int f(int {'x' * 65}){{return 1;}}", 4, 1, 11)
    yield fits("limit 30 last", SEVEN.ljust(65_536))
    yield refused("limit 30 further", SEVEN.ljust(65_537), 30, 1, 65_537)
    tokens = lambda count: "int f(int a){" + ";" * (count - 11) + "return a;}"
    yield fits("limit 31 tokens last", tokens(16_384))
    yield refused("limit 31 tokens further", tokens(16_385), 31, 1, len(tokens(16_385)))
    macros = "#define e\n#define d " + "e " * 255 + "\nint f(void){" + "d " * 256
    yield fits("limit 31 words last", macros + "return 1;}")
    yield refused("limit 31 words further", macros + "e return 1;}", 31, 3, 13 + 512)
    deep = lambda count: "int f(int a){return " + "(" * count + "a" + ")" * count + ";}"
    yield fits("limit 32 nesting last", deep(63))
    yield refused("limit 32 nesting further", deep(64), 32, 1, 85)
    chain = lambda count: "unsigned f(unsigned a){return a" + "+a" * count + ";}"
    yield fits("limit 32 operators last", chain(256))
    yield refused("limit 32 operators further", chain(257), 32, 1, 32 + 2 * 256)
    functions = lambda count: "".join(f"int g{k:02d}(void){{return 1;}}" for k in range(count - 1)) + SEVEN
    yield fits("limit 33 last", functions(64))
    yield refused("limit 33 further", functions(65), 33, 1, len(functions(65)) - len(SEVEN) + 5)
    parameters = lambda count: "int f(" + ",".join(f"int a{k:02d}" for k in range(count)) + "){return 1;}"
    yield fits("limit 34 last", parameters(32))
    yield refused("limit 34 further", parameters(33), 34, 1, 7 + 32 * 8 + 4)
    local = lambda count: "int f(void){" + "".join(f"int a{k:02d}[1];" for k in range(count)) + "return 1;}"
    yield fits("limit 35 last", local(32))
    yield refused("limit 35 further", local(33), 35, 1, 13 + 32 * 11 + 4)
    outer = lambda count: "".join(f"int a{k:02d}[1];" for k in range(count)) + SEVEN
    yield fits("limit 35 at file scope last", outer(32))
    yield refused("limit 35 at file scope further", outer(33), 35, 1, 1 + 32 * 11 + 4)
    heavy = "unsigned f(unsigned a){" + "a=a+1u;" * 2047 + "return a+1u"
    yield fits("limit 36 last", heavy + ";}")
    yield Case("limit 36 last, run", 0, "agree", words=COSIM, source=heavy + ";}", make=True, files={"s.run": "a = 0\n"})
    yield refused("limit 36 further", heavy + "+1u;}", 36, 1, 10)
    doubled = "unsigned f0(unsigned a){return a;}" + "".join(f"unsigned f{k}(unsigned a){{return f{k - 1}(a)+f{k - 1}(a);}}" for k in range(1, 40))
    yield refused("limit 36 doubled", doubled + "unsigned f(unsigned a){return f39(a);}", 36, 1, len(doubled) + 10)
    defines = lambda count: "".join(f"#define a{k:03d} 1\n" for k in range(count)) + SEVEN
    yield fits("limit 38 last", defines(256))
    yield refused("limit 38 further", defines(257), 38, 257, 9)
    yield fits("limit 13 last", "int f(int a[65536]){return a[0];}")
    yield refused("limit 13 further", "int f(int a[65537]){return a[0];}", 13, 1, 11)
    yield fits("limit 13 product last", "int f(int a[256][256]){return a[0][0];}")
    yield refused("limit 13 product further", "int f(int a[256][257]){return a[0][0];}", 13, 1, 11)
    yield refused("limit 13 zero", "int f(int a[0]){return 1;}", 13, 1, 11)
    yield fits("limit 21 last", "int a[32768],b[32767];" + SEVEN)
    yield refused("limit 21 further", "int a[65536],b[1];" + SEVEN, 21, 1, 14)


def modules():
    """The commands on modules: their files, damaged modules, and the limits of modules, graphs and chains."""
    counter, graph, chain = {"t.v": COUNTER}, ["blast", "t.v", "t.aag"], ["link", "c.v", "2", "t.v"]
    yield Case("timing", 0, "delay 4 path 0", words=["timing", "t.v"], files=counter)
    yield Case("blast", 0, "blasted inputs 4 latches 4", words=graph, files=counter, there=("t.aag",))
    yield Case("link", 8, "module rule 83 at 1:1", words=chain, files=counter, absent=("c.v",))
    for words, written in ((["timing", "t.v"], ()), (graph, ("t.aag",)), (chain, ("c.v",))):
        yield Case(f"{words[0]} without the module", 3, "fault", words=words, absent=written)
        yield Case(f"{words[0]} of a folder", 3, "fault", words=words, files={"t.v": "/"}, absent=written)
        yield Case(f"{words[0]} of a module that is too long", 8, "module rule 56 at 1:1", words=words, files={"t.v": COUNTER.ljust(67_108_865)}, absent=written)
        for k in range(0, len(COUNTER) - 1, 7):
            yield Case(f"{words[0]} of a module cut after {k}", 8, r"module rule 5[01] at \d+:\d+", words=words, files={"t.v": COUNTER[:k]}, absent=written)
    yield Case("blast to no folder", 3, "fault", words=["blast", "t.v", "none/t.aag"], files=counter)
    yield Case("blast to a full device", 3, "fault", words=["blast", "t.v", "/dev/full"], files=counter)
    yield Case("blast, output cannot be written", 3, "", words=graph, files=counter, output="/dev/full", there=("t.aag",))
    stage = "int f(int a){return a+1;}"
    link = ["link", "c.v", "1024", "s.v"]
    yield Case("link of one stage", 0, "linked 1 stages", words=link, source=stage, make=True, there=("c.v",))
    yield Case("link to a full device", 3, "fault", words=["link", "/dev/full", *link[2:]], source=stage, make=True)
    yield Case("link of two arguments", 8, "module rule 83 at 1:1", words=link, source="int f(int a,int b){return a+b;}", make=True, absent=("c.v",))
    yield Case("link of no result", 8, "module rule 83 at 1:1", words=link, source="void f(int a){a=1;}", make=True, absent=("c.v",))
    yield Case("link of a table", 8, "module rule 81 at 1:1", words=link, source="int f(int i){int t[2]={4,5}; return t[i&1];}", make=True, absent=("c.v",))
    yield Case("link of 17 stages", 8, "module rule 82 at 1:1", words=["link", "c.v", "2", *(f"{k}.v" for k in range(17))], absent=("c.v",))
    yield Case("link of 16 stages that are not there", 3, "fault", words=["link", "c.v", "2", *(f"{k}.v" for k in range(16))], absent=("c.v",))
    yield Case("limit 70 last", 0, "blasted inputs 89 latches 49319", words=["blast", "s.v", "s.aag"], source="int f(int a[1024],short b[1024]){return a[0]+b[0];}", make=True, there=("s.aag",))
    yield Case("limit 70 further", 8, "module rule 70 at 1:1", words=["blast", "s.v", "s.aag"], source="int f(int a[4096]){return a[0];}", make=True, absent=("s.aag",))
    products = "unsigned long f(unsigned long a){" + "a=a*a^a>>3;" * 9 + "return a;}"
    yield Case("limit 72 not reached", 0, r"blasted inputs \d+ latches \d+", words=["blast", "s.v", "s.aag"], source=products, make=True, there=("s.aag",))


def loop_report():
    with tempfile.TemporaryDirectory() as work:
        (pathlib.Path(work) / "s.c").write_text(LOOP)
        subprocess.run([HLS, *SYNTH], cwd=work, stdin=subprocess.DEVNULL, capture_output=True)
        return (pathlib.Path(work) / "s.rep").read_text()


def main(names):
    report = loop_report()
    cases = [*words(), *files(), *damaged(report), *run_files(), *text_limits(report), *source_limits(), *modules()]
    cases = [case for case in cases if not names or any(case.name.startswith(name) for name in names)]
    wrong = 0
    with concurrent.futures.ThreadPoolExecutor(os.cpu_count()) as pool:
        for case, difference in zip(cases, pool.map(Case.found, cases)):
            if difference:
                wrong += 1
                print(f"{case.name}: {difference}")
    print(f"bad input: {len(cases) - wrong} of {len(cases)} as wanted")
    sys.exit(1 if wrong or not cases else 0)


main(sys.argv[1:])
