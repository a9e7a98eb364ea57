#!/usr/bin/env python3
"""The processor time and the memory of `synth` on the largest programs that the limits allow, and of `cosim` on a million cycles.

    tools/bench_synth.py [NAME ..]   all cases, or those whose names begin so

Each time is given beside that of a straight line of weight 1,000 in the same run, since the machine may do other work meanwhile.
The least of three runs counts, and the first one where it takes above a second. In a build with run-time checks `cosim` takes ten minutes. HLS names the program, else it is the one that ./hls built.
"""
import os
import pathlib
import sys
import tempfile

ROOT = pathlib.Path(__file__).resolve().parent.parent
HLS = os.environ.get("HLS", str(ROOT / "crates" / "hls" / "out" / "hls"))


def straight(weight):
    """One block: weight / 4 sums, each of the one before."""
    return "unsigned f(unsigned a){" + "a=a+1u;" * (weight // 4 - 1) + "return a+1u;}"


def tree(weight):
    """One block of independent products, added up at the end."""
    count = (weight - 3) // 8
    return "unsigned f(unsigned a,unsigned b){unsigned s=0;" + "".join(f"s=s+(a^{k}u)*b;" for k in range(count)) + "return s;}"


def loops(count):
    """A source as `soak` makes them: loops over one array, one after the other."""
    ops = "+-*^|&"
    lines = [f"for (int i = 0; i < 64; i++) a[i] = (a[i] {ops[k % 6]} k) + {k}u;" for k in range(count - 1)]
    return "unsigned f(unsigned a[64], unsigned k) {\nunsigned s = 0;\n" + "\n".join(lines) + "\nfor (int i = 0; i < 64; i++) s = s + a[i];\nreturn s;\n}\n"


def long_source():
    """A straight line of weight 8,188 whose names fill 65,536 bytes."""
    name = "a" * 14
    text = f"unsigned f(unsigned {name}){{" + f"{name}={name}+1u;" * 1900 + f"return {name}+1u;}}"
    return text.ljust(65536)


def arrays():
    """Thirty-two arrays, each in a loop of its own that reads its neighbour."""
    parameters = ",".join(f"int a{k}[2048]" for k in range(32))
    body = "".join(f"for(int i=0;i<2047;i++)a{k}[i]=a{(k + 1) % 32}[i]+a{k}[i+1];" for k in range(32))
    return f"void f({parameters}){{{body}}}"


def accesses(pairs):
    """A pipelined loop with a load and a store of one array for each pair, and sums up to weight 256."""
    body = "".join(f"a[{'ijk'[n % 3]}]=a[{'jki'[n % 3]}];" for n in range(pairs))
    body += "s=s+1u;" * ((256 - 7 - 4 * pairs) // 4)
    return f"unsigned f(unsigned a[64],int j,int k){{unsigned s=0;for(int i=0;i<64;i++){{{body}}}return s;}}"


def branches(count):
    """Forks that are not converted, since each holds a loop."""
    return "int f(int a,int n){" + f"if(a&1){{while(a<n)a=a+1;}}else a=a^n;" * count + "return a;}"


def calls(count):
    """Calls that return early, so that each is a block and a mark of its own."""
    return "int g(int x){if(x>3)return 3;return x;}int f(int a){" + "a=a^g(a);" * count + "return a;}"


def cases():
    yield "weight 1000", straight(1000)
    yield "weight 2000", straight(2000)
    yield "weight 4000", straight(4000)
    yield "weight 8000", straight(8000)
    yield "weight 8192", straight(8192)
    for weight in (1000, 2000, 4000, 8000):
        yield f"products {weight}", tree(weight)
    for count in (10, 20, 41):
        yield f"loops {count}", loops(count)
    yield "source 65536", long_source()
    yield "arrays 32", arrays()
    for pairs in (8, 15, 30):
        yield f"accesses {2 * pairs}", accesses(pairs)
    for count in (50, 100, 200, 400):
        yield f"branches {count}", branches(count)
    for count in (50, 100, 200, 400):
        yield f"calls {count}", calls(count)


def measure(words, output):
    """Processor milliseconds, megabytes at the peak and the last line of a run."""
    child = os.fork()
    if child == 0:
        target = os.open(output, os.O_WRONLY | os.O_CREAT | os.O_TRUNC, 0o600)
        os.dup2(target, 1)
        os.execv(HLS, [HLS, *map(str, words)])
    _, _, used = os.wait4(child, 0)
    lines = pathlib.Path(output).read_text().splitlines()
    return 1000 * (used.ru_utime + used.ru_stime), used.ru_maxrss / 1024, lines[-1] if lines else ""


def best(words, output):
    """The least of three runs, or the first one where it takes above a second."""
    found = measure(words, output)
    for _ in range(2 if found[0] < 1000 else 0):
        found = min(found, measure(words, output), key=lambda one: one[0])
    return found


def cosim(work):
    """A run of a million cycles: the loop is pipelined at interval 1."""
    source, run = work / "c.c", work / "c.run"
    source.write_text("int f(int n){int s=0;for(int i=0;i<n;i++)s=s^i;return s;}")
    run.write_text("n = 999994\n")
    measure(["synth", source, work / "c.v", work / "c.rep", "--top", "f"], work / "out")
    more = ["--points", "1000000000", "--cycles", "1000000000"]
    return measure(["cosim", source, work / "c.v", work / "c.rep", run, "--top", "f", *more], work / "out")


def main(names):
    wanted = lambda name: not names or any(name.startswith(part) for part in names)
    with tempfile.TemporaryDirectory() as folder:
        work = pathlib.Path(folder)
        base = None
        print("| Program | Bytes | Milliseconds | Ratio | Megabytes | Module | Line |\n|---|---|---|---|---|---|---|")
        for name, text in cases():
            if base and not wanted(name):
                continue
            (work / "s.c").write_text(text)
            (work / "s.v").write_text("")
            time, peak, line = best(["synth", work / "s.c", work / "s.v", work / "s.rep", "--top", "f"], work / "out")
            base = base or time
            print(f"| {name} | {len(text)} | {time:.0f} | {time / base:.1f} | {peak:.0f} | {(work / 's.v').stat().st_size} | {line} |", flush=True)
        if wanted("cosim"):
            time, peak, line = cosim(work)
            print(f"| cosim 1000000 cycles | | {time:.0f} | {time / base:.1f} | {peak:.0f} | | {line} |")


main(sys.argv[1:])
