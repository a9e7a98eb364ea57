"""Makes the standard inputs of the cases of a folder, and compares the program's answers with the known ones.

cases.py make FOLDER TO: for each pNNN.c of FOLDER a file TO/pNNN.
cases.py compare FOLDER ANSWERS: the answers as `rt try --cases` prints them; prints what differs, and then how many agree.
"""
import pathlib
import sys

POINTS = 10_000_000


def cases(folder):
    return sorted(path.stem for path in pathlib.Path(folder).glob("p*.c"))


def top_of(folder, name):
    words = (pathlib.Path(folder) / f"{name}.opts").read_text().split()
    return words[words.index("--top") + 1] if "--top" in words else "f"


def make(folder, to):
    folder, to = pathlib.Path(folder), pathlib.Path(to)
    for name in cases(folder):
        source = (folder / f"{name}.c").read_text()
        run = (folder / f"{name}.run").read_text()
        (to / name).write_text(f"{top_of(folder, name)}\n{POINTS}\n{source}=== run\n{run}")


def answers_of(path):
    found, name = {}, None
    for line in pathlib.Path(path).read_text().splitlines():
        if line.startswith("== "):
            name = line[3:].split()[0]
            found[name] = []
        elif name is not None and line.split(" ")[0] in {"c", "array", "point", "running", "undefined", "rule", "memory"}:
            found[name].append(line)
    return found


def formula(report, points):
    times = {" ".join(line.split()[2:]): int(line.split()[1]) for line in points}
    total = 0
    for line in report.splitlines():
        words = line.split()
        if words and words[0] == "base":
            total += int(words[1])
        if words and words[0] == "cost":
            total += int(words[1]) * times.get(" ".join(words[2:]), 0)
    return total


def compare(folder, path):
    folder, found, right = pathlib.Path(folder), answers_of(path), 0
    names = cases(folder)
    for name in names:
        got = found.get(name, [])
        known = (folder / f"{name}.lines").read_text().splitlines()
        wanted = [" ".join(line.split()[:1] + line.split()[2:]) if line.startswith("array") else line for line in known if line.split()[0] in {"c", "array", "undefined"}]
        given = [line for line in got if not line.startswith("point")]
        cost = formula((folder / f"{name}.report").read_text(), [line for line in got if line.startswith("point")])
        counted = [line for line in known if line.startswith("formula")]
        if given != wanted:
            print(f"{name}: expected {wanted[:3]}, found {given[:3]}")
        elif counted and counted[0] != f"formula {cost}":
            print(f"{name}: expected {counted[0]}, counts give {cost}")
        else:
            right += 1
    print(f"corpus check: {right} of {len(names)} programs agree")
    return right == len(names)


if __name__ == "__main__":
    if sys.argv[1] == "make":
        make(sys.argv[2], sys.argv[3])
    else:
        sys.exit(0 if compare(sys.argv[2], sys.argv[3]) else 1)
