#!/usr/bin/env python3
"""Checks docs/CLAIMS.md against the sources.

    tools/claims.py

Each crate has a section with tables: of calls (module, calls, what is proved, clauses and definitions, what is tested or open), and of
laws (module, laws, what they say). It fails if a public call or a law has no row, if a row names a call, a clause or a definition that
is not there, or if the counts of unreachable cases and of must-fail edits are not those of the sources.
A call is public if it is a `pub fn` of a module that lib.rt exports, or of an impl of a type that such a module declares.
"""
import collections
import dataclasses
import pathlib
import re
import sys

ROOT = pathlib.Path(__file__).resolve().parent.parent
CRATES = ROOT / "crates"
PAGE = ROOT / "docs" / "CLAIMS.md"


@dataclasses.dataclass
class Call:
    """A public function: its module, its name as a row has it, its clauses, whether it is a law, and whether it needs a row."""

    module: tuple
    name: str
    clauses: set
    is_law: bool
    needs_row: bool = True


def modules(crate):
    """Each module of a crate as its path, its file, and whether it is exported."""
    source = CRATES / crate / "src"
    waiting = [((), source / "lib.rt", True)]
    while waiting:
        path, file, exported = waiting.pop(0)
        if not file.exists():
            continue
        yield path, file, exported
        for public, name in re.findall(r"^\s*(pub )?mod (\w+);", file.read_text(), re.M):
            waiting.append(((*path, name), source.joinpath(*path, f"{name}.rt"), exported and public == "pub "))


def head_of(lines, start):
    """The lines of a function up to its body."""
    head = []
    for line in lines[start:]:
        head.append(line)
        if line.strip() in ("{", "{}") or line.rstrip().endswith(" {") and not line.strip().startswith(("ensures", "requires")) or line.strip().endswith("};"):
            break
    return "\n".join(head)


def functions(file):
    """Each function of a file: its type, if it has one, its name, whether it is written `pub`, whether it is a trait's, and its head."""
    lines, kind, is_trait = file.read_text().split("\n"), None, False
    for number, line in enumerate(lines):
        if line.startswith("}"):
            kind = None
        block = re.match(r"(?:pub )?(impl|trait)\b(?:<[^>]*>)?\s*(.*)", line)
        if block:
            is_trait = block[1] == "trait" or " for " in line
            target = re.sub(r"^.*\bfor\s+", "", block[2])
            kind = re.match(r"(?:\w+::)*(\w+)", target)[1]
        found = re.match(r"(\s*)(pub )?(?:const )?fn (\w+)", line)
        if found and not line.startswith("pub(crate)"):
            inside = kind if found[1] else None
            yield inside, found[3], found[2] == "pub ", is_trait and inside, head_of(lines, number)


def calls(crate):
    """The public calls and laws of a crate."""
    files = list(modules(crate))
    types = {name for _, file, exported in files if exported for name in re.findall(r"^pub (?:struct|enum|trait) (\w+)", file.read_text(), re.M)}
    handed_on = {tuple(name.split("::")): path for path, file, exported in files if exported for name in re.findall(r"^pub use (?:crate::)?([\w:]+);", file.read_text(), re.M)}
    for path, file, exported in files:
        traits = set(re.findall(r"^pub trait (\w+)", file.read_text(), re.M))
        for kind, name, public, of_trait, head in functions(file):
            clauses = set(re.findall(r"\bensures (\w+)\s*\{", head))
            is_law = bool(re.search(rf"fn {name}(?:<[^>]*>)?\(\s*\)(?!\s*->)", head)) and "->" not in head.split("ensures")[0]
            full = f"{kind}::{name}" if kind else name
            if kind in traits:
                yield Call(path, full, clauses, False)
            elif public and (exported or kind in types or (*path, name) in handed_on):
                yield Call(path if exported or kind else handed_on[(*path, name)], full, clauses, is_law)
            elif of_trait and kind in types:
                yield Call(path, full, clauses, False, False)


def sections(text):
    """The tables of each crate: their kind, and the cells of each row."""
    crate, kind = None, None
    for line in text.splitlines():
        title = re.match(r"### `(\w+)`", line)
        if line.startswith("#"):
            crate, kind = title and title[1], None
        elif line.startswith("| Module | "):
            kind = "law" if "| Law" in line else "call"
        elif crate and kind and line.startswith("| `"):
            yield crate, kind, [cell.strip() for cell in line.strip().strip("|").split(" | ")]


def names(cell):
    return re.findall(r"`([^`]+)`", cell)


def module_path(name):
    return () if name == "lib" else tuple(name.split("::"))


def definitions():
    """What the definition files declare, with fields, constructors and the names of the files."""
    found = set()
    for path in CRATES.glob("*/specs/**/*.antt"):
        text = path.read_text()
        found |= set(re.findall(r"^\s*(?:unfoldable |abbrev )?(?:pub )?(?:record |data )?(\w+)\b[^\n]* :(?: |$)", text, re.M))
        found |= set(re.findall(r"^\s*(?:pub )?(\w+) :(?: |$)", text, re.M)) | {path.stem}
    return found


def check_row(crate, kind, cells, known, defined, told):
    """What is wrong with a row. The calls that it names are told of."""
    where = [module_path(name) for name in names(cells[0])]
    here = [it for it in known if it.module in where and it.is_law == (kind == "law")]
    for path in where:
        if path not in {it.module for it in here}:
            yield f"{crate}: there is no module {'::'.join(path) or 'lib'} with a {kind}"
    clauses = set()
    for name in names(cells[1]):
        found = [it for it in here if it.name == name]
        if not found:
            yield f"{crate}: {' '.join(names(cells[0]))} has no {kind} {name}"
        for it in found:
            told.add((crate, it.module, it.name))
            clauses |= it.clauses
    if kind == "call":
        for name in names(cells[3]):
            if name not in clauses and name not in defined:
                yield f"{crate}: {cells[0]} has no clause or definition {name}"


def check_unreachable(text):
    """Whether the counts of `impossible()` are those of the sources."""
    counted = collections.Counter()
    for path in CRATES.glob("*/src/**/*.rt"):
        lines = [line for line in path.read_text().splitlines() if "impossible()" in line and "fn impossible" not in line]
        counted[path.relative_to(CRATES).parts[0]] += len(lines)
    part = re.search(r"## Unreachable cases\n(.*?)(?=\n## )", text, re.S)
    told = {name: int(count) for name, count in re.findall(r"^\| `(\w+)` \| (\d+) \|", part[1], re.M)}
    for name in sorted(set(told) | {name for name, count in counted.items() if count}):
        if told.get(name, 0) != counted[name]:
            yield f"unreachable cases: {name} has {counted[name]}, and the page says {told.get(name, 0)}"


def check_edits(text):
    """Whether the count of must-fail edits is that of the crates."""
    edits = list(CRATES.glob("*/must-fail/*.edit"))
    crates = {path.parent for path in edits}
    if f"- {len(edits)} must-fail edits in {len(crates)} crates" not in text:
        yield f"there are {len(edits)} must-fail edits in {len(crates)} crates"


def main():
    text = PAGE.read_text()
    known = {path.name: list(calls(path.name)) for path in sorted(CRATES.iterdir()) if path.is_dir()}
    defined, told, wrong = definitions(), set(), []
    for crate, kind, cells in sections(text):
        wrong += check_row(crate, kind, cells, known[crate], defined, told) if crate in known else [f"there is no crate {crate}"]
    needed = [(crate, it) for crate, each in known.items() for it in each if it.needs_row]
    wrong += [f"{crate}: no row for {'::'.join((*it.module, it.name))}" for crate, it in needed if (crate, it.module, it.name) not in told]
    wrong += [*check_unreachable(text), *check_edits(text)]
    for line in wrong:
        print(f"claims: {line}")
    if not wrong:
        laws = sum(it.is_law for _, it in needed)
        print(f"claims: {len(needed) - laws} calls and {laws} laws have their rows")
    sys.exit(1 if wrong else 0)


main()
