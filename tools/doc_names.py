#!/usr/bin/env python3
"""Checks the names in the documents: crates, modules, files, definitions, laws and calls.

    tools/doc_names.py [FILE ..]   by default README.md, CONTRIBUTING.md, CHANGELOG.md and docs/*.md

A name is what stands between backticks. It prints each that is not in the repository, and exits 1 if there is one. It also prints what
the table of crates in docs/ARCHITECTURE.md lacks, and names that stand twice in one list.
"""
import pathlib
import re
import sys

ROOT = pathlib.Path(__file__).resolve().parent.parent
CRATES = ROOT / "crates"
PAGES = ["README.md", "CONTRIBUTING.md", "CHANGELOG.md", *(f"docs/{path.name}" for path in sorted((ROOT / "docs").glob("*.md")))]
FOLDERS = ("crates", "docs", "tools", "examples", "corpus", "dist", ".ci")
# Names that are no names of this repository: of C, Verilog, the shell, the pins and the kit.
OTHER = set("""
int8_t int16_t int32_t int64_t uint8_t uint16_t uint32_t uint64_t h_en h_we h_sel h_addr h_wdata h_rdata arg_0 arg_1 hls_f hls_NAME
synth_ice40 synth_xilinx synth_intel_alm read_verilog start_lib hls_prefix_sum hls_chain in_valid in_data out_take in_room out_valid out_data AllocError Debug Display
""".split())
WORD = re.compile(r"[A-Za-z_]\w*")


def words_declared(text):
    """Each name that a source or a definition file declares: its items, fields, variants and clauses."""
    found = set(re.findall(r"\b(?:fn|struct|enum|trait|type|const|static|mod)\s+(\w+)", text))
    found |= set(re.findall(r"^ *(?:ensures|requires) +(\w+) *\{", text, re.M))
    found |= set(re.findall(r"^ *(?:unfoldable |abbrev )?(?:pub )?(\w+) *:", text, re.M))
    found |= set(re.findall(r"^ *([A-Z]\w*) *(?:,|\(|\{|=)", text, re.M))
    found |= set(re.findall(r"^(?:pub |abbrev |unfolding |unfoldable )*(?:record|data|abbrev pub|abbrev|def)\s+(\w+)", text, re.M))
    return found


class Repository:
    """What the crates hold, by name."""

    def __init__(self):
        self.crates = {path.name for path in CRATES.iterdir() if path.is_dir()}
        # Of each crate its files, by their parts below the crate without suffix, with what they declare.
        self.declared = {crate: {} for crate in self.crates}
        self.methods = {}
        self.all = {path.stem for path in [*CRATES.glob("*/must-fail/*.edit"), *(ROOT / "examples").rglob("*.c")]}
        for crate, files in self.declared.items():
            for part in ("src", "specs", "proofs"):
                for path in (CRATES / crate / part).rglob("*"):
                    if path.suffix in (".rt", ".antt"):
                        self.take(files, path, path.relative_to(CRATES / crate).with_suffix("").parts)
        self.kit = set()
        for line in (ROOT / "crates.txt").read_text().splitlines():
            self.kit |= set(re.findall(r"\w+", line.partition(":")[2]))

    def take(self, files, path, parts):
        text = path.read_text()
        files[parts] = words_declared(text)
        self.all |= files[parts] | set(parts)
        if path.suffix == ".rt":
            for head, body in re.findall(r"^(?:pub )?(?:impl|trait)\b([^\n{]*)\{(.*?)^\}", text, re.M | re.S):
                for kind in re.findall(r"[A-Z]\w*", head):
                    self.methods.setdefault(kind, set()).update(re.findall(r"\bfn (\w+)", body))

    def has_path(self, crate, rest):
        """Whether `crate::module::..::item` is there, modules first and then at most a type and a name in it."""
        files = self.declared[crate]
        for index, part in enumerate(rest):
            inner = {parts: names for parts, names in files.items() if part in parts[1:]}
            if not inner:
                return len(rest) - index <= 2 and all(any(name in names for names in files.values()) for name in rest[index:])
            files = inner
        return True

    def has_file(self, crate, rest):
        """Whether `crate/File` is a definition file, or a file or folder of the crate."""
        base = CRATES / crate
        tries = [base / rest, base / "specs" / rest, base / "specs" / f"{rest}.antt", base / "src" / rest]
        tries += [base / f"{rest}{suffix}" for suffix in (".antt", ".rt", ".edit")]
        return any(path.exists() for path in tries)


def is_there(name, repository):
    """Whether a name that is written as one of the repository is there; true where it is not written so."""
    name = name.rstrip(".,;")
    if re.search(r"\bNAME\b|\.\.|\*|\s", name) or name.isupper():
        return True
    if re.fullmatch(r"[\w.-]+(/[\w.<>-]+)+/?", name):
        first, _, rest = name.rstrip("/").partition("/")
        if first in FOLDERS:
            return (ROOT / name).exists()
        if first in repository.crates:
            return repository.has_file(first, rest)
        if first in ("specs", "proofs", "src", "must-fail"):
            return any((CRATES / crate / f"{name.rstrip('/')}{suffix}").exists() for crate in repository.crates for suffix in ("", ".antt", ".rt"))
        return True
    if re.fullmatch(r"\w+(::\w+)+", name):
        parts = name.split("::")
        if parts[0] in repository.crates:
            return repository.has_path(parts[0], parts[1:])
        if len(parts) == 2 and parts[0] in repository.methods:
            return parts[1] in repository.methods[parts[0]] or parts[1] in repository.all
        return parts[0] in repository.all and parts[-1] in repository.all
    if WORD.fullmatch(name):
        written = ("_" in name.strip("_") and not name.isupper()) or re.fullmatch(r"(?:[A-Z][a-z0-9]+){2,}|[A-Z][a-z]+s?", name)
        known = name in repository.all or name in repository.crates or name in repository.kit or name in OTHER
        return not written or known
    return True


def names_of(text):
    """The names between backticks outside blocks of code, each with its line."""
    shown = True
    for number, line in enumerate(text.splitlines(), 1):
        if line.startswith("```"):
            shown = not shown
        elif shown:
            for name in re.findall(r"`([^`]+)`", line):
                yield number, name


def misplaced(text, repository):
    """Names that are said to be in a crate or a file that has no such name: `a`, `b` in `crate/File`."""
    for number, line in enumerate(text.splitlines(), 1):
        for names, place in re.findall(r"((?:`\w+`(?:, | and )?)+) in `(\w+(?:/\w+)*)`", line):
            crate, *rest = place.split("/")
            if crate not in repository.crates:
                continue
            files = repository.declared[crate]
            if rest:
                files = {parts: declared for parts, declared in files.items() if parts[1:] == tuple(rest)}
            for name in re.findall(r"`(\w+)`", names):
                if name not in repository.crates and not any(name in declared for declared in files.values()):
                    yield number, f"{name} in {place}"


def twice(text):
    """Names that stand twice in one list of names: `a`, `b`, `a`."""
    for number, line in enumerate(text.splitlines(), 1):
        for part in re.findall(r"`[^`]+`(?:, `[^`]+`)+", line):
            names = re.findall(r"`([^`]+)`", part)
            for name in sorted({it for it in names if names.count(it) > 1}):
                yield number, name


def main(words):
    repository = Repository()
    wrong = 0

    def say(text):
        nonlocal wrong
        wrong += 1
        print(text)

    for page in words or [page for page in PAGES if (ROOT / page).exists()]:
        text = (ROOT / page).read_text()
        for number, name in names_of(text):
            if not is_there(name, repository):
                say(f"{page}:{number}: there is no {name}")
        for number, name in misplaced(text, repository):
            say(f"{page}:{number}: there is no {name}")
        for number, name in twice(text):
            say(f"{page}:{number}: {name} stands twice in a list")
        for number, line in enumerate(text.splitlines(), 1):
            for name in re.findall(r"(?<![\w/.])(?:docs|tools|examples)/[\w/]+\.\w+", line):
                if not (ROOT / name).exists() and "NAME" not in name:
                    say(f"{page}:{number}: there is no {name}")
    page = ROOT / "docs" / "ARCHITECTURE.md"
    rows = re.findall(r"^\| `(\w+)` \|", page.read_text(), re.M)
    for crate in sorted(repository.crates - set(rows)):
        say(f"docs/ARCHITECTURE.md: no row for the crate {crate}")
    for crate in sorted({it for it in rows if rows.count(it) > 1}):
        say(f"docs/ARCHITECTURE.md: two rows for the crate {crate}")
    if not wrong:
        print("documents: every name is there")
    sys.exit(1 if wrong else 0)


main(sys.argv[1:])
