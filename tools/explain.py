#!/usr/bin/env python3
"""Explains on standard error why the compiler ended as it did, and prints its help.

    tools/explain.py STATUS FILE WORD ..   FILE holds the compiler's standard output, the words are its arguments
    tools/explain.py help

`./hls` calls it. It is not part of the program that is proved: it reads the compiler's line and the files that the arguments name.
faults_text.py, faults_syntax.py and faults_names.py say what is wrong with a source, rule by rule, and faults_design.py what is wrong with a
module or a report; rules.txt has the table of rules.
"""
import os
import pathlib
import re
import signal
import sys

ROOT = pathlib.Path(__file__).resolve().parent.parent
COMMANDS = {
    "synth": "synth SRC MOD REP --top NAME [--mul 1..8] [--div 1..4] [--ports 1..2] [--period 1..1000] [--plain]",
    "cosim": "cosim SRC MOD REP RUN --top NAME [--points N] [--cycles N]",
    "soak": "soak NUMBER",
    "timing": "timing MOD",
    "blast": "blast MOD AIG",
    "link": "link OUT DEPTH MOD ..",
}
FILES = {"synth": ("SRC", "MOD", "REP"), "cosim": ("SRC", "MOD", "REP", "RUN"), "timing": ("MOD",), "blast": ("MOD", "AIG")}
WRITTEN = {"synth": ("MOD", "REP"), "blast": ("AIG",), "link": ("OUT",)}
RANGES = {
    "synth": {"--mul": (1, 8), "--div": (1, 4), "--ports": (1, 2), "--period": (1, 1000)},
    "cosim": {"--points": (1, 10**9), "--cycles": (1, 10**9)},
}
HELP = """hls: compiles a C function to a clocked Verilog module, and reports its exact cycles

    ./hls synth SRC MOD REP --top NAME [OPTION ..]       compiles: writes the module and the report
    ./hls cosim SRC MOD REP RUN --top NAME [OPTION ..]   runs the C program and the module, and compares them
    ./hls soak NUMBER                                    makes a program from the number, compiles it and compares a run
    ./hls timing MOD                                     says the longest path of a module
    ./hls blast MOD AIG                                  writes a module as an and-inverter graph (AIGER, ASCII)
    ./hls link OUT DEPTH MOD ..                          links modules by queues of at most DEPTH items (1 to 1024)
    ./hls --prove                                        proves and builds the compiler
    ./hls --help                                         prints this page

Options of synth
    --top NAME      the function to compile
    --mul 1..8      multipliers of each width (1)
    --div 1..4      dividers of each width (1)
    --ports 1..2    ports of each memory (1)
    --period N      makes two operators one where their delays are at most N (1 to 1000)
    --plain         pipelines no loop
Options of cosim
    --top NAME      the function that was compiled
    --points N      stops the C program after N points (1000000)
    --cycles N      waits at most N cycles for the module (1000000)

Status  Line on standard output                     Meaning
    0   made hls_NAME, lines up to agree, delay ..,  done
        blasted .., linked ..
    1   rule R at LINE:COLUMN                       the source is rejected; no file was written
    2   usage: hls COMMAND ARGUMENTS                invalid command line
    3   fault                                       a file or standard output cannot be read or written
    4   memory                                      out of memory
    5   differ verilog ..                           result, element or cycles of the module differ
    6   running c N, running verilog N              the limit of points or cycles was reached
    7   run line N                                  this line of the run file is rejected
    8   module rule R at PLACE, report rule R at .. the module or the report is rejected
    9   undefined NAME at PLACE                     the run in C is undefined there

A rejection is explained on standard error. HLS_PLAIN=1 leaves the explanation out, NO_COLOR=1 its colours.
docs/LANGUAGE.md, docs/CIRCUIT.md and docs/REPORT.md have the rules with examples.
"""


def table():
    """The blocks of rules.txt, each by its first line, such as `rule 7` or `undefined Index`."""
    found, block = {}, None
    for line in (ROOT / "tools" / "rules.txt").read_text().splitlines():
        if line.startswith("#") or not line:
            block = None
        elif block is None:
            block = found[line] = {"example": ""}
        else:
            key, value = line.split(" ", 1)
            block[key] = value
    return found


RULES = table()


class Words:
    """The arguments, read as they are meant: files by what they are for, and options."""

    def __init__(self, words):
        self.command = words[0] if words else ""
        self.options, self.plain, rest = {}, [], list(words[1:])
        while rest:
            word = rest.pop(0)
            name, equals, value = word.partition("=")
            if word == "--":
                self.plain += rest
                break
            if word.startswith("--") and equals:
                self.options[name] = value
            elif word.startswith("--") and word != "--plain" and rest:
                self.options[word] = rest.pop(0)
            elif word.startswith("-"):
                self.options[word] = None
            else:
                self.plain.append(word)
        self.files = dict(zip(FILES.get(self.command, ()), self.plain))
        if self.command == "link" and self.plain:
            self.files = {"OUT": self.plain[0], **{f"MOD {k}": name for k, name in enumerate(self.plain[2:], 1)}}

    def top(self):
        return self.options.get("--top") or ""


# ---- rejected sources (status 1)


def source_message(source, rule, place, top):
    """The message for a rule of the source at a place, or None."""
    from c_tree import parse
    from c_check import Checker
    from faults_syntax import nesting_message, syntax_message
    from faults_text import text_message

    message = text_message(source, rule, place)
    if message:
        return message
    if rule == "32":
        return nesting_message(source, place)
    items, stop = parse(source.tokens)
    if rule in ("6", "20", "23"):
        return syntax_message(source, stop) if stop and stop_place(source, stop) == place else None
    if stop:
        return None
    checker = Checker(source, items, top, (place, int(rule)))
    return checker.too_heavy() if rule == "36" else checker.message


def stop_place(source, stop):
    return source.tokens[stop.index].place() if stop.index < len(source.tokens) else source.end()


def at_source(paper, name, rule, place, top):
    """A source that is rejected: what the source says of it, else what the table says."""
    from c_words import Source

    try:
        source = Source(pathlib.Path(name).read_bytes())
    except OSError:
        return at_table(paper, name, rule, place)
    try:
        message = source_message(source, rule, place, top)
    except Exception:
        # A source may hold anything; the table has something to say in any case.
        if os.environ.get("HLS_EXPLAIN_STRICT"):
            raise
        message = None
    if message is None:
        return at_table(paper, name, rule, place)
    message.place = message.place or place
    paper.message(name, message, rule, source)
    return None


def at_design(paper, words, what, rule, place):
    """A module or a report that is rejected: what its text says, else what the table says."""
    from faults_design import module_message, report_message

    if words.command == "link":
        return at_chain(paper, words, rule, place)
    if rule in ("70", "72"):
        return at_table(paper, words.files.get("MOD", ""), rule, place)
    name = words.files.get({"module": "MOD", "report": "REP"}[what], "")
    message = None
    try:
        data = pathlib.Path(name).read_bytes()
        source = pathlib.Path(words.files["SRC"]).read_bytes() if "SRC" in words.files else b""
        message = module_message(data, rule, place, source, words.top()) if what == "module" else report_message(data, rule, place, words.top())
    except Exception:
        if os.environ.get("HLS_EXPLAIN_STRICT"):
            raise
    if message is None:
        return at_table(paper, name, rule, place)
    message.place = message.place or place
    if not message.helps:
        message.help(RULES[f"rule {rule}"]["instead"])
    paper.message(name, message, rule)
    return None


def at_chain(paper, words, rule, place):
    """Stages that are not linked: the rules of chains name the stage, and the others the place in the first module that is rejected."""
    block = RULES[f"rule {rule}"]
    paper.title(block["name"], rule)
    if rule in ("80", "81", "83"):
        paper.note(f"stage {place[0]} is `{words.files.get(f'MOD {place[0]}', '')}`")
    elif rule == "82":
        paper.note(f"{len(words.files) - 1} stages are given")
    else:
        paper.note(f"line {place[0]}, column {place[1]} of the first stage that is rejected; `./hls timing MOD` says which it is")
    paper.note("the rule: " + block["refused"])
    paper.help(block["instead"])


def at_table(paper, name, rule, place):
    from message import Message

    block = RULES.get(f"rule {rule}")
    if block:
        message = Message(block["name"], place).note("the rule: " + block["refused"]).help(block["instead"])
        paper.message(name, message, rule)


# ---- the command line (status 2)


def same_files(words):
    """Two of the files that are one under two names, if there are some."""
    names = list(words.files.items())
    for k, (kind, name) in enumerate(names):
        for other_kind, other in names[:k]:
            if name == other or is_one_file(name, other):
                return other_kind, other, kind, name
    return None


def is_one_file(name, other):
    if os.path.exists(name) or os.path.exists(other):
        return os.path.isfile(name) and os.path.exists(other) and os.path.samefile(name, other)
    return os.path.realpath(name) == os.path.realpath(other)


def usage(paper, words):
    command = words.command
    if command not in COMMANDS:
        from message import nearest

        paper.title(f"`{command}` is not a command" if command else "the command is missing")
        near = nearest(command, COMMANDS)
        if near:
            paper.help(f"did you mean `{near}`?")
        paper.help("write one of:\n" + "\n".join("./hls " + line for line in COMMANDS.values()) + "\n./hls --help")
        return
    found = list(command_faults(words))
    paper.title(found[0][0] if found else "invalid command line")
    for title, _ in found[1:]:
        paper.note(title)
    for _, help_text in found:
        if help_text:
            paper.help(help_text)
    paper.help("usage: ./hls " + COMMANDS[command])


def command_faults(words):
    """Each fault of the words of a command, and what to write."""
    command = words.command
    for option, value in words.options.items():
        if option in RANGES.get(command, {}):
            least, most = RANGES[command][option]
            if value is None or not re.fullmatch(r"[0-9]+", value) or not least <= int(value) <= most:
                yield f"`{option}` takes a number from {least} to {most}" + (f", not `{value}`" if value else ""), None
        elif (option, command) not in (("--plain", "synth"), ("--top", "synth"), ("--top", "cosim")):
            owner = next((c for c in RANGES if option in RANGES[c] or (option, c) in (("--plain", "synth"), ("--top", "synth"))), None)
            yield f"`{option}` is not an option of `{command}`" + (f" but of `{owner}`" if owner else ""), None
    if command in ("synth", "cosim") and not words.top():
        yield "`--top NAME` is missing", None
    wanted = FILES.get(command) or COMMANDS[command].split()[1:]
    given = f"{len(words.plain)} {'is' if len(words.plain) == 1 else 'are'} given"
    if len(words.plain) < 3 if command == "link" else len(words.plain) != len(wanted):
        yield f"`{command}` takes {' '.join(wanted)}, but {given}", None
    elif command == "link" and not (re.fullmatch(r"[0-9]+", words.plain[1]) and 1 <= int(words.plain[1]) <= 1024):
        yield f"DEPTH is a number from 1 to 1024, not `{words.plain[1]}`", None
    elif command == "soak" and not (re.fullmatch(r"[0-9]+", words.plain[0]) and int(words.plain[0]) < 2**64):
        yield f"`{words.plain[0]}` is not a number from 0 to 18446744073709551615", None
    same = same_files(words)
    if same:
        kind, name, other_kind, other = same
        what = f"{kind} and {other_kind} are both `{name}`" if name == other else f"{kind} `{name}` and {other_kind} `{other}` are the same file"
        yield what, f"choose another file for {other_kind}: {why_other(command, kind, other_kind)}"


def why_other(command, kind, other_kind):
    """Why two files of a command cannot be one."""
    written = WRITTEN.get(command, ())
    if command == "cosim":
        return "each has a format of its own"
    if kind not in written and other_kind not in written:
        return "each stage has a file of its own, so copy the module"
    return "one would overwrite the other" if kind in written and other_kind in written else f"it would overwrite {'the source' if command == 'synth' else 'the module'}"


# ---- the other statuses


def fault(paper, words):
    read = tuple(kind for kind in words.files if kind not in WRITTEN.get(words.command, ()))
    found = []
    for kind, name in words.files.items():
        path = pathlib.Path(name)
        if path.is_dir():
            found.append((f"{kind} `{name}` is a directory", "name a file"))
        elif kind in read and not path.exists():
            found.append((f"{kind} `{name}` does not exist", first_command(kind, words)))
        elif kind in read and not os.access(path, os.R_OK):
            found.append((f"{kind} `{name}` cannot be read", "allow reading it"))
        elif kind not in read and not path.parent.is_dir():
            found.append((f"the directory `{path.parent}` of {kind} `{name}` does not exist", f"make it: `mkdir -p {path.parent}`"))
        elif kind not in read and not os.access(path if path.exists() else path.parent, os.W_OK):
            found.append((f"{kind} `{name}` cannot be written", "allow writing it, or name another file"))
    paper.title(found[0][0] if found else "a file or standard output cannot be read or written")
    for title, _ in found[1:]:
        paper.note(title)
    for help_text in dict.fromkeys(text for _, text in found):
        paper.help(help_text)
    if not found:
        paper.help("see whether the disk is full, and where standard output goes")


def first_command(kind, words):
    if kind in ("MOD", "REP") and words.command == "cosim":
        files = words.files
        return f"write it first: `./hls synth {files.get('SRC')} {files.get('MOD')} {files.get('REP')} --top {words.top()}`"
    return "name a file that exists"


def differ(paper, what):
    if len(what) == 3 and what[0] == "ret":
        paper.title(f"the module's result is {what[2]}, and that of the C program {what[1]}")
    elif len(what) == 3:
        paper.title(f"the module took {what[2]} cycles, and the report gives {what[1]}")
    else:
        paper.title(f"element {what[1]} of `{what[0]}` (row by row, from 0) is {what[3]} in the module, and {what[2]} in the C program")
    paper.note("the module or the report is not what `synth` writes for this source")
    paper.help("compile the source again; if `synth` wrote both files, this is a bug of the compiler")


def running(paper, what):
    limit = {"c": "points", "verilog": "cycles"}[what[0]]
    who = {"c": "the C program", "verilog": "the module"}[what[0]]
    paper.title(f"{who} has not ended after {what[1]} {limit}")
    paper.help(f"look for a loop that never ends, or set a higher limit: `--{limit} {min(10**9, int(what[1]) * 10)}`")


def run_line(paper, words, number):
    from run_file import run_message

    name = words.files.get("RUN", "")
    message = run_message(words.files.get("SRC", ""), name, words.top(), number)
    if message:
        paper.message(name, message)
    else:
        paper.title(f"line {number} of the run file is rejected")
        paper.help("a line is `NAME = V V ..`, with a parameter and its value, or all elements of the array row by row")


def undefined(paper, name, what, place):
    from undefined_runs import undefined_message
    from c_words import Source

    block = RULES[f"undefined {what}"]
    message = source = None
    try:
        source = Source(pathlib.Path(name).read_bytes())
        message = undefined_message(source, what, place)
    except Exception:
        if os.environ.get("HLS_EXPLAIN_STRICT"):
            raise
    if message is None:
        from message import Message

        message = Message(f"the run in C is undefined: {block['refused']}", place).help(block["instead"])
    message.place = message.place or place
    paper.message(name, message, source=source)


def died(paper, number):
    try:
        name = signal.Signals(number).name
    except ValueError:
        name = "unknown"
    paper.title(f"the compiler was ended by signal {number} ({name}), and gave no answer")
    if name == "SIGKILL":
        paper.help("see whether the system ran out of memory, or a limit of time ended it")
    elif name in ("SIGSEGV", "SIGBUS"):
        paper.help("allow a larger stack (`ulimit -s`), or reduce the source; this is a bug of the compiler, so please report the source")
    else:
        paper.help("start it again")


PLACE = r"(\d+):(\d+)(?:\.(\d+))?"


def explain(status, line, words):
    from message import Paper

    paper = Paper()
    place = re.search(PLACE + "$", line)
    place = place and tuple(int(n or 0) for n in place.groups())
    said = line.split()
    if status > 128:
        died(paper, status - 128)
    elif status == 1 and said[:1] == ["rule"]:
        at_source(paper, words.files.get("SRC", ""), said[1], place, words.top())
    elif status == 2:
        usage(paper, words)
    elif status == 3:
        fault(paper, words)
    elif status == 4:
        paper.title("out of memory")
        paper.help("close other programs, or compile a smaller function")
    elif status == 5:
        differ(paper, said[2:])
    elif status == 6:
        running(paper, said[1:])
    elif status == 7:
        run_line(paper, words, int(said[2]))
    elif status == 8:
        at_design(paper, words, said[0], said[2], place)
    elif status == 9:
        undefined(paper, words.files.get("SRC", ""), said[1], place)
    paper.put()


def main(words):
    if words == ["help"]:
        print(HELP)
        for key, block in sorted(RULES.items(), key=lambda item: (item[0].split()[0], int(re.sub(r"\D", "", item[0]) or 0))):
            print(f"{key:<24}{block['name']}")
        return
    put = pathlib.Path(words[1]).read_text(errors="replace").splitlines()
    explain(int(words[0]), put[-1] if put else "", Words(words[2:]))


if __name__ == "__main__":
    main(sys.argv[1:])
