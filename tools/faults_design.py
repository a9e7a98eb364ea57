"""The messages for modules and reports: rules 50 to 57, 60 and 61. Used by tools/explain.py.

docs/CIRCUIT.md says what the text of a module is, and docs/REPORT.md what the lines of a report are.
"""
import dataclasses
import re

import c_tree as tree
from c_words import Source
from message import Message, listed, nearest, plural, quoted

MODULE_LIMIT = 67_108_864
REPORT_LIMIT = 16_777_216
WORDS = "module clk input output reg wire assign always posedge if begin end endmodule".split()
OPERATORS = "+ - * & | ^ == < << >>".split()
GAP = re.compile(r"(?:[ \t-\r]|//[^\n]*|/\*.*?\*/)*", re.S)
TOKEN = re.compile(r"[A-Za-z_]\w*|(?:0*[1-9]\d?|0*1[01]\d|0*12[0-8])'h[0-9a-fA-F]+|\d+|==|<=|<<|>>|[][(){};,:?=@~+\-*&|^<]", re.A)
DECLARATION = "[ NUMBER : ZERO ] NAME"
WRITE = "if ( OPERAND ) NAME [ OPERAND ] <= OPERAND ;"
EDGE = "always @ ( posedge clk )"
# The pieces of a module's text, and which ones may follow each.
FORMS = {
    "head": "module NAME ( clk",
    "header": ", NAME",
    "clock": ") ; input clk ;",
    "input": f"input {DECLARATION} ;",
    "output": f"output {DECLARATION} ;",
    "register": f"reg {DECLARATION} ;",
    "memory": f"reg {DECLARATION} [ ZERO : NUMBER ] ;",
    "copy": f"wire {DECLARATION} = OPERAND ;",
    "not": f"wire {DECLARATION} = ~ OPERAND ;",
    "pair": f"wire {DECLARATION} = OPERAND OPERATOR OPERAND ;",
    "pick": f"wire {DECLARATION} = OPERAND ? OPERAND : OPERAND ;",
    "join": f"wire {DECLARATION} = {{ OPERAND , OPERAND }} ;",
    "part": f"wire {DECLARATION} = NAME [ NUMBER : NUMBER ] ;",
    "word": f"wire {DECLARATION} = NAME [ OPERAND ] ;",
    "assign": "assign NAME = OPERAND ;",
    "set": f"{EDGE} if ( OPERAND ) NAME <= OPERAND ;",
    "block": f"{EDGE} begin {WRITE}",
    "port": WRITE,
    "end": "end",
    "last": "endmodule",
}
FORMS = {name: form.split() for name, form in FORMS.items()}
WIRES = ["copy", "not", "pair", "pick", "join", "part", "word"]
ORDER = ["input", "output", "register", "memory", *WIRES, "assign", "set", "block", "last"]


def followers(form):
    if form in ("start", "last"):
        return ["head"] if form == "start" else []
    if form in ("head", "header"):
        return ["header", "clock"]
    if form in ("block", "port"):
        return ["port", "end"]
    first = {"clock": "input", "end": "set", "block": "set"}.get(form, "copy" if form in WIRES else form)
    return ORDER[ORDER.index(first) :]


@dataclasses.dataclass
class Lexeme:
    text: str
    line: int
    column: int

    def place(self):
        return self.line, self.column, 0

    def fits(self, kind):
        is_name = (self.text[0].isalpha() or self.text[0] == "_") and self.text not in WORDS
        if kind == "NAME" or kind == "OPERAND" and is_name:
            return is_name
        if kind in ("NUMBER", "ZERO"):
            return self.text.isdigit() and (kind == "NUMBER" or self.text == "0")
        if kind == "OPERAND":
            return "'" in self.text
        return self.text in OPERATORS if kind == "OPERATOR" else self.text == kind


@dataclasses.dataclass
class Declared:
    """A name that a module declares: what it is, its bits, the words of a memory, and its token."""

    sort: str
    bits: int
    words: int
    at: Lexeme


def lexemes(text):
    """The tokens of a module's text, as far as they go."""
    found, at, line, start = [], 0, 1, 0
    while True:
        end = GAP.match(text, at).end()
        breaks = text.count("\n", at, end)
        if breaks:
            line, start = line + breaks, text.rindex("\n", at, end) + 1
        token = TOKEN.match(text, end)
        if not token:
            return found
        found.append(Lexeme(token.group(), line, end - start + 1))
        at = token.end()


class Module:
    """The items of a module's text: each has its form and its tokens. `wanted` is what may stand where no item goes on."""

    def __init__(self, text):
        self.text, self.tokens = text, lexemes(text)
        self.items, self.stop, self.wanted = [], 0, []
        self.read()
        self.names = {}
        self.pins = []
        for form, tokens in self.items:
            self.declare(form, tokens)

    def read(self):
        form = "start"
        while form != "last":
            taken = {}
            for next_form in followers(form):
                kinds = FORMS[next_form]
                taken[next_form] = next((k for k, kind in enumerate(kinds) if self.stop + k >= len(self.tokens) or not self.tokens[self.stop + k].fits(kind)), len(kinds))
            whole = next((f for f, k in taken.items() if k == len(FORMS[f])), None)
            if whole is None:
                most = max(taken.values())
                self.wanted = list(dict.fromkeys(FORMS[f][k] for f, k in taken.items() if k == most))
                self.stop += most
                return
            self.items.append((whole, self.tokens[self.stop : self.stop + len(FORMS[whole])]))
            self.stop += len(FORMS[whole])
            form = whole

    def declare(self, form, tokens):
        sort = "wire" if form in WIRES else form
        if sort in ("input", "output", "register", "memory", "wire"):
            words = int(tokens[10].text) + 1 if form == "memory" else 0
            one = Declared(sort, int(tokens[2].text) + 1, words, tokens[6])
            self.names.setdefault(one.at.text, []).append(one)
            if form in ("input", "output"):
                self.pins.append(one)

    def item_at(self, place):
        """The item that holds the token at a place, and the token's number in it."""
        for form, tokens in self.items:
            for k, token in enumerate(tokens):
                if token.place() == place:
                    return form, tokens, k
        return None

    def first(self, name):
        return self.names.get(name, [None])[0]

    def bits(self, operand):
        """The bits of an operand, or None."""
        if "'" in operand.text:
            return int(operand.text.split("'")[0])
        one = self.first(operand.text)
        return one.bits if one and one.sort in ("input", "register", "wire") else None


def an(sort):
    return f"an {sort}" if sort[0] in "io" else f"a {sort}"


def shown(kinds):
    """What is expected, in words. A name may be an operand."""
    kinds = [kind for kind in kinds if kind != "NAME" or "OPERAND" not in kinds]
    words = {"NAME": "a name", "NUMBER": "a number", "ZERO": "`0`", "OPERAND": "a name or a constant", "OPERATOR": "an operator"}
    return listed([words.get(kind) or f"`{kind}`" for kind in kinds], "or")


# ---- the text: rules 50, 51 and 56


def no_token(module, place):
    lines = module.text.split("\n")
    rest = lines[place[0] - 1][place[1] - 1 :]
    if rest.startswith("/*"):
        return Message("the comment that begins here is not closed").help("write `*/` at its end")
    return malformed_constant(lines[place[0] - 1], place[1] - 1) or Message(f"`{rest[:1]}` begins no token of a module")


def malformed_constant(line, at):
    """The message where digits, and a quote behind them, are no constant."""
    for found in re.finditer(r"\d+'\w*", line):
        if found.start() <= at < found.end() and not TOKEN.fullmatch(found.group()):
            return Message(f"the constant `{found.group()}` is malformed").help("write 1 to 128 bits, `'h` and hexadecimal digits, such as `8'h1f`")
    return None


def no_module(module):
    if module.stop >= len(module.tokens):
        return Message("the module ends too early").note(f"expected {shown(module.wanted)}")
    token = module.tokens[module.stop]
    if module.items and module.items[-1][0] == "last":
        return Message(f"`{token.text}` stands after `endmodule`")
    if token.text in ("input", "output", "reg", "wire", "assign") and "endmodule" in module.wanted:
        message = Message(f"`{token.text}` stands too late")
        return message.note("the order is: inputs, outputs, registers, memories, wires, `assign`, `always`")
    message = malformed_constant(module.text.split("\n")[token.line - 1], token.column - 1)
    return message or Message(f"`{token.text}` is not expected here").note(f"expected {shown(module.wanted)}")


# ---- names: rules 52, 54 and 55

WANTED = {("assign", 1): "output", ("set", 10): "register", ("block", 11): "memory", ("port", 4): "memory", ("word", 8): "memory"}


def wrong_name(module, form, tokens, k):
    token = tokens[k]
    one = module.first(token.text)
    if form == "header":
        number = sum(1 for other, it in module.items if other == "header" and it[1].place() < token.place())
        pin = module.pins[number].at.text if number < len(module.pins) else None
        if pin:
            return Message(f"the header has `{token.text}`, where the pin `{pin}` is declared").note("it is declared here", module.pins[number].at.place())
        return Message(f"`{token.text}` in the header is not declared as a pin")
    if one and one.at is not token and form not in ("assign", "set", "block", "port") and k == 6:
        return Message(f"`{token.text}` is declared twice").note("the first declaration is here", one.at.place())
    if one and one.at is token:
        return Message(f"the {one.sort} `{token.text}` is missing from the header")
    if one is None:
        message = Message(f"`{token.text}` is not declared")
        near = nearest(token.text, module.names)
        return message.help(f"did you mean `{near}`?") if near else message
    wanted = WANTED.get((form, k))
    message = Message(f"`{token.text}` is {an(one.sort)}, " + (f"and {an(wanted)} is needed here" if wanted else "so it has no value that can be read here"))
    return message.note("it is declared here", one.at.place())


def wrong_count(module, form, tokens, k):
    name = tokens[k].text
    one = module.first(name)
    if one and one.at is tokens[k]:
        return Message(f"the {one.sort} `{name}` is never assigned" if one.sort != "memory" else f"the memory `{name}` has no `always` block")
    index = {"assign": 1, "set": 10, "block": 11}.get(form)
    if form == "port":
        blocks = [it for other, it in module.items if other == "block" and it[0].place() < tokens[0].place()]
        return Message(f"this port of `{name}` is in the block of `{blocks[-1][11].text}`")
    before = next((it[index] for other, it in module.items if other == form and it[index].text == name), None)
    title = f"the memory `{name}` has two blocks" if form == "block" else f"`{name}` is assigned twice"
    return Message(title).note("the first one is here", before.place() if before else None)


def too_early(module, form, tokens, k):
    one = module.first(tokens[k].text)
    if one.at is tokens[6]:
        return Message(f"the wire `{one.at.text}` is used in its own declaration")
    return Message(f"the wire `{one.at.text}` is used before its declaration").note("it is declared here", one.at.place())


# ---- widths: rule 53


def too_large(token):
    """What is wrong with a constant by itself, if anything."""
    if "'" in token.text:
        bits, digits = token.text.split("'h")
        needs = int(digits, 16).bit_length()
        if needs > int(bits):
            return Message(f"the constant `{token.text}` has {plural(int(bits), 'bit')}, and its digits need {needs}")
    return None


def wrong_declaration(one):
    most = 128 if one.sort == "wire" else 64
    if one.bits > most:
        return Message(f"the {one.sort} `{one.at.text}` has {one.bits} bits; at most {most} are allowed")
    return Message(f"the memory `{one.at.text}` has {one.words} words, which is not a power of two from 2 to 65,536")


def wrong_part(module, tokens):
    name, high, low, bits = tokens[8], int(tokens[10].text), int(tokens[12].text), int(tokens[2].text) + 1
    wide = module.bits(name)
    if wide and (high >= wide or low > high):
        return Message(f"`{name.text}` has {plural(wide, 'bit')}, so it has no part `[{high}:{low}]`")
    return Message(f"`{name.text}[{high}:{low}]` has {plural(high - low + 1, 'bit')}, and `{tokens[6].text}` has {bits}")


def wrong_word(module, name, address, bits, target):
    """A word of a memory that is read, or written if there is no target."""
    memory, given = module.first(name.text), module.bits(address)
    depth = memory.words.bit_length() - 1 if memory else 0
    if memory and given and given != depth:
        return Message(f"the address `{address.text}` has {plural(given, 'bit')}, and the {memory.words} words of `{name.text}` need {depth}")
    if memory and memory.bits != bits:
        return Message(f"a word of `{name.text}` has {plural(memory.bits, 'bit')}, and `{target.text}` has {bits}")
    return Message(f"`{name.text}` is read at `{address.text}`, which is the address of none of its ports")


def widths(module, operands):
    known = [(token.text, module.bits(token)) for token in operands]
    return listed([f"`{name}` has {plural(bits, 'bit')}" for name, bits in dict(known).items() if bits])


def wrong_width(module, form, tokens, k):
    one = module.first(tokens[k].text)
    if form in ("input", "output", "register", "memory") or one and one.at is tokens[k]:
        return wrong_declaration(one)
    kinds = FORMS[form]
    operands = [token for token, kind in zip(tokens, kinds) if kind == "OPERAND"]
    for token in operands:
        message = too_large(token)
        if message and (form not in ("set", "block", "port") or token is tokens[k]):
            return message
    if form in ("set", "block", "port") and kinds[k - 1] == "(":
        return Message(f"a condition has 1 bit, and `{tokens[k].text}` has {module.bits(tokens[k])}")
    if form in ("block", "port"):
        name = tokens[{"block": 11, "port": 4}[form]]
        return wrong_word(module, name, operands[1], module.bits(operands[2]), operands[2])
    if form == "part":
        return wrong_part(module, tokens)
    if form == "word":
        return wrong_word(module, tokens[8], operands[0], int(tokens[2].text) + 1, tokens[6])
    target = tokens[{"assign": 1, "set": 10}.get(form, 6)]
    message = Message(f"the widths do not agree: `{target.text}` has {plural(module.first(target.text).bits, 'bit')}")
    return message.note(widths(module, operands))


# ---- the pins: rule 57


def wanted_pins(source, top):
    """The pins of the module of a function: names and bits."""
    items = tree.parse(Source(source).tokens)[0]
    function = next(f for f in items if isinstance(f, tree.Function) and f.at.text == top and f.body)
    scalars = [p for p in function.parameters if not p.lengths]
    pins = [("reset", 1), ("start", 1), ("h_en", 1), ("h_we", 1), ("h_sel", 5), ("h_addr", 16), ("h_wdata", 64)]
    pins += [(f"arg_{k}", p.kind.bits) for k, p in enumerate(scalars)]
    pins += [("ready", 1), ("done", 1), ("h_rdata", 64)]
    return pins + ([("ret", function.kind.bits)] if function.kind else [])


def other_pins(module, source, top):
    name = module.tokens[1].text
    if name != f"hls_{top}":
        return Message(f"the module is `{name}`, and that of `{top}` is `hls_{top}`").help("pass the module that `synth` wrote for this `--top`")
    wanted, given = wanted_pins(source, top), [(pin.at.text, pin.bits) for pin in module.pins]
    message = Message(f"the pins of the module are not those of `{top}`")
    for (a, m), (b, n) in zip(wanted, given):
        if (a, m) != (b, n):
            k = next(k for k, pin in enumerate(module.pins) if pin.at.text == b)
            return message.note(f"`{b}` has {plural(n, 'bit')}, where `{a}` has {m}" if a == b else f"`{b}` stands where `{a}` is expected", module.pins[k].at.place())
    more = quoted(name for name, _ in wanted[len(given) :])
    return message.note(f"{listed(more)} {'is' if len(more) == 1 else 'are'} missing" if more else f"`{given[len(wanted)][0]}` is one too many")


def module_message(data, rule, place, source, top):
    """The message for a rule of a module, or None."""
    if rule == "56":
        return Message(f"the module has {len(data):,} bytes; at most {MODULE_LIMIT:,} are allowed")
    module = Module(data.decode("latin-1"))
    if rule == "50":
        return no_token(module, place)
    if rule == "51":
        return no_module(module)
    if rule == "57":
        return other_pins(module, source, top)
    found = module.item_at(place)
    if found is None:
        return None
    form, tokens, k = found
    # The place of a fault of width is the first token of the net, which may be a sign.
    return {"52": wrong_name, "53": wrong_width, "54": wrong_count, "55": too_early}[rule](module, form, tokens, k)


# ---- reports: rules 60 and 61

LINES = {
    "hls-report": "hls-report 1",
    "top": "top NAME",
    "settings": "settings mul N div N ports N plain 0",
    "base": "base N",
    "init": "init N",
    "cost": "cost N KIND PLACE PATH",
    "loop": "loop PLACE PATH ii N exit N",
    "edge": "edge FROM TO LATENCY DISTANCE",
    "units": "units mul32 N mul64 N div32 N div64 N",
    "memory": "memory NAME bits N depth N ports N",
    "registers": "registers N",
    "end": "end",
}
NEXT = {
    "": ["hls-report"],
    "hls-report": ["top"],
    "top": ["settings"],
    "settings": ["base"],
    "base": ["init", "cost", "loop", "units"],
    "init": ["cost", "loop", "units"],
    "cost": ["cost", "loop", "units"],
    "loop": ["edge", "loop", "units"],
    "edge": ["edge", "loop", "units"],
    "units": ["memory", "registers"],
    "memory": ["memory", "registers"],
    "registers": ["end"],
    "end": [],
}


def malformed(data, place):
    if len(data) > REPORT_LIMIT:
        return Message(f"the report has {len(data):,} bytes; at most {REPORT_LIMIT:,} are allowed")
    lines = data.decode("latin-1").split("\n")
    before = lines[place[0] - 2].split(" ")[0] if place[0] > 1 else ""
    wanted = NEXT.get(before, list(LINES))
    line = lines[place[0] - 1] if place[0] <= len(lines) else ""
    if not wanted:
        return Message("there is text after the line `end`")
    if place[0] >= len(lines) and place[1] > len(line):
        message = Message("the report ends too early")
    else:
        rest = line[place[1] - 1 :].split(" ")[0]
        message = Message(f"`{rest}` is not expected here" if rest else "this line ends too early" if place[1] > len(line) else "a space is not expected here")
    # The lines that begin as this one does up to its fault.
    seen = line[: place[1] - 1].split(" ")[0]
    forms = [LINES[kind] for kind in wanted if kind.startswith(seen)] or [LINES[kind] for kind in wanted]
    return message.note("the line here has the form " + listed(quoted(forms), "or"))


def report_message(data, rule, place, top):
    """The message for a rule of a report, or None."""
    if rule == "60":
        return malformed(data, place)
    name = data.decode("latin-1").split("\n")[1].partition(" ")[2]
    return Message(f"the report is of `{name}`, and `--top` names `{top}`")
