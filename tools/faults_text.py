"""What is wrong with the text and the directives of a source: rules 1 to 5, 30, 31 and 38. Used by tools/explain.py."""
import re

from c_library import FUNCTIONS, header_help
from c_words import EXACT_TYPES, KEYWORDS
from message import Message, nearest

ESCAPES = {"n": 10, "t": 9, "r": 13, "0": 0, "a": 7, "b": 8, "f": 12, "v": 11, "\\": 92, "'": 39, '"': 34, "?": 63}
LOOKALIKES = {
    "\u201c": '"', "\u201d": '"', "\u2018": "'", "\u2019": "'", "\u2013": "-", "\u2014": "-", "\u2212": "-", "\u00d7": "*", "\u00f7": "/", "\u00a0": " ",
    "\u2264": "<=", "\u2265": ">=", "\u2260": "!=", "\u037e": ";", "\uff1b": ";", "\uff08": "(", "\uff09": ")", "\u2003": " ", "\u2009": " ", "\u3000": " ",
}
DIRECTIVES = "include define undef pragma if ifdef ifndef elif else endif error warning line".split()
CONDITIONS = frozenset("if ifdef ifndef elif else endif elifdef elifndef".split())
SUFFIXES = frozenset(["", "u", "l", "ll", "ul", "lu", "ull", "llu"])
FLOATING = re.compile(r"[0-9]+[fd]|[0-9]*\.[0-9.]*(e[+-]?[0-9]+)?[fl]?|[0-9]+\.?[0-9]*e[+-]?[0-9]+[fl]?")


def text_message(source, rule, place):
    makers = {
        "1": no_token, "2": open_comment, "3": bad_number, "4": long_word, "5": directive, "30": too_long, "31": too_many_tokens, "38": too_many_definitions,
    }
    return makers[rule](source, place) if rule in makers else None


def directive_of(source, place):
    """The directive on whose line the place is."""
    return next((d for d in source.directives if any(t.line == place[0] for t in (d.mark, *d.tokens))), None)


def offset(source, place):
    lines = source.text.split("\n")
    return sum(len(line) + 1 for line in lines[: place[0] - 1]) + place[1] - 1


# ---- no token (rule 1)


def no_token(source, place):
    token, d = source.raw_at(place), directive_of(source, place)
    word = d.word() if d else ""
    if word in ("include", "include_next", "import") and token and token.kind == "string":
        return quoted_include(token)
    if word in ("error", "warning", "line", "ident"):
        return other_directive(d)
    if token and token.text == "#":
        return misplaced_hash(source, token, d)
    if token and token.kind == "string":
        return string(source, token)
    if token and token.kind == "character":
        return character(source, token)
    if token and token.text == "\\":
        return Message("a backslash can only be the last character of a line").help("remove it, or the white space after it")
    return unknown_byte(source, place)


def quoted_include(token):
    name = token.text.strip('"')
    if name == "stdint.h":
        return Message("<stdint.h> must be in `<` and `>`, not in quotes").help("write `#include <stdint.h>`")
    message = Message(f"`#include {token.text}` is not supported: the whole program is in one file")
    return message.help(f"write what is used of {name} into this file, in place of the line")


def misplaced_hash(source, token, d):
    following = re.match(r"#\s*(\w+)", source.text[token.start :])
    word = following.group(1) if following else ""
    if d and d.word() == "define":
        return Message("the operators `#` and `##` of macros are not supported").help("remove the macro, and write its tokens at each use")
    if word in DIRECTIVES:
        return Message(f"`#{word}` must be at the beginning of a line").help(f"write `#{word}` on a line of its own")
    return Message("`#` must be at the beginning of a line").help("remove it")


def token_before(source, token, ahead):
    index = source.raw.index(token) - ahead
    return source.raw[index].text if index >= 0 else ""


def string(source, token):
    is_closed = len(token.text) > 1 and token.text.endswith('"')
    values = characters(token.text[1:-1] if is_closed else token.text[1:])
    before, called = token_before(source, token, 1), token_before(source, token, 2)
    message = Message("strings are not supported")
    if called in FUNCTIONS and before == "(":
        return message.help(FUNCTIONS[called])
    if called in ("asm", "__asm__", "volatile") and before == "(":
        return Message("inline assembly is not supported").help("remove the statement")
    if before == "extern":
        return message.help("remove `extern` and the string: the source is C")
    if not is_closed:
        return Message("strings are not supported, and this one has no end").help("remove it")
    if len(values) > 16:
        return message.help("write an array of numbers, one for each character: `{72, 105, 0}`")
    return message.help(f"write an array of numbers, `const char text[{len(values) + 1}] = {{{', '.join(map(str, [*values, 0]))}}};`")


def characters(text):
    """The numbers of the characters of a string or a character constant."""
    found, k = [], 0
    while k < len(text):
        match = re.compile(r"\\(?:x([0-9a-fA-F]+)|([0-7]{1,3})|(.))", re.S).match(text, k)
        if not match:
            found.append(ord(text[k]))
            k += 1
            continue
        number = match.group(1) or match.group(2)
        found.append(int(number, 16 if match.group(1) else 8) & 255 if number else ESCAPES.get(match.group(3), ord(match.group(3))))
        k = match.end()
    return [value - 256 if value > 127 else value for value in found]


def character(source, token):
    verilog = re.match(r"'[sS]?([bodhBODH])([0-9a-fA-F_]+)", source.text[token.start :])
    if verilog and token_before(source, token, 1).isdigit():
        base = {"b": 2, "o": 8, "d": 10, "h": 16}[verilog.group(1).lower()]
        digits = verilog.group(2).replace("_", "")
        message = Message("this is a number of Verilog, not of C")
        return message.help(f"write `0x{int(digits, base):x}`") if all(int(c, 16) < base for c in digits) else message
    values = characters(token.text[1:].removesuffix("'"))
    if token.text[1:2].isdigit() and source.text[token.start - 1].isdigit():
        return Message("a number cannot have a `'` between its digits").help("remove it")
    message = Message("character constants are not supported")
    if len(values) == 1 and len(token.text) > 2:
        return message.help(f"write the number {values[0]}")
    return message.help("write the number of the character, such as 65 for A")


def unknown_byte(source, place):
    data = source.data[offset(source, place) :]
    if data.startswith(b"\xef\xbb\xbf"):
        return Message("the file begins with a byte order mark").help("save it as UTF-8 without a byte order mark (BOM)")
    if data[:2] in (b"\xff\xfe", b"\xfe\xff") or data[:1] == b"\0":
        return Message("the file is not plain text: a byte 0 is here" if data[:1] == b"\0" else "the file is in UTF-16").help("save it as UTF-8")
    letter = next((data[:n].decode() for n in (1, 2, 3, 4) if decodes(data[:n])), "")
    if not letter:
        return Message(f"the byte 0x{data[0]:02x} is not a character of C").help("remove it")
    shown = f"`{letter}`" if letter.isprintable() and letter.strip() else f"U+{ord(letter):04X}"
    message = Message(f"{shown} is not a character of C")
    right = LOOKALIKES.get(letter)
    if right == " ":
        return message.help("write a space in its place")
    if right and right not in "\"'":
        return message.help(f"write `{right}` in its place")
    if ord(letter) > 127 and letter.isalpha():
        return message.help("write names with the letters A to Z, digits and `_`; comments may have any characters")
    return message.help("remove it")


def decodes(data):
    try:
        return len(data.decode()) == 1
    except UnicodeDecodeError:
        return False


# ---- comments, numbers, words and length (rules 2, 3, 4 and 30)


def open_comment(source, place):
    message, begin = Message("this comment is not closed"), offset(source, place)
    at = source.text.find("* /", begin)
    if at < 0:
        return message.help("write `*/` at the end of the comment")
    found = source.text.count("\n", 0, at) + 1, at - source.text.rfind("\n", 0, at), 0
    return message.note("`*` and `/` are apart here", found).help("write `*/` without a space")


def bad_number(source, place):
    token = source.raw_at(place)
    text = token.text if token else ""
    lower = text.lower()
    is_hexadecimal = lower.startswith("0x")
    if FLOATING.fullmatch(lower) or is_hexadecimal and re.fullmatch(r"0x[0-9a-f.]*(p[+-]?[0-9]+)?[fl]?", lower) and ("p" in lower or "." in lower):
        return floating(text, is_hexadecimal)
    if re.fullmatch(r"0b[01_]+[ul]*", lower):
        return Message(f"binary numbers such as `{text}` are not in C11").help(f"write `0x{int(re.sub('[^01]', '', lower[2:]), 2):x}`")
    if re.fullmatch(r"(0x[0-9a-f]+|[0-9]+)(_[0-9a-f]+)+[ul]*", lower):
        return Message("a number cannot have a `_` between its digits").help(f"write `{text.replace('_', '')}`")
    sign = re.search(r"e[+-]", lower)
    if is_hexadecimal and sign:
        k = sign.start()
        return Message(f"`{text}` is read as one number, because a sign follows an `{text[k]}`").help(f"write `{text[: k + 1]} {text[k + 1]} {text[k + 2 :]}`")
    return integer(text, lower, is_hexadecimal)


def floating(text, is_hexadecimal):
    message = Message(f"floating-point numbers such as `{text}` are not supported")
    try:
        value = float.fromhex(text.rstrip("fFlL")) if is_hexadecimal else float(text.rstrip("fFlLdD"))
    except ValueError:
        return message.help("write an integer")
    if value == int(value) and abs(value) < 2**31:
        return message.help(f"write `{int(value)}`")
    if 2**-8 < abs(value) < 2**20:
        return message.help(f"write a fixed-point number: with 8 bits after the point, {text} is about {round(value * 256)}")
    return message.help("write an integer")


def integer(text, lower, is_hexadecimal):
    """A number whose digits, suffix or size are wrong."""
    digits = re.match(r"0x[0-9a-f]*|[0-9]+", lower).group()
    suffix = text[len(digits) :]
    if digits == "0x":
        return Message(f"`{text}` has no hexadecimal digits").help("write digits from 0 to 9 and a to f after `0x`")
    octal = not is_hexadecimal and digits.startswith("0")
    if octal and re.search("[89]", digits):
        return Message(f"`{text}` begins with 0, so it is octal, but it has a digit {re.search('[89]', digits).group()}").help(f"write `{digits.lstrip('0')}{suffix}`")
    if suffix.lower() not in SUFFIXES:
        message = Message(f"`{suffix}` is not a suffix of an integer")
        return message.help(f"write `{text[: len(digits)]}`", "the suffixes are u, l, ul, ll and ull; a name cannot begin with a digit")
    if "lL" in suffix or "Ll" in suffix:
        return Message(f"the suffix `{suffix}` mixes `l` and `L`").help(f"write `{text[: len(digits)]}{suffix.lower()}`")
    value = int(digits, 16 if is_hexadecimal else 8 if octal else 10)
    if value >= 2**64:
        return Message(f"`{text}` does not fit in 64 bits").help("write a number up to 18446744073709551615, or keep its parts in two variables")
    return Message(f"`{text}` does not fit in `long`, the largest signed type").help(f"write it as unsigned: `{text[: len(digits)]}u{suffix}`")


def long_word(source, place):
    token = source.raw_at(place)
    return Message(f"this name has {len(token.text)} characters; the limit is 64").help("choose a shorter name")


def too_long(source, place):
    return Message(f"the source has {len(source.data):,} bytes; the limit is 65,536").help("shorten comments and tables, or compile its functions from separate files")


# ---- directives (rules 5, 31 and 38)


def directive(source, place):
    d = directive_of(source, place)
    if not d or not d.tokens:
        return None
    word = d.word()
    if word == "include":
        return include(d)
    if word == "define":
        return define(source, d)
    if word == "undef":
        return Message("`#undef` takes one name").help("write `#undef NAME`")
    if word in CONDITIONS:
        return condition(source, d)
    return other_directive(d)


def condition(source, d):
    message = Message(f"conditional compilation (`#{d.word()}`) is not supported")
    opened = []
    for other in source.directives:
        if other is d:
            break
        if other.word() in ("if", "ifdef", "ifndef"):
            opened.append(other)
        elif other.word() == "endif" and opened:
            opened.pop()
    if opened and d.word() not in ("if", "ifdef", "ifndef"):
        message.note("it belongs to this line", opened[-1].mark.place())
    return message.help("remove the lines `#if`, `#else` and `#endif`, and what is not to be compiled between them")


def other_directive(d):
    word = d.word()
    if word in ("error", "warning", "line", "ident"):
        return Message(f"`#{word}` is not supported").help("remove the line")
    near = nearest(word, DIRECTIVES[:4])
    message = Message(f"`#{word}` is not a directive of the language")
    if near:
        return message.help(f"did you mean `#{near}`?")
    return message.help("the directives are `#include <stdint.h>`, `#define NAME tokens`, `#undef NAME` and `#pragma`")


def include(d):
    name = "".join(t.text for t in d.tokens[1:])
    match = re.fullmatch(r"<([^>]*)>(.*)", name)
    if match and match.group(1) == "stdint.h":
        return Message("`#include <stdint.h>` must be alone on its line").help("write the rest on a line of its own")
    if match:
        return Message(f"<{match.group(1)}> cannot be included: the only header is <stdint.h>").help(header_help(match.group(1)))
    return Message("`#include` takes a header in `<` and `>`").help("write `#include <stdint.h>`")


def define(source, d):
    rest = d.tokens[1:]
    if not rest:
        return Message("`#define` takes a name").help("write `#define NAME tokens`")
    name = rest[0]
    if not name.is_word():
        return Message(f"`#define` takes a name, and `{name.text}` is not one").help("write a name that begins with a letter or `_`")
    if name.text in KEYWORDS:
        return Message(f"`{name.text}` is a keyword, so it cannot be a macro").help("choose another name")
    if name.text in EXACT_TYPES:
        return Message(f"`{name.text}` is a type of <stdint.h>, so it cannot be a macro").help("remove the line, and write `#include <stdint.h>`")
    if len(rest) > 1 and rest[1].text == "(" and rest[1].is_glued:
        return with_parameters(source, name, rest)
    message = Message(f"`{name.text}` is defined twice, with different tokens")
    first = in_force(source, name)
    if first:
        message.note("the first definition is here", first.place())
    return message.help(f"remove one of the two, choose another name, or write `#undef {name.text}` between them")


def in_force(source, name):
    """The name in the definition that holds where the name is defined again."""
    found = None
    for d in source.directives:
        if len(d.tokens) < 2 or d.tokens[1].text != name.text:
            continue
        if d.tokens[1].start >= name.start:
            break
        if d.word() == "undef":
            found = None
        elif d.word() == "define":
            found = found or d.tokens[1]
    return found


def with_parameters(source, name, rest):
    """A macro with parameters, as a function where its tokens are an expression."""
    message = Message(f"`{name.text}` is a macro with parameters, which is not supported")
    close = next((k for k, t in enumerate(rest) if t.text == ")"), len(rest))
    names, body = [t.text for t in rest[2:close] if t.is_name()], rest[close + 1 :]
    if not body:
        return message.help("remove the line and the uses of the macro")
    is_plain = all(t.kind in ("word", "number", "punct") and t.text not in KEYWORDS and t.text not in ("{", "}", ";", "##", "=", "++", "--") for t in body)
    if is_plain and len(body) < 40 and "\\" not in source.text[body[0].start : body[-1].start]:
        text = " ".join(source.text[body[0].start : body[-1].start + len(body[-1].text)].split())
        parameters = ", ".join("int " + one for one in names) or "void"
        return message.help(f"write a function: `int {name.text}({parameters}) {{ return {text}; }}`")
    return message.help(f"write a function `{name.text}`, or write the tokens of the macro at each use")


def too_many_tokens(source, place):
    token = source.raw_at(place)
    macro = token and next((m for m in source.all_macros if m.name.text == token.text), None)
    limits = "the limits are 16,384 tokens and 65,536 replaced names"
    if macro:
        message = Message(f"the source is too long once macros are replaced; {limits}")
        return message.note(f"`{token.text}` is defined here", macro.name.place()).help("write functions and loops in place of large macros")
    return Message(f"the source is too long; {limits}").help("write loops in place of repeated lines, or compile its functions from separate files")


def too_many_definitions(source, place):
    count = sum(1 for d in source.directives if d.word() == "define")
    return Message(f"the source has {count} lines `#define`; the limit is 256").help("write a const array for related constants, or remove macros that are not used")
