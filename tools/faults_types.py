"""What is wrong with pointers, types, declarations and initialisers where the grammar stops. Used by faults_syntax.py."""
import math

import c_tree as tree
from c_library import EXTENSIONS, FOREIGN_WORDS, TYPES, type_help
from c_words import ASSIGNMENTS, EXACT_TYPES, KEYWORDS, TYPE_WORDS, UNSUPPORTED
from faults_names import not_included, shape_of
from message import Message, nearest, plural
from place_of_stop import braces, written

OPERAND_ROLES = ("operand", "initialiser", "statement", "inner statement", "for first", "target")
NAME_ROLES = ("declarator", "object", "parameters end", "type", "parameter", "cast end", "open parameters", "length end")


# ---- pointers and structs


def pointers(s):
    if s.text == "&" and s.stop.role in OPERAND_ROLES:
        return address(s)
    if s.text == "*" and s.stop.role in OPERAND_ROLES:
        return dereference(s)
    if s.text == "*" and s.stop.role in NAME_ROLES:
        return declared_pointer(s)
    if s.text == "(" and s.word(1) == "*" and s.stop.role in ("declarator", "object", "parameters end"):
        return Message("pointers to functions are not supported").help("call the function by its name, and choose between functions with `switch` or `?:`")
    if s.text in ("->", "."):
        return member(s)
    return None


def member(s):
    if s.stop.role == "initialiser" and not s.ends_operand(-1):
        return designated(s)
    if s.text == "." and s.token(1) and s.token(1).kind == "number":
        return Message("floating point is not supported").help("use integers as fixed-point numbers: with 8 bits after the point, 1.5 is 384")
    message = Message("structs are not supported, so nothing has members")
    if s.is_name(-1) and s.is_name(1):
        return message.help(f"write a variable for each member, such as `{s.before}_{s.word(1)}`")
    return message.help("write a variable or an array for each member")


def declared_pointer(s):
    """A `*` where a declaration has its name."""
    name = next((s.word(k) for k in range(1, 4) if s.is_name(k)), "a")
    kind = written(s.type_before()) or "int"
    if s.stop.role == "cast end":
        return Message("pointers are not supported, so nothing can be cast to one").help("remove the cast")
    if s.stop.role == "length end":
        return Message("an array parameter needs a number as its length").help("write a number in the brackets")
    message = Message("pointers are not supported")
    if s.inside("parameters"):
        kind = kind.replace("void", "int")
        return message.help(f"use an array parameter with its length: `{kind} {name}[8]`")
    if not s.function() and any(s.word(k) == "(" for k in (1, 2, 3)):
        return message.help(f"write the results into an array parameter, and declare the function `void`: `void {name}(int result[8], ..)`")
    if s.function():
        return message.help(f"use an index into the array: `int {name} = 0;`, and `a[{name}]` in place of `*{name}`")
    return message.help(f"declare an array with its length: `{kind} {name}[8];`")


def pointer_declaration(s):
    """`T *p = ..`, where T is not a type here, so that it is read as a product."""
    action = s.inside("action")
    if not action or not s.is_name(-1) or s.word(-2) != "*" or s.token(-3) is not action.at or s.word(-3) in s.stop.declared:
        return None
    message = Message("pointers are not supported", s.token(-2).place())
    return message.help(f"use an index into the array: `int {s.before} = 0;`, and `a[{s.before}]` in place of `*{s.before}`")


def address(s):
    message = Message("pointers are not supported, so no address can be taken")
    name = s.word(1) if s.is_name(1) else ""
    if not name or not s.inside("arguments"):
        return message.help("use an index into the array: `i` in place of `&a[i]`")
    if s.is_array(name) and s.word(2) == "[":
        return message.help(f"pass the whole array, `{name}`, and the index as a further argument")
    if s.is_array(name):
        return message.help(f"write `{name}` without `&`: an array is passed by its name")
    return message.help(f"return the value from the function, or pass an array of one element: declare `int {name}[1];`, and pass `{name}`")


def dereference(s):
    if s.before == "*" and s.token(-1).touches(s.at) and s.ends_operand(-2):
        return Message("C has no power operator `**`", s.token(-1).place()).help("write a loop of products, or `1 << n` for a power of two")
    message = Message("pointers are not supported, so `*` has no pointer to read")
    name = s.word(1)
    if s.is_name(1) and s.word(2) in ("++", "--"):
        return message.help(f"use an index into the array: `a[{name}{s.word(2)}]` in place of `*{name}{s.word(2)}`")
    if s.is_name(1):
        return message.help(f"write an array element: `{name}[0]` in place of `*{name}`")
    if name == "(" and s.is_name(2) and s.word(3) == "+":
        inner = s.tokens_up_to(4, ")")
        return message.help(f"write `{s.word(2)}[{written(inner)}]` in place of `*({s.word(2)} + {written(inner)})`")
    return message.help("write an array element, such as `a[i]`")


def designated(s):
    return Message("designated initialisers are not supported").help("write all values in order, and 0 for those that are left out: `{0, 0, 5}`")


# ---- types


def types(s):
    """A word that is used as a type, and is not one here."""
    role = s.stop.role
    if role in ("item", "type", "parameter", "parameters end") and s.is_name(0) and not missing_result(s):
        if s.is_name(1) or s.word(1) in ("*", "<") or role.startswith("parameter") and s.before in ("(", ",", "const") and s.word(1) in (",", ")", "["):
            return unknown_type(s, s.at)
    if role in ("action end", "for first end") and s.is_name(0) and s.is_name(-1) and s.token(-1) is s.begin_of_action() and s.before not in s.stop.declared:
        return unknown_type(s, s.token(-1))
    if role in ("object end", "after declarator") and s.is_name(0) and s.is_name(-1) and s.is_kind(-2) and not s.line_starts():
        if s.before in TYPES or s.before in EXACT_TYPES:
            return unknown_type(s, s.token(-1))
    if s.before == ")" and s.is_name(-2) and s.word(-3) == "(" and not s.ends_operand(-4) and s.word(-2) not in s.stop.declared:
        if s.is_name(0) or s.at.kind == "number" or s.text in ("(", "~", "!"):
            return unknown_type(s, s.token(-2))
    if role in ("declarator", "object", "parameters end", "cast end") and s.is_kind(0) and s.is_kind(-1) and s.text != "void":
        return no_combination(s)
    return None


def missing_result(s):
    return s.stop.role == "item" and s.is_name(0) and s.word(1) == "("


def unknown_type(s, at):
    word = at.text
    if word in EXACT_TYPES:
        return not_included(s.source, at)
    if word in FOREIGN_WORDS:
        return Message(f"`{word}` is C++, and the source must be C", at.place()).help("write functions on integers and arrays")
    if word in EXTENSIONS or word.startswith("__") and word not in TYPES:
        return Message(f"`{word}` is a compiler extension, and is not supported", at.place()).help("remove it")
    right = {"elif": "else if", "elseif": "else if", "elsif": "else if"}.get(word)
    if right:
        return Message(f"`{word}` is not a C keyword", at.place()).help(f"write `{right}`")
    if s.inside("parameters") and not (s.is_name(1) or s.word(1) == "*"):
        return Message(f"the parameter `{word}` has no type", at.place()).help(f"write its type: `int {word}`")
    helps = type_help(word)
    message = Message(f"unknown type `{word}`", at.place())
    if helps:
        return message.help(*helps)
    near = nearest(word, [w for w in KEYWORDS - UNSUPPORTED if len(w) > 2])
    if near:
        return Message(f"`{word}` is not a type or keyword", at.place()).help(f"did you mean `{near}`?")
    return message.help(f"define it as an integer type: `#define {word} unsigned` above the first use")


def no_combination(s):
    words = [*s.type_before(), s.at]
    text = written(words)
    message = Message(f"`{text}` is not a type")
    exact = next((t.text for t in words if t.kind == "type"), None)
    if exact:
        return message.help(f"write `u{exact.lstrip('u')}`" if any(t.text == "unsigned" for t in words) else f"write `{exact}`")
    if text.count("long") > 2:
        return message.help("write `long`, which has 64 bits")
    return message.help("write one type, such as `unsigned int`")


# ---- declarations


def declarations(s):
    return placed_words(s) or named(s) or behind_name(s) or void(s)


def placed_words(s):
    """`static`, `inline` and extensions at places where they cannot be."""
    role, text = s.stop.role, s.text
    if text in ("static", "inline"):
        if s.function() and text == "static":
            return static_inside(s)
        if s.function():
            return nested_function(s, next((s.token(k) for k in range(1, 6) if s.is_name(k)), s.at))
        if role in ("type", "declarator"):
            return Message(f"`{text}` must come first in a declaration").help(f"write `{text}` before the type")
        return Message(f"`{text}` cannot be here").help("remove the word")
    if text in EXTENSIONS or text.startswith("__") and role != "item":
        return Message(f"`{text}` is a compiler extension, and is not supported").help("remove it")
    return None


def static_inside(s):
    message = Message("a `static` variable inside a function is not supported")
    if any(t.text == "const" for t in s.tokens_up_to(1, ";")):
        return message.help("remove the word `static`, or move the declaration to file scope, above the function")
    return message.help("move the declaration to file scope, above the function; the variable keeps its value between calls there too")


def named(s):
    """What is in the place of the name that a declaration declares."""
    role, text = s.stop.role, s.text
    if role not in ("declarator", "object", "parameters end") or not (s.is_kind(-1) or s.before == "," and role == "object"):
        return None
    if s.at.is_word() and text in KEYWORDS and not s.is_kind(0):
        return Message(f"`{text}` is a keyword, so it cannot be a name").help("choose another name")
    if role == "parameters end":
        return None
    if s.at.kind == "number":
        return Message(f"expected a name, found the number `{text}`").help("write a name that begins with a letter")
    if text == "[":
        name = next((s.word(k) for k in range(1, 6) if s.is_name(k)), "a")
        return Message("the length of an array comes after its name").help(f"write `{written(s.type_before()) or 'int'} {name}[8]`")
    if text == "(":
        return Message("a declared name cannot be in parentheses").help("remove the parentheses")
    if s.is_kind(0) and s.before == ",":
        return Message("the type is written only once in a declaration").help("remove the second type, or write `;` in place of the comma")
    if text in (";", ",", "=", ")"):
        return Message(f"expected a name after `{s.before}`").help(f"write a name before `{text}`")
    return None


def behind_name(s):
    """What follows a name that is declared."""
    role, text = s.stop.role, s.text
    if role not in ("object end", "after declarator") or not (s.is_name(-1) or s.before == "]"):
        return None
    if text == "(" and s.is_name(-1):
        if s.token(1) and s.token(1).kind == "number":
            return Message("a variable is not initialised with parentheses").help(f"write `{s.before} = {s.word(1)}`")
        if s.function():
            return nested_function(s, s.token(-1))
        return Message(f"the function `{s.before}` must have a declaration of its own").help("write `;` before it, and its result type again")
    if text == ":" and s.inside("for head"):
        return Message("a `for` over the elements of an array is not supported").help("write `for (int i = 0; i < 8; i++)`, and `a[i]` for the element")
    if text == ":":
        return Message("bit-fields are not supported").help("keep the low bits of a value with `&`, such as `x & 7`")
    if text == "{" and (s.before == "]" or s.function()):
        return Message("expected `=` before the initialiser", s.place_behind()).help("write `= {..}`" if s.before == "]" else f"write `{s.before} = ..`")
    if text == "{":
        message = Message(f"expected `(` after `{s.before}`: the list of parameters is missing", s.place_behind())
        return message.help(f"write `{s.before}(void)` for a function without parameters")
    return None


def nested_function(s, name):
    function = s.function()
    message = Message(f"the function `{name.text}` is declared inside `{function.name}`, which is not supported", name.place())
    message.note(f"the body of `{function.name}` begins here", function.at.place())
    odd = braces(s.tokens[: s.stop.index])[1]
    if odd:
        message.note("this `{` may lack its `}`", odd[0].place())
    return message.help(f"write the `}}` of `{function.name}` before it, or move `{name.text}` out of `{function.name}`")


def void(s):
    role = s.stop.role
    if role == "open parameters" and s.word(-2) == "void":
        return Message("a variable cannot have the type `void`", s.token(-2).place()).help("write a type that has values, such as `int`")
    if s.text != "void":
        return None
    if s.before == "(" and s.word(1) == ")" and role == "operand":
        message = Message("a cast to `void` is not supported")
        if s.is_name(2) and s.word(3) == ";":
            return message.help(f"remove the statement; an unused variable needs no mark")
        return message.help("remove the cast; a statement may ignore the result of a call")
    if s.inside("parameters"):
        return Message("`void` can only be the whole parameter list").help("remove it, or write a type that has values")
    if s.word(1) == "*" or s.word(2) == "*":
        return Message("pointers are not supported").help("use an array and an index")
    if s.is_name(1) and s.word(2) == "(" and s.function():
        return nested_function(s, s.token(1))
    return Message("a variable cannot have the type `void`").help("write a type that has values, such as `int`")


# ---- initialisers


def initialisers(s):
    role, text, before = s.stop.role, s.text, s.before
    if role == "initialiser" and text == "}" and before == "{":
        message = Message("an initialiser in braces needs at least one value")
        return message.help("write `{0}`, which sets all elements to 0" if s.depth_of_lists() < 2 else "write `{0}` for a row of zeros")
    if role == "initialiser" and text == "[":
        return designated(s)
    if role == "initialiser" and text == ",":
        return Message(f"expected a value after `{before}`").help("write a value before the comma, such as 0")
    if text == "{" and before == ")" and s.is_kind(-2) or role == "cast end" and text == "[":
        return Message("compound literals are not supported").help("declare an array with the values, and use its name")
    if text == "{" and role == "operand" and (before in ASSIGNMENTS or before in ("(", ",", "return")):
        message = Message("a list in braces can only initialise an array in its declaration")
        if before == "return":
            return message.help("write the values into an array parameter, and declare the function `void`")
        return message.help("assign the elements one by one, such as `a[0] = 1;`" if before in ASSIGNMENTS else "declare an array with the values, and pass its name")
    return None


# ---- keywords outside the language (rule 20)

KEYWORD_HELP = {
    "auto": ("`auto` is not supported", "remove the word, and write the type, such as `int`"),
    "register": ("`register` is not supported", "remove the word"),
    "restrict": ("`restrict` is not supported", "remove the word"),
    "volatile": ("`volatile` is not supported", "remove the word; nothing else accesses a variable during a run"),
    "float": ("floating point is not supported", "use integers as fixed-point numbers: with 8 bits after the point, an `int` 384 is 1.5"),
    "double": ("floating point is not supported", "use integers as fixed-point numbers: with 16 bits after the point, a `long` 98304 is 1.5"),
    "_Complex": ("complex numbers are not supported", "use two integers"),
    "_Imaginary": ("complex numbers are not supported", "use two integers"),
    "struct": ("structs are not supported", "write a variable for each member; for an array of structs, write an array for each member"),
    "union": ("unions are not supported", "write shifts and masks, such as `(x >> 8) & 255`"),
    "goto": ("`goto` is not supported", "write a loop, `break`, `continue` or `return`"),
    "_Static_assert": ("`_Static_assert` is not supported", "remove the line"),
    "_Alignas": ("`_Alignas` is not supported", "remove it; each array is a memory of its own"),
    "_Alignof": ("`_Alignof` is not supported", "write the number"),
    "_Atomic": ("`_Atomic` is not supported", "remove the word; nothing else accesses a variable during a run"),
    "_Noreturn": ("`_Noreturn` is not supported", "remove the word"),
    "_Generic": ("`_Generic` is not supported", "write the expression for the type that is used"),
    "_Thread_local": ("`_Thread_local` is not supported", "remove the word"),
}


def keyword(s):
    word = s.text
    if word not in UNSUPPORTED:
        return None
    if word in KEYWORD_HELP:
        title, text = KEYWORD_HELP[word]
        return Message(title).help(text)
    message = Message(f"`{word}` is not supported")
    if word == "enum":
        return message.help(enum_help(s.tokens_up_to(1, ";")))
    if word == "typedef":
        return message.help(typedef_help(s.tokens_up_to(1, ";")))
    if word == "sizeof":
        return message.help(sizeof_help(s, s.tokens_up_to(1, ";")))
    message.title += ": the whole program is in one file"
    if s.function():
        return message.help("remove the line, and define the variable at file scope, above the function")
    return message.help("remove the word, and define the variable or function in this file")


def is_type(token):
    return token.kind == "type" or token.text in TYPE_WORDS


def typedef_help(rest):
    if len(rest) > 1 and rest[-1].is_name() and all(map(is_type, rest[:-1])):
        return f"write `#define {rest[-1].text} {written(rest[:-1])}` on a line of its own"
    if any(t.text in ("struct", "union") for t in rest):
        return "structs and unions are not supported either: write a variable or an array for each member"
    if rest and rest[0].text == "enum":
        return enum_help(rest)
    return "write a macro for an integer type: `#define word unsigned` on a line of its own"


def enum_help(rest):
    """A macro for each value of an `enum`."""
    names, value = [], 0
    begin = next((k for k, t in enumerate(rest) if t.text == "{"), len(rest))
    for k in range(begin + 1, len(rest)):
        if rest[k].is_name() and rest[k - 1].text in ("{", ","):
            if k + 2 < len(rest) and rest[k + 1].text == "=" and rest[k + 2].kind == "number":
                value = tree.number_of(rest[k + 2].text)[0]
            names.append(f"#define {rest[k].text} {value}")
            value += 1
    if not names:
        return "write `int` for the type, and a macro for each value: `#define NAME 0`"
    return "write `int` for the type, and a macro for each value:\n" + "\n".join(names[:6] + ([".."] if len(names) > 6 else []))


def sizeof_help(s, rest):
    close = next((k for k, t in enumerate(rest) if t.text == ")"), 0)
    inner = rest[1:close]
    if inner and all(map(is_type, inner)):
        exact = EXACT_TYPES.get(inner[0].text)
        kind = tree.Kind(*exact) if exact else tree.kind_of_words([t.text for t in inner])
        if kind:
            return f"write the number of bytes: {max(8, kind.bits) // 8}"
    name = next((t.text for t in rest[:3] if t.is_name() and s.is_array(t.text)), None)
    shape = shape_of(s.stop.declared[name]) if name else [None]
    if None not in shape:
        size = max(8, s.stop.declared[name].kind.bits) // 8
        return f"write a number: `{name}` has {plural(math.prod(shape), 'element')} of {plural(size, 'byte')}"
    return "write the number of bytes"
