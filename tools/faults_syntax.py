"""What is wrong where the grammar stops: rules 6, 20, 23 and 32. Used by tools/explain.py.

The parser says which token it stops at, what it expects there, and which constructs are open. Each function here knows some mistakes, and
gives a message or None; the first message counts.
"""
import c_tree as tree
from c_words import ASSIGNMENTS, KEYWORDS
from faults_types import declarations, initialisers, keyword, missing_result, pointer_declaration, pointers, types
from message import Message, nearest
from place_of_stop import Syntax, braces

DIGRAPHS = {"<:": "[", ":>": "]", "<%": "{", "%>": "}", "%:": "#"}
WORD_OPERATORS = {"and": "&&", "or": "||", "not": "!", "bitand": "&", "bitor": "|", "xor": "^", "compl": "~", "not_eq": "!=", "mod": "%", "div": "/"}
BROKEN_OPERATORS = {
    "=>": ">=", "=<": "<=", "<>": "!=", "=!": "!=", "=*": "*=", "=/": "/=", "=%": "%=", "=&": "&=", "=|": "|=", "=^": "^=", ":=": "=", "===": "==", "!==": "!=", ">>>": ">>",
}
STATEMENT_WORDS = frozenset("if else switch case default while do for break continue return".split())
COMPARISONS = frozenset("< > <= >= == !=".split())


# ---- the end of the source


def end_of_source(s):
    if s.at:
        return None
    place = s.place_behind() or s.source.end()
    opened, odd = braces(s.tokens)
    if s.stop.role != "body end":
        message = Message(f"expected {wanted(s)}, found the end of the source", place)
        if opened:
            message.note("this `{` is not closed either", opened[-1].place())
        return message.help("complete the source, or remove what is begun")
    function = s.function()
    what = f"the body of `{function.name}`" if opened and opened[-1] is function.at else "a block"
    message = Message(f"expected `}}`: {what} is not closed", place).note("the unclosed `{` is here", opened[-1].place() if opened else None)
    if odd and len(opened) == 1:
        message.note("this `{` may be the one that lacks its `}`", odd[0].place())
        message.note("because it is closed by this `}`, which has another indentation", odd[1].place())
    return message.help("write `}` at the end of the block")


def wanted(s):
    """What is expected, quoted if it is a token."""
    text = {"; or (": "`;` or `(`"}.get(s.stop.wanted, s.stop.wanted)
    return f"`{text}`" if not text[:1].isalpha() and "`" not in text or text in KEYWORDS else text


# ---- signs that are not operators, and macros


def digraph(s):
    for first, second in ((s.token(-1), s.at), (s.at, s.token(1))):
        if first and second and first.touches(second) and first.text + second.text in DIGRAPHS:
            pair = first.text + second.text
            return Message(f"the digraph `{pair}` is not supported", first.place()).help(f"write `{DIGRAPHS[pair]}`")
    return None


def comment_end(s):
    """A `*/` outside of comments: at the place, or behind what a comment inside a comment has left."""
    end = next((k for k in range(40) if s.word(k) == "*" and s.word(k + 1) == "/" and s.token(k).touches(s.token(k + 1))), None)
    if end is None:
        return None
    before = s.source.text[: s.at.start].rstrip()
    begin = before.rfind("/*", 0, before.rfind("/*")) if before.endswith("*/") else -1
    if end and (begin < 0 or "*/" in before[begin : len(before) - 2]):
        return None
    message = Message("this `*/` closes no comment", s.token(end).place())
    if begin >= 0:
        line = before.count("\n", 0, begin) + 1
        message.note("the comment that begins here ends at its first `*/`", (line, begin - before.rfind("\n", 0, begin), 0))
    return message.help("remove the inner `/*` and `*/`: comments do not nest")


def broken_operator(s):
    """Signs that are an operator in another language or another order, or that are apart."""
    for first, last in ((-1, 1), (-1, 0), (-2, 0), (0, 1)):
        signs = [s.token(k) for k in range(first, last + 1)]
        if all(signs) and all(a.touches(b) for a, b in zip(signs, signs[1:])):
            text = "".join(t.text for t in signs)
            if text in BROKEN_OPERATORS:
                return Message(f"`{text}` is not an operator", signs[0].place()).help(f"write `{BROKEN_OPERATORS[text]}`")
    apart = s.before + "="
    if s.text == "=" and s.token(-1) and not s.token(-1).touches(s.at) and (apart in ASSIGNMENTS or apart in COMPARISONS) and s.before != "":
        return Message(f"`{s.before}` and `=` are apart, so they are two operators", s.token(-1).place()).help(f"write `{apart}` without a space")
    return None


def macro_body(s):
    """A `;` or `=` that a macro puts where none can be."""
    if not s.at or not s.at.part or s.text not in (";", "="):
        return None
    macro = s.source.macros.get(s.at.macro) or next((m for m in s.source.all_macros if m.name.text == s.at.macro), None)
    if macro is None or s.at.origin not in (macro.body[0], macro.body[-1]):
        return None
    return Message(f"the macro `{s.at.macro}` stands for tokens with a `{s.text}`").help(f"remove the `{s.text}` from the `#define`")


# ---- misplaced assignments (rule 23)


def assignment(s):
    if s.text not in ASSIGNMENTS and s.text not in ("++", "--"):
        return None
    role, sign = s.stop.role, s.text
    if role == "parameters end":
        return Message("a parameter cannot have a default value").help("remove the value, and pass it in each call")
    if role in ("object end", "after declarator") and s.ends_operand(-1) and sign != "=" and sign in ASSIGNMENTS and not assigns_inside(s):
        return Message(f"a declaration initialises with `=`, not with `{sign}`").help("write `=`")
    if role in ("declarator", "object"):
        return None
    return increment(s) if sign in ("++", "--") else wrong_target(s)


def assigns_inside(s):
    """Whether the declaration has its `=` already."""
    first = s.stop.about
    k = -1
    while s.token(k) and s.token(k) is not first and s.word(k) not in (",", ";"):
        if s.word(k) == "=":
            return True
        k -= 1
    return False


def increment(s):
    sign = s.text
    message = Message(f"`{sign}` needs a variable or an array element beside it")
    if s.before in ("++", "--"):
        message.title = f"`{s.before}` and `{sign}` cannot change the same variable at once"
        return message.help("write a statement for each change")
    if s.before == ")" and not follows_call(s) and s.is_name(-2) and s.word(-3) == "(":
        return Message(f"`{sign}` cannot follow a parenthesis").help(f"remove the parentheses: `{s.word(-2)}{sign}`")
    if s.before == ")" and follows_call(s):
        return Message(f"the result of a call cannot be changed by `{sign}`").help("assign the result to a variable first")
    return message.help(f"write it beside a variable, such as `i{sign}`")


def wrong_target(s):
    sign, before = s.text, s.before
    message = Message(f"the left side of `{sign}` must be a variable or an array element")
    if not s.ends_operand(-1) and before not in ("++", "--"):
        if s.stop.role in ("operand", "initialiser"):
            return Message(f"expected a value after `{before}`, found `{sign}`").help(f"remove the `{sign}`, or write what is missing before it")
        return Message(f"expected a variable before `{sign}`").help("write a variable or an array element")
    if before == ")" and follows_call(s):
        return Message(f"the result of a call cannot be assigned by `{sign}`").help("return the value from the function, or pass an array that it writes to")
    if before == ")" and s.is_name(-2) and s.word(-3) == "(":
        return message_of_parentheses(s)
    action = s.inside("action")
    if before in ("++", "--") or action and action.at.text in ("++", "--"):
        return Message(f"`{sign}` cannot assign to a variable that the same expression changes").help("write a statement for each change")
    last = s.token(-1)
    if last.part and last.kind == "number":
        name = s.source.raw_at(last.place()).text
        return Message(f"`{name}` is a macro for `{before}` here, so it cannot be changed", last.place()).help("choose another name for the variable or for the macro")
    if sign == "=" and (last.kind == "number" or s.inside("test")):
        message.help("write `==` to compare")
    if not s.inside("test") and (last.kind != "number" or sign != "="):
        message.help("write the variable alone on the left side")
    return message.help(f"to assign inside an expression, write parentheses: `a + (b {sign} c)`") if s.is_name(-1) or before == "]" else message


def message_of_parentheses(s):
    return Message(f"the left side of `{s.text}` cannot be in parentheses").help(f"remove the parentheses: `{s.word(-2)} {s.text} ..`")


def follows_call(s):
    """Whether the parenthesis before the place closes the arguments of a call."""
    depth, k = 0, -1
    while s.token(k):
        depth += {")": 1, "(": -1}.get(s.word(k), 0)
        if depth == 0:
            return s.is_name(k - 1)
        k -= 1
    return False


# ---- statements


def statements(s):
    return labels(s) or inner_statements(s) or heads(s) or other_statements(s)


def labels(s):
    role, about = s.stop.role, s.stop.about
    if s.text == ":" and role == "action end" and s.is_name(-1) and s.token(-1) is s.inside("action").at:
        return label(s)
    if s.text == ":" and role == "action end" and s.inside("switch block") and s.token(-1).kind == "number" and s.token(-1) is s.inside("action").at:
        return Message(f"expected `case` before `{s.before}`", s.token(-1).place()).help(f"write `case {s.before}:`")
    if role == "label colon" and s.text == "...":
        return Message("a range of values in a `case` is not supported").help("write a label for each value: `case 1: case 2: case 3:`")
    if role == "label colon" and s.text == ",":
        return Message("a `case` has one value").help("write a label for each value: `case 1: case 2:`")
    if role == "label colon":
        word = about.text
        return Message(f"expected `:` after " + ("`default`" if word == "default" else "the value of the `case`"), s.place_behind()).help("write `:`")
    return None


def label(s):
    name, switch, place = s.before, s.inside("switch block"), s.token(-1).place()
    if switch and nearest(name, ["default"]):
        return Message(f"`{name}` is not a label of a `switch`", place).help("did you mean `default`?")
    message = Message("labels for `goto` are not supported", place)
    if switch:
        return message.help("write `case` and a number for a label of the `switch`, or remove the label")
    return message.help("remove the label, and write a loop, `break`, `continue` or `return` in place of each `goto`")


def inner_statements(s):
    if s.stop.role != "inner statement":
        return None
    word, place = s.stop.about.text, s.stop.about.place()
    is_label = word in ("case", "default")
    if s.is_kind(0) or s.text == "static":
        if is_label:
            message = Message("a declaration cannot follow a label").note("the label is here", place)
            return message.help("write the statements of the label in braces: `{ int x = 0; .. break; }`", "or declare the variable before the `switch`")
        what = "the branch of an" if word == "if" else "the branch of" if word == "else" else "the body of a"
        message = Message(f"a declaration cannot be {what} `{word}`").note(f"the `{word}` is here", place)
        return message.help("write it in braces, or declare the variable before")
    if s.text == "}":
        what = "label" if is_label else f"`{word}`"
        message = Message("expected a statement after " + ("the label" if is_label else what)).note(f"the {what} is here", place)
        return message.help("write `break;` or `;`" if is_label else "write a statement, or `;` for none")
    if s.text == "else" and word in ("if", "else"):
        return Message(f"expected a statement between `{word}` and `else`").help("write a statement, or `;` for none")
    return None


def heads(s):
    """The parentheses of `if`, `while`, `switch` and `for`."""
    role, text, about = s.stop.role, s.text, s.stop.about
    if role == "open test":
        what = "head" if about.text == "for" else "condition"
        return Message(f"expected `(` after `{about.text}`", s.place_behind()).help(f"write parentheses around the {what}: `{about.text} (..)`")
    if role == "switch block":
        return Message("expected `{` after the head of the `switch`", s.place_behind()).help("write the labels and statements of the `switch` in braces")
    if s.is_kind(0) and s.before != "(" or s.is_kind(0) and s.inside("test", "for head") and s.inside("test", "for head").at is s.token(-1):
        head = s.inside("test", "for head")
        if head and head.sort == "test" and role == "operand":
            return Message(f"a declaration cannot be the condition of a `{head.name}`").help(f"declare the variable before the `{head.name}`")
        if head and head.sort == "for head" and role in ("operand", "for first", "for test end", "for head end"):
            return Message("only the first part of a `for` head can declare variables").help("declare the variable before the loop")
    if s.innermost() == "for head" and role in ("for first end", "for test end", "object end"):
        if text == ")":
            return Message("expected `;`: the head of a `for` has three parts").help("write `for (first; condition; step)`; each part can be empty")
        if text in COMPARISONS or text == ",":
            return Message("the parts of a `for` head are separated by `;`, not by commas").help("write `for (first; condition; step)`")
    if role == "for head end" and text == ";":
        return Message("expected `)`: the head of a `for` has three parts").help("remove the last `;`: `for (first; condition; step)`")
    return None


def other_statements(s):
    role, text, about = s.stop.role, s.text, s.stop.about
    if text == "else" and role == "statement":
        message = Message("`else` without an `if`")
        if s.before == ";" and s.word(-2) == "}":
            return message.note("this `;` ends the `if`", s.token(-1).place()).help("remove the `;`")
        return message.help("write braces around the statements between `if` and `else`")
    if role == "do end":
        message = Message("expected `while` after the body of the `do` loop", s.place_behind()).note("the loop begins here", about.place())
        return message.help("write `while (condition);`, and braces around a body of several statements")
    if role == "definition":
        if s.is_kind(0):
            return Message("the type of a parameter must be inside the parentheses").help("write `int f(int a, int b)`")
        message = Message(f"expected `{{` or `;` after the parameters of `{about.text}`", s.place_behind())
        return message.help("write the body in braces, or `;` for a declaration without a body")
    if role == "choice colon":
        return Message("expected `:` and the third operand of `?:`", s.place_behind()).note("the `?` is here", about.place()).help("write `a ? b : c`")
    if role == "operand" and s.before == "?" and text == ":":
        return Message("expected an operand between `?` and `:`").help("write all three operands: `a ? a : b`")
    if text == "..." and role in ("parameter", "parameters end"):
        return Message("a variable number of parameters is not supported").help("pass an array and the number of its elements")
    if role == "action end" and text == "{" and s.before == ")" and s.innermost() == "action" and len(s.stop.opened) > 1 and s.stop.opened[-2].sort == "else":
        return Message("`else` has no condition", s.stop.opened[-2].at.place()).help("write `else if (..)`")
    if role == "action end" and s.before == "then":
        return Message("`then` is not a C keyword", s.token(-1).place()).help("remove it")
    if role == "action end" and text == "{" and s.before == ")" and follows_call(s):
        return no_statement(s, s.inside("action").at)
    return None


def no_statement(s, at):
    """A name, an expression in parentheses and a block: a statement of another language, or a keyword that is misspelt."""
    near = {"elif": "else if", "elseif": "else if", "elsif": "else if", "foreach": "for"}.get(at.text) or nearest(at.text, ["if", "for", "while", "switch"])
    if at.text in s.stop.declared or not at.is_name():
        return None
    return Message(f"`{at.text}` is not a C keyword", at.place()).help(f"write `{near}`" if near else "write `if`, `for`, `while` or `switch`")


# ---- file scope


def file_scope(s):
    role, text = s.stop.role, s.text
    if role == "item" and text == "}":
        message = Message("this `}` closes nothing")
        return with_odd_brace(s, message).help("remove a `}`, or write the `{` that is missing")
    if role == "item" and text == ";":
        return Message("this `;` ends nothing").help("remove it" + ("; no `;` follows the body of a function" if s.before == "}" else ""))
    if missing_result(s) and (any(s.word(k) == "{" for k in range(2, 60)) or s.before in ("static", "inline")):
        return Message(f"the function `{text}` has no result type").help(f"write `int {text}(..)`, or `void {text}(..)` if it returns nothing")
    if role == "item" and (text in STATEMENT_WORDS or text in ("{", "++", "--", "(") or missing_result(s)):
        return outside(s)
    if role == "item" and s.is_name(0) and s.word(1) in ASSIGNMENTS | {"++", "--", "["}:
        if text not in s.stop.declared and (not s.before or s.before == ";"):
            return Message(f"the declaration of `{text}` has no type").help(f"write its type: `int {text}`")
        return outside(s)
    return parameters(s)


def outside(s):
    return with_odd_brace(s, Message("a statement must be inside a function")).help("move it into the body of a function")


def with_odd_brace(s, message):
    if s.before == "}":
        message.note("the function above ends here", s.token(-1).place())
        odd = braces(s.tokens[: s.stop.index])[1]
        if odd:
            message.note("this `}` may be one too many: its indentation is not that of its `{`", odd[1].place())
    return message


def parameters(s):
    role, text = s.stop.role, s.text
    if role == "parameters end" and text == ";":
        return Message("parameters are separated by `,`, not by `;`").help("write `,`")
    if role == "parameter" and text == ")":
        return Message("expected a parameter after `,`").help("remove the comma, or write the parameter")
    if role == "parameters end" and s.before == "]" and s.is_name(0):
        return Message("the length of an array comes after its name").help(f"write `int {text}[8]`")
    if role == "parameters end" and s.before not in ("(", ",") and (s.is_kind(0) or s.is_name(0)) and not (s.is_kind(0) and s.is_kind(-1)):
        return Message(f"expected `,` or `)` after `{s.before}`", s.place_behind()).help("write `,` between two parameters")
    return None


# ---- expressions


def operands(s):
    role, text, before = s.stop.role, s.text, s.before
    if role == "target":
        message = Message(f"`{before}` needs a variable or an array element after it")
        if text == "(" and s.is_name(1) and s.word(2) == ")":
            return message.help(f"remove the parentheses: `{before}{s.word(1)}`")
        return message.help(f"write it beside a variable, such as `{before}i`")
    if text == "[" and (before == ")" or before in ("++", "--")):
        return Message("a subscript must follow the name of an array").help("write the subscript directly after the name, such as `a[i]`")
    if text == "(" and s.ends_operand(-1) and role not in ("object end", "after declarator"):
        message = Message(f"expected an operator between `{before}` and `(`", s.place_behind())
        return message.help("write an operator such as `*`; only the name of a function can be called")
    if text == ":" and role == "subscript end":
        return Message("a range of bits or elements cannot be selected").help("write a shift and a mask for bits: `(x >> 4) & 15` for the bits 7 to 4")
    if role in ("operand", "initialiser"):
        return missing_operand(s)
    return None


def missing_operand(s):
    before, text = s.before, s.text
    if before == "return" and (text == "}" or s.line_starts()):
        return Message("expected `;` or a value after `return`", s.place_behind()).help("write `;`, or the value and `;`")
    if before == "(" and text == ")":
        test = s.inside("test")
        if test and test.at is s.token(-1):
            return Message(f"the condition of the `{test.name}` is missing").help("write it between the parentheses")
        return Message("expected an expression between the parentheses").help("write one, or remove the parentheses")
    if before == "[" and text == "]":
        return Message("expected a subscript between the brackets").help("write one, such as `a[0]`")
    if before == "," and text == ")":
        return Message("expected an argument after `,`").help("remove the comma, or write the argument")
    if s.at.is_word() and text in KEYWORDS:
        return Message(f"expected a value after `{before}`, found the keyword `{text}`").help("write an expression, or `;` before the keyword")
    if text == ";" or text in (")", "]", "}", ","):
        return Message(f"expected a value after `{before}`", s.place_behind()).help(f"write a value before `{text}`, or remove `{before}`")
    return Message(f"expected a value after `{before}`, found {s.found()}").help(f"write a value between `{before}` and `{text}`, or remove one of the two")


# ---- separators


def separators(s):
    """A semicolon, parenthesis, bracket or brace that is missing."""
    expected, role = s.stop.wanted, s.stop.role
    if expected in (";", "; or ("):
        return semicolon(s)
    if expected in (")", "]") or expected == "}" and role == "initialiser end":
        return closing(s)
    return None


def word_operator(s):
    for ahead in (0, -1):
        word = s.word(ahead)
        if s.is_name(ahead) and word in WORD_OPERATORS and s.ends_operand(-1) and not s.line_starts():
            return Message(f"`{word}` is not an operator", s.token(ahead).place()).help(f"write `{WORD_OPERATORS[word]}`")
    return None


def semicolon(s):
    last, text = s.token(-1), s.text
    if text in (")", "]"):
        return Message(f"this `{text}` closes nothing").help("remove it, or write its partner before")
    message = word_operator(s)
    if message:
        return message
    if s.stop.role == "jump end" and not s.line_starts() and text != "}":
        message = Message(f"expected `;` after `{last.text}`", s.place_behind())
        return message.help("write `break;`, which leaves the innermost loop or `switch`" if last.text == "break" else "write `continue;`")
    begins = s.is_kind(0) or text in STATEMENT_WORDS or text in ("}", "{") or s.line_starts()
    if begins or s.is_name(0) and s.word(1) in ASSIGNMENTS | {"++", "--"}:
        message = Message(f"expected `;` after `{last.text}`", s.place_behind())
        if s.at.line != last.line:
            message.note(f"found {s.found()} here", s.at.place())
        return message.help("write `;` at the end of the " + ("declaration" if s.stop.role in ("object end", "after declarator") else "statement"))
    if s.stop.role in ("object end", "after declarator") and s.is_name(-1) and s.is_name(0):
        return Message(f"expected `,`, `=` or `;` after `{last.text}`", s.place_behind()).help("write `,` between two names")
    if s.ends_operand(-1) and (s.is_name(0) or s.at.kind == "number"):
        return Message(f"expected an operator or `;` between `{last.text}` and `{text}`", s.place_behind()).help("write an operator such as `+`, or `;`")
    if text in ("~", "!"):
        return Message(f"`{text}` has only one operand, which follows it").help("write an operator with two operands, such as `^` or `!=`")
    return Message(f"expected `;` or an operator after `{last.text}`, found {s.found()}").help(f"write `;` after `{last.text}`, or remove {s.found()}")


def closing(s):
    expected, role, about, place = s.stop.wanted, s.stop.role, s.stop.about, s.place_behind()
    message = word_operator(s)
    if message:
        return message
    if s.ends_operand(-1) and (s.is_name(0) or s.at.kind == "number") and not s.line_starts():
        sign = "`,` or an operator" if role in ("arguments end", "initialiser end") else "an operator"
        return Message(f"expected {sign} between `{s.before}` and `{s.text}`", place).help("write `,` between two values" if sign[0] == "`" else "write an operator such as `+`")
    message = Message(f"expected `{expected}` after `{s.before}`", place).note(f"the `{about.text}` that it closes is here", about.place())
    if s.at and s.at.line != s.token(-1).line:
        message.note(f"found {s.found()} here", s.at.place())
    return message.help(f"write `{expected}`")


def anything(s):
    """What is left: what is expected, and what is found."""
    role = s.stop.role
    if role in ("statement", "inner statement", "for first"):
        if s.text in (")", "]"):
            return Message(f"this `{s.text}` closes nothing").help("remove it, or write its partner before")
        return Message(f"a statement cannot begin with {s.found()}").help("remove it, or write what is missing before it")
    if role == "item":
        return Message(f"a declaration cannot begin with {s.found()}").help("write a type first, such as `int`")
    return Message(f"expected {wanted(s)}, found {s.found()}").help(f"write {wanted(s)} before {s.found()}, or remove {s.found()}")


MAKERS = (
    end_of_source, macro_body, comment_end, keyword, digraph, broken_operator, pointer_declaration, assignment, pointers, types, declarations, initialisers, statements, file_scope,
    operands, separators, anything,
)


def syntax_message(source, stop):
    s = Syntax(source, stop)
    return next(message for message in (maker(s) for maker in MAKERS) if message)


# ---- nesting (rule 32)


def nesting_message(source, place):
    _, stop = tree.parse(source.tokens, source.index_at(place))
    if stop is None:
        return None
    if stop.operators >= 256:
        message = Message("the expression has more than 256 binary operators")
        return message.help("assign a part of it to a variable, or write a loop over an array of the operands")
    sorts = [one.sort for one in stop.opened]
    message = Message("the source is nested more than 64 levels deep here")
    outer = next((one for one in stop.opened if one.sort != "body"), None)
    if outer:
        message.note("the outermost level begins here", outer.at.place())
    if sorts.count("else") > 30:
        message.note("each `else if` is one level deeper than the one before")
        return message.help("write a `switch` or a table, or end each branch with `return` and leave out the `else`")
    if sorts.count("case") + sorts.count("default") > 30:
        message.note("each label directly after another one is one level deeper")
        return message.help("write `;` after some of the labels: `case 1: ; case 2:` falls through too")
    if sorts.count("parentheses") > 30:
        return message.help("remove parentheses, or assign parts of the expression to variables")
    return message.help("assign parts of the expression to variables, or move inner statements into a function")
