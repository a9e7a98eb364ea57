"""What is undefined in a run of the C program, and what to write instead. Used by tools/explain.py for status 9."""
import c_tree as tree
from c_check import Checker
from faults_names import element
from message import Message


def undefined_message(source, what, place):
    """The message for this behaviour at this place, or None."""
    items, stop = tree.parse(source.tokens)
    if stop:
        return None
    checker = Checker(source, items, "")
    token = source.token_at(place)
    maker = MAKERS.get(what)
    return maker(checker, token, checker.operations.get(place)) if maker and token else None


def name_of(kind):
    return f"`{kind.text()}`" if kind else "its type"


def unsigned_of(kind):
    return "unsigned long" if kind and kind.bits == 64 else "unsigned"


def overflow(checker, token, operation):
    kind = operation.kind if operation else None
    wider = "long" if kind and kind.bits < 64 else None
    message = Message(f"signed overflow: the result of `{token.text}` is outside {name_of(kind)}, which is undefined in C")
    message.help(f"compute with `{unsigned_of(kind)}` values if the result may wrap around")
    if wider:
        message.help(f"convert an operand to a wider type: `(long)x {token.text[0]} y`" if operation and operation.is_binary else "use a variable of type `long`")
    else:
        message.help("test the operands before")
    return message


def divide(checker, token, operation):
    return Message(f"the divisor of `{token.text}` is 0, which is undefined in C").help("test the divisor before, for example `y != 0 ? x / y : 0`")


def quotient(checker, token, operation):
    kind = operation.kind if operation else None
    return Message(f"the least value of {name_of(kind)} is divided by -1, which is undefined in C: the quotient is outside the type").help(
        "divide by `-1` only after a test, or convert the operands to a wider type"
    )


def shift_count(checker, token, operation):
    kind = operation.kind if operation else None
    width = kind.bits if kind else 32
    message = Message(f"the count of `{token.text}` is not from 0 to {width - 1}, which is undefined in C for a left operand of {width} bits")
    return message.help(f"keep the count in range, for example `x {token.text[:2]} (n & {width - 1})`")


def shift_left(checker, token, operation):
    kind = operation.kind if operation else None
    message = Message(f"`{token.text}` shifts a negative number, or its result is outside {name_of(kind)}, which is undefined in C")
    one, most = ("1L", 62) if kind and kind.bits == 64 else ("1", 30)
    message.help(f"to multiply by a power of two, write `x * ({one} << n)` with n up to {most}, which is also defined for negative x")
    return message.help(f"to shift bits out of the value, convert it first: `({unsigned_of(kind)})x << n`")


def index(checker, token, operation):
    one = checker.arrays.get(token.place())
    if not one:
        return None
    message = Message(f"a subscript of `{token.text}` is outside its dimension, which is undefined in C")
    message.note(f"`{token.text}` is declared here as `{checker.text_of(one)}`; subscripts begin at 0", one.at.place())
    return message.help("test the subscript before, make the array longer, or end the loop earlier")


def unset(checker, token, operation):
    one = checker.variables.get(token.place())
    message = Message(f"`{token.text}` is read before it has a value, which is undefined in C")
    if not one:
        return message.help("give the variable a value where it is declared")
    message.note(f"`{token.text}` is declared here, without a value", one.at.place())
    return message.help(f"give it a value: `{checker.text_of(one)} = 0;`")


def unset_element(checker, token, operation):
    one = checker.arrays.get(token.place())
    message = Message(f"an element of `{token.text}` is read before it has a value, which is undefined in C")
    if not one:
        return message.help("give the array an initialiser")
    depth = len(one.lengths)
    message.note(f"`{token.text}` is declared here, without values", one.at.place())
    return message.help(f"give it values: `{checker.text_of(one)} = {'{' * depth}0{'}' * depth};`, or assign `{element(one)}` before")


def no_return(checker, token, operation):
    message = Message(f"`{token.text}` ended without `return`, and its result is used, which is undefined in C")
    return message.help("end every path through the function with `return` and a value")


MAKERS = {
    "Overflow": overflow, "DivideByZero": divide, "QuotientRange": quotient, "ShiftCount": shift_count, "ShiftLeft": shift_left,
    "Index": index, "Unset": unset, "UnsetElement": unset_element, "NoReturn": no_return,
}
