"""The messages for names, types and calls: rules 7 to 19, 21, 22, 24 and 33 to 36. The checker in c_check.py finds the faults."""
import dataclasses
import math

import c_tree as tree
from c_library import library_help, type_help
from c_values import NotConstant, Undefined, constant, rounded
from c_weight import heaviest
from c_words import EXACT_TYPES
from message import Message, listed, nearest, plural, quoted

LIMIT = 65_536
HEAVIEST = 8_192


@dataclasses.dataclass
class Declared:
    """A name that is visible: an Object or a Function, its token, and what it is."""

    name: str
    node: object
    sort: str

    def at(self):
        return self.node.at

    def is_object(self):
        return isinstance(self.node, tree.Object)

    def is_array(self):
        return self.is_object() and bool(self.node.lengths)

    def text(self):
        return declaration_text(self.node)


# ---- shapes and texts of declarations


def lengths_of(one):
    """The lengths of an object: numbers, None for one that is left out, or the error of one that has no value."""
    found = []
    for k, length in enumerate(one.lengths):
        if length is None:
            found.append(len(one.init.items) if k == 0 and isinstance(one.init, tree.Braced) else None)
            continue
        try:
            found.append(constant(length)[1])
        except (NotConstant, Undefined) as error:
            found.append(error)
    return found


def usable(length):
    return length if isinstance(length, int) and 0 < length <= LIMIT else None


def shape_of(one):
    return [usable(length) for length in lengths_of(one)]


def brackets(one):
    return "".join(f"[{length}]" if length else "[]" for length in shape_of(one))


def declaration_text(node):
    if isinstance(node, tree.Object):
        return f"{node.type_text} {node.name()}{brackets(node)}".strip()
    words = ", ".join(declaration_text(p) for p in node.parameters) or "void"
    return f"{kind_text(node.kind)} {node.at.text}({words})"


def kind_text(kind):
    return "void" if kind is None else kind.text()


def element(one, index="ijk"):
    """An element of an array, as one would write it."""
    return one.name() + "".join(f"[{index[k] if k < len(index) else index[0] + str(k)}]" for k in range(len(one.lengths)))


def same_shape(p, q):
    return p.kind == q.kind and shape_of(p) == shape_of(q) and None not in shape_of(p) and (not p.lengths or p.is_const == q.is_const)


def braces(one):
    """An initialiser of the right shape."""
    depth = len(one.lengths)
    return "{" * depth + "0" + "}" * depth


def is_are(count):
    return "is" if count == 1 else "are"


def is_word(text):
    return text.isascii() and text.isidentifier()


def call_text(f):
    return f"{f.at.text}({', '.join(p.name() or f'a{k}' for k, p in enumerate(f.parameters))})"


def holds(function, declared):
    return function.first.start <= declared.at().start <= (function.end or function.close).start


def not_included(source, at):
    """A type of <stdint.h> that is used without it, or above it."""
    message = Message(f"`{at.text}` is a type of <stdint.h>, which is not included", at.place())
    if source.included and source.included.start > at.start:
        return message.note("it is included only here", source.included.place()).help("move the `#include` above the first use")
    return message.help("write `#include <stdint.h>` at the top of the file")


class NameMessages:
    """A message for each fault. The checker has the source, the names that are visible, and the function that is read."""

    # ---- messages: names

    def undeclared(self, t, subscripts):
        name = t.at.text
        message = self.elsewhere(name, t.at)
        if message:
            return message
        if name in EXACT_TYPES:
            return not_included(self.source, t.at)
        message = Message(f"`{name}` is not declared")
        helps = library_help(name)
        if helps:
            return message.help(*helps)
        helps = type_help(name)
        if helps:
            message.title = f"unknown type `{name}`"
            return message.help(*helps)
        near = nearest(name, [one.name for one in self.names if one.is_object()] + list(self.source.macros))
        if near:
            found = self.sense(near)
            place = found.at().place() if found else self.source.macros[near].name.place()
            return message.note(f"`{near}` is declared here", place).help(f"did you mean `{near}`?")
        lengths, value = "[8]" * subscripts, "" if subscripts else " = 0"
        return message.help(f"declare it before this use: `int {name}{lengths}{value};`")

    def elsewhere(self, name, at):
        """Where the name is declared at another place of the file: further down, or in a block that has ended."""
        return self.other_macro(name, at) or self.other_scope(name) or self.other_object(name, at)

    def other_macro(self, name, at):
        macro = next((macro for macro in self.source.all_macros if macro.name.text == name and not macro.parameters), None)
        if macro is None:
            return None
        if macro.name.start > at.start:
            message = Message(f"the macro `{name}` is used before its definition")
            return message.note("it is defined here", macro.name.place()).help("move the `#define` above the first use")
        undef = next((d for d in self.source.directives if d.word() == "undef" and len(d.tokens) > 1 and d.tokens[1].text == name), None)
        message = Message(f"the macro `{name}` is used after its `#undef`")
        return message.note("it is undefined here", undef.mark.place() if undef else None).help("move the `#undef` below the last use")

    def other_scope(self, name):
        for one in reversed(self.ended):
            if one.name != name:
                continue
            if self.caller and holds(self.caller, one):
                message = Message(f"`{name}` is not declared in this scope")
                return message.note("it is declared in an inner block or loop, which has ended", one.at().place()).help(f"declare `{name}` before that block or loop")
            owner = next((f for f in self.functions if holds(f, one)), None)
            if owner and not nearest(name, [other.name for other in self.names if other.is_object()]):
                message = Message(f"`{name}` is not declared in this function").note(f"it is declared in `{owner.at.text}`", one.at().place())
                return message.help(f"declare `{name}` in this function, or pass it as a parameter")
        return None

    def other_object(self, name, at):
        for item in self.items:
            for one in item.objects if isinstance(item, tree.Objects) else []:
                if one.name() == name and one.at.start > at.start:
                    message = Message(f"`{name}` is used before its declaration").note("it is declared here", one.at.place())
                    return message.help("move the declaration above the first function that uses it")
        return None

    def undeclared_call(self, t):
        name = t.at.text
        later = next((f for f in self.functions if f.at.text == name), None)
        if later:
            message = Message(f"`{name}` is called before its declaration").note("it is declared here", later.at.place())
            return message.help(f"move `{name}` above its caller, or declare it there: `{self.prototype(later)};`")
        if name in EXACT_TYPES or any(macro.name.text == name for macro in self.source.all_macros):
            return self.undeclared(t, 0)
        message = Message(f"the function `{name}` is not declared")
        helps = library_help(name)
        if helps:
            return message.help(*helps)
        near = nearest(name, self.bodies)
        if near:
            return message.note(f"`{near}` is declared here", self.bodies[near].at.place()).help(f"did you mean `{near}`?")
        return message.help(f"define `{name}` above this function: there is no linker, so the whole program must be in this file")

    def prototype(self, f):
        """The head of a function as it is written."""
        text = self.source.text[f.first.start : f.close.start + 1]
        return " ".join(text.split()) if not any(mark in text for mark in ("#", "/*", "//")) else declaration_text(f)

    def no_body(self, found):
        message = Message(f"`{found.name}` is called, but it has no body in this file").note("it is declared here", found.at().place())
        return message.help(f"define `{found.name}` in this file: there is no linker")

    def declared_twice(self, first, one):
        name = one.name()
        if not first.is_object():
            message = Message(f"`{name}` is declared as a function and as a variable").note("the function is declared here", first.at().place())
            return message.help("rename one of the two")
        message = Message(f"`{name}` is declared twice in the same scope")
        if first.sort == "parameter" and one not in self.caller.parameters:
            return message.note("the parameter is declared here", first.at().place()).help("remove this declaration, or rename the variable")
        return message.note("the first declaration is here", first.at().place()).help("remove one of the two declarations, or rename one")

    def two_bodies(self, first, f):
        return Message(f"the function `{f.at.text}` has two bodies").note("the first body is here", first.at.place()).help("remove one of the two, or rename one")

    def other_declaration(self, known, f):
        name = f.at.text
        if known.is_object():
            message = Message(f"`{name}` is declared as a variable and as a function").note("the variable is declared here", known.at().place())
            return message.help("rename one of the two")
        message = Message(f"the declarations of `{name}` differ in {self.difference(known.node, f)}")
        return message.note("the first declaration is here", known.at().place()).help(f"write the same in both, for example `{declaration_text(f)}`")

    def difference(self, f, g):
        if f.kind != g.kind:
            return f"the type of the result: `{kind_text(f.kind)}` and `{kind_text(g.kind)}`"
        if len(f.parameters) != len(g.parameters):
            return f"the number of parameters: {len(f.parameters)} and {len(g.parameters)}"
        k = next(k for k, (p, q) in enumerate(zip(f.parameters, g.parameters)) if not same_shape(p, q))
        return f"parameter {k + 1}: `{declaration_text(f.parameters[k])}` and `{declaration_text(g.parameters[k])}`"

    # ---- messages: sorts and counts

    def whole_array(self, found, t, how):
        message = Message(f"the array `{found.name}` is used as a value")
        if how == "target":
            message.title = f"the array `{found.name}` cannot be assigned as a whole"
        message.note(f"it is declared here as `{found.text()}`", found.at().place())
        if how == "target":
            return message.help(f"assign its elements, for example in a loop: `{element(found.node)} = ..;`")
        return message.help(f"write an element: `{element(found.node, '0' * 9)}`")

    def scalar_with_subscripts(self, found, t, how):
        message = Message(f"`{found.name}` is not an array, so it has no elements").note(f"it is declared here as `{found.text()}`", found.at().place())
        lengths = "[8]" * len(t.subscripts)
        return message.help(f"write `{found.name}` without a subscript, or declare an array: `{found.node.type_text} {found.name}{lengths}`")

    def function_as_object(self, found, how):
        message = Message(f"the function `{found.name}` is used as a variable").note("it is declared here", found.at().place())
        if how == "target":
            return message.help(f"assign to a variable of another name; `return` gives the result of `{found.name}`")
        return message.help(f"call it: `{call_text(found.node)}`")

    def object_called(self, found, t):
        what = "an array" if found.is_array() else "a variable"
        message = Message(f"`{found.name}` is {what}, so it cannot be called").note(f"it is declared here as `{found.text()}`", found.at().place())
        if found.name in self.bodies:
            return message.note("it hides this function", self.bodies[found.name].at.place()).help("rename the variable")
        if found.is_array() and len(t.arguments) == len(found.node.lengths):
            subscripts = "".join(f"[{a.at.text if isinstance(a, (tree.Name, tree.Number)) else 'i'}]" for a in t.arguments)
            return message.help(f"write a subscript in brackets: `{found.name}{subscripts}`")
        return message.help("write an operator before the parenthesis, or the name of a function")

    def no_value(self, found):
        message = Message(f"`{found.name}` returns no value, so its call cannot be used as one").note("it is declared `void` here", found.at().place())
        return message.help(f"declare `{found.name}` with a result type such as `int`, or write the call as a statement")

    def no_name(self, p, f):
        k = f.parameters.index(p) + 1
        return Message(f"parameter {k} of `{f.at.text}` has no name").help(f"name it: `{p.type_text} a{brackets(p)}`")

    def wrong_subscripts(self, found, t):
        wanted, given = len(found.node.lengths), len(t.subscripts)
        message = Message(f"`{found.name}` has {plural(wanted, 'dimension')}, but {plural(given, 'subscript')} {is_are(given)} given")
        message.note(f"it is declared here as `{found.text()}`", found.at().place())
        comma = next((s for s in t.subscripts if isinstance(s, tree.Comma)), None)
        if comma:
            message.note("a comma in brackets is an operator, so this is one subscript", comma.at.place())
        return message.help(f"write `{element(found.node)}`")

    def wrong_arguments(self, found, t):
        wanted, given = len(found.node.parameters), len(t.arguments)
        message = Message(f"`{found.name}` takes {plural(wanted, 'argument')}, but {given} {is_are(given)} given")
        message.note(f"it is declared here as `{found.text()}`", found.at().place())
        return message.help(f"write `{call_text(found.node)}`")

    def wrong_array(self, found, p, argument, k):
        message = Message(f"argument {k + 1} of `{found.name}` must be an array `{declaration_text(p)}`")
        why, given = self.misfit(p, argument), self.sense(argument.at.text)
        message.note("the parameter is declared here", p.at.place())
        if why == "form":
            base = isinstance(argument, tree.Index) and given and given.is_array()
            what = "a part of an array" if base and len(argument.subscripts) < len(given.node.lengths) else "an element" if base else "an expression"
            message.title += f", but {what} is given"
            return message.help("pass the name of an array; to use a part of it, pass the position as a further argument")
        if given is None:
            return message.help("pass the name of an array")
        message.note(f"`{given.name}` is declared here", given.at().place())
        message.title += f", but `{given.name}` is `{given.text()}`"
        if why == "const":
            message.help(f"declare the parameter const, if `{found.name}` does not change it: `const {declaration_text(p)}`")
            return message.help(f"or remove `const` from `{given.name}`")
        if why == "kind":
            return message.help("declare both with the same element type")
        if why == "lengths":
            return message.help("declare both with the same lengths")
        return message.help(f"pass an array, or declare the parameter as a scalar: `{p.type_text} {p.name()}`")

    def const_changed(self, found, t):
        message = Message(f"`{found.name}` is const, so `{t.at.text}` cannot change it").note("it is declared const here", found.at().place())
        if found.is_array():
            return message.help("remove the `const`")
        return message.help(f"remove the `const`, or change a copy: `{found.node.kind.text()} copy = {found.name};`")

    # ---- messages: lengths and initialisers

    def bad_length(self, one, lengths, sort):
        k = next(k for k, length in enumerate(lengths) if length is None or isinstance(length, int) and usable(length) is None)
        shown = f"`{one.name()}`" if one.name() else "the parameter"
        which = f"dimension {k + 1} of {shown}" if len(lengths) > 1 else f"the array {shown}" if one.name() else "the array parameter"
        if lengths[k] is None:
            message = Message(f"{which} has no length")
            shape = "".join(f"[{length or 8}]" for length in map(usable, lengths))
            if sort == "parameter":
                message.note("an array parameter is a memory of the circuit, so its size must be known")
            elif k > 0:
                message.note("only the first length can be left out, with an initialiser in braces")
            return message.help(f"write the number of elements: `{one.type_text} {one.name()}{shape}`".replace(" [", "["))
        message = Message(f"{which} has length {lengths[k]:,}; the length must be from 1 to 65,536")
        return message.help("write a length of at least 1" if lengths[k] <= 0 else "make the array shorter, and process the data in parts")

    def too_large(self, one, lengths):
        sizes = [2 ** max(1, (length - 1).bit_length()) for length in lengths]
        message = Message(f"`{one.name()}` needs {rounded(lengths):,} elements of memory; the limit is 65,536")
        shown, powers = (" * ".join(f"{n:,}" for n in each) for each in (lengths, sizes))
        message.note(f"each length is rounded up to a power of two: {shown} becomes {powers}")
        if math.prod(lengths) <= LIMIT:
            return message.help(f"make the array smaller, or use one dimension: `{one.type_text} {one.name()}[{math.prod(lengths)}]`, which is rounded up only once")
        return message.help("make the array smaller")

    def no_constant(self, what, error, at):
        if isinstance(error, Undefined):
            message = Message(f"{what} has no value: {error.reason}").note("the operator is here", error.at.place())
            return message.help("write an expression whose value is defined")
        found, message = error.found, Message(f"{what} is not a constant expression")
        if not isinstance(found, (tree.Name, tree.Index)):
            why = f"`{found.at.text}` is called here" if isinstance(found, tree.Call) else f"`{found.at.text}` cannot be in a constant expression"
            return message.note(why, found.at.place()).help("write numbers and operators on them")
        name, declared = found.at.text, self.sense(found.at.text)
        one = declared.node if declared and declared.is_object() else None
        message.note(f"`{name}` is a variable" + (", and a const variable is not a constant either" if one and one.is_const else ""), found.at.place())
        if isinstance(found, tree.Name) and one and one.is_const and isinstance(one.init, tree.Single) and isinstance(one.init.value, tree.Number):
            return message.help(f"write `#define {name} {one.init.value.at.text}` in place of the declaration of `{name}`")
        if what.startswith("the initialiser"):
            return message.help("write a number, or assign the value in a function")
        macro = name.upper() if name.upper() != name else "LENGTH"
        return message.help(f"write a number, or a macro for one: `#define {macro} 8`")

    def wrong_initialiser(self, one, case, at, room, given):
        name, text = one.name(), declaration_text(one)
        if case == "braces" and not one.lengths:
            return Message(f"`{name}` is not an array, so its initialiser has no braces").help(f"write `{text} = 0`")
        if case == "braces":
            message = Message(f"the initialiser of `{name}` has more levels of braces than `{name}` has dimensions")
            return message.note("this brace is one level too deep", at.place()).help(f"write `{text} = {braces(one)}`")
        if case == "no braces" and isinstance(one.init, tree.Single):
            return Message(f"`{name}` is an array, so its initialiser needs braces").help(f"write `{text} = {braces(one)}`")
        if case == "no braces":
            message = Message(f"each row of `{name}` needs braces of its own in the initialiser").note("this value is in the place of a row", at.place())
            return message.help(f"write `{text} = {braces(one)}`")
        what = "value" if given.is_last else "row"
        message = Message(f"`{name}` has room for {plural(room, what)} here, but {given.count:,} are given")
        return message.note(f"this {what} is the first one too many", at.place()).help("remove it, or make the array longer")

    # ---- messages: statements

    def wrong_return(self, s, f):
        name = f.at.text
        if f.kind is None:
            message = Message(f"`{name}` returns no value, but this `return` has one").note(f"`{name}` is declared `void` here", f.at.place())
            return message.help(f"write `return;`, or declare `{name}` with a result type such as `int`")
        message = Message(f"`{name}` returns `{kind_text(f.kind)}`, but this `return` has no value").note(f"`{name}` is declared here", f.at.place())
        return message.help(f"write a value, such as `return 0;`, or declare `{name}` as `void`")

    def misplaced_jump(self, s, around):
        if isinstance(s, tree.Break):
            return Message("`break` is not inside a loop or `switch`").help("write `return` to leave the function, or remove the `break`")
        message = Message("`continue` is not inside a loop")
        if around.switch:
            return message.note("a `switch` is not a loop", around.switch.at.place()).help("write `break;` to leave the `switch`")
        return message.help("remove the `continue`, or move it into a loop")

    def misplaced_label(self, s, around):
        word = s.at.text
        if not around.switch:
            return Message(f"`{word}` is not inside a `switch`").help("move the label into the braces of a `switch`")
        message = Message(f"`{word}` must be directly in the block of its `switch`").note("the `switch` is here", around.switch.at.place())
        if around.holder:
            message.note("the label is inside this statement", around.holder.place())
        return message.help("move the label out of the inner block, branch or loop")

    def label_twice(self, value, first, second):
        message = Message("the `switch` has two `default` labels" if value is None else f"the `switch` has two `case` labels with the value {value}")
        return message.note("the first one is here", first.at.place()).help("remove one of the two" + ("" if value is None else ", or change its value"))

    def no_order(self, one, other):
        name, sign = one.name(), one.operator.text
        what = "changed" if other.operator else "read"
        message = Message(f"`{name}` is changed by `{sign}` and also {what} in the same expression, with no order between the two")
        message.note(f"the other access of `{name}` is here", other.at.place())
        if self.sense(name).is_array():
            message.note("the rule compares names, so all elements of an array count as one object")
        return message.help(f"make the change of `{name}` a statement of its own")

    # ---- messages: limits, recursion, top

    def too_many_parameters(self, f):
        message = Message(f"`{f.at.text}` has {len(f.parameters)} parameters; the limit is 32").note("the function is declared here", f.at.place())
        return message.help("pass an array in place of scalars of one type")

    def too_many_arrays(self, arrays, where):
        included = ", parameters included" if where[0] == "`" else ""
        message = Message(f"{where} has {len(arrays)} arrays{included}; the limit is 32")
        return message.help("join arrays of one type into one with a further dimension")

    def too_many_functions(self, f):
        count = len({one.at.text for one in self.functions})
        return Message(f"the file has {count} functions; the limit is 64").help("remove functions that are not called, or join some")

    def too_much_at_file_scope(self, kept, total):
        message = Message(f"the arrays at file scope need {total:,} elements of memory up to here; the limit is 65,536")
        message.note("const arrays do not count, and each length is rounded up to a power of two")
        for one in sorted(kept, key=lambda one: -rounded(shape_of(one)))[:4]:
            message.note(f"`{one.name()}` needs {plural(rounded(shape_of(one)), 'element')}", one.at.place())
        return message.help("declare tables const, or pass large arrays as parameters of the function")

    def round_trip(self, name, callee, at, path):
        message = Message(f"recursion is not supported: `{name}` calls itself")
        if name != callee:
            names = [step[0] for step in path] + [name]
            message.title += " through " + listed(quoted(names[:-1]))
            for caller, called, place in path:
                message.note(f"`{caller}` calls `{called}` here", place.place())
        return message.help("write a loop; an array with a position as its top can serve as the stack")

    def no_top(self):
        top = self.top
        named = next((f for f in self.functions if f.at.text == top), None)
        message = Message(f"no function named `{top}` has a body, but `--top {top}` asks for one", (0, 0, 0))
        if named:
            message.note(f"`{top}` is declared here, without a body", named.at.place())
        if not self.bodies:
            message.note("no function in this file has a body")
            return message.help(f"define it, for example `int {top}(int a) {{ return a; }}`" if is_word(top) else "define a function")
        names = list(self.bodies)
        message.note("the functions with a body are " + listed(quoted(names[:12])) + (" and others" if len(names) > 12 else ""))
        if named:
            return message.help(f"define `{top}`, or name another function, such as `--top {names[-1]}`")
        return message.help(f"write `--top {nearest(top, names) or names[-1]}`")

    def too_heavy(self):
        """Rule 36, of a program without other faults."""
        rows, total = heaviest(self.functions, self.bodies[self.top], self.items)
        about = f"about {total:,}" if total > HEAVIEST else f"above {HEAVIEST:,}"
        copies = "once each call is replaced by a copy of the called function"
        message = Message(f"the program is too large {copies}: its weight is {about}; the limit is {HEAVIEST:,}")
        message.note("these functions weigh most, as estimated from the source:\n" + "\n".join(rows))
        return message.help("call a large function at one place, inside a loop", "write a loop in place of repeated lines")
