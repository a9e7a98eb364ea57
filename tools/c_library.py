"""What to write in place of the types, functions, constants and headers of C that the language does not have. Used by tools/explain.py."""
from c_words import EXACT_TYPES
from message import nearest

FOREIGN_WORDS = frozenset("class template typename namespace using public private virtual constexpr operator new delete try catch throw".split())
EXTENSIONS = frozenset("__attribute__ __extension__ __inline __inline__ __restrict __restrict__ __volatile__ __asm__ asm __declspec __forceinline".split())
MAXIMA = {"CHAR": 8, "SCHAR": 8, "SHRT": 16, "INT": 32, "LONG": 64, "LLONG": 64, "INT8": 8, "INT16": 16, "INT32": 32, "INT64": 64}


def limits():
    """The constants of <limits.h> and <stdint.h>, as expressions of the language."""
    found = {"CHAR_BIT": "8", "UCHAR_MAX": "255", "USHRT_MAX": "65535", "UINT_MAX": "4294967295u", "ULONG_MAX": "18446744073709551615u"}
    found |= {"ULLONG_MAX": "18446744073709551615u", "SIZE_MAX": "18446744073709551615u", "UINT8_MAX": "255", "UINT16_MAX": "65535"}
    found |= {"UINT32_MAX": "4294967295u", "UINT64_MAX": "18446744073709551615u"}
    for name, bits in MAXIMA.items():
        most = 2 ** (bits - 1) - 1
        found[name + "_MAX"] = str(most)
        found[name + "_MIN"] = f"(-{most} - 1)"
    return found


LIMITS = limits()
CONSTANTS = {"true": "1", "false": "0", "NULL": "0", "nullptr": "0", "EXIT_SUCCESS": "0", "EXIT_FAILURE": "1"}

TYPES = {
    "bool": "_Bool", "size_t": "unsigned long", "ssize_t": "long", "ptrdiff_t": "long", "intptr_t": "long", "uintptr_t": "unsigned long",
    "intmax_t": "long", "uintmax_t": "unsigned long", "uint": "unsigned", "ulong": "unsigned long", "ushort": "unsigned short",
    "uchar": "unsigned char", "byte": "unsigned char", "Byte": "unsigned char", "BYTE": "unsigned char", "WORD": "unsigned short",
    "DWORD": "unsigned", "BOOL": "_Bool", "wchar_t": "int", "time_t": "long", "char8_t": "unsigned char", "boolean": "_Bool",
}
FUNCTIONS = {
    "abs": "write `x < 0 ? -x : x`", "labs": "write `x < 0 ? -x : x`", "llabs": "write `x < 0 ? -x : x`", "fabs": "write `x < 0 ? -x : x`",
    "min": "write `a < b ? a : b`", "max": "write `a > b ? a : b`", "MIN": "write `a < b ? a : b`", "MAX": "write `a > b ? a : b`",
    "memset": "write a loop: `for (int i = 0; i < 8; i++) a[i] = 0;`", "memcpy": "write a loop: `for (int i = 0; i < 8; i++) a[i] = b[i];`",
    "memmove": "write a loop: `for (int i = 0; i < 8; i++) a[i] = b[i];`", "memcmp": "write a loop that compares the elements",
    "strlen": "write a loop, or pass the length as a parameter", "strcmp": "write a loop that compares the elements",
    "strcpy": "write a loop: `for (int i = 0; i < 8; i++) a[i] = b[i];`",
    "malloc": "declare an array with a fixed length: `int a[64];`", "calloc": "declare an array with a fixed length: `int a[64];`",
    "realloc": "declare an array with a fixed length: `int a[64];`", "free": "remove the call: arrays have fixed lengths and stay",
    "printf": "remove the call, and return the value or write it into an array parameter: a circuit has no output stream",
    "puts": "remove the call: a circuit has no output stream", "putchar": "remove the call, or write the value into an array parameter",
    "fprintf": "remove the call: a circuit has no output stream", "getchar": "read the value from a parameter",
    "scanf": "read the value from a parameter", "assert": "remove the call, or return a value that tells of the fault",
    "exit": "write `return`", "abort": "write `return`", "rand": "pass the numbers as an array parameter, or write a generator",
    "srand": "pass the numbers as an array parameter, or write a generator",
    "sqrt": "write it with integers, for example as a loop over the bits of the result",
    "pow": "write a loop of products, or `1 << n` for a power of two",
    "sin": "write a `const` table of values in fixed point", "cos": "write a `const` table of values in fixed point",
    "floor": "there is no floating point, so every value is an integer", "ceil": "there is no floating point, so every value is an integer",
    "round": "there is no floating point, so every value is an integer", "offsetof": "structs are not supported",
    "_Bool": "a cast needs parentheses around its type: `(_Bool)x`",
    "__builtin_popcount": "write a loop over the bits", "__builtin_clz": "write a loop over the bits", "__builtin_ctz": "write a loop over the bits",
    "__builtin_expect": "write the condition alone", "swap": "write `int t = a; a = b; b = t;`",
}
HEADERS = {
    "stdbool.h": "remove the line, and write `_Bool`, 1 and 0 for `bool`, `true` and `false`; or `#define bool _Bool`, `#define true 1` and `#define false 0`",
    "limits.h": "remove the line, and define what is used, for example `#define INT_MAX 2147483647`",
    "stdio.h": "remove the line: a circuit has no files; values come in by parameters, and go out by `return` and array parameters",
    "stdlib.h": "remove the line: there is no library; write `abs` as `x < 0 ? -x : x`, and arrays with fixed lengths in place of `malloc`",
    "string.h": "remove the line, and write loops in place of `memset` and `memcpy`",
    "math.h": "remove the line: there is no floating point; use integers as fixed-point numbers",
    "stddef.h": "remove the line, and write `unsigned long` for `size_t`",
    "assert.h": "remove the line, and each `assert`",
    "inttypes.h": "write `#include <stdint.h>`", "cstdint": "write `#include <stdint.h>`", "stdint": "write `#include <stdint.h>`",
    "iso646.h": "remove the line, and write `&&`, `||` and `!` for `and`, `or` and `not`",
    "ap_int.h": "remove the line: integers have 8, 16, 32 or 64 bits; keep the low bits of a value with `& mask`",
    "ap_fixed.h": "remove the line, and use integers as fixed-point numbers",
}


def define(name, value):
    return f"write {value}, or `#define {name} {value}` above the first use"


def library_help(name):
    """What to write in place of a function or a constant of the C library, or None."""
    if name in CONSTANTS:
        return [define(name, CONSTANTS[name])]
    if name in LIMITS:
        return [define(name, LIMITS[name])]
    if name in FUNCTIONS:
        return ["there is no C library; " + FUNCTIONS[name] if not FUNCTIONS[name].startswith("there") else FUNCTIONS[name]]
    return None


def type_help(name):
    """What to write in place of a type that the language does not have, or None where the name is like none."""
    if name in TYPES:
        return [f"write `{TYPES[name]}`, or `#define {name} {TYPES[name]}` above the first use"]
    if name.startswith(("uint_fast", "int_fast", "uint_least", "int_least")) and name.endswith("_t"):
        exact = ("u" if name[0] == "u" else "") + "int" + "".join(c for c in name if c.isdigit()) + "_t"
        return [f"write `{exact}`, with `#include <stdint.h>`"] if exact in EXACT_TYPES else None
    short = {"u": "unsigned ", "s": "signed ", "i": "signed "}
    bits = {"8": "char", "16": "short", "32": "int", "64": "long"}
    if name[:1] in short and name[1:] in bits:
        return [f"write `{short[name[0]]}{bits[name[1:]]}`, or `#define {name} {short[name[0]]}{bits[name[1:]]}` above the first use"]
    if name in ("__int128", "_BitInt", "ap_int", "ap_uint", "ap_fixed", "sc_int", "sc_uint"):
        return ["the widest integers have 64 bits; keep the low bits of a value with `& mask`, or use two variables for a wider one"]
    near = nearest(name, EXACT_TYPES)
    near = name + "_t" if name + "_t" in EXACT_TYPES else near
    return [f"did you mean `{near}`, with `#include <stdint.h>`?"] if near and len(name) > 3 else None


def header_help(name):
    if name in HEADERS:
        return HEADERS[name]
    return "remove the line, and write what is used of it into this file"
