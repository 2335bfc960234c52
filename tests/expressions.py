#!/usr/bin/env python3
"""Asks gcc, and clang for Windows, for the types and values of the expressions in crates/expression_rows.

Usage, at the project's root: tests/expressions.py            compares the rows with the compilers
                              tests/expressions.py COUNT SEED prints random rows
The rows are those of crates/expression_rows/stdin, with the answers of crates/expression_rows/stdout, which the gate compares with what the program
prints. Of each expression that passes, gcc is asked by static assertions whether it has that type (`__builtin_types_compatible_p`), that size and
that value, and of each that a rule refuses whether gcc has something to say against it; for the rows of LLP64 clang is asked, where there is one. Types
of one size and sign are one type in the rows. Where gcc differs by design it is not asked: see `UNLIKE`. Rows of statements, declarations and initialisers
are not asked, and no rows behind them: those in front of them end with random ones, made by this script with the seed 1. The gate does not run it.
"""
import random
import re
import shutil
import subprocess
import sys
import tempfile
from pathlib import Path

ROWS = Path(__file__).resolve().parent.parent / "crates" / "expression_rows"
DECLARATIONS = """
enum { five = 5, none }; typedef char T; struct s { int a; char *b; }; struct t; typedef struct s S;
struct o { char d; int e[4]; struct s i; long l; };
#define none 0
int n; unsigned u; char c; unsigned char k; short h; unsigned short m; long w; unsigned long v; long long j; _Bool truth;
void *p; int *q; char *r; char row[3]; int grid[2][3]; struct s x, *y; struct t *z; struct o x2, *y2; char vast[70000];
extern int open[], missing; int f(int, char *); void g(void); int lost(void); int byval(struct s); int count; int *args;
void *malloc(SIZE); void *calloc(SIZE, SIZE); void free(void *); void *memset(void *, int, SIZE); void *memcpy(void *, const void *, SIZE);
void __assert_fail();
"""
BASES = {
    "void": ["void"], "bool": ["_Bool"], "i8": ["char", "signed char"], "u8": ["unsigned char"], "i16": ["short"], "u16": ["unsigned short"],
    "i32": ["int", "long"], "u32": ["unsigned", "unsigned long"], "i64": ["long", "long long"], "u64": ["unsigned long", "unsigned long long"],
    "struct0": ["struct s"], "struct1": ["struct t"], "struct2": ["struct o"], "struct3": ["struct w"],
}
# what this project answers otherwise than gcc by choice: the type of `?:` on pointers to different types, and of an assignment of structs; a struct is
# no operand of other operators, and no value that is dropped; an object is used only where its size is known; an enum needs no constants; an array
# of `void` passes in a type name
UNLIKE = {
    "n ? q : r", "n ? y : z", "x = x", "(x = x).a", "(void)x", "n ? g() : 1", "n ? g() : q", "n ? x : x", "x, n", "n, x", "({ x; })",
    "open", "&open", "open[0]", "sizeof(enum e)", "({ sizeof(struct w *); }) + sizeof(enum w)",
    "sizeof(char[(int)&((struct s *)0)->b])", "(unsigned long)&((struct o *)0)->l", "(typeof(void[2]) *)p",
    "sizeof(struct t { int z; }) + sizeof *z", "({ return; })",
}

# the heading behind which no row is asked
BEHIND = "# expression statements and blocks (C11 6.8.2, 6.8.3)"


def rows():
    """The rows of expressions with their answers, less the headings."""
    asked = (ROWS / "stdin").read_text().splitlines()
    told = (ROWS / "stdout").read_text().splitlines()
    assert len(asked) == len(told)
    asked = asked[:asked.index(BEHIND)]
    return [(*row.split(" ", 1), answer) for row, answer in zip(asked, told) if not row.startswith("#")]


def spelled(shape):
    """The type names of C that a printed type may stand for: each with the declarator built around nothing."""
    parts = re.findall(r"\*|\[\d+\]|\w+", shape)
    names = []
    for base in BASES[parts[-1]]:
        declarator = ""
        for part in parts[:-1]:
            if part == "*":
                declarator = "*" + declarator
            else:
                declarator = (f"({declarator})" if declarator.startswith("*") else declarator) + part
        names.append(f"{base} {declarator}".strip())
    return names


def assertions(expression, answer):
    """Static assertions that hold where an expression is as the answer says, each in a scope of its own, since the expression may declare names."""
    shape = answer.split(" ")[0]
    is_any = " || ".join(f"__builtin_types_compatible_p(found_, {name})" for name in spelled(shape))
    lines = [f'{{ typedef typeof({expression}) found_; _Static_assert({is_any}, "type"); }}']
    if value := re.search(r" = (-?\d+)", answer):
        number = int(value[1])
        literal = f"{number}" if -(2**63) < number < 2**63 else f"{number}u" if number > 0 else "(-9223372036854775807 - 1)"
        lines.append(f'{{ _Static_assert(({expression}) == {literal}, "value"); }}')
    return lines


def complaints(compiler, size, texts):
    """What a compiler says of each text, each a function's body of its own."""
    with tempfile.TemporaryDirectory() as folder:
        file = Path(folder) / "t.c"
        said = []
        head = DECLARATIONS.replace("SIZE", size)
        for text in texts:
            file.write_text(f"{head}\nvoid test_(void) {{\n{text}\n}}\n")
            done = subprocess.run([*compiler, str(file)], capture_output=True, text=True)
            said.append(done.stderr)
        return said


def compared(name, compiler, size, chosen):
    """How many rows a compiler was asked of, and those on which it differs."""
    asked = [(row, answer) for row, answer in chosen if row not in UNLIKE]
    passes = [(row, answer) for row, answer in asked if not re.match(r"rule|construct|no ", answer)]
    broken = [(row, answer) for row, answer in asked if re.match(r"rule [1345678] ", answer)]
    quiet = [*compiler, "-w"]
    loud = [*compiler, "-Wall", "-Wextra", "-Wpointer-arith", "-Wno-unused"]
    differ = []
    for (row, answer), said in zip(passes, complaints(quiet, size, ["\n".join(assertions(*pair)) for pair in passes])):
        if said:
            differ.append((row, answer, said.splitlines()[0]))
    for (row, answer), said in zip(broken, complaints(loud, size, [f"{row};" for row, _ in broken])):
        if not said:
            differ.append((row, answer, "accepted without a word"))
    print(f"{name}: {len(passes)} types and values, {len(broken)} refusals, {len(differ)} differ")
    for row, answer, said in differ:
        print(f"  {row}: {answer}: {said}")
    return len(differ)


def integer(depth):
    """A random expression of an integer type, mostly."""
    if depth == 0 or random.random() < 0.1:
        return random.choice(
            ["n", "u", "c", "k", "h", "m", "w", "v", "j", "truth", "five", "none", "x.a", "y->a", "row[1]", "*q", "x2.e[2]", "grid[1][2]"]
            + ["'a'", "'\\377'"]
            + [random.choice(["0", "1", "7", "255", "65536", "2147483647", "0x80000000", "4294967296"]) + random.choice(["", "", "", "u", "l"])
               for _ in range(8)])
    below = depth - 1
    kind = random.randrange(12)
    if kind < 5:
        op = random.choice(["+", "-", "*", "/", "%", "&", "|", "^", "<<", ">>", "<", ">", "<=", ">=", "==", "!=", "&&", "||"])
        return f"({integer(below)} {op} {integer(below)})"
    if kind < 7:
        return f"{random.choice(['-', '~', '!', '+'])}{integer(below)}"
    if kind == 7:
        return f"({integer(below)} ? {integer(below)} : {integer(below)})"
    if kind == 8:
        return f"({random.choice(['char', 'unsigned char', 'short', 'unsigned', 'long', 'unsigned long', '_Bool', 'T'])}){integer(below)}"
    if kind == 9:
        return f"sizeof({random.choice([integer, pointer])(below)})"
    if kind == 10:
        return f"({pointer(below)} {random.choice(['==', '!='])} {random.choice([pointer(below), '0'])})"
    inner = random.choice([f"{place(below)} = {integer(below)}", f"{place(below)} += {integer(below)}", f"{integer(below)}, {integer(below)}",
                           f"__builtin_offsetof(struct o, {random.choice(['l', 'i.b', 'e[2]', 'i'])})", f"{place(below)}++"])
    return f"({inner})"


def place(depth):
    """A random lvalue of an integer type."""
    return random.choice(["n", "u", "c", "m", "w", "truth", "x.a", "y->a", "row[2]", "*q", f"q[{integer(max(depth - 1, 0))}]"])


def pointer(depth):
    """A random expression of a pointer type."""
    if depth == 0 or random.random() < 0.3:
        return random.choice(["p", "q", "r", "row", "y", "y->b", "x.b", "&n", "&x", "&row", "grid", "*grid", "&y2->i", "(void *)0"])
    below = depth - 1
    return random.choice([f"({pointer(below)} + {integer(below)})", f"({pointer(below)} - {integer(below)})", f"&{place(below)}",
                          f"({integer(below)} ? q : 0)", f"({integer(below)} ? {pointer(below)} : (void *)0)", f"({random.choice(['char', 'int', 'void'])} *){pointer(below)}"])


def made(count, seed):
    """So many random rows, one half for each kind of value."""
    random.seed(seed)
    return [f"{random.choice(['lp64', 'lp64', 'llp64'])} {random.choice([integer, integer, pointer])(random.randint(1, 4))}" for _ in range(count)]


def main():
    if len(sys.argv) == 3:
        print("\n".join(made(int(sys.argv[1]), int(sys.argv[2]))))
        return 0
    count = compared("gcc", ["gcc", "-std=gnu11", "-fsyntax-only", "-fwrapv"], "unsigned long", [(r, a) for l, r, a in rows() if l == "lp64"])
    if shutil.which("clang"):
        compiler = ["clang", "-target", "x86_64-pc-windows-msvc", "-std=gnu11", "-fsyntax-only", "-fwrapv"]
        count += compared("clang for Windows", compiler, "unsigned long long", [(r, a) for l, r, a in rows() if l == "llp64"])
    return 1 if count else 0


if __name__ == "__main__":
    sys.exit(print(__doc__) if "--help" in sys.argv else main())
