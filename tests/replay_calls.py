"""Random programs with functions and recursion, for gcc and for `predator replay`.

A program has functions that call one another and themselves, with parameters and results of all sizes of integers, pointers to objects of their callers, local
objects, arrays, and static objects inside and outside of functions; no expression has two orders of evaluation that differ. In the text for gcc each function says
that it is entered, so the objects that a run makes are known, in order, and its main writes the values of some objects. That for `replay` compares each with what gcc
wrote, ends where one differs, and frees what is no block behind them all: so a run that ends, too early or with another value, is told from one that does as gcc's.
"""
import random
import re
import subprocess
from pathlib import Path
from typing import NamedTuple

SIZES = {"_Bool": 1, "char": 1, "signed char": 1, "unsigned char": 1, "short": 2, "unsigned short": 2, "int": 4, "unsigned int": 4,
         "long": 8, "unsigned long": 8, "long long": 8}
TYPES = list(SIZES)
CONSTANTS = ("0", "1", "2", "3", "7", "100", "127", "128", "255", "256", "-1", "-5", "32768", "65537", "2147483647", "4294967295u", "4294967297l", "0x80", "'a'")
MOST_CALLS = 40
HARNESS = "#include <stdio.h>\nstatic void entered(int number) { printf(\"enter %d\\n\", number); }\n"


class Function(NamedTuple):
    """A function: its result, the types of its parameters behind the depth, whether the last one is a pointer, and the sizes of its other objects."""
    name: str
    result: str
    params: list
    writes: bool
    locals: list

    def head(self):
        params = ["int n", *(f"{ctype} p{at}" for at, ctype in enumerate(self.params)), *(["long *out"] if self.writes else [])]
        return f"{self.result} {self.name}({', '.join(params)})"

    def sizes(self):
        """The sizes of the objects that an activation makes, in order."""
        return [4, *(SIZES[ctype] for ctype in self.params), *([8] if self.writes else []), *(SIZES[ctype] for ctype in self.locals), 24]


class Writer:
    """Writes the functions of a program by chance."""

    def __init__(self, seed):
        self.chance = random.Random(seed)
        count = self.chance.randint(2, 5)
        self.functions = [self.function(f"f{number}") for number in range(count)]
        self.statics = [self.chance.choice(TYPES) for _ in range(4)]

    def function(self, name):
        pick = self.chance.choice
        return Function(name, pick(TYPES), [pick(TYPES) for _ in range(self.chance.randrange(4))], self.chance.random() < 0.5,
                        [pick(TYPES) for _ in range(self.chance.randint(1, 3))])

    def operand(self, names):
        return self.chance.choice(names) if self.chance.random() < 0.7 else f"({self.chance.choice(CONSTANTS)})"

    def expression(self, names, depth=2):
        form = self.chance.randrange(8) if depth else 7
        inner = lambda: self.expression(names, depth - 1)
        if form < 3:
            return f"({inner()} {self.chance.choice(['+', '-', '*', '&', '|', '^'])} {inner()})"
        if form == 3:
            return f"({inner()} {self.chance.choice(['<', '<=', '==', '!=', '>', '>='])} {inner()})"
        if form == 4:
            return f"({inner()} ? {inner()} : {inner()})"
        if form == 5:
            return f"(({self.chance.choice(TYPES)}){inner()})"
        if form == 6:
            return f"({self.chance.choice(['-', '~', '!'])}{inner()})"
        return self.operand(names)

    def call(self, names, out):
        """A call of some function, whose arguments and neighbours no call changes."""
        other = self.chance.choice(self.functions)
        arguments = ["n - 1", *(self.expression(names) for _ in other.params), *([out] if other.writes else [])]
        return f"{other.name}({', '.join(arguments)})"

    def statement(self, function, names):
        target = self.chance.choice(names)
        form = self.chance.randrange(6)
        if form < 2:
            return f"{target} = {self.call(names, f'&a[{self.chance.randrange(3)}]')} + {self.operand(names)};"
        if form == 2:
            return f"if ({self.expression(names)}) {target} = {self.expression(names)}; else a[{self.chance.randrange(3)}] = {self.expression(names)};"
        if form == 3:
            return f"s{self.chance.randrange(4)} {self.chance.choice(['=', '+=', '^='])} {self.expression(names)};"
        if form == 4:
            at = self.chance.randrange(3)
            return f"for (a[{at}] = 0; a[{at}] < {self.chance.randint(1, 3)}; a[{at}]++) {target} += {self.expression(names)};"
        return f"own += {self.expression(names)}; {target} ^= own;"

    def body(self, function, number):
        names = [*(f"p{at}" for at in range(len(function.params))), *(f"x{at}" for at in range(len(function.locals)))]
        lines = [f"{ctype} x{at};" for at, ctype in enumerate(function.locals)] + ["long a[3];", "static long own = 1;", f"ENTERED({number});"]
        lines += [f"x{at} = {self.expression([*names[:len(function.params)], 'n'], 1)};" for at in range(len(function.locals))]
        lines += ["a[0] = n; a[1] = 2; a[2] = x0;", f"if (n <= 0 || calls >= {MOST_CALLS}) return {self.operand(names)};", "calls++;"]
        lines += [self.statement(function, names) for _ in range(self.chance.randint(2, 5))]
        if function.writes:
            lines.append(f"*out += {self.expression([*names, 'a[1]'])};")
        return [*lines, f"return {self.expression([*names, 'a[0]', 'a[2]'])};"]

    def text(self):
        """The functions of the program; `ENTERED(k)` stands where the function of that number says that it is entered."""
        lines = [f"static {ctype} s{at};" for at, ctype in enumerate(self.statics)] + ["static int calls;"]
        lines += [f"{function.head()};" for function in self.functions]
        for number, function in enumerate(self.functions):
            lines += [f"{function.head()} {{", *("  " + line for line in self.body(function, number)), "}"]
        return lines

    def main(self):
        """The lines of main up to the values that it shows, and these."""
        lines, shown = ["long r[6];", "long y;"], []
        lines += ["r[0] = r[1] = r[2] = r[3] = r[4] = r[5] = 5;", "y = 7;"]
        for at in range(5):
            function = self.functions[at % len(self.functions)]
            arguments = [str(self.chance.randint(0, 4)), *(f"({self.chance.choice(CONSTANTS)})" for _ in function.params), *(["&y"] if function.writes else [])]
            lines.append(f"r[{at}] = {function.name}({', '.join(arguments)});")
            shown.append(f"r[{at}]")
        return lines, [*shown, "y", "calls", *(f"s{at}" for at in range(4))]


def differs(seed, replayed, folder):
    """What `replay` says of the program of a seed that is not what gcc finds, with its text, or None. `replayed` says what it says of a file with choices."""
    writer = Writer(seed)
    functions, (lines, shown) = "\n".join(writer.text()), writer.main()
    marked = re.sub(r"ENTERED\((\d+)\)", r"entered(\1)", functions)
    source, program, plain = Path(folder, "calls_gcc.c"), Path(folder, "calls"), Path(folder, "calls.c")
    prints = [f'printf("value %lu\\n", (unsigned long)({value}));' for value in shown]
    source.write_text(HARNESS + marked + "\nint main(void) {\n  " + "\n  ".join([*lines, *prints]) + "\n  return 0;\n}\n")
    subprocess.run(["gcc", "-std=gnu11", "-w", "-fwrapv", "-fno-builtin", source, "-o", program], check=True)
    said = subprocess.run([program], capture_output=True, text=True, check=True, timeout=60).stdout
    values, entered = re.findall(r"^value (\d+)$", said, re.M), re.findall(r"^enter (\d+)$", said, re.M)
    checks = [f"if ((unsigned long)({value}) != {number}ul) return {at + 1};" for at, (value, number) in enumerate(zip(shown, values))]
    text = re.sub(r"  ENTERED\(\d+\);\n", "", functions) + "\nint main(void) {\n  " + "\n  ".join([*lines, *checks, "free(&y);"]) + "\n"
    plain.write_text(text + "  return 0;\n}\n")
    wanted = f"{plain.name}:{len(text.splitlines())}:3: invalid free [6]\n"
    needed = [*(SIZES[ctype] for ctype in writer.statics), 4, *(8 for _ in writer.functions), 48, 8]
    sizes = [*needed, *(size for number in entered for size in writer.functions[int(number)].sizes())]
    choices, at = [], 16
    for size in sizes:
        choices.append(f"block {at} {'00' * size}")
        at += (size + 15) // 16 * 16
    answer = replayed(plain, choices, folder)
    return None if answer == wanted and len(values) == len(shown) else (answer, plain.read_text())
