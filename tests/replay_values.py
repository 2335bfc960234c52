#!/usr/bin/env python3
"""Runs random programs by gcc and by `./predator replay`, and compares what they compute.

Usage, at the project's root: python3 tests/replay_values.py [COUNT [SEED]]
A program has objects of all sizes of integers, arrays, structs and pointers to them, and sets them by random statements and expressions; no
expression has two orders of evaluation that differ, no shift and no division is without a value. gcc's program writes the values of some
expressions (signed arithmetic wraps there, by -fwrapv). That for `replay` compares each with what gcc wrote, and frees what is no block where
it differs, so `replay` has to say `ended`. Where it says something else the program is printed. The status is 1 where there is one.
The environment variable PREDATOR may name another program.
"""
import os
import random
import subprocess
import sys
import tempfile
from pathlib import Path
from typing import NamedTuple

HOME = Path(__file__).resolve().parent
PROGRAM = Path(os.environ.get("PREDATOR", HOME.parent / "predator"))
SIZES = {
    "_Bool": 1, "char": 1, "signed char": 1, "unsigned char": 1, "short": 2, "unsigned short": 2, "int": 4,
    "unsigned int": 4, "long": 8, "unsigned long": 8, "long long": 8, "unsigned long long": 8,
}
TYPES = list(SIZES)
INNER = "unsigned long"  # the type of each object that is not declared at the front of main: 8 bytes
INNER_OBJECTS = 400  # how many of these a run may make
CONSTANTS = ("0", "1", "2", "7", "127", "128", "255", "256", "32767", "65535", "2147483647", "2147483648", "4294967295",
             "4294967296", "9223372036854775807", "0x80", "0xffff", "0x7fffffff", "0x80000000", "0xffffffff", "0x123456789abcdef",
             "017", "'a'", "'\\377'", "'\\0'", "1u", "3u", "4294967295u", "5l", "0xffffffffffffffff", "9ul", "2ll", "18446744073709551615ull",
             "one", "minus", "sizeof(int)", "sizeof(struct in)", "sizeof(long[3])")
HEAD = """enum numbers {{ one = 1, minus = -3 }};
struct in {{ {in0} n0; {in1} n1; }};
struct out {{ {out0} m0; struct in inner; {out1} m1[4]; }};
"""


class Check(NamedTuple):
    """A line of a program at which the value of an expression is compared."""
    expression: str


class Writer:
    """Writes a random program; what a statement or an expression may name is kept here."""

    def __init__(self, chance):
        self.chance = chance
        self.scalars = []  # names of lvalues of integer types
        self.arrays = []  # names of arrays of four items
        self.pointers = []  # pointers to the second item of an array of four
        self.inner = 0  # how many inner objects were named so far

    def pick(self, things):
        return self.chance.choice(things)

    def lvalue(self):
        at = self.chance.randrange(10)
        if at < 5:
            return self.pick(self.scalars)
        if at < 7:
            return f"{self.pick(self.arrays)}[{self.index()}]"
        pointer = self.pick(self.pointers)
        return self.pick((f"*{pointer}", f"{pointer}[-1]", f"*({pointer} + 1)", f"{pointer}[2]", f"(*(&{pointer}[1] - 2))"))

    def index(self):
        return self.pick(("0", "1", "2", "3", f"{self.pick(self.scalars)} & 3"))

    def expression(self, levels):
        if levels == 0 or self.chance.randrange(8) == 0:
            return self.pick(CONSTANTS) if self.chance.randrange(3) == 0 else self.lvalue()
        deeper = lambda: self.expression(levels - 1)
        at = self.chance.randrange(24)
        if at < 9:
            return f"({deeper()} {self.pick(('+', '-', '*', '&', '|', '^'))} {deeper()})"
        if at < 11:
            return f"({deeper()} {self.pick(('<', '>', '<=', '>=', '==', '!='))} {deeper()})"
        if at < 12:
            return f"({deeper()} {self.pick(('/', '%'))} (({deeper()} & 7) + 1))"
        if at < 14:
            return f"({deeper()} {self.pick(('<<', '>>'))} ({deeper()} & 7))"
        if at < 15:
            return f"({deeper()} {self.pick(('&&', '||', ','))} {deeper()})"
        if at < 17:
            return f"({self.pick(('-', '~', '!', '+'))}{deeper()})"
        if at < 20:
            return f"(({self.pick(TYPES)}){deeper()})"
        if at < 22:
            return f"({deeper()} ? {deeper()} : {deeper()})"
        if at < 23:
            return self.pick((f"({self.pick(self.pointers)} == &{self.pick(self.arrays)}[{self.index()}])",
                              f"(!{self.pick(self.pointers)})", f"({self.pick(self.pointers)} != 0)", f"sizeof({deeper()})"))
        return self.statement_expression(levels)

    def statement_expression(self, levels):
        name = self.inner_name()
        first, more = self.expression(levels - 1), self.expression(levels - 1)
        op = self.pick(("+", "^", "*", "-"))
        return f"({{ {INNER} {name} = {first}; {name} {op}= {more}; {name}{self.pick(('++', '--', ''))}; }})"

    def inner_name(self):
        self.inner += 1
        return f"i{self.inner}"

    def statement(self, levels, in_loop):
        """A statement; objects that it declares have the inner type."""
        at = self.chance.randrange(14)
        if at < 5 or levels == 0:
            return f"{self.lvalue()} {self.pick(('', '', '', '+', '-', '*', '&', '|', '^'))}= {self.expression(3)};"
        if at < 6:
            return f"{self.lvalue()} {self.pick(('/', '%', '<<', '>>'))}= ({self.expression(2)} & 3) + 1;"
        if at < 7:
            return self.pick(("{0}++;", "{0}--;", "++{0};", "--{0};")).format(self.pick(self.scalars))
        if at < 8:
            return self.pick(("s1 = s0;", "s0 = s1;", "s0.inner = s1.inner;", "*&s1.inner = s0.inner;", "s1 = *(c ? &s0 : &s1);"))
        if at < 10:
            other = f" else {self.block(levels - 1, in_loop)}" if self.chance.randrange(2) else ""
            return f"if ({self.expression(2)}) {self.block(levels - 1, in_loop)}{other}"
        if at < 12:
            name, most = self.inner_name(), self.chance.randrange(1, 4)
            return f"for ({INNER} {name} = 0; {name} < {most}; {name}++) {self.block(levels - 1, True)}"
        if at < 13 and in_loop:
            return f"if ({self.expression(1)}) {self.pick(('break;', 'continue;'))}"
        name = self.inner_name()
        return f"{{ {INNER} {name} = {self.chance.randrange(3)}; do {self.block(levels - 1, False)} while ({name}-- > 0); }}"

    def block(self, levels, in_loop):
        name, front = self.inner_name(), ""
        if self.chance.randrange(3) == 0:
            front = f"{INNER} {name} = {self.expression(2)}; {self.pick(self.scalars)} ^= {name}; "
        return f"{{ {front}{' '.join(self.statement(levels, in_loop) for _ in range(self.chance.randrange(1, 3)))} }}"

    def objects(self):
        """The objects at the front of main: their declarations and their sizes in bytes."""
        declared, sizes = [], []
        for name in "abcdef":
            ctype = self.pick(TYPES)
            declared.append(f"{ctype} {name} = {self.pick(CONSTANTS)};")
            sizes.append(SIZES[ctype])
            self.scalars.append(name)
        for at in range(3):
            ctype = self.pick(TYPES)
            declared.append(f"{ctype} r{at}[4] = {{ {', '.join(self.pick(CONSTANTS) for _ in range(self.chance.randrange(1, 5)))} }};")
            declared.append(f"{ctype} *p{at} = r{at} + 1;")
            sizes += [4 * SIZES[ctype], 8]
            self.arrays.append(f"r{at}")
            self.pointers.append(f"p{at}")
        parts = [self.pick(TYPES) for _ in range(4)]
        inner = self.layout([(SIZES[parts[0]], SIZES[parts[0]]), (SIZES[parts[1]], SIZES[parts[1]])])
        outer = self.layout([(SIZES[parts[2]], SIZES[parts[2]]), inner, (4 * SIZES[parts[3]], SIZES[parts[3]])])
        for name in ("s0", "s1"):
            values = [self.pick(CONSTANTS) for _ in range(5)]
            declared.append(f"struct out {name} = {{ {values[0]}, {{ .n1 = {values[1]}, .n0 = {values[2]} }}, .m1 = {{ {values[3]}, {values[4]} }} }};")
            sizes.append(outer[0])
            self.scalars += [f"{name}.m0", f"{name}.inner.n0", f"(&{name})->inner.n1"]
            self.arrays.append(f"{name}.m1")
        declared.append("int x = 0;")
        sizes.append(4)
        return HEAD.format(in0=parts[0], in1=parts[1], out0=parts[2], out1=parts[3]), declared, sizes

    @staticmethod
    def layout(members):
        """The size and the alignment of a struct with members of such sizes and alignments."""
        end, most = 0, 1
        for size, align in members:
            end, most = -(-end // align) * align + size, max(most, align)
        return -(-end // most) * most, most


def written(chance):
    """A program: what stands before main, the objects at its front, its statements and checks in order, and the sizes of these objects."""
    writer = Writer(chance)
    head, declared, sizes = writer.objects()
    body = []
    for _ in range(12):
        body += [writer.statement(2, False), Check(writer.expression(2))]
    body += [Check(name) for name in writer.scalars]
    body += [Check(f"{name}[{at}]") for name in writer.arrays for at in range(4)]
    return head, declared, body, sizes


def by_gcc(head, declared, body, folder):
    """The values of the checks, as gcc's program writes them."""
    lines = [f"report({part.expression});" if isinstance(part, Check) else part for part in body]
    text = "#include <stdio.h>\nstatic void report(unsigned long value) { printf(\"%lu\\n\", value); }\n"
    text += head + "int main(void) {\n" + "\n".join(declared + lines) + "\nreturn 0;\n}\n"
    file, program = Path(folder, "g.c"), Path(folder, "g")
    file.write_text(text)
    subprocess.run(["gcc", "-std=gnu11", "-w", "-O0", "-fwrapv", file, "-o", program], check=True)
    return subprocess.run([program], capture_output=True, text=True, check=True, timeout=20).stdout.split()


def by_replay(head, declared, body, sizes, values, folder):
    """What `replay` says of the program that compares each value, and the program."""
    left = iter(values)
    lines = [f"if ((unsigned long)({part.expression}) != {next(left)}ul) free(&x);" if isinstance(part, Check) else part for part in body]
    text = head + "int main(void) {\n" + "\n".join(declared + lines) + "\nreturn 0;\n}\n"
    bases = range(4096, 1 << 40, 4096)
    blocks = [f"block {base} {'5a' * size}" for base, size in zip(bases, sizes + [8] * INNER_OBJECTS)]
    Path(folder, "t.c").write_text(text)
    Path(folder, "c").write_text("".join(line + "\n" for line in blocks))
    done = subprocess.run([PROGRAM, "replay", "t.c", "c"], cwd=folder, stdin=subprocess.DEVNULL, capture_output=True, text=True)
    return done.stdout, text


def main():
    count = int(sys.argv[1]) if len(sys.argv) > 1 else 200
    seed = int(sys.argv[2]) if len(sys.argv) > 2 else 1
    differing = compared = 0
    with tempfile.TemporaryDirectory() as folder:
        for number in range(seed, seed + count):
            head, declared, body, sizes = written(random.Random(number))
            values = by_gcc(head, declared, body, folder)
            said, text = by_replay(head, declared, body, sizes, values, folder)
            compared += len(values)
            if said != "t.c: ended\n":
                differing += 1
                print(f"seed {number}: {said!r}\n{text}")
    print(f"replay: {count - differing} of {count} random programs as gcc runs them, {compared} values")
    return 1 if differing else 0


if __name__ == "__main__":
    sys.exit(print(__doc__) if "--help" in sys.argv else main())
