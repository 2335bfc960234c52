#!/usr/bin/env python3
"""Runs random programs by gcc and clang with sanitizers and by `./predator replay`, and compares what all their objects hold at the end.

Usage, at the project's root: python3 tests/replay_objects.py [COUNT [SEED [FOLDER]]]
A program has the objects and statements of replay_values.py, and beside them what typing decides of objects: arrays with linkage whose size a block, the file or an
initialiser gives; objects that are declared several times; objects of enums with a negative constant; types by `typeof` of statement expressions that end with empty
statements; static objects with designators and addresses, inside and outside of functions; tags of inner scopes. `./predator` has to pass it. Both compilers build it
with the sanitizers of addresses and of undefined behaviour (signed arithmetic wraps, by -fwrapv), and neither may report anything; they write the size of each object
and the values in it when main ends. The program for `replay` compares each with that, and frees what is no block where it differs, so `replay` has to say `ended`.
Where two differ it prints the seed and the program; with FOLDER it keeps each program there by its seed. The status is 1 where there is a difference, and where a
compiler is missing. The environment variable PREDATOR may name another program.
"""
import random
import subprocess
import sys
import tempfile
from pathlib import Path

from replay_values import INNER_OBJECTS, PROGRAM, SIZES, TYPES, Check, Writer

COMPILERS = ("gcc", "clang")
FLAGS = ["-std=gnu11", "-w", "-O1", "-g", "-fwrapv", "-fsanitize=address,undefined", "-fno-sanitize=shift-base", "-fno-sanitize-recover=all"]
# integer constants that an object of each type can be set to
VALUES = ("0", "1", "2", "7", "100", "-1", "-3", "'a'", "sizeof(int)", "one")


class Objects(Writer):
    """A writer that keeps, beside what stands in main, the lines in front of main and behind it, and the static objects with their sizes, in order."""

    def __init__(self, chance):
        super().__init__(chance)
        self.front, self.behind = [], []
        self.first, self.last, self.inner_statics = [], [], []  # sizes of static objects: in front of main, behind it, and in functions
        self.main, self.sizes = [], []  # what main declares besides, and the sizes
        self.checks = []

    def value(self):
        return self.pick(VALUES)

    def values(self, count):
        return ", ".join(self.value() for _ in range(count))

    def definition(self, line, size):
        """A definition of an object of the file: in front of main or behind it."""
        in_front = self.chance.randrange(2) == 0
        (self.front if in_front else self.behind).append(line)
        (self.first if in_front else self.last).append(size)
        return in_front

    def array(self, name, count):
        self.checks += [f"sizeof {name}", *(f"{name}[{at}]" for at in range(count))]
        self.scalars += [f"{name}[{at}]" for at in range(count)]

    def size_of_a_block(self):
        """An array whose size a block gives, and its definition another time."""
        ctype, count = self.pick(TYPES), self.chance.randint(2, 4)
        self.front.append(f"void fill(void) {{ {{ extern {ctype} q[{count}]; q[{count - 1}] = {self.value()}; q[0] += 3; }} }}")
        size = self.pick((str(count), ""))
        parts = f" = {{ {self.values(count if size == '' else self.chance.randint(1, count))} }}" if size == "" or self.chance.randrange(2) else ""
        self.definition(f"{ctype} q[{size}]{parts};", count * SIZES[ctype])
        self.main.append(f"extern {ctype} q[{count}];")
        self.array("q", count)
        return ["fill();"]

    def size_of_the_file(self):
        """An array whose size a declaration that is visible gives, or its initialiser."""
        ctype, count = self.pick(TYPES), self.chance.randint(2, 4)
        self.front.append(f"extern {ctype} v[{self.pick((count, ''))}];")
        given = "[" in self.front[-1] and self.front[-1].split("[")[1].startswith("]") is False
        parts = self.values(self.chance.randint(1, count) if given else count)
        self.front.append(f"{ctype} v[{self.pick(('', count)) if given else ''}] = {{ {parts} }};")
        self.first.append(count * SIZES[ctype])
        self.front.append(f"extern {ctype} v[];")
        self.array("v", count)
        return []

    def declared_again(self):
        """An object of the file that is declared several times, perhaps without an initialiser."""
        ctype = self.pick(TYPES)
        forms = [f"extern {ctype} t;", f"{ctype} t;", f"{ctype} t = {self.value()};", f"extern {ctype} t;"][: self.chance.randint(2, 4)]
        self.front += forms
        self.first.append(SIZES[ctype])
        self.scalars.append("t")
        self.checks.append("sizeof t")
        return []

    def enums(self):
        """An object of an enum with a negative constant, which is an int here and in the compilers."""
        self.front.append("enum signs { below = -2, none, over = 7, more };")
        self.definition_in_front(f"enum signs en = {self.pick(('below', 'none', 'over', 'more'))};", 4)
        self.main += ["enum signs em;", f"typeof(below) ec = {self.value()};"]
        self.sizes += [4, 4]
        self.scalars += ["en", "em", "ec"]
        self.checks += ["sizeof en", "sizeof em", "sizeof ec", "en < none"]
        return [f"em = {self.pick(('below', 'none', 'over'))};"]

    def definition_in_front(self, line, size):
        self.front.append(line)
        self.first.append(size)

    def of_statement_expressions(self):
        """Objects whose types are those of statement expressions that end with empty statements: an integer is not promoted there."""
        for name in ("u0", "u1"):
            ctype = self.pick(TYPES)
            self.main.append(f"typeof(({{ ({ctype}){self.value()};{' ;' * self.chance.randrange(4)} }})) {name} = {self.value()};")
            self.sizes.append(SIZES[ctype])
            self.scalars.append(name)
            self.checks.append(f"sizeof {name}")
        return []

    def static_parts(self):
        """Static objects with designators and addresses."""
        ctype = self.pick(TYPES)
        line = f"struct out so[2] = {{ {{ .m1 = {{ {self.values(2)} }}, .m0 = {self.value()} }}, {{ {self.value()}, {{ .n1 = {self.value()} }} }} }};"
        self.front.append("static " + line if self.chance.randrange(2) else line)
        self.first.append(None)
        self.definition_in_front(f"static {ctype} sa[3] = {{ {self.values(2)} }};", 3 * SIZES[ctype])
        self.definition_in_front("static " + f"{ctype} *sp = &sa[{self.chance.randrange(3)}], *se = sa;", 8)
        self.first.append(8)
        self.array("sa", 3)
        names = [f"so[{at}].{part}" for at in (0, 1) for part in ("m0", "inner.n0", "inner.n1", "m1[0]", "m1[3]")]
        self.scalars += names
        self.checks += ["sizeof so", "sizeof so[0].inner", "*sp", "se == sa"]
        return []

    def of_a_function(self):
        """An object of a function that lives as long as the program."""
        ctype = self.pick(TYPES)
        self.front.append(f"long count(void) {{ static {ctype} kept = {self.value()}; kept += 3; return kept; }}")
        self.inner_statics.append(SIZES[ctype])
        self.main.append("long c0 = 0;")
        self.sizes.append(8)
        self.checks.append("c0")
        return ["count();", "c0 = count();"]

    def inner_tags(self):
        """Structs of one tag in two scopes, and one that is declared before its members are."""
        self.front.append("struct w; extern struct w *first; struct w { struct w *next; int own; };")
        self.definition_in_front("struct w *first;", 8)
        self.main += ["struct w w0 = { 0, 5 };", "struct w { struct w *to; struct v { short b; } in[2]; } w1 = { &w1, { { 3 }, { .b = 4 } } };"][self.chance.randrange(2):]
        both = len(self.main) > 1 and self.main[-2].startswith("struct w w0")
        self.sizes += [16, 16] if both else [16]
        self.scalars += ["w1.in[0].b", "w1.to->in[1].b"] + (["w0.own"] if both else [])
        self.checks += ["sizeof w1", "sizeof(struct v)", "w1.to == &w1", "first == 0"] + (["w0.next == 0", "sizeof w0"] if both else [])
        return []

    def objects(self):
        head, declared, sizes = super().objects()
        families = [self.size_of_a_block, self.size_of_the_file, self.declared_again, self.enums, self.of_statement_expressions, self.static_parts, self.of_a_function, self.inner_tags]
        calls = []
        for family in self.chance.sample(families, self.chance.randint(3, len(families))):
            calls += family()
        inner, outer = self.layouts(head)
        self.first = [2 * outer if size is None else size for size in self.first]
        at_front = len(declared) - 1
        declared[at_front:at_front] = self.main
        sizes[-1:-1] = self.sizes
        return head + "".join(line + "\n" for line in self.front), declared + calls, sizes

    def layouts(self, head):
        """The sizes of the two structs of the programs."""
        words = [line for line in head.splitlines() if line.startswith("struct")]
        part = lambda line, name: next(piece for piece in line.split("{ ")[-1].split("; ") if f" {name}" in piece).split(f" {name}")[0]
        inner = self.layout([(SIZES[part(words[0], name)],) * 2 for name in ("n0", "n1")])
        first, last = SIZES[part(words[1], "m0")], SIZES[part(words[1], "m1")]
        return inner[0], self.layout([(first, first), inner, (4 * last, last)])[0]


def written(seed):
    """The program of a seed: what stands before main, main's declarations, its statements and checks, what stands behind main, and the sizes of static and of other objects."""
    writer = Objects(random.Random(seed))
    head, declared, sizes = writer.objects()
    body = [writer.statement(2, False) for _ in range(10)]
    body += [Check(name) for name in dict.fromkeys(writer.scalars + writer.checks)]
    body += [Check(f"{name}[{at}]") for name in writer.arrays for at in range(4)]
    return head, declared, body, writer.behind, writer.first + writer.last + writer.inner_statics, sizes


def text_of(head, lines, behind):
    return head + "int main(void) {\n" + "\n".join(lines) + "\nreturn 0;\n}\n" + "\n".join(behind) + "\n"


def by_compiler(compiler, text, folder):
    """The values that a program writes, or what the compiler or a sanitizer says."""
    file, program = Path(folder, "g.c"), Path(folder, compiler)
    file.write_text("#include <stdio.h>\nstatic void report(unsigned long value) { printf(\"%lu\\n\", value); }\n" + text)
    made = subprocess.run([compiler, *FLAGS, file, "-o", program], capture_output=True, text=True)
    if made.returncode:
        return None, made.stderr
    ran = subprocess.run([program], capture_output=True, text=True, timeout=60)
    return (None, ran.stderr) if ran.returncode or ran.stderr else (ran.stdout.split(), "")


def by_replay(text, static, sizes, folder):
    """What `replay` says of the program."""
    blocks = [f"block {4096 * (at + 1)} {byte * size}" for at, (byte, size) in enumerate([("00", size) for size in static] + [("5a", size) for size in sizes + [8] * INNER_OBJECTS])]
    Path(folder, "t.c").write_text(text)
    Path(folder, "c").write_text("".join(line + "\n" for line in blocks))
    done = subprocess.run([PROGRAM, "replay", "t.c", "c"], cwd=folder, stdin=subprocess.DEVNULL, capture_output=True, text=True)
    return done.stdout


def difference(seed, folder, kept):
    """What differs for the program of a seed, with the program, or nothing; and how many values were compared."""
    head, declared, body, behind, static, sizes = written(seed)
    asked = text_of(head, declared + [f"report({part.expression});" if isinstance(part, Check) else part for part in body], behind)
    found = {compiler: by_compiler(compiler, asked, folder) for compiler in COMPILERS}
    for compiler, (values, said) in found.items():
        if values is None:
            return f"{compiler}: {said[:400]}", asked, 0
    values = found["gcc"][0]
    if values != found["clang"][0]:
        return "gcc and clang", asked, 0
    left = iter(values)
    text = text_of(head, declared + [f"if ((unsigned long)({part.expression}) != {next(left)}ul) free(&x);" if isinstance(part, Check) else part for part in body], behind)
    if kept:
        Path(kept, f"{seed}.c").write_text(text)
    said = by_replay(text, static, sizes, folder)
    return (None, text, len(values)) if said == "t.c: ended\n" else (f"replay: {said!r}", text, len(values))


def main():
    count = int(sys.argv[1]) if len(sys.argv) > 1 else 300
    seed = int(sys.argv[2]) if len(sys.argv) > 2 else 1
    kept = Path(sys.argv[3]) if len(sys.argv) > 3 else None
    if kept:
        kept.mkdir(parents=True, exist_ok=True)
    differing = compared = 0
    with tempfile.TemporaryDirectory() as folder:
        for number in range(seed, seed + count):
            what, text, values = difference(number, folder, kept)
            compared += values
            if what:
                differing += 1
                print(f"seed {number}: {what}\n{text}", flush=True)
    print(f"objects: {count - differing} of {count} random programs as gcc and clang run them, {compared} values")
    return 1 if differing else 0


if __name__ == "__main__":
    sys.exit(print(__doc__) if "--help" in sys.argv else main())
