#!/usr/bin/env python3
"""Runs random programs over blocks of memory by gcc under its address sanitizer and by `./predator replay`, and compares where both find a fault.

Usage, at the project's root: python3 tests/replay_faults.py [COUNT [SEED]]
A program makes blocks, links them, reads and writes inside and outside of them, fills and copies them and frees them, each in a line of its own, so
that most meet a fault at some line: null pointers, blocks that are freed, ranges that go past a block, frees of what is no block's first byte, and copies that
overlap. No line writes a part of a pointer alone, since what is left then depends on addresses. An array holds each block that was made, so none is lost. For `replay` each new block lies behind those before it, and each allocation succeeds.
It prints each program in which one of the two finds a fault in a line and the other does not. The status is 1 where there is one.
The environment variable PREDATOR may name another program.
"""
import os
import random
import re
import subprocess
import sys
import tempfile
from collections import Counter
from pathlib import Path

HOME = Path(__file__).resolve().parent
PROGRAM = Path(os.environ.get("PREDATOR", HOME.parent / "predator"))
NAMES = 5  # pointers that a program has
STATEMENTS = 30
HEAD = """struct node { int one; struct node *next; char text[6]; struct pair { short low, high; } pair; };
static struct node *v[5];
static void *made[40];
static int i;
static struct node fixed;
int main(void) {
fixed.one = i;
"""
SIZES = (40, 320, 4, 32)  # of the objects above: bytes
BLOCK = 32  # of a node


class Writer:
    """Writes the lines of a random program, and the bytes of the blocks that it asks for, in order."""

    def __init__(self, chance):
        self.chance = chance
        self.blocks = []

    def name(self):
        return f"v[{self.chance.randrange(NAMES)}]"

    def node(self):
        """A pointer to a node, mostly a name."""
        at = self.chance.randrange(12)
        if at < 9:
            return self.name()
        if at < 10:
            return f"{self.name()}->next"
        return self.chance.choice(("(&fixed)", f"({self.name()} ? {self.name()} : {self.name()})"))

    def new(self):
        """A line that makes a block of some bytes, all written."""
        size = self.chance.choice((BLOCK, BLOCK, BLOCK, BLOCK, BLOCK, BLOCK, BLOCK, 8, 20, 31))
        at = len(self.blocks)
        self.blocks.append(size)
        name = self.name()
        made = f"calloc(1, {size})" if self.chance.randrange(3) == 0 else f"malloc({size})"
        link = f" {name}->next = {self.name()};" if size == BLOCK else ""
        return f"{name} = {made}; made[{at}] = {name}; memset({name}, 0, {size});{link}"

    def line(self):
        at = self.chance.randrange(30)
        count = self.chance.choice((0, 1, 4, 4, 16, 32, 32, 33))
        if at < 6:
            return self.new()
        if at < 9:
            return f"{self.node()}->next = {self.node()};"
        if at < 11:
            return f"{self.name()} = {self.node()}->next;"
        if at < 13:
            return f"{self.name()} = {self.node()};"
        if at < 15:
            return f"i += {self.node()}->text[{self.chance.randrange(6)}];"
        if at < 17:
            return f"{self.node()}->pair.{self.chance.choice(('low', 'high'))} = i;"
        if at < 19:
            return f"*((char *)(void *){self.node()} + {self.chance.choice((0, 3, 16, 19, 20, 30, 31, 32))}) = {self.chance.randrange(3)};"
        if at < 21:
            return f"memset({self.node()}, {self.chance.choice((0, 1))}, {self.chance.choice((0, 1, 4, 4, 32))});" if self.chance.randrange(2) else f"memset({self.node()}->text, 7, {self.chance.randrange(9)});"
        if at < 23:
            return f"memmove({self.node()}, {self.node()}, {count});"
        if at < 25:
            one = self.name()
            call = self.chance.choice(("memcpy", "memmove"))
            return f"{call}((char *)(void *){one} + 20, (char *)(void *){one} + 16, {self.chance.choice((2, 4, 6, 12, 13))});"
        if at < 26:
            return f"*{self.name()} = *{self.node()};"
        if at < 29:
            return f"free({self.node()});"
        return self.chance.choice((f"free({self.name()}->text);", f"free({self.name()} + 1);", "free(0);", f"free(&{self.name()}->one);"))


def written(chance):
    """The lines of a program, and the sizes of its blocks."""
    writer = Writer(chance)
    lines = []
    for at in range(NAMES):
        writer.blocks.append(BLOCK)
        lines.append(f"v[{at}] = malloc({BLOCK}); made[{at}] = v[{at}]; memset(v[{at}], 0, {BLOCK});")
    lines += [f"v[{at}]->next = v[{chance.randrange(NAMES)}];" for at in range(NAMES)]
    lines += [writer.line() for _ in range(STATEMENTS)]
    return lines, writer.blocks


def line_by_gcc(text, folder):
    """The line of the fault that gcc's program meets, if it meets one, and what the sanitizer calls it."""
    file, program = Path(folder, "t.c"), Path(folder, "t")
    file.write_text(text)
    subprocess.run(["gcc", "-std=gnu11", "-g", "-w", "-O0", "-fno-builtin", "-fsanitize=address", "-include", "stdlib.h", "-include", "string.h",
                    file, "-o", program], check=True)
    done = subprocess.run([program], stdin=subprocess.DEVNULL, capture_output=True, text=True, timeout=60,
                          env={"ASAN_OPTIONS": "detect_leaks=0:replace_intrin=1"})
    fault = re.search(r"in main \S*?t\.c:(\d+)", done.stderr)
    what = re.search(r"AddressSanitizer: (?:attempting )?(\S+)", done.stderr)
    if done.returncode and not fault:
        raise ValueError(done.stderr)
    return (int(fault[1]) if fault else None), (what[1] if what else "none")


def by_replay(text, blocks, folder):
    """What `replay` says of the program, where each allocation succeeds."""
    bases = range(4096, 1 << 40, 4096)
    lines = [f"block {base} {'00' * size}" for base, size in zip(bases, list(SIZES) + blocks)]
    Path(folder, "t.c").write_text(text)
    Path(folder, "c").write_text("".join(line + "\n" for line in lines))
    return subprocess.run([PROGRAM, "replay", "t.c", "c"], cwd=folder, stdin=subprocess.DEVNULL, capture_output=True, text=True).stdout


def main():
    count = int(sys.argv[1]) if len(sys.argv) > 1 else 200
    seed = int(sys.argv[2]) if len(sys.argv) > 2 else 1
    differing, kinds = 0, Counter()
    with tempfile.TemporaryDirectory() as folder:
        for number in range(seed, seed + count):
            lines, blocks = written(random.Random(number))
            text = HEAD + "\n".join(lines) + "\nreturn 0;\n}\n"
            line, what = line_by_gcc(text, folder)
            said = by_replay(text, blocks, folder)
            fault = re.fullmatch(r"t\.c:(\d+):\d+: (.*) \[(\d)\]\n", said)
            kinds[(fault[2] if fault else said.strip(), what)] += 1
            if (int(fault[1]) if fault else None) != line or (fault is None and said != "t.c: ended\n"):
                differing += 1
                print(f"seed {number}: gcc finds {what} in line {line}, replay says {said!r}\n{text}")
    for (ours, theirs), times in sorted(kinds.items(), key=lambda entry: -entry[1]):
        print(f"{times:5} {ours} / {theirs}")
    print(f"replay: {count - differing} of {count} random programs as gcc runs them")
    return 1 if differing else 0


if __name__ == "__main__":
    sys.exit(print(__doc__) if "--help" in sys.argv else main())
