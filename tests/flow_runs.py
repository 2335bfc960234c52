#!/usr/bin/env python3
"""Runs programs along their flow graphs, and compares what the runs come to with what `predator replay` says.

Usage, at the project's root: python3 tests/flow_runs.py [COUNT [SEED]]
The program of tools/graph writes the flow graph of each program (its shown.rt.in says how). What an edge does is written here, by what docs/flow.md and
docs/machine.md say and not by the definitions of crates/flow. First each row of tests/replay/replay.rows is run whose program is read by the usual layout: what is wanted
of it stands there. Then COUNT random programs (500, of the seeds from SEED on, 1) are, three times each, with choices that chance gives; the environment variable PREDATOR may name the program whose `replay` says what the source machine does with them.
It prints each that comes to something else; the status is 1 where there is one.
"""
import os
import random
import re
import subprocess
import sys
import tempfile
from pathlib import Path
from typing import NamedTuple

HOME = Path(__file__).resolve().parent.parent
sys.path.insert(0, str(HOME / "tools"))
from front import graph, unproved  # noqa: E402

PROGRAM = os.environ.get("PREDATOR", HOME / "predator")
ROWS = HOME / "tests" / "replay" / "replay.rows"
TEXTS = {1: "null pointer dereference", 2: "access outside object", 3: "access to dead object", 4: "access through invalid address", 5: "double free",
         6: "invalid free", 7: "memory lost", 8: "overlapping copy", 9: "block never freed"}
STEPS = 200_000  # of an edge each
ALL_WORDS = 2 ** 64


# ---- a flow graph, as its lines say

class Edge(NamedTuple):
    to: int
    place: str
    words: str


class Flow:
    def __init__(self, lines):
        self.out, self.variables, self.functions, self.initial = {}, {}, {}, []
        for line in lines:
            if m := re.fullmatch(r"points (\d+), main (\d+), walks \w+", line):
                self.main = int(m[2])
            elif m := re.fullmatch(r"function (\d+): (\d+) to (\d+)(?:, parameters (.*))?", line):
                self.functions[int(m[1])] = (int(m[2]), int(m[3]), numbers_in(m[4] or ""))
            elif m := re.fullmatch(r"variable (\d+): (\d+)( static)?", line):
                self.variables[int(m[1])] = (int(m[2]), bool(m[3]))
            elif m := re.fullmatch(r"v(\d+) \+ (\d+): (?:(\d+)|&v(\d+) \+ (-?\d+)) of (\d+)", line):
                self.initial.append((int(m[1]), int(m[2]), int(m[6]), int(m[3]) if m[3] else ("static", int(m[4]), int(m[5]))))
            elif m := re.fullmatch(r"(\d+) to (\d+), (\d+:\d+): (.*)", line):
                self.out.setdefault(int(m[1]), []).append(Edge(int(m[2]), m[3], m[4]))
            elif not re.match(r"(head|point) \d+", line):
                raise ValueError(f"no line of a flow graph: {line!r}")


def numbers_in(text):
    return [int(n) for n in re.findall(r"\d+", text)]


# ---- memory: a word is a number or (block, offset), a byte a number or (block, offset, k)

class Over(Exception):
    """The run is over: with a fault, or with what is said."""


class Fault(Exception):
    pass


class Block:
    def __init__(self, base, kind, content):
        self.base, self.kind, self.live, self.bytes = base, kind, True, list(content)


def signed(number, size):
    number %= 256 ** size
    return number - 256 ** size if number >= 256 ** size // 2 else number


def value(number, size, is_signed):
    return signed(number, size) if is_signed else number % 256 ** size


def moved(word, by):
    return (word + by) % ALL_WORDS if isinstance(word, int) else (word[0], signed(word[1] + by, 8))


class Run:
    def __init__(self, flow, choices):
        self.flow, self.choices, self.taken, self.memory = flow, choices, 0, []
        self.statics, self.variables, self.registers, self.callers = {}, {}, {}, []

    def choice(self):
        if self.taken == len(self.choices):
            raise Over("waits")  # where no chance gives more
        self.taken += 1
        return self.choices[self.taken - 1]

    def made(self, kind, size, zeroed):
        """A new block, with the choice that is next."""
        chosen = self.choice()
        if chosen[0] != "block":
            raise Over("ended")
        _, base, content = chosen
        end = base + max(16, size)
        if len(content) != size or base % 16 or base < 16 or end > 2 ** 47 or zeroed and any(content):
            raise Over("ended")
        for other in self.memory:
            if other.live and not (end <= other.base or other.base + max(16, len(other.bytes)) <= base):
                raise Over("ended")
        self.memory.append(Block(base, kind, content))
        return len(self.memory) - 1

    def address(self, word):
        return word if isinstance(word, int) else (self.memory[word[0]].base + word[1]) % ALL_WORDS

    def number(self, content):
        return sum((b if isinstance(b, int) else self.address(b[:2]) >> 8 * b[2] & 255) << 8 * i for i, b in enumerate(content))

    def loaded(self, content, pointer):
        if pointer and not isinstance(content[0], int):
            block, offset, _ = content[0]
            if content == [(block, offset, k) for k in range(8)]:
                return (block, offset)
        return self.number(content)

    def stored(self, word, size):
        if isinstance(word, int):
            return [word >> 8 * k & 255 for k in range(size)]
        return [(*word, k) for k in range(size)]

    def room(self, word, size):
        if isinstance(word, int):
            raise Fault(1 if word < 4096 else 4)
        block = self.memory[word[0]]
        if not block.live:
            raise Fault(3)
        if word[1] < 0 or word[1] + size > len(block.bytes):
            raise Fault(2)
        return block

    def put(self, word, content):
        block = self.memory[word[0]]
        block.bytes[word[1]:word[1] + len(content)] = content

    def unless_lost(self, with_roots=True):
        """Kind 7 where a live block from malloc is led to by no chain; without roots, kind 9."""
        waiting = []
        if not any(b.live and b.kind == "heap" for b in self.memory):
            return
        if with_roots:
            for variables, registers in [(self.variables, self.registers), *((c[0], c[1]) for c in self.callers)]:
                waiting += list(variables.values()) + [w[0] for w, _ in registers.values() if not isinstance(w, int)]
            waiting += list(self.statics.values())
        seen = set()
        while waiting:
            n = waiting.pop()
            if n in seen:
                continue
            seen.add(n)
            block = self.memory[n]
            if block.live:
                for at in range(len(block.bytes) - 7):
                    if not isinstance(block.bytes[at], int) and not isinstance(block.bytes[at + 7], int):
                        word = self.loaded(block.bytes[at:at + 8], True)
                        if not isinstance(word, int):
                            waiting.append(word[0])
        if any(b.live and b.kind == "heap" and n not in seen for n, b in enumerate(self.memory)):
            raise Fault(7 if with_roots else 9)

    def enter(self, names):
        for name in names:
            self.variables[name] = self.made("local", self.flow.variables[name][0], False)

    def take(self, register):
        """What a register holds, which is emptied."""
        if register not in self.registers:
            raise Over("ended")
        return self.registers.pop(register)

    # ---- the run

    def start(self):
        for name, (size, fixed) in sorted(self.flow.variables.items()):
            if fixed:
                self.statics[name] = self.made("static", size, True)
        for name, at, size, word in self.flow.initial:
            if not isinstance(word, int):
                word = (self.statics[word[1]], word[2])
            self.put((self.statics[name], at), self.stored(word, size))
        entry, _, parameters = self.flow.functions[self.flow.main]
        self.enter(parameters)
        return entry

    def outcome(self, steps):
        try:
            point = self.start()
            for _ in range(steps):
                point = self.step(point)
        except Over as over:
            return str(over)
        return "still running"

    def step(self, point):
        for edge in self.flow.out.get(point, ()):
            try:
                to = self.along(edge)
            except Fault as fault:
                raise Over(f"{edge.place}: {TEXTS[fault.args[0]]} [{fault.args[0]}]") from None
            if to is not None:
                return to
        raise Over("ended")

    def along(self, edge):
        """The point behind an edge; None where it is not for this state or this choice."""
        words = edge.words
        if m := re.fullmatch(r"r(\d+) (==|!=) r(\d+)", words):
            one, other = int(m[1]), int(m[3])
            if one not in self.registers or other not in self.registers:
                raise Over("ended")
            same = self.address(self.registers[one][0]) == self.address(self.registers[other][0])
            if same != (m[2] == "=="):
                return None
            self.registers.pop(one)
            self.registers.pop(other, None)
            return edge.to
        if m := re.fullmatch(r"r(\d+) = (new (\d+)( zeroed)?|none)", words):
            return self.allocation(int(m[1]), m[3] and int(m[3]), bool(m[4]), edge.to)
        if m := re.fullmatch(r"(?:r(\d+) = )?call f(\d+)\((.*)\)", words):
            return self.call(int(m[2]), numbers_in(m[3]), m[1] and int(m[1]), edge.to)
        if words.startswith("return"):
            return self.back(numbers_in(words))
        if m := re.fullmatch(r"r(\d+) = (.*)", words):
            self.give(int(m[1]), m[2])
            return edge.to
        self.effect(words)
        return edge.to

    def allocation(self, into, size, zeroed, to):
        if self.taken == len(self.choices):
            raise Over("waits")
        is_none = self.choices[self.taken][0] == "none"
        if size is None:
            if self.choices[self.taken][0] == "input":
                raise Over("ended")
            if not is_none:
                return None
            self.taken += 1
            self.registers[into] = (0, 8)
            return to
        if is_none:
            return None
        self.registers[into] = ((self.made("heap", size, zeroed), 0), 8)
        return to

    def call(self, number, arguments, into, to):
        entry, _, parameters = self.flow.functions[number]
        held = []
        for register in arguments:
            if register not in self.registers:
                raise Over("ended")
            held.append(self.registers[register])
        for register in arguments:
            self.registers.pop(register, None)
        self.callers.append((self.variables, self.registers, to, into))
        self.variables, self.registers = {}, {}
        for name, (word, size) in zip(parameters, held):
            self.enter([name])
            self.put((self.variables[name], 0), self.stored(word, size))
        return entry

    def back(self, registers):
        result = self.registers.get(registers[0]) if registers else None
        if not self.callers:
            raise Over("ended")
        self.variables, self.registers, to, into = self.callers.pop()
        if into is not None and result is not None:
            self.registers[into] = result
        return to

    def give(self, into, words):
        """A register gets a value."""
        if m := re.fullmatch(r"(\d+) of (\d+)", words):
            got = (int(m[1]), int(m[2]))
        elif m := re.fullmatch(r"&v(\d+)", words):
            name = int(m[1])
            block = self.variables.get(name, self.statics.get(name))
            if block is None:
                raise Over("ended")
            got = ((block, 0), 8)
        elif m := re.fullmatch(r"r(\d+)", words):
            if int(m[1]) not in self.registers:
                raise Over("ended")
            got = self.registers[int(m[1])]
        elif m := re.fullmatch(r"\*r(\d+) of (\d+)( pointer)?", words):
            size = int(m[2])
            if int(m[1]) not in self.registers:
                raise Over("ended")
            word = self.registers[int(m[1])][0]
            block = self.room(word, size)
            self.take(int(m[1]))
            got = (self.loaded(block.bytes[word[1]:word[1] + size], bool(m[3])), size)
        elif m := re.fullmatch(r"r(\d+) \+ r(\d+) \* (-?\d+)", words):
            word, by = self.both(int(m[1]), int(m[2]))
            got = (moved(word, signed(self.address(by), 8) * int(m[3])), 8)
        elif m := re.fullmatch(r"r(\d+) \+ (-?\d+)", words):
            got = (moved(self.take(int(m[1]))[0], int(m[2])), 8)
        elif m := re.fullmatch(r"r(\d+) (\S+) r(\d+) of (\d+)( signed)?", words):
            one, other = self.both(int(m[1]), int(m[3]))
            got = self.computed(m[2], int(m[4]), bool(m[5]), self.address(one), self.address(other))
        elif m := re.fullmatch(r"r(\d+)( signed)? to (\d+)", words):
            word, size = self.take(int(m[1]))
            got = (value(self.address(word), size, bool(m[2])) % 256 ** int(m[3]), int(m[3]))
        elif m := re.fullmatch(r"input of (\d+)( signed| truth)?", words):
            chosen, size = self.choice(), int(m[1])
            if chosen[0] != "input" or chosen[1] >= (2 if m[2] == " truth" else 256 ** size):
                raise Over("ended")
            got = (chosen[1], size)
        else:
            raise ValueError(f"no instruction: {words!r}")
        self.registers[into] = got

    def both(self, one, other):
        if one not in self.registers or other not in self.registers:
            raise Over("ended")
        found = self.registers[one][0], self.registers[other][0]
        self.registers.pop(one)
        self.registers.pop(other, None)
        return found

    def computed(self, op, size, is_signed, one, other):
        left, right = value(one, size, is_signed), value(other, size, is_signed)
        if op in ("<", "<="):
            return (int(left < right if op == "<" else left <= right), 4)
        if op in ("/", "%"):
            if right == 0:
                raise Over("ended")
            quotient = abs(left) // abs(right) * (1 if (left < 0) == (right < 0) else -1)
            found = quotient if op == "/" else left - quotient * right
        elif op in ("<<", ">>"):
            if other >= 8 * size:
                raise Over("ended")
            found = left << other if op == "<<" else left >> other
        else:
            found = {"+": left + right, "-": left - right, "*": left * right, "&": left & right, "|": left | right, "^": left ^ right}[op]
        return (found % 256 ** size, size)

    def effect(self, words):
        """Memory, or what stands, is changed."""
        name, _, rest = words.partition(" ")
        fields = numbers_in(rest)
        if m := re.fullmatch(r"\*r(\d+) = r(\d+) of (\d+)", words):
            at, source, size = map(int, m.groups())
            if at not in self.registers or source not in self.registers:
                raise Over("ended")
            self.room(self.registers[at][0], size)
            word, written = self.both(at, source)
            self.put(word, self.stored(written, size))
        elif name == "free":
            if fields[0] not in self.registers:
                raise Over("ended")
            word = self.registers[fields[0]][0]
            if word != 0:
                if isinstance(word, int) or word[1] != 0 or self.memory[word[0]].kind != "heap":
                    raise Fault(6)
                if not self.memory[word[0]].live:
                    raise Fault(5)
                self.memory[word[0]].live = False
            self.take(fields[0])
        elif name == "fill":
            at, source, length = fields
            if at not in self.registers or source not in self.registers:
                raise Over("ended")
            if length:
                self.room(self.registers[at][0], length)
            word, number = self.both(at, source)
            if length:
                self.put(word, [self.address(number) % 256] * length)
        elif name == "copy":
            self.copy(*fields, words.endswith(" disjoint"))
        elif name == "enter":
            self.enter(fields)
        elif name == "leave":
            for variable in fields:
                if variable in self.variables:
                    self.memory[self.variables.pop(variable)].live = False
            self.unless_lost()
        elif name == "finish":
            for register in fields:
                self.registers.pop(register, None)
            self.unless_lost()
        elif name == "close":
            self.unless_lost(with_roots=False)
        else:
            raise ValueError(f"no instruction: {words!r}")

    def copy(self, to, source, length, disjoint):
        if to not in self.registers or source not in self.registers:
            raise Over("ended")
        target, origin = self.registers[to][0], self.registers[source][0]
        if length:
            self.room(origin, length)
            self.room(target, length)
            if disjoint and target[0] == origin[0] and abs(target[1] - origin[1]) < length:
                raise Fault(8)
        self.both(to, source)
        if length:
            self.put(target, self.memory[origin[0]].bytes[origin[1]:origin[1] + length])


# ---- programs, graphs and choices

def choice_of(line):
    word, *fields = line.split()
    if word == "block":
        return ("block", int(fields[0]), [] if fields[1] == "-" else list(bytes.fromhex(fields[1])))
    return (word, int(fields[0])) if word == "input" else ("none",)


def printed(texts):
    """The lines that the program of tools/graph prints of these texts."""
    with tempfile.TemporaryDirectory() as folder:
        rows = Path(folder, "rows")
        rows.write_text("".join(t + "\n" for t in texts))
        done = subprocess.run([graph.program(), rows], stdout=subprocess.PIPE, preexec_fn=unproved.with_stack)
    return done.stdout.decode(errors="replace").split("\n")


def graphs_of(texts):
    """The lines of the flow graph of each text, as that program prints them; one line that says why where there is none."""
    lines = printed(texts)
    found = []
    at = 0
    for text in texts:
        if at >= len(lines) or lines[at] != text:
            raise ValueError(f"no row for {text!r}: {lines[at:at + 2]}")
        end = lines.index("", at)
        found.append(lines[at + 1:end])
        at = end + 1
    return found


def run_along(lines, choices, steps=STEPS):
    """What a run along a flow graph comes to."""
    return Run(Flow(lines), choices).outcome(steps) if lines and lines[0].startswith("points ") else f"no graph: {lines}"


def row_of(text):
    """A text as a row of that program."""
    row = text.replace("\\", "\\\\").replace("\n", "\\n")
    return "\\" + row if row.startswith("#") else row


def text_of(row):
    """The text of a row of replay.rows."""
    letters = {"n": "\n", "t": "\t", "r": "\r", "s": " ", "\\": "\\"}
    return re.sub(r"\\(?:x([0-9a-f]{2})|(.))", lambda m: chr(int(m[1], 16)) if m[1] else letters[m[2]], row)


def rows():
    """The rows of replay.rows by the usual layout: text, choices, wanted."""
    lines = [line for line in ROWS.read_text().split("\n") if line and not line.startswith("# ")]
    for text, choices, wanted in zip(lines[::3], lines[1::3], lines[2::3]):
        options, *chosen = choices.split("|")
        words = options.split()
        if "--model" in words or "--steps" in words or not set(words) <= {"--strict"}:
            continue
        status, said = wanted.split(" ", 1)
        said = said.removesuffix("\\n").removeprefix("t.c:").strip()
        try:
            yield ("strict " if "--strict" in words else "") + row_of(text_of(text)), [choice_of(line.strip()) for line in chosen if line.strip()], said
        except (ValueError, IndexError):
            continue


class Chosen(Run):
    """A run that takes what chance gives, and notes it."""

    def __init__(self, flow, chance):
        super().__init__(flow, [])
        self.chance, self.next = chance, 16

    def give_block(self, size, zeroed):
        content = [0] * size if zeroed or self.chance.random() < 0.5 else [self.chance.choice((0, 0, 1, 255)) for _ in range(size)]
        self.choices.append(("block", self.next, content))
        self.next += (max(size, 1) + 15) // 16 * 16

    def made(self, kind, size, zeroed):
        if self.taken == len(self.choices):
            self.give_block(size, zeroed)
        return super().made(kind, size, zeroed)

    def allocation(self, into, size, zeroed, to):
        if self.taken == len(self.choices):
            if self.chance.random() < 0.15:
                self.choices.append(("none",))
            elif size is not None:
                self.give_block(size, zeroed)
        # the edge without a block is looked at behind the one with it
        return None if self.taken == len(self.choices) else super().allocation(into, size, zeroed, to)

    def give(self, into, words):
        if words.startswith("input of") and self.taken == len(self.choices):
            self.choices.append(("input", self.chance.choice((0, 0, 1, 1)) if self.chance.random() < 0.9 or "truth" in words else 255))
        super().give(into, words)


def spelled(choice):
    if choice[0] == "block":
        return f"block {choice[1]} {bytes(choice[2]).hex() or '-'}"
    return "none" if choice[0] == "none" else f"input {choice[1]}"


class Writer:
    """Writes a random program."""

    HEAD = "struct s { int a; char b; struct s *n; long c; }; int g; static struct s h = { 1, 2 }; int *q = &g;"

    def __init__(self, chance):
        self.chance, self.depth, self.names, self.loops = chance, 0, [], 0

    def pick(self, *things):
        return self.chance.choice(things)

    def lvalue(self):
        names = [n for n, kind in self.names if kind == "int"]
        return self.pick(*names, "g", "h.a", "h.b", "h.c", "x.a", "x.c", "v[0]", "v[1]", "*q", "p->a", "p->b", "p->n->c", "v[g & 3]")

    def pointer(self):
        return self.pick("p", "h.n", "x.n", "p->n", "&x", "&h", "0", "malloc(sizeof(struct s))", "calloc(1, 24)")

    def value(self, depth=0):
        if depth > 2 or self.chance.random() < 0.35:
            return self.pick("0", "1", "2", "7", "-1", "300l", "'c'", self.lvalue(), self.lvalue(), "__VERIFIER_nondet_int()", "__VERIFIER_nondet_char()")
        one, other = self.value(depth + 1), self.value(depth + 1)
        return self.pick(f"({one} + {other})", f"({one} - {other})", f"({one} * {other})", f"({one} / {other})", f"({one} % {other})", f"({one} & {other})",
                         f"({one} << ({other} & 7))", f"({one} >> 1)", f"({one} < {other})", f"({one} >= {other})", f"({one} == {other})", f"!{one}", f"-{one}", f"~({one})",
                         f"({one} && {other})", f"({one} || {other})", f"({one} ? {other} : {one})", f"({one}, {other})", f"(char){one}", f"(_Bool){one}", f"(unsigned){one}",
                         f"({self.lvalue()} = {one})", f"({self.lvalue()} += {one})", f"{self.lvalue()}++", f"--{self.lvalue()}", f"f({one}, {self.pointer()})",
                         f"({{ int z = {one}; {other}; z; }})", f"({self.pointer()} == {self.pick('p', '0', 'h.n')})", f"(p ? {one} : {other})", "sizeof(struct s)")

    def statement(self):
        self.depth += 1
        found = self.of_depth()
        self.depth -= 1
        return found

    def of_depth(self):
        simple = [f"{self.lvalue()} = {self.value()};", f"{self.lvalue()} -= {self.value()};", f"{self.value()};", f"p = {self.pointer()};", f"x.n = {self.pointer()};", "free(p);", "x = h;",
                  "h = x;", "if (p) *p = x;", f"f({self.value()}, {self.pointer()});", f"memset(&x, {self.value()}, 16);", "memcpy(&x, &h, 24);", "memmove(v, v, 8);", "p = p + 1;",
                  f"__VERIFIER_assume({self.value()});", f"return {self.value()};", f"({{ {self.value()}; }});", "q = &v[1];", "v[0]++;", ";"]
        if self.loops:
            simple += ["break;", "continue;", "({ break; 0; });", "1 + ({ continue; 2; });"]
        if self.depth > 3 or self.chance.random() < 0.45:
            return self.chance.choice(simple)
        kind = self.chance.randrange(7)
        if kind == 0:
            return f"if ({self.value()}) {self.statement()}"
        if kind == 1:
            return f"if ({self.value()}) {self.block()} else {self.statement()}"
        if kind == 2:
            return self.block()
        self.loops += 1
        body = self.block() if self.chance.random() < 0.6 else self.statement()
        self.loops -= 1
        return (f"while (__VERIFIER_nondet_bool() && {self.value()}) {body}", f"do {body} while (__VERIFIER_nondet_bool());",
                f"for (int i = 0; i < 2; i++) {body}", f"for (; __VERIFIER_nondet_bool(); {self.value()}) {body}")[kind - 3]

    def block(self):
        before = list(self.names)
        parts = []
        for _ in range(self.chance.randrange(1, 4)):
            if self.chance.random() < 0.25:
                name = f"l{len(self.names)}"
                parts.append(f"{self.pick('int', 'char', 'long', 'unsigned short')} {name} = {self.value()};")
                self.names.append((name, "int"))
            else:
                parts.append(self.statement())
        self.names = before
        return "{ " + " ".join(parts) + " }"

    def text(self):
        self.names = [("k", "int")]
        inner = " ".join(self.statement() for _ in range(self.chance.randrange(1, 3)))
        function = f"int f(int k, struct s *p) {{ struct s x; int v[2]; static int d; if (d++ > 4) return k; {inner} return k; }}"
        self.names = []
        body = " ".join(self.statement() for _ in range(self.chance.randrange(2, 7)))
        return f"{self.HEAD} {function} int main(void) {{ struct s x, *p = 0; int v[2] = {{ 3 }}; {body} return 0; }}"


def random_unlike(count, seed):
    """How many random programs `predator replay` runs otherwise than their graphs do."""
    programs = [Writer(random.Random(f"{seed} {n}")).text() for n in range(count)]
    strict = [random.Random(f"{seed} {n} strict").random() < 0.1 for n in range(count)]
    unlike, tally = 0, {}
    with tempfile.TemporaryDirectory() as folder:
        for n, (text, lines) in enumerate(zip(programs, graphs_of([("strict " if s else "") + t for s, t in zip(strict, programs)]))):
            if not lines[0].startswith("points "):
                tally[lines[0]] = tally.get(lines[0], 0) + 1
                continue
            for turn in range(3):
                run = Chosen(Flow(lines), random.Random(f"{seed} {n} {turn}"))
                got = run.outcome(20_000)
                Path(folder, "t.c").write_text(text)
                Path(folder, "choices").write_text("".join(spelled(c) + "\n" for c in run.choices))
                done = subprocess.run([PROGRAM, "replay", *["--strict"] * strict[n], "t.c", "choices"], cwd=folder, stdin=subprocess.DEVNULL, capture_output=True, text=True)
                said = done.stdout.strip().removeprefix("t.c:").strip()
                word = "fault" if "[" in got else got
                tally[word] = tally.get(word, 0) + 1
                if got != said:
                    unlike += 1
                    print(f"program {n}: {text}\n  choices {[spelled(c) for c in run.choices]}\n  replay says {said!r}, along the graph {got!r}")
    print(f"random programs: {unlike} runs of {count} programs differ; " + ", ".join(f"{k} {v}" for v, k in sorted(tally.items())))
    return unlike


def rows_unlike():
    """How many rows come to something else along their graphs."""
    table = [row for row in rows() if row[2] in ("ended", "waits", "still running") or re.fullmatch(r"\d+:\d+: .* \[\d\]", row[2])]
    unlike = 0
    for (text, choices, wanted), lines in zip(table, graphs_of([row[0] for row in table])):
        got = run_along(lines, choices)
        if got != wanted:
            unlike += 1
            print(f"{text}\n  wanted {wanted!r}, along the graph {got!r}")
    print(f"rows: {len(table) - unlike} of {len(table)} come to what is wanted along their graphs")
    return unlike


def main():
    count = int(sys.argv[1]) if len(sys.argv) > 1 else 500
    unlike = rows_unlike()
    return 1 if random_unlike(count, sys.argv[2] if len(sys.argv) > 2 else "1") or unlike else 0


if __name__ == "__main__":
    sys.exit(main())
