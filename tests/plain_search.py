#!/usr/bin/env python3
"""Compares what `./predator FILE` answers of random programs with a plain search over their runs, written apart from the program's.

Usage, at the project's root: python3 tests/plain_search.py [PLAIN [LOOPS [SEED]]] [--keep FOLDER]
The programs have three pointers to blocks of a struct that holds a pointer, or to blocks that are too small for it. They allocate, copy, link, write, free and ask, a line each. The search takes a program's
runs by what docs/machine.md says: whether each allocation fails, where each block lies, which words unwritten variables and blocks hold, and each input. It goes on from each state once.
Programs without a loop are drawn, from the seed SEED (1) on, until PLAIN (500) of them are plain: no run of them reads what was not written, or asks of an address of a dead block whether it is null or another one. Of these the verdict, the places
and the kinds are to be the same, and each an error. Of the others, and of LOOPS (300) programs with loops, each fault that the search finds is to be told of, and each error is to be one that it finds; with loops it looks at states of at most five
blocks, and where the budget is spent not all has to be told. The first fault that is found in each program is run by `replay` with the choices of the search, which is to meet it there.
It prints each program of which something else is answered; the status is 1 where there is one. FOLDER gets the programs. The environment variable PREDATOR may name another program, JOBS how many run at a time.
"""
import os
import random
import re
import subprocess
import sys
import tempfile
from concurrent.futures import ThreadPoolExecutor
from pathlib import Path

HOME = Path(__file__).resolve().parent.parent
PROGRAM = Path(os.environ.get("PREDATOR", HOME / "predator"))
NAMES = "abc"
HEAD = "struct s { struct s *p; };\nint main(void) {\n"
FIRST_BASE = 4096  # numbers from here on are no null pointers that are gone through (kind 4, and not 1)
WORDS = (0, 8, FIRST_BASE, FIRST_BASE + 16, 99999)  # what unwritten variables hold: null, one that is next to null, where blocks may lie, and where none does
CELLS = (0, 8, FIRST_BASE, 99999)  # and unwritten blocks
MOST_BLOCKS, MOST_STATES = 5, 60_000  # of a state, and of a search
LOOP_BUDGET = "300"  # lists grow as long as it lasts


# ---- programs: a list of lines, each a tuple of its form; blocks of lines stand in the tuples

def drawn_source(chance, fresh):
    form = chance.random()
    if form < 0.4 and fresh[0]:
        fresh[0] -= 1
        return ("malloc", chance.choice((8, 8, 8, 4)))
    if form < 0.55:
        return ("null",)
    if form < 0.8:
        return ("copy", chance.choice(NAMES))
    return ("load", chance.choice(NAMES))


def drawn_lines(chance, count, fresh, deep, loops, careful):
    lines = []
    while count > 0:
        form, name = chance.random(), chance.choice(NAMES)
        count -= 1
        if form < 0.3:
            lines.append(("assign", name, drawn_source(chance, fresh)))
        elif form < 0.5:
            lines.append(("free", name))
            if chance.random() < careful:
                lines.append(("assign", name, ("null",)))
        elif form < 0.65:
            lines.append(("store", name, chance.choice(NAMES)))
        elif form < 0.7:
            lines.append(("exit", name))
        elif deep:
            test = chance.choice((("held", name), ("held", name), ("input",), ("same", name, chance.choice(NAMES))))
            inner = chance.randint(1, 3)
            if loops and chance.random() < 0.6:
                lines.append(("while", test if chance.random() < 0.4 else ("input",), drawn_lines(chance, inner, fresh, deep - 1, loops, careful)))
            else:
                lines.append(("if", test, drawn_lines(chance, inner, fresh, deep - 1, loops, careful),
                              drawn_lines(chance, chance.randint(1, 2), fresh, 0, loops, careful) if chance.random() < 0.4 else []))
            count -= inner - 1
    return lines


def drawn_program(seed, loops):
    chance = random.Random(seed)
    fresh, careful = [chance.randint(1, 3)], chance.choice((0.0, 0.7, 1.0))
    front = []
    for number, name in enumerate(NAMES):
        form = chance.random()
        source = None if form < (0.0 if careful else 0.25) else ("null",) if form < 0.5 or not fresh[0] else ("malloc", 8)
        if source and source[0] == "malloc":
            fresh[0] -= 1
        front.append(("declare", name, source))
    body = drawn_lines(chance, chance.randint(3, 7), fresh, 2, loops, careful)
    if chance.random() < 0.6:  # often what is left is freed
        body += [("if", ("held", name), [("free", name)], []) for name in chance.sample(NAMES, chance.randint(1, 3))]
    return front + body


# ---- their texts, and their steps with the places of their tokens

class Steps:
    """The steps of a program, each with the number of the next one."""

    def __init__(self, lines):
        self.text, self.steps, self.line = HEAD, [], HEAD.count("\n") + 1
        self.block(lines, 1)
        self.write("return 0;", 1)
        self.add("return", (self.line - 1, 3))
        self.text += "}\n"

    def add(self, *step):
        self.steps.append(list(step))
        return len(self.steps) - 1

    def write(self, line, deep):
        self.text += "  " * deep + line + "\n"
        self.line += 1

    def block(self, lines, deep):
        for line in lines:
            self.one(line, deep)

    def one(self, line, deep):
        at, here = self.line, 2 * deep + 1
        form = line[0]
        if form in ("declare", "assign"):
            _, name, source = line
            front = f"struct s *{name}" if form == "declare" else name
            if source is None:
                self.write(front + ";", deep)
                return
            right = {"null": "0", "malloc": f"malloc({source[-1]})", "copy": source[-1], "load": f"{source[-1]}->p"}[source[0]]
            written = f"{front} = {right}"
            self.write(written + ";", deep)
            arrow = here + written.find("->")
            self.add("assign", name, source, (at, arrow), (at, here + len(written)))
        elif form == "free":
            self.write(f"free({line[1]});", deep)
            self.add("free", line[1], (at, here), (at, here + len(f"free({line[1]})")))
        elif form == "store":
            self.write(f"{line[1]}->p = {line[2]};", deep)
            self.add("store", line[1], line[2], (at, here + 1), (at, here + len(f"{line[1]}->p = {line[2]}")))
        elif form == "exit":
            self.write(f"if (!{line[1]}) exit(0);", deep)
            self.add("exit", line[1])
        else:
            test = {"held": lambda t: t[1], "input": lambda t: "__VERIFIER_nondet_int()", "same": lambda t: f"{t[1]} == {t[2]}"}[line[1][0]](line[1])
            self.write(f"{form} ({test}) {{", deep)
            ask = self.add("ask", line[1], None)
            self.block(line[2], deep + 1)
            if form == "while":
                self.write("}", deep)
                self.add("go", ask)
                self.steps[ask][2] = len(self.steps)
            elif line[3]:
                self.write("} else {", deep)
                go = self.add("go", None)
                self.steps[ask][2] = len(self.steps)
                self.block(line[3], deep + 1)
                self.write("}", deep)
                self.steps[go][1] = len(self.steps)
            else:
                self.write("}", deep)
                self.steps[ask][2] = len(self.steps)


# ---- states: what each variable holds, and the blocks: base, size, whether live, what the cell holds. A word is null, 0, or ("at", block), or ("raw", number) where it was never written

class Fault(Exception):
    pass


def leads(word):
    return word != 0 and word[0] == "at"


def address(word, blocks):
    return 0 if word == 0 else blocks[word[1]][0] if leads(word) else word[1]


def reached(held, blocks):
    """The live blocks to which chains of stored pointers lead."""
    todo, seen = [w[1] for w in held if leads(w)], set()
    while todo:
        number = todo.pop()
        base, size, live, cell = blocks[number]
        if number in seen or not live:
            continue
        seen.add(number)
        if leads(cell):
            todo.append(cell[1])
    return seen


def looked(held, blocks, place):
    if any(block[2] and number not in kept for kept in [reached(held, blocks)] for number, block in enumerate(blocks)):
        raise Fault(place, 7)


def normal(held, blocks):
    """The same state with the blocks that something names alone, in the order in which they are named."""
    order, todo = [], list(held)
    while todo:
        word = todo.pop(0)
        if leads(word) and word[1] not in order:
            order.append(word[1])
            if blocks[word[1]][2]:
                todo.append(blocks[word[1]][3])
    def renamed(word):
        return ("at", order.index(word[1])) if leads(word) else word
    return (tuple(map(renamed, held)),
            tuple((b[0], b[1], b[2], renamed(b[3]) if b[2] else 0) for b in (blocks[n] for n in order)))


def through(word, blocks, place):
    """The block that an access to a whole cell through a word leads to."""
    if not leads(word):
        raise Fault(place, 1 if address(word, blocks) < 4096 else 4)
    base, size, live, cell = blocks[word[1]]
    if not live:
        raise Fault(place, 3)
    if size < 8:
        raise Fault(place, 2)
    return word[1]


def bases(held, blocks):
    """Where a new block may lie: at an address that some word has, or at the first that none has."""
    live = {b[0] for b in blocks if b[2]}
    words = {address(w, blocks) for w in list(held) + [b[3] for b in blocks if b[2]]} | {b[0] for b in blocks}
    some = {w for w in words if w >= FIRST_BASE and w % 16 == 0 and w not in live}
    fresh = next(base for base in range(FIRST_BASE + 1600, FIRST_BASE + 3200, 16) if base not in words and base not in live)
    return sorted(some) + [fresh]


def shown(number, size):
    return (number % 256 ** size).to_bytes(size, "little").hex()


def is_plain(step, held, blocks):
    """Whether a step reads what was written alone, and compares null and addresses of live blocks alone."""
    var = dict(zip(NAMES, held))
    names = {"assign": lambda: step[2][-1:] if step[2][0] in ("copy", "load") else (), "free": lambda: step[1], "store": lambda: step[1:3], "exit": lambda: step[1],
             "ask": lambda: step[1][1:]}.get(step[0], lambda: ())()
    words = [var[name] for name in names]
    if step[0] == "assign" and step[2][0] == "load" and leads(words[0]) and blocks[words[0][1]][2]:
        words.append(blocks[words[0][1]][3])
    return all(w == 0 or leads(w) and (step[0] not in ("exit", "ask") or blocks[w[1]][2]) for w in words)


def went(steps, at, state):
    """Each way on of a state: the next step and state, and the choices. A Fault in place of a state is met."""
    held, blocks = state
    step = steps[at]
    var = dict(zip(NAMES, held))

    def put(name, word, blocks):
        return tuple(word if n == name else w for n, w in zip(NAMES, held)), blocks

    if step[0] == "assign":
        _, name, source, arrow, end = step
        ways = []
        if source[0] == "malloc":
            ways.append((put(name, 0, blocks), ["none"]))
            for base in bases(held, blocks):
                for cell in CELLS if source[1] == 8 else (0,):
                    ways.append((put(name, ("at", len(blocks)), blocks + ((base, source[1], True, ("raw", cell)),)), [f"block {base} {shown(cell, source[1])}"]))
        elif source[0] == "load":
            ways.append((put(name, blocks[through(var[source[1]], blocks, arrow)][3], blocks), []))
        else:
            ways.append((put(name, 0 if source[0] == "null" else var[source[1]], blocks), []))
        end_at = end
    elif step[0] == "free":
        _, name, word_at, end_at = step
        word = var[name]
        if not leads(word):
            if address(word, blocks):
                raise Fault(word_at, 6)
            ways = [((held, blocks), [])]
        elif not blocks[word[1]][2]:
            raise Fault(word_at, 5)
        else:
            dead = tuple((b[0], b[1], False, 0) if n == word[1] else b for n, b in enumerate(blocks))
            ways = [((held, dead), [])]
    elif step[0] == "store":
        _, name, other, arrow, end_at = step
        number = through(var[name], blocks, arrow)
        ways = [((held, tuple((b[0], b[1], b[2], var[other]) if n == number else b for n, b in enumerate(blocks))), [])]
    elif step[0] == "exit":
        return [] if not address(var[step[1]], blocks) else [(at + 1, state, [])]
    elif step[0] == "ask":
        _, test, other = step
        if test[0] == "input":
            return [(at + 1, state, ["input 1"]), (other, state, ["input 0"])]
        holds = address(var[test[1]], blocks) != 0 if test[0] == "held" else address(var[test[1]], blocks) == address(var[test[2]], blocks)
        return [(at + 1 if holds else other, state, [])]
    elif step[0] == "go":
        return [(step[1], state, [])]
    else:
        looked((), blocks, step[1])
        return []
    on = []
    for (now, there), choices in ways:
        try:
            looked(now, there, end_at)
            on.append((at + 1, normal(now, there), choices))
        except Fault as fault:
            on.append((None, fault, choices))
    return on


def search(lines, steps):
    """The faults that are met, each with choices that lead to it, whether all states were gone on from, and whether the program is plain."""
    open_names = [line[1] for line in lines if line[0] == "declare" and line[2] is None]
    found, seen, todo, whole, plain = {}, {}, [], True, True
    def starts(left, held):
        if not left:
            yield held
            return
        for word in [("raw", number) for number in WORDS] if left[0] in open_names else (0,):
            yield from starts(left[1:], held + (word,))
    for held in starts(NAMES, ()):
        state = (0, (held, ()))
        if state not in seen:
            seen[state] = (None, [f"block {65536 + 16 * n} {shown(address(word, ()), 8)}" for n, word in enumerate(held)])
            todo.append(state)
    def choices_of(state):
        rows = []
        while state is not None:
            state, choices = seen[state]
            rows.append(choices)
        return [choice for row in reversed(rows) for choice in row]
    def met(fault, state, choices):
        found.setdefault(fault.args, (state, choices))
    while todo:
        state = todo.pop(0) if len(todo) < 2000 else todo.pop()
        at, there = state
        plain = plain and is_plain(steps[at], *there)
        try:
            ways = went(steps, at, there)
        except Fault as fault:
            met(fault, state, [])
            continue
        for number, next_state, choices in ways:
            if number is None:
                met(next_state, state, choices)
            elif len(next_state[1]) > MOST_BLOCKS or len(seen) >= MOST_STATES:
                whole = False
            elif (number, next_state) not in seen:
                seen[(number, next_state)] = (state, choices)
                todo.append((number, next_state))
    return {fault: choices_of(state) + choices for fault, (state, choices) in found.items()}, whole, plain


# ---- what the program answers

def answered(file, loops):
    done = subprocess.run([PROGRAM, *(["--budget", LOOP_BUDGET] if loops else []), file], stdin=subprocess.DEVNULL, capture_output=True, text=True)
    lines = done.stdout.splitlines()
    told = {}
    for line in lines[:-1]:
        m = re.fullmatch(r".*?:(\d+):(\d+): (error|warning): .* \[(\d)\]", line)
        if not m:
            return None, done.stdout + done.stderr[-300:], False
        told[((int(m[1]), int(m[2])), int(m[4]))] = m[3]
    last = lines[-1].split(": ", 1)[1] if lines else f"status {done.returncode}: {done.stderr[-300:]}"
    return told, last, "spent" in last


def replayed(file, choices):
    with tempfile.NamedTemporaryFile("w", suffix=".choices") as kept:
        kept.write("".join(choice + "\n" for choice in choices))
        kept.flush()
        done = subprocess.run([PROGRAM, "replay", file, kept.name], stdin=subprocess.DEVNULL, capture_output=True, text=True)
    return done.stdout.strip()


def one(task):
    """What differs of one program, and how it counts."""
    seed, loops, folder = task
    lines = drawn_program(seed, loops)
    program = Steps(lines)
    file = Path(folder, f"{'loops' if loops else 'plain'}_{seed}.c")
    file.write_text(program.text)
    met, whole, plain = search(lines, program.steps)
    told, last, spent = answered(file, loops)
    wrong = []
    if told is None or not (last in ("safe", "warned") or spent):
        return file, [f"is answered: {last}"], plain, "otherwise"
    errors = {fault for fault, word in told.items() if word == "error"}
    if last == "safe" and met:
        wrong.append(f"is answered safe, and meets {sorted(met)}")
    if errors - set(met):
        wrong.append(f"has errors that no run meets: {sorted(errors - set(met))}" + ("" if whole else ", as far as was searched"))
    if not spent and set(met) - set(told):
        wrong.append(f"is not told of {sorted(set(met) - set(told))}")
    if not loops and (not whole or spent):
        wrong.append("was not followed to its end")
    if not loops and plain and set(told) != set(met):
        wrong.append(f"is told of {sorted(set(told) - set(met))}, which no run meets")
    if not loops and plain and set(told) != errors:
        wrong.append(f"has warnings that are met: {sorted(set(told) - errors)}")
    if met:
        (place, kind), choices = min(met.items())
        want = f"{file}:{place[0]}:{place[1]}: "
        said = replayed(file, choices)
        if not said.startswith(want) or not said.endswith(f"[{kind}]"):
            wrong.append(f"meets {want}[{kind}] in the search, and replay says {said} with {choices}")
    return file, wrong, plain, "spent" if spent else "safe" if last == "safe" else "errors alone" if len(errors) == len(told) else "warnings"


def main():
    words = [word for word in sys.argv[1:]]
    folder = None
    if "--keep" in words:
        at = words.index("--keep")
        folder = words[at + 1]
        del words[at:at + 2]
        os.makedirs(folder, exist_ok=True)
    numbers = list(map(int, words)) + [500, 300, 1][len(words):]
    plain, loops, seed = numbers
    with tempfile.TemporaryDirectory() as room:
        bad, counts = [], {}
        with ThreadPoolExecutor(int(os.environ.get("JOBS", "2"))) as pool:
            def tried(tasks):
                """How many of these programs are plain."""
                found = 0
                for (file, wrong, is_plain_one, verdict), (_, loops, _) in zip(pool.map(one, tasks), tasks):
                    what = "with loops" if loops else "plain" if is_plain_one else "without loops, not plain"
                    counts[what, verdict] = counts.get((what, verdict), 0) + 1
                    found += is_plain_one and not loops
                    for line in wrong:
                        print(f"{file.name} {line}", flush=True)
                    if wrong:
                        bad.append(file)
                        print(file.read_text(), flush=True)
                return found
            while plain > 0:
                count = min(plain, 20)
                plain -= tried([(seed + n, False, folder or room) for n in range(count)])
                seed += count
            tried([(seed + n, True, folder or room) for n in range(loops)])
    for what in sorted({what for what, _ in counts}):
        print(f"{what}: " + ", ".join(f"{counts[key]} {key[1]}" for key in sorted(counts) if key[0] == what))
    print(f"{sum(counts.values())} programs, {len(bad) or 'none'} answered otherwise")
    return len(bad) > 0


if __name__ == "__main__":
    sys.exit(print(__doc__) if "--help" in sys.argv else main())
