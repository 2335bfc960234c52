#!/usr/bin/env python3
"""Compares the steps on graphs with a search over all states of a small world.

Usage, at the project's root: tests/step_worlds.py [COUNT [SEED]]
It makes COUNT random graphs (3,000, seed 1), each with a step, has the program graph_rows make the post of each, and goes over all states of
a small world that the graph stands for. What a step does with a state, and what a graph stands for, is written here by what docs/inside.md
and docs/machine.md say, and not by the definitions of crates/. It compares
- each fault that some state meets with the kinds of the post, and each kind of the post with the faults that are met;
- each state that follows with the graphs of the post: one of them has to stand for it, but through any word (loss 4);
- where no loss is named each state of the world that a graph of the post stands for with those that follow: it has to be one of them, but for
  the numbers of blocks and for dead blocks that nothing names;
- the objects that are called unreached with those of which some state loses a block.

The world. A memory has a block for each object of the graph, and those that the step makes. Each 4 bytes of a live block are 0, 1, 2^31 or a half of a pointer to
the first byte of a block; a number of 1, 2 or 4 bytes is 0, 1 or the greatest power of 2 that fits, and one of 8 bytes two such of 4. The block with number n lies at
65,536 times n + 1.
"""
import itertools
import random
import subprocess
import sys
import tempfile
from pathlib import Path

HOME = Path(__file__).resolve().parent.parent
NULL, OUTSIDE, DEAD, INVALID, DOUBLE, BAD_FREE, LOST, OVERLAP, NEVER_FREED = range(1, 10)
ANY_WORD = 4


# ---- graphs as text

def parsed(text):
    """The parts that words spell."""
    g = {"objects": {}, "values": {}, "variables": {}, "registers": {}, "ports": [], "unequal": []}
    for word in text.split():
        if word == "graph":
            continue
        name, fields = word.split("=")
        fields = [int(f) if f.lstrip("-").isdigit() else f for f in fields.split(":")]
        if name == "object":
            last = g["objects"][fields[0]] = {"size": fields[1], "kind": fields[2], "live": fields[3] == "live", "classes": [], "edges": []}
        elif name == "class":
            last["classes"] += [fields[1]] * fields[0]
        elif name == "edge":
            last["edges"].append(tuple(fields))
        elif name in ("const", "number", "any", "address"):
            g["values"][fields[0]] = (name, *fields[1:])
        elif name in ("variable", "register"):
            g[name + "s"][fields[0]] = fields[1]
        elif name == "port":
            g["ports"].append(fields[0])
        else:
            g["unequal"].append(tuple(fields))
    return g


def spelled(g):
    words = []
    for key, o in g["objects"].items():
        words.append(f"object={key}:{o['size']}:{o['kind']}:{'live' if o['live'] else 'dead'}")
        words += [f"class=1:{c}" for c in o["classes"]]
        words += ["edge=%d:%d:%d" % e for e in o["edges"]]
    for key, v in g["values"].items():
        words.append(f"{v[0]}=" + ":".join(map(str, (key, *v[1:]))))
    words += [f"variable={v}:{o}" for v, o in sorted(g["variables"].items())]
    words += [f"register={r}:{v}" for r, v in sorted(g["registers"].items())]
    words += [f"port={v}" for v in g["ports"]]
    words += ["unequal=%d:%d" % p for p in g["unequal"]]
    return " ".join(words)


def size_of(value):
    return {"const": lambda: value[2], "number": lambda: value[1]}.get(value[0], lambda: 8)()


# ---- states: memory is a tuple of blocks (live, kind, bytes), a word is a number or ("to", block, offset), a byte a number or ("part", block, offset, k)

def bytes_of(word, size):
    if isinstance(word, int):
        return tuple(word >> 8 * i & 255 for i in range(size))
    return tuple(("part", word[1], word[2], i) for i in range(size))


def base(block):
    return 65536 * (block + 1)


def address(word):
    return word if isinstance(word, int) else (base(word[1]) + word[2]) % 2**64


def number_of_byte(byte):
    return byte if isinstance(byte, int) else (base(byte[1]) + byte[2]) % 2**64 >> 8 * byte[3] & 255


def loaded(held, pointer):
    """The word that bytes are, read at a pointer type or at an integer type."""
    if pointer and not isinstance(held[0], int):
        word = ("to", held[0][1], held[0][2])
        if bytes_of(word, 8) == held:
            return word
    return sum(number_of_byte(b) << 8 * i for i, b in enumerate(held))


def access_fault(memory, word, size):
    if isinstance(word, int):
        return NULL if word < 4096 else INVALID
    live, _, content = memory[word[1]]
    if not live:
        return DEAD
    return None if 0 <= word[2] and word[2] + size <= len(content) else OUTSIDE


def put_bytes(memory, word, new):
    live, kind, content = memory[word[1]]
    content = content[:word[2]] + tuple(new) + content[word[2] + len(new):]
    return memory[:word[1]] + ((live, kind, content),) + memory[word[1] + 1:]


class State:
    def __init__(self, memory, variables, registers, ports=(), roots=()):
        self.memory, self.variables, self.registers, self.ports, self.roots = memory, dict(variables), dict(registers), tuple(ports), tuple(roots)

    def copy(self, **new):
        kept = {"memory": self.memory, "variables": self.variables, "registers": self.registers, "ports": self.ports, "roots": self.roots}
        return State(**{**kept, **new})

    def without(self, *gone):
        return {r: w for r, w in self.registers.items() if r not in gone}

    def key(self):
        return canonical(self)


def named_blocks(state):
    found = {w[1] for w in [*state.registers.values(), *state.ports] if not isinstance(w, int)} | set(state.variables.values()) | set(state.roots)
    for live, _, content in state.memory:
        if live:
            found |= {b[1] for b in content if not isinstance(b, int)}
    return found


def canonical(state):
    """The state up to the numbers of its blocks and to dead blocks that nothing names. What dead blocks hold is free."""
    named = named_blocks(state)
    kept = [n for n, block in enumerate(state.memory) if block[0] or n in named]
    best = None
    for order in itertools.permutations(range(len(kept))):
        new = dict(zip(kept, order))
        word = lambda w: w if isinstance(w, int) else ("to", new[w[1]], w[2])  # noqa: E731
        byte = lambda b: b if isinstance(b, int) else ("part", new[b[1]], b[2], b[3])  # noqa: E731
        memory = [None] * len(kept)
        for n in kept:
            live, kind, content = state.memory[n]
            memory[new[n]] = (live, kind, tuple(map(byte, content)) if live else ())
        shown = (tuple(memory), tuple(sorted((v, new[b]) for v, b in state.variables.items())),
                 tuple(sorted((r, word(w)) for r, w in state.registers.items())), tuple(map(word, state.ports)))
        mark = repr(shown)
        if best is None or mark < best:
            best = mark
    return best


# ---- what a graph stands for

def has_class(byte, wanted):
    return wanted == 2 or isinstance(byte, int) and (wanted == 1 or byte == 0)


def fits(value, word, given):
    if value[0] == "const":
        return word == value[1]
    if value[0] == "number":
        return isinstance(word, int) and word < 256 ** value[1]
    return value[0] == "any" or word == ("to", given[value[1]], value[2])


def matches(g, state, given):
    """Whether the graph stands for the state where its objects have these blocks."""
    words = {}

    def holds(key, word):
        return fits(g["values"][key], word, given) and words.setdefault(key, word) == word

    for variable, key in g["variables"].items():
        if state.variables.get(variable) != given[key]:
            return False
    for register, key in g["registers"].items():
        if not holds(key, state.registers[register]):
            return False
    for key, word in zip(g["ports"], state.ports):
        if not holds(key, word):
            return False
    for key, o in g["objects"].items():
        if not o["live"]:
            continue
        live, kind, content = state.memory[given[key]]
        if not all(map(has_class, content, o["classes"])):
            return False
        for at, size, value in o["edges"]:
            held = content[at:at + size]
            word = loaded(held, True) if size == 8 else loaded(held, False)
            if bytes_of(word, size) != held or not holds(value, word):
                return False
    for key, value in g["values"].items():
        if value[0] == "const":
            words.setdefault(key, value[1])
        elif value[0] == "address":
            words.setdefault(key, ("to", given[value[1]], value[2]))
    return all(one not in words or other not in words or words[one] != words[other] for one, other in g["unequal"])


def stands(g, state):
    """Whether the graph stands for the state."""
    if set(g["variables"]) != set(state.variables) or set(g["registers"]) != set(state.registers) or len(g["ports"]) != len(state.ports):
        return False
    live = [k for k, o in g["objects"].items() if o["live"]]
    dead = [k for k, o in g["objects"].items() if not o["live"]]
    blocks = [n for n, b in enumerate(state.memory) if b[0]]
    gone = [n for n, b in enumerate(state.memory) if not b[0]]
    if len(live) != len(blocks):
        return False
    absent = list(range(len(state.memory), len(state.memory) + len(dead)))
    for chosen in itertools.permutations(blocks):
        if any(g["objects"][k]["kind"] != state.memory[n][1] or g["objects"][k]["size"] != len(state.memory[n][2]) for k, n in zip(live, chosen)):
            continue
        for others in itertools.permutations(gone + absent, len(dead)):
            if any(n < len(state.memory) and g["objects"][k]["kind"] != state.memory[n][1] for k, n in zip(dead, others)):
                continue
            if matches(g, state, {**dict(zip(live, chosen)), **dict(zip(dead, others))}):
                return True
    return False


def numbers(size):
    most = [0, 1, 2 ** (8 * min(size, 4) - 1)]
    return [low + (high << 32) for low in most for high in most] if size == 8 else most


def words_of(value, given, count):
    if value[0] == "const":
        return [value[1]]
    if value[0] == "number":
        return numbers(value[1])
    if value[0] == "any":
        return numbers(8) + [("to", b, 0) for b in range(count)]
    return [("to", given[value[1]], value[2])]


def chunks(classes, count):
    """What bytes may be that no edge tells of, of at most four bytes."""
    size = len(classes)
    found = [bytes_of(n, size) for n in numbers(4) if n < 256 ** size]
    if size == 4:
        found += [bytes_of(("to", b, 0), 8)[at:at + 4] for b in range(count) for at in (0, 4)]
    return [c for c in found if all(map(has_class, c, classes))]


def states_of(g, most=4000):
    """The states of the world that the graph stands for, up to the numbers of blocks; None where there are too many."""
    keys = list(g["objects"])
    given = {key: n for n, key in enumerate(keys)}
    count = len(keys)
    held = {e[2] for o in g["objects"].values() for e in o["edges"]} | set(g["registers"].values()) | set(g["ports"])
    held |= {k for pair in g["unequal"] for k in pair}
    wanted = sorted(held)
    choices = [words_of(g["values"][key], given, count) for key in wanted]
    free = []
    for key, o in g["objects"].items():
        if not o["live"]:
            continue
        told = {at + i for at, size, _ in o["edges"] for i in range(size)}
        at = 0
        while at < o["size"]:
            end = at
            while end < o["size"] and end not in told and end < at - at % 4 + 4:
                end += 1
            if end > at:
                free.append((key, at, end))
                choices.append(chunks(o["classes"][at:end], count))
            at = max(end, at + 1)
    total = 1
    for choice in choices:
        total *= len(choice)
    if total > most:
        return None
    found = []
    for chosen in itertools.product(*choices):
        words = dict(zip(wanted, chosen))
        if any(words[one] == words[other] for one, other in g["unequal"]):
            continue
        contents = {key: [0] * o["size"] for key, o in g["objects"].items()}
        for key, o in g["objects"].items():
            for at, size, value in o["edges"]:
                contents[key][at:at + size] = bytes_of(words[value], size)
        for (key, at, end), new in zip(free, chosen[len(wanted):]):
            contents[key][at:end] = new
        memory = tuple((o["live"], o["kind"], tuple(contents[key]) if o["live"] else ()) for key, o in g["objects"].items())
        ports = [words[k] for k in g["ports"]]
        found.append(State(memory, {v: given[o] for v, o in g["variables"].items()}, {r: words[v] for r, v in g["registers"].items()}, ports,
                           [w[1] for k, w in zip(g["ports"], ports) if g["values"][k][0] == "address"]))
    return found


# ---- what steps do with states: each gives a list of ("to", state) and ("fault", kind)

def lost(state):
    """The live blocks from malloc to which no chain of whole stored pointers leads."""
    waiting = set(state.variables.values()) | set(state.roots) | {w[1] for w in state.registers.values() if not isinstance(w, int)}
    seen = set()
    while waiting:
        block = waiting.pop()
        if block in seen:
            continue
        seen.add(block)
        live, _, content = state.memory[block]
        if live:
            for at in range(len(content) - 7):
                word = loaded(content[at:at + 8], True)
                if not isinstance(word, int):
                    waiting.add(word[1])
    return [n for n, (live, kind, _) in enumerate(state.memory) if live and kind == "heap" and n not in seen]


def unless_lost(state):
    return [("fault", LOST)] if lost(state) else [("to", state)]


def read(state, at, size, pointer, into):
    word = state.registers[at]
    if kind := access_fault(state.memory, word, size):
        return [("fault", kind)]
    held = state.memory[word[1]][2][word[2]:word[2] + size]
    return [("to", state.copy(registers={**state.without(at), into: loaded(held, pointer)}))]


def write(state, at, size, source):
    word = state.registers[at]
    if kind := access_fault(state.memory, word, size):
        return [("fault", kind)]
    written = state.registers[source]
    return [("to", state.copy(memory=put_bytes(state.memory, word, bytes_of(written, size)), registers=state.without(at, source)))]


def refuse(state, into):
    return [("to", state.copy(registers={**state.registers, into: 0}))]


def finish(state, *gone):
    return unless_lost(state.copy(registers=state.without(*gone)))


def fill(state, at, source, length):
    word, number = state.registers[at], address(state.registers[source]) % 256
    if length and (kind := access_fault(state.memory, word, length)):
        return [("fault", kind)]
    memory = put_bytes(state.memory, word, [number] * length) if length else state.memory
    return [("to", state.copy(memory=memory, registers=state.without(at, source)))]


def copy(state, to, source, length, disjoint):
    target, origin = state.registers[to], state.registers[source]
    memory = state.memory
    if length:
        for word in (origin, target):
            if kind := access_fault(memory, word, length):
                return [("fault", kind)]
        if disjoint and target[1] == origin[1] and abs(target[2] - origin[2]) < length:
            return [("fault", OVERLAP)]
        memory = put_bytes(memory, target, memory[origin[1]][2][origin[2]:origin[2] + length])
    return [("to", state.copy(memory=memory, registers=state.without(to, source)))]


def release(state, at):
    word = state.registers[at]
    after = state.copy(registers=state.without(at))
    if word == 0:
        return [("to", after)]
    if isinstance(word, int) or word[2] != 0 or state.memory[word[1]][1] != "heap":
        return [("fault", BAD_FREE)]
    live, kind, _ = state.memory[word[1]]
    if not live:
        return [("fault", DOUBLE)]
    after.memory = state.memory[:word[1]] + ((False, kind, ()),) + state.memory[word[1] + 1:]
    return [("to", after)]


def contents_of(size):
    """What a block of so many bytes may hold that are numbers."""
    pieces = itertools.product(*([bytes_of(n, 4) for n in numbers(4)] for _ in range(size // 4)))
    return [tuple(b for piece in content for b in piece) for content in pieces]


def allocate(state, size, zeroed, into):
    found = []
    for content in [(0,) * size] if zeroed else contents_of(size):
        found.append(("to", state.copy(memory=state.memory + ((True, "heap", content),), registers={**state.registers, into: ("to", len(state.memory), 0)})))
    return found


def enter(state, *fields):
    found = [state]
    for variable, size in zip(fields[::2], fields[1::2]):
        found = [was.copy(memory=was.memory + ((True, "local", content),), variables={**was.variables, variable: len(was.memory)}) for was in found for content in contents_of(size)]
    return [("to", came) for came in found]


def leave(state, *which):
    memory, variables = list(state.memory), dict(state.variables)
    for variable in which:
        block = variables.pop(variable)
        memory[block] = (False, memory[block][1], ())
    return unless_lost(state.copy(memory=tuple(memory), variables=variables))


def close(state):
    return [("fault", NEVER_FREED)] if any(live and kind == "heap" for live, kind, _ in state.memory) else [("to", state)]


def same(state, one, other, wanted):
    if (address(state.registers[one]) == address(state.registers[other])) != bool(wanted):
        return []
    return [("to", state.copy(registers=state.without(one, other)))]


def signed(number, size):
    number %= 256 ** size
    return number - 256 ** size if number >= 256 ** size // 2 else number


def value(number, size, is_signed):
    return signed(number, size) if is_signed else number % 256 ** size


def moved(word, by):
    return (word + by) % 2**64 if isinstance(word, int) else ("to", word[1], signed(word[2] + by, 8))


def gets(state, into, word, *gone):
    return [("to", state.copy(registers={**state.without(*gone), into: word}))]


def number(state, into, constant, size):
    return gets(state, into, constant)


def variable_address(state, into, variable):
    return gets(state, into, ("to", state.variables[variable], 0)) if variable in state.variables else []


def move(state, into, source):
    return gets(state, into, state.registers[source])


def shift(state, into, at, by):
    return gets(state, into, moved(state.registers[at], by - 100), at)


def shift_by(state, into, at, by, scale):
    return gets(state, into, moved(state.registers[at], signed(address(state.registers[by]), 8) * (scale - 100)), at, by)


def convert(state, into, source, size, is_signed, had):
    return gets(state, into, value(address(state.registers[source]), had, is_signed) % 256**size, source)


def received(state, into, size, truth):
    return [("to", state.copy(registers={**state.registers, into: n})) for n in ([0, 1] if truth else numbers(size))]


def operate(op):
    def step(state, into, left, right, size, is_signed):
        one, other = address(state.registers[left]), address(state.registers[right])
        a, b = value(one, size, is_signed), value(other, size, is_signed)
        if op in ("less", "lessequal"):
            return gets(state, into, int(a < b if op == "less" else a <= b), left, right)
        if op in ("div", "rem"):
            if b == 0:
                return []
            quotient = abs(a) // abs(b) * (1 if (a < 0) == (b < 0) else -1)
            found = quotient if op == "div" else a - quotient * b
        elif op in ("left", "right"):
            if other >= 8 * size:
                return []
            found = a << other if op == "left" else a >> other
        else:
            found = {"add": a + b, "sub": a - b, "mul": a * b, "and": a & b, "or": a | b, "xor": a ^ b}[op]
        return gets(state, into, found % 256**size, left, right)
    return step


OPERATORS = ("add", "sub", "mul", "div", "rem", "and", "or", "xor", "left", "right", "less", "lessequal")


# ---- random graphs and steps

def random_graph(rng):
    g = {"objects": {}, "values": {}, "variables": {}, "registers": {}, "ports": [], "unequal": []}
    count = rng.choice((1, 1, 2, 2, 3))
    for key in range(count):
        live = rng.random() < 0.8
        size = rng.choice((4, 8, 8, 8))
        g["objects"][key] = {"size": size, "kind": rng.choice(("heap", "heap", "local", "static")), "live": live, "classes": [], "edges": []}
    names = list(range(rng.choice((2, 3, 4))))
    for key in names:
        g["values"][key] = rng.choice((("const", 0, 8), ("const", 1, 8), ("const", 1, 4), ("number", 4), ("number", 8), ("number", 8), ("any",),
                                       ("address", rng.randrange(count), rng.choice((0, 0, 0, 4, 8, -1))),
                                       ("address", rng.randrange(count), 0)))
    for key, o in g["objects"].items():
        if not o["live"]:
            continue
        classes = []
        while len(classes) < o["size"]:
            classes += [rng.choice((0, 1, 1, 2))] * 4
        at = 0
        while at < o["size"]:
            value = rng.choice(names)
            size = size_of(g["values"][value])
            zero = g["values"][value][0] == "const" and g["values"][value][1] == 0
            if rng.random() < 0.5 and at + size <= o["size"] and not zero:
                o["edges"].append((at, size, value))
                classes[at:at + size] = [2 if g["values"][value][0] in ("any", "address") else 1] * size
                at += size
            else:
                at += 4
        o["classes"] = classes
    places = [k for k, o in g["objects"].items() if o["live"] and o["kind"] != "heap"]
    for variable, key in enumerate(places):
        if rng.random() < 0.8:
            g["variables"][variable] = key
    for register in (0, 1):
        if rng.random() < 0.9:
            g["registers"][register] = rng.choice(names)
    if rng.random() < 0.15:
        g["ports"] = [rng.choice(names)]
    for one, other in itertools.combinations(names, 2):
        kinds = {g["values"][one][0], g["values"][other][0]}
        if kinds <= {"const", "number"} and "number" in kinds and size_of(g["values"][one]) == size_of(g["values"][other]) and rng.random() < 0.3:
            g["unequal"].append((one, other))
    return g


def random_step(rng, g, steps):
    """A step, and its fields."""
    kind = rng.choice(steps)
    one, other = rng.sample((0, 1), 2)
    held = {r: size_of(g["values"][v]) for r, v in g["registers"].items()}
    if kind == "read":
        size = rng.choice((4, 8, 8))
        return kind, [one, size, rng.choice((0, 1)) if size == 8 else 0, rng.choice((one, 2))]
    if kind == "write":
        return kind, [one, held.get(other, 4), other]
    if kind == "refuse":
        return kind, [2]
    if kind == "finish":
        return kind, rng.choice(([0], [1], [0, 1]))
    if kind == "fill":
        return kind, [one, other, rng.choice((0, 4, 8))]
    if kind == "copy":
        return kind, [one, other, rng.choice((0, 4, 8)), rng.choice((0, 1))]
    if kind == "release":
        return kind, [one]
    if kind == "allocate":
        return kind, [rng.choice((4, 8)), rng.choice((0, 1)), 2]
    if kind == "enter":
        return kind, rng.choice(([], [2, 4], [2, 8], [3, 4, 2, 4], [0, 4]))
    if kind == "leave":
        return kind, rng.choice(([], [0], [0], [1], [0, 1], [1, 0]))
    if kind in ("close", "unreached"):
        return kind, []
    if kind == "number":
        return kind, [2, rng.choice((0, 1, 5, 4096)), 8]
    if kind == "address":
        return kind, [2, rng.choice((0, 1))]
    if kind == "move":
        return kind, [2, one]
    if kind == "shift":
        return kind, [rng.choice((one, 2)), one, rng.choice((92, 99, 100, 104, 108))]
    if kind == "shiftby":
        return kind, [rng.choice((one, 2)), one, other, rng.choice((92, 101, 104, 108))]
    if kind == "convert":
        return kind, [rng.choice((one, 2)), one, rng.choice((1, 4, 8)), rng.choice((0, 1))]
    if kind == "input":
        return kind, [2, rng.choice((1, 4, 8)), rng.choice((0, 1))]
    if kind in OPERATORS:
        return kind, [rng.choice((one, 2)), one, other, held.get(one, 4), rng.choice((0, 1))]
    return kind, [0, 1, rng.choice((0, 1))]


STEPS = {op: operate(op) for op in OPERATORS} | {
    "number": number, "address": variable_address, "move": move, "shift": shift, "shiftby": shift_by, "convert": convert, "input": received,
    "read": read, "write": write, "refuse": refuse, "finish": finish, "fill": fill, "copy": copy, "release": release, "allocate": allocate, "enter": enter, "leave": leave, "close": close, "same": same}
UNREACHED = "unreached"


# ---- comparing

def comes_to(state, kind, fields):
    """What a step comes to in a state; where a register that it reads holds nothing, the run is over."""
    try:
        return STEPS[kind](state, *fields)
    except KeyError:
        return []


def differences(g, kind, fields, answer, counts):
    """What the post says otherwise than the search."""
    states = states_of(g)
    if states is None:
        counts["too many"] += 1
        return []
    head, *graphs = answer.split(" / ")
    told = dict(word.split("=") for word in head.split()[1:])
    kinds = {int(k) for k in told.get("kinds", "").split(":") if k}
    loss = int(told["loss"]) if "loss" in told else None
    after = [parsed(text) for text in graphs]
    found = []
    # a conversion reads as many bytes as the register holds
    sizes = [size_of(g["values"][g["registers"][fields[1]]]) if fields[1] in g["registers"] else 0] if kind == "convert" else []
    met, followers = set(), {}
    for state in states:
        for what, came in comes_to(state, kind, [*fields, *sizes]):
            if what == "fault":
                met.add(came)
            else:
                followers.setdefault(canonical(came), came)
    counts["loss" if loss else "exact"] += 1
    if not met <= kinds:
        found.append(f"faults {sorted(met - kinds)} are met and not listed")
    if kinds - met and loss != ANY_WORD:
        found.append(f"kinds {sorted(kinds - met)} are listed and not met")
    if loss != ANY_WORD:
        for mark, state in followers.items():
            if not any(stands(graph, state) for graph in after):
                found.append(f"a state that follows is not stood for: {mark}")
                break
    if loss is None:
        for graph in after:
            ahead = states_of(graph)
            for state in ahead or ():
                if canonical(state) not in followers:
                    found.append(f"a state is stood for that does not follow: {canonical(state)}")
                    return found
    return found


def unlike(g, answer, counts):
    """What is said of the objects of which some state loses a block otherwise than the search says."""
    states = states_of(g)
    if states is None:
        counts["too many"] += 1
        return []
    counts["exact"] += 1
    keys = list(g["objects"])
    wanted = sorted({keys[n] for state in states for n in lost(state)})
    told = [] if answer == "all reached" else [int(key) for key in answer.split()[1].split(":")]
    return [] if told == wanted else [f"the objects of which some state loses a block are {wanted}"]


def row(g, kind, fields):
    return f"{kind} {spelled(g)}" if kind == UNREACHED else f"{kind} {':'.join(map(str, fields))} / {spelled(g)}"


def answers(lines):
    """What the program graph_rows prints of each line."""
    with tempfile.TemporaryDirectory() as folder:
        Path(folder, "rows").write_text("\n".join(lines) + "\n")
        done = subprocess.run(["rt", "try", "--"], cwd=HOME / "crates" / "graph_rows", stdin=open(Path(folder, "rows")), stdout=subprocess.PIPE,
                              stderr=subprocess.PIPE, text=True)
    return [line for line in done.stdout.splitlines() if not line.startswith(("rt:", "run=", "checked:"))]


def main():
    count = int(sys.argv[1]) if len(sys.argv) > 1 else 3000
    rng = random.Random(int(sys.argv[2]) if len(sys.argv) > 2 else 1)
    steps = sys.argv[3].split(",") if len(sys.argv) > 3 else [*STEPS, UNREACHED]
    cases = []
    for _ in range(count):
        g = random_graph(rng)
        cases.append((g, *random_step(rng, g, steps)))
    lines = [row(*case) for case in cases]
    got = answers(lines)
    if len(got) != len(lines):
        sys.exit(f"{len(lines)} rows, and {len(got)} answers: {got[:3]}")
    counts, wrong = {"exact": 0, "loss": 0, "too many": 0, "no row": 0}, 0
    for (g, kind, fields), line, answer in zip(cases, lines, got):
        if not answer.startswith(("post", "unreached", "all reached")):
            counts["no row"] += 1
            continue
        for difference in unlike(g, answer, counts) if kind == UNREACHED else differences(g, kind, fields, answer, counts):
            wrong += 1
            print(f"{line}\n  {answer}\n  {difference}")
    print(f"{count} cases, {wrong} differences; " + ", ".join(f"{n} {word}" for word, n in counts.items()))
    return wrong > 0


if __name__ == "__main__":
    sys.exit(main())
