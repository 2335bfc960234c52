#!/usr/bin/env python3
"""Compares the steps on graphs with segments, where no register names a node, with a search over all states of a small world.

Usage, at the project's root: tests/segment_worlds.py [COUNT [SEED [STEP,..]]]
It makes COUNT random graphs (3,000, seed 1) of one or two segments and up to three regions, each with a step, has the program graph_rows make the post of each, and goes over all states of
a small world that the graph stands for. What a step does with a state is written in tests/step_worlds.py, and what a graph with segments stands for is written here, by what docs/inside.md
and docs/machine.md say, and not by the definitions of crates/. It compares what tests/step_worlds.py does: faults that are met with kinds, states that follow with the graphs of the post, where no
loss is named these with the states that follow, and the objects that are called unreached with those of which some state loses a block; and where kind 7 is listed loss 3 has to be named, since the
bytes of a link have class 2 and lie in no edge.

The world. A segment has at most three nodes, or two where there are two segments, and as many as its least number at least. Each 4 bytes of a live region are 0, 1 or a half of a pointer to the first
byte of a block; eight bytes of a node of which nothing is told are 0, 1 or such a pointer; a number of 8 bytes has two halves of 0 or 1.
"""
import itertools
import random
import sys
from collections import Counter

import step_worlds
from step_worlds import ANY_WORD, LOST, STEPS, UNREACHED, State, answers, bytes_of, comes_to, has_class, loaded, lost, moved, named_blocks, size_of

LINKS = ("head", "next", "prev", "back", "least", "after", "before")
ENDS = ("first", "last")
IN_PART = 3


def numbers(size):
    return [0, 1, 2**32, 2**32 + 1] if size == 8 else [0, 1]


# what the steps of tests/step_worlds.py take from outside is of this world
step_worlds.numbers = numbers


# ---- graphs as text

def parsed(text):
    """The parts that words spell."""
    g = {"objects": {}, "values": {}, "variables": {}, "registers": {}, "ports": [], "unequal": []}
    for word in text.split():
        if word == "graph":
            continue
        name, fields = word.split("=")
        fields = [int(f) if f.lstrip("-").isdigit() else f for f in fields.split(":")]
        if name == "object":
            last = g["objects"][fields[0]] = {"size": fields[1], "kind": fields[2], "live": fields[3] == "live", "classes": [], "edges": [], "links": None}
        elif name in ("singly", "twofold"):
            last["links"] = dict(zip(LINKS, fields), twofold=name == "twofold")
        elif name == "class":
            last["classes"] += [fields[1]] * fields[0]
        elif name == "edge":
            last["edges"].append(tuple(fields))
        elif name in ("variable", "register"):
            g[name + "s"][fields[0]] = fields[1]
        elif name == "port":
            g["ports"].append(fields[0])
        elif name == "unequal":
            g["unequal"].append(tuple(fields))
        else:
            g["values"][fields[0]] = (name, *fields[1:])
    return g


def spelled(g):
    words = []
    for key, o in g["objects"].items():
        words.append(f"object={key}:{o['size']}:{o['kind']}:{'live' if o['live'] else 'dead'}")
        if links := o["links"]:
            words.append(("twofold=" if links["twofold"] else "singly=") + ":".join(str(links[name]) for name in LINKS))
        words += [f"class={len(list(run))}:{kind}" for kind, run in itertools.groupby(o["classes"])]
        words += ["edge=%d:%d:%d" % e for e in sorted(o["edges"])]
    words += [f"{v[0]}=" + ":".join(map(str, (key, *v[1:]))) for key, v in sorted(g["values"].items())]
    words += [f"variable={v}:{o}" for v, o in sorted(g["variables"].items())]
    words += [f"register={r}:{v}" for r, v in sorted(g["registers"].items())]
    words += [f"port={v}" for v in g["ports"]]
    return " ".join(words + ["unequal=%d:%d" % p for p in g["unequal"]])


# ---- what a graph stands for, where objects have these blocks: a region one, a segment those of its nodes

def end_word(g, given, value):
    """The word of an address that is no node's own."""
    name, key, offset = value
    if given[key]:
        return ("to", given[key][-1 if name == "last" else 0], offset)
    links = g["objects"][key]["links"]
    beyond, place = (links["before"], links["back"]) if name == "last" else (links["after"], links["head"])
    return moved(fixed_word(g, given, beyond), offset - place)


def fixed_word(g, given, key):
    """The word of a value that has one."""
    value = g["values"][key]
    return value[1] if value[0] == "const" else end_word(g, given, value)


def links_of(g, given, key):
    """Each link of each node of a segment: the block, the place, and the word that stands there."""
    links, blocks = g["objects"][key]["links"], given[key]
    for place, block in enumerate(blocks):
        yield block, links["next"], ("to", blocks[place + 1], links["head"]) if place + 1 < len(blocks) else fixed_word(g, given, links["after"])
        if links["twofold"]:
            yield block, links["prev"], ("to", blocks[place - 1], links["back"]) if place else fixed_word(g, given, links["before"])


def matches(g, state, given):
    """Whether the graph stands for the state where its objects have these blocks."""
    words = {}

    def holds(key, word):
        value = g["values"][key]
        if value[0] in ("number", "any"):
            return (value[0] == "any" or isinstance(word, int) and word < 256 ** value[1]) and words.setdefault(key, word) == word
        return word == fixed_word(g, given, key)

    if any(given[key] != [state.variables[variable]] for variable, key in g["variables"].items()):
        return False
    for key, o in g["objects"].items():
        if not o["live"]:
            continue
        if o["links"] and any(state.memory[block][2][at:at + 8] != bytes_of(word, 8) for block, at, word in links_of(g, given, key)):
            return False
        for block in given[key]:
            content = state.memory[block][2]
            if not all(map(has_class, content, o["classes"])):
                return False
            for at, size, value in o["edges"]:
                held = content[at:at + size]
                word = loaded(held, size == 8)
                own = g["values"][value]
                if bytes_of(word, size) != held or not (word == ("to", block, own[2]) if own[0] == "each" else holds(value, word)):
                    return False
    if not all(holds(key, state.registers[register]) for register, key in g["registers"].items()):
        return False
    if not all(holds(key, word) for key, word in zip(g["ports"], state.ports)):
        return False
    words.update({key: value[1] for key, value in g["values"].items() if value[0] == "const"})
    return all(one not in words or other not in words or words[one] != words[other] for one, other in g["unequal"])


def lists(g, state, keys, left):
    """The blocks that live objects may have by size, kind and the links between nodes, so that none is left."""
    if not keys:
        if not left:
            yield {}
        return
    o = g["objects"][keys[0]]
    links = o["links"]
    able = [b for b in left if state.memory[b][1] == o["kind"] and len(state.memory[b][2]) == o["size"]]
    for count in range(links["least"], len(able) + 1) if links else (1,):
        for chosen in itertools.permutations(able, count):
            if links and any(state.memory[one][2][links["next"]:links["next"] + 8] != bytes_of(("to", other, links["head"]), 8) for one, other in zip(chosen, chosen[1:])):
                continue
            for others in lists(g, state, keys[1:], [b for b in left if b not in chosen]):
                yield {keys[0]: list(chosen), **others}


def stands(g, state):
    """Whether the graph stands for the state."""
    if set(g["variables"]) != set(state.variables) or set(g["registers"]) != set(state.registers) or len(g["ports"]) != len(state.ports):
        return False
    live = [k for k, o in g["objects"].items() if o["live"]]
    dead = [k for k, o in g["objects"].items() if not o["live"]]
    gone = [n for n, b in enumerate(state.memory) if not b[0]]
    absent = list(range(len(state.memory), len(state.memory) + len(dead)))
    for given in lists(g, state, live, [n for n, b in enumerate(state.memory) if b[0]]):
        for others in itertools.permutations(gone + absent, len(dead)):
            if all(n >= len(state.memory) or g["objects"][k]["kind"] == state.memory[n][1] for k, n in zip(dead, others)):
                if matches(g, state, {**given, **{k: [n] for k, n in zip(dead, others)}}):
                    return True
    return False


def canonical(state):
    """The state up to the numbers of its blocks and to dead blocks that nothing names. What dead blocks hold is free."""
    named = named_blocks(state)
    kept = [n for n, block in enumerate(state.memory) if block[0] or n in named]
    order = []

    def meet(block):
        if block not in order:
            order.append(block)

    for _, block in sorted(state.variables.items()):
        meet(block)
    for word in [*(w for _, w in sorted(state.registers.items())), *state.ports]:
        if not isinstance(word, int):
            meet(word[1])
    at = 0
    while at < len(order):
        live, _, content = state.memory[order[at]]
        for byte in content if live else ():
            if not isinstance(byte, int):
                meet(byte[1])
        at += 1
    best = None
    for rest in itertools.permutations([n for n in kept if n not in order]):
        numbered = [*order, *rest]
        new = {n: at for at, n in enumerate(numbered)}
        byte = lambda b: b if isinstance(b, int) else (new[b[1]], b[2], b[3])  # noqa: E731
        word = lambda w: w if isinstance(w, int) else (new[w[1]], w[2])  # noqa: E731
        memory = [(live, kind, tuple(map(byte, content)) if live else ()) for live, kind, content in (state.memory[n] for n in numbered)]
        mark = repr((memory, sorted((v, new[b]) for v, b in state.variables.items()), sorted((r, word(w)) for r, w in state.registers.items()), list(map(word, state.ports))))
        best = mark if best is None or mark < best else best
    return best


# ---- the states of the world

def chunks(classes, count):
    """What at most four bytes of a region may be of which no edge tells."""
    found = [bytes_of(n, len(classes)) for n in (0, 1)]
    if len(classes) == 4:
        found += [bytes_of(("to", b, 0), 8)[at:at + 4] for b in range(count) for at in (0, 4)]
    return [c for c in found if all(map(has_class, c, classes))]


def pieces(classes, count):
    """What at most eight bytes of a node may be of which nothing is told."""
    found = [bytes_of(n, len(classes)) for n in (0, 1)]
    if len(classes) == 8:
        found += [bytes_of(("to", b, 0), 8) for b in range(count)]
    return [c for c in found if all(map(has_class, c, classes))]


def free_ranges(o):
    """The ranges of an object of which neither an edge nor a link tells, of at most four bytes, or eight of a node."""
    step = 8 if o["links"] else 4
    told = {at + i for at, size, _ in o["edges"] for i in range(size)}
    if links := o["links"]:
        told |= {links["next"] + i for i in range(8)} | ({links["prev"] + i for i in range(8)} if links["twofold"] else set())
    for at in range(0, o["size"], step):
        bare = [i for i in range(at, min(at + step, o["size"])) if i not in told]
        for _, run in itertools.groupby(enumerate(bare), lambda pair: pair[1] - pair[0]):
            run = [i for _, i in run]
            yield run[0], run[-1] + 1


def words_of(g, given, key, count):
    value = g["values"][key]
    if value[0] == "number":
        return numbers(value[1])
    if value[0] == "any":
        return numbers(8) + [("to", b, 0) for b in range(count)]
    return [fixed_word(g, given, key)]


def states_with(g, given, count, most):
    """The states in which objects have these blocks; None where there are more than `most`."""
    held = {e[2] for o in g["objects"].values() for e in o["edges"]} | set(g["registers"].values()) | set(g["ports"]) | {k for pair in g["unequal"] for k in pair}
    wanted = sorted(key for key in held if g["values"][key][0] != "each")
    free = [(block, at, end, (pieces if o["links"] else chunks)(o["classes"][at:end], count)) for key, o in g["objects"].items() if o["live"] for block in given[key]
            for at, end in free_ranges(o)]
    choices = [words_of(g, given, key, count) for key in wanted] + [c for *_, c in free]
    total = 1
    for choice in choices:
        total *= len(choice)
    if total > most:
        return None
    blocks = [(key, block) for key in g["objects"] for block in given[key]]
    found = []
    for chosen in itertools.product(*choices):
        words = dict(zip(wanted, chosen))
        if any(words[one] == words[other] for one, other in g["unequal"]):
            continue
        memory = [None] * count
        for key, block in blocks:
            o = g["objects"][key]
            content = [0] * o["size"]
            for at, size, value in o["edges"]:
                own = g["values"][value]
                content[at:at + size] = bytes_of(("to", block, own[2]) if own[0] == "each" else words[value], size)
            memory[block] = [o["live"], o["kind"], content]
        for (block, at, end, _), new in zip(free, chosen[len(wanted):]):
            memory[block][2][at:end] = new
        for key, o in g["objects"].items():
            for block, at, word in links_of(g, given, key) if o["links"] else ():
                memory[block][2][at:at + 8] = bytes_of(word, 8)
        memory = tuple((live, kind, tuple(content) if live else ()) for live, kind, content in memory)
        ports = [words[k] for k in g["ports"]]
        roots = [w[1] for k, w in zip(g["ports"], ports) if g["values"][k][0] in ("address", *ENDS) and not isinstance(w, int)]
        found.append(State(memory, {v: given[o][0] for v, o in g["variables"].items()}, {r: words[v] for r, v in g["registers"].items()}, ports, roots))
    return found


def states_of(g, nodes, most=1500):
    """The states of the world for which the graph stands, where segments have at most so many nodes, each with the blocks of its objects; None where there are too many."""
    found = []
    ranges = [range(o["links"]["least"], max(o["links"]["least"], nodes) + 1) if o["links"] else (1,) for o in g["objects"].values()]
    for counts in itertools.product(*ranges):
        firsts = [0, *itertools.accumulate(counts)]
        given = {key: list(range(first, first + count)) for key, first, count in zip(g["objects"], firsts, counts)}
        some = states_with(g, given, firsts[-1], most - len(found))
        if some is None:
            return None
        found += [(state, given) for state in some]
    return found


# ---- random graphs and steps

class Maker:
    """Makes a random graph that keeps the rules of graphs."""

    def __init__(self, rng, kind):
        self.rng, self.kind = rng, kind
        self.g = {"objects": {}, "values": {0: ("const", 0, 8)}, "variables": {}, "registers": {}, "ports": [], "unequal": []}
        shapes = ["segment"] * rng.choice((1, 1, 1, 2)) + ["region"] * rng.choice((1, 1, 2)) + ["dead"] * rng.choice((0, 0, 0, 1))
        rng.shuffle(shapes)
        self.shapes = dict(enumerate(shapes))
        self.twofold = {key: rng.random() < 0.5 for key in self.shapes}
        self.sizes = {key: (16 if self.twofold[key] else rng.choice((8, 8, 16))) if shape == "segment" else rng.choice((4, 8, 8, 16)) for key, shape in self.shapes.items()}

    def keys(self, *shapes):
        return [key for key, shape in self.shapes.items() if shape in shapes]

    def value(self, value):
        """The key of a value: one that stands there already, or not."""
        same = [key for key, other in self.g["values"].items() if other == value]
        if same and (value[0] not in ("number", "any") or self.rng.random() < 0.5):
            return self.rng.choice(same)
        key = len(self.g["values"])
        self.g["values"][key] = value
        return key

    def region_address(self):
        return ("address", self.rng.choice(self.keys("region", "region", "dead")), self.rng.choice((0, 0, 0, 0, 4, 8, -1)))

    def end(self, key=None, offsets=(0, 0, 4, 8)):
        key = self.rng.choice(self.keys("segment")) if key is None else key
        return (self.rng.choice(ENDS) if self.twofold[key] else "first", key, self.rng.choice(offsets))

    def outward(self, key, name, least):
        """What lies beyond the first or the last node: where a segment may be empty, following ends of such comes to an end."""
        kind = self.rng.random()
        if kind >= 0.7 and least == 0:
            able = [other for other in self.keys("segment") if (other > key if name == "first" else other < key and self.twofold[other])]
            return self.value((name, self.rng.choice(able), self.rng.choice((0, 8)))) if able else 0
        return 0 if kind < 0.4 else self.value(("const", 5, 8)) if kind < 0.45 else self.value(self.region_address()) if kind < 0.7 else self.value(self.end(offsets=(0, 8)))

    def word(self, own=None):
        """What eight bytes hold."""
        kind = self.rng.random()
        if own is not None and kind < 0.15:
            return ("each", own, self.rng.choice((0, 8)))
        return self.end() if kind < 0.55 else self.region_address() if kind < 0.75 else ("number", 8) if kind < 0.85 else ("any",) if kind < 0.9 else ("const", 1, 8)

    def put(self, o, at, size, value):
        o["edges"].append((at, size, self.value(value)))
        o["classes"][at:at + size] = [2 if value[0] in ("any", "address", "each", *ENDS) else 1] * size

    def segment(self, key):
        twofold, size = self.twofold[key], self.sizes[key]
        places = list(range(0, size, 8))
        following = self.rng.choice(places) if not twofold else 0
        places.remove(following)
        least = self.rng.choice((1, 2) if self.kind == "close" else (0, 0, 1, 1, 2))
        links = {"head": self.rng.choice(range(0, size, 8)), "next": following, "prev": 0, "back": 0, "least": least, "after": self.outward(key, "first", least), "before": 0, "twofold": twofold}
        if twofold:
            links.update(prev=places.pop(), back=self.rng.choice((0, 8)), before=self.outward(key, "last", least))
        o = {"size": size, "kind": "heap", "live": True, "classes": [2] * size, "edges": [], "links": links}
        for at in places:
            if self.rng.random() < 0.7:
                self.put(o, at, 8, self.word(key))
            else:
                o["classes"][at:at + 8] = [self.rng.choice((0, 0, 1, 2))] * 8
        return o

    def region(self, key):
        size = self.sizes[key]
        kind = self.rng.choice(("heap", "heap", "local", "static"))
        o = {"size": size, "kind": kind, "live": True, "classes": [], "edges": [], "links": None}
        o["classes"] = sum(([self.rng.choice((0, 0, 1, 1, 2))] * 4 for _ in range(size // 4)), [])
        for at in range(0, size - 7, 8):
            if self.rng.random() < 0.75:
                self.put(o, at, 8, self.word())
        for at in range(0, size, 4):
            if not any(e[0] <= at < e[0] + e[1] for e in o["edges"]) and self.rng.random() < 0.3:
                self.put(o, at, 4, self.rng.choice((("number", 4), ("const", 1, 4))))
        return o

    def held(self):
        """What a register holds that need not name a region."""
        kind = self.rng.random()
        return self.end() if kind < 0.4 else self.region_address() if kind < 0.6 else ("number", self.rng.choice((4, 8))) if kind < 0.75 else ("any",) if kind < 0.8 else ("const", self.rng.choice((0, 1)), 8)

    def graph(self):
        makers = {"segment": self.segment, "region": self.region,
                  "dead": lambda key: {"size": self.sizes[key], "kind": "heap", "live": False, "classes": [], "edges": [], "links": None}}
        for key, shape in self.shapes.items():
            self.g["objects"][key] = makers[shape](key)
        for variable, key in enumerate(key for key, o in self.g["objects"].items() if o["live"] and o["kind"] != "heap"):
            if self.rng.random() < 0.9:
                self.g["variables"][variable] = key
        names = self.kind in ("read", "write", "fill", "copy", "release", "same")
        for register in (0, 1):
            if self.rng.random() < (0.99 if names else 0.6):
                value = self.region_address() if names and (register == 0 or self.kind in ("copy", "same") or self.rng.random() < 0.3) and self.rng.random() < 0.95 else self.held()
                self.g["registers"][register] = self.value(value)
        if self.rng.random() < 0.15:
            self.g["ports"] = [self.value(self.held())]
        for one, other in itertools.combinations(self.g["values"], 2):
            kinds = {self.g["values"][one][0], self.g["values"][other][0]}
            if kinds <= {"const", "number"} and "number" in kinds and size_of(self.g["values"][one]) == size_of(self.g["values"][other]) and self.rng.random() < 0.3:
                self.g["unequal"].append((one, other))
        return self.g


# how often each step comes; the register that it goes through is 0
WEIGHTS = {"read": 5, "write": 5, "fill": 3, "copy": 3, "release": 3, "allocate": 2, "enter": 2, "leave": 4, "finish": 4, "close": 1, "refuse": 1, "same": 1, "move": 1, "shift": 1, "number": 1, "input": 1, "unreached": 4}


def random_fields(rng, g, kind):
    """The fields of a step."""
    held = {r: size_of(g["values"][v]) for r, v in g["registers"].items()}
    if kind == "read":
        size = rng.choice((4, 8, 8, 8))
        return [0, size, rng.choice((0, 1, 1)) if size == 8 else 0, rng.choice((0, 2))]
    if kind == "leave":
        names = list(g["variables"])
        return rng.sample(names, rng.randrange(min(len(names), 2) + 1)) if names else []
    return {"write": [0, held.get(1, 4), 1], "fill": [0, 1, rng.choice((0, 4, 8))], "copy": [0, 1, rng.choice((0, 4, 8, 8)), rng.choice((0, 1))], "release": [0],
            "allocate": [rng.choice((4, 8)), rng.choice((0, 1)), 2], "enter": rng.choice(([], [2, 4], [2, 8], [3, 4, 2, 4])), "finish": rng.choice(([0], [1], [0, 1])), "refuse": [2],
            "same": [0, 1, rng.choice((0, 1))], "move": [2, rng.choice((0, 1))], "shift": [rng.choice((0, 2)), 0, rng.choice((92, 99, 100, 104, 108))], "number": [2, rng.choice((0, 1, 5)), 8],
            "input": [2, rng.choice((1, 4, 8)), rng.choice((0, 1))]}.get(kind, [])


def random_case(rng, kinds):
    """A graph of which not too many states are of the world, a step, its fields, how many nodes segments have at most, and these states."""
    while True:
        kind = rng.choices(kinds, [WEIGHTS[kind] for kind in kinds])[0]
        g = Maker(rng, kind).graph()
        nodes = 3 if sum(o["links"] is not None for o in g["objects"].values()) == 1 else 2
        states = states_of(g, nodes)
        if states is not None and states:
            return g, kind, random_fields(rng, g, kind), nodes, states


# ---- comparing

def differences(kind, fields, nodes, states, answer, counts):
    """What the post says otherwise than the search."""
    head, *graphs = answer.split(" / ")
    told = dict(word.split("=") for word in head.split()[1:])
    kinds = {int(k) for k in told.get("kinds", "").split(":") if k}
    loss = int(told["loss"]) if "loss" in told else None
    after = [parsed(text) for text in graphs]
    found, met, followers = [], set(), {}
    for state, _ in states:
        for what, came in comes_to(state, kind, fields):
            if what == "fault":
                met.add(came)
            else:
                followers.setdefault(canonical(came), came)
    counts[f"loss {loss}" if loss else "exact"] += 1
    if not met <= kinds:
        found.append(f"faults {sorted(met - kinds)} are met and not listed")
    if LOST in kinds and loss != IN_PART:
        found.append("kind 7 is listed where a byte of a link lies in no edge, and not loss 3")
    if kinds - met and loss != ANY_WORD:
        found.append(f"kinds {sorted(kinds - met)} are listed and not met")
    if loss != ANY_WORD:
        for mark, state in followers.items():
            if not any(stands(graph, state) for graph in after):
                found.append(f"a state that follows is not stood for: {mark}")
                break
    if loss is None:
        for graph in after:
            ahead = states_of(graph, nodes)
            if ahead is None:
                counts["post too large"] += 1
            for state, _ in ahead or ():
                if canonical(state) not in followers:
                    found.append(f"a state is stood for that does not follow: {canonical(state)}")
                    return found
    return found


def unlike(g, states, answer, counts):
    """What is said of the objects of which some state loses a block otherwise than the search says."""
    counts["exact"] += 1
    wanted = sorted({key for state, given in states for n in lost(state) for key, blocks in given.items() if n in blocks})
    told = [] if answer == "all reached" else [int(key) for key in answer.split()[1].split(":")]
    return [] if told == wanted else [f"the objects of which some state loses a block are {wanted}"]


def row(g, kind, fields):
    return f"{kind} {spelled(g)}" if kind == UNREACHED else f"{kind} {':'.join(map(str, fields))}{' ' * bool(fields)}/ {spelled(g)}"


def main():
    count = int(sys.argv[1]) if len(sys.argv) > 1 else 3000
    rng = random.Random(int(sys.argv[2]) if len(sys.argv) > 2 else 1)
    kinds = sys.argv[3].split(",") if len(sys.argv) > 3 else list(WEIGHTS)
    assert set(WEIGHTS) <= {*STEPS, UNREACHED}
    cases = [random_case(rng, kinds) for _ in range(count)]
    lines = [row(*case[:3]) for case in cases]
    got = answers(lines)
    if len(got) != len(lines):
        sys.exit(f"{len(lines)} rows, and {len(got)} answers: {got[:3]}")
    counts, wrong, none = Counter(), 0, Counter()
    for (g, kind, fields, nodes, states), line, answer in zip(cases, lines, got):
        if not answer.startswith(("post", "unreached", "all reached")):
            none[f"{answer} ({kind})" if answer == "no row" else answer] += 1
            continue
        for difference in unlike(g, states, answer, counts) if kind == UNREACHED else differences(kind, fields, nodes, states, answer, counts):
            wrong += 1
            print(f"{line}\n  {answer}\n  {difference}", flush=True)
    print(f"{count} cases, {wrong} differences; " + ", ".join(f"{n} {word}" for word, n in [*sorted(counts.items()), *sorted(none.items())]))
    return wrong > 0


if __name__ == "__main__":
    sys.exit(print(__doc__) if "--help" in sys.argv else main())
