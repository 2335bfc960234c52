#!/usr/bin/env python3
"""Compares what a segment of a graph is split into with a search over all states of a small world.

Usage, at the project's root: tests/split_worlds.py [COUNT [SEED]]
It makes COUNT random graphs (3,000, seed 1) of one or two objects of which the first is a segment, has the program graph_rows split it (a row `dropped`,
`first` or `last`), and goes over all states of the world of segments of tests/graph_memories.py, whose reading of what a graph stands for it shares: that
is written by what docs/inside.md says, and not by the definitions of crates/. It compares
- the states of the graph without the segment with those of the given graph in which the segment has no node;
- the states of the graphs into which it is split, with the first or the last node a region, with all states of the given graph; those in which the segment
  has a node have to be those of the graph with a region more.
A segment has nodes of 8 bytes, or of 16 and may be linked both ways then. Links back lead to where the links lead, or elsewhere; behind and before a segment
lie null, another number, its own other end, or an end or the block of the other object; a node holds null, a number, any word, its own address, the
address of an end, or nothing that is told.
"""
import random
import subprocess
import sys
import tempfile
from collections import Counter
from pathlib import Path

from graph_memories import bytes_of, fixed_word, lists, nodes_fit, parsed
import itertools

HOME = Path(__file__).resolve().parent.parent
NULL = 9


def value_word(key, value):
    name, *rest = value
    return f"{name}=" + ":".join(map(str, (key, *rest)))


def spelled(g):
    """A graph as the words of a row."""
    words = []
    for key, o in g["objects"].items():
        words.append(f"object={key}:{o['size']}:heap:live")
        if links := o["links"]:
            places = [links[name] for name in ("head", "next", "prev", "back", "least", "after", "before")]
            words.append(("twofold=" if links["twofold"] else "singly=") + ":".join(map(str, places)))
        words += [f"class={len(list(run))}:{kind}" for kind, run in itertools.groupby(o["classes"])]
        words += ["edge=%d:%d:%d" % tuple(edge) for edge in sorted(o["edges"])]
    words += [value_word(key, value) for key, value in sorted(g["values"].items())]
    words += [f"register={register}:{key}" for register, key in g["registers"].items()]
    return " ".join(words)


class Maker:
    """Makes a random graph."""

    def __init__(self, rng):
        self.rng = rng
        self.g = {"objects": {}, "values": {NULL: ("const", 0, 8)}, "variables": {}, "registers": {}, "ports": [], "unequal": []}
        self.twofold = rng.random() < 0.5
        self.size = 16 if self.twofold else rng.choice((8, 8, 16))
        self.segments = [True, rng.random() < 0.6][:rng.choice((1, 1, 2))]

    def value(self, value):
        key = NULL + len(self.g["values"])
        self.g["values"][key] = value
        return key

    def address(self, offsets=(0, 8)):
        number = self.rng.randrange(len(self.segments))
        name = "address" if not self.segments[number] else self.rng.choice(("first", "last")) if self.twofold else "first"
        return (name, number + 1, self.rng.choice(offsets))

    def outward(self):
        kind = self.rng.random()
        return NULL if kind < 0.3 else self.value(("const", 5, 8)) if kind < 0.4 else self.value(self.address())

    def held(self, o, at, key):
        """Puts in what eight bytes of a node hold."""
        kind = self.rng.random()
        if kind < 0.2:
            return
        value = ("each", key, self.rng.choice((0, 8))) if kind < 0.4 and key else ("const", 5, 8) if kind < 0.5 else None if kind < 0.6 \
            else ("any",) if kind < 0.7 else ("number", 8) if kind < 0.8 else self.address()
        if value is None or value[0] in ("const", "number"):
            o["classes"][at:at + 8] = [0 if value is None else 1] * 8
        if value is not None:
            o["edges"].append([at, 8, self.value(value)])

    def graph(self):
        for key, is_segment in enumerate(self.segments, 1):
            o = self.g["objects"][key] = {"size": self.size, "kind": "heap", "live": True, "classes": [2] * self.size, "edges": [], "links": None}
            places = list(range(0, self.size, 8))
            if is_segment:
                following = 0 if self.twofold else self.rng.choice(places)
                places.remove(following)
                o["links"] = {"head": self.rng.choice((0, 8)), "next": following, "prev": 0, "back": 0, "least": self.rng.choice((0, 0, 1, 1, 2)),
                              "after": self.outward(), "before": NULL, "twofold": self.twofold}
                if self.twofold:
                    o["links"].update(prev=places.pop(), back=self.rng.choice((0, 8)), before=self.outward())
            for at in places:
                self.held(o, at, key if is_segment else None)
        if self.rng.random() < 0.6:
            self.g["registers"] = {0: self.value(self.address((0, 4, 8)))}
        return self.g


def keys_apart(g):
    """The graph with keys of values that are no words of the world."""
    far = 1000

    def links_apart(links):
        return links and {**links, "after": links["after"] + far, "before": links["before"] + far}

    return {**g, "values": {key + far: value for key, value in g["values"].items()}, "registers": {register: key + far for register, key in g["registers"].items()},
            "objects": {key: {**o, "edges": [[at, count, value + far] for at, count, value in o["edges"]], "links": links_apart(o["links"])} for key, o in g["objects"].items()}}


def states(g, size, of):
    """The states of the world for which a graph stands, and for each whether the object with this key may have nodes, and none."""
    g = keys_apart(g)
    found, plain = {}, {**g, "registers": {}}
    for count in range(4 if size == 8 else 3):
        words = [0, 5, *(("to", b, at) for b in range(count) for at in (0, 8))]
        register_words = {*words, 4, 2**64 - 8, *(("to", b, 4) for b in range(count))}
        contents = [None, *(sum(map(bytes_of, row), []) for row in itertools.product(words, repeat=size // 8))]
        for number, memory in enumerate(itertools.product(contents, repeat=count)):
            for given in lists(g, [b for b in range(count) if memory[b] is not None]):
                register = fixed_word(g, given, g["registers"][0]) if g["registers"] else None
                if (register is None or register in register_words) and nodes_fit(plain, memory, given, None):
                    found.setdefault((count, number, register), set()).add(bool(given.get(of)))
    return found


def differences(g, kind, answer):
    """What is answered otherwise than the search says."""
    size = g["objects"][1]["size"]
    given = states(g, size, 1)
    without = {state for state, has in given.items() if False in has}
    graphs = [parsed(text) for text in answer.split(" / ")[1:]]
    stood = [set(states(graph, size, None)) for graph in graphs]
    if kind == "dropped":
        return [] if stood == [without] else ["the graph without the segment stands for other states"]
    having = {state for state, has in given.items() if True in has}
    wanted = [without, having] if g["objects"][1]["links"]["least"] == 0 else [having]
    return [] if stood == wanted else [f"the graphs stand for {[len(s) for s in stood]} states, and should for {[len(s) for s in wanted]}"]


def answers(lines):
    """What the program graph_rows prints of each line."""
    with tempfile.TemporaryDirectory() as folder:
        Path(folder, "rows").write_text("\n".join(lines) + "\n")
        done = subprocess.run(["rt", "try", "--"], cwd=HOME / "crates" / "graph_rows", stdin=open(Path(folder, "rows")), stdout=subprocess.PIPE,
                              stderr=subprocess.PIPE, text=True)
    return [line for line in done.stdout.splitlines() if not line.startswith(("rt:", "run=", "checked:"))]


def random_case(rng):
    g = Maker(rng).graph()
    links = g["objects"][1]["links"]
    kinds = ["first"] + ["last"] * links["twofold"] + ["dropped"] * (links["least"] == 0)
    return g, rng.choice(kinds)


def main():
    count = int(sys.argv[1]) if len(sys.argv) > 1 else 3000
    rng = random.Random(int(sys.argv[2]) if len(sys.argv) > 2 else 1)
    cases = [random_case(rng) for _ in range(count)]
    lines = [f"{kind} 0 / {spelled(g)}" for g, kind in cases]
    got = answers(lines)
    if len(got) != len(lines):
        sys.exit(f"{len(lines)} rows, and {len(got)} answers: {got[:3]}")
    counts, wrong = Counter(), 0
    for (g, kind), line, answer in zip(cases, lines, got):
        counts[kind if answer.startswith("post") else answer] += 1
        for difference in differences(g, kind, answer) if answer.startswith("post") else []:
            wrong += 1
            print(f"{line}\n  {answer}\n  {difference}")
    print(f"{count} cases, {wrong} differences; " + ", ".join(f"{number} {word}" for word, number in sorted(counts.items())))
    return wrong > 0


if __name__ == "__main__":
    sys.exit(print(__doc__) if "--help" in sys.argv else main())
