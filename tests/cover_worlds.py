#!/usr/bin/env python3
"""Compares which graphs cover others with a search over all states of a small world.

Usage, at the project's root: tests/cover_worlds.py [COUNT [SEED]]
It makes COUNT random graphs (1,000, seed 1) of one or two objects of which the first is a segment, and changes one, two or three things of each, or none; the
program graph_rows says whether the first covers the second one, and the other way round (rows `covers`). It goes over all states of the world of segments of
tests/graph_memories.py, as tests/split_worlds.py does, whose graphs it takes: a graph that covers another one has to stand for each state that the other one
stands for, and a graph covers itself where it covers something. How many pairs are not covered although no state is lost is counted, and is no difference.
"""
import copy
import random
import sys

from split_worlds import NULL, Maker, answers, spelled, states


def at_each(o, at, value_class):
    o["classes"][at:at + 8] = [value_class] * 8


def change_least(rng, g):
    links = rng.choice([o["links"] for o in g["objects"].values() if o["links"]])
    links["least"] = max(0, links["least"] + rng.choice((-1, 1)))


def change_link(rng, g):
    links = rng.choice([o["links"] for o in g["objects"].values() if o["links"]])
    name = rng.choice(("head", "back") if links["twofold"] else ("head",))
    links[name] = 8 - links[name]


def change_end(rng, g):
    links = rng.choice([o["links"] for o in g["objects"].values() if o["links"]])
    name = rng.choice(("after", "before") if links["twofold"] else ("after",))
    links[name] = rng.choice([NULL, *(key for key, value in g["values"].items() if value[0] in ("const", "address", "first", "last"))])


def change_class(rng, g):
    o = rng.choice(list(g["objects"].values()))
    at = rng.randrange(0, o["size"], 8)
    o["edges"] = [edge for edge in o["edges"] if edge[0] != at]
    at_each(o, at, rng.randrange(3))


def change_value(rng, g):
    """A value that something holds becomes another one."""
    key = rng.choice(list(g["values"]))
    name, *rest = g["values"][key]
    if key == NULL:
        return
    if name == "number":
        g["values"][key] = ("const", 5, 8)
    elif name == "const":
        g["values"][key] = rng.choice((("number", 8), ("const", 5, 8)))
    elif name == "any":
        g["values"][key] = rng.choice((("first", 1, 0), ("each", 1, 0)))
    elif rng.random() < 0.5:
        g["values"][key] = (name, rest[0], rng.choice((0, 8)))
    else:
        g["values"][key] = (rng.choice(("first", "last", "each", "address")), *rest)


def change_edge(rng, g):
    """An edge holds zeros."""
    edges = [(o, edge) for o in g["objects"].values() for edge in o["edges"]]
    if edges:
        o, edge = rng.choice(edges)
        o["edges"].remove(edge)
        at_each(o, edge[0], 0)


CHANGES = (change_least, change_least, change_link, change_end, change_class, change_value, change_value, change_edge)


def random_pair(rng):
    one = Maker(rng).graph()
    while not one["registers"]:
        one = Maker(rng).graph()
    other = copy.deepcopy(one)
    for _ in range(rng.choice((0, 1, 1, 1, 2, 3))):
        rng.choice(CHANGES)(rng, other)
    return one, other


def loses(wide, narrow):
    """Whether a state of the narrower graph is none of the wider one."""
    size = wide["objects"][1]["size"]
    return not set(states(narrow, size, None)) <= set(states(wide, size, None))


def main():
    count = int(sys.argv[1]) if len(sys.argv) > 1 else 1000
    rng = random.Random(int(sys.argv[2]) if len(sys.argv) > 2 else 1)
    pairs = [random_pair(rng) for _ in range(count)]
    asked = [(a, b) for one, other in pairs for a, b in ((one, one), (one, other), (other, one))]
    lines = [f"covers {spelled(a)} / {spelled(b)}" for a, b in asked]
    got = answers(lines)
    if len(got) != len(lines):
        sys.exit(f"{len(lines)} rows, and {len(got)} answers: {got[:3]}")
    wrong = covered = graphs = missed = 0
    for place, ((one, other), line, answer) in enumerate(zip(asked, lines, got)):
        if answer == "no graph":
            continue
        graphs += 1
        if place % 3 == 0:
            itself = answer
            continue
        loss = loses(one, other)
        if answer == "covers":
            covered += 1
            if loss or itself != "covers":
                wrong += 1
                print(f"{line}\n  covers, and " + ("a state is lost" if loss else "does not cover itself"))
        elif not loss and itself == "covers":
            missed += 1
    print(f"{count} pairs, {wrong} differences; {graphs} questions of graphs, {covered} of two are covered, and {missed} are not although no state is lost")
    return wrong > 0


if __name__ == "__main__":
    sys.exit(print(__doc__) if "--help" in sys.argv else main())
