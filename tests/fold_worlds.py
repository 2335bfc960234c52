#!/usr/bin/env python3
"""Compares folds of two neighbours with a search over all states of a small world, and says which graphs have neighbours that fold.

Usage, at the project's root: tests/fold_worlds.py [COUNT [SEED]]
It makes COUNT random graphs (3,000, seed 1) of two or three objects that are linked one way or both, regions and segments, and of what holds them; the program graph_rows says which two fold
first, makes them one segment, and forgets constants beyond 3 (rows `foldable`, `folded` and `coarse`). It goes over all states of the world of tests/segment_worlds.py for which a graph stands,
whose reading of graphs it takes: what is folded, and what is left without constants, has to stand for each of them. Which two objects fold, and which first, it finds by a search over all pairs,
directions and places, which is written here by what docs/inside.md and docs/machine.md say, and not by the definitions of crates/.

Two live heap objects of one size fold where the first holds the address of the second one and, linked both ways, the second one that of the first, and where something constant or an address lies
beyond both. Each other place that holds an address, or what may be one, has to hold the same in both, or the address of each itself. Linked one way, nothing else holds an address of the second
one. Linked both ways, nothing else holds one of the first node of a second segment, or of the last node of a first one, and of two regions one at most is held by others than their neighbours.
"""
import itertools
import random
import sys
from collections import Counter

from segment_worlds import parsed, spelled, states_of, stands
from step_worlds import answers

LIMIT = 3
MOST = 150
ADDRESSES = ("address", "first", "last", "each")


# ---- which two fold

def end_at(o, at, name):
    """The value that lies beyond an object: the key of what a region holds at a place, or of what a segment has there; "zeros", or None."""
    if o["links"]:
        return o["links"][name]
    for edge in o["edges"]:
        if edge[:2] == (at, 8):
            return edge[2]
    return "zeros" if o["classes"][at:at + 8] == [0] * 8 else None


def holders(g, links):
    """The value that each thing holds and where it does, without links at places of objects."""
    found = [(("root", n), key) for n, key in enumerate([*g["registers"].values(), *g["ports"]])]
    for key, o in g["objects"].items():
        found += [((key, at), value) for at, _, value in o["edges"]]
        if o["links"]:
            found.append(((key, o["links"]["next"]), o["links"]["after"]))
            if o["links"]["twofold"]:
                found.append(((key, o["links"]["prev"]), o["links"]["before"]))
    return [(place, g["values"][value]) for place, value in found if place not in links]


def own(value, key):
    """The offset of a node's own address."""
    return value[2] if value[0] in ("address", "each") and value[1] == key else None


def agree(g, first, second, links):
    """Whether all that is no link and may be an address stands in both; and the places at which own addresses do."""
    values, places = g["values"], set()
    held = [{(at, size): value for at, size, value in g["objects"][key]["edges"] if at not in links} for key in (first, second)]
    for place in held[0].keys() | held[1].keys():
        one, other = held[0].get(place), held[1].get(place)
        kinds = [values[key][0] if key is not None else "" for key in (one, other)]
        if not any(kind in (*ADDRESSES, "any") for kind in kinds):
            continue
        if one is None or other is None:
            return None
        if one == other and kinds[0] != "each" or values[one] == values[other] and kinds[0] != "any":
            continue
        if own(values[one], first) is None or own(values[one], first) != own(values[other], second):
            return None
        places.add((second, place[0]))
    return places


def is_held_by_a_third(g, fold, key, end, place):
    """Whether something other than the two, and other than a link of the neighbour beyond, holds the address of a region."""
    near = g["values"][end][1] if isinstance(end, int) and g["values"][end][0] in ADDRESSES else None
    roots = [*g["registers"].values(), *g["ports"]]
    if any(g["values"][value][:2] == ("address", key) for value in roots):
        return True
    return any(g["values"][value][:2] == ("address", key) and not (third == near and g["values"][value][2] == place)
               for third, o in g["objects"].items() if third not in fold[:2] for _, _, value in o["edges"])


def comes_back(g, first=None, second=None, before=None, after=None):
    """Whether ends of segments that may have no node lead round, where two of them, if there are such, are one segment between these values."""
    def renamed(end):
        value = g["values"][end] if isinstance(end, int) else ("const",)
        return (value[0], first if value[1] == second else value[1]) if value[0] in ("first", "last") else None

    steps = {}
    for key, o in g["objects"].items():
        if o["links"] and o["links"]["least"] == 0 and key != second:
            steps["first", key] = renamed(after if key == first else o["links"]["after"])
            steps["last", key] = renamed(before if key == first else o["links"]["before"])
    for start in steps:
        at, seen = start, set()
        while at in steps:
            if at in seen:
                return True
            seen.add(at)
            at = steps[at]
    return False


def folds(g, first, second, twofold, head, place, prev, back):
    """Whether two objects, of which the first leads to the second one, fold with this direction and these places."""
    one, other = g["objects"][first], g["objects"][second]
    for o in (one, other):
        links = o["links"]
        if links and (links["twofold"], links["head"], links["next"], links["prev"], links["back"]) != (twofold, head, place, prev, back):
            return False
    after, before = end_at(other, place, "after"), end_at(one, prev, "before") if twofold else "zeros"
    if any(end is None or end != "zeros" and g["values"][end][0] in ("number", "any", "each") for end in (after, before)):
        return False
    own_places = agree(g, first, second, (place, prev) if twofold else (place,))
    if own_places is None:
        return False
    left = holders(g, {(first, place), (second, prev)} if twofold else {(first, place), *own_places})
    if not twofold:
        # what each node of a second segment holds of itself is met above
        if any(value[0] in ADDRESSES and value[1] == second for _, value in left):
            return False
    elif any(value[:2] in (("first", second), ("last", first)) for _, value in left):
        return False
    elif not one["links"] and not other["links"]:
        fold = (first, second)
        if is_held_by_a_third(g, fold, first, before, head) and is_held_by_a_third(g, fold, second, after, back):
            return False
    empty = one["links"] and other["links"] and one["links"]["least"] == other["links"]["least"] == 0
    return not (empty and comes_back(g, first, second, before, after))


def all_folds(g):
    """All folds, in the order of keys, then of places, both ways before one way."""
    found = []
    lists = [key for key, o in g["objects"].items() if o["live"] and o["kind"] == "heap"]
    for first, second in itertools.permutations(lists, 2):
        one, other = g["objects"][first], g["objects"][second]
        size = one["size"]
        if other["size"] != size:
            continue
        for place in range(size - 7):
            if one["links"] and place != one["links"]["next"]:
                continue
            link = end_at(one, place, "after")
            value = g["values"][link] if isinstance(link, int) else ("",)
            if value[0] not in ("address", "first") or value[1] != second or not 0 <= value[2] < size:
                continue
            for prev in range(place + 8, size - 7):
                if other["links"] and prev != other["links"]["prev"]:
                    continue
                link = end_at(other, prev, "before")
                back = g["values"][link] if isinstance(link, int) else ("",)
                if back[0] in ("address", "last") and back[1] == first and back[2] >= 0 and folds(g, first, second, True, value[2], place, prev, back[2]):
                    found.append((first, place, 0, prev, f"folds {first}:{second} twofold={value[2]}:{place}:{prev}:{back[2]}"))
            if folds(g, first, second, False, value[2], place, 0, 0):
                found.append((first, place, 1, 0, f"folds {first}:{second} singly={value[2]}:{place}:0:0"))
    return [fold[-1] for fold in sorted(found)]


# ---- random graphs

class Maker:
    """Makes a random graph of a list, most often one in which two neighbours fold."""

    def __init__(self, rng):
        self.rng = rng
        self.g = {"objects": {}, "values": {}, "variables": {}, "registers": {}, "ports": [], "unequal": []}
        self.twofold = rng.random() < 0.5
        self.has_data = rng.random() < 0.6
        self.size = 8 + 8 * self.twofold + 8 * self.has_data
        places = list(range(0, self.size, 8))
        self.data = places.pop(rng.randrange(len(places))) if self.has_data else None
        self.next, self.prev = places[0], places[-1] if self.twofold else 0
        self.head = rng.choice((0, 0, 0, 8 if self.size > 8 else 4))
        self.back = (self.head if rng.random() < 0.5 else self.next) if self.twofold else 0
        self.keys = list(range(rng.choice((2, 2, 2, 3))))
        rng.shuffle(self.keys)
        self.segments = {key: rng.random() < 0.4 for key in self.keys}
        self.variable = len(self.keys)

    def value(self, value):
        """The key of a value: one that is there, where it is a word or an address."""
        for key, other in self.g["values"].items():
            if other == value and value[0] != "number" and value[0] != "any" and self.rng.random() < 0.7:
                return key
        key = len(self.g["values"])
        self.g["values"][key] = value
        return key

    def address(self, key, offset, last=False):
        if key == self.variable or not self.segments[key]:
            return ("address", key, offset)
        return ("last" if last and self.twofold else "first", key, offset)

    def some_address(self):
        return self.address(self.rng.choice([*self.keys, self.variable]), self.rng.choice((0, 0, 4, 8)), self.rng.random() < 0.5)

    def beyond(self, back):
        """What lies behind a list, or before it."""
        kind = self.rng.random()
        if kind < 0.5:
            return None
        if kind < 0.6:
            return ("const", 5, 8)
        if kind < 0.75:
            return self.address(self.variable, 0)
        if kind < 0.9:
            return self.address(self.keys[-1], self.back, True) if back else self.address(self.keys[0], self.head)
        return ("number", 8) if kind < 0.93 else self.some_address()

    def put(self, o, at, value, key=None):
        """Puts a value, zeros where there is none, in eight bytes."""
        plain = value is None or value[0] in ("const", "number")
        o["classes"][at:at + 8] = [0 if value is None else 1 if plain else 2] * 8
        if value is not None:
            o["edges"].append((at, 8, self.value(value) if key is None else key))

    def links_of(self, place):
        """What the object at a place of the list holds as links."""
        key = self.keys[place]
        after = self.address(self.keys[place + 1], self.head) if place + 1 < len(self.keys) else self.beyond(False)
        before = self.address(self.keys[place - 1], self.back, True) if place else self.beyond(True)
        if self.rng.random() < 0.04:
            after = self.some_address()
        if self.rng.random() < 0.04:
            before = self.some_address()
        return key, after, before

    def kind_of_data(self):
        return self.rng.choices(("zeros", "five", "own", "number", "shared", "any", "shared any", "third", "first", "nothing", "numbers", "half"), (2, 2, 3, 2, 2, 1, 2, 2, 1, 1, 1, 1))[0]

    def put_data(self, o, key, kind, shared):
        at = self.data
        if kind == "nothing":
            o["classes"][at:at + 8] = [2] * 8
        elif kind == "numbers":
            o["classes"][at:at + 8] = [1] * 8
        elif kind == "half":
            o["classes"][at:at + 8] = [1] * 4 + [0] * 4
            o["edges"].append((at, 4, self.value(("const", 5, 4))))
        elif kind in ("shared", "shared any"):
            value = ("number", 8) if kind == "shared" else ("any",)
            if kind not in shared:
                shared[kind] = self.value(value)
            self.put(o, at, value, shared[kind])
        else:
            offset = self.rng.choice((at, at, at, 0))
            own = ("each" if o["links"] else "address", key, offset)
            self.put(o, at, {"zeros": None, "five": ("const", self.rng.choice((5, 5, 1)), 8), "own": own, "number": ("number", 8), "any": ("any",), "third": self.address(self.variable, 0),
                             "first": self.address(self.keys[0], 0)}[kind])

    def object(self, place, kind, shared):
        key, after, before = self.links_of(place)
        size = self.size + 8 * (self.rng.random() < 0.02 and not self.segments[key])
        o = {"size": size, "kind": "heap", "live": True, "classes": [2] * size, "edges": [], "links": None}
        if size > self.size:
            o["classes"][self.size:] = [0] * 8
        if self.segments[key]:
            ends = [self.value(end if end and end[0] not in ("number", "any") else ("const", 0, 8)) for end in (after, before if self.twofold else None)]
            o["links"] = {"head": self.head, "next": self.next, "prev": self.prev, "back": self.back, "least": self.rng.choice((0, 1, 1, 2)), "after": ends[0], "before": ends[1], "twofold": self.twofold}
            if self.rng.random() < 0.05:
                name = self.rng.choice(("head", "back") if self.twofold else ("head",))
                o["links"][name] = 8 - o["links"][name] if self.size > 8 else 0
        else:
            self.put(o, self.next, after)
            if self.twofold:
                self.put(o, self.prev, before)
        if self.has_data:
            self.put_data(o, key, kind if self.rng.random() < 0.85 else self.kind_of_data(), shared)
        return key, o

    def graph(self):
        kind, shared = self.kind_of_data(), {}
        made = dict(self.object(place, kind, shared) for place in range(len(self.keys)))
        self.g["objects"] = {key: made[key] for key in sorted(made)}
        holder = {"size": 8, "kind": "local", "live": True, "classes": [0] * 8, "edges": [], "links": None}
        held = [None, self.address(self.keys[0], 0), self.address(self.keys[0], self.head), self.some_address()]
        self.put(holder, 0, self.rng.choices(held, (2, 4, 4, 1))[0])
        self.g["objects"][self.variable] = holder
        self.g["variables"] = {0: self.variable}
        for key in self.keys:
            if not self.segments[key] and self.rng.random() < 0.02:
                self.g["objects"][key]["kind"] = "local"
                self.g["variables"][1 + key] = key
        for register in (0, 1):
            if self.rng.random() < 0.35:
                ends = [self.address(self.keys[0], self.rng.choice((0, 4, 8))), self.address(self.keys[-1], 0, True), ("number", 8), self.some_address()]
                self.g["registers"][register] = self.value(self.rng.choices(ends, (3, 2, 1, 1))[0])
        if self.rng.random() < 0.05:
            self.g["ports"] = [self.value(self.some_address())]
        return self.g


def random_case(rng):
    """A graph of which not too many states are of the world, and these states."""
    while True:
        g = Maker(rng).graph()
        states = None if comes_back(g) else states_of(g, 2, MOST)
        if states:
            return g, [state for state, _ in states]


# ---- comparing

def losses(states, answer):
    """Whether a graph of an answer does not stand for some state."""
    after = parsed(answer.split(" / ")[1])
    return any(not stands(after, state) for state in states)


def differences(g, states, said, folded, coarse, counts):
    """What is answered otherwise than the searches say."""
    found = []
    known = all_folds(g)
    wanted = known[0] if known else "folds nothing"
    counts["nothing folds" if said == "folds nothing" else "fold " + said.split()[2].split("=")[0]] += 1
    if said != wanted:
        found.append(f"by the search: {', '.join(known) or wanted}")
    if (said != "folds nothing") != (folded != "post"):
        found.append("a fold is named, and none is made, or the other way round")
    if folded != "post" and losses(states, folded):
        found.append("a state is lost in the fold")
    if coarse != "post":
        counts["without constants"] += 1
        if losses(states, coarse):
            found.append("a state is lost without constants")
    counts["states"] += len(states)
    return found


def main():
    count = int(sys.argv[1]) if len(sys.argv) > 1 else 3000
    rng = random.Random(int(sys.argv[2]) if len(sys.argv) > 2 else 1)
    cases = [random_case(rng) for _ in range(count)]
    lines = [f"{kind} / {spelled(g)}" for g, _ in cases for kind in ("foldable", "folded", f"coarse {LIMIT}")]
    got = answers(lines)
    if len(got) != len(lines):
        sys.exit(f"{len(lines)} rows, and {len(got)} answers: {got[:3]}")
    counts, wrong = Counter(), 0
    for place, (g, states) in enumerate(cases):
        said, folded, coarse = got[3 * place:3 * place + 3]
        if not said.startswith("folds"):
            counts[said] += 1
            continue
        for difference in differences(g, states, said, folded, coarse, counts):
            wrong += 1
            print(f"{lines[3 * place]}\n  {said}\n  {folded}\n  {coarse}\n  {difference}", flush=True)
    print(f"{count} cases, {wrong} differences; " + ", ".join(f"{number} {word}" for word, number in sorted(counts.items())))
    return wrong > 0


if __name__ == "__main__":
    sys.exit(print(__doc__) if "--help" in sys.argv else main())
