#!/usr/bin/env python3
"""Counts, for small graphs, the memories of a small world that they stand for.

Usage, at the project's root: tests/graph_memories.py
It goes over all states of a world and counts those that a graph stands for, by what docs/inside.md says of a graph's meaning and
not by the definitions of crates/graph/specs. Each graph of the table below has a count that was worked out by hand. The row
`built` with that graph stands in crates/graph_rows/stdin, and the graph that the program makes of it in crates/graph_rows/stdout,
which the gate compares with what the program prints: it has to stand for as many states.

The world. A memory has at most as many blocks as the graph has objects, and one more where these are fewer than two. A block is dead,
static or from malloc, with zeros in it; or it lives, is static or from malloc, has 4 or 8 bytes, and each half of 4 bytes is 0, 1, or a half
of a pointer to the first byte of a block. With three objects it has 8 bytes, and its content is the number 0, 1 or 2^32, or such a pointer.
Variable 0 has a block or none. Register 0 is empty, or holds the number 0, 1 or 2^32, or a pointer to byte 0 or 8 of a block. There is no port and
no root, or one port that holds what a register may hold, and the block that it leads to, if it does, is a root or is none.

The world of segments. All blocks are from malloc: at most three, dead or live with 8 bytes, or, where the graph's objects have 16, at most
two. Each 8 bytes of a live one are the number 0 or 5, or a pointer to byte 0 or 8 of a block. Register 0 is empty, or holds such a
word, the number 4 or 2^64 - 8, or a pointer to byte 4 of a block. Most counts are sums over memories of n blocks of which k live: there are
n! / (n - k)! lists of k of n blocks, so 4, 6, 8 and 6 lists of 0, 1, 2 and 3 of at most three blocks, and 3, 3 and 2 lists of at most two.
"""
import itertools
import sys
from pathlib import Path

ROWS = Path(__file__).resolve().parent.parent / "crates" / "graph_rows"
KINDS = ("static", "heap")

# a graph, and for how many states of the world it stands
TABLE = {
    "built": 3,
    "built object=4:8:heap:live class=8:2": 160,
    "built object=4:8:heap:live class=8:1": 20,
    "built object=4:8:heap:live class=8:0": 5,
    "built object=4:8:heap:live class=4:0 class=4:2": 28,
    "built object=4:4:static:live class=4:1": 10,
    "built object=4:8:heap:live class=8:1 edge=0:8:9 number=9:8": 20,
    "built object=4:8:heap:live class=8:1 edge=0:8:9 const=9:1:8": 5,
    "built object=4:8:heap:live class=8:2 edge=0:8:9 any=9": 29,
    "built object=4:8:heap:live class=8:2 edge=0:8:9 address=9:4:0": 5,
    "built object=4:8:heap:live class=8:1 edge=0:4:9 edge=4:4:9 number=9:4": 10,
    "built object=4:8:heap:live class=8:1 edge=0:4:8 edge=4:4:9 number=8:4 number=9:4 unequal=8:9": 10,
    "built object=4:8:heap:live class=8:1 edge=0:4:8 number=8:4 const=9:0:4 unequal=8:9": 10,
    "built object=4:8:heap:live class=4:1 class=4:2 edge=0:4:9 number=9:4": 56,
    "built object=4:8:static:live class=8:0 variable=0:4": 5,
    "built object=4:8:heap:dead": 7,
    "built object=4:8:heap:dead address=9:4:0 register=0:9": 5,
    "built object=1:8:heap:dead object=2:0:static:dead": 7,
    "built object=1:8:heap:live class=8:0 object=2:8:heap:live class=8:0": 1,
    "built object=1:8:heap:live class=8:2 edge=0:8:5 object=2:8:heap:live class=8:2 edge=0:8:4 address=4:1:0 address=5:2:0":
        1,
    "built object=1:8:heap:live class=8:2 edge=0:8:5 object=2:8:heap:live class=8:2 address=5:2:0": 71,
    "built number=8:8 register=0:8": 9,
    "built number=8:4 register=0:8": 6,
    "built number=8:8 const=9:0:8 register=0:8 unequal=9:8": 6,
    "built any=8 register=0:8": 13,
    "built any=8 port=8": 17,
    "built object=4:8:static:live class=8:0 address=9:4:8 port=9": 5,
    "built object=1:8:heap:live class=8:2 edge=0:8:7 object=2:8:heap:live class=8:2 edge=0:8:8 object=3:8:heap:live class=8:2 edge=0:8:9 address=7:2:0 address=8:3:0 any=9":
        32,
    "built object=1:8:heap:live class=8:0 object=2:8:heap:live class=8:0 object=3:8:heap:dead": 7,
}

# graphs with segments, and for how many states of their world they stand
N = "const=9:0:8"
SEGMENTS = {
    # lists that end with null, of at least 0, 1, 2 and 3 nodes: 4 + 6 + 8 + 6, and so on
    f"built object=1:8:heap:live singly=0:0:0:0:0:9:9 class=8:2 {N}": 24,
    f"built object=1:8:heap:live singly=0:0:0:0:1:9:9 class=8:2 {N}": 20,
    f"built object=1:8:heap:live singly=0:0:0:0:2:9:9 class=8:2 {N}": 14,
    f"built object=1:8:heap:live singly=0:0:0:0:3:9:9 class=8:2 {N}": 6,
    # the last node holds 5
    f"built object=1:8:heap:live singly=0:0:0:0:0:8:9 class=8:2 const=8:5:8 {N}": 24,
    # links lead to byte 8 of the next node, so that each holds another word
    f"built object=1:8:heap:live singly=8:0:0:0:0:9:9 class=8:2 {N}": 24,
    # a register holds the first node's address at offset 0 or 4: 0 or 4 where there is none
    f"built object=1:8:heap:live singly=0:0:0:0:0:9:9 class=8:2 first=8:1:0 {N} register=0:8": 24,
    f"built object=1:8:heap:live singly=0:0:0:0:0:9:9 class=8:2 first=8:1:4 {N} register=0:8": 24,
    # a region, and a list behind it
    f"built object=1:8:heap:live class=8:2 edge=0:8:8 object=2:8:heap:live singly=0:0:0:0:0:9:9 class=8:2 first=8:2:0 {N}": 20,
    # a list, and a region of zeros behind it
    f"built object=1:8:heap:live class=8:0 object=2:8:heap:live singly=0:0:0:0:0:8:9 class=8:2 address=8:1:0 {N}": 20,
    # two lists in a row, and where the second begins: 4 * 1 + 6 * 2 + 8 * 3 + 6 * 4
    f"built object=1:8:heap:live singly=0:0:0:0:0:8:9 class=8:2 object=2:8:heap:live singly=0:0:0:0:0:9:9 class=8:2 first=8:2:0 {N}": 24,
    f"built object=1:8:heap:live singly=0:0:0:0:0:8:9 class=8:2 object=2:8:heap:live singly=0:0:0:0:0:9:9 class=8:2 first=8:2:0 {N} register=0:8": 64,
    # rings: (k - 1)! of k blocks, 6 + 3 + 1 + 2; with a node that is the first, 6 + 8 + 6
    f"built object=1:8:heap:live singly=0:0:0:0:1:8:9 class=8:2 first=8:1:0 {N}": 12,
    f"built object=1:8:heap:live singly=0:0:0:0:1:8:9 class=8:2 first=8:1:0 {N} register=0:8": 20,
    # nodes with eight bytes beside the link: any of 2 + 2n words, two numbers, zeros, the node's own address, one number for all, one word for all
    f"built object=1:16:heap:live singly=0:0:0:0:0:9:9 class=16:2 {N}": 91,
    f"built object=1:16:heap:live singly=0:0:0:0:0:9:9 class=8:2 class=8:1 {N}": 17,
    f"built object=1:16:heap:live singly=0:0:0:0:0:9:9 class=8:2 class=8:0 {N}": 8,
    f"built object=1:16:heap:live singly=0:0:0:0:0:9:9 class=16:2 edge=8:8:8 each=8:1:8 {N}": 8,
    f"built object=1:16:heap:live singly=0:0:0:0:0:9:9 class=8:2 class=8:1 edge=8:8:8 number=8:8 {N}": 13,
    f"built object=1:16:heap:live singly=0:0:0:0:0:9:9 class=16:2 edge=8:8:8 any=8 {N}": 31,
    f"built object=1:16:heap:live singly=0:0:0:0:0:9:9 class=16:2 edge=8:8:8 first=8:1:0 {N}": 8,
    # linked both ways: links back lead to byte 0, or to byte 8, where the link back lies
    f"built object=1:16:heap:live twofold=0:0:8:0:0:9:9 class=16:2 {N}": 8,
    f"built object=1:16:heap:live twofold=0:0:8:8:0:9:9 class=16:2 {N}": 8,
    f"built object=1:16:heap:live twofold=0:0:8:8:1:9:9 class=16:2 {N}": 5,
    f"built object=1:16:heap:live twofold=0:0:8:8:2:9:9 class=16:2 {N}": 2,
    # the first node's link back is 5
    f"built object=1:16:heap:live twofold=0:0:8:8:0:9:8 class=16:2 const=8:5:8 {N}": 8,
    # a register holds the last node's address at offset 8 or 0: 0 or 2^64 - 8 where there is none
    f"built object=1:16:heap:live twofold=0:0:8:8:0:9:9 class=16:2 last=8:1:8 {N} register=0:8": 8,
    f"built object=1:16:heap:live twofold=0:0:8:8:0:9:9 class=16:2 last=8:1:0 {N} register=0:8": 8,
    # rings: 3 + 1, and with the last node in a register 3 + 2
    "built object=1:16:heap:live twofold=0:0:8:8:1:7:8 class=16:2 first=7:1:0 last=8:1:8": 4,
    "built object=1:16:heap:live twofold=0:0:8:8:1:7:8 class=16:2 first=7:1:0 last=8:1:8 register=0:8": 5,
    # two lists in a row, and where the first ends: 3 * 1 + 3 * 2 + 2 * 3
    f"built object=1:16:heap:live twofold=0:0:8:8:0:7:9 class=16:2 object=2:16:heap:live twofold=0:0:8:8:0:9:8 class=16:2 first=7:2:0 last=8:1:8 {N} register=0:8": 15,
}


def parsed(text):
    """The parts that the words of a row spell."""
    g = {"objects": {}, "values": {}, "variables": {}, "registers": {}, "ports": [], "unequal": []}
    for word in text.split()[1:]:
        name, fields = word.split("=")
        fields = [int(f) if f.lstrip("-").isdigit() else f for f in fields.split(":")]
        if name == "object":
            last = g["objects"][fields[0]] = {"size": fields[1], "kind": fields[2], "live": fields[3] == "live", "classes": [], "edges": [], "links": None}
        elif name in ("singly", "twofold"):
            last["links"] = dict(zip(("head", "next", "prev", "back", "least", "after", "before"), fields), twofold=name == "twofold")
        elif name == "class":
            last["classes"] += [fields[1]] * fields[0]
        elif name == "edge":
            last["edges"].append(fields)
        elif name in ("const", "number", "any", "address", "first", "last", "each"):
            g["values"][fields[0]] = (name, *fields[1:])
        elif name in ("variable", "register"):
            g[name + "s"][fields[0]] = fields[1]
        elif name == "port":
            g["ports"].append(fields[0])
        else:
            g["unequal"].append(fields)
    return g


# A byte is a number, or ("part", block, offset, index). A word is a number, or ("to", block, offset).
def bytes_of(word):
    if isinstance(word, int):
        return [word >> 8 * i & 255 for i in range(8)]
    return [("part", word[1], word[2], i) for i in range(8)]


def word_in(held):
    """The word that 1, 2, 4 or 8 bytes are: a number of that size, or a pointer; None if neither."""
    if all(isinstance(b, int) for b in held):
        return sum(b << 8 * i for i, b in enumerate(held))
    word = ("to", *held[0][1:3]) if len(held) == 8 and not isinstance(held[0], int) else None
    return word if word and bytes_of(word) == held else None


def blocks(count, is_wide):
    """What a block of the world may be, in a memory of `count` blocks."""
    pointers = [("to", b, 0) for b in range(count)]
    if is_wide:
        contents = [bytes_of(word) for word in (0, 1, 2**32, *pointers)]
    else:
        halves = [bytes_of(0)[:4], bytes_of(1)[:4]] + [bytes_of(p)[at:at + 4] for p in pointers for at in (0, 4)]
        contents = [one + other for one in halves for other in halves] + halves
    dead = [(False, kind, [0] * 8) for kind in KINDS]
    return dead + [(True, kind, content) for kind in KINDS for content in contents]


def has_class(byte, wanted):
    return wanted == 2 or isinstance(byte, int) and (wanted == 1 or byte == 0)


def is_node(block, thing):
    live, kind, content = block
    return live and kind == thing["kind"] and len(content) == thing["size"] and all(map(has_class, content, thing["classes"]))


def assignments(g, memory):
    """The blocks that objects may have: each live one another live block, all of these, each dead one a block that is dead or absent."""
    keys = list(g["objects"])
    for chosen in itertools.permutations(range(len(memory) + len(keys)), len(keys)):
        fits, fresh = True, len(memory)
        for key, number in zip(keys, chosen):
            thing = g["objects"][key]
            if number >= len(memory):
                fits = fits and not thing["live"] and number == fresh
                fresh += 1
            elif thing["live"]:
                fits = fits and is_node(memory[number], thing)
            else:
                fits = fits and not memory[number][0] and memory[number][1] == thing["kind"]
        if fits and all(not block[0] or number in chosen for number, block in enumerate(memory)):
            yield dict(zip(keys, chosen))


def is_word_of(value, word, given):
    """Whether a value may stand for a word, where objects have these blocks."""
    if value[0] == "const":
        return word == value[1]
    if value[0] == "number":
        return isinstance(word, int) and word < 256 ** value[1]
    return value[0] == "any" or word == ("to", given[value[1]], value[2])


def has_words(g, memory, given, register, ports):
    """Whether values have words so that all holds that the graph says of bytes, registers, ports and pairs."""
    words = {}
    for key, value in g["values"].items():
        if value[0] == "const":
            words[key] = value[1]
        elif value[0] == "address":
            words[key] = ("to", given[value[1]], value[2])
    held = [(edge[2], memory[given[key]][2][edge[0]:edge[0] + edge[1]], edge[1])
            for key, thing in g["objects"].items() for edge in thing["edges"]]
    for key, content, size in held:
        word = word_in(content)
        if word is None or not is_word_of(g["values"][key], word, given) or words.setdefault(key, word) != word:
            return False
    for key, word in [*((key, register) for key in g["registers"].values()), *zip(g["ports"], ports)]:
        if not is_word_of(g["values"][key], word, given) or words.setdefault(key, word) != word:
            return False
    # a number that nothing holds may be any of 2^32 or more, so it differs from the few others
    return all(left not in words or right not in words or words[left] != words[right] for left, right in g["unequal"])


def names_fit(g, variable, register, ports):
    """Whether exactly the variables have a block and exactly the registers a word that the graph names, and there are as many ports."""
    held = set() if register is None else {0}
    return set(g["variables"]) == (set() if variable is None else {0}) and set(g["registers"]) == held and len(ports) == len(g["ports"])


def states(g):
    """The states of the world with at most as many blocks as the graph asks for and with its names, memory by memory."""
    is_wide = len(g["objects"]) > 2
    for count in range(max(len(g["objects"]), min(len(g["objects"]) + 1, 2)) + 1):
        words = [0, 1, 2**32] + [("to", b, at) for b in range(count) for at in (0, 8)]
        rest = [(variable, register, ports, roots) for variable in (None, *range(count)) for register in (None, *words)
                for ports, roots in [([], ()), *(([word], roots) for word in words for roots in ({()} if isinstance(word, int) else {(), (word[1],)}))]
                if names_fit(g, variable, register, ports)]
        for memory in itertools.product(blocks(count, is_wide), repeat=count):
            yield memory, rest


def stands_for(g, memory, given, variable, register, ports, roots):
    """Whether a graph stands for a state with its names, where objects have these blocks."""
    if any(given[key] != variable for key in g["variables"].values()):
        return False
    if any(g["values"][key][0] == "address" and given[g["values"][key][1]] not in roots for key in g["ports"]):
        return False
    return has_words(g, memory, given, register, ports)


def counted(g):
    found = 0
    for memory, rest in states(g):
        given = list(assignments(g, memory))
        if given:
            found += sum(any(stands_for(g, memory, one, *other) for one in given) for other in rest)
    return found


# Segments.
def moved(word, by):
    """A word moved by so many bytes, a number modulo 2^64."""
    return (word + by) % 2**64 if isinstance(word, int) else ("to", word[1], word[2] + by)


def lists(g, live):
    """The blocks that objects may have, in order: a region one, a segment as many as its least number or more, and none is left."""
    def of(keys, left):
        if not keys:
            if not left:
                yield {}
            return
        links = g["objects"][keys[0]]["links"]
        for count in range(links["least"], len(left) + 1) if links else (1,):
            for chosen in itertools.permutations(left, count):
                for others in of(keys[1:], [b for b in left if b not in chosen]):
                    yield {keys[0]: list(chosen), **others}
    return of(list(g["objects"]), live)


def word_of_address(g, given, value):
    """The word of an address that is no node's own."""
    name, key, offset = value
    links = g["objects"][key]["links"]
    if given[key]:
        return ("to", given[key][-1 if name == "last" else 0], offset)
    beyond, place = (links["before"], links["back"]) if name == "last" else (links["after"], links["head"])
    return moved(fixed_word(g, given, beyond), offset - place)


def fixed_word(g, given, key):
    value = g["values"][key]
    return value[1] if value[0] == "const" else word_of_address(g, given, value)


def ranges_held(g, memory, given):
    """What each range of an edge or a link holds, and the word that it has to hold, or the key of its value where this says which."""
    for key, thing in g["objects"].items():
        links, blocks = thing["links"], given[key]
        for place, block in enumerate(blocks):
            content = memory[block]
            for at, size, value in thing["edges"]:
                name, *rest = g["values"][value]
                if name == "each":
                    yield content[at:at + size], ("to", block, rest[1])
                elif name in ("number", "any"):
                    yield content[at:at + size], value
                else:
                    yield content[at:at + size], fixed_word(g, given, value)
            if links:
                onward = ("to", blocks[place + 1], links["head"]) if place + 1 < len(blocks) else fixed_word(g, given, links["after"])
                yield content[links["next"]:links["next"] + 8], onward
                if links["twofold"]:
                    yield content[links["prev"]:links["prev"] + 8], ("to", blocks[place - 1], links["back"]) if place else fixed_word(g, given, links["before"])


def nodes_fit(g, memory, given, register):
    """Whether blocks have the classes, the edges and the links that the graph says, and the register its word."""
    for key, thing in g["objects"].items():
        if any(not all(map(has_class, memory[block], thing["classes"])) for block in given[key]):
            return False
    words = {}
    for content, wanted in ranges_held(g, memory, given):
        word = word_in(content)
        if isinstance(wanted, int) and wanted in g["values"] and g["values"][wanted][0] in ("number", "any"):
            if word is None or g["values"][wanted][0] == "number" and not isinstance(word, int) or words.setdefault(wanted, word) != word:
                return False
        elif word != wanted:
            return False
    return all(fixed_word(g, given, key) == register for key in g["registers"].values())


def counted_lists(g):
    size = next(iter(g["objects"].values()))["size"]
    found = 0
    for count in range(4 if size == 8 else 3):
        words = [0, 5, *(("to", b, at) for b in range(count) for at in (0, 8))]
        registers = [*words, 4, 2**64 - 8, *(("to", b, 4) for b in range(count))] if g["registers"] else [None]
        contents = [None, *(sum(map(bytes_of, row), []) for row in itertools.product(words, repeat=size // 8))]
        for memory in itertools.product(contents, repeat=count):
            given = list(lists(g, [b for b in range(count) if memory[b] is not None]))
            found += sum(any(nodes_fit(g, memory, one, register) for one in given) for register in registers)
    return found


def main():
    answers = dict(zip((ROWS / "stdin").read_text().splitlines(), (ROWS / "stdout").read_text().splitlines()))
    failed = 0
    for row, wanted in {**TABLE, **SEGMENTS}.items():
        count = counted_lists if row in SEGMENTS else counted
        answer = answers.get(row, "no such row")
        one = count(parsed(row))
        other = count(parsed(answer)) if answer.startswith("graph") else None
        if not one == other == wanted:
            failed += 1
            print(f"{row}\n  by hand {wanted}, counted {one}, of the graph that is built {other}: {answer}")
    print(f"{len(TABLE) + len(SEGMENTS)} graphs counted, {failed} of them wrongly")
    return 1 if failed else 0


if __name__ == "__main__":
    sys.exit(print(__doc__) if "--help" in sys.argv else main())
