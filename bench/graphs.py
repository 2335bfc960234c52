#!/usr/bin/env python3
"""Says whether steps on graphs take time in proportion to the graph's size: each call on graphs of 100 and of 10,000 objects.

Usage, at the project's root: bench/graphs.py [--large N]
A graph has objects of 24 bytes, each with two edges: one leads to the next object, the last one's to the first, and one holds a number. Each third object is a variable's, the others are of the heap,
and there are a third as many registers and as many unequal pairs. `start` is asked for as many static variables, alone and with an initialiser for each hundredth one and for each one; `close` for a graph of variables
alone, in which no block of the heap lives. The large graph may have another size (--large). The program of bench/graphs, which tools/programs.py builds and keeps and which is not proved, makes each call some times, and the least processor time of some runs is
taken, with letting go of what is handed out. It is built with checks of memory, and takes many times as long as a proved one. Printed are the microseconds of a call on either graph, and how many times
as long an object takes in the large one as in the small one: at most 1 where the work is linear, but for chance.
"""
import argparse
import subprocess
import sys
from pathlib import Path

HOME = Path(__file__).resolve().parent.parent
sys.path.insert(0, str(HOME / "tools"))
import programs  # noqa: E402
from front import unproved  # noqa: E402

HERE = HOME / "bench" / "graphs"
ROW = "graph number=0:4"
SMALL = 100  # objects
TIMES = 2  # a row is asked
NEW = 1_000_000
# registers: addresses of two blocks of the heap, which stand one behind the other, a number, the constants 4 and 0
BLOCK, NEXT, NUMBER, FOUR, NULL, FREE = range(6)
STEPS = {
    "number": f"number {FREE}:7:8",
    "address": f"address {FREE}:0",
    "move": f"move {FREE}:{BLOCK}",
    "read": f"read {BLOCK}:8:1:{FREE}",
    "write": f"write {BLOCK}:8:{NUMBER}",
    "shift": f"shift {FREE}:{BLOCK}:108",
    "shift by a register": f"shiftby {FREE}:{BLOCK}:{FOUR}:104",
    "compute": f"add {FREE}:{NUMBER}:{FOUR}:8:0",
    "order test, with two graphs": f"less {FREE}:{NUMBER}:{FOUR}:8:0",
    "convert": f"convert {FREE}:{NUMBER}:4:0",
    "input": f"input {FREE}:8:0",
    "test that is decided": f"same {BLOCK}:{NULL}:0",
    "test, with a pair more": f"same {NUMBER}:{FOUR}:0",
    "test, with one value for two": f"same {NUMBER}:{FOUR}:1",
    "allocate": f"allocate 24:0:{FREE}",
    "refuse": f"refuse {FREE}",
    "release": f"release {BLOCK}",
    "fill": f"fill {BLOCK}:{NULL}:24",
    "copy": f"copy {NEXT}:{BLOCK}:24:1",
    "enter": f"enter {NEW}:24",
    "leave": "leave 0",
    "finish": f"finish {NUMBER}",
    "unreached": "unreached",
    "tidied": "tidied",
}


def values_of(objects):
    """The words of the values: 2 k is the address of the object behind k, 2 k + 1 a number of object k; behind these 4 and 0."""
    words = []
    for key in range(objects):
        words += [f"address={2 * key}:{(key + 1) % objects}:0", f"number={2 * key + 1}:8"]
    return [*words, f"const={2 * objects}:4:8", f"const={2 * objects + 1}:0:8"]


def registers_of(objects, count):
    """What registers hold: the first five, and behind these numbers."""
    held = [0, 2, 1, 2 * objects, 2 * objects + 1]
    return held + [2 * key + 1 for key in range(1, count)]


def graph_of(objects, registers, every=3):
    """The words of a graph of which each so many-th object is a variable's."""
    words = []
    for key in range(objects):
        kind = "local" if key % every == 0 else "heap"
        words.append(f"object={key}:24:{kind}:live class=8:2 class=8:1 class=8:0 edge=0:8:{2 * key} edge=8:8:{2 * key + 1}")
    words += values_of(objects)
    words += [f"variable={key // every}:{key}" for key in range(0, objects, every)]
    words += [f"register={number if number < FREE else number + 1}:{value}" for number, value in enumerate(registers)]
    words += [f"unequal={2 * key + 1}:{2 * key + 3}" for key in range(objects // 3)]
    return " ".join(words)


def flow_of(objects):
    """The parts of a flow graph in whose point 3 such a graph with five registers stands; its edge 1 reads."""
    variables = " ".join(str(number) for number in range(len(range(0, objects, 3))))
    count = len(variables.split())
    held = {number: 8 for number in range(5)}
    after = {number: 8 for number in held if number != BLOCK} | {FREE: 8}
    stands = [f"stand {count} {variables} " + " ".join(f"{number} {size}" for number, size in at.items()) for at in (held, after)]
    return "; ".join(["points 5", "stands 3", "function 0 1", "return 1 2", *["local 24"] * count, *stands, f"read 3 4 {FREE} {BLOCK} 8 1"])


def start_of(objects, every):
    """The parts of a flow graph with so many static variables, of which each so many-th one holds a number at the start."""
    held = [f"holds {number} 8 8 7" for number in range(0, objects, every)] if every else []
    return "; ".join(["points 3", "stands 3", "function 0 1", "return 1 2", *["static 24"] * objects, *held])


def runs_of(objects):
    """How many calls there are in a row."""
    return max(1, 20 * SMALL // objects)


def rows(objects):
    """The rows of all calls, each with the call's name behind those that it is asked of."""
    runs = runs_of(objects)
    lines = [(f"graph {graph_of(objects, registers_of(objects, objects // 3))}", None)]
    lines += [(f"{runs} {step}", name) for name, step in STEPS.items()]
    lines += [(f"graph {graph_of(objects, registers_of(objects, objects // 3), 1)}", None), (f"{runs} close", "close")]
    lines += [(f"graph {graph_of(objects, registers_of(objects, 0))}", None), (f"flow {flow_of(objects)}", None), (f"{runs} post 1", "post, of a read")]
    for name, every in (("start", 0), ("start, each hundredth variable set", 100), ("start, each variable set", 1)):
        lines += [(f"flow {start_of(objects, every)}", None), (f"{runs} start", name)]
    return lines


def taken(process):
    """How many nanoseconds of a processor a process has had."""
    return int(Path(f"/proc/{process.pid}/schedstat").read_text().split()[0])


def asked(process, row):
    """How many nanoseconds of a processor the program takes for a row."""
    before = taken(process)
    process.stdin.write(row + "\n")
    process.stdin.flush()
    said = process.stdout.readline().strip()
    if said not in ("graph", "flow", "made"):
        sys.exit(f"{row[:60]}: {said}")
    return taken(process) - before


def measured(program, objects):
    """Each call with the microseconds that it takes on a graph of so many objects."""
    with subprocess.Popen([program], stdin=subprocess.PIPE, stdout=subprocess.PIPE, text=True, preexec_fn=unproved.with_stack) as process:
        for row, name in rows(objects):
            least = min(asked(process, row) for _ in range(TIMES if name else 1))
            if name:
                yield name, least / runs_of(objects) / 1000
        process.stdin.close()


def main():
    words = argparse.ArgumentParser(description=__doc__, formatter_class=argparse.RawDescriptionHelpFormatter)
    words.add_argument("--large", type=int, default=10_000)
    large = words.parse_args().large
    program = programs.program(HERE, ROW)
    small = dict(measured(program, SMALL))
    print(f"| call | {SMALL:,} objects | {large:,} objects | time for each object, as a ratio |\n|---|---|---|---|")
    for name, taken_by_large in measured(program, large):
        print(f"| {name} | {small[name]:,.0f} | {taken_by_large:,.0f} | {taken_by_large * SMALL / (small[name] * large):.2f} |", flush=True)
    return 0


if __name__ == "__main__":
    sys.exit(main())
