#!/usr/bin/env python3
"""Says whether `predator replay` takes time in proportion to the work: chains of functions, and recursions of some depth.

Usage, at the project's root: bench/recursion.py [--unproved] [--most N] [PART ..]
Without words it takes all parts. Each run is of a program with all its choices, and of the processor times of some runs the least is taken. Printed is the time
for each function or level in a size as a ratio to that in the smallest size, which is an eighth of the largest: where the work is linear these are about 1, and work that goes with the square
would give 2, 4 and 8. It takes the proved program; with --unproved one that is built from the same sources without proofs. --most sets how deep the
deepest recursion is, and --functions how many functions the longest chain has, and --runs how often each program is run.

chain        functions that each call the one before it and add 1, read and checked (CHOICES is empty, so the run waits at once)
chain_run    the same, read, checked and run to its end with all choices
down         a function with an object of one byte that calls itself for ever, each object behind the one before: the run waits for a choice at its deepest level
descending   the same, each object in front of the one before
scattered    the same, the objects in no order
back         a recursion of half these depths that returns from each level, with looks for loss at each; a run of 1,000,000 steps comes no deeper than some 60,000 and back
held         the same with a block of the heap that main holds meanwhile: a look goes over all that lives, so this goes with the square, and it is taken at a hundredth of the depths
"""
import argparse
import random
import resource
import subprocess
import sys
import tempfile
from pathlib import Path

sys.path.insert(0, str(Path(__file__).resolve().parent.parent / "tools"))
from front import run, sources  # noqa: E402

SHARES = (8, 4, 2, 1)
FOR_EVER = "void f(void) { char c; f(); }\nint main(void) { f(); return 0; }\n"


def block(number, size):
    """A choice of a block of zeros, at the multiple of 16 of that number."""
    return f"block {16 * number} {'00' * size}"


def chain(functions):
    """Functions that each call the one before it, with their choices and the answer."""
    calls = "".join(f"int f{at}(int n) {{ return f{at - 1}(n) + 1; }}\n" for at in range(1, functions))
    text = f"int f0(int n) {{ return n; }}\n{calls}int main(void) {{ return f{functions - 1}(0); }}\n"
    return text, [block(at + 1, 4) for at in range(functions)], "ended"


def unrun(functions):
    return chain(functions)[0], [], "waits"


def down(depth):
    return FOR_EVER, [block(at + 1, 1) for at in range(depth)], "waits"


def descending(depth):
    return FOR_EVER, [block(depth - at, 1) for at in range(depth)], "waits"


def scattered(depth):
    places = list(range(1, depth + 1))
    random.Random(1).shuffle(places)
    return FOR_EVER, [block(at, 1) for at in places], "waits"


def recursion(depth, before, behind):
    """A recursion that returns from each level, with what main does before and behind it."""
    return f"int n = {depth};\nvoid f(void) {{ char c; if (n--) f(); }}\nint main(void) {{ {before} f(); {behind} return 0; }}\n"


def back(depth):
    depth //= 2
    return recursion(depth, "", ""), [block(1, 4), *(block(at + 2, 1) for at in range(depth + 1))], "ended"


def held(depth):
    depth //= 100
    choices = [block(1, 4), block(2, 8), block(3, 1), *(block(at + 4, 1) for at in range(depth + 1))]
    return recursion(depth, "void *p = malloc(1);", "free(p);"), choices, "ended"


PARTS = {"chain": unrun, "chain_run": chain, "down": down, "descending": descending, "scattered": scattered, "back": back, "held": held}


def seconds(program, case, runs):
    """The least processor time of some runs of a program of C with its choices."""
    text, choices, answer = case
    times = []
    with tempfile.TemporaryDirectory() as folder:
        Path(folder, "t.c").write_text(text)
        Path(folder, "c").write_text("".join(choice + "\n" for choice in choices))
        for _ in range(runs):
            before = resource.getrusage(resource.RUSAGE_CHILDREN)
            said, _ = program.answer(["replay", "t.c", "c"], cwd=folder, stdin=subprocess.DEVNULL)
            after = resource.getrusage(resource.RUSAGE_CHILDREN)
            if said != f"t.c: {answer}\n".encode():
                sys.exit(f"bench/recursion.py: {said!r} in place of {answer!r}")
            times.append(after.ru_utime + after.ru_stime - before.ru_utime - before.ru_stime)
    return min(times)


def measured(program, part, most, runs):
    """Prints what a part takes for each function or level, against the smallest size."""
    first = None
    for count in (most // share for share in SHARES):
        took = seconds(program, PARTS[part](count), runs)
        each = took / count
        first = first or each
        print(f"{part}, {count:,}: {took:.3f} s, {each / first:.2f}", flush=True)


def main():
    words = argparse.ArgumentParser(description=__doc__, formatter_class=argparse.RawDescriptionHelpFormatter)
    words.add_argument("--unproved", action="store_true")
    words.add_argument("--most", type=int, default=100_000)
    words.add_argument("--functions", type=int, default=1_000)
    words.add_argument("--runs", type=int, default=3)
    words.add_argument("part", nargs="*", metavar="PART", choices=[*PARTS, []])
    given = words.parse_args()
    if not given.unproved and not sources.is_proved():
        sys.exit("bench/recursion.py: no program stands that was proved from these sources: `.ci/run` and `./prove` leave one")
    program = run.Program()
    for part in given.part or PARTS:
        measured(program, part, given.functions if part.startswith("chain") else given.most, given.runs)
    return 0


if __name__ == "__main__":
    sys.exit(main())
