#!/usr/bin/env python3
"""Measures calls of planes of 65,536 bytes against plain loops over the same bytes, in one program.

Usage, at the project's root: bench/planes.py
It proves and builds the program of crates/plane_rows, and asks it many times for the first byte above a class, whether each byte is of one
class, and whether none is above that in another plane; each goes through all bytes. Of the processor times the least of some runs is taken, less
that of a run that asks nothing. Printed is the time of a call, of the loop, and how many times as long the loop takes.
"""
import resource
import subprocess
from pathlib import Path

CRATE = Path(__file__).resolve().parent.parent / "crates" / "plane_rows"
RUNS = 5
CALLS = ("the first byte above", "all of one class", "none above another plane")


def seconds(count, call, plain):
    """The least processor time of some runs that ask so many times."""
    row = f"new=65536:1 swap new=65536:1 time={count}:{call}:{plain}\n"
    times = []
    for _ in range(RUNS):
        before = resource.getrusage(resource.RUSAGE_CHILDREN)
        subprocess.run([CRATE / "out" / "plane_rows"], input=row, stdout=subprocess.DEVNULL, text=True, check=True)
        after = resource.getrusage(resource.RUSAGE_CHILDREN)
        times.append(after.ru_utime + after.ru_stime - before.ru_utime - before.ru_stime)
    return min(times)


def main():
    subprocess.run(["rt", "run"], cwd=CRATE, stdin=subprocess.DEVNULL, stdout=subprocess.DEVNULL, check=True)
    for call, name in enumerate(CALLS):
        lanes = (seconds(20_000, call, 0) - seconds(0, call, 0)) / 20_000
        loop = (seconds(2_000, call, 1) - seconds(0, call, 1)) / 2_000
        print(f"{name}: {1e6 * lanes:.2f} us, by the loop {1e6 * loop:.2f} us, {loop / lanes:.1f} times")


if __name__ == "__main__":
    main()
