"""Programs of rows of flow graphs and graphs over the sources of crates/, built by the kit's `rt try`. They are not proved themselves, and so are none of the gate's.
They are kept where other programs are kept (front/kept.py).

A program has the parts of flow graphs from flow_rows and the words of graphs from graph_rows, and files of its own, which end in `.rt.in`.
"""
import os
import shutil
import subprocess
import sys
import tempfile
from pathlib import Path

from front import kept, sources, tried, unproved

# the program stands in place of this crate, whose definitions it uses
NAME = "flow_rows"
BESIDE = "graph_rows"
ABOVE = "settle edge_steps transfer"
UNUSED = ("answer.rt", "row.rt")


def uses():
    """The libraries of a program."""
    known = sources.below()
    return sorted({*known[NAME], *known[BESIDE], *ABOVE.split()})


def lay_out(own, room):
    """Makes a folder of crates in which the program with these files of its own stands over those of this repository, and gives the program's own."""
    inside = Path(room, "crates")
    known, home = sources.below(), sources.HOME
    names = [name for name in known if name in uses()]
    for name in [*names, NAME]:
        for folder in sources.FOLDERS:
            if (home / "crates" / name / folder).is_dir():
                shutil.copytree(home / "crates" / name / folder, inside / name / folder)
    for file in (home / "crates" / BESIDE / "src").glob("*.rt"):
        shutil.copy(file, inside / NAME / "src")
    for name in UNUSED:
        Path(inside, NAME, "src", name).unlink()
    for file in own.glob("*.rt.in"):
        shutil.copy(file, inside / NAME / "src" / file.name.removesuffix(".in"))
    shutil.copy(home / "HANDLES", room)
    lines = [f"{name}: {' '.join(known[name])}" for name in names]
    Path(room, "crates.txt").write_text("\n".join([*lines, f"{NAME}: {' '.join(uses())}"]) + "\n")
    return inside / NAME


def program(own, row):
    """The program with these files of its own, which answers this row. It is built where none is kept."""

    def built(to):
        print(f"building the program of {own.relative_to(sources.HOME)}, once, which takes a minute or more", file=sys.stderr, flush=True)
        with tempfile.TemporaryDirectory(prefix="predator-") as room:
            tried.built(lay_out(own, room), row.encode() + b"\n", to)

    return kept.program(own.name, sources.checksum_of([*uses(), NAME, BESIDE], own.glob("*.rt.in")), built)


def answers(own, row, lines):
    """What the program with these files of its own, which answers this row, prints of these lines."""
    with tempfile.TemporaryDirectory() as room:
        file = os.path.join(room, "rows")
        Path(file).write_text("\n".join(lines) + "\n")
        done = subprocess.run([program(own, row), file], stdout=subprocess.PIPE, text=True, preexec_fn=unproved.with_stack)
    if done.returncode != 0:
        raise kept.NotBuilt(f"the program of {own} ended with status {done.returncode}")
    return done.stdout.splitlines()
