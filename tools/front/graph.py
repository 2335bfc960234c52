"""`predator graph`: the flow graph of a text, as lines or as a picture (docs/flow.md); with `--states` the trail of its analysis (docs/analysis.md).

The graph is made by `lower` and analysed by `analyse`, and written by the program of tools/graph over the sources of crates/, which is not proved itself, and so is none of the gate's. It takes texts as rows. It
is built once, by the kit's `rt try` in a folder that holds these sources (tried.py), and kept where other programs are kept (kept.py), by the checksum of all of them.
"""
import os
import shutil
import subprocess
import sys
import tempfile
from pathlib import Path

from . import drawing, kept, preprocess, run, sources, states, tried, unproved
from .words import OPTIONS, names_files

USAGE = "usage: predator graph [--svg] [--strict] [--states [--budget N]] [-I DIR ..] FILE"
BUDGET = b"10000"  # as that of the program
NAME = "graph_text"
HERE = sources.HOME / "tools" / "graph"
USES = (
    "cbase smallvec ctrees arithmetic indexmap typing expressions items bytes_core choices flow c_machine c_steps c_text simulation lowering lower planes slab graph tidying coarse changes "
    "reinterpret heap_steps range_steps block_steps register_steps materialise settle fold edge_steps transfer alike_steps trail cover driver ctokens definitions cgrammar cevents cparser cread_expr cbuild cconstructs "
    "cread ccheck")
ROW = b"int main(void) { return 0; }\n"
REFUSED = {
    b"too long": "a text has at most 4,194,304 bytes",
    b"no tokens": "these bytes are no row of tokens",
    b"too deep": "the file is no row of items",
    b"no main": "nothing in it is called main",
    b"refused": "it is not read",
    b"no text": "the size of a type is not kept",
    b"no graph": "it has no flow graph",
}


def crates():
    """The crates below the program, with what each of them uses."""
    known = sources.below()
    return {name: known[name] for name in USES.split() if name in known}


def lay_out(room):
    """Makes a folder of crates in which the program stands over those of this repository, and gives the program's own."""
    inside = Path(room, "crates")
    inside.mkdir()
    for name in crates():
        for folder in sources.FOLDERS:
            if (sources.HOME / "crates" / name / folder).is_dir():
                shutil.copytree(sources.HOME / "crates" / name / folder, inside / name / folder)
    (inside / NAME / "src").mkdir(parents=True)
    for file in HERE.glob("*.rt.in"):
        shutil.copy(file, inside / NAME / "src" / file.name.removesuffix(".in"))
    shutil.copy(sources.HOME / "HANDLES", room)
    lines = [f"{name}: {' '.join(uses)}" for name, uses in crates().items()]
    order = [line for name in sources.below() for line in lines if line.startswith(f"{name}: ")]
    Path(room, "crates.txt").write_text("\n".join([*order, f"{NAME}: {USES}"]) + "\n")
    return inside / NAME


def built(to):
    """Builds the program into a file."""
    print("predator: building the program that writes graphs, once, which takes some minutes", file=sys.stderr, flush=True)
    with tempfile.TemporaryDirectory(prefix="predator-") as room:
        tried.built(lay_out(room), ROW, to)


def program():
    """The program that writes graphs."""
    return kept.program("graph", sources.checksum_of(crates(), HERE.glob("*.rt.in")), built)


def row_of(text, is_strict, budget=b""):
    """A text as a row, where a budget is given as one of its states."""
    body = text.replace(b"\\", b"\\\\").replace(b"\r\n", b"\n").replace(b"\n", b"\\n")
    return (b"states %s " % budget if budget else b"") + (b"strict " if is_strict else b"") + body + b"\n"


def lines_of(text, is_strict, budget=b""):
    """The lines of the graph of a text, or where a budget is given those of its states."""
    with tempfile.TemporaryDirectory(prefix="predator-") as folder:
        name = os.path.join(folder, "rows")
        with open(name, "wb") as rows:
            rows.write(row_of(text, is_strict, budget))
        done = subprocess.run([program(), name], stdout=subprocess.PIPE, preexec_fn=unproved.with_stack)
    if done.returncode != 0:
        raise run.NoAnswer(f"the program that writes graphs ended with status {done.returncode}")
    return [line for line in done.stdout.split(b"\n")[1:] if line]


def text_of(found):
    """The text, or None and why there is none."""
    file = found.program[found.files[0]]
    if found.is_preprocessed:
        return preprocess.preprocessed(file, found.preprocessor)
    try:
        with open(file, "rb") as opened:
            return opened.read(), ""
    except OSError as error:
        return None, f"{os.fsdecode(file)}: {error.strerror}"


def options_of(found):
    """The options with their values, or nothing where the words are wrong."""
    words = [word for at, word in enumerate(found.program) if at > 0 and at not in found.files and word != b"--"]
    options = {}
    while words:
        name, equals, value = words.pop(0).partition(b"=")
        has_value = OPTIONS[b"graph"].get(name)
        if has_value is None or name in options or (equals and not has_value) or (has_value and not equals and not words):
            return None
        options[name] = (value if equals else words.pop(0)) if has_value else b""
    return options


def budget_of(options):
    """How many states are kept at most, as bytes; nothing where the graph itself is wanted, and None where the words are wrong."""
    if options is None or (b"--budget" in options and b"--states" not in options):
        return None
    budget = options.get(b"--budget", BUDGET)
    is_budget = budget.isdigit() and len(budget) <= 6 and 1 <= int(budget) <= 200_000
    return (budget if b"--states" in options else b"") if is_budget else None


def shown(lines, options):
    """What is written of the lines."""
    lines = [line.decode() for line in lines]
    if b"--svg" in options:
        return (states if b"--states" in options else drawing).picture(lines).encode()
    return "".join(line + "\n" for line in lines).encode()


def command(found):
    """Writes the graph of a file to standard output, or its states."""
    options = options_of(found)
    budget = budget_of(options)
    if not names_files(found, 1) or budget is None:
        print(USAGE, file=sys.stderr)
        return 4
    text, why = text_of(found)
    if text is None:
        print(f"predator: {why}", file=sys.stderr)
        return 5
    lines = lines_of(text, b"--strict" in options, budget)
    if len(lines) == 1 and lines[0] in REFUSED:
        print(f"predator: {os.fsdecode(found.program[found.files[0]])}: {REFUSED[lines[0]]}", file=sys.stderr)
        return 3
    why = run.write(shown(lines, options))
    if why:
        print(f"predator: the graph could not be written: {why}", file=sys.stderr)
        return 6
    return 0
