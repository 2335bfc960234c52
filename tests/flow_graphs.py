#!/usr/bin/env python3
"""Compares the flow graphs of texts with those that were worked out against the table of docs/flow.md.

Usage, at the project's root: python3 tests/flow_graphs.py [--all]
tests/flow_graphs.rows has each text in one line, `strict ` in front where it is read so, and behind it the lines of its graph (tools/graph/shown.rt.in says how); lines
that begin with `# ` are headings. The program of tools/graph is asked for each. It prints each text that has another graph; the status is 1 where there is one.
With --all it asks then for the graph of each other program of the repository (tests/answers, tests/replay, tests/preprocessed, examples): each that is read has one, and memory
is never wanting, as it would be where the graph had not what all flow graphs have.
"""
import re
import subprocess
import sys
import tempfile
from pathlib import Path

HOME = Path(__file__).resolve().parent.parent
sys.path.insert(0, str(HOME / "tools"))
from front import graph, unproved  # noqa: E402

ROWS = HOME / "tests" / "flow_graphs.rows"
TABLES = (("answers/types.rows", 2), ("replay/replay.rows", 3))  # files of rows, with how many lines a row has
FOLDERS = (("tests/answers", "*.c"), ("tests/preprocessed", "*.i"), ("examples", "*.c"))
UNREAD = ("too long", "no tokens", "too deep", "no main", "refused")
ESCAPED = {b"n": b"\n", b"t": b"\t", b"r": b"\r", b"s": b" "}


def rows(lines):
    """Each text with the lines of its graph."""
    found, text = [], None
    for line in lines:
        if text is None and line and not line.startswith("# "):
            text, shown = line, []
        elif text is not None and line:
            shown.append(line)
        elif text is not None:
            found.append((text, shown))
            text = None
    return found


def asked(texts):
    """The same, as the program answers."""
    with tempfile.TemporaryDirectory() as folder:
        file = Path(folder, "rows")
        file.write_text("".join(text + "\n" for text in texts))
        done = subprocess.run([graph.program(), file], stdout=subprocess.PIPE, preexec_fn=unproved.with_stack)
    return rows(done.stdout.decode(errors="replace").split("\n"))


def byte(escape):
    """The byte that an escape stands for."""
    digits, letter = escape.groups()
    return bytes.fromhex(digits.decode()) if digits else ESCAPED.get(letter, letter)


def programs():
    """All other programs that are text, each once."""
    found = {}
    for name, lines in TABLES:
        table = [line for line in (HOME / "tests" / name).read_bytes().split(b"\n") if line and not line.startswith(b"# ")]
        for row in table[::lines]:
            found[re.sub(rb"\\x([0-9a-f]{2})|\\(.)", byte, row)] = None
    for folder, pattern in FOLDERS:
        for file in sorted((HOME / folder).glob(pattern)):
            found[file.read_bytes()] = None
    return [text for text in found if text.decode(errors="replace").encode() == text and b"\0" not in text]


def answer_of(program, text):
    """What is said of the graph of a program, in one line: `points ..` where there is one."""
    with tempfile.TemporaryDirectory() as folder:
        file = Path(folder, "rows")
        file.write_bytes(b"brief " + graph.row_of(text, False))
        done = subprocess.run([program, file], stdout=subprocess.PIPE, stderr=subprocess.STDOUT, preexec_fn=unproved.with_stack)
    lines = done.stdout.decode(errors="replace").split("\n")
    return lines[1] if done.returncode == 0 and len(lines) > 1 else f"status {done.returncode}"


def without_graph():
    """How many other programs are read and have no graph."""
    program, texts, read, missing = graph.program(), programs(), 0, 0
    for text in texts:
        said = answer_of(program, text)
        read += said not in UNREAD
        if said not in UNREAD and not said.startswith("points "):
            missing += 1
            print(f"{text[:200]!r}: {said}")
    print(f"programs: {read} of {len(texts)} are read, and {read - missing} of these have a graph")
    return missing


def main():
    wanted = rows(ROWS.read_text().split("\n"))
    got = asked([text for text, _ in wanted])
    unlike = [(one, other) for one, other in zip(wanted, got) if one != other]
    for (text, shown), (_, other) in unlike:
        print(text, *("  wanted " + line for line in shown), *("  got    " + line for line in other), sep="\n")
    print(f"flow graphs: {len(wanted) - len(unlike)} of {len(wanted)} are as wanted")
    missing = without_graph() if "--all" in sys.argv else 0
    return 1 if unlike or missing or len(got) != len(wanted) else 0


if __name__ == "__main__":
    sys.exit(print(__doc__) if "--help" in sys.argv else main())
