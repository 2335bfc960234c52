#!/usr/bin/env python3
"""Runs the gate from nothing in a clone of what is committed, and writes what it cost into docs/gate.md, crate by crate.

Usage, at the project's root, on a machine with nothing else to do: bench/gate.py [NAME ..]
With names, these crates and those below them are proved anew, and the rows of these alone are written. The processor time of a crate's proof, of its tests, of the proof that its edits begin with and of its edits is read from /proc
while their processes run, four times a second; that of the whole gate is what the kernel counts for it. The part of
docs/gate.md between the lines 'gate.py: begin' and 'gate.py: end' is written anew, and so is the table of marks, between 'gate.py: marks' and 'gate.py: end of marks'.
It ends with the gate's status.
"""
import os
import re
import resource
import subprocess
import sys
import tempfile
import threading
import time
from collections import defaultdict
from pathlib import Path

HOME = Path(__file__).resolve().parent.parent
PAGE = HOME / "docs" / "gate.md"
BEGIN, END = "<!-- gate.py: begin -->\n", "<!-- gate.py: end -->\n"
MARKS, END_OF_MARKS = "<!-- gate.py: marks -->\n", "<!-- gate.py: end of marks -->\n"
# What a minute is depends on the machine and on what else it does. These crates took so many minutes in the table of 2026-11-29, and have not changed since: by what
# they take in a run it is estimated what its minutes would be there (yardstick minutes). A crate that changes is to be taken out of the list.
YARDSTICK = {
    "arithmetic_rows": 1.0, "choices": 0.8, "choices_tests": 0.6,
}
# What groups of crates are meant to take at most.
GROUPS = (
    ("all crates", 108, ""),
)
KINDS = ("proof", "tests", "seed", "edits")
HEAD = "| crate | its proof | its tests | once more for its edits | its edits | all |\n|---|---|---|---|---|---|\n"
TICK = os.sysconf("SC_CLK_TCK")


def kind_of(words, folder):
    """Which part of a crate's work a process of the prover does: its words and the folder that it runs in tell."""
    if "--test" in words:
        return "tests"
    if Path(folder).name.startswith("rt-edit-"):
        kept = words[words.index("--incremental") + 1] if "--incremental" in words else ""
        return "seed" if kept.endswith("/seed") else "edits"
    return "proof"


def sampled(group):
    """The processes of the prover in a process group: each with its crate, its kind and its seconds so far, with those of its ended parts."""
    for entry in os.listdir("/proc"):
        if not entry.isdigit():
            continue
        try:
            text = Path("/proc", entry, "stat").read_text()
            fields = text[text.rindex(")") + 2:].split()
            if int(fields[3]) != group:
                continue
            words = Path("/proc", entry, "cmdline").read_text().split("\0")
            if not words[0].endswith("/rattle") or "--crate-name" not in words:
                continue
            crate = words[words.index("--crate-name") + 1]
            key = entry, fields[19]
            yield key, (crate, kind_of(words, os.readlink(f"/proc/{entry}/cwd"))), sum(map(int, fields[11:13])) / TICK
        except (OSError, ValueError, IndexError):
            continue


def watched(group, seen, is_over):
    while not is_over.wait(0.25):
        for key, what, seconds in sampled(group):
            seen[key] = what, seconds


def counts(crate):
    """How many tests of a crate and how many of its edits the gate tries."""
    folder = HOME / "crates" / crate
    tests = sum(len(re.findall(r"#\[test\]", file.read_text())) for file in folder.glob("src/**/*.rt"))
    return tests, len(list(folder.glob("must-fail/*.edit")))


def row(crate, minutes):
    """The row of a crate: its minutes, with how many tests and edits it has."""
    tests, edits = counts(crate)
    parts = [minutes[crate, kind] for kind in KINDS]
    shown = [f"{part:.1f}" if part else "none" for part in parts]
    shown[1] += f" ({tests} tests)" if tests else ""
    shown[3] += f" ({edits} edits)" if edits else ""
    return f"| `{crate}` | {' | '.join(shown)} | {sum(parts):.1f} |\n"


def number(cell):
    return 0.0 if cell.startswith("none") else float(cell.split()[0])


def together(rows):
    """The last row: the sums of the columns."""
    cells = [[number(cell.strip()) for cell in line.split("|")[2:-1]] for line in rows]
    return f"| together | {' | '.join(f'{sum(column):.1f}' for column in zip(*cells))} |\n"


def table(seen, crates, names, text):
    """The table of minutes, in which the rows of other crates than `names` are those of the page as it stands."""
    minutes = defaultdict(float)
    for what, seconds in seen.values():
        minutes[what] += seconds / 60
    known = {line.split("`")[1]: line + "\n" for line in text.splitlines() if re.match(r"\| `\w+` \| (none|[\d.]+)", line)}
    rows = [row(crate, minutes) if crate in names else known[crate] for crate in crates if crate in names or crate in known]
    return HEAD + "".join(rows) + together(rows)


def marks(rows):
    """The table of what groups of crates are meant to take and what they took, by the rows of crates."""
    took = {line.split("`")[1]: number(line.split("|")[-2].strip()) for line in rows.splitlines() if re.match(r"\| `\w+` \|", line)}
    scale = sum(took[crate] for crate in YARDSTICK) / sum(YARDSTICK.values())
    lines = [f"| | in the table | in yardstick minutes, at {scale:.2f} for one | meant |\n|---|---|---|---|\n"]
    for what, meant, names in GROUPS:
        sum_of = sum(took[crate] for crate in names.split() or took)
        shown = f": {', '.join(f'`{crate}`' for crate in names.split())}" if names else ""
        lines.append(f"| {what}{shown} | {sum_of:.1f} | {sum_of / scale:.1f} | {meant} |\n")
    return "".join(lines)


def with_marks(page, rows):
    """The page with the table of marks written anew."""
    at, end = page.index(MARKS) + len(MARKS), page.index(END_OF_MARKS)
    return f"{page[:at]}\n{marks(rows)}\n{page[end:]}"


def from_nothing(names):
    """The words that run the gate from nothing. A kit that keeps what earlier runs proved takes `--anew` and names of crates; one
    that keeps nothing prints its usage at such a word, and `rt ci` alone is from nothing."""
    with tempfile.TemporaryDirectory() as empty:
        said = subprocess.run(["rt", "ci", "--anew"], cwd=empty, stdin=subprocess.DEVNULL, stdout=subprocess.PIPE, stderr=subprocess.STDOUT)
    if b"usage: rt" not in said.stdout:
        return ["rt", "ci", "--anew", *names]
    if names:
        sys.exit("bench/gate.py: this kit's `rt ci` takes no names of crates: give none")
    return ["rt", "ci"]


def gate(folder, log, names):
    """Runs the gate in a folder, of these crates or of all; what was seen of it, its status, its minutes on the clock and of processor time."""
    seen, is_over, began = {}, threading.Event(), time.monotonic()
    with open(log, "wb") as out:
        run = subprocess.Popen(from_nothing(names), cwd=folder, stdin=subprocess.DEVNULL, stdout=out, stderr=out,
                               start_new_session=True)
        watcher = threading.Thread(target=watched, args=(run.pid, seen, is_over))
        watcher.start()
        status = run.wait()
        is_over.set()
        watcher.join()
    used = resource.getrusage(resource.RUSAGE_CHILDREN)
    return seen, status, (time.monotonic() - began) / 60, (used.ru_utime + used.ru_stime) / 60


def main():
    names = sys.argv[1:]
    lines = (HOME / "crates.txt").read_text().splitlines()
    crates = [line.partition(":")[0].split()[0] for line in lines if ":" in line and not line.startswith("#")]
    with tempfile.TemporaryDirectory() as room:
        copy, log = Path(room, "copy"), Path(room, "log")
        subprocess.run(["git", "clone", "--quiet", "--no-hardlinks", HOME, copy], check=True)
        seen, status, wall, used = gate(copy, log, names)
        said = log.read_text(errors="replace")
        print(said)
    text = PAGE.read_text()
    at, end = text.index(BEGIN) + len(BEGIN), text.index(END)
    rest = re.search(r"^The whole run .*\n", text[at:end], re.M)
    whole = f"The whole run used {used:.0f} minutes of processor time, compilers and programs included, and took {wall:.0f} minutes on {os.cpu_count()} processors. Its last line: `{said.rstrip().splitlines()[-1]}`.\n"
    last = (rest.group() if rest else "") if names else whole
    rows = table(seen, crates, names or crates, text[at:end])
    PAGE.write_text(with_marks(f"{text[:at]}\n{rows}\n{last}\n{text[end:]}", rows))
    return status


if __name__ == "__main__":
    sys.exit(print(__doc__) if "--help" in sys.argv else main())
