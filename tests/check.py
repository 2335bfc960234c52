#!/usr/bin/env python3
"""Runs the proved program on each program of answers/ and preprocessed/, and compares what it prints and its status.

Usage: python3 tests/check.py [--unproved]
answers/ has short texts whose answers were worked out by hand, preprocessed/ programs as gcc -E writes them. What is
wanted of NAME.c or NAME.i stands in NAME.expect. ../bench/lists has loops over lists. Where choices stand beside a program, as NAME.choices or NAME.2.choices, `replay` is to meet a fault with
them that stands in NAME.expect, and each error of these with some. answers/types.rows has one program a line, and below it the status and the
report that are wanted of it as a file t.c, or `passes`, where it passes the check, whatever is found of its runs within 100 states; a line that begins with `# ` says what the rows below it show. replay/replay.rows has such
rows for `predator replay`: a line between the two has the options and, each behind a `|`, the lines of the choices, which are the file c. It
prints a line for each that differs; the status is 1 where one does, and where no program stands that was proved from the sources as they are
now. With --unproved it takes one that is built from them without proofs.
"""
import re
import subprocess
import sys
import tempfile
from pathlib import Path

HOME = Path(__file__).resolve().parent
sys.path.insert(0, str(HOME.parent / "tools"))
from front import run, sources  # noqa: E402

FOLDERS = (("answers", "*.c"), ("preprocessed", "*.i"), ("../bench/lists", "*.c"))
ROWS = HOME / "answers" / "types.rows"
REPLAY_ROWS = HOME / "replay" / "replay.rows"
# What is answered of a program that passes the check.
PASSES = re.compile(
    rb"0 t\.c: safe\n|3 t\.c: not read: not yet at t\.c:\d+:\d+\n|2 t\.c: gave up: (?:budget of \d+ states spent|state too large)\n"
    rb"|1 (?:t\.c:\d+:\d+: (?:error|warning): [a-z ]+ \[[1-8]\]\n)+t\.c: warned(?:, budget of \d+ states spent)?\n")
# Of such a program it is of no use to follow many states, as those of a loop over a list.
BRIEFLY = ("--budget", "100")
ESCAPED = {b"n": b"\n", b"t": b"\t", b"r": b"\r", b"s": b" "}


def wanted(file):
    """The bytes and the status that are wanted of a program."""
    text, _, last = file.with_suffix(".expect").read_bytes().rstrip(b"\n").rpartition(b"status ")
    return text, int(last)


def answered(program, file, *options):
    """The bytes that are printed for a program, and the status."""
    return program.answer([*options, file.name], cwd=file.parent, stdin=subprocess.DEVNULL)


def differing(program, files):
    """How many of these programs are answered otherwise than is wanted."""
    count = 0
    for file in files:
        want, got = wanted(file), answered(program, file)
        if got != want:
            count += 1
            print(f"{file.name} differs: wanted {want!r}, got {got!r}")
    return count


def unmet(program, files):
    """How many of the programs beside which choices stand meet other faults with them than are wanted, or not all of these."""
    count = 0
    for file in files:
        found = sorted(file.parent.glob(f"{file.stem}*.choices"))
        met = {program.answer(["replay", file.name, kept.name], cwd=file.parent, stdin=subprocess.DEVNULL)[0] for kept in found if re.fullmatch(r"(\.[2-9])?\.choices", kept.name[len(file.stem):])}
        want, errors = ({re.sub(rb": (?:error|warning): ", b": ", line) + b"\n" for line in wanted(file)[0].split(b"\n") if re.search(word, line)} for word in (rb": (?:error|warning): ", rb": error: "))
        if met and not errors <= met <= want:
            count += 1
            print(f"{file.name} differs: its choices are to meet {want!r}, and meet {met!r}")
    return count


def byte(escape):
    """The byte that an escape stands for."""
    digits, letter = escape.groups()
    return bytes.fromhex(digits.decode()) if digits else ESCAPED.get(letter, letter)


def unescaped(text):
    r"""The bytes of a text of a row: its escapes are \n, \t, \r, \s for a blank, \\ and \x with two hexadecimal digits."""
    return re.sub(rb"\\x([0-9a-f]{2})|\\(.)", byte, text)


def rows(file):
    """The rows of a file: of each the heading above it, the bytes of the program, and the bytes and the status that are wanted."""
    heading, found, lines = "", [], iter(file.read_bytes().split(b"\n")[:-1])
    for line in lines:
        if line.startswith(b"# "):
            heading = line.decode()
        else:
            status, _, report = next(lines).partition(b" ")
            found.append((heading, unescaped(line), None if status == b"passes" else (unescaped(report), int(status))))
    return found


def differing_rows(program, found):
    """How many of these rows are answered otherwise than is wanted."""
    count = 0
    with tempfile.TemporaryDirectory() as folder:
        file = Path(folder, "t.c")
        for heading, text, want in found:
            file.write_bytes(text)
            got = answered(program, file, *(BRIEFLY if want is None else ()))
            if not (PASSES.fullmatch(b"%d " % got[1] + got[0]) if want is None else got == want):
                count += 1
                print(f"{heading}: {text!r} differs: wanted {want or 'a verdict'!r}, got {got!r}")
    return count


def replay_rows(file):
    """The rows of a file for `replay`: of each the heading above it, the program, the options, the choices, and what is wanted."""
    heading, found, lines = "", [], iter(file.read_bytes().split(b"\n")[:-1])
    for line in lines:
        if line.startswith(b"# "):
            heading = line.decode()
        else:
            options, *choices = next(lines).split(b"|")
            text = b"".join(choice.strip() + b"\n" for choice in choices if choice)
            status, _, report = next(lines).partition(b" ")
            found.append((heading, unescaped(line), options.split(), text, (unescaped(report), int(status))))
    return found


def differing_replays(program, found):
    """How many of these rows are answered otherwise than is wanted."""
    count = 0
    with tempfile.TemporaryDirectory() as folder:
        for heading, text, options, choices, want in found:
            Path(folder, "t.c").write_bytes(text)
            Path(folder, "c").write_bytes(choices)
            got = program.answer(["replay", *options, "t.c", "c"], cwd=folder, stdin=subprocess.DEVNULL)
            if got != want:
                count += 1
                print(f"{heading}: {text!r} with {choices!r} differs: wanted {want!r}, got {got!r}")
    return count


def main():
    if sys.argv[1:] not in ([], ["--unproved"]):
        sys.exit(__doc__)
    if not sys.argv[1:] and not sources.is_proved():
        sys.exit("tests/check.py: no program stands that was proved from these sources: `.ci/run` and `./prove` leave one")
    program, is_wrong = run.Program(), False
    program.note()
    for folder, pattern in FOLDERS:
        files = sorted((HOME / folder).glob(pattern))
        count = differing(program, files) + unmet(program, files)
        is_wrong = is_wrong or count > 0 or not files
        print(f"{folder}: {len(files) - count} of {len(files)} programs as wanted")
    for file, read, differ, what in ((ROWS, rows, differing_rows, "programs"), (REPLAY_ROWS, replay_rows, differing_replays, "runs")):
        found = read(file)
        count = differ(program, found)
        is_wrong = is_wrong or count > 0 or not found
        print(f"{file.name}: {len(found) - count} of {len(found)} {what} as wanted")
    return 1 if is_wrong else 0


if __name__ == "__main__":
    sys.exit(print(__doc__) if "--help" in sys.argv else main())
