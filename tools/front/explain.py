"""What a person needs beside the answer, for standard error: what failed, the line of a place with a mark below it, and what to do."""
import os
import re
import shlex

from . import enums, places
from .advice import advice

USAGE = """\
  predator [--budget N] [--int-limit K] FILE: whether a run of FILE misuses memory; N from 1 to 200,000, K from 0 to 1,000 (docs/report.md)
  predator replay [--model lp64|llp64] [--strict] [--steps N] FILE CHOICES: what the run with these choices meets; N from 1 to 1,000,000 (docs/replay.md)
  predator choices [--model lp64|llp64] [--strict] [--steps N] FILE [CHOICES]: writes choices for replay, step by step
  -I DIR, -D NAME[=V], -include FILE or -E have gcc -E, or $CC -E, read FILE first; --explain and --quiet say whether lines such as these are shown
  A file that is called as a command is given as ./NAME."""
CHOICE = re.compile(rb"block (?:0|[1-9]\d*) (?:-|(?:[0-9a-f]{2})+)|none|input (?:0|[1-9]\d*)")


def text_of(file):
    """The bytes of a file, or nothing where it cannot be read again."""
    try:
        if os.path.isfile(file):
            with open(file, "rb") as opened:
                return opened.read()
    except (OSError, ValueError):
        pass
    return b""


def shown(text, name, place, kind=b""):
    """The line of a place, with a mark below the token there."""
    found = places.place_of(place)
    lines = places.lines_at(text, name, found, kind) if found else []
    return [b"  " + line for line in places.marked(lines[0], found[2])] if lines else []


def points(name):
    """What the page advises, a line for each case."""
    return [f"  {line}".encode() for line in advice(name)]


def is_directive(text, name, place):
    """Whether a line at a place begins with `#` there, as one for the preprocessor does."""
    found = places.place_of(place)
    lines = places.lines_at(text, name, found) if found else []
    return bool(lines) and lines[0][: found[2]].strip() == b"#"


def of_refusal(what, text, name):
    """What to say of a refusal `no token at PLACE`, `rule 4 at PLACE`, `not yet` and the like."""
    kind, _, place = what.partition(b" at ")
    if re.fullmatch(rb"budget of \d+ states spent", kind):
        kind = b"budget spent"
    lines = shown(text, name, place, kind)
    if kind == b"no token" and is_directive(text, name, place):
        file = os.fsdecode(name)
        call = f"gcc -E {shlex.quote(file)} >{shlex.quote(file.removesuffix('.c') + '.i')}"
        return [*lines, os.fsencode(f"  This line is for the preprocessor: run `{call}`, or give `-E` or `-I DIR` in front of the file.")]
    return lines + points(kind.decode(errors="replace"))


def of_faults(report, text, name):
    """The line of each fault, with a mark."""
    lines = []
    for line in report.split(b"\n"):
        if found := re.fullmatch(rb"(.*:\d+:\d+): (?:error: |warning: )?[^:]* \[\d+\]", line, re.S):
            lines += shown(text, name, found.group(1))
    return lines


def of_choices(name):
    """Which line of a file is no choice."""
    for number, line in enumerate(text_of(name).split(b"\n"), 1):
        if line and not CHOICE.fullmatch(line):
            return [b"  line %d is no choice: `" % number + line[:100] + b"`", b"  A line is `block BASE CONTENTS`, `none` or `input V` (docs/replay.md)."]
    return [b"  Each line is `block BASE CONTENTS`, `none` or `input V`, and ends with a newline (docs/replay.md)."]


def of_files(names):
    """Which file cannot be read, and why."""
    for name in names:
        try:
            with open(name, "rb") as opened:
                opened.read(1)
        except (OSError, ValueError) as error:
            return [b"predator: " + name + b": " + str(getattr(error, "strerror", None) or error).encode()]
    return [b"predator: a file could not be read: " + b" or ".join(names)]


def of_report(report, text, names):
    """What to say of a report about the text that is named first."""
    name = names[0]
    if names[1:] and report == names[1] + b": no choices\n":
        return of_choices(names[1])
    if not report.startswith(name + b": "):
        return of_faults(report, text, name)
    told = report[len(name) + 2 :].rstrip(b"\n")
    for begin in (b"not read: ", b"gave up: "):
        if told.startswith(begin):
            return of_refusal(told[len(begin) :], text, name)
    if told == b"waits":
        return [b"  The run asks for one choice more: `predator choices` says which, and writes it."]
    return []


def of_answer(report, text, names):
    """What to say of a report, and of what compilers make another program of where the text passes the check."""
    is_refused = re.search(rb": (?:gave up: (?!budget of |state too large)|not read: (?!not yet at ))", report)
    return of_report(report, text, names) + ([] if is_refused else enums.warnings(text, names[0]))


def explained(names, text, report, status, error=""):
    """What to say of an answer, and of how it came about; `error` is why the report could not be written."""
    if status == 4:
        return USAGE.encode().split(b"\n")
    if status == 5:
        return of_files(names)
    if status == 6:
        return [b"predator: the report could not be written whole" + (f": {error}".encode() if error else b"")]
    if status == 7:
        return [b"predator: more memory was wanted than there is (`ulimit -v` shows a limit that a shell sets)"]
    return of_answer(report, text, names)
