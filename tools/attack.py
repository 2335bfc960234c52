#!/usr/bin/env python3
"""Keeps the results of wrong bodies in their edits, and sums them up in docs/attack.md.

Usage: tools/attack.py [--check] [LOG ..]
An edit of crates/NAME/must-fail/ is one that the gate tries, one of tests/wrong_bodies/NAME/ was tried by hand. What refused an edit stands in it as a line
`refused by: WHAT`, behind a `#` in must-fail/. From a LOG of the gate, of rt must-fail or of tests/wrong_bodies/try.py these lines are written anew, and
then the tables of the page between the lines `attack.py: begin` and `attack.py: end`. `refused by: nothing, WHY` is that of an edit which got through, and
why it is right; `refused by: not tried yet` that of one which fits the lines as they are and waits for its try: it is counted apart. With --check nothing is written, and the status is 1 where the page would change, or where an edit has no such line or no longer fits: a
text that it replaces has to stand in its file, once. What is wrong is printed.
"""
import re
import sys
from collections import Counter
from pathlib import Path

HOME = Path(__file__).resolve().parent.parent
PAGE = HOME / "docs" / "attack.md"
BEGIN, END = "<!-- attack.py: begin -->\n", "<!-- attack.py: end -->\n"
RECORD = re.compile(r"^(?:# )?refused by: (.*)\n", re.M)
# What refuses edits, as records begin, and the head of its column.
CAUSES = {
    "what a function ensures": "what a function ensures",
    "a proof, ": "a proof",
    "the invariant": "an invariant",
    "what a call requires": "what a call requires",
    "a proof that names what is gone": "a proof names what is gone",
}
OTHER = "else"
UNTRIED = "not tried yet"


def crates():
    """The names of the crates, as crates.txt lists them."""
    lines = (HOME / "crates.txt").read_text().splitlines()
    return [line.partition(":")[0].split()[0] for line in lines if ":" in line and not line.startswith("#")]


def by_gate(crate):
    return sorted((HOME / "crates" / crate / "must-fail").glob("*.edit"))


def by_hand(crate):
    return sorted((HOME / "tests" / "wrong_bodies" / crate).glob("*.edit"))


def fits(edit, crate):
    """Whether each text that an edit replaces stands once in its file, as the replacements before it leave that."""
    texts, file, old = {}, None, None
    for line in edit.read_text().splitlines():
        word, _, rest = line.partition(": ")
        if word == "file":
            file = HOME / "crates" / crate / rest.strip()
        elif word == "old":
            old = rest
        elif word == "new":
            text = texts.get(file) or (file.read_text() if file.is_file() else "")
            if text.count(old) != 1:
                return False
            texts[file] = text.replace(old, rest)
    return True


def cause(said):
    """What refused an edit, from the first line that the prover said of it."""
    proof, code = re.search(r"\./proofs/[\w/+.-]+\.antt", said), re.search(r"src/[\w/]+\.rt", said)
    if said.startswith("./proofs") or not code:
        return f"a proof, `{proof.group()}`" if proof else "the check; its log names no place"
    kinds = (("what the function ensures", "what a function ensures"), ("invariant of the struct", "the invariant of the struct"),
             ("invariant of the type", "the invariant of the struct"), ("invariant", "the invariant of a loop"),
             ("requires", "what a call requires"))
    return f"{next((words for part, words in kinds if part in said), 'a check')}, `{code.group()}`"


def told(log):
    """What a log says of edits: the crate, the name, and what refused it."""
    for line in Path(log).read_text(errors="replace").splitlines():
        if found := re.search(r"must-fail (\w+)/(\w+)\.edit: refused, as it must be[^:]*: (.*)", line):
            yield found.group(1), found.group(2), cause(found.group(3))
        elif found := re.search(r"must-fail (\w+)/(\w+)\.edit: (refused, as it must be)", line):
            yield found.group(1), found.group(2), "the check; its log names no place"


def record(edit):
    """What refused an edit, or nothing where it was not tried."""
    found = RECORD.search(edit.read_text())
    return found.group(1) if found else None


def with_record(edit, what):
    """The text of an edit with its record."""
    front = "# " if edit.parent.name == "must-fail" else ""
    return f"{front}refused by: {what}\n{RECORD.sub('', edit.read_text())}"


def take(log):
    """Writes what a log says into the edits."""
    for crate, name, what in told(log):
        for edit in (*by_gate(crate), *by_hand(crate)):
            if edit.stem == name:
                edit.write_text(with_record(edit, what))


def kind(what):
    """The head of the column in which an edit is counted."""
    return next((head for begin, head in reversed(CAUSES.items()) if what.startswith(begin)), OTHER)


def row(crate):
    """The row of a crate: how many edits it has, and how many each cause refused."""
    records = [record(edit) for edit in (*by_gate(crate), *by_hand(crate))]
    counts = Counter(kind(what) for what in records if what and what != UNTRIED and not what.startswith("nothing"))
    through, waiting = sum(what.startswith("nothing") for what in records if what), sum(what == UNTRIED for what in records)
    heads = [counts[head] or "" for head in (*CAUSES.values(), OTHER)]
    cells = [f"`{crate}`", len(by_gate(crate)) or "", len(by_hand(crate)) or "", *heads, through or "", waiting or ""]
    return "| " + " | ".join(map(str, cells)) + " |"


def passed():
    """The edits that got through, each with why it is right."""
    edits = [edit for crate in crates() for edit in (*by_gate(crate), *by_hand(crate))]
    return [f"| `{edit.relative_to(HOME)}` | {what.removeprefix('nothing, ')} |" for edit in edits if (what := record(edit) or "").startswith("nothing")]


def summed_up():
    """What stands on the page between the marks."""
    heads = ["crate", "the gate tries", "by hand", *CAUSES.values(), OTHER, "got through", UNTRIED]
    rows = [row(crate) for crate in crates() if by_gate(crate) or by_hand(crate)]
    sums = [sum(int(cell or 0) for cell in column) for column in zip(*([cell.strip() for cell in line.split("|")[2:-1]] for line in rows))]
    lines = ["| " + " | ".join(heads) + " |", "|---" * len(heads) + "|", *rows, "| together | " + " | ".join(map(str, sums)) + " |"]
    through = passed()
    if through:
        lines += ["", "| got through | why it is right |", "|---|---|", *through]
    return "\n" + "\n".join(lines) + "\n\n"


def wrong(new, text):
    """What is wrong with the page and the edits."""
    names = crates()
    strays = sorted(folder.name for folder in (HOME / "tests" / "wrong_bodies").iterdir() if folder.is_dir() and folder.name not in names)
    yield from (f"tests/wrong_bodies/{name} is no crate's folder" for name in strays if name != "__pycache__")
    for crate in names:
        for edit in (*by_gate(crate), *by_hand(crate)):
            if not fits(edit, crate):
                yield f"{edit.relative_to(HOME)} no longer fits"
            if record(edit) is None:
                yield f"{edit.relative_to(HOME)} has not been tried: it has no line `refused by: ..`"
    if new != text:
        yield "docs/attack.md is not what tools/attack.py makes"


def main():
    words = sys.argv[1:]
    if "--check" not in words:
        for log in words:
            take(log)
    text = PAGE.read_text()
    at, end = text.index(BEGIN) + len(BEGIN), text.index(END)
    new = text[:at] + summed_up() + text[end:]
    if "--check" in words:
        found = list(wrong(new, text))
        print("".join(f"{line}\n" for line in found), end="")
        return 1 if found else 0
    PAGE.write_text(new)
    return 0


if __name__ == "__main__":
    sys.exit(print(__doc__) if "--help" in sys.argv else main())
