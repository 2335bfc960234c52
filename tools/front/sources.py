"""The sources that the program is built from: their checksum, and whether the program that stands was proved from them.

What was proved is recorded beside the program, in `crates/predator/out/predator.sources`: the checksum of the sources, and that of the
program. Times say nothing here: a file that was touched is the same file.
"""
import hashlib
import os
import subprocess
from pathlib import Path

HOME = Path(__file__).resolve().parent.parent.parent
NAME = "predator"
PROGRAM = HOME / "crates" / NAME / "out" / NAME
RECORD = PROGRAM.with_name(f"{NAME}.sources")
FOLDERS = ("proofs", "specs", "src")
SUFFIXES = (".antt", ".rt")


def below():
    """The libraries of each crate, as crates.txt lists them."""
    found = {}
    for line in (HOME / "crates.txt").read_text().splitlines():
        name, colon, names = line.partition(":")
        if colon and not line.startswith("#"):
            found[name.split()[0]] = names.split()
    return found


def crates():
    """The crates that the program is built from, lowest first."""
    known, order = below(), []

    def add(name):
        if name in known and name not in order:
            for lower in known[name]:
                add(lower)
            order.append(name)

    add(NAME)
    return order


def files_in(folder):
    """The sources below a folder, by their names."""
    found = []
    for at, _, names in os.walk(folder):
        found += [os.path.join(at, name) for name in names if name.endswith(SUFFIXES)]
    return sorted(found)


def checksum():
    """The checksum of all that the program is built and proved from, but for the kit: names and texts of files, and which crate uses which."""
    known, whole = below(), hashlib.sha256()
    for crate in crates():
        whole.update(f"{crate}: {' '.join(known[crate])}\n".encode())
        for folder in FOLDERS:
            for file in files_in(HOME / "crates" / crate / folder):
                with open(file, "rb") as opened:
                    text = opened.read()
                whole.update(f"{os.path.relpath(file, HOME)} {len(text)}\n".encode() + text)
    return whole.hexdigest()


def checksum_of(names, more):
    """The checksum of the sources of these crates, of more files, and of the kit's name: what a program is kept by that `rt try` builds of them."""
    whole = hashlib.sha256(kit().encode())
    folders = [HOME / "crates" / name / folder for name in names for folder in FOLDERS]
    for file in [*(file for folder in folders for file in files_in(folder)), *sorted(more)]:
        text = Path(file).read_bytes()
        whole.update(f"{os.path.relpath(file, HOME)} {len(text)}\n".encode() + text)
    return whole.hexdigest()


def kit():
    """What names the kit whose command is `rt`, or nothing where there is none."""
    try:
        return subprocess.run(["rt", "version"], stdin=subprocess.DEVNULL, capture_output=True, text=True).stdout.strip()
    except OSError:
        return ""


def sum_of(file):
    return hashlib.sha256(file.read_bytes()).hexdigest()


def is_proved():
    """Whether a program stands that was proved from the sources as they are now."""
    if not (RECORD.is_file() and os.access(PROGRAM, os.X_OK)):
        return False
    return RECORD.read_text().split() == [checksum(), sum_of(PROGRAM)]


def record(proved):
    """Records that the program which stands was proved from sources with this checksum, if they still have it."""
    if proved != checksum() or not os.access(PROGRAM, os.X_OK):
        return False
    RECORD.write_text(f"{proved}\n{sum_of(PROGRAM)}\n")
    return True
