#!/usr/bin/env python3
"""Puts the wrong bodies of this folder into the crates, one at a time, and says which of them the prover refuses.

Usage, at the project's root: tests/wrong_bodies/try.py [CRATE | CRATE/NAME ..]
A file CRATE/NAME.edit has the form of those in crates/CRATE/must-fail/, which the gate tries by itself. It works on a
copy of what is committed, where these files stand in must-fail/ in place of the crate's own, with rt must-fail, all of a crate's in
one go. Without words it tries those of all crates that have some; a crate is proved first, so this takes hours.
"""
import shutil
import subprocess
import sys
import tempfile
from pathlib import Path

FOLDER = Path(__file__).resolve().parent
HOME = FOLDER.parent.parent


def chosen(words):
    """The edits to try, by crate."""
    found = {}
    for word in words or sorted(folder.name for folder in FOLDER.iterdir() if folder.is_dir()):
        crate, _, name = word.partition("/")
        found.setdefault(crate, []).extend(sorted((FOLDER / crate).glob(f"{name or '*'}.edit")))
    return found


def main():
    edits = chosen(sys.argv[1:])
    with tempfile.TemporaryDirectory() as folder:
        copy = Path(folder, "copy")
        subprocess.run(["git", "clone", "--quiet", "--no-hardlinks", HOME, copy], check=True)
        for crate, files in edits.items():
            wrong = copy / "crates" / crate / "must-fail"
            shutil.rmtree(wrong, ignore_errors=True)
            wrong.mkdir()
            for file in files:
                shutil.copy(file, wrong)
        sys.exit(subprocess.run(["rt", "must-fail", *edits], cwd=copy).returncode)


if __name__ == "__main__":
    sys.exit(print(__doc__) if "--help" in sys.argv else main())
