"""The words behind ./predator: which are for the front script, and which for the program."""
from __future__ import annotations

from dataclasses import dataclass, field

# What the program and `graph` take: their options, and whether each has a value.
OPTIONS = {
    b"": {b"--budget": True, b"--int-limit": True},
    b"replay": {b"--model": True, b"--strict": False, b"--steps": True},
    b"graph": {b"--svg": False, b"--strict": False, b"--states": False, b"--budget": True},
}
FILES = {b"": 1, b"replay": 2}
PREPROCESSOR = (b"-I", b"-D", b"-include")


@dataclass
class Words:
    """The words, taken apart."""

    command: bytes = b""  # `replay`, a command of the front script, or nothing
    program: list = field(default_factory=list)  # what is left for the program, its command included
    files: list = field(default_factory=list)  # where FILE, and CHOICES, stand among these
    preprocessor: list = field(default_factory=list)  # what gcc -E is given
    is_preprocessed: bool = False
    is_explained: bool | None = None  # by --explain or --quiet


def taken_apart(words, commands):
    """The words, where the first that is not for the front script may be one of the commands."""
    found, rest = Words(), list(words)
    while rest:
        word = rest.pop(0)
        if word == b"--":
            found.files += range(len(found.program) + 1, len(found.program) + 1 + len(rest))
            found.program += [word, *rest]
            break
        if word in (b"--quiet", b"--explain"):
            found.is_explained = word == b"--explain"
        elif word == b"-E":
            found.is_preprocessed = True
        elif word in PREPROCESSOR and rest:
            found.preprocessor += [word, rest.pop(0)]
        elif word[:2] in (b"-I", b"-D") and len(word) > 2:
            found.preprocessor.append(word)
        elif not found.program and (word == b"replay" or word in commands):
            found.command = word
            found.program.append(word)
        else:
            take(found, word, rest)
    found.is_preprocessed = found.is_preprocessed or bool(found.preprocessor)
    return found


def take(found, word, rest):
    """Takes a word for the program, and the value behind it where it has one."""
    has_value = OPTIONS.get(found.command, OPTIONS[b"replay"]).get(word)
    if has_value is None and (word == b"-" or not word.startswith(b"-")):
        found.files.append(len(found.program))
    found.program.append(word)
    if has_value and rest:
        found.program.append(rest.pop(0))


def is_name(word):
    """Whether the program can take a word as a file's name."""
    try:
        return b"\0" not in word and word.decode() != ""
    except UnicodeDecodeError:
        return False


def names_files(found, wanted=None):
    """Whether the words have the files that their command takes, or as many as are wanted, if these can be no others."""
    wanted = wanted or FILES.get(found.command)
    return len(found.files) == wanted and all(is_name(found.program[at]) for at in found.files)
