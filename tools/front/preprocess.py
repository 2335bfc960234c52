"""What gcc -E makes of a file, or the compiler that the variable CC names."""
import os
import shlex
import subprocess


def compiler():
    """The words that begin the command."""
    return [os.fsencode(word) for word in shlex.split(os.environ.get("CC", ""))] or [b"gcc"]


def command(file, options):
    """The command that preprocesses a file."""
    name = b"./" + file if file.startswith(b"-") else file
    return [*compiler(), b"-E", *options, b"-x", b"c", name]


def preprocessed(file, options):
    """The text of a file behind the preprocessor, or None and why there is none. What the compiler says goes to standard error."""
    words = command(file, options)
    shown = " ".join(os.fsdecode(word) for word in words)
    try:
        done = subprocess.run(words, stdin=subprocess.DEVNULL, stdout=subprocess.PIPE)
    except OSError as error:
        return None, f"{shown}: {error.strerror}"
    return (done.stdout, "") if done.returncode == 0 else (None, f"`{shown}` failed, with status {done.returncode}")
