"""Runs the program on words, and writes its report."""
import os
import subprocess
import sys

from . import sources, unproved

NO_ANSWER = 127
NOTE = "predator: this answer is not from the proved program; `./prove` makes it"


class NoAnswer(Exception):
    """The program ended without an answer."""


class Program:
    """The program that runs: the proved one where it stands, else one of the same sources unproved."""

    def __init__(self):
        self.is_proved = sources.is_proved()
        self.file = sources.PROGRAM if self.is_proved else unproved.program()

    def becomes(self, words):
        """This process becomes the proved program. A stream that was closed is none here."""
        for stream in (sys.stdout, sys.stderr):
            if stream is not None:
                stream.flush()
        os.execv(self.file, [os.fsencode(self.file), *words])

    def answer(self, words, **more):
        """The report and the status; none where it ends by a signal, or by a check that is built into it."""
        done = subprocess.run([self.file, *words], stdout=subprocess.PIPE, preexec_fn=None if self.is_proved else unproved.with_stack, **more)
        if not 0 <= done.returncode <= 7:
            return None, done.returncode
        return done.stdout, done.returncode

    def note(self):
        """Says where an answer is not from the proved program."""
        if not self.is_proved:
            print(NOTE, file=sys.stderr, flush=True)


def write(report):
    """Writes a report to standard output, and gives why that failed, if it did."""
    try:
        while report:
            report = report[os.write(1, report) :]
    except OSError as error:
        return error.strerror
    return None


def say(lines):
    """Writes lines to standard error."""
    text = b"".join(line + b"\n" for line in lines)
    try:
        while text:
            text = text[os.write(2, text) :]
    except OSError:
        pass
