"""The front script: words in, the program's report and status out, and on standard error what a person needs."""
import os
import secrets
import sys
import tempfile

from . import choices, explain, graph, preprocess, run, unproved
from .words import names_files, taken_apart

# The commands of the front script itself; the program has `replay`.
COMMANDS = {b"choices": choices.command, b"graph": graph.command}
UNREAD = 5  # the status where a file cannot be read
INTERRUPTED = 130


def is_explained(found):
    """Whether a person needs more than the answer: as --explain and --quiet say, else where standard error is a terminal."""
    return os.isatty(2) if found.is_explained is None else found.is_explained


def name_for(text, words, folder):
    """A file's name of one word that occurs neither in the text nor among the words."""
    while True:
        name = os.fsencode(os.path.join(folder, secrets.token_hex(8) + ".i"))
        if name not in text and all(name not in word for word in words):
            return name


def of_text(program, found, text):
    """The report and the status of the program on a text, as that of the file that is named."""
    at = found.files[0]
    with tempfile.TemporaryDirectory(prefix="predator-") as folder:
        name = name_for(text, found.program, folder)
        with open(name, "wb") as file:
            file.write(text)
        report, status = program.answer([*found.program[:at], name, *found.program[at + 1 :]])
        return (report.replace(name, found.program[at]) if report else report), status


def answered(program, found):
    """The text, the report and the status; or no text, and why, where gcc -E fails."""
    if not (found.is_preprocessed and names_files(found)):
        return b"", *program.answer(found.program), ""
    text, error = preprocess.preprocessed(found.program[found.files[0]], found.preprocessor)
    if text is None:
        return None, b"", UNREAD, error
    return text, *of_text(program, found, text), ""


def told(found, text, report, status, error):
    """What a person needs beside the answer."""
    names = [found.program[at] for at in found.files] if names_files(found) else [b""]
    if status not in (4, 5, 6, 7) and not text:
        text = explain.text_of(names[0])
    return explain.explained(names, text, report, status, error)


def judged(found):
    """Runs the program on the words."""
    program = run.Program()
    if program.is_proved and not found.is_preprocessed and not is_explained(found):
        program.becomes(found.program)
    text, report, status, error = answered(program, found)
    if text is None:
        run.say([f"predator: {error}".encode(errors="surrogateescape")])
        return status
    if report is None:
        run.say([f"predator: the program gave no answer (status {status})".encode()])
        return run.NO_ANSWER
    program.note()
    error = run.write(report)
    status = 6 if error else status
    if is_explained(found):
        run.say(told(found, text, report, status, error))
    return status


def main(arguments):
    found = taken_apart([os.fsencode(word) for word in arguments], COMMANDS)
    try:
        return COMMANDS.get(found.command, judged)(found)
    except unproved.NotBuilt as error:
        print(f"predator: the program cannot be built: {error}", file=sys.stderr)
    except run.NoAnswer as error:
        print(f"predator: {error}", file=sys.stderr)
    except KeyboardInterrupt:
        return INTERRUPTED
    return run.NO_ANSWER
