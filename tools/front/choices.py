"""`predator choices`: the choices of a run for `replay`, found one behind the other.

The program says that a run waits, and no more. What it waits for is found by trying: a run that is given a choice which was not asked for is over at that step.
Where it waits is told by a text with marks (marks.py), which take an input of their own just before.
"""
import os
import re
import sys
import tempfile

from . import explain, marks, preprocess, run
from .words import names_files

USAGE = "usage: predator choices [--model M] [--strict] [--steps N] [-I DIR ..] FILE [CHOICES]"
MOST = 1_000  # choices that are asked for
MOST_STEPS = 1_000_000
LARGEST = 65_536  # bytes of an object
FIRST_SIZES = (4, 8, 1, 2, 16, 24, 32, 12, 20, 40, 48, 56, 64, 72, 80, 96, 128, 256, 512, 1024, 4096)
ITEM_SIZES = (1, 2, 4, 8, 12, 16, 24, 32, 40, 48)
WAITS, ENDED = b"waits", b"ended"


class Runs:
    """Runs of a text by `replay`, in a folder of its own."""

    def __init__(self, program, options, folder, text):
        self.program, self.options = program, options
        self.name, self.list = os.path.join(folder, b"text.i"), os.path.join(folder, b"choices")
        with open(self.name, "wb") as file:
            file.write(text)

    def told(self, choices, steps=None):
        """What is told of the run with these choices, without the name of the text where it begins with that."""
        with open(self.list, "wb") as file:
            file.write(b"".join(choice + b"\n" for choice in choices))
        more = [b"--steps", b"%d" % steps] if steps else []
        report, _ = self.program.answer([b"replay", *self.options, *more, self.name, self.list])
        if report is None:
            raise run.NoAnswer("the program gave no answer")
        return report.rstrip(b"\n").removeprefix(self.name + b": ")

    def waits_after(self, choices, least):
        """The fewest steps, from `least` on, after which the run waits."""
        most, step = least, 1
        while self.told(choices, most) != WAITS and most < MOST_STEPS:
            least, most, step = most + 1, min(MOST_STEPS, most + step), 2 * step
        while least < most:
            middle = (least + most) // 2
            if self.told(choices, middle) == WAITS:
                most = middle
            else:
                least = middle + 1
        return most


def bytes_of(size):
    return "1 byte" if size == 1 else f"{size} bytes"


def zeros(size):
    return b"00" * size or b"-"


def sizes(text):
    """The sizes that an object may have, the likely ones first."""
    numbers = sorted({int(word) for word in re.findall(rb"(?<![\w.])[1-9]\d{0,4}(?![\w.])", text)})
    likely = [count * size for count in numbers for size in ITEM_SIZES if count * size <= LARGEST]
    return dict.fromkeys([*FIRST_SIZES, *likely, *range(LARGEST + 1)])


class Prober:
    """Finds what a run asks for next, and where."""

    def __init__(self, runs, text):
        self.runs, self.text = runs, text
        self.taken = []  # the choices, with the inputs of marks among them
        self.steps, self.is_known = 1, False  # after which the run waits, and whether that was looked for at this request
        self.address = 16
        self.mark, self.count = None, 0  # the last mark, and how many requests came behind it

    def asks(self):
        """Goes over marks to the next request, and says whether there is one."""
        while mark := self.stops_at(marks.STOP):
            if mark.is_memory:
                mark.sizes[0] = self.size_at(mark)
            self.mark, self.count = mark, 0
            self.taken.append(marks.PASS)
        self.is_known = False
        return self.runs.told(self.taken) == WAITS

    def stops_at(self, choice):
        """The mark at which the run stops with one choice more."""
        return self.text.mark_at(self.runs.told([*self.taken, choice])) if self.text.marks else None

    def size_at(self, mark):
        """How much memory is asked for at a mark: the run stops there where its input is more."""
        least, most = 0, LARGEST
        while least < most:
            middle = (least + most) // 2
            if self.stops_at(b"input %d" % (middle + 1)) is mark:
                most = middle
            else:
                least = middle + 1
        return least

    def asked(self):
        """What is asked for: the size of a block, or -1 for an input. None where it is not found."""
        guessed = self.guess()
        if guessed is not None and self.takes(self.default(guessed)):
            return guessed
        if self.takes(b"input 0"):
            return -1
        return next((size for size in sizes(self.text.plain) if self.takes(self.block(size))), None)

    def guess(self):
        """What is likely asked for, as it was behind this mark before, or as it is written there."""
        if self.mark is None or self.count in self.mark.sizes:
            return self.mark and self.mark.sizes[self.count]
        if self.count < len(self.mark.objects):
            return self.text.size(self.mark.objects[self.count])
        return -1

    def takes(self, choice):
        """Whether a choice is what is asked for: another one ends the run at that step, which is looked for where a run ends."""
        if not self.is_known:
            if self.runs.told([*self.taken, choice]) != ENDED:
                return True
            self.steps, self.is_known = self.runs.waits_after(self.taken, self.steps), True
        return self.runs.told([*self.taken, choice], self.steps) != ENDED

    def block(self, size, contents=None):
        return b"block %d %s" % (self.address, contents or zeros(size))

    def default(self, size):
        return b"input 0" if size < 0 else self.block(size)

    def take(self, choice):
        """Goes on with a choice."""
        self.taken.append(choice)
        if found := re.fullmatch(rb"block (\d+) (\S+)", choice):
            size = 0 if found.group(2) == b"-" else len(found.group(2)) // 2
            self.address = max(self.address, int(found.group(1)) + max(16, -(-size // 16) * 16))
            if self.mark:
                self.mark.sizes[self.count] = size
        self.count += 1

    def where(self, size):
        """What is asked for, and where, in words."""
        what = "an input" if size < 0 else f"an object of {bytes_of(size)}"
        if self.mark is None:
            return f"before main begins: {what}"
        if self.mark.name and self.count == 0:
            return f"{self.text.place(self.mark.at)}: {what if size < 0 else f'memory of {bytes_of(size)}'}, for {self.mark.name}"
        if size >= 0 and self.count < len(self.mark.objects):
            at = self.mark.objects[self.count]
            return f"{self.text.place(at)}: {what}, `{self.text.word(at).decode()}`"
        return f"behind {self.text.place(self.mark.at)}: {what}"


def of_number(number, prober):
    """The input that a number stands for: that of its bits in the type that is asked for."""
    if number >= 0:
        return b"input %d" % number
    widths = [bits for bits in (8, 16, 32, 64) if prober.takes(b"input %d" % (2**bits - 1))]
    return b"input %d" % (number % 2 ** max(widths, default=0)) if widths else b"%d" % number


def of_line(line, prober, size):
    """The choice that a typed line stands for."""
    word = line.strip()
    if not word:
        return prober.default(size)
    if size < 0 and re.fullmatch(rb"-?\d+", word):
        return of_number(int(word), prober)
    if size >= 0 and re.fullmatch(rb"(?:[0-9a-f]{2})+|-", word):
        return prober.block(size, word)
    return word


class Typist:
    """Gives the choices that a person types, and the defaults behind the end of what is typed."""

    HELP = "  not asked for: an input is a number, a block its bytes as hexadecimal digits or `block BASE CONTENTS`, and `none` refuses memory\n"

    def __init__(self, is_shown):
        self.is_open, self.is_shown = sys.stdin is not None, is_shown

    def say(self, text):
        if self.is_shown:
            sys.stderr.write(text)
            sys.stderr.flush()

    def choice(self, prober, size):
        """The choice for what is asked for."""
        default = prober.default(size)
        shown = default.decode() if len(default) < 90 else f"{default[:80].decode()}.."
        while self.is_open:
            self.say(f"{prober.where(size)} [{shown}] ")
            line = sys.stdin.buffer.readline()
            self.is_open = line != b""
            if not sys.stdin.isatty():
                self.say("\n")
            choice = of_line(line, prober, size)
            if choice == default or explain.CHOICE.fullmatch(choice) and prober.takes(choice):
                return choice
            self.say(self.HELP)
        self.say(f"{prober.where(size)} [{shown}]\n")
        return default


def followed(prober, chosen, typist):
    """Goes through the run, with the choices that are there first, and adds those that are asked for. What stopped that, if not the run's end."""
    for choice in list(chosen):
        if prober.asks():
            prober.take(choice)
    while prober.asks():
        if len(chosen) >= MOST:
            return b"it goes on asking behind %d choices" % MOST
        size = prober.asked()
        if size is None:
            return b"what it asks for was not found"
        chosen.append(typist.choice(prober, size))
        prober.take(chosen[-1])
    return None


def prober_of(program, options, text, name, folder):
    """A prober of a text: one without marks where the program does not read it with them."""
    marked = marks.Marked(text, name)
    runs = Runs(program, options, folder, marked.text)
    if runs.told([]).startswith((b"not read: ", b"gave up: ")):
        marked.marks.clear()
        runs = Runs(program, options, folder, text)
    return Prober(runs, marked)


def found_choices(program, options, text, name, given, typist):
    """The given choices and those that are asked for behind them, and what the run with all of them comes to."""
    with tempfile.TemporaryDirectory(prefix="predator-") as plain, tempfile.TemporaryDirectory(prefix="predator-") as other:
        runs = Runs(program, options, os.fsencode(plain), text)
        chosen, said, stopped = list(given), runs.told(given), None
        if said == WAITS:
            stopped = followed(prober_of(program, options, text, name, os.fsencode(other)), chosen, typist)
            said = runs.told(chosen)
        return chosen, said.replace(runs.name, name), stopped


def given_choices(name):
    """The choices that a file has already, none where there is no file."""
    try:
        with open(name, "rb") as file:
            return [line for line in file.read().split(b"\n") if line]
    except FileNotFoundError:
        return []


def written(choices, name):
    """Writes the choices to a file, or to standard output; why that failed, if it did."""
    text = b"".join(choice + b"\n" for choice in choices)
    if name is None:
        return run.write(text)
    try:
        with open(name, "wb") as file:
            file.write(text)
    except OSError as error:
        return error.strerror
    return None


def options_of(found):
    """The options for `replay` among the words."""
    files = set(found.files)
    return [word for at, word in enumerate(found.program) if at > 0 and at not in files and word != b"--"]


def text_of(found):
    """The text that is run, or None and why there is none."""
    file = found.program[found.files[0]]
    if found.is_preprocessed:
        return preprocess.preprocessed(file, found.preprocessor)
    try:
        with open(file, "rb") as opened:
            return opened.read(), ""
    except OSError as error:
        return None, f"{os.fsdecode(file)}: {error.strerror}"


def refused(said):
    """The status where no run is made, 0 where one is."""
    return next((status for begin, status in ((b"not read: ", 3), (b"gave up: ", 2), (b"usage: ", 4)) if said.startswith(begin)), 0)


def command(found):
    """Finds choices for a file, and writes them."""
    if not 1 <= len(found.files) <= 2 or not names_files(found, len(found.files)):
        print(USAGE, file=sys.stderr)
        return 4
    name, to = [*(found.program[at] for at in found.files), None][:2]
    text, why = text_of(found)
    if text is None:
        print(f"predator: {why}", file=sys.stderr)
        return 5
    program, is_shown = run.Program(), found.is_explained is not False
    program.note()
    chosen, said, stopped = found_choices(program, options_of(found), text, name, given_choices(to) if to else [], Typist(is_shown))
    if status := refused(said):
        lines = [said if status == 4 else name + b": " + said]
        run.say(lines + (explain.explained([name], text, lines[0], status) if is_shown else []))
        return status
    if why := written(chosen, to):
        print(f"predator: the choices could not be written: {why}", file=sys.stderr)
        return 6
    told = said if re.match(rb".*:\d+:\d+: ", said, re.S) else name + b": " + said
    if is_shown:
        run.say([b"with these choices: " + told, *([b"predator: " + stopped] if stopped else [])])
    return 0
