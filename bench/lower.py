#!/usr/bin/env python3
"""Says what it takes to make the flow graph of a text, and whether that is linear in its size.

Usage, at the project's root: bench/lower.py [--sizes N,N ..] [TEXT ..]
       bench/lower.py --proved | --unproved [--kib N,N ..] [--runs N] [TEXT ..]
Without words it takes all texts. Printed are processor times, as ratios.

In the first form the program of tools/graph reads each text twice: whole, and with a name that is not declared in its last statement, so that it is refused there: what that takes is reading and checking
alone, and what the whole text takes beyond it is `lower`, which judges its graph too, and the count of walks. Printed is what lowering takes against reading and checking of the same text, in the same run, and what each statement
takes to be lowered against the smallest text, which is about 1 where the work is linear. That program is built without proofs, with checks of memory in it, so seconds say little.

With --proved the proved program answers texts of 1, 2 and 4 MiB (--kib), where one stands; with --unproved it is one that is built from the same sources without proofs. It has a budget of one state. Each text is given
whole, and with the name that is not declared: what the whole text takes beyond the other is `lower` and one step of the analysis, and of `calls` `lower` alone. Times are the least of some runs (--runs). Printed are that time against
reading and checking, what a byte takes to be lowered against the smallest text, the whole run against `gcc -fpreprocessed -fsyntax-only` on the same file in the same run, and the peaks of memory of both.
The texts:

plain        statements with loads, stores, sums and conditions, in one function, one behind the other
loops        loops, `break` and `continue` in blocks with objects, in one function
blocks       blocks in blocks, sixteen deep, each with an object of its own, in one function
calls        functions of eight statements, each of which calls the one before it
names        as `plain`, with names of 110 letters: 16,000 statements have 4 MiB
"""
import argparse
import resource
import subprocess
import sys
import tempfile
from pathlib import Path

from analysis import taken

sys.path.insert(0, str(Path(__file__).resolve().parent.parent / "tools"))
from front import graph, sources, unproved  # noqa: E402

SIZES = (1_000, 2_000, 4_000, 8_000, 16_000)
KIB = (1_024, 2_048, 4_096)
MOST = 4_194_304
DEPTH = 16  # of blocks in blocks
GCC = ("gcc", "-fpreprocessed", "-fsyntax-only", "-w", "t.c")
REFUSED = b"t.c: not read: rule "
# the step that a budget of one state allows has been done, or the first call is told of
ENDS = (b"budget of 1 states spent", b"t.c: not read: not yet at ")
PLAIN = ("{a} = {a} + {n};", "if ({a} > {n}) {b} = {a};", "{p} = &{a};", "*{p} = {b} & {n};")
LOOP = "while (a > {n}) {{ int c = a; if (c == {n}) break; if (c) continue; a = c - 1; }} for (int i = 0; i < {n}; i++) b += i;"  # eleven statements
BODY = "int b = f{before}(a); a = a + {n}; b = a; if (a) b = {n}; a = b * 3; b--; return a + b;"  # eight statements


def main_of(body, names):
    a, b, p = names
    return f"int main(void) {{ int {a} = 0, {b} = 0, *{p} = 0; {body} return {a}; }}"


def plain_of(count, names):
    a, b, p = names
    return main_of(" ".join(PLAIN[at % 4].format(a=a, b=b, p=p, n=at % 97) for at in range(count)), names)


def plain(count):
    return plain_of(count, ("a", "b", "p"))


def names(count):
    return plain_of(count, ("a" * 110, "b" * 110, "p" * 110))


def loops(count):
    return main_of(" ".join(LOOP.format(n=at % 97) for at in range(count // 11)), ("a", "b", "p"))


def blocks(count):
    heads = " ".join(f"{{{{ int c{at} = {f'c{at - 1}' if at else 'a'} + {{n}};" for at in range(DEPTH))
    block = f"{heads} a = c{DEPTH - 1};{' }}' * DEPTH}"
    return main_of(" ".join(block.format(n=at % 97) for at in range(count // (DEPTH + 1))), ("a", "b", "p"))


def calls(count):
    functions = " ".join(f"int f{at}(int a) {{ {BODY.format(before=at - 1, n=at % 97)} }}" for at in range(1, count // 8))
    return f"int f0(int a) {{ return a; }} {functions} int main(void) {{ int a = 0; a = f{count // 8 - 1}(a); return a; }}"


TEXTS = {"plain": plain, "loops": loops, "blocks": blocks, "calls": calls, "names": names}
SMALL = 1_000  # statements, from whose bytes is reckoned how many fit


def of_size(name, size):
    """A text of at most so many bytes, and nearly as many."""
    count = size * SMALL // len(TEXTS[name](SMALL))
    while len(text := TEXTS[name](count)) > size:
        count = count * 99 // 100
    return text


def refused(text):
    """The same text with a name in its last statement that is not declared."""
    at = text.rindex("return ")
    return f"{text[:at]}return undeclared; }}"


def seconds(program, text):
    """The processor time of the program on a text, and what it says of it."""
    if len(text) > MOST:
        sys.exit(f"bench/lower.py: a text has at most {MOST:,} bytes, and this one has {len(text):,}")
    with tempfile.NamedTemporaryFile("w") as file:
        file.write(f"brief {text}\n")
        file.flush()
        before = resource.getrusage(resource.RUSAGE_CHILDREN)
        done = subprocess.run([program, file.name], stdout=subprocess.PIPE, preexec_fn=unproved.with_stack)
        after = resource.getrusage(resource.RUSAGE_CHILDREN)
    return after.ru_utime + after.ru_stime - before.ru_utime - before.ru_stime, done.stdout.decode().split("\n")[1]


def measured(program, name, sizes):
    """Prints what the sizes of a text take."""
    first = None
    for count in sizes:
        text = TEXTS[name](count)
        checked, answer = seconds(program, refused(text))
        if answer != "refused":
            sys.exit(f"bench/lower.py: {answer!r} in place of 'refused'")
        whole, answer = seconds(program, text)
        if not answer.startswith("points "):
            sys.exit(f"bench/lower.py: {answer!r} in place of a graph")
        each = (whole - checked) / count
        first = first or each
        print(f"{name}, {count:,} statements, {len(text):,} bytes, {answer}: read and checked in {checked:.1f} s, lowered in {whole - checked:.1f} s, "
              f"{(whole - checked) / checked:.1f} times that; a statement {each / first:.2f}", flush=True)


def answered(program, folder, text, ends, runs):
    """The least time and the peak of memory of the program on a text with a budget of one state, whose answer has one of these ends."""
    Path(folder, "t.c").write_text(text)
    said, seconds, peak = taken([program, "--budget", "1", "t.c"], folder, runs)
    if not any(end in said for end in ends):
        sys.exit(f"bench/lower.py: {said[:100]!r} in place of {ends[0].decode()!r}")
    return seconds, peak


def compared(program, name, sizes, runs):
    """Prints what the program takes for texts of so many bytes, against gcc."""
    first = None
    for size in sizes:
        text = of_size(name, size)
        with tempfile.TemporaryDirectory() as folder:
            checked, _ = answered(program, folder, refused(text), (REFUSED,), runs)
            whole, peak = answered(program, folder, text, ENDS, runs)
            _, of_gcc, peak_of_gcc = taken(GCC, folder, runs)
        each = (whole - checked) / len(text)
        first = first or each
        print(f"| {name} | {len(text):,} | {whole:.2f} s | {(whole - checked) / checked:.1f} | {each / first:.2f} | {whole / of_gcc:.2f} | {peak / 1024:.0f} MB | {peak_of_gcc / 1024:.0f} MB |", flush=True)


def of_program(given):
    """Prints the table of the whole program."""
    if given.proved and not sources.is_proved():
        sys.exit("bench/lower.py: no proved program: `.ci/run` and `./prove` leave one")
    program = sources.PROGRAM if given.proved else unproved.program()
    print(f"{'proved' if given.proved else 'unproved'} program, the least of {given.runs}\n")
    print("| text | bytes | whole | lowered and one step, against read and checked | a byte is lowered, against the first row | whole, against gcc | peak | peak of gcc |\n|---|---|---|---|---|---|---|---|")
    for name in given.text or TEXTS:
        compared(program, name, [min(MOST, size << 10) for size in given.kib], given.runs)


def numbers(text):
    return [int(one) for one in text.split(",")]


def main():
    words = argparse.ArgumentParser(description=__doc__, formatter_class=argparse.RawDescriptionHelpFormatter)
    words.add_argument("--proved", action="store_true")
    words.add_argument("--unproved", action="store_true")
    words.add_argument("--sizes", type=numbers, default=SIZES)
    words.add_argument("--kib", type=numbers, default=KIB)
    words.add_argument("--runs", type=int, default=3)
    words.add_argument("text", nargs="*", metavar="TEXT", choices=[*TEXTS, []])
    given = words.parse_args()
    if given.proved or given.unproved:
        return of_program(given)
    program = graph.program()
    for name in given.text or TEXTS:
        measured(program, name, given.sizes)
    return 0


if __name__ == "__main__":
    sys.exit(main())
