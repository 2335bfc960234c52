#!/usr/bin/env python3
"""Compares the reading of large texts with gcc's, in one run.

Usage, at the project's root: bench/read.py [TEXT ..]
Without words it takes all texts. It writes texts of some 4 MiB into a folder of its own, runs the proved program and
`gcc -fpreprocessed -fsyntax-only` on each in turn, five times, and prints for each text the ratio of the medians of their
times, the peak memory of both, and the status and the answer of ./predator. Then it prints, for each text that is made to
be slow, how many times as long ./predator takes as on a text of the same size that is not: each of these ratios has to be
a small number.
The texts:

headers        what glibc's headers declare, many times over under changed names, then a main
chain          100,000 functions, each of which calls the one before it, then a main that calls the last
apart          as many functions that call nothing, then a main
brackets       nests of 250 brackets, one behind the other, then a main
statements     functions of loops, branches, calls and members, each of which calls the one before it
sum            one sum of a million tokens in main, which has more levels than are read
casts          casts in as many brackets as may be open, one behind the other in functions that main needs
casts_flat     as much text of casts in one bracket each
blocks         statement expressions in as many brackets, in such functions
blocks_flat    as much text of statement expressions in one bracket each
sums           sums in as many brackets, in such functions
sums_flat      as much text of sums in one bracket each
scopes         names in the innermost of as many blocks as may be open, each of which declares a name
scopes_flat    as many names in one block
callee         a thousand calls, each of what the one before it gives, where the first has a million tokens and no word
callee_word    the same, where the first token is a word
callee_in      250 such calls, each in brackets of its own with all before it
callee_in_word the same, where the first token is a word
"""
import os
import re
import statistics
import subprocess
import sys
import tempfile
import time
from pathlib import Path

sys.path.insert(0, str(Path(__file__).resolve().parent.parent / "tools"))
from front import sources  # noqa: E402

MOST = 4_194_304
ROUNDS = 5
DEEPEST = 256  # the most brackets that may be open at one place
TOKENS = 1_000_000  # of the texts that are one expression
MAIN = "int main(void) {\n  void *p = malloc(8);\n  free(p);\n  return 0;\n}\n"
HEADERS = ("stdlib.h", "string.h", "stdio.h", "assert.h", "linux/types.h")
KEYWORDS = set(
    "auto break case char const continue default do double else enum extern float for goto if inline int long register"
    " restrict return short signed sizeof static struct switch typedef union unsigned void volatile while _Alignas"
    " _Alignof _Atomic _Bool _Complex _Float32 _Float64 _Float128 _Float32x _Float64x _Generic _Imaginary _Noreturn"
    " _Static_assert _Thread_local asm __asm__ __extension__ __inline __inline__ __restrict __const __signed__"
    " __volatile__".split())
PIECE = re.compile(r'"(?:\\.|[^"\\])*"|\w+|[()]|[^\w"()]+', re.S)


def renamed(text, number):
    """The declarations with each name changed by a number; attributes and words of GNU C keep theirs."""
    pieces, depth, is_attribute = [], 0, False  # `depth`: the open brackets of the attribute
    for line in text.splitlines(keepends=True):
        if line.startswith("#"):
            pieces.append(line)
            continue
        for piece in PIECE.findall(line):
            if is_attribute:
                depth += (piece == "(") - (piece == ")")
                is_attribute = depth > 0 or not piece.strip() or piece in "()" and depth > 0
            elif piece == "__attribute__":
                is_attribute = True
            elif re.match(r"[A-Za-z_]", piece) and piece not in KEYWORDS and not piece.startswith("__builtin"):
                piece = f"{piece}_{number}"
            pieces.append(piece)
    return "".join(pieces)


def headers_text(folder):
    source = Path(folder, "headers_source.c")
    source.write_text("".join(f"#include <{name}>\n" for name in HEADERS))
    text = subprocess.run(["gcc", "-E", str(source)], capture_output=True, text=True, check=True).stdout
    parts, size, number = [text], len(text) + len(MAIN), 0
    while True:
        part = renamed(text, number)
        if size + len(part) > MOST:
            return "".join(parts) + MAIN
        parts.append(part)
        size += len(part)
        number += 1


def functions_text(is_chain):
    """100,000 functions: each but the first calls the one before it, or none calls another."""
    rows = ["void step000000(void) { }\n"]
    for number in range(1, 100_000):
        body = f"step{number - 1:06}();" if is_chain else f"1{number:06} + 1;"
        rows.append(f"void step{number:06}(void) {{ {body} }}\n")
    return "".join(rows) + ("int main(void) { step099999(); return 0; }\n" if is_chain else MAIN)


def brackets_text():
    nest = "int x%d = " + "(" * 250 + "0" + ")" * 250 + ";\n"
    parts, size, number = [], len(MAIN), 0
    while size + len(nest % number) <= MOST:
        parts.append(nest % number)
        size += len(parts[-1])
        number += 1
    return "".join(parts) + MAIN


def needed_text(body, head=""):
    """Functions, each of which calls the one before it, then a main that calls the last; `body` has the statements of one,
    and `head` stands before them."""
    last = "int main(void) { return need%06d(1); }\n"
    parts, size, number = [head], len(head) + len(last % 0), 0
    while True:
        result = f"need{number - 1:06}(x)" if number else "x"
        part = f"int need{number:06}(int x) {{ {body}return {result}; }}\n"
        if size + len(part) > MOST:
            return "".join(parts) + last % (number - 1)
        parts.append(part)
        size += len(part)
        number += 1


def statements_text():
    return needed_text(
        "struct pair here = { .one = x, .next = 0 }; struct pair *at = &here; int all = 0;"
        " for (int i = 0; i < x; i++) { if (at->one > all) all += at->one * i; else all = all - (i << 2); }"
        " while (at) { all ^= at->one & 15; at = at->next; if (all < 0) break; }"
        " do { x--; } while (x > 0 && !(all % 3)); all = all ? all : -x; ",
        "struct pair { int one; struct pair *next; };\n")


def nests_text(inner, count):
    """Statements and declarations with `inner` in so many brackets, one behind the other."""
    nest = "(" * count + inner + ")" * count
    most = max(1, 10_000 // len(nest))
    return needed_text("".join(f"x = {nest}; " if number % 2 else f"int y{number} = {nest}; " for number in range(most)))


def scopes_text(count):
    """Statements that are a name alone, which the outermost of so many blocks declares; each other block declares another."""
    inner = "x0; " * 900_000
    blocks = "".join(f"{{ int x{number}; " for number in range(count))
    return f"int main(void) {blocks}{inner}{'} ' * count}\n"


def sum_text():
    parts = (("+", "b"), ("*", "c"), ("-", "a"))
    others = "".join("".join(parts[number % 3]) for number in range(TOKENS // 2))
    return f"int main(void) {{ int a = 1, b = 2, c = 3; return a{others}; }}\n"


def callee_text(first, count, is_nested):
    """Calls, each of what the one before it gives, where the first has a million tokens."""
    call = first + "(" + "2," * (TOKENS // 2) + "2)"
    calls = "(" * count + call + "(1))" * count if is_nested else call + "(1)" * count
    return f"int f(int x) {{ return x; }}\nint main(void) {{ return {calls}; }}\n"


def run(words):
    """The seconds, the peak memory in megabytes and the status of one run."""
    start = time.perf_counter()
    child = subprocess.Popen(words, stdout=subprocess.DEVNULL, stderr=subprocess.DEVNULL)
    _, status, usage = os.wait4(child.pid, 0)
    seconds = time.perf_counter() - start
    child.returncode = os.waitstatus_to_exitcode(status)
    return seconds, usage.ru_maxrss / 1024, child.returncode


def texts_in(folder):
    """How each text is made, so that one alone is kept: a child's peak counts what this program held before it."""
    # a cast has a bracket of its own, a statement expression has two, and a function's body one
    most = DEEPEST - 1
    return {
        "headers": lambda: headers_text(folder),
        "chain": lambda: functions_text(True),
        "apart": lambda: functions_text(False),
        "brackets": brackets_text,
        "statements": statements_text,
        "sum": sum_text,
        "casts": lambda: nests_text("(int)x", most - 1),
        "casts_flat": lambda: nests_text("(int)x", 1),
        "blocks": lambda: nests_text("({ x; })", most - 2),
        "blocks_flat": lambda: nests_text("({ x; })", 1),
        "sums": lambda: nests_text("x + 1", most),
        "sums_flat": lambda: nests_text("x + 1", 1),
        "scopes": lambda: scopes_text(DEEPEST),
        "scopes_flat": lambda: scopes_text(1),
        "callee": lambda: callee_text("1", 1_000, False),
        "callee_word": lambda: callee_text("f", 1_000, False),
        "callee_in": lambda: callee_text("1", 250, True),
        "callee_in_word": lambda: callee_text("f", 250, True),
    }


# what gcc refuses, since it calls what is no function
REFUSED = ("callee", "callee_word", "callee_in", "callee_in_word")
# texts made to be slow, each with one of the same size that is not
PAIRS = (("casts", "casts_flat"), ("blocks", "blocks_flat"), ("sums", "sums_flat"), ("scopes", "scopes_flat"),
         ("callee", "callee_word"), ("callee_in", "callee_in_word"))


def main():
    if not sources.is_proved():
        sys.exit("bench/read.py: no proved program stands: `./prove` leaves one")
    program = str(sources.PROGRAM)
    seconds_of = {}
    with tempfile.TemporaryDirectory() as folder:
        print("| text | bytes | predator / gcc | predator | gcc | peak, predator | peak, gcc | status | answer |")
        print("|---|---|---|---|---|---|---|---|---|")
        texts = texts_in(folder)
        for name in sys.argv[1:] or texts:
            text = texts[name]()
            file = Path(folder, name + ".c")
            file.write_text(text)
            ours, theirs = [], []
            for _ in range(ROUNDS):
                ours.append(run([program, str(file)]))
                theirs.append(run(["gcc", "-fpreprocessed", "-fsyntax-only", "-w", str(file)]))
            is_refused = any(status for _, _, status in theirs)
            if is_refused != (name in REFUSED):
                sys.exit(f"bench/read.py: gcc {'refuses' if is_refused else 'takes'} the text {name}")
            mine, other = (statistics.median(seconds for seconds, _, _ in runs) for runs in (ours, theirs))
            peaks = [max(memory for _, memory, _ in runs) for runs in (ours, theirs)]
            answer = subprocess.run([program, str(file)], capture_output=True, text=True).stdout
            answer = answer.replace(str(file), "FILE").strip().replace("\n", "; ")
            # what gcc takes to refuse a text is no measure
            gcc = ("-", "-", "-") if is_refused else (f"{mine / other:.2f}", f"{other:.2f} s", f"{peaks[1]:.0f} MB")
            print(f"| {name} | {len(text.encode())} | {gcc[0]} | {mine:.2f} s | {gcc[1]}"
                  f" | {peaks[0]:.0f} MB | {gcc[2]} | {ours[0][2]} | {answer} |", flush=True)
            seconds_of[name] = mine
    print("\n| text | against | ratio of predator's times |")
    print("|---|---|---|")
    for name, against in PAIRS:
        if name in seconds_of and against in seconds_of:
            print(f"| {name} | {against} | {seconds_of[name] / seconds_of[against]:.2f} |")


if __name__ == "__main__":
    sys.exit(print(__doc__) if "--help" in sys.argv else main())
