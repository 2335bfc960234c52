#!/usr/bin/env python3
"""Runs ./predator in each of its ways, and compares standard output and status with the program's own, and standard error with what is wanted there.

Usage: python3 tests/front.py [CASE ..]
It takes the program that ./predator takes. A compiler that only copies its file stands for gcc -E, so that no gcc is needed; where there is one it is asked
too. It prints a line for each case, and ends with status 1 where one differs.
"""
import os
import pty
import shutil
import subprocess
import sys
import tempfile
import time
from pathlib import Path

HOME = Path(__file__).resolve().parent.parent
FRONT = HOME / "predator"
sys.path.insert(0, str(HOME / "tools"))
from front import advice, marks, run, sources  # noqa: E402

NOTE = (run.NOTE + "\n").encode()
SAFE = b"int main(void) {\n  void *p = malloc(8);\n  free(p);\n  return 0;\n}\n"
TWICE = b"int main(void) {\n  void *p = malloc(8);\n  free(p);\n  free(p);\n  return 0;\n}\n"
ASKS = b"int main(void) {\n  int n = __VERIFIER_nondet_int();\n  for (int i = 0; i < n; i++) {\n    char *p = malloc(3);\n    free(p);\n  }\n  return 0;\n}\n"
COPIES = '#!/bin/sh\necho "# 1 \\"copied.c\\""\nfor word; do file=$word; done\ncat "$file"\necho "$@" >words\n'
FILES = {
    "safe.c": SAFE, "twice.c": TWICE, "asks.c": ASKS, "asks.choices": b"block 16 00000000\ninput 1\nblock 32 00000000\n", "bad.choices": b"none\nblok 16 00\n",
    "goto.c": b"int main(void) {\n\tgoto end;\nend:\treturn 0;\n}\n", "rule.c": b"int main(void) { return x; }\n", "library.c": b"int f(void) { return 1; }\n",
    "include.c": b"#include <stdlib.h>\nint main(void) { return 0; }\n", "byte.c": b"int main(void) { return `; }\n",
}
CONSTRUCTS = (
    "goto", "switch", "union", "floating type", "variable arguments", "inline assembly", "layout attribute", "complex type", "thread-local object", "string literal",
    "call through pointer", "name without definition", "struct by value", "size not constant", "pointer cast", "pointer order", "pointer difference",
    "variable length array", "large object", "function pointer", "bit-field")
PROGRAM = run.Program()


def ran(folder, *words, command=(FRONT,), stdin=subprocess.DEVNULL, **more):
    """The status, and what was written to both outputs, without the line that says that the program is not proved."""
    done = subprocess.run([*command, *words], cwd=folder, stdin=stdin, stdout=subprocess.PIPE, stderr=subprocess.PIPE, **more)
    return done.returncode, done.stdout, done.stderr.replace(NOTE, b"")


def own(folder, *words):
    """The program's own status and output."""
    report, status = PROGRAM.answer([os.fsencode(word) for word in words], cwd=folder, stdin=subprocess.DEVNULL)
    return status, report


def on_a_terminal(folder, *words):
    """The same, where standard error is a terminal."""
    terminal, end = pty.openpty()
    try:
        done = subprocess.run([FRONT, *words], cwd=folder, stdin=subprocess.DEVNULL, stdout=subprocess.PIPE, stderr=end)
        os.write(end, b"the end")
        said = b""
        while not said.endswith(b"the end"):
            said += os.read(terminal, 65536)
        return done.returncode, done.stdout, said.removesuffix(b"the end").replace(b"\r", b"").replace(NOTE, b"")
    finally:
        os.close(terminal)
        os.close(end)


def the_answers_are_the_programs(folder):
    """In all ways to run, for an answer of each status."""
    calls = ([name] for name in ("safe.c", "twice.c", "goto.c", "rule.c", "library.c", "include.c", "byte.c", "missing.c", "."))
    replays = (["replay", "asks.c", name] for name in ("asks.choices", "bad.choices", "missing"))
    words = ([], [""], ["safe.c", "twice.c"], ["--budget", "7", "--", "safe.c"], ["--budget=0", "safe.c"], ["replay"], ["replay", "--steps", "1", "asks.c", "asks.choices"], ["-I"], ["-x", "safe.c"])
    for call in (*calls, *replays, *words):
        wanted = own(folder, *call)
        for more in ([], ["--quiet"], ["--explain"]):
            got = ran(folder, *more, *call)
            yield got[:2], wanted
            yield (got[2] != b"" and more != ["--explain"]), False
        yield on_a_terminal(folder, *call)[:2], wanted


def what_a_terminal_is_told(folder):
    yield b"^~~~" in on_a_terminal(folder, "goto.c")[2], True
    yield on_a_terminal(folder, "--quiet", "goto.c")[2], b""


def told(folder, *words):
    return ran(folder, "--explain", *words)[2]


def what_is_told(folder):
    yield told(folder, "goto.c").split(b"\n")[:2], [b"  \tgoto end;", b"  \t^~~~"]
    yield told(folder, "rule.c").split(b"\n")[:2], [b"  int main(void) { return x; }", b"  " + b" " * 24 + b"^"]
    yield b"Declare it in front." in told(folder, "rule.c"), True
    yield b"gcc -E include.c >include.i" in told(folder, "include.c"), True
    yield b"gcc -E" in told(folder, "byte.c"), False
    yield b"A library's author" in told(folder, "library.c"), True
    yield b"    free(p);\n    ^~~~\n" in told(folder, "twice.c"), True
    yield told(folder, "safe.c"), b""
    yield b"missing.c: No such file" in told(folder, "missing.c"), True
    yield b"missing: No such file" in told(folder, "replay", "safe.c", "missing"), True
    yield b"line 2 is no choice: `blok 16 00`" in told(folder, "replay", "asks.c", "bad.choices"), True
    yield b"predator choices" in told(folder, "replay", "asks.c", "asks.choices"), True
    yield b"predator replay [--model" in told(folder, "replay"), True


def an_enum_that_compilers_take_for_unsigned(folder):
    for front, is_told in (("enum e { A, B };", True), ("enum e { A = 0x0, B = 5 };", True), ("enum e { A, B = -1 };", False), ("enum e { A, B, C = B };", False),
                           ("enum e { A, B }; int i;", False)):
        Path(folder, "t.c").write_text(f"{front}\nint main(void) {{ for (enum e i = B; i >= A; i--) ; return 0; }}\n")
        said = told(folder, "t.c")
        yield b"there this is always true" in said, is_told
        yield b"int main(void) { for (enum e i = B; i >= A; i--) ; return 0; }\n" + b" " * 38 + b"^\n" in said, is_told
    Path(folder, "t.c").write_text("typedef enum { A = 1, B } t;\nint main(void) { t i = B; int n = i >= A; return i < 0; }\n")
    yield told(folder, "t.c").count(b"there this is never true"), 1
    yield told(folder, "t.c").count(b"there this is always true"), 0


def a_report_that_cannot_be_written(folder):
    for more in ([], ["--explain"]):
        with open("/dev/full", "wb") as full:
            done = subprocess.run([FRONT, *more, "safe.c"], cwd=folder, stdout=full, stderr=subprocess.PIPE)
        yield done.returncode, 6
        yield b"could not be written" in done.stderr, more != []


def a_compiler_reads_the_file_first(folder):
    """`file:line:column` is that of the marker, and FILE that of the word."""
    compiler = Path(folder, "copies")
    compiler.write_text(COPIES)
    compiler.chmod(0o755)
    env = {**os.environ, "CC": "./copies -std=gnu11"}
    for options in (["-I", "a b"], ["-DN=1"], ["-include", "x.h"], ["-E"]):
        given = [] if options == ["-E"] else options
        yield ran(folder, *options, "twice.c", env=env), (1, b"copied.c:4:3: error: double free [5]\ntwice.c: warned\n", b"")
        yield Path(folder, "words").read_text().strip(), " ".join(["-std=gnu11", "-E", *given, "-x", "c", "twice.c"])
    yield ran(folder, "replay", "-E", "asks.c", "asks.choices", env=env), (2, b"asks.c: waits\n", b"")
    yield ran(folder, "-E", "safe.c", env={**env, "CC": "./missing"})[:2], (5, b"")
    yield ran(folder, "-E", "safe.c", env={**env, "CC": "false"})[:2], (5, b"")


def gcc_reads_the_file_first(folder):
    if not shutil.which("gcc"):
        return
    Path(folder, "inc").mkdir()
    Path(folder, "inc", "n.h").write_text("struct node { struct node *next; };\n#define FREE(p) free(p)\n")
    Path(folder, "t.c").write_text('#include <stddef.h>\n#include "n.h"\nint main(void) {\n  struct node *p = NULL;\n  FREE(p);\n  return K + p * 2;\n}\n')
    text = subprocess.run(["gcc", "-E", "-I", "inc", "-DK=1", "t.c"], cwd=folder, capture_output=True, check=True).stdout
    Path(folder, "t.i").write_bytes(text)
    status, report = own(folder, "t.i")
    got = ran(folder, "--explain", "-Iinc", "-D", "K=1", "t.c", env={key: word for key, word in os.environ.items() if key != "CC"})
    yield got[:2], (status, report.replace(b"t.i: ", b"t.c: "))
    yield report, b"t.i: not read: rule 4 at t.c:6:16\n"
    yield b"  return 1 + p * 2;\n" in got[2] and b"Say which value is meant" in got[2], True


def each_refusal_has_advice(folder):
    known = advice.advised()
    wanted = [*CONSTRUCTS, *(f"rule {number}" for number in range(1, 14)), "no token", "too deep", "no main", "syntax", "not yet", "over 4194304 bytes", "budget spent", "state too large"]
    yield [name for name in wanted if not known.get(name)], []


def choices_that_are_written(folder):
    default = b"block 16 00000000\ninput 0\nblock 32 00000000\n"
    status, written, said = ran(folder, "choices", "asks.c")
    yield (status, written), (0, default)
    yield said.decode().splitlines(), [
        "asks.c:2:7: an object of 4 bytes, `n` [block 16 00000000] ", "asks.c:2:11: an input, for __VERIFIER_nondet_int [input 0]",
        "asks.c:3:12: an object of 4 bytes, `i` [block 32 00000000]", "with these choices: asks.c: ended"]
    typed = b"01000000\n1\n\nfoo\nblock 64 0000000000000000\nnone\n"
    Path(folder, "typed").write_bytes(typed)
    with open(Path(folder, "typed"), "rb") as stdin:
        status, written, said = ran(folder, "choices", "asks.c", stdin=stdin)
    wanted = b"block 16 01000000\ninput 1\nblock 32 00000000\nblock 64 0000000000000000\nnone\n"
    yield (status, written), (0, wanted)
    yield said.count(b"not asked for"), 1
    yield b"asks.c:4:15: memory of 3 bytes, for malloc [block 80 000000]" in said, True
    status, written, said = ran(folder, "choices", "asks.c", "asks.choices")
    yield (status, written), (0, b"")
    yield Path(folder, "asks.choices").read_bytes(), FILES["asks.choices"] + b"block 48 0000000000000000\nblock 64 000000\n"
    yield own(folder, "replay", "asks.c", "asks.choices"), (0, b"asks.c: ended\n")
    yield ran(folder, "choices", "rule.c")[:2], (3, b"")
    yield ran(folder, "choices")[0], 4
    yield ran(folder, "choices", "missing.c")[0], 5
    yield ran(folder, "--quiet", "choices", "safe.c")[2], b""


def words_of_graph(folder):
    """A budget stands with `--states` alone, from 1 to 200,000; no option stands twice."""
    for words in (["--budget", "3"], ["--states", "--budget", "0"], ["--states", "--budget=200001"], ["--states", "--budget=x"], ["--states", "--states"], ["--svg=1"], ["--states", "--budget"], ["-x"]):
        yield ran(folder, "graph", *words, "safe.c")[:2], (4, b"")
    yield ran(folder, "graph", "--states", "--svg", "--budget", "7", "missing.c")[:2], (5, b"")


def marks_stand_where_choices_are_asked_for(folder):
    text = b"# 7 \"a.h\"\nstruct s { int x; };\nint main(void) {\n  if (1) { static int k; struct s *p = calloc(2, sizeof(struct s)), q[2]; }\n  return (__VERIFIER_nondet_int)();\n}\n"
    marked = marks.Marked(text, b"t.c")
    yield [(marked.place(mark.at), mark.name, [marked.word(at) for at in mark.objects]) for mark in marked.marks], [
        ("a.h:9:10", "", [b"p", b"q"]), ("a.h:9:40", "calloc", [])]
    yield b"> ((2) * ( sizeof(struct s))) && *(char *)0, calloc(2, sizeof(struct s)))" in marked.text, True


def a_program_is_proved_by_its_checksum(folder):
    """A file that is touched changes nothing, a file that is changed and changed back neither; a changed program does."""
    crate = Path(folder, "crates", "predator")
    for name in ("src", "specs", "out"):
        (crate / name).mkdir(parents=True)
    Path(folder, "crates.txt").write_text("predator: low\nother:\n")
    (crate / "src" / "main.rt").write_text("one")
    program = crate / "out" / "predator"
    program.write_text("program")
    program.chmod(0o755)
    kept = sources.HOME, sources.PROGRAM, sources.RECORD
    sources.HOME, sources.PROGRAM, sources.RECORD = Path(folder), program, crate / "out" / "predator.sources"
    try:
        yield sources.is_proved(), False
        read = sources.checksum()
        yield sources.record(read) and sources.is_proved(), True
        os.utime(crate / "src" / "main.rt")
        yield sources.is_proved(), True
        (crate / "src" / "main.rt").write_text("two")
        yield sources.is_proved() or sources.record(read), False
        (crate / "src" / "main.rt").write_text("one")
        yield sources.is_proved(), True
        (crate / "specs" / "More.antt").write_text("more")
        yield sources.is_proved(), False
        (crate / "specs" / "More.antt").unlink()
        program.write_text("another")
        yield sources.is_proved(), False
    finally:
        sources.HOME, sources.PROGRAM, sources.RECORD = kept


def the_second_answer_comes_at_once(folder):
    ran(folder, "safe.c")
    began = time.monotonic()
    ran(folder, "safe.c")
    yield time.monotonic() - began < 2, True


CASES = (the_answers_are_the_programs, what_a_terminal_is_told, what_is_told, an_enum_that_compilers_take_for_unsigned, a_report_that_cannot_be_written, a_compiler_reads_the_file_first,
         gcc_reads_the_file_first, each_refusal_has_advice, choices_that_are_written, words_of_graph, marks_stand_where_choices_are_asked_for,
         a_program_is_proved_by_its_checksum, the_second_answer_comes_at_once)


def main():
    chosen = [case for case in CASES if case.__name__ in sys.argv[1:] or not sys.argv[1:]]
    if not chosen:
        sys.exit(__doc__)
    differs = 0
    for case in chosen:
        with tempfile.TemporaryDirectory() as folder:
            for name, text in FILES.items():
                Path(folder, name).write_bytes(text)
            pairs = list(case(folder))
        wrong = [pair for pair in pairs if pair[0] != pair[1]]
        differs += bool(wrong)
        print(f"{case.__name__.replace('_', ' ')}: " + ("holds" if not wrong else "differs"))
        for got, wanted in wrong:
            print(f"  wanted {wanted!r}\n  got    {got!r}")
    print(f"the front script: {len(chosen) - differs} of {len(chosen)} cases hold")
    return 1 if differs else 0


if __name__ == "__main__":
    sys.exit(print(__doc__) if "--help" in sys.argv else main())
