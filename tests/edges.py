#!/usr/bin/env python3
"""Runs the built program where files and outputs misbehave and where texts are deep or wide, and compares what it writes and its status.

Usage, at the project's root: tests/edges.py [PROGRAM]
It runs ./predator, or the PROGRAM that is given. It prints a line for each case, and ends with status 1 where one differs. Where it is
run as root the case of a file without read permission runs as another user; elsewhere the permission is taken from the file's owner.
"""
import os
import subprocess
import sys
import tempfile
import threading
import time
from pathlib import Path

HOME = Path(__file__).resolve().parent.parent
PROGRAM = str(Path(sys.argv[1]).resolve() if len(sys.argv) == 2 else HOME / "predator")
SAFE = b"int main(void) {\n  void *p = malloc(8);\n  free(p);\n  return 0;\n}\n"
USAGE = b"usage: predator [--budget N] [--int-limit K] FILE\n"
MOST = 4_194_304
# How many brackets may be open, and how many levels a tree may have (docs/language.md).
BRACKETS = 256
LEVELS = 1024
# The first answer that is not from the proved program takes the minutes in which that program is built.
SECONDS = 900


def ran(words, folder, stdout=subprocess.PIPE, **more):
    """The exit status and what was written, where that is caught."""
    done = subprocess.run([PROGRAM, *words], cwd=folder, stdin=subprocess.DEVNULL, stdout=stdout,
                          stderr=subprocess.PIPE, timeout=SECONDS, **more)
    return done.returncode, done.stdout


def a_folder(folder):
    return ran(["."], folder), (5, b"")


def no_permission(folder):
    Path(folder, "closed.c").write_bytes(SAFE)
    os.chmod(Path(folder, "closed.c"), 0)
    os.chmod(folder, 0o755)
    more = {"user": 65534, "group": 65534, "extra_groups": []} if os.geteuid() == 0 else {}
    return ran(["closed.c"], folder, **more), (5, b"")


def a_missing_file(folder):
    return ran(["missing.c"], folder), (5, b"")


def a_path_that_is_no_utf8(folder):
    Path(os.fsdecode(os.fsencode(folder) + b"/\xff.c")).write_bytes(SAFE)
    return ran([b"\xff.c"], folder), (4, USAGE)


def a_full_device(folder):
    with open("/dev/full", "wb") as full:
        return (ran(["safe.c"], folder, stdout=full)[0],), (6,)


def a_closed_output(folder):
    words = ["sh", "-c", 'exec "$0" safe.c >&-', PROGRAM]
    done = subprocess.run(words, cwd=folder, stdin=subprocess.DEVNULL, stderr=subprocess.PIPE, timeout=SECONDS)
    return (done.returncode,), (6,)


def a_pipe_that_nobody_reads(folder):
    out, into = os.pipe()
    os.close(out)
    try:
        return (ran(["safe.c"], folder, stdout=into)[0],), (6,)
    finally:
        os.close(into)


def a_pipe_that_closes_after_ten_bytes(folder):
    """Its buffer is filled first, so that the writer waits for the reader, who takes it and ten bytes more, and leaves."""
    out, into = os.pipe()
    os.set_blocking(into, False)
    filled = 0
    try:
        while True:
            filled += os.write(into, b"x" * 4096)
    except BlockingIOError:
        pass
    os.set_blocking(into, True)
    Path(folder, "lost.c").write_bytes(b"int main(void) {\n" + b"  void *p = malloc(8);\n  p = 0;\n" * 1 + b"  return 0;\n}\n")
    started = subprocess.Popen([PROGRAM, "lost.c"], cwd=folder, stdin=subprocess.DEVNULL, stdout=into, stderr=subprocess.PIPE)
    os.close(into)
    time.sleep(0.2)
    os.close(out)
    started.communicate(timeout=SECONDS)
    return (started.returncode,), (6,)


def a_file_that_grows(folder):
    """Whatever it takes of the file, it ends, with an answer of a file that was read."""
    grown, ended = Path(folder, "grown.c"), threading.Event()
    grown.write_bytes(SAFE)

    def grow():
        with open(grown, "ab") as file:
            while not ended.is_set() and file.tell() < 2 * MOST:
                file.write(b" " * 65536)
                file.flush()

    thread = threading.Thread(target=grow)
    thread.start()
    try:
        got = ran(["grown.c"], folder)
    finally:
        ended.set()
        thread.join()
    answers = ((0, b"grown.c: safe\n"), (3, b"grown.c: not read: over 4194304 bytes\n"))
    return got, got if got in answers else answers[0]


def a_named_pipe(folder):
    os.mkfifo(Path(folder, "pipe.c"))

    def write():
        with open(Path(folder, "pipe.c"), "wb") as file:
            for at in range(0, len(SAFE), 7):
                file.write(SAFE[at:at + 7])
                file.flush()

    thread = threading.Thread(target=write)
    thread.start()
    try:
        return ran(["pipe.c"], folder), (0, b"pipe.c: safe\n")
    finally:
        thread.join()


def an_empty_name(folder):
    return ran([""], folder), (4, USAGE)


def no_words(folder):
    return ran([], folder), (4, USAGE)


def ten_thousand_words(folder):
    return ran(["safe.c"] * 10_000, folder), (4, USAGE)


def an_empty_file(folder):
    Path(folder, "empty.c").write_bytes(b"")
    return ran(["empty.c"], folder), (3, b"empty.c: not read: no main\n")


def the_longest_file(folder):
    Path(folder, "long.c").write_bytes(SAFE + b" " * (MOST - len(SAFE)))
    return ran(["long.c"], folder), (0, b"long.c: safe\n")


def one_byte_too_many(folder):
    Path(folder, "longer.c").write_bytes(SAFE + b" " * (MOST + 1 - len(SAFE)))
    return ran(["longer.c"], folder), (3, b"longer.c: not read: over 4194304 bytes\n")


def answer_to(folder, text, answer, status):
    """What is answered of a text, beside what is wanted."""
    Path(folder, "t.c").write_text(text)
    return ran(["t.c"], folder), (status, f"t.c: {answer}\n".encode())


def passes(folder, text):
    """A text that breaks no rule, and no run of which faults."""
    return answer_to(folder, text, "safe", 0)


def is_too_large(folder, text):
    """A text with more levels than are read."""
    return answer_to(folder, text, "not read: syntax at t.c:1:1", 3)


def main_of(statement):
    return f"int main(void) {{ {statement} return 0; }}\n"


def a_hundred_thousand_stars(folder):
    return passes(folder, main_of(f"int {'*' * 100_000}p;"))


def members(count):
    return f"struct s {{ {' '.join(f'char m{number};' for number in range(count))} }};\n"


def sixty_thousand_members(folder):
    return passes(folder, members(60_000) + main_of("struct s v; v.m59999 = 1;"))


def one_member_too_many(folder):
    text = members(65_537)
    return answer_to(folder, text + main_of("struct s v;"), f"gave up: large object at t.c:1:{text.index('m65536;') + 1}", 2)


def braced(count):
    return "{" * count + "1" + "}" * count


def as_many_braces_as_may_be_open(folder):
    return passes(folder, f"int a{'[1]' * BRACKETS} = {braced(BRACKETS)};\nint main(void) {{ return sizeof a; }}\n")


def braces_around_a_number(folder):
    text = f"int a = {braced(BRACKETS)};\n"
    return answer_to(folder, text + "int main(void) { return a; }\n", f"not read: rule 5 at t.c:1:{text.index('1') + 1}", 3)


def one_brace_too_many(folder):
    text = f"int a = {braced(BRACKETS + 1)};\n"
    return answer_to(folder, text + main_of(""), f"not read: too deep at t.c:1:{text.index('1')}", 3)


def expressions(levels):
    """A `return` with operators and a constant."""
    return f"int main(void) {{ return {'~' * (levels - 2)}1; }}\n"


def casts(levels):
    """A `return` with casts and a constant."""
    return f"int main(void) {{ return {'(int)' * (levels - 2)}1; }}\n"


def statements(levels):
    """Statements, one in the other, and an empty one."""
    return main_of("if (1) " * (levels - 1) + ";")


def blocks(levels):
    """As many blocks as may be open around the brackets of a condition, statements in the innermost, and an empty one."""
    count = BRACKETS - 2
    return main_of("{ " * count + "if (1) " * (levels - count - 1) + ";" + " }" * count)


def as_many_expressions_as_are_read(folder):
    return passes(folder, expressions(LEVELS))


def one_expression_too_many(folder):
    return is_too_large(folder, expressions(LEVELS + 1))


def as_many_casts_as_are_read(folder):
    return passes(folder, casts(LEVELS))


def one_cast_too_many(folder):
    return is_too_large(folder, casts(LEVELS + 1))


def as_many_statements_as_are_read(folder):
    return passes(folder, statements(LEVELS))


def one_statement_too_many(folder):
    return is_too_large(folder, statements(LEVELS + 1))


def as_many_blocks_as_are_read(folder):
    return passes(folder, blocks(LEVELS))


def one_block_too_many(folder):
    return is_too_large(folder, blocks(LEVELS + 1))


def replayed(folder, choices, *options):
    """What `replay` answers of a main that returns, with this text of choices."""
    Path(folder, "t.c").write_bytes(b"int main(void) { return 0; }\n")
    Path(folder, "c").write_bytes(choices)
    return ran(["replay", *options, "t.c", "c"], folder)


def replay_of_no_words(folder):
    return ran(["replay"], folder), (4, USAGE)


def replay_without_choices(folder):
    return ran(["replay", "safe.c"], folder), (4, USAGE)


def replay_of_three_files(folder):
    return ran(["replay", "safe.c", "safe.c", "safe.c"], folder), (4, USAGE)


def replay_of_a_file_called_replay(folder):
    Path(folder, "replay").write_bytes(SAFE)
    return ran(["./replay"], folder), (0, b"./replay: safe\n")


def replay_where_both_are_missing(folder):
    return ran(["replay", "missing.c", "missing"], folder), (5, b"")


def replay_where_the_choices_are_missing(folder):
    return ran(["replay", "safe.c", "missing"], folder), (5, b"")


def replay_of_a_refused_file_without_choices(folder):
    Path(folder, "t.c").write_bytes(b"int main(void) { return x; }\n")
    return ran(["replay", "t.c", "missing"], folder), (3, b"t.c: not read: rule 1 at t.c:1:25\n")


def replay_of_a_call_without_choices(folder):
    Path(folder, "t.c").write_bytes(b"int f(void) { return 1; }\nint main(void) {\n  return f();\n}\n")
    return ran(["replay", "t.c", "missing"], folder), (5, b"")


def replay_where_the_choices_are_a_folder(folder):
    return ran(["replay", "safe.c", "."], folder), (5, b"")


def replay_of_the_same_file_twice(folder):
    return ran(["replay", "safe.c", "safe.c"], folder), (3, b"safe.c: no choices\n")


def replay_where_the_choices_are_a_pipe(folder):
    os.mkfifo(Path(folder, "pipe"))

    def write():
        with open(Path(folder, "pipe"), "wb") as file:
            for line in (b"block 16 00000000", b"00000000\nno", b"ne\n"):
                file.write(line)
                file.flush()

    thread = threading.Thread(target=write)
    thread.start()
    try:
        return ran(["replay", "safe.c", "pipe"], folder), (0, b"safe.c: ended\n")
    finally:
        thread.join()


def replay_with_the_longest_choices(folder):
    return replayed(folder, b"input 1\n" * (MOST // 8)), (0, b"t.c: ended\n")


def replay_with_one_byte_too_many(folder):
    return replayed(folder, b"input 1\n" * (MOST // 8) + b"i"), (3, b"c: not read: over 4194304 bytes\n")


def replay_of_a_million_steps(folder):
    Path(folder, "t.c").write_bytes(b"int main(void) { while (1) ; }\n")
    Path(folder, "c").write_bytes(b"")
    return ran(["replay", "t.c", "c"], folder), (2, b"t.c: still running\n")


def replay_where_the_output_is_full(folder):
    Path(folder, "c").write_bytes(b"")
    with open("/dev/full", "wb") as full:
        return (ran(["replay", "safe.c", "c"], folder, stdout=full)[0],), (6,)


CASES = (a_folder, no_permission, a_missing_file, a_path_that_is_no_utf8, a_full_device, a_closed_output,
         a_pipe_that_nobody_reads, a_pipe_that_closes_after_ten_bytes, a_file_that_grows, a_named_pipe, an_empty_name,
         no_words, ten_thousand_words, an_empty_file, the_longest_file, one_byte_too_many, a_hundred_thousand_stars,
         sixty_thousand_members, one_member_too_many, as_many_braces_as_may_be_open, braces_around_a_number, one_brace_too_many,
         as_many_expressions_as_are_read, one_expression_too_many, as_many_casts_as_are_read, one_cast_too_many,
         as_many_statements_as_are_read, one_statement_too_many, as_many_blocks_as_are_read, one_block_too_many,
         replay_of_no_words, replay_without_choices, replay_of_three_files, replay_of_a_file_called_replay,
         replay_where_both_are_missing, replay_where_the_choices_are_missing, replay_of_a_refused_file_without_choices,
         replay_of_a_call_without_choices,
         replay_where_the_choices_are_a_folder, replay_of_the_same_file_twice, replay_where_the_choices_are_a_pipe,
         replay_with_the_longest_choices, replay_with_one_byte_too_many, replay_of_a_million_steps, replay_where_the_output_is_full)


def main():
    differs = 0
    for case in CASES:
        with tempfile.TemporaryDirectory() as folder:
            Path(folder, "safe.c").write_bytes(SAFE)
            try:
                got, wanted = case(folder)
            except subprocess.TimeoutExpired:
                got, wanted = "no answer in time", None
        name = case.__name__.replace("_", " ")
        differs += got != wanted
        print(f"{name}: " + ("holds" if got == wanted else f"differs: wanted {wanted!r}, got {got!r}"))
    print(f"edges: {len(CASES) - differs} of {len(CASES)} cases hold")
    return 1 if differs else 0


if __name__ == "__main__":
    sys.exit(print(__doc__) if "--help" in sys.argv else main())
