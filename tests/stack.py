#!/usr/bin/env python3
"""Measures what stack the program needs for trees of as many levels as are read, a form at a time.

Usage: python3 tests/stack.py
It takes the program that ./predator takes. For each form it prints, as a row for docs/tests.md, the fewest KiB of stack (`ulimit -s`) with which `predator FILE` and
`predator replay FILE CHOICES`, with no choices, end with an answer, to a fiftieth. The status is 1 where one needs more than the front script gives it, or where
the text is not one that passes the check.
"""
import resource
import subprocess
import sys
import tempfile
from pathlib import Path

sys.path.insert(0, str(Path(__file__).resolve().parent.parent / "tools"))
from front import run, unproved  # noqa: E402

LEVELS, BRACKETS = 1024, 256  # docs/language.md
LEAST = 64  # KiB
GIVEN = unproved.STACK >> 10


def main_of(statements):
    return f"int main(void) {{ {statements} return 0; }}\n"


FORMS = {
    "brackets, as many as may be open": f"int main(void) {{ return {'(' * (BRACKETS - 1)}1{')' * (BRACKETS - 1)}; }}\n",
    "unary operators": f"int main(void) {{ return {'~' * (LEVELS - 2)}1; }}\n",
    "unary operators, in brackets by threes": f"int main(void) {{ return {'(~~~' * (BRACKETS - 1)}1{')' * (BRACKETS - 1)}; }}\n",
    "binary operators": f"int main(void) {{ return {'1' + '+1' * (LEVELS - 2)}; }}\n",
    "assignments": f"int main(void) {{ int a; return {'a=' * (LEVELS - 3)}1; }}\n",
    "choices by `?:`": f"int main(void) {{ return {'1?1:' * (LEVELS - 2)}1; }}\n",
    "casts": f"int main(void) {{ return {'(int)' * (LEVELS - 2)}1; }}\n",
    "indices": f"int main(void) {{ int a{'[1]' * (LEVELS - 24)}; return sizeof a{'[0]' * (LEVELS - 24)}; }}\n",
    "stars, of a type and of an expression": f"int main(void) {{ int {'*' * (LEVELS - 24)}p; return sizeof({'*' * (LEVELS - 24)}p); }}\n",
    "`if` in `if`": main_of("if (1) " * (LEVELS - 1) + ";"),
    "blocks, as many as may be open": main_of("{ " * (BRACKETS - 2) + ";" + " }" * (BRACKETS - 2)),
    "blocks and `if` in them": main_of("{ " * (BRACKETS - 2) + "if (1) " * (LEVELS - BRACKETS + 1) + ";" + " }" * (BRACKETS - 2)),
    "initialisers, as many braces as may be open": f"int a{'[1]' * BRACKETS} = {'{' * BRACKETS}1{'}' * BRACKETS};\nint main(void) {{ return sizeof a; }}\n",
    "statement expressions": f"int main(void) {{ return {'({ ' * 120}1{'; })' * 120}; }}\n",
}


def answered(program, words, kilobytes):
    """Whether the program gives an answer with so much stack, and what it is."""

    def limited():
        resource.setrlimit(resource.RLIMIT_STACK, (kilobytes << 10, kilobytes << 10))

    done = subprocess.run([program, *words], stdin=subprocess.DEVNULL, capture_output=True, preexec_fn=limited)
    return 0 <= done.returncode <= 7, done.stdout


def needed(program, words):
    """The fewest KiB with which there is an answer, and the answer with the most; None where there is none."""
    has_answer, said = answered(program, words, GIVEN)
    if not has_answer:
        return None, b""
    least, most = LEAST, GIVEN
    while most - least > max(8, most // 50):
        middle = (least + most) // 2
        if answered(program, words, middle)[0]:
            most = middle
        else:
            least = middle
    return most, said


def main():
    program, differs = run.Program(), 0
    print(f"| form | `predator FILE`, {'proved' if program.is_proved else 'unproved'} | `replay` |\n|---|---|---|")
    with tempfile.TemporaryDirectory() as folder:
        text, choices = Path(folder, "t.c"), Path(folder, "choices")
        choices.write_text("")
        for form, written in FORMS.items():
            text.write_text(written)
            judged, said = needed(program.file, [text])
            replayed, _ = needed(program.file, ["replay", text, choices])
            is_wrong = judged is None or replayed is None or (b": not read: " in said and b": not read: not yet at " not in said)
            differs += is_wrong
            print(f"| {form} | {judged} KiB | {replayed} KiB |" + (f" differs: {said.decode(errors='replace')}" if is_wrong else ""), flush=True)
    return 1 if differs else 0


if __name__ == "__main__":
    sys.exit(print(__doc__) if "--help" in sys.argv else main())
