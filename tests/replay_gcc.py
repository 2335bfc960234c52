#!/usr/bin/env python3
"""Runs the programs of replay/ by gcc under its address sanitizer and by `predator replay`, and compares what both find.

Usage, at the project's root: python3 tests/replay_gcc.py [NAME ..]
A program either ends, or meets one fault. Its inputs stand below; those that it asks for are taken from its run by gcc, and the choices of
`replay` are made of them: each allocation succeeds, as it did in that run, and each new block is put behind those before it, whatever
address it had there, with contents of zeros. Which choice is asked for next is found as `predator choices` finds it, with the program that
./predator takes. It prints a line for each program on which the two differ: one ends and the other does not, or their faults stand on two
lines. Where no NAME is given it goes on with 300 random programs with functions and recursion, of the seeds 0 to 299
(replay_calls.py writes them), and prints each on which the two differ. The status is 1 where there is one.
"""
import re
import subprocess
import sys
import tempfile
from pathlib import Path

from replay_calls import differs

HOME = Path(__file__).resolve().parent
sys.path.insert(0, str(HOME.parent / "tools"))
from front import choices, run  # noqa: E402

PROGRAM = HOME.parent / "predator"
CALLS = 300  # how many random programs with functions there are
INPUTS = {
    "list_built_and_freed": (1, 5, 1, -7, 1, 40, 0),
    "zeros_by_calloc": (3, 0, 9, 3, -1),
    "values_of_blocks": (2,),
    "double_free": (1,),
    "null_pointer": (7,),
    "past_an_array": (5,),
}
HARNESS = """
#include <stdio.h>
static int inputs[] = {{ {inputs}, 0 }};
static unsigned long at;
int __VERIFIER_nondet_int(void) {{
  int input = at < sizeof inputs / sizeof *inputs ? inputs[at++] : 0;
  fprintf(stderr, "input %d\\n", input);
  return input;
}}
"""


def run_by_gcc(file, folder):
    """The inputs that a program asks for, and the line of its fault, if it meets one."""
    harness, program = Path(folder, "harness.c"), Path(folder, "program")
    harness.write_text(HARNESS.format(inputs=", ".join(map(str, INPUTS.get(file.stem, (0,))))))
    subprocess.run(["gcc", "-std=gnu11", "-g", "-w", "-fno-builtin", "-fsanitize=address", "-fsanitize-address-use-after-scope",
                    file, harness, "-o", program], check=True)
    done = subprocess.run([program], stdin=subprocess.DEVNULL, capture_output=True, text=True, timeout=60)
    inputs = [int(value) for value in re.findall(r"^input (-?\d+)$", done.stderr, re.M)]
    fault = re.search(r"in main \S*?" + re.escape(file.name) + r":(\d+)", done.stderr)
    return inputs, int(fault[1]) if fault else None


class Inputs:
    """Gives the inputs of a run, and the default for all that is asked for besides."""

    def __init__(self, inputs):
        self.left = list(inputs)

    def choice(self, prober, size):
        return prober.default(size) if size >= 0 or not self.left else b"input %d" % (self.left.pop(0) % 2**32)


def run_by_replay(program, file, inputs):
    """What is told of the run with these inputs."""
    _, said, _ = choices.found_choices(program, [], file.read_bytes(), file.name.encode(), [], Inputs(inputs))
    return said.decode()


def replayed(file, choices, folder):
    """What `replay` prints of a program with these choices."""
    text = Path(folder, "choices")
    text.write_text("".join(choice + "\n" for choice in choices))
    done = subprocess.run([PROGRAM, "replay", file.name, text], cwd=file.parent, stdin=subprocess.DEVNULL, capture_output=True, text=True)
    return done.stdout


def calls_unlike():
    """How many of the random programs with functions do otherwise than by gcc."""
    unlike = 0
    with tempfile.TemporaryDirectory() as folder:
        for seed in range(CALLS):
            found = differs(seed, replayed, folder)
            if found:
                unlike += 1
                print(f"seed {seed}: replay says {found[0]!r} of\n{found[1]}")
    print(f"calls: {CALLS - unlike} of {CALLS} random programs as gcc runs them")
    return unlike


def main():
    names = sys.argv[1:] or sorted(file.stem for file in (HOME / "replay").glob("*.c"))
    program, differing = run.Program(), 0
    with tempfile.TemporaryDirectory() as folder:
        for name in names:
            file = HOME / "replay" / f"{name}.c"
            inputs, line = run_by_gcc(file, folder)
            said = run_by_replay(program, file, inputs)
            fault = re.match(re.escape(file.name) + r":(\d+):\d+: ", said)
            if (line is None) != (said == "ended") or (line is not None and (fault is None or int(fault[1]) != line)):
                differing += 1
                print(f"{name}: gcc finds {'no fault' if line is None else f'a fault in line {line}'}, replay says {said!r}")
    print(f"replay: {len(names) - differing} of {len(names)} programs as gcc runs them")
    unlike = 0 if sys.argv[1:] else calls_unlike()
    return 1 if differing or unlike or not names else 0


if __name__ == "__main__":
    sys.exit(print(__doc__) if "--help" in sys.argv else main())
