#!/usr/bin/env python3
"""Says what the analysis takes: how many states a second, and whether time and memory are in proportion to how many states are kept.

Usage, at the project's root: bench/analysis.py [--unproved] [--most N] [--seconds S] [--runs N] [PART ..]
The parts are programs, lists and growth; without words it takes all. It takes the proved program; with --unproved one that is built from the same sources without proofs, with checks of memory and arithmetic, which take
most of its time. Processor times are the least of some runs. How many states are kept is seen from outside: it is the least budget with which the answer does not say that the budget is spent, or the budget itself
where it always does.

programs   five programs, each within a budget of 1,000 states (--budget): how many states are kept, the time of the whole run, states a second, the peak of memory, and the time as a ratio to that of each of `gcc -fanalyzer`,
           `clang --analyze` and `cppcheck` that there is, on the same file in the same run.
lists      ten loops over lists and the same with one line broken (bench/lists): the same of each within a budget of 10,000 states, and whether the answer is the wanted one (NAME.expect). Without a fault it is to be
           `safe`, in under a second.
growth     programs whose states have no end, or whose text grows, with budgets of 1,000 to 100,000 states (--most): time and memory for each state as ratios to those of the smallest budget, where what a run with a budget
           of one state takes (reading, typing, lowering) is taken off first. A program is not tried further behind a run that takes over 60 seconds (--seconds).
"""
import argparse
import os
import shutil
import subprocess
import sys
import tempfile
from pathlib import Path

sys.path.insert(0, str(Path(__file__).resolve().parent.parent / "tools"))
from front import run, sources, unproved  # noqa: E402

SIZES = (1_000, 3_000, 10_000, 30_000, 100_000)
TOOLS = {"gcc -fanalyzer": ["gcc", "-fanalyzer", "-w", "-c", "-o", "/dev/null"], "clang --analyze": ["clang", "--analyze", "-w", "-o", "/dev/null"], "cppcheck": ["cppcheck", "-q"]}
SPENT = b"budget of"
LISTS = Path(__file__).resolve().parent / "lists"
LIST_BUDGET = 10_000
NODE = "struct node { struct node *next; int n; };\n"

SLOT = """struct slot { char *data; };
int main(void) {
  struct slot slot = { 0 };
  while (__VERIFIER_nondet_int()) {
    char *fresh = malloc(16);
    if (!fresh) continue;
    free(slot.data);
    slot.data = fresh;
    slot.data[15] = 0;
  }
  free(slot.data);
  return 0;
}
"""
COUNTER = "int main(void) {\n  int a[8];\n  for (int i = 0; i < 200000; i++) a[i % 8] = i;\n  return 0;\n}\n"
COUNTERS = "int main(void) {\n  int a[8];\n  for (int i = 0; i < 1000; i++)\n    for (int j = 0; j < 1000; j++) a[j % 8] = i;\n  return 0;\n}\n"
PUSHED = NODE + """int main(void) {
  struct node *head = 0;
  while (__VERIFIER_nondet_int()) {
    struct node *fresh = malloc(sizeof(struct node));
    if (!fresh) abort();
    fresh->next = head;
    head = fresh;
  }
  return 0;
}
"""
# nodes that hold a block of their own are not folded
HOLDING = """struct node { struct node *next; char *own; };
int main(void) {
  struct node *head = 0;
  while (__VERIFIER_nondet_int()) {
    struct node *fresh = malloc(sizeof(struct node));
    if (!fresh) abort();
    fresh->own = malloc(1);
    if (!fresh->own) abort();
    fresh->next = head;
    head = fresh;
  }
  return 0;
}
"""
CHOSEN = """int main(void) {
  char *a = malloc(8), *b = malloc(8), *c = malloc(8);
  while (__VERIFIER_nondet_int()) {
    char *t = a;
    if (__VERIFIER_nondet_int()) { a = b; b = t; }
    else { a = c; c = t; }
  }
  free(a); free(b); free(c);
  return 0;
}
"""


def twenty(count, inner=""):
    """Twenty small objects, and a loop with a counter, or one in another."""
    made = "".join(f"  char *p{at} = malloc(8);\n  if (!p{at}) abort();\n" for at in range(20))
    freed = "".join(f"  free(p{at});\n" for at in range(20))
    return f"int main(void) {{\n{made}  for (int i = 0; i < {count}; i++) {inner}p0[i % 8] = 1;\n{freed}  return 0;\n}}\n"


def straight(count):
    """Blocks that are made and freed, so many one behind the other: few states at each point, and many points."""
    return "int main(void) {\n  void *p;\n" + "  p = malloc(8); free(p);\n" * count + "  return 0;\n}\n"


PROGRAMS = {"a slot in a loop": SLOT, "three blocks that change places": CHOSEN, "a loop with a counter": COUNTER, "a list of any length": PUSHED, "twenty blocks and a counter": twenty(200_000)}
# the text for so many states; constants are forgotten beyond GROWING_LIMIT
GROWING_LIMIT = ("--int-limit", "1000")
GROWING = {
    "more text": lambda count: straight(count // 10), "two counters": lambda count: COUNTERS, "twenty blocks and two counters": lambda count: twenty(1_000, "for (int j = 0; j < 1000; j++) "),
    "a list that is not folded": lambda count: HOLDING}


def taken(words, folder, runs):
    """What is printed, the least processor time of some runs, and the peak of memory in KB."""
    best, peak, said = None, 0, b""
    for _ in range(runs):
        with open(Path(folder, "said"), "wb") as out:
            began = subprocess.Popen(words, cwd=folder, stdin=subprocess.DEVNULL, stdout=out, stderr=subprocess.DEVNULL, preexec_fn=unproved.with_stack)
            _, _, used = os.wait4(began.pid, 0)
        seconds = used.ru_utime + used.ru_stime
        best, peak, said = min(best or seconds, seconds), max(peak, used.ru_maxrss), Path(folder, "said").read_bytes()
    return said, best, peak


def analysed(program, folder, budget, runs=1, more=()):
    """Whether the budget was spent, the time and the peak of memory of a run over `t.c`."""
    said, seconds, peak = taken([program, "--budget", str(budget), *more, "t.c"], folder, runs)
    if not said.startswith(b"t.c:"):
        sys.exit(f"bench/analysis.py: {said[:100]!r}")
    return SPENT in said, seconds, peak


def kept_states(program, folder, most):
    """How many states are kept within a budget."""
    if analysed(program, folder, most)[0]:
        return most
    low, high = 0, most  # spent with low, not with high
    while high - low > 1:
        middle = (low + high) // 2
        low, high = (middle, high) if analysed(program, folder, middle)[0] else (low, middle)
    return high


def measured(program, file, budget, runs):
    """What is printed of a file, and a line of how many states are kept, of the time, and of the times of other tools."""
    with tempfile.TemporaryDirectory() as folder:
        shutil.copy(file, Path(folder, "t.c"))
        kept = kept_states(program, folder, budget)
        _, seconds, peak = analysed(program, folder, budget, runs)
        said, _, _ = taken([program, "--budget", str(budget), "t.c"], folder, 1)
        beside = [f"{seconds / taken([*words, 't.c'], folder, runs)[1]:.2f} times {tool}" for tool, words in TOOLS.items() if shutil.which(words[0])]
    return said, f"{kept:,} states, {1000 * seconds:.0f} ms, {kept / seconds:,.0f} states a second, {peak / 1024:.0f} MB; {', '.join(beside)}"


def programs(program, given):
    """Prints states a second, and times against those of other tools."""
    for name, text in PROGRAMS.items():
        with tempfile.NamedTemporaryFile("w", suffix=".c") as file:
            file.write(text)
            file.flush()
            print(f"{name}: {measured(program, file.name, given.budget, given.runs)[1]}", flush=True)


def lists(program, given):
    """Prints the same of loops over lists, and where the answer is not the wanted one."""
    files = [*sorted(LISTS.glob("*.c")), *sorted((LISTS / "faulty").glob("*.c"))]
    wrong = 0
    for file in files:
        said, line = measured(program, file, LIST_BUDGET, given.runs)
        wanted = file.with_suffix(".expect").read_bytes().rsplit(b"status", 1)[0]
        said = said.replace(b"t.c:", file.name.encode() + b":")
        wrong += said != wanted
        print(f"{'faulty ' if file.parent != LISTS else ''}{file.stem}: {line}" + ("" if said == wanted else f"; answered {said.decode()!r}"), flush=True)
    print(f"lists: {len(files) - wrong} of {len(files)} answered as wanted", flush=True)


def growth(program, given):
    """Prints time and memory for each state, against those of the smallest budget."""
    for name, text in GROWING.items():
        first = None
        for count in (size for size in SIZES if size <= given.most):
            with tempfile.TemporaryDirectory() as folder:
                Path(folder, "t.c").write_text(text(count))
                _, before, floor = analysed(program, folder, 1, given.runs, GROWING_LIMIT)
                is_spent, seconds, peak = analysed(program, folder, count, given.runs, GROWING_LIMIT)
            if not is_spent:
                sys.exit(f"bench/analysis.py: {name} has fewer than {count:,} states")
            each = (seconds - before) / count, (peak - floor) / count
            first = first or each
            # where the peak is that of the rest of the program there is no ratio
            of_memory = each[1] / first[1] if first[1] > 0 else float("nan")
            print(f"{name}, {count:,}: {seconds:.2f} s, {peak / 1024:.0f} MB; for each state {each[0] / first[0]:.2f} times the time, {of_memory:.2f} times the memory", flush=True)
            if seconds > given.seconds:
                break


PARTS = {"programs": programs, "lists": lists, "growth": growth}


def main():
    words = argparse.ArgumentParser(description=__doc__, formatter_class=argparse.RawDescriptionHelpFormatter)
    words.add_argument("--unproved", action="store_true")
    words.add_argument("--most", type=int, default=100_000)
    words.add_argument("--budget", type=int, default=1_000)
    words.add_argument("--seconds", type=float, default=60)
    words.add_argument("--runs", type=int, default=3)
    words.add_argument("part", nargs="*", metavar="PART", choices=[*PARTS, []])
    given = words.parse_args()
    if not given.unproved and not sources.is_proved():
        sys.exit("bench/analysis.py: no program stands that was proved from these sources: `.ci/run` and `./prove` leave one")
    program = run.Program().file
    for part in given.part or PARTS:
        PARTS[part](program, given)
    return 0


if __name__ == "__main__":
    sys.exit(main())
