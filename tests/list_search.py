#!/usr/bin/env python3
"""Compares what the program answers of loops over lists with runs of them that chance chooses.

Usage, at the project's root: python3 tests/list_search.py [COUNT [SEED]] [--runs N] [--budget N] [--keep FOLDER]
                              python3 tests/list_search.py --files [--runs N] [--faults-alone] FILE ..
COUNT (200) programs are drawn from the seed SEED (1) on. Each builds lists of one family (singly linked, kernel, LIST of sys/queue.h), does a thing or two with them, and frees them, all in main; of every other one a line is broken: it is left
out, said twice, said behind the next one, or said without its condition. N runs (300) go along the flow graph of each (tests/flow_runs.py), with inputs, addresses and contents that chance gives and a few nodes, and what they meet is what
`replay` says with their choices. A program that is answered `safe` is to meet nothing; each error is to be met, in ten times as many runs where it is not at first; and where the budget (10,000) is not spent, each fault that is met is to be told of.
It prints each program of which that is not so; the status is 1 where there is one. FOLDER gets the programs.
With --files it runs the FILEs instead, and compares with FILE's answer in its `.expect`: a run is to meet each error that stands there, and none another fault. Where there is no file of choices yet for such a fault, as NAME.choices or NAME.2.choices,
the choices of the run become one; where there is one, the fault that it meets counts as met. Each run is made by `replay`, of FILE
without the text of headers, and N is 2,000; with
--faults-alone only those that meet a fault along the flow graph are.
The environment variables PREDATOR and GRAPH may name the program and the one that writes graphs, JOBS how many programs are looked at at a time (2).
"""
import argparse
import os
import random
import re
import subprocess
import sys
import tempfile
from concurrent.futures import ProcessPoolExecutor
from pathlib import Path

HOME = Path(__file__).resolve().parent.parent
sys.path[:0] = [str(HOME / "tests"), str(HOME / "tools")]
import flow_runs  # noqa: E402
from front import unproved  # noqa: E402

PROGRAM = os.environ.get("PREDATOR", HOME / "predator")
if "GRAPH" in os.environ:
    flow_runs.graph.program = lambda: os.environ["GRAPH"]
STEPS = 3_000  # edges of a run
MOST_INPUTS = 16  # that are not 0
ALL = 10_000  # choices, at least
FAULT = re.compile(r"(.+:\d+:\d+): (?:(error|warning): )?([a-z ]+ \[\d\])")


# ---- runs

class Chosen(flow_runs.Chosen):
    """A run of few nodes: blocks lie at fresh addresses or where a dead one lay, and hold zeros, addresses and other words."""

    def give_block(self, size, zeroed):
        bases = [block.base for block in self.memory]
        free = [base for base in bases if not any(block.live and base < block.base + max(16, len(block.bytes)) and block.base < base + max(16, size) for block in self.memory)]
        base = self.next
        if free and self.chance.random() < 0.4:
            base = self.chance.choice(free)
        else:
            self.next += (max(size, 1) + 15) // 16 * 16
        words = [0] * size
        if not zeroed and self.chance.random() < 0.5:
            some = [0, 1, 8, 99999, *bases, self.next]
            words = b"".join(self.chance.choice(some).to_bytes(8, "little") for _ in range(size // 8 + 1))[:size]
        self.choices.append(("block", base, list(words)))

    def give(self, into, words):
        if words.startswith("input of") and sum(choice == ("input", 1) for choice in self.choices) >= MOST_INPUTS and self.taken == len(self.choices):
            self.choices.append(("input", 0))
        super().give(into, words)


def answer(*words, cwd=None):
    done = subprocess.run([PROGRAM, *words], cwd=cwd, stdin=subprocess.DEVNULL, capture_output=True, text=True)
    return done.stdout if done.stdout else f"status {done.returncode}: {done.stderr[-300:]}"


def replayed(file, choices):
    """What `replay` says of a run, and where the choices are a list of words, of the run with these."""
    with tempfile.NamedTemporaryFile("w", suffix=".choices") as kept:
        kept.write("".join(choice + "\n" for choice in choices))
        kept.flush()
        return answer("replay", file.name, kept.name, cwd=file.parent).strip()


def met_faults(file, brief, flow, numbers, seed, found, is_each_replayed=False):
    """Adds the faults that runs of these numbers meet, each with the choices of a short one. A run is looked for along the flow graph, which is that of the same program in another text."""
    wrong, seen, shortest = [], set(), {}
    for number in numbers:
        run = Chosen(flow, random.Random(f"{seed} {number}"))
        came = run.outcome(STEPS)
        choices = tuple(map(flow_runs.spelled, run.choices))
        if choices in seen:
            continue
        seen.add(choices)
        if is_each_replayed and came != "still running":
            said = replayed(brief, choices)
            if not said.endswith(came):
                wrong.append(f"a run comes to {came} along the flow graph, and replay says {said} with {choices}")
        if "[" in came and len(choices) < shortest.get(came, ALL):
            shortest[came] = len(choices)
            said = replayed(file, choices)
            if not said.endswith(came.split(": ", 1)[1]):
                wrong.append(f"a run comes to {came} along the flow graph, and replay says {said} with {choices}")
            elif len(choices) < len(found.get(said, ALL * [0])):
                found[said] = choices
    return wrong


def flow_of(text):
    lines = flow_runs.graphs_of([flow_runs.row_of(text)])[0]
    return flow_runs.Flow(lines) if lines[0].startswith("points ") else lines[0]


def without_headers(text, name):
    """The same program in other places: without the lines of headers, which main needs no item of, without line markers and with few blanks. To read it takes a small part of the time."""
    kept, is_own = [], True
    for line in text.splitlines():
        m = re.match(r'# \d+ "(.*?)"', line)
        is_own = m[1] == name if m else is_own
        if is_own and not m:
            kept.append(line)
    return re.sub(r"\s+", " ", " ".join(kept)).replace("; ", ";\n") if kept and text.startswith("#") else text


def told(text):
    """The faults that an answer tells of, each with its word, and the answer itself."""
    *faults, last = text.rstrip("\n").split("\n")
    found = {}
    for line in faults:
        m = FAULT.fullmatch(line)
        if not m:
            return None, text
        found[f"{m[1]}: {m[3]}"] = m[2]
    return found, last.split(": ", 1)[-1]


# ---- files with a wanted answer

def choices_of(file):
    """The files of choices that stand beside a file."""
    return sorted([*file.parent.glob(f"{file.stem}.choices"), *file.parent.glob(f"{file.stem}.[0-9].choices")])


def one_file(task):
    file, count, is_each_replayed = task
    expected = file.with_suffix(".expect")
    wanted, _ = told(expected.read_text().rsplit("status", 1)[0]) if expected.exists() else ({}, "")
    met, found = {answer("replay", file.name, kept.name, cwd=file.parent).strip() for kept in choices_of(file)}, {}
    with tempfile.TemporaryDirectory() as folder:
        brief = Path(folder, file.name)
        brief.write_text(without_headers(file.read_text(), f"{file.stem}.c"))
        flow = flow_of(brief.read_text())
        if isinstance(flow, str):
            return file, [f"has no flow graph: {flow}"]
        wrong = met_faults(file, brief, flow, range(count), file.name, found, is_each_replayed)
    runs = found
    for said in sorted(set(runs) & set(wanted) - met):
        number = len(choices_of(file)) + 1
        kept = file.with_name(f"{file.stem}.choices" if number == 1 else f"{file.stem}.{number}.choices")
        kept.write_text("".join(choice + "\n" for choice in runs[said]))
        met.add(answer("replay", file.name, kept.name, cwd=file.parent).strip())
    wrong += [f"is to tell of {said}, which no run meets" for said in sorted({said for said, word in wanted.items() if word == "error"} - met)]
    wrong += [f"meets {said}, which is not to be told, with {list(runs.get(said, ()))}" for said in sorted((met | set(runs)) - set(wanted))]
    return file, wrong


def files(given):
    bad = 0
    with ProcessPoolExecutor(int(os.environ.get("JOBS", "2"))) as pool:
        for file, wrong in pool.map(one_file, [(file.resolve(), given.runs or 2_000, not given.faults_alone) for file in given.file]):
            bad += bool(wrong)
            for line in wrong:
                print(f"{file.name} {line}", flush=True)
    print(f"{len(given.file)} files, {bad or 'none'} of which runs come to something else than is wanted")
    return bad > 0


# ---- random programs: a list of lines

SINGLY = {
    "head": ["struct node { struct node *next; int n; };"],
    "list": ["struct node *{h} = 0;"],
    "built at head": ["while (__VERIFIER_nondet_int()) {{", "  struct node *fresh = malloc(sizeof *fresh);", "  if (!fresh) abort();", "  fresh->n = __VERIFIER_nondet_int();", "  fresh->next = {h};", "  {h} = fresh;", "}}"],
    "built at tail": ["struct node **end_of_{h} = &{h};", "while (__VERIFIER_nondet_int()) {{", "  struct node *fresh = malloc(sizeof *fresh);", "  if (!fresh) break;", "  fresh->next = 0;", "  *end_of_{h} = fresh;", "  end_of_{h} = &fresh->next;", "}}"],
    "walked": ["for (struct node *at = {h}; at; at = at->next) {{", "  at->n = 1;", "}}"],
    "first freed": ["if ({h}) {{", "  struct node *gone = {h};", "  {h} = gone->next;", "  free(gone);", "}}"],
    "one freed": ["struct node **at_{h} = &{h};", "while (*at_{h} && __VERIFIER_nondet_int()) at_{h} = &(*at_{h})->next;", "if (*at_{h}) {{", "  struct node *gone = *at_{h};", "  *at_{h} = gone->next;", "  free(gone);", "}}"],
    "one put in": ["struct node *by_{h} = {h};", "while (by_{h} && __VERIFIER_nondet_int()) by_{h} = by_{h}->next;", "if (by_{h}) {{", "  struct node *fresh = malloc(sizeof *fresh);", "  if (!fresh) exit(1);", "  fresh->next = by_{h}->next;", "  by_{h}->next = fresh;", "}}"],
    "reversed": ["struct node *back_of_{h} = 0;", "while ({h}) {{", "  struct node *next = {h}->next;", "  {h}->next = back_of_{h};", "  back_of_{h} = {h};", "  {h} = next;", "}}", "{h} = back_of_{h};", "back_of_{h} = 0;"],
    "spliced": ["struct node **last_of_{h} = &{h};", "while (*last_of_{h}) last_of_{h} = &(*last_of_{h})->next;", "*last_of_{h} = {other};", "{other} = 0;"],
    "freed": ["while ({h}) {{", "  struct node *next = {h}->next;", "  free({h});", "  {h} = next;", "}}"],
}
KERNEL = {
    "head": ["struct list_head { struct list_head *next, *prev; };", "struct item { int n; struct list_head link; };"],
    "list": ["struct list_head {h};", "{h}.next = &{h};", "{h}.prev = &{h};"],
    "built at head": ["while (__VERIFIER_nondet_int()) {{", "  struct item *fresh = malloc(sizeof *fresh);", "  if (!fresh) break;", "  fresh->link.next = {h}.next;", "  fresh->link.prev = &{h};", "  {h}.next->prev = &fresh->link;", "  {h}.next = &fresh->link;", "}}"],
    "built at tail": ["while (__VERIFIER_nondet_int()) {{", "  struct item *fresh = malloc(sizeof *fresh);", "  if (!fresh) abort();", "  fresh->n = 0;", "  fresh->link.prev = {h}.prev;", "  fresh->link.next = &{h};", "  {h}.prev->next = &fresh->link;", "  {h}.prev = &fresh->link;", "}}"],
    "walked": ["for (struct list_head *at = {h}.next; at != &{h}; at = at->next) {{", "  ((struct item *)((char *)at - __builtin_offsetof(struct item, link)))->n = 1;", "}}"],
    "first freed": ["if ({h}.next != &{h}) {{", "  struct list_head *gone = {h}.next;", "  gone->next->prev = gone->prev;", "  gone->prev->next = gone->next;", "  free((char *)gone - __builtin_offsetof(struct item, link));", "}}"],
    "one freed": ["struct list_head *at_{h} = {h}.next;", "while (at_{h} != &{h} && __VERIFIER_nondet_int()) at_{h} = at_{h}->next;", "if (at_{h} != &{h}) {{", "  at_{h}->next->prev = at_{h}->prev;", "  at_{h}->prev->next = at_{h}->next;", "  free((char *)at_{h} - __builtin_offsetof(struct item, link));", "  at_{h} = 0;", "}}"],
    "freed": ["while ({h}.next != &{h}) {{", "  struct list_head *gone = {h}.next;", "  gone->next->prev = gone->prev;", "  gone->prev->next = gone->next;", "  free((char *)gone - __builtin_offsetof(struct item, link));", "}}"],
}
QUEUE = {
    "head": ["struct entry { struct { struct entry *le_next; struct entry **le_prev; } link; int n; };"],
    "list": ["struct {{ struct entry *lh_first; }} {h};", "{h}.lh_first = 0;"],
    "built at head": ["while (__VERIFIER_nondet_int()) {{", "  struct entry *fresh = malloc(sizeof *fresh);", "  if (!fresh) break;", "  fresh->n = __VERIFIER_nondet_int();", "  if ((fresh->link.le_next = {h}.lh_first) != 0) {h}.lh_first->link.le_prev = &fresh->link.le_next;", "  {h}.lh_first = fresh;", "  fresh->link.le_prev = &{h}.lh_first;", "}}"],
    "walked": ["for (struct entry *at = {h}.lh_first; at; at = at->link.le_next) {{", "  at->n = 1;", "}}"],
    "first freed": ["if ({h}.lh_first) {{", "  struct entry *gone = {h}.lh_first;", "  if (gone->link.le_next) gone->link.le_next->link.le_prev = gone->link.le_prev;", "  *gone->link.le_prev = gone->link.le_next;", "  free(gone);", "}}"],
    "one freed": ["struct entry *at_{h} = {h}.lh_first;", "while (at_{h} && __VERIFIER_nondet_int()) at_{h} = at_{h}->link.le_next;", "if (at_{h}) {{", "  if (at_{h}->link.le_next) at_{h}->link.le_next->link.le_prev = at_{h}->link.le_prev;", "  *at_{h}->link.le_prev = at_{h}->link.le_next;", "  free(at_{h});", "  at_{h} = 0;", "}}"],
    "one put in": ["struct entry *by_{h} = {h}.lh_first;", "while (by_{h} && __VERIFIER_nondet_int()) by_{h} = by_{h}->link.le_next;", "if (by_{h}) {{", "  struct entry *fresh = malloc(sizeof *fresh);", "  if (!fresh) exit(1);", "  if ((fresh->link.le_next = by_{h}->link.le_next) != 0) by_{h}->link.le_next->link.le_prev = &fresh->link.le_next;", "  by_{h}->link.le_next = fresh;", "  fresh->link.le_prev = &by_{h}->link.le_next;", "}}"],
    "freed": ["while ({h}.lh_first) {{", "  struct entry *gone = {h}.lh_first;", "  if (gone->link.le_next) gone->link.le_next->link.le_prev = gone->link.le_prev;", "  *gone->link.le_prev = gone->link.le_next;", "  free(gone);", "}}"],
}
FAMILIES = {"singly": SINGLY, "kernel": KERNEL, "queue": QUEUE}
DECLARATION = re.compile(r" *(struct|int)\b")


def drawn_lines(chance, family):
    """The lines of main: lists that are built, what is done with them, and how they are freed."""
    names = ["one", "other"][: 2 if family is SINGLY and chance.random() < 0.4 else 1]
    lines = []

    def add(what, name):
        lines.extend(line.format(h=name, other=names[-1]) for line in family[what])

    for name in names:
        add("list", name)
        add(chance.choice([what for what in family if what.startswith("built")]), name)
    todo = [what for what in family if what not in ("head", "list", "spliced", "freed") and not what.startswith("built")]
    for what in chance.sample(todo, chance.choice((0, 1, 1, 2))):
        add(what, chance.choice(names))
    if len(names) == 2 and chance.random() < 0.6:
        add("spliced", "one")
    for name in names:
        add("freed", name)
    return lines


def broken(chance, lines):
    """The same lines with one of them broken."""
    plain = [at for at, line in enumerate(lines) if line.endswith(";") and not DECLARATION.match(line)]
    while True:
        at, form, made = chance.choice(plain), chance.choice((0, 0, 0, 1, 2, 3)), list(lines)
        if form == 0 and not re.match(r" *(while|if)\b", lines[at]):
            made[at] = ";"
        elif form == 1 and not lines[at].lstrip().startswith("while"):
            made.insert(at, lines[at])
        elif form == 2 and at + 1 in plain:
            made[at], made[at + 1] = made[at + 1], made[at]
        elif form == 3 and re.match(r" *if \(", lines[at]) and "malloc" not in lines[at - 1]:
            made[at] = re.sub(r"^( *)if \((?:[^()]|\([^()]*\))*\) ", r"\1", lines[at])
        if made != lines:
            return made


def drawn(seed):
    """A program, and whether a line of it is broken."""
    chance = random.Random(seed)
    name = chance.choice(list(FAMILIES))
    lines = drawn_lines(chance, FAMILIES[name])
    if seed % 2:
        lines = broken(chance, lines)
    return "\n".join([*FAMILIES[name]["head"], "int main(void) {", *("  " + line for line in lines), "  return 0;", "}", ""]), name


def one_program(task):
    """What is otherwise of one program, and how it counts."""
    seed, folder, runs, budget = task
    text, name = drawn(seed)
    file = Path(folder, f"list_{seed}.c")
    file.write_text(text)
    flow = flow_of(text)
    if isinstance(flow, str):
        return file, [f"has no flow graph: {flow}"], "otherwise"
    said = answer("--budget", str(budget), file.name, cwd=folder)
    faults, last = told(said)
    if faults is None or not (last in ("safe", "warned") or "spent" in last):
        return file, [f"is answered: {said}"], "otherwise"
    found, errors = {}, {fault for fault, word in faults.items() if word == "error"}
    wrong = met_faults(file, file, flow, range(runs), seed, found)
    if errors - set(found):
        wrong += met_faults(file, file, flow, range(runs, 10 * runs), seed, found)
    met = set(found)
    if last == "safe" and met:
        wrong.append(f"is answered safe, and meets {sorted(met)}")
    if errors - met:
        wrong.append(f"has errors that no run met: {sorted(errors - met)}")
    if "spent" not in last and met - set(faults):
        wrong.append(f"is not told of {sorted(met - set(faults))}")
    unmet = set(faults) - errors - met
    what = f"{name}, {'broken' if seed % 2 else 'whole'}: "
    what += ("budget spent" if "spent" in last else "safe" if last == "safe" else "told as met" if not unmet else "warned of what no run met")
    return file, wrong, what


def programs(given):
    bad, counts = 0, {}
    with tempfile.TemporaryDirectory() as room, ProcessPoolExecutor(int(os.environ.get("JOBS", "2"))) as pool:
        folder = given.keep or room
        os.makedirs(folder, exist_ok=True)
        tasks = [(given.seed + number, folder, given.runs or 300, given.budget) for number in range(given.count)]
        for file, wrong, what in pool.map(one_program, tasks):
            counts[what] = counts.get(what, 0) + 1
            bad += bool(wrong)
            if given.keep:
                print(f"{file.name} {what}", flush=True)
            for line in wrong:
                print(f"{file.name} {line}", flush=True)
            if wrong:
                print(file.read_text(), flush=True)
    for what in sorted(counts):
        print(f"{what}: {counts[what]}")
    print(f"{given.count} programs, {bad or 'none'} answered otherwise")
    return bad > 0


def main():
    words = argparse.ArgumentParser(description=__doc__, formatter_class=argparse.RawDescriptionHelpFormatter)
    words.add_argument("--runs", type=int, default=0)
    words.add_argument("--budget", type=int, default=10_000)
    words.add_argument("--keep")
    words.add_argument("--faults-alone", action="store_true")
    words.add_argument("--files", dest="file", nargs="+", type=Path)
    words.add_argument("count", nargs="?", type=int, default=200)
    words.add_argument("seed", nargs="?", type=int, default=1)
    given = words.parse_args()
    unproved.with_stack()
    return files(given) if given.file else programs(given)


if __name__ == "__main__":
    sys.exit(main())
