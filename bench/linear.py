#!/usr/bin/env python3
"""Says whether work takes time in proportion to its size: typing of expressions and of blocks, flow graphs, and graphs of memory.

Usage, at the project's root: bench/linear.py [--instructions] [PART ..]
The parts are expressions, blocks, flow and graph; without words it takes all. Each proves and builds a program of rows and gives it rows of several sizes. Of
the processor times the least of some runs is taken. Printed is the time for each operator, part or edge as a ratio to that of the smallest row of its kind:
where the work is linear these are about 1; work that goes with the square would give 2, 4 and 8. With --instructions valgrind counts instructions in place of
time, over rows of a tenth of these sizes, but for graphs: no cache and no other program has a part in these ratios.

expressions  crates/expression_rows is given expressions of 125,000 to 1,000,000 operators, each at most 300 levels deep: sums of constants, whose value is computed;
             sums of a name, which is looked up at each place; members of what a pointer leads to. A type name has as many `*`, and a call as many arguments. A struct has a
             fiftieth as many members, each of which is used; a hundredth as many structs stand in a chain, each of which has the one before as its member; and a five
             thousandth as many have thirty levels, each of two of the one inside.
blocks       It is given statement expressions of 12,500 to 100,000 statements, declarations or parts of an initialiser. Of what an object of 65,536 bytes has no room for there
             are fewer: half as many items of one byte, and a sixteenth as many pointers; a struct has a tenth as many members, each of which is named by a designator.
flow         crates/flow_rows is given flow graphs of 125,000 to 1,000,000 edges. Half of them are a main that is one long chain of calls and forks whose sides meet at once; the
             other half are functions of ten edges with a variable and a loop each. In `chains` the edges stand in the order of the text, in `backwards` the other way round, and in
             `mixed` in no order, where the ratios are somewhat more than 1. In `tree` main is a chain whose points each fork to the next point and to the last one; in `star` all
             edges but one begin at one point. A graph is asked for a loop head (which reads it and looks no further), for its form and for its walks; the time of the first is taken
             from the other two.
graph        crates/graph_rows is given graphs of 1,000 to 10,000 objects of 24 bytes, one third of them segments with two edges and a link in each node, the others with three edges, and a
             third as many variables, registers, ports and unequal pairs each; and one object of 8,192 to 65,536 bytes with an edge in each 8 of them. The row is read, and a graph is
             built of its parts; it is copied and the copy's parts are made; it is copied and the copy is taken apart. The time of a row that says nothing is taken off what it takes to
             read one, the time to read one off what it takes to build, and that off the other two. Beside it stands how many times as long all but the last are as
             python3 takes to put the same row into dicts, to look each key up there, and to copy the dicts.
"""
import random
import re
import resource
import subprocess
import sys
import tempfile
import time
from pathlib import Path

CRATES = Path(__file__).resolve().parent.parent / "crates"
RUNS = 3
WIDTH = 100
LARGE, MIDDLE = (125_000, 250_000, 500_000, 1_000_000), (12_500, 25_000, 50_000, 100_000)
TEXTS = ("chains", "backwards", "mixed", "tree", "star")
VALGRIND = ("valgrind", "--tool=cachegrind", "--cache-sim=no", "--cachegrind-out-file=/dev/null")


def answered(file, wanted, before=()):
    """What a row's run says on standard error, where its answer is as wanted. The file stands in a folder that has the program's name."""
    program = CRATES / file.parent.name / "out" / file.parent.name
    with file.open() as rows:
        done = subprocess.run([*before, program], stdin=rows, capture_output=True, text=True)
    if done.returncode or not wanted(done.stdout.strip()):
        sys.exit(f"bench/linear.py: {file.name}: {done.stdout[:100]}{done.stderr[:100]}")
    return done.stderr


def seconds(file, wanted):
    """The least processor time of some runs over a row."""
    times = []
    for _ in range(RUNS):
        before = resource.getrusage(resource.RUSAGE_CHILDREN)
        answered(file, wanted)
        after = resource.getrusage(resource.RUSAGE_CHILDREN)
        times.append(after.ru_utime + after.ru_stime - before.ru_utime - before.ru_stime)
    return min(times)


def instructions(file, wanted):
    """How many instructions a run over a row takes."""
    said = answered(file, wanted, VALGRIND)
    return int(re.search(r"I\s+refs:\s+([\d,]+)", said).group(1).replace(",", ""))


def cost(measure, folder, row, wanted):
    """What a row costs. Its file is gone then."""
    file = Path(folder, "row")
    file.write_text(row + "\n")
    try:
        return measure(file, wanted)
    finally:
        file.unlink()


def summed(parts):
    """A sum of parts, in brackets by the hundred so that it is no deeper than three hundred."""
    while len(parts) > 1:
        parts = ["(" + "+".join(parts[at : at + WIDTH]) + ")" for at in range(0, len(parts), WIDTH)]
    return parts[0]


def grouped(part, count):
    """A sum of one part so many times."""
    return summed([part] * count)


def with_members(count):
    """A struct of so many members, each of which is used."""
    members = "".join(f"char m{at};" for at in range(count))
    return f"sizeof(struct w {{{members}}})+{summed([f'((struct w*)p)->m{at}' for at in range(count)])}"


def chained(count):
    """So many structs, each of which has the one before as its member."""
    return summed(["sizeof(struct c0{char m;})", *(f"sizeof(struct c{at}{{struct c{at - 1} m;}})" for at in range(1, count))])


def nested_twice(depth):
    """Structs one inside the other, each with two of the one inside; the innermost has no members."""
    return f"struct d{depth}{{{nested_twice(depth - 1)} x,y;}}" if depth else "struct d0{}"


def repeated(part):
    """A block of one part so many times; `#` in it is the number of the part."""
    return lambda count: f"({{ {' '.join(part.replace('#', str(at)) for at in range(count))} }})"


def listed(front, part, back, share):
    """A block of one declaration with a list of parts, of which there are so many less."""
    return lambda count: f"({{ {front}{', '.join(part.replace('#', str(at)) for at in range(count // share))}{back} }})"


def designated(count):
    """A block with a struct of which each member is set by its name."""
    names = [f"m{at}" for at in range(count // 10)]
    return f"({{ struct w {{ {' '.join(f'char {name};' for name in names)} }} a = {{ {', '.join(f'.{name} = 1' for name in names)} }}; }})"


def nothing(count):
    """What is found of a block without a value."""
    return "void"


# of each part, for each kind of row: the expression of so many operators or parts, and what is found of it
EXPRESSIONS = {
    "constants": (lambda count: grouped("1", count), lambda count: f"i32 = {count}"),
    "names": (lambda count: grouped("n", count), lambda count: "i32"),
    "members": (lambda count: grouped("y->a", count // 2), lambda count: "i32"),
    "stars": (lambda count: f"sizeof(int{'*' * count})", lambda count: "u64 = 8"),
    "members that are declared and used": (lambda count: with_members(count // 50), lambda count: "u64"),
    "structs in a chain": (lambda count: chained(count // 100), lambda count: f"u64 = {count // 100}"),
    "structs of thirty levels, each of two": (
        lambda count: summed([f"sizeof({nested_twice(30).replace('d', f'd{at}_')})" for at in range(count // 5000)]),
        lambda count: "u64 = 0 null",
    ),
    "arguments": (lambda count: f"f({','.join(['1'] * count)})", lambda count: "rule 5 at 4"),
}
BLOCKS = {
    "expression statements": (repeated("n;"), lambda count: "i32"),
    "branches": (repeated("if (n) n; else ;"), nothing),
    "loops": (repeated("while (n) break;"), nothing),
    "blocks": (repeated("{ int a; a = 1; }"), nothing),
    "objects": (repeated("int a# = 1;"), nothing),
    "typedefs": (repeated("typedef int t#;"), nothing),
    "objects with linkage": (repeated("extern int e#;"), nothing),
    "functions": (repeated("int h#(int, char *);"), nothing),
    "parameters": (listed("int h(", "int a#", ");", 1), nothing),
    "items": (listed("char a[] = { ", "1", " };", 2), nothing),
    "addresses": (listed("static int *a[] = { ", "&n", " };", 16), nothing),
    "designators": (designated, nothing),
}


def expressions(measure, folder, sizes, kinds):
    """Prints, for each kind, what an operator or a part costs in each size as a ratio to the smallest one."""
    for kind, (expression, answer) in kinds.items():
        first = None
        for count in sizes:
            each = cost(measure, folder, f"lp64 {expression(count)}", answer(count).__eq__) / count
            first = first or each
            print(f"{kind}, {count:,}: {each / first:.2f}", flush=True)


def function_of(number, base):
    """The edges and the standings of a function with a loop, whose points begin at a base."""
    p = list(range(base, base + 10))
    edges = [
        f"enter {p[0]} {p[1]} {number}", f"number {p[1]} {p[2]} 0 0 4", f"input {p[2]} {p[3]} 1 4 1 0",
        f"if_same {p[3]} {p[7]} 0 1", f"if_different {p[3]} {p[4]} 0 1", f"address {p[4]} {p[5]} 2 {number}",
        f"number {p[5]} {p[6]} 3 7 4", f"write {p[6]} {p[1]} 2 3 4", f"leave {p[7]} {p[8]} {number}", f"return {p[8]} {p[9]}",
    ]
    v = f"stand 1 {number}"
    return edges, ["stand 0", v, f"{v} 0 4", f"{v} 0 4 1 4", v, f"{v} 2 8", f"{v} 2 8 3 4", v, "stands 2"]


def main_of(functions):
    """The edges of a main that calls functions 1, 2 .. and forks four times behind each call, and its points."""
    edges, point = [], 0
    for called in range(1, functions + 1):
        edges.append(f"call {point} {point + 1} {called}")
        for fork in range(point + 1, point + 5):
            edges.extend([f"finish {fork} {fork + 1}"] * 2)
        edges.append(f"finish {point + 5} {point + 6}")
        point += 6
    return edges + [f"return {point} {point + 1}"], point + 2


def tree(count):
    """A main whose points each fork to the next point and to the last one."""
    half = count // 2
    edges = [f"finish {p} {to}" for p in range(half) for to in (p + 1, half)] + [f"return {half} {half + 1}"]
    return [f"points {half + 2}", f"stands {half + 2}", f"function 0 {half}", f"loop {half}", *edges]


def star(count):
    """A main from whose entry an edge leads to each other point."""
    edges = [f"finish 0 {to}" for to in range(1, count)] + [f"return 1 {count}"]
    return [f"points {count + 1}", f"stands {count + 1}", "function 0 1", "loop 2", *edges]


def parts_of(text, count):
    """The parts of a graph with so many edges."""
    if text in ("tree", "star"):
        return (tree if text == "tree" else star)(count)
    functions = count // 20
    edges, points = main_of(functions)
    heads, stands = [f"function 0 {points - 2}"], [f"stands {points}"]
    for number in range(functions):
        base = points + 10 * number
        more, standing = function_of(number, base)
        edges += more
        stands += standing
        heads += [f"function {base} {base + 8}", "local 4", f"loop {base + 1}"]
    if text == "backwards":
        edges.reverse()
    elif text == "mixed":
        random.Random(1).shuffle(edges)
    return [f"points {points + 10 * functions}", *heads, *stands, *edges]


def flow(measure, folder, sizes):
    """Prints, for each text, what it takes to read an edge, to judge the form and to count the walks."""
    for text in TEXTS:
        first = None
        for count in sizes:
            row = "; ".join(parts_of(text, count))
            asked = (("head 1", ("head", "no head")), ("form", ("well formed",)), ("walks", ("more", str(count), str(count + 1))))
            read, form, walks = (cost(measure, folder, f"{kind} {row}", wanted.__contains__) / count for kind, wanted in asked)
            costs = read, form - read, walks - read
            first = first or costs
            ratios = ", ".join(f"{what} {one / other:.2f}" for what, one, other in zip(("read", "judged", "counted"), costs, first))
            print(f"{text}, {count:,} edges, per edge against {sizes[0]:,}: {ratios}", flush=True)


def target_of(key, objects):
    """The object to which the value with a key leads, and the name of such an address: of a segment it is that of its first node."""
    object = key * 7919 % objects
    return ("first" if object % 3 == 2 else "address"), object


def graph_row(kind, objects):
    """The row of a graph with so many objects, of which each third one is a segment. Object k has the values 4 k to 4 k + 3."""
    words = [kind]
    for key in range(objects):
        value = 4 * key
        words.append(f"object={key}:24:{('static', 'heap')[key % 3 != 1]}:live")
        if key % 3 == 2:
            words.append(f"singly=0:0:0:0:1:{value}:{value + 3} class=24:2 edge=8:8:{value + 1} edge=16:8:{value + 2}")
        else:
            words.append(f"class=24:2 edge=0:8:{value} edge=8:8:{value + 1} edge=16:8:{value + 2}")
    for key in range(4 * objects):
        name, object = target_of(key, objects)
        last = f"const={key}:0:8" if key // 4 % 3 == 2 else f"number={key}:8"
        words.append(last if key % 4 == 3 else f"{name}={key}:{object}:0")
    words.extend(f"variable={key}:{key}" for key in range(1, objects, 3))
    words.extend(f"register={3 * key}:{4 * key}" for key in range(objects // 3))
    words.extend(f"port={key * 31 % (4 * objects)}" for key in range(objects // 3))
    words.extend(f"unequal={12 * key + 3}:{12 * key + 7}" for key in range(objects // 3))
    return " ".join(words)


def one_object_row(kind, edges):
    """The row of a graph with one object, and so many edges."""
    words = [kind, f"object=0:{8 * edges}:heap:live class={8 * edges}:2"]
    words.extend(f"edge={8 * at}:8:{at * 7 % edges}" for at in range(edges))
    words.extend(f"address={key}:0:0" for key in range(edges))
    return " ".join(words)


def in_dicts(text):
    """What python3 does with a row: dicts of its objects and values, a look-up of each key that is named, and a copy."""
    objects, values, asked = {}, {}, []
    for word in text.split()[1:]:
        name, fields = word.split("=")
        fields = fields.split(":")
        if name == "object":
            last = objects[int(fields[0])] = [fields[1:]]
        elif name in ("class", "edge", "singly"):
            last.append(fields)
            if name == "edge":
                asked.append((values, int(fields[2])))
            elif name == "singly":
                asked.extend(((values, int(fields[5])), (values, int(fields[6]))))
        elif name in ("address", "first", "number", "const"):
            values[int(fields[0])] = fields[1:]
            if name in ("address", "first"):
                asked.append((objects, int(fields[1])))
        elif name == "variable":
            asked.append((objects, int(fields[1])))
        else:
            asked.append((values, int(fields[-1])))
    found = [table[key] for table, key in asked]
    copy = {key: list(items) for key, items in objects.items()}, dict(values)
    return len(found), len(copy[0]), len(copy[1])


def by_python(text):
    """The least processor time of python3 over a row."""
    times = []
    for _ in range(RUNS):
        began = time.process_time()
        in_dicts(text)
        times.append(time.process_time() - began)
    return min(times)


def graph(folder):
    """Prints what graphs of some sizes take, and python3."""
    idle = cost(seconds, folder, "counted", is_graph)
    rows = {"objects": (graph_row, (1_000, 2_500, 5_000, 10_000)), "edges of one object": (one_object_row, (1_024, 2_048, 4_096, 8_192))}
    for what, (row, sizes) in rows.items():
        first = None
        for count in sizes:
            kept, counted, taken = (cost(seconds, folder, row(kind, count), is_graph) for kind in ("kept", "counted", "taken"))
            # the keys of these parts do not ascend, and so they are only read
            read = cost(seconds, folder, row("kept", count) + " object=0:0:heap:live", "keys do not ascend".__eq__)
            each = [1e6 * took / count for took in (read - idle, kept - read, counted - kept, taken - kept)]
            first = first or each
            shown = ", ".join(
                f"{name} {one:.2f} us ({one / other:.2f})"
                for name, one, other in zip(("read", "built", "copied and its parts made", "copied and taken apart"), each, first)
            )
            print(f"{count:6,} {what}: {shown}; {(counted - idle) / by_python(row('counted', count)):.2f} times python3", flush=True)


def is_graph(answer):
    return answer.startswith("graph")


# of each part, the crate whose program it gives rows
PARTS = {"expressions": "expression_rows", "blocks": "expression_rows", "flow": "flow_rows", "graph": "graph_rows"}


def measured(part, measure, share, folder):
    """Prints what a part takes."""
    if part == "graph":
        graph(folder)
    elif part == "flow":
        flow(measure, folder, [size // share for size in LARGE])
    else:
        kinds, sizes = (EXPRESSIONS, LARGE) if part == "expressions" else (BLOCKS, MIDDLE)
        expressions(measure, folder, [size // share for size in sizes], kinds)


def main():
    words = [word for word in sys.argv[1:] if word != "--instructions"]
    if set(words) - set(PARTS):
        sys.exit(__doc__)
    measure, share = (instructions, 10) if "--instructions" in sys.argv else (seconds, 1)
    for part in words or PARTS:
        crate = PARTS[part]
        subprocess.run(["rt", "run"], cwd=CRATES / crate, stdin=subprocess.DEVNULL, stdout=subprocess.DEVNULL, check=True)
        with tempfile.TemporaryDirectory() as room:
            folder = Path(room, crate)
            folder.mkdir()
            measured(part, measure, share, folder)
    return 0


if __name__ == "__main__":
    sys.exit(print(__doc__) if "--help" in sys.argv else main())
