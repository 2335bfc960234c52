#!/usr/bin/env python3
"""Says on which definitions each claim of the repository rests, with their lines, and lays out the lists of docs/audit.md.

Usage: tools/audit.py [--write | --check] [CRATE ..]
       tools/audit.py --answer NAME
A claim is what the contracts of a crate's public calls say, or those of its laws, which are public functions that do nothing, or of the laws
that are rows worked out by hand; the first one is that of the top call, `predator` of `verdicts`. It rests on each definition that its clauses name, on those that these name, and so
on, and on the types of Rust among them, as contracts see them (tools/definitions.py). Without an option the lists are printed, of the
crates that are named or, with no name, of the top call; with --write they are laid out in docs/audit.md; with --check nothing is written,
and the status is 1 where that page is out of date.

With --answer what one answer means is counted alone: the law `NAME_means` of the crate `claims`, as `safe`. A law there goes from a clause of the call that gives the answer to what the answer
means, and is proved; so who trusts the answer reads what stands in its conclusion, which is what `claims` itself defines, and compares its premise with the clause, word for word.
"""
import re
import sys
from fnmatch import fnmatch

from definitions import HOME, Sources, SpecSource, closure

PAGE = HOME / "docs" / "audit.md"
BEGIN, END = "<!-- audit.py: begin -->\n", "<!-- audit.py: end -->\n"
TOP_CRATE, TOP_FILE, TOP = "verdicts", "top.rt", "predator"
# What answers mean: the crate of these laws, and by each file of them the call that gives the answers.
MEANINGS, CALLS = "claims", {"judging": ("verdicts", "predator"), "replaying": ("replay", "replay")}
NO_CLAIMS = ("*_rows", "*_tests", "predator")
# Laws that are rows worked out by hand: their files of code, and their names.
WORKED = ("*/rows", "*/tables", "flow/laws"), ("*rows_hold", "*examples*", "edges_of_*")
# Files of texts or trees with what was worked out by hand, and the words in which these are written.
TABLES = ("*/Examples*", "*/Sample*", "*/Edges", "*/*Rows", "*/RowWords", "*/Script", "*/TextItems")
# Files that say how code finds or keeps something, or what the numbers mean that it keeps.
MODELS = ("*/Kept*", "*/SymbolRows", "*/CodeTables", "cbuild/*", "cconstructs/*Finding", "ccheck/Steps", "cevents/*", "cgrammar/Closers",
          "cgrammar/ConstantParts", "cgrammar/FrontReadings", "cgrammar/Outcomes", "cgrammar/Read[A-Z]*", "cgrammar/Reader", "cgrammar/TokenReadings",
          "choices/Reading", "choices/Run", "cparser/*", "cread/ReadItem", "ctokens/Entry", "ctokens/ItemEnds",
          "ctokens/Lengths", "ctokens/MarkerAt", "ctokens/NeedSearch", "ctokens/PieceAt", "expressions/*",
          "flow/Counting", "flow/Deciding", "flow/Marked",
          "flow/Owning", "graph/Slots", "items/[A-Z]*", "items/declarations/*", "items/initialisers/*", "items/languages/AtTypes", "items/languages/Begins",
          "items/languages/LeadsBack", "items/parameters/*", "items/statements/*", "planes/Runs", "typing/constants/Deciding", "typing/ctypes/*")
# Files with such names that are definitions.
DEFINITIONS = ("ctokens/ItemRows", "definitions/Rows")
# Folders of crates that say something of their own: they are listed as crates are, in front of the crate.
PARTS = {"typing": ("ctypes", "constants", "values", "environment"), "items": ("languages",)}
# What the crates under the top call decide together, in the order in which docs/audit.md reads them.
GROUPS = (
    (("verdicts", "judgement", "report", "command_line", "outside"), "which answer is true of a file, what is found of its program, what is printed of it, which words ask for one, what is known of files and sinks"),
    (("bytes_core", "choices", "c_machine", "c_text"), "what a run does: memory, faults, choices, and the steps of a program of C"),
    (("flow", "simulation", "lowering"), "which flow graph a program has, and the runs of it"),
    (("planes", "graph", "changes", "reinterpret", "heap_steps", "range_steps", "block_steps", "register_steps", "edge_steps", "transfer", "tidying", "cover", "trail", "driver"),
     "what a graph stands for, what a step makes of it, which graph covers another one, and what a trail and a verdict on a flow graph are"),
    (("ctokens",), "which tokens a text has, where each stands, which items they make and which of these main needs"),
    (("cgrammar", "cread", "cconstructs", "ctrees"), "which tree a row of tokens is, how deep it may be, and which forms are given up by name"),
    (("cbase", "arithmetic", "typing/constants", "typing/values", "typing/ctypes"), "what types C has and how they are laid, what constants and operators give, and what is broken at an operator"),
    (("typing/environment", "items/languages", "definitions"), "what is declared at each place of a text, and which names the whole text defines"),
    (("typing", "ccheck"), "which expressions, statements, declarations and items pass, what is refused first in one that does not, and in which order items are read and checked"),
)


def unit(path):
    """The crate of a file, or the folder of it in `PARTS`."""
    _, crate, _, *inner = path.split("/")
    folder = inner[0].partition(".")[0]
    return f"{crate}/{folder}" if folder in PARTS.get(crate, ()) else crate


def units(sources):
    """The crates, lowest first, each behind the folders of it in `PARTS`."""
    return [one for crate in sources.crates for one in (*(f"{crate}/{part}" for part in PARTS.get(crate, ())), crate)]


class Claim:
    """What some public functions of a crate promise: their names, and the definitions and types on which that rests."""

    def __init__(self, crate, words, functions):
        self.crate, self.words, self.names = crate, words, [name for _, name, _ in functions]
        named = set()
        for source, _, head in functions:
            named |= source.named_in_function(head)
        self.take(named)

    def take(self, named):
        """Takes all on which these rest."""
        found, self.kit = closure(named)
        self.definitions = {one for one in found if isinstance(one.source, SpecSource)}
        self.types = found - self.definitions
        self.paths = {one.source.path for one in self.definitions}

    def of_file(self, path):
        """The definitions, or the types, of a file."""
        return sorted((one for one in self.definitions | self.types if one.source.path == path), key=lambda one: one.first)

    def lines(self, path):
        return sum(one.lines for one in self.of_file(path))

    def all_lines(self):
        return sum(one.lines for one in self.definitions)

    def ordered(self, crate):
        """The files of a crate's definitions, each behind those on which it rests, and else by name."""
        paths = sorted(path for path in self.paths if unit(path) == crate)
        order = []

        def add(path):
            if path in waiting:
                waiting.discard(path)
                below = {one.source.path for mine in self.of_file(path) for one in mine.named if not isinstance(one, tuple)}
                for other in sorted(below & set(paths)):
                    add(other)
                order.append(path)

        waiting = set(paths)
        for path in paths:
            add(path)
        return order


def short(path):
    """The name of a file of definitions, as `Scope` or `formers/list/List`, behind that of its crate."""
    parts = path.split("/")
    return f"{parts[1]}/{'/'.join(parts[3:]).rpartition('.')[0]}"


def is_like(path, patterns):
    return any(fnmatch(short(path), pattern) for pattern in patterns)


def mark(path):
    """What a file has, where it has no definitions of what the claim is about."""
    if is_like(path, DEFINITIONS):
        return ""
    return "model" if is_like(path, MODELS) else "rows" if is_like(path, TABLES) else ""


def library(crate):
    """The text of a crate's root, or of that of a folder in it, where it is a library."""
    crate, _, part = crate.partition("/")
    file = HOME / "crates" / crate / "src" / f"{part or 'lib'}.rt"
    return file.read_text() if file.is_file() else ""


def functions_of(sources, crate):
    """The calls that a library hands out, the methods of its types among them, its laws, and its rows worked out by hand."""
    root = library(crate)
    exported = set(re.findall(r"\w+", " ".join(re.findall(r"^pub use ([^;]*);", root, re.MULTILINE))))
    calls, laws, rows = [], [], []
    for source in sources.code(crate.partition("/")[0]):
        if unit(source.path) != crate:
            continue
        is_open = f"pub mod {source.path.rpartition('/')[2][:-3]};" in root
        for name, head, is_law in source.functions():
            if is_law:
                is_row = is_like(source.path, WORKED[0]) or any(fnmatch(name, pattern) for pattern in WORKED[1])
                (rows if is_row else laws).append((source, name, head))
            elif is_open or name.partition("::")[0] in exported:
                calls.append((source, name, head))
    return calls, laws, rows


def top_claim(sources):
    """What the top call promises."""
    source = sources.file(f"crates/{TOP_CRATE}/src/{TOP_FILE}")
    return Claim(TOP_CRATE, "the top call", [(source, name, head) for name, head, _ in source.functions() if name == TOP])


def claims_of(sources, crate):
    """What a crate's calls, its laws and its rows promise."""
    if any(fnmatch(crate.partition("/")[0], pattern) for pattern in NO_CLAIMS) or not library(crate):
        return []
    return [Claim(crate, words, functions) for words, functions in zip(("calls", "laws", "rows"), functions_of(sources, crate)) if functions]


def count(number, word):
    return f"{number:,} {word}{'' if number == 1 else 's'}"


def sizes(sources, claim):
    """How much there is to read for a claim."""
    whole = sum(sources.file(path).length for path in claim.paths)
    return (f"{count(len(claim.definitions), 'definition')} of {count(claim.all_lines(), 'line')} in {count(len(claim.paths), 'file')} of {whole:,}; "
            f"{count(len(claim.types), 'type')} of {count(sum(one.lines for one in claim.types), 'line')}; {count(len(claim.kit), 'name')} of the kit's")


def types_of(claim, crate):
    """The types of a crate on which a claim rests, file by file."""
    found = []
    for path in sorted({one.source.path for one in claim.types if unit(one.source.path) == crate}):
        names = ", ".join(f"`{one.name}`" for one in claim.of_file(path))
        found.append(f"`{path.split('/', 2)[2]}` {claim.lines(path)} ({names})")
    return found


def cell(text):
    return text.replace("|", "\\|")


def crate_list(sources, claim, crate):
    """The files of a crate on which a claim rests, in the order to read them, and its types."""
    paths, types = claim.ordered(crate), types_of(claim, crate)
    if not paths and not types:
        return ""
    text = f"**`{crate}`**\n\n"
    if paths:
        text += "| file of `specs/` | lines | of | what it says |\n|---|---|---|---|\n"
        for path in paths:
            source, kind = sources.file(path), mark(path)
            words = f"*{kind}*: {source.head}" if kind else source.head
            text += f"| `{short(path).removeprefix(crate + '/')}.antt` | {claim.lines(path)} | {source.length} | {cell(words)} |\n"
        text += "\n"
    return text + (f"Types: {', '.join(types)}.\n\n" if types else "")


def group_list(claim):
    """How much there is to read in each group of crates, and what it decides."""
    text = "| crates | lines of definitions | lines of types | what they decide |\n|---|---|---|---|\n"
    for crates, decided in GROUPS:
        lines = [sum(one.lines for one in found if unit(one.source.path) in crates) for found in (claim.definitions, claim.types)]
        text += f"| {', '.join(f'`{crate}`' for crate in crates)} | {lines[0]:,} | {lines[1]:,} | {decided} |\n"
    left = {unit(one.source.path) for one in claim.definitions | claim.types} - {crate for crates, _ in GROUPS for crate in crates}
    return text + (f"| {', '.join(f'`{crate}`' for crate in sorted(left))} | | | in no group yet |\n" if left else "")


def claim_row(sources, claim):
    """A claim with its functions and how much there is to read for it."""
    names = ", ".join(f"`{name}`" for name in claim.names)
    lines, types = claim.all_lines(), sum(one.lines for one in claim.types)
    return f"| `{claim.crate}` | {claim.words} | {cell(names) if claim.words == 'laws' or len(claim.names) < 8 else f'{len(claim.names)} of them'} | {lines:,} | {types:,} |\n"


def rest_list(sources, claims):
    """The files of definitions on which no claim rests."""
    reached = {path for claim in claims for path in claim.paths}
    text = "\n## Files of `specs/` on which no claim rests\n\nContracts of private functions and proofs use them, or tests.\n\n"
    for crate in units(sources):
        files = sorted(str(path.relative_to(HOME)) for path in (HOME / "crates" / crate.partition("/")[0] / "specs").glob("**/*.antt"))
        left = [short(path).removeprefix(crate + "/") for path in files if unit(path) == crate and path not in reached and sources.file(path).definitions]
        if left:
            text += f"- `{crate}`: {', '.join(f'`{name}`' for name in left)}\n"
    return text + "\n"


def page(sources):
    """The tables of docs/audit.md."""
    top = top_claim(sources)
    text = f"{sizes(sources, top)}.\n\n{group_list(top)}\n"
    text += "## What each answer rests on\n\nA law of `claims` says of each answer what it means, with no more definitions than it needs, from a clause of the call that gives it.\n\n| answer | its law | of the call | lines of definitions and types |\n|---|---|---|---|\n"
    text += "".join(f"| `tools/audit.py --answer {name}` | `{meaning.words}` | `{'::'.join(meaning.call)}` | {meaning.all_lines():,} |\n" for name, meaning in meanings(sources).items())
    text += "\n## What each further claim rests on\n\nThe lists are printed by `tools/audit.py CRATE`.\n\n| crate | what | names | lines of definitions | of types |\n|---|---|---|---|---|\n"
    claims = [claim for crate in reversed(units(sources)) for claim in claims_of(sources, crate)]
    text += "".join(claim_row(sources, claim) for claim in claims if claim.names != top.names)
    return text + rest_list(sources, claims)


class Meaning(Claim):
    """What an answer means: the conclusion of its law, which is what the law names of its own crate's definitions."""

    def __init__(self, source, name, head):
        super().__init__(MEANINGS, name, [(source, name, head)])
        named = source.named_in_function(head)
        self.take({one for one in named if not isinstance(one, tuple) and one.source.path.startswith(f"crates/{MEANINGS}/specs/")})
        self.clause = " ".join(" ".join(source.clauses(head)).split())
        self.call = CALLS[source.path.rpartition("/")[2].removesuffix(".rt")]
        before = source.text[:source.text.index(f"pub fn {name}(")]
        comment = " ".join(line.strip(" /") for line in before.rpartition("\n\n")[2].splitlines() if line.startswith("///"))
        self.says, _, premises = comment.partition(" Premise")
        self.premises = re.findall(r"`(\w+)`", premises) or ["judged"]

    def all_lines(self):
        """How many lines of definitions and of types there are."""
        return sum(one.lines for one in self.definitions | self.types)


def meanings(sources):
    """What each answer means, by its name."""
    laws = [(source, name, head) for source in sources.code(MEANINGS) for name, head, is_law in source.functions() if is_law and name.endswith("_means")]
    return {name.removesuffix("_means"): Meaning(source, name, head) for source, name, head in laws}


def premise(sources, call, name):
    """A clause of a call, as it is written."""
    crate, function = call
    heads = [head for source in sources.code(crate) for called, head, _ in source.functions() if called == function]
    found = re.search(rf"ensures {name} (\{{.*?\}})\s*(?:ensures|$)", "\n".join(heads), re.DOTALL)
    return " ".join(found.group(1).split()) if found else "no such clause"


def read_first(sources, claim):
    """The files of a claim, lowest crate first, those of types before those of definitions: the path, its lines, how many it has and what is to be read there."""
    for crate in units(sources):
        for path in sorted({one.source.path for one in claim.types if unit(one.source.path) == crate}) + claim.ordered(crate):
            source = sources.file(path)
            names = ", ".join(f"`{one.name}`" for one in claim.of_file(path))
            yield path, claim.lines(path), source.text.count("\n"), names


def answer_list(sources, meaning):
    """What is to be read for an answer, in which order, and its law beside the clauses of its premises."""
    rows = list(read_first(sources, meaning))
    text = f"{meaning.says}\n\nTo trust this answer read these {count(meaning.all_lines(), 'line')}, in this order ({count(len(meaning.kit), 'name')} of the kit's stand in them):\n\n"
    text += "| file | lines | of | what is read there |\n|---|---|---|---|\n"
    text += "".join(f"| `{path.removeprefix('crates/')}` | {lines} | {whole} | {names} |\n" for path, lines, whole, names in rows)
    text += f"\nThe law is `{MEANINGS}::{meaning.words}`:\n\n    {meaning.clause}\n\nIts premise is, word for word, what `{'::'.join(meaning.call)}` promises:\n\n"
    return text + "".join(f"    {name} {premise(sources, meaning.call, name)}\n" for name in meaning.premises)


def answered(sources, name):
    """Prints what is to be read for the answer of that name."""
    known = meanings(sources)
    if name not in known:
        print(f"tools/audit.py: no answer of that name; there are {', '.join(sorted(known))}", file=sys.stderr)
        return 1
    print(answer_list(sources, known[name]), end="")
    return 0


def printed(sources, names):
    """The whole lists of some crates' claims, or that of the top call."""
    claims = [claim for name in names for claim in claims_of(sources, name)] if names else [top_claim(sources)]
    for claim in claims:
        print(f"# `{claim.crate}`, {claim.words}: {', '.join(claim.names)}\n\n{sizes(sources, claim)}\n")
        print("".join(crate_list(sources, claim, crate) for crate in units(sources)), end="")


def main():
    words = sys.argv[1:]
    names = [word for word in words if not word.startswith("--")]
    sources = Sources()
    if "--answer" in words:
        return answered(sources, (names or [""])[0])
    if not {"--write", "--check"} & set(words):
        printed(sources, names)
        return 0
    text = PAGE.read_text()
    before, _, rest = text.partition(BEGIN)
    new = before + BEGIN + "\n" + page(sources) + END + rest.partition(END)[2]
    if "--check" in words:
        print("docs/audit.md is not what tools/audit.py makes: run it with --write\n" if new != text else "", end="")
        return 1 if new != text else 0
    PAGE.write_text(new)
    return 0


if __name__ == "__main__":
    sys.exit(main())
