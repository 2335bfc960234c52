"""The definitions of the repository, and which of them each one names.

Usage: from definitions import Sources, closure
A definition of a file of specs/ is one of its functions, records or families; a type of a file of src/ is a struct, an enum, a trait or
a type alias, with what contracts see of it. What one of them names is read off its text: what is bound there (parameters, fields,
patterns) names nothing outside. A type that contracts see by an `impl Model` names what that says of its value, and not its fields.
"""
import re
from functools import cached_property
from pathlib import Path

from names import CLOSING, NAME, OPENING, Names, tokens_of, without_comments

HOME = Path(__file__).resolve().parent.parent
MARKS = ("pattern ", "unfoldable ", "abbrev ", "axiom ", "pub ", "data ", "record ")


class Definition:
    """A definition or a type: where it stands, how many lines it has, and its text by parts, each with a scope of its own."""

    def __init__(self, source, name, first):
        self.source, self.name, self.first = source, name, first
        self.lines, self.parts, self.constructors, self.rust = 0, [], set(), ""

    @property
    def key(self):
        return self.source.path, self.name

    @cached_property
    def named(self):
        """What it names: definitions and types, and names of the kit as pairs of a module and a name."""
        found = set()
        for part in self.parts:
            found |= self.source.named_in(part, self.name)
        if self.rust:
            found |= set(self.source.types_in(self.rust))
        return found - {self}


class Source:
    """A file: what it brings in from others, and what it defines."""

    def __init__(self, sources, path):
        self.sources, self.path = sources, path
        self.text = (HOME / path).read_text()
        self.lines = self.text.split("\n")
        self.imports, self.aliases, self.definitions, self.owners = {}, {}, {}, {}
        self.crate = path.split("/")[1]
        self.read()

    @property
    def length(self):
        return len(self.text.splitlines())

    def bring_in(self, module, names):
        """Takes the names of a `use` line: `a` or `a as b`, each for what the module calls so."""
        for name in filter(None, (part.strip() for part in names.split(","))):
            outer, _, inner = name.partition(" as ")
            outer = outer.strip().split("::")[-1].split(".")[0]
            self.imports[(inner or outer).strip().strip("«»").split("::")[-1]] = (module, outer.strip("«»"))

    def use_line(self, line):
        """Reads a `use` line of definitions, if it is one."""
        found = re.match(r"(?:ghost |pub )?use(?:_at)? ([\w.]+)\.\{(.*)\};?$", line)
        if found:
            self.bring_in(*found.groups())
            return True
        found = re.match(r"(?:ghost |pub )?use ([A-Za-z][\w.]*)(?: as (\w+))?;?$", line)
        if found and "." in found.group(1):
            self.aliases[found.group(2) or found.group(1).rpartition(".")[2]] = found.group(1)
        return bool(found)

    def resolve(self, name):
        """What a name stands for here: a definition, a pair of the kit, or nothing."""
        if name in self.owners:
            return self.owners[name]
        if name in self.imports:
            return self.sources.definition(*self.imports[name])
        return None

    def is_constructor(self, name):
        """Whether a pattern with this name means a constructor."""
        found = self.resolve(name)
        if isinstance(found, tuple):
            return found[1][:1].isupper() or found[1] in ("◌∷◌", "[]", "true", "false", "suc", "zero", "tt", "pos", "negsuc")
        if found is None:
            return name == "∷"
        module, outer = self.imports.get(name, ("", name))
        return outer in found.constructors or module.endswith((".TheVariants", ".TheOpen", ".TheViews"))

    def member(self, head, name):
        """What `head.name` stands for, where the head is that of a module."""
        module = self.aliases.get(head)
        return self.sources.definition(module, name) if module else None

    def operators(self, words):
        """The operators among imported names whose parts are used."""
        for name in self.imports:
            parts = [part for part in name.split("◌") if part]
            if "◌" in name and parts and all(part in words for part in parts):
                yield name

    def named_in(self, part, own):
        """What a part of a definition names: a signature, a clause with its patterns, or a clause of a contract."""
        tokens = tokens_of(part)
        names = Names(tokens, self.is_constructor)
        equals = self.pattern_end(tokens, own)
        if equals:
            names.pattern(1, equals)
        names.go(equals or 0)
        words = {word for word, _ in tokens}
        found = {self.resolve(name) for name in names.used | set(self.operators(words))}
        found |= {self.member(head, name) for head, name in names.members}
        return found - {None}

    @staticmethod
    def pattern_end(tokens, own):
        """Where the `=` of a clause of a function stands, if the part is one."""
        if not tokens or tokens[0][0] != own:
            return None
        depth = 0
        for at, (word, _) in enumerate(tokens):
            depth += (word in OPENING) - (word in CLOSING)
            if depth == 0 and word == ":":
                return None
            if depth == 0 and word == "=":
                return at
        return None


class SpecSource(Source):
    """A file of specs/."""

    @cached_property
    def head(self):
        """The first sentence of the comment at the file's head."""
        words = []
        for line in self.lines:
            if not line.startswith("--") or line == "--":
                break
            words.append(line[2:].strip())
        return re.sub(r":$", ".", re.split(r"(?<=[.:])\s+(?=[A-Z`])", " ".join(words))[0])

    def read(self):
        comment, current = 0, None
        for number, line in self.without_uses():
            if line.startswith("--"):
                comment += 1
                continue
            if line and line[0] != " ":
                current = self.begin(line, number, comment, current)
            elif line and current:
                current.lines += 1
                current.parts[-1] += "\n" + without_comments(line)
            comment = comment if line[:1] == " " else 0
        for definition in self.definitions.values():
            self.register(definition)

    def without_uses(self):
        """The lines with their numbers, but for `use` lines, which are taken in. What stands in a section, or in a group of definitions that name one
        another, is moved to the margin."""
        joined, margin, is_group = "", "", False
        for number, line in enumerate(self.lines, 1):
            if is_group and line and line[0] not in " -":
                margin, is_group = "", False
            if line.startswith("module _"):
                margin = "  "
            elif line == "mutual":
                margin, is_group = "  ", True
            elif joined or line.startswith(("use ", "use_at ", "pub use ")):
                joined = f"{joined} {line.strip()}".strip()
                if joined.count("{") == joined.count("}"):
                    self.use_line(joined)
                    joined = ""
            else:
                yield number, line.removeprefix(margin).rstrip()

    def begin(self, line, number, comment, current):
        """The definition to which a line at the margin belongs: a new one, or a clause of one."""
        rest = line
        while mark := next((mark for mark in MARKS if rest.startswith(mark)), None):
            rest = rest[len(mark):]
        if line.startswith(("mod ", "pub mod ", "infix", "unfolding ", "package ")):
            return None
        words = tokens_of(without_comments(rest))
        name = words[0][0]
        is_new = rest != line or (len(words) > 1 and (words[1][0] == ":" or name not in self.definitions))
        if is_new and name not in self.definitions and name not in CLOSING:
            current = self.definitions[name] = Definition(self, name, number - comment)
        else:
            current = self.definitions.get(name, current)
        current.lines += 1 + comment
        current.parts.append(without_comments(rest))
        return current

    def register(self, definition):
        """Makes the definition known under its name and under those of its constructors."""
        self.owners[definition.name] = definition
        text = "\n".join(definition.parts)
        for found in re.finditer(rf"^  ({NAME}) :", text, re.MULTILINE):
            if found.group(1) != "pub":
                definition.constructors.add(found.group(1))
                self.owners.setdefault(found.group(1), definition)


class RustSource(Source):
    """A file of src/: its types, and the contracts of its functions."""

    ITEM = re.compile(r"^(?:pub(?:\(crate\))? )?(?:unsafe )?(struct|enum|trait|type) (\w+)", re.MULTILINE)

    def read(self):
        self.outer = {}
        self.masked = re.sub(r"//.*", lambda comment: " " * len(comment.group()), self.text)
        for found in re.finditer(r"^ *(?:pub )?ghost use [^;]*;", self.text, re.MULTILINE):
            self.use_line(" ".join(found.group().split()))
        for found in re.finditer(r"^ *(?:pub )?use ([\w:]+?)(?:::\{([^;]*)\})?;", self.text, re.MULTILINE):
            self.rust_use(found.group(1).split("::"), found.group(2))
        for found in self.ITEM.finditer(self.text):
            self.type_item(found)

    def rust_use(self, path, names):
        """Takes a `use` line of Rust: the crate and the modules from which each name comes."""
        modules = path[1:] if names else path[1:-1]
        for name in re.findall(r"\w+(?: as \w+)?", names or path[-1]):
            outer, _, inner = name.partition(" as ")
            self.outer[inner or outer] = (self.crate if path[0] in ("crate", "super", "self") else path[0], modules, outer)

    def extent(self, start):
        """Where the item ends that begins here: at its `;`, or behind its braces."""
        depth = 0
        for at in range(start, len(self.text)):
            sign = self.masked[at]
            if sign in "{([":
                depth += 1
            elif sign in "})]":
                depth -= 1
                if depth == 0 and sign == "}":
                    return at + 1
            elif sign == ";" and depth == 0:
                return at + 1
        return len(self.text)

    def leading(self, start):
        """Where the comments and attributes in front of an item begin."""
        lines = self.text[:start].split("\n")[:-1]
        while lines and lines[-1].lstrip().startswith(("///", "#[", "//")):
            lines.pop()
        return sum(len(line) + 1 for line in lines)

    def add_text(self, definition, start, end):
        first = self.leading(start)
        definition.lines += len([line for line in self.text[first:end].split("\n") if line.strip()])

    def type_item(self, found):
        name, start = found.group(2), found.start()
        end = self.extent(start)
        definition = self.definitions[name] = self.owners[name] = Definition(self, name, self.text.count("\n", 0, start) + 1)
        body = self.masked[start:end]
        definition.constructors = set(re.findall(r"^    (\w+)\b", body, re.MULTILINE)) if found.group(1) == "enum" else set()
        self.add_text(definition, start, end)
        model = re.search(rf"^impl(?:<[^>]*>)? Model for {name}\b", self.text, re.MULTILINE)
        if model:
            model_end = self.extent(model.start())
            self.add_text(definition, model.start(), model_end)
            definition.parts = re.findall(r"ghost (?:Value|view) = (\{.*?\});", self.text[model.start():model_end], re.DOTALL)
        else:
            definition.parts, definition.rust = self.clauses(body), body

    @staticmethod
    def clauses(text):
        """The clauses and ghost members in a text."""
        found = []
        for match in re.finditer(r"\b(?:ensures|requires)\b[^{]*\{|\bghost \w+\s*[:=]\s*\{", text):
            depth, at = 1, match.end()
            while depth and at < len(text):
                depth += (text[at] in "{") - (text[at] in "}")
                at += 1
            found.append(text[match.end() - 1:at])
        return found

    def types_in(self, text):
        """The types of the repository that a text of Rust names."""
        text = re.sub(r"\b(?:ensures|requires)\b[^{]*\{.*?\}$", "", text, flags=re.MULTILINE)
        for name in set(re.findall(r"\b[A-Z]\w*\b", text)):
            if name in self.definitions:
                yield self.definitions[name]
            elif name in self.outer:
                yield from self.sources.types_named(*self.outer[name])

    def resolve(self, name):
        found = super().resolve(name)
        if found is None and name in self.outer:
            return next(iter(self.sources.types_named(*self.outer[name])), None)
        return found

    def functions(self):
        """The public functions of the file, and the methods by which its types meet a trait: of each the name, as `Type::name` of a
        method, the head with its contract, and whether it does nothing."""
        for found in re.finditer(r"^( *)(pub )?fn (\w+)", self.masked, re.MULTILINE):
            end = self.body(found.end())
            owner, is_for_trait = self.owner(found.start()) if found.group(1) else (None, False)
            if found.group(2) or is_for_trait:
                name = f"{owner}::{found.group(3)}" if owner else found.group(3)
                yield name, self.masked[found.start():end], self.masked[end:].startswith("{}")

    def owner(self, start):
        """The type of the `impl` around a method, and whether it is one of a trait."""
        found = re.findall(r"^impl\b(.*?)(\w+)(?:<[^<>]*>)? \{$", self.masked[:start], re.MULTILINE)
        return (found[-1][1], found[-1][0].endswith(" for ")) if found else (None, False)

    def body(self, at):
        """Where the body begins of the function whose name ends here."""
        depth, is_clause = 0, False
        while at < len(self.text):
            word = re.compile(r"ensures|requires").match(self.masked, at)
            if word and depth == 0:
                is_clause, at = True, word.end()
                continue
            sign = self.masked[at]
            if sign == "{" and depth == 0 and not is_clause:
                return at
            depth += (sign in "{([") - (sign in "})]")
            if sign == "}" and depth == 0:
                is_clause = False
            at += 1
        return at

    def named_in_function(self, head):
        """What the contract and the signature of a function name."""
        found = set()
        for clause in self.clauses(head):
            found |= self.named_in(clause, "")
        return found | set(self.types_in(head))


class Sources:
    """All files of definitions and of code, by their paths."""

    def __init__(self):
        lines = (HOME / "crates.txt").read_text().splitlines()
        self.crates = [line.partition(":")[0].split()[0] for line in lines if ":" in line and not line.startswith("#")]
        self.files, self.indexes = {}, {}

    def file(self, path):
        if path not in self.files and (HOME / path).is_file():
            self.files[path] = (SpecSource if path.endswith(".antt") else RustSource)(self, path)
        return self.files.get(path)

    def code(self, crate):
        """The files of a crate's code."""
        folder = HOME / "crates" / crate / "src"
        return [self.file(str(path.relative_to(HOME))) for path in sorted(folder.glob("**/*.rt"))]

    def index(self, crate):
        """The types of a crate by their names."""
        if crate not in self.indexes:
            self.indexes[crate] = {}
            for source in self.code(crate):
                for name, definition in source.definitions.items():
                    self.indexes[crate].setdefault(name, []).append(definition)
        return self.indexes[crate]

    def types_named(self, crate, modules, name):
        """The types that a `use` line of Rust may mean."""
        if crate not in self.crates:
            return []
        found = self.index(crate).get(name, [])
        exact = [one for one in found if modules and one.source.path.endswith(f"src/{'/'.join(modules)}.rt")]
        inside = [one for one in found if modules and f"/src/{'/'.join(modules)}/" in one.source.path]
        return (exact or inside or found)[:1]

    def definition(self, module, name):
        """What a module of definitions calls by this name: a definition, a type, or a pair of the kit."""
        parts = module.split(".")
        if parts[0] != "Rattle" or parts[1] not in self.crates:
            return module, name
        path = parts[3:]
        if path[0] in ("declared", "contracts"):
            modules = [part for part in path[1:] if part[0].islower()]
            owner = next((part for part in path[1:] if part[0].isupper()), name)
            return next(iter(self.types_named(parts[1], modules, owner)), (module, name))
        source = self.file(f"crates/{parts[1]}/specs/{'/'.join(path)}.antt")
        found = source.owners.get(name) if source else None
        if found is None and source:
            found = self.handed_on(source, name)
        if found is None:
            raise SystemExit(f"{module} has no {name}")
        return found

    def handed_on(self, source, name):
        """What a file of definitions hands on by this name, in a line `pub use`, from another one."""
        for module, names in re.findall(r"^pub use ([\w.]+)\.\{([^}]*)\}", source.text, re.MULTILINE):
            for part in names.split(","):
                outer, _, inner = part.strip().partition(" as ")
                if (inner or outer) == name:
                    return self.definition(module, outer)
        return None


def closure(first):
    """All that these rest on: definitions and types, and names of the kit."""
    found, waiting, kit = set(), [one for one in first if isinstance(one, Definition)], {one for one in first if isinstance(one, tuple)}
    while waiting:
        one = waiting.pop()
        if one in found:
            continue
        found.add(one)
        for other in one.named:
            if isinstance(other, tuple):
                kit.add(other)
            else:
                waiting.append(other)
    return found, kit
