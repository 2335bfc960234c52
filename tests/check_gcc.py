#!/usr/bin/env python3
"""Asks gcc of random small programs whether they are C, and compares with whether `./predator` passes them.

Usage, at the project's root: python3 tests/check_gcc.py [COUNT [SEED]]
A program has declarations of objects, functions, types, tags and constants, one a line, functions with their bodies, and a main that needs all of
them. Names are few, so scopes hide and repeat them. In three of five programs one mistake is made: a token or a line left out, put in, moved or
exchanged. gcc takes a text where it has no error, with those warnings as errors that C11 calls constraints; `./predator` takes it where it answers `not yet`
or a verdict. Where both refuse it, gcc has an error in the line that `./predator` names, too. What is given up, and what is refused as syntax, is counted and not
compared. For each third seed there is another program besides, in which main uses a name that an item defines whose first word it is: gcc, asked for the
C of 1989, defines it, and `./predator` has to refuse that item as syntax. A difference is cut down, line by line and token by token, as long as it stays the same, and printed; those that the documents name are listed in
`LET` and `ASKED` below, and counted alone. The status is 1 where there is another one. The environment variable PREDATOR may name another program.
"""
import os
import random
import re
import subprocess
import sys
import tempfile
from collections import Counter
from pathlib import Path

HOME = Path(__file__).resolve().parent
PROGRAM = Path(os.environ.get("PREDATOR", HOME.parent / "predator"))
GCC = ["-quiet", "-std=gnu11", "-fsyntax-only", "-fwrapv", "-fno-builtin", "-pedantic-errors", "-Wno-overflow", "-Wno-incompatible-pointer-types",
       "-Wno-pointer-sign", "-Wno-unused", "-Werror=int-conversion", "-Werror=implicit-function-declaration", "-Werror=implicit-int",
       "-Werror=pointer-arith", "-Werror=missing-braces", "-o", os.devnull]
# functions that are built in, as gcc is told of them where the text has no body of theirs
BUILT_IN = {"free": "void free(void *);", "malloc": "void *malloc(unsigned long);", "__VERIFIER_nondet_int": "int __VERIFIER_nondet_int(void);"}
NAMES = ("a", "b", "c", "d", "e", "f", "g", "h", "T", "U", "s", "t", "N")
# what a mistake puts in, and what it puts in the place of a word
INSERTED = ("*", "&", "static", "extern", "typedef", "0", "-1", "int", "a", "()", "[]", "[0]", "[2]", "{}", ",", "1,", "void", ".a", "->a", "(void)", "!", "sizeof")
TAGS = ("s", "t", "u", "T")
MEMBERS = ("a", "b", "c", "next", "T")
# one spelling of those that are one type here and two in C: `char` and `signed char`, `long` and `long long`
WHOLE = ("int", "int", "int", "char", "unsigned char", "short", "unsigned short", "unsigned", "unsigned int", "long", "unsigned long", "_Bool", "long unsigned int",
         "int long", "signed", "short int signed")
TYPES = WHOLE + ("void", "struct s", "struct t", "void *", "int *", "0", "2147483648", "-1")
OPERATORS = ("+", "-", "*", "/", "%", "&", "|", "^", "<<", ">>", "<", ">", "<=", ">=", "==", "!=", "&&", "||", ",")
UPDATES = ("=", "=", "=", "+=", "-=", "*=", "&=", "|=", "<<=", "%=")
# stands in main for a mention of all names of the text, so that main needs each item
NEEDED = "NEEDED;"
KEYWORDS = set("int char short long signed unsigned void _Bool struct enum typedef extern static const typeof sizeof if else while do for break continue return main".split())
TOKEN = re.compile(r"\s*(->|\+\+|--|<<=|>>=|[-+*/%&|^<>=!]=|<<|>>|&&|\|\||\w+|'[^']*'|\S)")

# What gcc says of texts that pass here, and why they do: a rule that is not asked for, or another choice.
LET = {
    r"array type has incomplete element type|as array of voids|formal parameter \d+ is incomplete": "an array of incomplete items passes where no size is asked",
    r"follows non-static declaration|follows static declaration|previously declared .*redeclared": "whether linkage is internal is not asked",
    r"read-only|'const": "`const` changes nothing",
    r"useless|unnamed struct/union that defines no instances": "a declaration of nothing passes",
    r"forward references to": "an enum needs no constants",
    r"has no members": "a struct needs no members",
    r"omitting parameter names": "a parameter of a definition may lack its name",
    r"lacks a cast|pointer type mismatch": "object pointers convert to each other",
    r"loop initial declaration": "the parts of `for` may declare anything",
    r"invalid storage class for function|storage class specified for parameter": "a storage word of a parameter or of a function in a block says nothing",
    r"duplicate label": "labels leave no trace",
    r"-Wmain": "main may be static, and its parameters are not asked about",
    r"braced-group within expression allowed only inside": "a statement expression may stand outside of functions",
    r"forbids braced-groups": "a statement expression is read also without `__extension__`",
    r"extra \";\"|extra ';'": "a `;` alone is an item",
    r"empty initializer braces": "braces of a struct may be empty, as in GNU C",
}
# What is refused here of texts that gcc takes, by the rule and by a form that the text, cut down, has; and why.
ASKED = {
    ("rule 3", r"\w \[ \](?: \[ [^\]]* \])* [;,]"): "what is declared outside of functions without `extern` is complete at once",
    ("rule 3", r"\b(?:struct \w+|void) (?:[^;{}]*, )?\w+(?: \[ \w+ \])* [;,]"): "what is declared outside of functions without `extern` is complete at once",
    ("rule 3", r"(\w+) \[ \].*\1\b.*\}"): "an array whose size its initialiser tells has none in it",
    ("rule 9", r"& \( ?\( ?\*|& \( ?\*|& \*"): "`&*a` is of no form of a static initialiser",
    ("rule 9", r"\* \) 0 \)* ?[!=]=|[!=]= .*\* \) 0|! .*\* \) 0|&&|\|\|"): "a comparison of null pointers is no integer constant expression",
    ("rule 9", r"\b(\w+) [-^] \(* ?\1\b|[|] - 1|[&*] \(* ?0|\b0 [&*]|% 1"): "gcc takes `a ^ a` and `a | -1` as constants",
    ("rule 9", r"& \w+(?: \[ \w+ \])* [!=]="): "an address that is compared with null is of no form of a static initialiser",
    ("rule 9", r"\? .* :"): "`?:` on null pointers is of no form of a static initialiser",
    ("rule 2", r"\bstatic\b"): "what has linkage has one type in all scopes, also where one of two linkages is internal",
    ("rule 5", r"\{ \{"): "more than one pair of braces round a number or a pointer",
    ("rule 5", r"\{ \}"): "braces without a value, or a part too many that has none",
    ("rule 9", r"_Bool \w+ = [&(]"): "a pointer becomes no `_Bool` in a static initialiser",
    ("rule 9", r"_Bool \w+ = \w+ ;"): "a pointer becomes no `_Bool` in a static initialiser",
}
# stands among the lines of gcc's errors where one of these is let
LET_GO = "let"
MAIN = "int main ( ) { NEEDED ; }"
# main as a cut text may have it: of another type that is an int, and with empty brackets
MAIN_ITEM = re.compile(r"(?:\w+|enum \{ [^{}]* \}) main \( (?:void )?\) \{ NEEDED ; \}")
# a word by which an item offers a name
OFFERED = re.compile(rf"\b(?!(?:{'|'.join(KEYWORDS)})\b)[A-Za-z_]\w* [(\[=,;]|\b(?:struct|enum) \w+ {{|\benum {{")


class Type:
    """A type: its kind, what it leads to or is made of, its size as an array, and the struct that it is."""

    def __init__(self, kind, of=None, count=None, struct=None):
        self.kind, self.of, self.count, self.struct = kind, of, count, struct


class Struct:
    """A struct, with its members where it is complete."""

    def __init__(self):
        self.members = None


class Entity:
    """What a name stands for: an object, a function, a typedef or a constant, with its type or its result and parameters."""

    def __init__(self, what, ctype=None, params=(), words="", storage=""):
        self.what, self.ctype, self.params, self.words, self.storage = what, ctype, params, words, storage


class Writer:
    """Writes the lines of a random program, and keeps what is in scope."""

    def __init__(self, chance):
        self.chance = chance
        self.scopes = [{}]
        self.tags = [{}]
        self.lines = ["int z;"]
        self.scopes[0]["z"] = Entity("object", Type("int"), words="int @", storage="linked")
        self.linked = {"z"}
        self.later = []
        self.result = None
        self.loops = 0

    def one_in(self, count):
        return self.chance.randrange(count) == 0

    def pick(self, things):
        return self.chance.choice(things)

    def visible(self, what):
        seen, found = set(), []
        for scope in reversed(self.scopes):
            for name, entity in scope.items():
                if name not in seen and entity.what == what:
                    found.append((name, entity))
                seen.add(name)
        return found

    def open(self):
        self.scopes.append({})
        self.tags.append({})

    def close(self):
        self.scopes.pop()
        self.tags.pop()

    def tag(self, name):
        for scope in reversed(self.tags):
            if name in scope:
                return scope[name]
        return None

    # words of types

    def members(self, depth):
        names = self.chance.sample(MEMBERS, self.chance.randrange(1, 4))
        lines, found = [], []
        for name in names:
            words, ctype = self.words(depth + 2, complete=True)
            text, ctype = self.declarator(name, ctype, member=True)
            lines.append(f"{words} {text};")
            found.append((name, ctype))
        return " ".join(lines), found

    def struct_words(self, depth, complete):
        visible = [(name, one) for scope in self.tags for name, one in scope.items() if isinstance(one, Struct) and self.tag(name) is one]
        whole = [pair for pair in visible if pair[1].members is not None]
        if depth < 3 and self.one_in(3) or complete and not whole:
            here = self.tags[-1]
            names = [name for name in TAGS if name not in here or isinstance(here[name], Struct) and here[name].members is None] + [""]
            name = self.pick(names) if not self.one_in(50) else self.pick(TAGS)
            struct = here.setdefault(name, Struct()) if name else Struct()
            if not isinstance(struct, Struct) or struct.members is not None:
                struct = Struct()
            text, members = self.members(depth)
            struct.members = members
            return f"struct {name} {{ {text} }}", Type("struct", struct=struct)
        chosen = whole if complete or whole and not self.one_in(4) else visible
        if chosen:
            name, struct = self.pick(chosen)
            return f"struct {name}", Type("struct", struct=struct)
        name = self.pick(TAGS)
        struct = self.tags[-1].setdefault(name, Struct())
        return f"struct {name}", Type("struct", struct=struct if isinstance(struct, Struct) else Struct())

    def enum_words(self):
        visible = [name for scope in self.tags for name, one in scope.items() if one == "enum" and self.tag(name) == "enum"]
        if visible and self.one_in(2):
            return f"enum {self.pick(visible)}", Type("int")
        name = self.pick(TAGS + ("",))
        if name in self.tags[-1]:
            name = ""
        if name:
            self.tags[-1][name] = "enum"
        parts = []
        for constant in self.chance.sample(NAMES, self.chance.randrange(1, 3)):
            if constant in self.scopes[-1] and not self.one_in(8):
                continue
            parts.append(constant + (f" = {self.constant(2)}" if self.one_in(2) else ""))
            self.scopes[-1][constant] = Entity("constant", Type("int"))
        return f"enum {name} {{ {', '.join(parts) or 'K' + str(self.chance.randrange(1000))} }}", Type("int")

    def words(self, depth=0, complete=False, plain=False):
        at = self.chance.randrange(20)
        if at < 4:
            return self.struct_words(depth, complete)
        if at < 6 and not plain:
            return self.enum_words()
        if at < 9:
            typedefs = self.visible("typedef")
            if typedefs:
                name, entity = self.pick(typedefs)
                return name, entity.ctype
        if at == 9 and depth < 3:
            return self.typeof()
        return self.pick(WHOLE), Type("int")

    def typeof(self):
        objects = self.visible("object")
        if objects and not self.one_in(4):
            text, ctype = self.place(2)
            return f"typeof({text})", ctype
        words, ctype = self.words(3, plain=True)
        return f"typeof({words} *)", Type("pointer", ctype)

    def size(self):
        constants = self.visible("constant")
        if self.one_in(20):
            asked = self.pick((f"sizeof({self.place(2)[0]})", f"sizeof({self.whole(1)})", f"sizeof({self.type_name()})", self.constant(3)))
            return f"{asked} {self.pick(('<', '==', '!=', '>='))} {self.pick((1, 2, 4, 8))} ? 1 : {self.pick((-1, 2))}"
        return self.constant(1) if self.one_in(25) else self.pick(("1", "2", "3", "4", "sizeof(int)", "1 + 1", f"({self.pick(constants)[0]} & 1) + 1" if constants else "2"))

    def declarator(self, name, ctype, member=False, sized=True):
        stars = self.pick((0, 0, 0, 1, 1, 2))
        if ctype.kind == "array":
            stars = 0
        if ctype.kind == "void" or ctype.kind == "struct" and ctype.struct.members is None and not self.one_in(25):
            stars = max(stars, 1)
        for _ in range(stars):
            ctype = Type("pointer", ctype)
        whole = ctype.kind != "array" or ctype.count != ""
        sizes = [self.size() for _ in range(self.pick((0, 0, 0, 0, 1, 1, 2)) if whole else 0)]
        if sizes and not sized and self.one_in(2):
            sizes[0] = ""
        for size in reversed(sizes):
            ctype = Type("array", ctype, size)
        return "*" * stars + name + "".join(f"[{size}]" for size in sizes), ctype

    # expressions

    def constant(self, depth):
        constants = self.visible("constant")
        at = self.chance.randrange(10)
        if depth == 0 or at < 4:
            if constants and self.one_in(2):
                return self.pick(constants)[0]
            return self.pick(("0", "1", "2", "3", "7", "'a'", "1u", "-1", "sizeof(int)", "4l") + (("2147483647",) if self.one_in(20) else ()))
        if at < 7:
            return f"({self.constant(depth - 1)} {self.pick(('+', '-', '*', '&', '<', '==', '&&', '||'))} {self.constant(depth - 1)})"
        if at == 7:
            return f"({self.constant(depth - 1)} ? {self.constant(depth - 1)} : {self.constant(depth - 1)})"
        if at == 8:
            return f"(int){self.constant(depth - 1)}"
        return f"sizeof({self.type_name()})"

    def type_name(self):
        words, ctype = self.words(3, complete=True, plain=True)
        return words + self.pick(("", "", " *", " *"))

    def place(self, depth):
        """An lvalue, and its type."""
        text, entity = self.pick(self.visible("object") or [("0", Entity("object", Type("int")))])
        if entity.what == "object" and self.one_in(150):
            text = self.pick(NAMES)
        ctype = entity.ctype
        for _ in range(depth):
            if ctype.kind == "pointer" and ctype.of.kind == "struct" and ctype.of.struct.members:
                name, ctype = self.pick(ctype.of.struct.members)
                text = f"{text}->{name}"
            elif ctype.kind == "struct" and ctype.struct.members:
                name, ctype = self.pick(ctype.struct.members)
                text = f"{text}.{name}"
            elif ctype.kind == "array" or ctype.kind == "pointer" and ctype.of.kind != "void":
                text, ctype = (f"{text}[{self.pick(('0', '1', '2', '1u'))}]" if self.one_in(2) or text[0] == "*" else f"(*{text})"), ctype.of
            elif self.one_in(2):
                break
        return text, ctype

    def fixed_place(self):
        """An lvalue whose address is constant."""
        objects = [pair for pair in self.visible("object") if pair[1].storage in ("static", "linked") and pair[1].ctype.kind != "array" or pair[1].ctype.count != ""]
        objects = [pair for pair in objects if pair[1].storage in ("static", "linked")]
        if not objects:
            return "0"
        text, entity = self.pick(objects)
        ctype = entity.ctype
        while ctype.kind in ("array", "struct") and not self.one_in(5):
            if ctype.kind == "array":
                text, ctype = f"{text}[{self.pick(('0', '1', '1u'))}]", ctype.of
            elif ctype.struct.members:
                name, ctype = self.pick(ctype.struct.members)
                text = f"{text}.{name}"
            else:
                break
        return f"&{text}"

    def wanted(self, kind):
        for _ in range(12):
            text, ctype = self.place(self.chance.randrange(4))
            if ctype.kind == kind:
                return text, ctype
        return None

    def whole(self, depth):
        found = self.wanted("int")
        at = self.chance.randrange(14)
        if depth <= 0 or at < 4:
            return found[0] if found and not self.one_in(3) else self.constant(0)
        below = depth - 1
        if at < 7:
            return f"({self.whole(below)} {self.pick(OPERATORS)} {self.whole(below)})"
        if at == 7:
            return f"{self.pick(('-', '~', '!', '+'))}{self.whole(below)}"
        if at == 8:
            return f"({self.whole(below)} ? {self.whole(below)} : {self.whole(below)})"
        if at == 9 and found:
            return f"({found[0]} {self.pick(UPDATES)} {self.whole(below)})"
        if at == 10:
            return f"sizeof({self.place(1)[0]})"
        if at == 11:
            return f"({self.pointer(below)} {self.pick(('==', '!=', '&&'))} {self.pick((self.pointer(below), '0'))})"
        if at == 12:
            return self.inner(below)
        if self.one_in(5):
            return "__VERIFIER_nondet_int()"
        functions = [(name, one) for name, one in self.visible("function") if one.words == "body" and one.ctype.kind == "int"]
        return self.call(*self.pick(functions), below) if functions else f"({self.pick(WHOLE)}){self.whole(below)}"

    def inner(self, below):
        """A statement expression."""
        self.open()
        if self.one_in(2):
            declared = self.declaration(block=True) + " "
        else:
            declared = ""
        text = f"__extension__ ({{ {declared}{self.whole(below)};{' ;' * self.pick((0, 0, 0, 0, 1, 2))} }})"
        self.close()
        return text

    def call(self, name, function, below):
        return f"{name}({', '.join(self.value(param, below) for param in function.params)})"

    def pointer(self, depth):
        found = self.wanted("pointer") or self.wanted("array")
        at = self.chance.randrange(8)
        if depth <= 0 or at < 4 and found:
            return found[0] if found and not self.one_in(4) else self.pick(("(void *)0", "(int *)0", f"&{self.place(1)[0]}"))
        if self.one_in(10):
            return self.pick(("malloc(8)", f"malloc(sizeof({self.type_name()}))"))
        if at == 4 and found and found[1].of.kind not in ("void",):
            return f"({found[0]} {self.pick(('+', '-'))} {self.whole(depth - 1)})"
        if at == 5:
            return f"({self.type_name()} *){self.pointer(depth - 1)}"
        if at == 6:
            return f"({self.whole(depth - 1)} ? (void *){self.pointer(depth - 1)} : {self.pointer(depth - 1)})"
        return f"&{self.place(2)[0]}"

    def value(self, ctype, depth):
        """An expression that converts to a type."""
        if ctype.kind == "int":
            return self.whole(depth)
        if ctype.kind == "struct":
            found = self.wanted("struct")
            return found[0] if found else self.whole(depth)
        return self.pick(("0", f"(void *){self.pointer(depth)}", self.pointer(depth)))

    def initialiser(self, ctype, fixed, depth=2):
        value = (lambda: self.constant(2)) if fixed and not self.one_in(12) else (lambda: self.whole(2))
        if depth < -2:
            return "{ 0 }"
        if ctype.kind == "int":
            return f"{{ {value()} }}" if self.one_in(6) else value()
        if ctype.kind == "pointer":
            return self.pick(("0", "(void *)0", self.fixed_place(), f"({self.type_name()} *){self.fixed_place()}")) if fixed and not self.one_in(15) else self.value(ctype, 1)
        if ctype.kind == "array":
            most = min(4, max(1, int(ctype.count))) if ctype.count and ctype.count.isdigit() else 2
            count = self.chance.randrange(1, most + 1) + (1 if self.one_in(15) else 0)
            return "{ " + ", ".join(self.initialiser(ctype.of, fixed, depth - 1) for _ in range(count)) + self.pick((" }", ", }"))
        if ctype.kind == "struct" and ctype.struct.members:
            if not fixed and self.one_in(4):
                return self.value(ctype, 1)
            members = ctype.struct.members[:self.chance.randrange(1, len(ctype.struct.members) + 1)]
            parts = []
            for name, one in members:
                parts.append((f".{name} = " if self.one_in(3) else "") + self.initialiser(one, fixed, depth - 1))
            if self.one_in(4):
                name, one = self.pick(ctype.struct.members)
                parts.append(f".{name} = " + self.initialiser(one, fixed, depth - 1))
            return "{ " + ", ".join(parts) + " }"
        return value()

    # declarations

    def name_for(self, storage, block):
        here = self.scopes[-1]
        if self.one_in(100 if block else 300):
            return self.pick(list(BUILT_IN))
        unused = [name for name in NAMES if name not in here and (block and storage != "extern" or name not in self.linked)]
        return self.pick(unused) if unused and not self.one_in(80) else self.pick(NAMES)

    def again(self):
        """A declaration of what has linkage, once more."""
        linked = [(name, one) for name, one in self.visible("object") + self.visible("function") if one.storage in ("extern", "linked") and one.words]
        if not linked:
            return None
        name, one = self.pick(linked)
        return f"{self.pick(('extern ', '', 'extern '))}{one.words.replace('@', name)};" if "@" in one.words else None

    def array_again(self):
        """An array of ints with linkage, with a size or without one: what it is known as in a scope goes by the declarations that are visible."""
        name = self.pick(("r", "r", "q"))
        self.linked.add(name)
        size = self.pick(("", "", "3", "3", "3", "2"))
        if self.one_in(3):
            return f"{self.whole(1)} + sizeof {name};" if len(self.scopes) > 1 else f"extern int {name}[{size}];"
        if len(self.scopes) == 1 and self.one_in(2):
            return f"int {name}[{size}]" + self.pick((";", f" = {{ {', '.join(str(at) for at in range(self.pick((2, 3, 3))))} }};"))
        return f"extern int {name}[{size}];"

    def surplus(self, block):
        """An object with an initialiser that has parts too many, or in braces that nothing fills."""
        members = "".join(f"int {name}; " for name in self.chance.sample(("a", "b", "c"), self.chance.randrange(1, 3)))
        storage = self.pick(("", "static", "extern", "typedef") if block else ("", "static"))
        parts = [self.pick(("1", "2", "{ }", ".a = 3", ".b = 4", "{ 5 }")) for _ in range(self.chance.randrange(1, 5))]
        name = f"w{self.chance.randrange(1000)}"
        return f"{storage} struct {{ {members}}} {name} = {{ {', '.join(parts)} }};".strip()

    def nested_tag(self):
        """A struct, a line for each of its members, of which one lists members of the struct's own tag, or of another one."""
        name = f"k{self.chance.randrange(1000)}"
        front = self.pick(("", "", f"struct {name}; ", f"struct {name} *{name}p; "))
        tag = self.pick((name, name, name + "x"))
        inner = self.pick((f"struct {tag} {{ int b; }} a;", f"struct {tag} *a;", f"struct {tag} {{ int b; }} *a[2];", f"int a[sizeof(struct {tag} {{ int b; }})];", f"struct {tag} a;"))
        return f"{front}struct {name} {{\nint c;\n{inner}\nint d[{self.pick(('1', '1', 'sizeof(int)', '1 + 1'))}];\n}};"

    def declaration(self, block):
        if self.one_in(12):
            return self.array_again()
        if self.one_in(60):
            return self.nested_tag()
        if self.one_in(60):
            return self.surplus(block)
        if self.one_in(60):
            return f"static _Bool {self.name_for('static', block)}{self.chance.randrange(1000)} = {self.pick((self.constant(1), self.fixed_place(), '(void *)0'))};"
        at = self.chance.randrange(12)
        if at == 0:
            return self.tag_alone()
        storage = self.pick(("", "", "", "", "extern", "static", "typedef"))
        words, base = (self.pick(WHOLE), Type("int")) if storage == "extern" and block else self.words()
        parts = []
        for _ in range(self.pick((1, 1, 1, 2))):
            name = self.name_for(storage, block)
            if at == 1 and storage in ("", "extern"):
                parts.append(self.head(name, base)[0])
                self.linked.add(name)
                continue
            text, ctype = self.declarator(name, base, sized=storage in ("typedef", "static"))
            fixed = storage == "static" or not block
            unsized = ctype.kind == "array" and ctype.count == ""
            what = "typedef" if storage == "typedef" else "object"
            linked = storage == "extern" or not block and what == "object" and storage == ""
            entity = Entity(what, ctype, words=f"{words} {text.replace(name, '@', 1)}" if "{" not in words else "", storage="linked" if linked else storage)
            if linked:
                self.linked.add(name)
            if storage == "extern" and entity.words and not unsized and not self.one_in(8):
                self.later.append(f"{words} {text};")
            if not unsized or storage in ("extern", "typedef") or self.one_in(10):
                self.scopes[-1][name] = entity
            wants = unsized and storage != "extern" or self.one_in(2)
            if storage not in ("typedef", "extern") and wants or storage == "extern" and not block and self.one_in(10):
                text += " = " + self.initialiser(ctype, fixed)
            self.scopes[-1][name] = entity
            parts.append(text)
        return f"{storage} {words} {', '.join(parts)};".strip()

    def tag_alone(self):
        name = self.pick(TAGS)
        if name in self.tags[-1] and isinstance(self.tags[-1][name], Struct) and self.tags[-1][name].members is None or self.one_in(3):
            words, _ = self.struct_words(0, False)
            return words + ";"
        self.tags[-1].setdefault(name, Struct())
        return f"struct {name};"

    def head(self, name, base, bodied=False):
        """The head of a function, behind its words, and its parameters with their names."""
        stars = 1 if base.kind in ("array",) else self.pick((0, 0, 1))
        if base.kind == "struct":
            stars = 1
        result = base
        for _ in range(stars):
            result = Type("pointer", result)
        self.open()
        params, texts = [], []
        for _ in range(self.pick((0, 1, 1, 2))):
            words, ctype = self.words(2, complete=True)
            own = self.name_for("", True)
            text, ctype = self.declarator(own, ctype, sized=False)
            if ctype.kind == "struct":
                text, ctype = "*" + text, Type("pointer", ctype)
            if ctype.kind == "array":
                ctype = Type("pointer", ctype.of)
            self.scopes[-1][own] = Entity("object", ctype)
            params.append((own, ctype))
            texts.append(f"{words} {text if bodied or not self.one_in(4) else text.replace(own, '')}")
        scope, tags = self.scopes.pop(), self.tags.pop()
        entity = Entity("function", result, [ctype for _, ctype in params], words="body" if bodied else "", storage="linked")
        self.scopes[-1].setdefault(name, entity)
        if bodied:
            self.scopes[-1][name] = entity
        return f"{'*' * stars}{name}({', '.join(texts) or self.pick(('void', 'void', ''))})", result, scope, tags

    def function(self):
        words, base = ("void", Type("void")) if self.one_in(5) else self.words(2, plain=True)
        name = self.name_for("", False)
        self.linked.add(name)
        head, result, scope, tags = self.head(name, base, bodied=True)
        self.lines.append(f"{self.pick(('', '', 'static ', 'extern '))}{words} {head} {{".strip())
        self.scopes.append(scope)
        self.tags.append(tags)
        self.result = result
        self.statements(self.chance.randrange(4), 2)
        if result.kind != "void":
            self.lines.append(f"return {self.value(result, 1)};")
        self.close()
        self.lines.append("}")

    # statements

    def statements(self, count, depth):
        for _ in range(count):
            self.statement(depth)

    def braced(self, depth):
        self.open()
        self.statements(self.chance.randrange(1, 3), depth - 1)
        self.close()

    def statement(self, depth):
        at = self.chance.randrange(16)
        if at < 6:
            self.lines.append((self.again() if self.one_in(10) else None) or self.declaration(block=True))
        elif at < 10:
            place, ctype = self.place(self.chance.randrange(4))
            if ctype.kind in ("int", "pointer", "struct"):
                self.lines.append(f"{place} = {self.value(ctype, 2)};")
            else:
                self.lines.append(f"{self.whole(2)};")
        elif at == 10:
            functions = [(name, one) for name, one in self.visible("function") if one.words == "body"]
            self.lines.append(f"{self.call(*self.pick(functions), 1)};" if functions and self.one_in(2) else self.pick((";", f"free({self.pointer(1)});", "free(0);")))
        elif at == 11 and self.loops:
            self.lines.append(f"if ({self.whole(1)}) {self.pick(('break', 'continue'))};")
        elif at == 11 and self.result:
            self.lines.append("return;" if self.result.kind == "void" else f"if ({self.whole(1)}) return {self.value(self.result, 1)};")
        elif depth:
            self.nested(depth)
        else:
            self.lines.append(f"{self.whole(3)};")

    def nested(self, depth):
        kind = self.pick(("if", "else", "while", "do", "for", "block"))
        test = self.whole(1) if not self.one_in(4) else self.pointer(1)
        if kind == "for":
            self.open()
            first = f"{self.whole(1)};"
            if self.one_in(2):
                name, value = self.name_for("", True), self.whole(1)
                first = f"int {name} = {value};"
                self.scopes[-1][name] = Entity("object", Type("int"))
            self.lines.append(f"for ({first} {self.whole(1)}; {self.whole(1)}) {{")
        else:
            self.lines.append({"if": f"if ({test}) {{", "else": f"if ({test}) {{", "while": f"while ({test}) {{", "do": "do {", "block": "{"}[kind])
        is_loop = kind in ("while", "do", "for")
        self.loops += is_loop
        self.braced(depth)
        self.loops -= is_loop
        if kind == "else":
            self.lines.append("} else {")
            self.braced(depth)
        self.lines.append(f"}} while ({self.whole(1)});" if kind == "do" else "}")
        if kind == "for":
            self.close()

    def item(self):
        at = self.chance.randrange(12)
        if at < 4:
            self.function()
        elif at == 4 and (again := self.again()):
            self.lines.append(again)
        else:
            self.lines.append(self.declaration(block=False))

    def program(self):
        for _ in range(self.chance.randrange(1, 7)):
            self.item()
        self.lines.append("int main(void) {")
        self.lines.append(NEEDED)
        self.open()
        self.result = Type("int")
        self.statements(self.chance.randrange(1, 5), 2)
        self.close()
        self.lines += ["return 0;", "}"] + self.later
        return self.lines


def untyped(chance):
    """A program in which main uses a name that an item behind it defines whose first word is that name, and the line of that item."""
    pick, name = chance.choice, chance.choice(NAMES)
    storage, value = pick(("", "", "static ", "extern ")), chance.randrange(10)
    prototype = f"{'static ' if storage == 'static ' else pick(('', 'extern '))}int {name}(void);"
    front, use, item = pick((
        (prototype, f"{name}()", f"{storage}{name}(void) {{ return {value}; }}"),
        (f"int {name}(int);", f"{name}({value})", f"{name}({pick(('v', 'w'))}) {{ return {value}; }}"),
        (f"extern int {name};", name, pick((f"{name};", f"{name} = {value};", f"{name}, {name}2;", f"{name}2 = 1, {name};"))),
        (f"extern int {name}[2];", f"{name}[0]", f"{name}[2];"),
    ))
    more = [pick(("int z;", "struct s { int m; };", "typedef int Y;", "static int y = 1;")) for _ in range(chance.randrange(3))]
    lines = [*dict.fromkeys(more), front, f"int main(void) {{ return {use}; }}", item]
    return "\n".join(lines) + "\n", len(lines)


def tokens(line):
    return TOKEN.findall(line)


def mistaken(lines, chance):
    """The lines with one mistake."""
    lines = list(lines)
    at = chance.randrange(16)
    places = [i for i, line in enumerate(lines) if line != NEEDED and " main(" not in line]
    one, other = chance.choice(places), chance.choice(places)
    if at == 0:
        del lines[one]
    elif at == 1:
        lines.insert(other, lines[one])
    elif at == 2:
        lines.insert(other, lines.pop(one))
    elif at == 3:
        word = next((word for word in ("static ", "extern ", "typedef ") if lines[one].startswith(word)), "")
        lines[one] = chance.choice(("", "static ", "extern ", "typedef ")) + lines[one][len(word):]
    else:
        lines[one] = " ".join(exchanged(tokens(lines[one]), lines, at, chance))
    return lines


def exchanged(row, lines, at, chance):
    """A line's tokens with one left out, put in, or another one in its place."""
    if not row:
        return row
    where = chance.randrange(len(row))
    if at == 4:
        del row[where]
    elif at == 5:
        row.insert(where, chance.choice(INSERTED))
    elif at == 6:
        row[where] = chance.choice([token for line in lines for token in tokens(line)])
    else:
        where = chance.choice([i for i, token in enumerate(row) if re.match(r"\w", token)] or [where])
        words = [token for line in lines for token in tokens(line) if re.match(r"\w", token)] + list(NAMES)
        row[where] = chance.choice(words if at < 13 else TYPES)
    return row


class Asker:
    """Asks both programs of a text."""

    def __init__(self, folder):
        self.folder = Path(folder)
        self.gcc = subprocess.run(["gcc", "-print-prog-name=cc1"], capture_output=True, text=True, check=True).stdout.strip()

    def by_gcc(self, text):
        """The first error that is compared, without places and names, else why those that are there are let, or nothing; and the lines of all errors, and
        whether one of them is let."""
        known = "".join(f"{line} " for name, line in BUILT_IN.items() if re.search(rf"\b{name}\b", text) and not re.search(rf"\b{name} ?\([^()]*\) ?\{{", text))
        said = subprocess.run([self.gcc, *GCC, "-"], input=known + text, capture_output=True, text=True, env=dict(os.environ, LC_ALL="C")).stderr
        first = let = None
        errors = re.findall(r"^<stdin>:(\d+):\d+: error: (.*)$", said, re.M)
        for _, found in errors:
            if why := next((why for form, why in LET.items() if re.search(form, found)), None):
                let = let or f"let: {why}"
            else:
                first = first or re.sub(r"'[^']*'", "'_'", re.sub(r"'(\W+|break|continue|void|return|static|extern)'", r'"\1"', found))
        return first or let, {line for line, _ in errors} | ({LET_GO} if let else set())

    def by_predator(self, text):
        """`passes`, or what is refused; and the line."""
        (self.folder / "t.c").write_text(text)
        said = subprocess.run([PROGRAM, "t.c"], cwd=self.folder, stdin=subprocess.DEVNULL, capture_output=True, text=True).stdout.strip().splitlines()
        last = said[-1] if said else "nothing"
        if re.fullmatch(r"t\.c: (?:not read: not yet at .*|safe|warned(?:, budget of \d+ states spent)?|gave up: (?:budget of \d+ states spent|state too large))", last):
            return "passes", None
        found = re.fullmatch(r"t\.c: (?:not read: )?(.*?)(?: at t\.c:(\d+):\d+)?", last)
        return (found[1], found[2]) if found else (last, None)

    def undefined(self, text):
        """Whether gcc, which takes a name alone for an int here, leaves a name of the text without a definition, or refuses it."""
        made = subprocess.run(["gcc", "-std=gnu89", "-w", "-fno-builtin", "-x", "c", "-c", "-", "-o", self.folder / "u.o"], input=text, capture_output=True, text=True)
        return bool(made.returncode or subprocess.run(["nm", "-u", self.folder / "u.o"], capture_output=True, text=True, check=True).stdout.strip())

    def whole(self, text):
        """The text with what stands in main for all names, where it stands there."""
        words = sorted({word for word in re.findall(r"[A-Za-z_]\w*", text) if word not in KEYWORDS and not word.startswith("__")})
        whole, count = re.subn(r"(\bmain ?\([^()]*\) ?\{\s?)NEEDED ?;", rf"\1struct {{ int {', '.join(words)}; }} *need_;", text)
        return whole if count == 1 else None

    def answers(self, text):
        """Both answers to a text, in which main needs all items, and how they differ in what is compared: two answers or nothing."""
        whole = self.whole(text)
        if whole is None:
            return "no main", None, None
        (ours, line), (theirs, lines) = self.by_predator(whole), self.by_gcc(whole)
        if ours == "passes":
            differ = theirs is not None and not theirs.startswith("let")
            return ours, theirs, (ours, theirs) if differ else None
        if not ours.startswith("rule") or line in lines or LET_GO in lines:
            return ours, theirs, None
        return ours, theirs, (ours, "elsewhere" if lines else None)

    def is_as(self, text, found):
        """Whether the two differ on a text as was found."""
        whole = self.whole(text)
        return whole is not None and self.by_predator(whole)[0] == found[0] and self.answers(text)[2] == found


def ends(row, at):
    """Where a run of tokens that begins there may end: behind it, behind its bracket, and at and behind the marks at its depth."""
    found, depth = [at + 1], 0
    for i in range(at, len(row)):
        depth += (row[i] in "([{") - (row[i] in ")]}")
        if depth < 0:
            break
        if depth == 0 and row[i] in (";", "}", ")", "]", ","):
            found += [i + 1] + ([i] if i > at else [])
        if depth == 0 and i == at + 1:
            found.append(i + 1)
    return sorted(set(found), reverse=True)


def fewer(asker, row, join, found, ends_of):
    """A row of lines or tokens less runs without which the difference stays."""
    at = 0
    while at < len(row):
        for end in ends_of(row, at):
            less = row[:at] + row[end:]
            if end > at and asker.is_as(join.join(less) + "\n", found):
                row = less
                break
        else:
            at += 1
    return row


def reduced(asker, lines, found):
    """The text cut down while the difference stays: by lines, then by tokens."""
    lines = fewer(asker, lines, "\n", found, lambda row, at: [end for end in (at + 8, at + 4, at + 2, at + 1) if end <= len(row)])
    if found[1] == "elsewhere":
        return "\n".join(lines)
    row = tokens(" ".join(lines))
    while (less := fewer(asker, row, " ", found, ends)) != row:
        row = less
    return " ".join(row)


def known(found, text):
    """Whether the documents name the difference."""
    text = " ".join(tokens(text))
    beside = MAIN_ITEM.sub("", text)
    if found[0] == "passes" and beside != text and not OFFERED.search(beside):
        return "an item that offers no name is not needed"
    if found[0] == "passes" and re.search("redeclared|conflicting|has no type|expected", found[1]) and any(name in text for name in BUILT_IN):
        return "an item of nothing but names of built-in functions is passed over"
    if found[0] == "passes" and re.search(r"isn't known|incomplete|invalid use of undefined", found[1]) and re.search(r"\benum \w+ [^{]", text):
        return "an enum needs no constants"
    return next((why for (rule, form), why in ASKED.items() if found[0] == rule and found[1] in (None, "elsewhere") and re.search(form, text)), None)


def untyped_unlike(asker, seed):
    """Whether the two differ on the program of a seed with a name alone: gcc defines the name, and here that item is refused as syntax, and no name is without a definition."""
    text, line = untyped(random.Random(seed))
    ours = asker.by_predator(text)
    if ours == ("syntax", str(line)) and not asker.undefined(text):
        return 0
    print(f"seed {seed}: {' at line '.join(map(str, ours))} here, and not syntax at line {line}, or not defined by gcc: {text}", flush=True)
    return 1


def main():
    count = int(sys.argv[1]) if len(sys.argv) > 1 else 1000
    seed = int(sys.argv[2]) if len(sys.argv) > 2 else 1
    answers, shown, let, unlike = Counter(), {}, Counter(), 0
    with tempfile.TemporaryDirectory() as folder:
        asker = Asker(folder)
        for number in range(seed, seed + count):
            chance = random.Random(number)
            lines = Writer(chance).program()
            if chance.randrange(5) < 3:
                lines = mistaken(lines, chance)
            text = "\n".join(lines) + "\n"
            unlike += untyped_unlike(asker, number) if number % 3 == 0 else 0
            ours, theirs, found = asker.answers(text)
            answers[(ours.split(":")[0], "taken by gcc" if theirs is None else "refused by gcc")] += 1
            if not found:
                if ours == "passes" and theirs is not None:
                    let[theirs] += 1
                continue
            if shown.get(found, 0) >= (4 if found[1] in (None, "elsewhere") else 1):
                shown[found] += 1
                continue
            less = reduced(asker, lines, found)
            if why := known(found, less):
                let[f"let: {why}"] += 1
                continue
            shown[found] = shown.get(found, 0) + 1
            print(f"seed {number}: {found[0]} here, by gcc {found[1] or 'taken'}: {less}", flush=True)
    for (ours, theirs), times in sorted(answers.items(), key=lambda entry: -entry[1]):
        print(f"{times:6} {ours}, {theirs}")
    for why, times in sorted(let.items()):
        print(f"{times:6} {why}")
    print(f"check: {count} random programs, {sum(shown.values()) + unlike} differ in what no document says")
    return 1 if shown or unlike else 0


if __name__ == "__main__":
    sys.exit(main())
