"""A text with marks in it, by which it is told where a run asks for a choice.

A mark is an expression that takes an input of its own and, where that is more than 0 or than the size that is asked for, reads at a null pointer: the place
of that fault is the mark's. Marks stand in front of each call that asks for a choice, of each block that has objects, and of each `for` that declares one.
"""
from __future__ import annotations

import re
from dataclasses import dataclass, field

from . import places

STOP, PASS = b"input 4294967295", b"input 0"
INPUT = re.compile(rb"__VERIFIER_nondet_\w+")
OWN = (b"__VERIFIER_nondet_ulong", b"__VERIFIER_nondet_uint")
MEMORY = (b"malloc", b"calloc")
TYPES = frozenset(
    b"void _Bool char short int long signed __signed__ unsigned struct enum typeof __typeof__ __typeof const volatile restrict register auto".split())
SIZES = {b"char": 1, b"_Bool": 1, b"short": 2, b"int": 4, b"unsigned": 4}
STORAGE = frozenset(b"typedef extern static".split())
OPENING, CLOSING = (b"(", b"[", b"{"), (b")", b"]", b"}")


@dataclass(eq=False)
class Mark:
    """A place at which choices are asked for."""

    at: int  # the token that it stands in front of, by its number
    name: str = ""  # of the function that is called
    objects: list = field(default_factory=list)  # of a block, the tokens that name its objects
    sizes: dict = field(default_factory=dict)  # those that were found, by the number of the request behind the mark
    is_memory: bool = False


class Marked:
    """A text, its tokens and its marks."""

    def __init__(self, text, name):
        self.plain = b"\n".join(b"" if file is None else line for file, _, line in places.lines(text, name))
        self.places = [(file, number) for file, number, _ in places.lines(text, name)]
        found = list(places.tokens(self.plain).items())
        self.starts, self.words = [at for at, _ in found], [word for _, word in found]
        self.ends = self.matched()
        self.types = self.typedefs()
        own = [word for word in OWN if not self.is_defined(word)]
        self.inserted, self.marks = [], []
        if own:
            self.input = own[0]
            for begin, end in self.bodies():
                self.mark_body(begin, end)
        self.text, self.by_place = self.with_marks()

    def matched(self):
        """Where the bracket closes that opens at a token."""
        found, open_at = {}, []
        for at, word in enumerate(self.words):
            if word in OPENING:
                open_at.append(at)
            elif word in CLOSING and open_at:
                found[open_at.pop()] = at
        return found

    def word(self, at):
        return self.words[at] if 0 <= at < len(self.words) else b""

    def is_word(self, at):
        return re.fullmatch(rb"[A-Za-z_$][\w$]*", self.word(at)) is not None

    def is_defined(self, name):
        """Whether a function of this name may have a body here."""
        return any(word == name and self.word(at + 1) == b"(" and self.word(self.ends.get(at + 1, at) + 1) == b"{"
                   for at, word in enumerate(self.words))

    def typedefs(self):
        """The names that `typedef` gives."""
        found, at = set(), 0
        while at < len(self.words):
            if self.word(at) == b"typedef":
                while at < len(self.words) and self.word(at) != b";":
                    if self.word(at) == b"{":
                        at = self.ends.get(at, at)
                    if self.is_word(at) and self.word(at + 1) in (b";", b",", b"["):
                        found.add(self.word(at))
                    at += 1
            at += 1
        return found

    def bodies(self):
        """The braces of the bodies of functions."""
        at = 0
        while at < len(self.words):
            end = self.ends.get(at) if self.word(at) in OPENING else None
            if end is not None and self.word(at) == b"{" and self.word(at - 1) == b")":
                yield at, end
            at = at + 1 if end is None else end + 1

    def mark_body(self, begin, end):
        for at in range(begin, end):
            word = self.word(at)
            if word == b"{" and (at == begin or self.word(at - 1) in (b"{", b"}", b";", b")", b"else", b"do", b":")):
                self.mark_block(at)
            elif word == b"for" and self.word(at - 1) in (b"{", b"}", b";"):
                self.mark_for(at)
            elif (word in MEMORY or INPUT.fullmatch(word)) and self.word(at + 1) == b"(" and not self.is_word(at - 1) and not self.is_defined(word):
                self.mark_call(at)

    def stop(self, size):
        return self.input + b"() > (" + size + b") && *(char *)0"

    def insert(self, at, text, mark=None):
        """Puts a text in front of a token; where it is a mark's, its fault is at the last `*` of it."""
        self.inserted.append((self.starts[at], len(self.inserted), text, mark))
        if mark:
            self.marks.append(mark)

    def mark_block(self, at):
        objects = self.objects(at + 1, self.ends[at])
        if objects and self.word(at - 1) != b"(":
            self.insert(at, b"{ " + self.stop(b"0") + b"; ", Mark(at, objects=objects))
            self.insert(self.ends[at], b"}")

    def mark_for(self, at):
        objects = self.objects(at + 2, self.ends.get(at + 1, at))
        if objects:
            self.insert(at, self.stop(b"0") + b"; ", Mark(at, objects=objects))

    def mark_call(self, at):
        end = self.ends.get(at + 1)
        if end is None or self.word(at - 1) == b"*" and self.word(at - 2) in TYPES:
            return
        size, is_memory = b"0", self.word(at) in MEMORY
        if is_memory:
            size = self.plain[self.starts[at + 1] : self.starts[end] + 1]
            size = re.sub(rb",(?=[^,]*$)", b") * (", size) if self.word(at) == b"calloc" else size
        self.insert(at, b"(" + self.stop(size) + b", ", Mark(at, self.word(at).decode(), is_memory=is_memory))
        self.insert(end, b")")

    def objects(self, at, end):
        """The tokens that name the objects which a block declares itself."""
        found, is_first = [], True  # `is_first`: a statement or a declaration begins here
        while at < end:
            word = self.word(at)
            if is_first and (word in TYPES or word in STORAGE or word in self.types and self.word(at + 1) != b":"):
                at = self.declared(at, end, found)
            elif word in OPENING:
                is_first = word == b"{"
                at = self.ends.get(at, at) + 1
            else:
                is_first = word in (b";", b"}", b":")
                at += 1
        return found

    def declared(self, at, end, found):
        """Goes over a declaration, and adds the names of its objects."""
        is_value, is_object, names = False, True, []
        while at < end and self.word(at) != b";":
            word = self.word(at)
            is_object = is_object and word not in STORAGE
            if not is_value and self.is_word(at) and word not in TYPES and self.word(at + 1) in (b"=", b",", b";", b"["):
                names.append(at)
            is_value = word == b"=" or is_value and word != b","
            at = self.ends.get(at, at) + 1 if word in OPENING else at + 1
        found += names if is_object else []
        return at

    def size(self, at):
        """The size that an object seems to have, by what is written around its name; None where that does not tell."""
        first = at
        while first > 0 and self.word(first - 1) not in (b";", b"{", b"}", b"(", b")", b","):
            first -= 1
        words = self.words[first:at]
        size = 8 if b"*" in words or b"long" in words else next((size for word, size in SIZES.items() if word in words), None)
        while size and self.word(at + 1) == b"[":
            size = size * int(self.word(at + 2)) if self.word(at + 2).isdigit() and self.word(at + 3) == b"]" else None
            at += 3
        return size

    def with_marks(self):
        """The text with its marks, and each mark by the line and the column of its fault."""
        parts, at, by_offset, length = [], 0, {}, 0
        for start, _, text, mark in sorted(self.inserted, key=lambda one: one[:2]):
            length += start - at
            if mark:
                by_offset[length + text.rindex(b"*(char")] = mark
            parts += [self.plain[at:start], text]
            length, at = length + len(text), start
        text = b"".join([*parts, self.plain[at:]])
        return text, {(text.count(b"\n", 0, offset) + 1, offset - text.rfind(b"\n", 0, offset)): mark for offset, mark in by_offset.items()}

    def mark_at(self, told):
        """The mark that has stopped a run."""
        found = re.match(rb".*:(\d+):(\d+): ", told, re.S)
        return self.by_place.get((int(found.group(1)), int(found.group(2)))) if found else None

    def place(self, at):
        """The place of a token, as the text's own markers tell it."""
        start = self.starts[at]
        file, number = self.places[self.plain.count(b"\n", 0, start)]
        column = start - self.plain.rfind(b"\n", 0, start)
        return f"{file.decode(errors='replace')}:{number}:{column}"
