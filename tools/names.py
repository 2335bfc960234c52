"""Which names a text of definitions uses that are bound outside of it.

Usage: from names import Names, tokens_of, without_comments
The text is one signature, one clause of a function with its patterns, or one clause of a contract. What parameters, patterns, `λ`, `let`
and the fields of records bind there is not among them, from where it is bound to the end of the bracket around it.
"""
import re

NAME = r"[^\s(){}.;,@\"«»]+"
TOKEN = re.compile(rf"{NAME}|[(){{}}.;,@]")
OPENING, CLOSING = {"(", "{", "["}, {")", "}", "]"}


def without_comments(text):
    """A text of definitions without its comments and quoted texts."""
    text = re.sub(r'"(\\.|[^"\\\n])*"', " ", text)
    return re.sub(r"(^|\s)--.*", r"\1", text)


def tokens_of(text):
    """The tokens of a text, each with whether it is written directly behind the one before."""
    found, end = [], 0
    for match in TOKEN.finditer(text):
        found.append((match.group().strip("«»"), match.start() == end and end > 0))
        end = match.end()
    return found


class Names:
    """Which names a row of tokens uses that are bound outside of it."""

    def __init__(self, tokens, is_constructor):
        self.tokens, self.is_constructor = tokens, is_constructor
        self.frames, self.used, self.members = [set()], set(), set()
        self.typed, self.field = [set()], set()

    def word(self, at):
        return self.tokens[at][0] if at < len(self.tokens) else ""

    def pattern(self, first, end):
        """A pattern binds its names, and uses its constructors."""
        for at in range(first, end):
            word, glued = self.tokens[at]
            if self.is_constructor(word):
                self.used.add(word)
            elif not (glued and self.word(at - 1) == "."):
                self.frames[-1].add(word)

    def end_of_pattern(self, at):
        """Where the `↦` behind a pattern stands that begins here, if there is one."""
        depth = 0
        while at < len(self.tokens):
            word = self.word(at)
            depth += (word in OPENING) - (word in CLOSING)
            if depth < 0 or (depth == 0 and word == "|"):
                return None
            if depth == 0 and word == "↦":
                return at
            at += 1
        return None

    def end_of_binders(self, at, end_word):
        """Where names end that stand in front of a word, if nothing else stands between."""
        first = at
        while self.word(at) not in OPENING | CLOSING | {"", ";", ",", ".", "=", ":", "→"}:
            at += 1
        return at if at > first and self.word(at) == end_word else None

    def opened(self, typed):
        """Enters a bracket. Names that have their type in it are bound behind it."""
        self.frames.append(set())
        self.typed.append(typed)

    def closed(self):
        """Leaves a bracket."""
        if len(self.frames) > 1:
            self.frames.pop()
            self.frames[-1] |= self.typed.pop()

    def bracket(self, at):
        """An opening bracket: names with a type are bound behind it, and a field or an argument by name uses nothing."""
        binders = self.end_of_binders(at + 1, ":")
        if binders and self.word(at) != "[":
            self.opened({self.word(number) for number in range(at + 1, binders)})
            return binders + 1
        self.opened(set())
        if self.word(at) == "[":
            return self.branch(at + 1)
        return self.argument_by_name(at + 1)

    def branch(self, at):
        end = self.end_of_pattern(at)
        if end is None:
            return at
        self.pattern(at, end)
        return end + 1

    def argument_by_name(self, at):
        return at + 2 if self.word(at + 1) == "=" else at

    def function(self, at):
        """The names behind a `λ` up to its dot."""
        while self.word(at) not in (".", ""):
            word = self.word(at)
            if word in OPENING and self.end_of_binders(at + 1, ":"):
                at = self.behind_bracket(at)
                continue
            if word not in OPENING | CLOSING | {","}:
                self.frames[-1].add(word)
            at += 1
        return at + 1

    def behind_bracket(self, at):
        """Goes over a bracket to its end."""
        depth = len(self.frames)
        at = self.step(at)
        while len(self.frames) > depth and at < len(self.tokens):
            at = self.step(at)
        return at

    def fields(self, at):
        """The names behind `pub` up to the colon are those of fields, which are bound behind their type."""
        self.frames[-1] |= self.field
        end = self.end_of_binders(at, ":")
        self.field = {self.word(number) for number in range(at, end or at)}
        return end + 1 if end else at

    def plain(self, at):
        word, glued = self.tokens[at]
        if glued and self.word(at - 1) == "." and at > 1 and self.tokens[at - 1][1]:
            self.members.add((self.word(at - 2), word))
        elif not any(word in frame for frame in self.frames):
            self.used.add(word)
        return at + 1

    def step(self, at):
        """Goes on behind the token here."""
        word = self.word(at)
        if word in OPENING:
            return self.bracket(at)
        if word in CLOSING:
            self.closed()
            return at + 1
        if word == "|":
            self.frames[-1] = set()
            return self.branch(at + 1)
        if word == "λ":
            return self.function(at + 1)
        if word == "let":
            self.frames[-1].add(self.word(at + 1))
            return at + 2
        if word == "pub":
            return self.fields(at + 1)
        if word == ";":
            return self.argument_by_name(at + 1)
        if word in (".", ",", "@"):
            return at + 1
        return self.plain(at)

    def go(self, at=0):
        while at < len(self.tokens):
            at = self.step(at)
        return self
