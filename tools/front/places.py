"""Places of a preprocessed text: which line of it a place `file:line:column` of a report is in (docs/language.md, *Places*)."""
import re

MARKER = re.compile(rb'[ \t\v\f\r]*#[ \t\v\f]*(?:line[ \t\v\f]+)?(\d+)[ \t\v\f]*"((?:[^"\\]|\\.)*)"')
PLACE = re.compile(rb"(.*):(\d+):(\d+)", re.S)
COMMENT = rb"//[^\n]*|/\*.*?\*/"
TOKEN = (
    rb"""[A-Za-z_$][\w$]*|\.?\d(?:[eEpP][+-]|[\w$.])*|'(?:[^'\\\n]|\\[^\n][0-9a-fA-F]*)'|"(?:[^"\\\n]|\\.)*"|"""
    rb"""->|\+\+|--|<<=|>>=|<<|>>|[<>=!+*/%&|^-]=|&&|\|\||\.\.\.|[^\s\w]""")
PIECE = re.compile(b"(?P<comment>" + COMMENT + b")|(?P<token>" + TOKEN + b")", re.S)


def lines(text, name):
    """The lines of a text, each with its file and its number there, or with no file where it is a marker; `name` is that of the text's own file."""
    number = 0
    for line in text.split(b"\n"):
        number += 1
        if marker := MARKER.match(line):
            name = re.sub(rb'\\([\\"])', rb"\1", marker.group(2))
            number = int(marker.group(1)) - 1
            yield None, 0, line
        else:
            yield name, number, line


def tokens(text):
    """Where tokens begin in a text without markers, and what they are."""
    return {match.start(): match.group() for match in PIECE.finditer(text) if match.group("token")}


def place_of(text):
    """The file, the line and the column of a place as a report has it."""
    found = PLACE.fullmatch(text)
    return (found.group(1), int(found.group(2)), int(found.group(3))) if found else None


# What the token of a refusal is, where its name tells that.
EXPECTED = {b"goto": rb"goto", b"switch": rb"switch", b"union": rb"union", b"pointer cast": rb"\(", b"pointer order": rb"[<>]=?", b"pointer difference": rb"-"}


def lines_at(text, name, place, kind=b""):
    """The lines of a text that a place may be in, those first where a token that fits the kind of answer begins in its column.
    A macro's text can make several lines of one, and a header can stand twice in a text."""
    file, number, column = place
    found = [line for at, count, line in lines(text, name) if (at, count) == (file, number) and column <= len(line)]

    def misfit(line):
        token = tokens(line).get(column - 1)
        return token is None, not re.match(EXPECTED.get(kind, b""), token or b"")

    return sorted(found, key=misfit)


def marked(line, column, wide=110):
    """A line with a mark below the token in its column, cut to a width around it."""
    first = max(0, column - 1 - wide // 2) if len(line) > wide else 0
    shown = line[first : first + wide]
    token = tokens(line).get(column - 1, b" ")
    length = max(1, min(len(token), first + len(shown) - column + 1))
    blank = re.sub(rb"[^\t]", b" ", shown[: column - 1 - first])
    front, back = (b"... " if first else b""), (b" ..." if first + wide < len(line) else b"")
    return [front + shown + back, b" " * len(front) + blank + b"^" + b"~" * (length - 1)]
