"""Comparisons whose outcome is another one as gcc and clang build the text: of an object of an enum with 0.

An object of an enum is an `int` here (docs/machine.md). In gcc and clang it is unsigned where no constant of the enum is negative, so `i >= A` with `A` of value 0 is
always true there, and `i < 0` never. Only what the tokens alone show is told: the enum has its braces in the text, with no value or a plain number for each
constant; the object is declared by the enum's tag or by a name that a typedef gives it in the same item, and nothing else has its name.
"""
import re

from . import places

WORD, NUMBER = re.compile(rb"[A-Za-z_$][\w$]*"), re.compile(rb"(?:0[xX][0-9a-fA-F]+|\d+)[uUlL]*")
BEHIND = (b"=", b";", b",", b"[", b")")  # what stands behind a name that is declared
NOT_DECLARING = frozenset(b"return else sizeof case goto do enum struct union".split())


def listed(words, at):
    """The constants of an enum whose first one stands here, each with whether it is surely 0, and the place of the `}`; None where one has another form."""
    found, is_first = [], True
    while at < len(words) and words[at] != b"}":
        if not WORD.fullmatch(words[at]):
            return None
        name, value = words[at], b"0" if is_first else b""
        at += 1
        if words[at : at + 1] == [b"="]:
            value, at = b"".join(words[at + 1 : at + 2]), at + 2
            if not NUMBER.fullmatch(value):
                return None
        found.append((name, value.strip(b"uUlL") in (b"0", b"0x0")))
        if words[at : at + 1] == [b","]:
            at += 1
        elif words[at : at + 1] != [b"}"]:
            return None
        is_first = False
    return (found, at) if at < len(words) else None


def unsigned(words):
    """The tags and names of types of enums without a negative constant, and the names of their constants of value 0."""
    tags, types, zeros, others = set(), set(), set(), set()
    for at, word in enumerate(words):
        if word != b"enum":
            continue
        has_tag = WORD.fullmatch(words[at + 1]) if at + 1 < len(words) else None
        begin = at + 2 if has_tag else at + 1
        if words[begin : begin + 1] != [b"{"]:
            continue
        found = listed(words, begin + 1)
        if has_tag:
            (tags if found else others).add(words[at + 1])
        if found:
            zeros.update(name for name, is_zero in found[0] if is_zero)
            behind = words[found[1] + 1 : found[1] + 3]
            if words[at - 1] == b"typedef" and len(behind) == 2 and WORD.fullmatch(behind[0]) and behind[1] == b";":
                types.add(behind[0])
    return tags - others, types, zeros


def objects(words, tags, types):
    """The names that only objects of these enums have."""
    found, others = set(), set()
    for at in range(1, len(words) - 1):
        word, before = words[at], words[at - 1]
        if WORD.fullmatch(word) and words[at + 1] in BEHIND:
            if before in types or before in tags and words[at - 2] == b"enum":
                found.add(word)
            elif before == b"*" or WORD.fullmatch(before) and before not in NOT_DECLARING:
                others.add(word)
    return found - others


def warnings(text, name):
    """For each such comparison its line with a mark below the object, and what it is elsewhere."""
    lines, shown = [line for file, _, line in places.lines(text, name) if file is not None], []
    plain = b"\n".join(lines)
    starts, words = zip(*places.tokens(plain).items()) if plain.strip() else ((), ())
    words = list(words)
    tags, types, zeros = unsigned(words)
    known = objects(words, tags, types) if tags or types else set()
    for at in range(len(words) - 2):
        is_compared = words[at + 1] in (b">=", b"<") and (words[at + 2] == b"0" or words[at + 2] in zeros)
        if words[at] in known and is_compared and words[at - 1] not in (b".", b"->", b"[", b"*", b"-", b"+"):
            first = plain.rfind(b"\n", 0, starts[at]) + 1
            line = plain[first : plain.find(b"\n", first) if b"\n" in plain[first:] else len(plain)]
            always = b"always" if words[at + 1] == b">=" else b"never"
            shown += [b"  " + part for part in places.marked(line, starts[at] - first + 1)]
            shown.append(b"  `" + words[at] + b"` is an int here, and unsigned in gcc and clang, where no constant of its enum is negative: there this is " + always + b" true (docs/machine.md).")
    return shown
