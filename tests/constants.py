#!/usr/bin/env python3
"""Compares types and values of constants with gcc, and the rows of crates/typing/specs/constants/Rows.antt with the same table.

Usage, at the project's root: tests/constants.py [COUNT [SEED]]
Three hundred random constants are read here by the table of C11 6.4.4.1 and the rules of 6.4.4.4, and gcc is asked, by
static assertions, whether each has that very type, size, sign and value, and by its warnings which fit no type. Where
there is a clang it is asked the same for Windows, where a long has 4 bytes. The gate does not run this.
"""
import random
import re
import shutil
import subprocess
import sys
import tempfile
from pathlib import Path

ROWS = Path(__file__).resolve().parent.parent / "crates" / "typing" / "specs" / "constants" / "Rows.antt"
SUFFIXES = {"": "", "u": "u", "l": "l", "ll": "ll", "ul": "ul", "lu": "ul", "ull": "ull", "llu": "ull"}
# C11 6.4.4.1p5, for decimal constants and for the others
DECIMAL = {"": ["int", "long", "long long"], "l": ["long", "long long"], "ll": ["long long"]}
OTHERS = {
    "": ["int", "unsigned int", "long", "unsigned long", "long long", "unsigned long long"],
    "l": ["long", "unsigned long", "long long", "unsigned long long"],
    "ll": ["long long", "unsigned long long"],
    "u": ["unsigned int", "unsigned long", "unsigned long long"],
    "ul": ["unsigned long", "unsigned long long"],
    "ull": ["unsigned long long"],
}
ESCAPES = dict(zip(b"'\"?\\abfnrtv", b"'\"?\\\a\b\f\n\r\t\v"))
UNFIT = re.compile(r"too large|so large|out of range|cannot be represented|interpreting as unsigned")


def integer(text):
    """The base's lists of types, the suffix and the value, or None where the text is no integer constant."""
    found = re.fullmatch(r"(0[xX]([0-9a-fA-F]+)|0[0-7]*|[1-9][0-9]*)([uUlL]*)", text)
    suffix = found and SUFFIXES.get(found[3].replace("U", "u").replace("LL", "ll").replace("L", "l"))
    if suffix is None or "lL" in found[3] or "Ll" in found[3]:
        return None
    if found[2]:
        return OTHERS, suffix, int(found[2], 16)
    if text[0] == "0":
        return OTHERS, suffix, int(found[1], 8)
    return {**OTHERS, **DECIMAL}, suffix, int(found[1])


def letter(spelling):
    """The number of the character between quotes, or None."""
    if found := re.fullmatch(rb"'\\([0-7]{1,3})'", spelling):
        return int(found[1], 8)
    if found := re.fullmatch(rb"'\\x([0-9a-fA-F]+)'", spelling):
        return int(found[1], 16)
    if found := re.fullmatch(rb"'\\(.)'", spelling):
        return ESCAPES.get(found[1][0])
    found = re.fullmatch(rb"'([^'\\\n])'", spelling)
    return found and found[1][0]


def meaning(spelling, long_bytes):
    """The type's name, its bytes, whether it has a sign, and the value's bits; or why there are none."""
    code = letter(spelling)
    if code is not None:
        return ("int", 4, True, (code - 256 * (code > 127)) % 2**32) if code < 256 else "FitsNoType"
    parts = integer(spelling.decode("latin-1"))
    if parts is None:
        return "NoConstant"
    table, suffix, value = parts
    for name in table[suffix]:
        size = 4 if name.endswith("int") else 8 if name.endswith("long long") else long_bytes
        signed = not name.startswith("unsigned")
        if value < 2 ** (8 * size - signed):
            return name, size, signed, value
    return "FitsNoType"


def without_name(told):
    """The bytes, sign and bits of what a constant means."""
    return told[1:] if isinstance(told, tuple) else told


def rows():
    """The rows of the definitions: a spelling, and what it means in both data layouts."""
    kinds = {"s4": (4, True), "u4": (4, False), "s8": (8, True), "u8": (8, False)}
    for line in ROWS.read_text().splitlines():
        found = re.match(r" +(?:∷ )?(both|differ) (\[\]|\(codes \"(.*?)\"\)|\(([0-9 ∷]+)\[\]\)) (.*)", line)
        if found:
            spelling = bytes(int(byte) for byte in (found[4] or "").split("∷")[:-1])
            if found[3] is not None:
                spelling = re.sub(r"\\(.)", r"\1", found[3]).encode()
            told = [(*kinds[kind], int(bits)) if kind else word for kind, bits, word in
                    re.findall(r"\((\w\d) (\d+)\)|(FitsNoType|NoConstant)", found[5])]
            assert len(told) == (2 if found[1] == "differ" else 1), line
            yield spelling, told[0], told[-1]


def value(chance):
    """A number of any length, often beside a border."""
    if chance.random() < 0.6:
        return max(0, 2 ** chance.choice([0, 7, 8, 15, 16, 31, 32, 63, 64, 128]) + chance.randint(-2, 2))
    return chance.getrandbits(chance.randint(1, 70))


def random_constant(chance):
    """An integer constant, or in one of four cases a character."""
    if chance.random() < 0.25:
        return chance.choice([
            lambda: b"'%c'" % chance.choice([byte for byte in range(32, 127) if byte not in b"'\\"]),
            lambda: b"'\\%c'" % chance.choice(list(ESCAPES)),
            lambda: b"'\\%0*o'" % (chance.randint(1, 3), chance.randint(0, 511)),
            lambda: b"'\\x%0*x'" % (chance.randint(1, 6), chance.randint(0, 300)),
        ])()
    number = value(chance)
    digits = chance.choice([str(number or 1), f"0{number:o}", f"0x{number:x}", f"0X{number:X}"])
    suffix = chance.choice(list(SUFFIXES))
    if chance.random() < 0.5:
        suffix = suffix.upper()
    elif "u" in suffix and chance.random() < 0.5:
        suffix = suffix.replace("u", "U")
    return (digits + suffix).encode()


def refused(compiler, spellings, long_bytes):
    """What the compiler does not agree with, by static assertions and warnings, a line each."""
    lines = []
    for spelling in spellings:
        told = meaning(spelling, long_bytes)
        text = spelling.decode("latin-1")
        if told == "FitsNoType":
            lines.append(f"int i{len(lines)} = sizeof({text});")
            continue
        name, size, signed, bits = told
        lines.append(
            f"_Static_assert(__builtin_types_compatible_p(__typeof__({text}), {name}) && sizeof({text}) == {size}"
            f" && ((__typeof__({text}))-1 < 0) == {int(signed)}"
            f" && ({'unsigned int' if size == 4 else 'unsigned long long'})({text}) == 0x{bits:x}ULL, \"\");")
    with tempfile.TemporaryDirectory() as folder:
        source = Path(folder, "constants.c")
        source.write_bytes("\n".join(lines).encode("latin-1") + b"\n")
        words = [*compiler, "-std=c11", "-pedantic", "-Wall", "-fsyntax-only", str(source)]
        said = subprocess.run(words, capture_output=True, text=True, errors="replace").stderr
    warned = {}
    for found in re.finditer(r"constants\.c:(\d+):\d+: (error|warning): (.*)", said):
        warned.setdefault(int(found[1]), []).append(found[3] if found[2] == "warning" else "error: " + found[3])
    for number, spelling in enumerate(spellings, 1):
        said = warned.get(number, [])
        unfit = any(UNFIT.search(text) for text in said)
        if unfit != (meaning(spelling, long_bytes) == "FitsNoType") or not unfit and any(t.startswith("error") for t in said):
            yield spelling, meaning(spelling, long_bytes), said


def main():
    count, seed = [int(word) for word in sys.argv[1:]] + [300, 1][len(sys.argv) - 1:]
    known = list(rows())
    wrong = [(spelling, long_bytes, told) for spelling, *both in known for long_bytes, told in zip((8, 4), both)
             if without_name(meaning(spelling, long_bytes)) != told]
    chance = random.Random(seed)
    spellings = [random_constant(chance) for _ in range(count)]
    spellings += [spelling for spelling, told, _ in known if told != "NoConstant" and max(spelling) < 128]
    asked = [(["gcc"], 8)]
    if shutil.which("clang"):
        asked.append((["clang", "--target=x86_64-w64-mingw32", "-ferror-limit=0"], 4))
    for compiler, long_bytes in asked:
        differing = list(refused(compiler, spellings, long_bytes))
        wrong += [(compiler[0], *what) for what in differing]
        print(f"{' '.join(compiler)}: {len(spellings) - len(differing)} of {len(spellings)} constants agree")
    print(f"{len(known)} rows are compared")
    for what in wrong:
        print("differs:", *what)
    return 1 if wrong else 0


if __name__ == "__main__":
    sys.exit(print(__doc__) if "--help" in sys.argv else main())
