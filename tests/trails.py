#!/usr/bin/env python3
"""Compares the trails of texts with those that were worked out by hand from the definitions, and looks at their pictures.

Usage, at the project's root: python3 tests/trails.py
tests/trails.rows has each text in one line, `states N ` in front, where N is the budget, and behind it the lines of its trail (tools/graph/states.rt.in says how). The program of tools/graph is asked for each.
The picture of each is to be well-formed, with a frame for each entry, and with all that the lines say of what objects hold. It prints each text that has another trail, or another picture; the status is 1 where there is one.
"""
import sys
import xml.etree.ElementTree
from pathlib import Path

HOME = Path(__file__).resolve().parent.parent
sys.path[:0] = [str(HOME / "tools"), str(HOME / "tests")]
from flow_graphs import asked, rows  # noqa: E402
from front import states  # noqa: E402

ROWS = HOME / "tests" / "trails.rows"


def is_drawn(lines):
    """Whether the picture of these lines has a frame for each entry, and each part of what is said of its objects."""
    tree = xml.etree.ElementTree.fromstring(states.picture(lines))
    marks = [node for node in tree.iter() if node.tag.endswith("rect") and node.get("rx")]
    texts = [node.text for node in tree.iter() if node.tag.endswith("text")]
    parts = [part for line in lines if line.startswith("  o") for part in line.partition(": ")[2].split("; ")[1:]]
    return len(marks) == sum(line.startswith(("entry", "next")) for line in lines) and all(part in texts for part in parts)


def main():
    wanted = rows(ROWS.read_text().split("\n"))
    got = asked([text for text, _ in wanted])
    unlike = [(one, other) for one, other in zip(wanted, got) if one != other]
    for (text, shown), (_, other) in unlike:
        print(text, *("  wanted " + line for line in shown if line not in other), *("  got    " + line for line in other if line not in shown), sep="\n")
    undrawn = [text for text, shown in wanted if not is_drawn(shown)]
    for text in undrawn:
        print(f"{text}\n  is not drawn whole")
    print(f"trails: {len(wanted) - len(unlike)} of {len(wanted)} are as wanted, {len(wanted) - len(undrawn)} pictures")
    return 1 if unlike or undrawn or len(got) != len(wanted) else 0


if __name__ == "__main__":
    sys.exit(print(__doc__) if "--help" in sys.argv else main())
