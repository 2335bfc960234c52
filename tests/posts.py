#!/usr/bin/env python3
"""Compares the starts of flow graphs, and the posts of their edges, with those that were worked out by hand.

Usage, at the project's root: python3 tests/posts.py
tests/posts/posts.rows has each row in one line (tests/posts/main.rt.in says how), and behind it, in a line that begins with two spaces, what is wanted. The program of tests/posts, which
tools/programs.py builds and keeps, is asked for each. It prints each row that is answered otherwise; the status is 1 where there is one.
"""
import sys
from pathlib import Path

HOME = Path(__file__).resolve().parent.parent
sys.path.insert(0, str(HOME / "tools"))
import programs  # noqa: E402

HERE = HOME / "tests" / "posts"
ROW = "start points 3; stands 3; function 0 1; return 1 2"


def main():
    lines = (HERE / "posts.rows").read_text().splitlines()
    rows = [(line, lines[at + 1].strip()) for at, line in enumerate(lines) if line.startswith(("start", "post"))]
    said = programs.answers(HERE, ROW, [line for line in lines if not line.startswith("  ")])
    got = [line for line in said if not line.startswith("# ")]
    if len(got) != len(rows):
        sys.exit(f"{len(rows)} rows, and {len(got)} answers: {got[:3]}")
    unlike = [(row, wanted, found) for (row, wanted), found in zip(rows, got) if wanted != found]
    for row, wanted, found in unlike:
        print(f"{row}\n  wanted {wanted}\n  got    {found}")
    print(f"posts: {len(rows) - len(unlike)} of {len(rows)} are as wanted")
    return 1 if unlike else 0


if __name__ == "__main__":
    sys.exit(print(__doc__) if "--help" in sys.argv else main())
