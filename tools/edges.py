#!/usr/bin/env python3
"""Prints the rows of tools/edges.txt that have one of these words as a whole: `python3 tools/edges.py WORD ..`. A word is a crate, a definition, or what
pins one. docs/EDGES.md says what the rows mean."""
import re
import sys
from pathlib import Path

ROWS = Path(__file__).resolve().parent / "edges.txt"


def rows():
    """The cells of each row: its crate, its definitions or clauses, what must be right, and what pins it."""
    for line in ROWS.read_text(encoding="utf-8").splitlines():
        if line.startswith("| "):
            yield [it.strip() for it in line.strip("|").split("|")]


def main():
    """Prints each row that one of the words is in, and ends with status 1 if there is none."""
    words = sys.argv[1:]
    if not words:
        sys.exit(__doc__)
    found = [it for it in rows() if set(words) & set(re.findall(r"[\w-]+", " ".join([it[0], it[1], it[3]])))]
    for crate, names, right, pins in found:
        print(f"{crate}: {names}\n  right: {right}\n  pinned by: {pins}")
    sys.exit(not found)


if __name__ == "__main__":
    main()
