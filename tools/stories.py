#!/usr/bin/env python3
"""Prints what each example is about: what the index of examples/ says of it, or the comment with which its text begins.

    tools/stories.py FOLDER..      these folders of examples/; without a name all of them
"""
import re
import sys
from pathlib import Path

EXAMPLES = Path(__file__).resolve().parent.parent / "examples"
# The line that has an input's words.
WORDS = re.compile(r"# (run|ecn|(?:replay|campaign|listen) .*)$")


def rows():
    """Returns the stories that the index has, by folder and name."""
    page, stories = (EXAMPLES / "INDEX.md").read_text(encoding="utf-8"), {}
    for folder, section in re.findall(r"^## (\w+)/.*\n((?:(?!## ).*\n)*)", page, flags=re.M):
        for part in re.split(r"\n(?=\n|- )", section):
            it = re.match(r"\s*- ((?:`\w+`(?:,\s+)?)+):(.*)", part, flags=re.S)
            for name in re.findall(r"\w+", it[1]) if it else ():
                stories[f"{folder}/{name}"] = " ".join(it[2].split())
    return stories


def head(path):
    """Returns the comment with which a text begins, after the line of its words."""
    said = []
    for line in path.read_text(encoding="utf-8", errors="replace").splitlines():
        if not line.startswith("# "):
            break
        if not WORDS.match(line):
            said.append(line[2:])
    return " ".join(said)


def main():
    stories = rows()
    for path in sorted(it for it in EXAMPLES.glob("*/*") if it.suffix not in (".expected", ".json", ".capture")):
        name = path.relative_to(EXAMPLES)
        if not sys.argv[1:] or name.parts[0] in sys.argv[1:]:
            print(f"{name}: {stories.get(name.with_suffix('').as_posix()) or head(path)}")


if __name__ == "__main__":
    main()
