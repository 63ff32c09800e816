#!/usr/bin/env python3
"""Writes the rows of crates in docs/map.md from crates.txt: docs/draw_map.py writes them, --check only compares.

A crate depends only on crates of lower rows.
"""
import os
import sys

DOCS = os.path.dirname(os.path.abspath(__file__))
BEGIN, END = "<!-- drawn by docs/draw_map.py -->\n", "<!-- end of the drawing -->\n"


def crates():
    """Each crate with the crates of the repository that it depends on."""
    with open(os.path.join(DOCS, "..", "crates.txt")) as file:
        lines = [line.split(":") for line in file if ":" in line and not line.startswith("#")]
    deps = {line[0].split()[0]: line[1].split() for line in lines}
    return {name: [below for below in words if below in deps] for name, words in deps.items()}


def row(deps, name):
    return 1 + max((row(deps, below) for below in deps[name]), default=-1)


def drawing(deps):
    rows = {}
    for name in deps:
        rows.setdefault(row(deps, name), []).append(name)
    width = len(str(max(rows)))
    listed = [f"{number:{width}}  {'  '.join(rows[number])}" for number in sorted(rows, reverse=True)]
    return "\n".join(["```", *listed, "```", ""])


def main():
    path = os.path.join(DOCS, "map.md")
    with open(path) as file:
        text = file.read()
    head, _, rest = text.partition(BEGIN)
    drawn = head + BEGIN + drawing(crates()) + END + rest.partition(END)[2]
    if sys.argv[1:] == ["--check"]:
        sys.exit("docs/map.md: the rows aren't those of crates.txt; docs/draw_map.py writes them" if drawn != text else 0)
    with open(path, "w") as file:
        file.write(drawn)


if __name__ == "__main__":
    main()
