#!/usr/bin/env python3
"""Checks that the program takes only the handle `Threads`: none of its sources names a handle with which a call may wait, end the process, open a socket
or start a program.

The kit's check proves that each function returns, unless it takes one of these handles as a bound. `main` gets the handles that the code below it asks
for. HANDLES allows more than these sources use, so `rt ci` wouldn't refuse `Wait`. This script only reads the sources; it proves nothing again.
"""
import glob
import os
import re
import sys

from build import PROGRAM, TOP, below, named_in

OTHERS = re.compile(r"\b(?:Wait|Abort|Net|Processes)\b|\bforever\(")
LEFT_OUT = re.compile(r"//.*|'(?:\\.|[^'\\])'|\"(?:\\.|[^\"\\])*\"")  # comments, characters and strings


def faults(path):
    """Each line of a source that names another handle."""
    with open(path, encoding="utf-8") as file:
        for number, line in enumerate(file, 1):
            found = OTHERS.search(LEFT_OUT.sub("", line))
            if found:
                yield f"{os.path.relpath(path, TOP)}:{number}: {found[0]}: the program takes no handle but Threads"


def main():
    crates = sorted({PROGRAM} | below(PROGRAM, named_in(os.path.join(TOP, "crates.txt"))))
    paths = [path for crate in crates for path in sorted(glob.glob(os.path.join(TOP, "crates", crate, "src", "**", "*.rt"), recursive=True))]
    told = [line for path in paths for line in faults(path)]
    print("\n".join(told or [f"{len(crates)} crates, {len(paths)} sources: no handle but Threads"]))
    sys.exit(1 if told or not paths else 0)


if __name__ == "__main__":
    main()
