#!/usr/bin/env python3
"""Compares the lines of crates.txt with the crates: each line must name the libraries that the crate's text names, and no others.

tools/build/names.py prints each library that a line has but the text doesn't, and each crate that the text has but the line doesn't. `rt` reads the
sources of each library once for each path that leads to it, so an extra name costs time in every build.
"""
import os
import re
import sys

TOP = os.path.dirname(os.path.dirname(os.path.dirname(os.path.abspath(__file__))))
PARTS = "src", "specs", "proofs"


def lines():
    """Each crate with the libraries that its line names."""
    with open(os.path.join(TOP, "crates.txt")) as file:
        rows = [line.split(":") for line in file if ":" in line and not line.startswith("#")]
    return {row[0].split()[0]: row[1].split() for row in rows}


def text_of(crate):
    texts = []
    for part in PARTS:
        for folder, _, files in os.walk(os.path.join(TOP, "crates", crate, part)):
            for name in files:
                with open(os.path.join(folder, name), encoding="utf-8") as file:
                    texts.append(file.read())
    return "\n".join(texts)


def is_module(crate, name):
    return any(os.path.exists(os.path.join(TOP, "crates", crate, "src", it)) for it in (name, name + ".rt"))


def main():
    told, named = [], lines()
    for crate, names in named.items():
        text = text_of(crate)
        others = [it for it in named if it not in [crate, *names] and not is_module(crate, it)]
        told += [f"crates.txt: {crate} uses {it}, which its line lacks" for it in others if re.search(rf"\bRattle\.{it}\.|\buse {it}::", text)]
        told += [f"crates.txt: {crate} doesn't use {name}" for name in names if not re.search(rf"\b{name}(::|\.)|\buse {name}\b", text)]
    print("\n".join(told), end="\n" if told else "")
    sys.exit(1 if told else 0)


if __name__ == "__main__":
    main()
