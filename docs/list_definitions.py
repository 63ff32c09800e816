#!/usr/bin/env python3
"""Lists in docs/trust.md the definition files that `run` depends on: docs/list_definitions.py writes the list, --check only compares.

It begins with the definitions that the contract of `run` cites, and follows what each definition names to the end. It does the same for the laws that
README names. A file is listed if one of its definitions is reached.
"""
import os
import re
import sys

DOCS = os.path.dirname(os.path.abspath(__file__))
CRATES = os.path.join(DOCS, "..", "crates")
BEGIN, END = "<!-- listed by docs/list_definitions.py -->\n", "<!-- end of the list -->\n"
USE = re.compile(r"^(?:ghost |pub )?use Rattle\.(\w+)\.specs\.([\w.]+?)(?:\.\{([^}]*)\}| as (\w+))", re.MULTILINE)
HEAD = re.compile(r"^(?: *(?:abbrev |unfoldable )(?:pub )?| *(?:pub )?(?:record|data) |pub (?=\S+ :))(\S+)", re.MULTILINE)
WORD = re.compile(r"[^\s(){}\[\];,]+")
CALL, LAWS = ["raire_cli/src/call.rt"], ["call_laws/src/laws.rt", "audit_laws/specs/RiskLimit.antt"]


def text_of(path):
    with open(os.path.join(CRATES, path)) as file:
        return "\n".join(line.split("-- ")[0] for line in file.read().split("\n"))


def definition_file(crate, module):
    """The file of a module. A type of the code, which is in `declared`, is in no file."""
    parts = module.strip(".").split(".")
    for size in range(len(parts), 0, -1):
        found = f"{crate}/specs/{'/'.join(parts[:size])}.antt"
        if os.path.isfile(os.path.join(CRATES, found)):
            return found
    return None


class File:
    """A file of definitions, or a source: what it names in other files, and the words of each of its own definitions."""

    def __init__(self, path):
        text = text_of(path)
        self.named, self.modules, self.words = {}, {}, {}
        for crate, module, names, alias in USE.findall(text):
            found = definition_file(crate, module)
            if found and alias:
                self.modules[alias] = found
            for name in filter(None, (it.strip() for it in names.split(","))) if found else ():
                there, _, here = name.partition(" as ")
                self.named[here or there] = (found, there)
        heads = list(HEAD.finditer(text))
        for head, next_head in zip(heads, [*heads[1:], None]):
            block = text[head.start() : next_head.start() if next_head else len(text)]
            for name in [head[1], *(re.findall(r"^ +(\S+) :", block, re.MULTILINE) if " data " in f" {head[0]}" else [])]:
                self.words.setdefault(name, []).append(block)

    def cited(self, name):
        """Where the definitions that a definition of this file names are."""
        if name in self.named and name not in self.words:
            yield self.named[name]
        for block in self.words.get(name, []):
            for word in WORD.findall(block):
                first, _, rest = word.partition(".")
                if first in self.modules:
                    yield self.modules[first], rest.partition(".")[0]
                if first in self.named:
                    yield self.named[first]
                elif first in self.words:
                    yield None, first


def stood_on(paths):
    """The files with a definition that these sources, or all definitions of these files of definitions, depend on."""
    files, found = {}, set()

    def file_of(path):
        if path not in files:
            files[path] = File(path)
        return files[path]

    left = []
    for path in paths:
        left += [(path, name) for name in file_of(path).words] if "/specs/" in path else file_of(path).named.values()
    while left:
        path, name = left.pop()
        if (path, name) not in found:
            found.add((path, name))
            left += [(other or path, it) for other, it in file_of(path).cited(name)]
    return {path for path, name in found if name in file_of(path).words}


def rows(paths):
    """One row for each crate, the highest first."""
    with open(os.path.join(DOCS, "..", "crates.txt")) as file:
        order = [line.split(":")[0].split()[0] for line in file if ":" in line and not line.startswith("#")]
    for crate in reversed(order):
        names = sorted(path.split("/specs/")[1].removesuffix(".antt") for path in paths if path.startswith(f"{crate}/"))
        if names:
            yield f"| `{crate}` | {', '.join(names)} |\n"


def listed():
    of_call = stood_on(CALL)
    of_laws = stood_on(LAWS) - of_call
    head = "| crate | definitions, `NAME.antt` in its `specs/` |\n|---|---|\n"
    return (
        f"`run` rests on these {len(of_call)} files:\n\n{head}{''.join(rows(of_call))}\n"
        f"The laws over its calls, and the risk limit, on {len(of_laws)} more:\n\n{head}{''.join(rows(of_laws))}"
    )


def main():
    path = os.path.join(DOCS, "trust.md")
    with open(path) as file:
        text = file.read()
    head, _, rest = text.partition(BEGIN)
    written = head + BEGIN + listed() + END + rest.partition(END)[2]
    if sys.argv[1:] == ["--check"]:
        sys.exit("docs/trust.md: the list isn't that of the definitions that are reached; docs/list_definitions.py writes it" if written != text else 0)
    with open(path, "w") as file:
        file.write(written)


if __name__ == "__main__":
    main()
