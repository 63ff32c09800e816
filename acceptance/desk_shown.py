"""README's audits in a shell: which files they have, and what they print, under the names that the desk uses."""
import glob
import os
import re
import tempfile
from typing import NamedTuple

import walk
from desk_visit import read, TOP


PATHS = re.compile(rb"(?<=[ >])(examples/[a-z]+|made)/")


class Shown(NamedTuple):
    """The section of a page that goes through an audit in a shell."""
    page: str
    section: str
    renamed: dict = {}  # the desk's name of a file, if it differs
    printed: dict = {}  # the desk's file that ends with what a command prints, by how the command begins
    aside: tuple = ()  # files that are made there and aren't part of the audit
    terms: str = ""


SHOWN = {
    "town": Shown(
        "README.md", "## An audit", {"session.json": "round2.json"},
        {
            "./raire check": "check.txt", "./raire boxes": "boxes.txt", "./raire plan": "plan.txt",
            "./raire report made/round1": "report1.txt", "./raire report made/round2": "report2.txt",
        },
        terms="examples/town_terms.txt",
    ),
    "village": Shown(
        "docs/full_count.md", "", {"session.json": "round1.json"},
        {"./raire plan": "plan.txt", "./raire report": "report1.txt", "./raire tabulate": "counted.txt"},
    ),
    "library": Shown("docs/rules.md", "## Plurality contests", {"session.json": "round2.json"}, {"cmp made/round2.json": "report2.txt"}),
    "county": Shown(
        "docs/many.md", "## All contests by one call", {"one.json": "assertions_6.json"},
        {"./raire boxes": "boxes.txt", "./raire contests $files --seed \"$seed\" --draws 80": "county80.txt"},
        ("contests", "err"),
    ),
}


def files_of(name, program):
    """Each file of an audit in a shell: its name there, the desk's name for it, and its bytes."""
    shown = SHOWN[name]
    yield from given(os.path.join(TOP, "examples", name), shown)
    if shown.terms:
        yield shown.terms, "terms.txt", read(os.path.join(TOP, shown.terms))
    text = next(part for part in walk.sections_of(read(os.path.join(TOP, shown.page), "r")) if part.startswith(shown.section))
    commands = [command for command, _ in walk.shown(text if shown.section else read(os.path.join(TOP, shown.page), "r"))]
    with tempfile.TemporaryDirectory() as folder:
        printed = walk.printed_by(commands, folder, walk.put_repository(program, folder))
        yield from given(os.path.join(folder, "made"), shown)
    for begin, file in shown.printed.items():
        found = [text for command, text in zip(commands, printed) if command.startswith(begin)]
        yield f"what {begin} prints", file, found[0].encode() if found else b"nothing"


def given(place, shown):
    for path in sorted(glob.glob(os.path.join(place, "*"))):
        file = os.path.basename(path)
        if file not in shown.aside:
            yield file, shown.renamed.get(file, file), read(path)


def is_same(what, data, there):
    """Whether the desk's file is the one of the shell.

    A command may show only the end or the beginning of what it prints, and a page contains the paths that it was made with.
    """
    if there is None:
        return False
    if what.startswith("what "):
        return bool(data) and (there.endswith(data) or there.startswith(data))
    return there == (PATHS.sub(b"", data) if what == "page.html" else data)
