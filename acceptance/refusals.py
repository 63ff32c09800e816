#!/usr/bin/python3
"""Goes through every refusal of the office's tools: each one is provoked, and must say the file, the place and what to do.

acceptance/refusals.py PROGRAM finds each place in tools/office at which a call is refused, and runs the calls of bad_exports.py and bad_calls.py. It checks
that each place is reached, that each line names its file and ends with what docs/faults.md says to do, and that no row of that page is unused. The last
line says how many came out as they should.
"""
import ast
import contextlib
import glob
import io
import os
import sys
import tempfile
import traceback
from unittest import mock

TOP = os.path.dirname(os.path.dirname(os.path.abspath(__file__)))
OFFICE = os.path.join(TOP, "tools", "office")
sys.dont_write_bytecode = True
sys.path.insert(0, OFFICE)

import places  # noqa: E402, F401
try:
    import convert  # the one in office/, as are the next ones
except ImportError as missing:
    print(f"acceptance/refusals.py: NOT TRIED: {missing}; apt-get install python3-ijson python3-openpyxl")
    sys.exit(1)

import agree  # noqa: E402
import ask  # noqa: E402
import bad_calls  # noqa: E402
import bad_exports  # noqa: E402
import batches  # noqa: E402
import boxes  # noqa: E402
import called  # noqa: E402
import cards  # noqa: E402
import convert_book  # noqa: E402
import export  # noqa: E402
import import_claims  # noqa: E402
import manifest  # noqa: E402
import named  # noqa: E402
import plan_poll  # noqa: E402
import records  # noqa: E402
import rounds_by_order  # noqa: E402
import what_to_do  # noqa: E402
import words  # noqa: E402

TOOLS = {tool.NAME: tool for tool in (agree, batches, boxes, cards, export, import_claims, manifest, plan_poll, rounds_by_order)}
RAISES = {"Refusal", "refused", "told", "Broken", "broken", "BadNames", "error", "no_xml"}
HELPERS = {"refused", "told", "broken", "no_xml", "error"}  # the calls of these are looked at, and not what is in them
NOT_AN_OFFICE = ("release.py",)  # for people who make releases; acceptance/release.py tries it
UNREACHED = {  # what only a fault of the machine, of a library or of another program can cause
    "called.py: … doesn't begin with a line id,name or contest,id,name",  # of ./raire show; acceptance/page.py tries it
    "convert_seen.py: … | not comma-separated text: …",
    "ask.py: … | …: there is no program to ask", "convert_files.py: … | …: …: …",
    "export.py: … | …: the form … has no assertion of kind …",
    "cards.py: templates are missing: apt-get install python3-jinja2",
    "convert_sheet.py: workbooks need openpyxl: apt-get install python3-openpyxl; or save the sheet as CSV (UTF-8)",
}
REACHED = set()


def noted(kind):
    """Makes each refusal of this kind record the places in the code that lead to it."""
    plain = kind.__init__

    def told(self, *given):
        frame = sys._getframe(1)
        while frame is not None:
            if os.path.dirname(frame.f_code.co_filename) == OFFICE:
                REACHED.add((os.path.basename(frame.f_code.co_filename), frame.f_lineno))
            frame = frame.f_back
        plain(self, *given)

    kind.__init__ = told


def name_of(function):
    return function.id if isinstance(function, ast.Name) else function.attr if isinstance(function, ast.Attribute) else ""


def text_of(node):
    """The text that a call is given, with … for what isn't known from the source."""
    if isinstance(node, ast.Constant):
        return str(node.value) if isinstance(node.value, str) else "…"
    if isinstance(node, ast.JoinedStr):
        return "".join(text_of(each) if isinstance(each, ast.Constant) else "…" for each in node.values)
    return "…"


def sites():
    """Each place at which a call is refused: the file, its lines, and what is said there."""
    for path in sorted(glob.glob(os.path.join(OFFICE, "*.py"))):
        name = os.path.basename(path)
        if name in NOT_AN_OFFICE:
            continue
        with open(path, encoding="utf-8") as file:
            tree = ast.parse(file.read())
        helped = {id(node) for each in ast.walk(tree) if isinstance(each, ast.FunctionDef) and each.name in HELPERS for node in ast.walk(each)}
        for node in ast.walk(tree):
            if isinstance(node, ast.Call) and name_of(node.func) in RAISES and id(node) not in helped:
                said = " | ".join(text_of(each).strip() for each in node.args)
                yield name, range(node.lineno, node.end_lineno + 1), said


def called_so(tool, given):
    """The status and both outputs of a call, made in this process.

    Among its words, > PATH says where the output goes, RAIRE=PATH which program is asked, and MOST_RECORDS=N what a limit is.
    """
    err, to = io.StringIO(), next((word[2:] for word in given if word.startswith("> ")), None)
    program = next((word[6:] for word in given if word.startswith("RAIRE=")), os.environ["RAIRE"])
    limits = {name: int(number) for name, _, number in (word.partition("=") for word in given if word.startswith("MOST_"))}
    given = [word for word in given if not word.startswith(("> ", "RAIRE=", "MOST_"))]
    with output(to) as out, mock.patch.dict(os.environ, RAIRE=program), mock.patch.dict(vars(convert_book), limits), contextlib.redirect_stderr(err):
        if tool == convert.NAME:
            status = convert.main(given)
        elif tool == named.NAME:
            status = status_of_named(given)
        else:
            status = words.main(tool, TOOLS[tool].answer, given)
        with contextlib.suppress(OSError):
            out.flush()
        text = "" if to else out.buffer.getvalue().decode()
    return status, text, err.getvalue()


@contextlib.contextmanager
def output(path):
    """Standard output for a call: in memory, or the process's own output if it goes to a file."""
    if path is None:
        with contextlib.redirect_stdout(io.TextIOWrapper(io.BytesIO(), newline="")) as out:
            yield out
        return
    sys.stdout.flush()
    kept = os.dup(1)
    try:
        with open(path, "a") as file:
            os.dup2(file.fileno(), 1)
            with contextlib.redirect_stdout(open(os.dup(1), "w", newline="")) as out:
                yield out
    finally:
        os.dup2(kept, 1)
        os.close(kept)


def status_of_named(given):
    was, sys.argv = sys.argv, [named.NAME, *given]
    try:
        return named.main()
    finally:
        sys.argv = was


def cases():
    """The name of each call, the tool, its words, the status, and how its line continues after the tool's name."""
    for name, make in bad_exports.CASES.items():
        yield name, lambda folder, make=make: (convert.NAME, *make(folder))
    yield from bad_calls.CASES.items()


def wrong_in(tool, status, told, got):
    """What is wrong with a line, or None."""
    if got[0] != status or got[1] and status != what_to_do.TIE:
        return f"wanted status {status} and no text, got {got}"
    line = got[2].rstrip("\n")
    if told.startswith("raire: "):  # the program's own line
        return None if line.startswith(told) else f"wanted {told}, got {line}"
    if not line.startswith(f"{tool}: {told}"):
        return f"wanted {tool}: {told}, got {line}"
    if status != what_to_do.TIE and not any(said in line for said in what_to_do.SAID):
        return f"doesn't say what to do: {line}"
    return f"no row of docs/faults.md is about it: {line}" if line.endswith("What to do: docs/faults.md") else None


def try_all():
    """Runs each call, and yields what is wrong with what it says."""
    for name, make in cases():
        with tempfile.TemporaryDirectory() as place:
            folder = os.path.join(place, "in")
            os.mkdir(folder)
            here = os.getcwd()
            try:
                tool, given, status, told = make(folder)
                os.chdir(folder)
                got = called_so(tool, given)
                shown = got[2].replace(folder + "/", "").replace(folder, "in")
                yield name, wrong_in(tool, status, told, (got[0], got[1], shown))
            except Exception as fault:
                yield name, "".join(traceback.format_exception(fault)[-3:])
            finally:
                os.chdir(here)


def unreached():
    for name, lines, said in sites():
        is_reached = any((name, line) in REACHED for line in lines)
        yield f"{name}:{lines.start}", None if is_reached or f"{name}: {said}" in UNREACHED else f"no call is refused here: {said}"


def main():
    os.environ["RAIRE"] = os.path.abspath(sys.argv[1])
    for kind in (ask.Refusal, records.Broken, called.BadNames):
        noted(kind)
    tried = failed = 0
    for part in (try_all, unreached):
        for name, wrong in part():
            tried += 1
            if wrong:
                failed += 1
                print(f"{name}: {wrong}")
    print(f"{tried - failed} refusals as they should be, {failed} not")
    sys.exit(1 if failed else 0)


if __name__ == "__main__":
    main()
