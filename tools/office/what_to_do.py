"""Finds what to do about a refusal: the row of docs/faults.md that has its line. The office's tools print it after their own line."""
import os
import re
import sys

from ask import TOP

sys.path.append(os.path.join(TOP, "tools", "hints"))

import table  # noqa: E402

OPEN = re.compile(r"\.\.|<[a-z ]+>")  # the parts that a line of the page leaves open
SAID = ("What to do", "./raire help", "apt-get install")  # a line with one of these already says what to do
PAGE = "docs/faults.md"
PAGE_MAKER = "show"
TIE = 3  # an answer, whose line says how to continue


def lines_of(cell):
    """The lines that a cell quotes. A line of the program is also a tool's line, with the tool's name in front."""
    return [line.removeprefix("raire: ") for line in re.findall("`([^`]+)`", cell)]


def expression(line):
    """The expression that a text matches if the line is about it."""
    return ".*".join(re.escape(part) for part in OPEN.split(line.strip(" .")))


def weight(line):
    """The length of the fixed part of a line."""
    return len(OPEN.sub("", line))


def rows():
    """The status of each line of the page, the line, and what to do. The lines of ./raire show have no status, since their table has none."""
    for cells in table.rows("faults.md"):
        if len(cells) == 4 and cells[0].isdigit() and cells[3]:
            yield from ((int(cells[0]), line, cells[3]) for line in lines_of(cells[1]))
        elif len(cells) == 3 and cells[0].startswith("`"):
            yield from ((None, line, cells[2]) for line in lines_of(cells[0]))


def row_of(name, status, text):
    """The row that matches the most of a text, or None. A row that names the tool comes before all others."""
    statuses = {status, None} if name == PAGE_MAKER else {status}
    found = [row for row in rows() if row[0] in statuses and re.search(expression(row[1]), text)]
    return max(found, key=lambda row: (row[1].startswith(f"{name}: "), weight(row[1])), default=None)


def said(name, status, text):
    """The text of a refusal, and what to do about it. The program's own text stays as it is."""
    if status == TIE or not text.startswith(f"{name}: ") or any(word in text for word in SAID):
        return text
    return f"{text.rstrip('.' + chr(10))}. What to do: {advice(name, status, text)}\n"


def advice(name, status, text):
    """What the page says to do, or the name of the page if no row is about the text or the page can't be read."""
    try:
        row = row_of(name, status, text)
        return table.in_words(row[2], table.limits()) if row else PAGE
    except OSError:
        return PAGE
