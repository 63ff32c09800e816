"""What the line of a refusal means: the tables of docs/faults.md, with the limits of docs/formats.md in place of their names."""
import os
import re

DOCS = os.path.join(os.path.dirname(os.path.dirname(os.path.dirname(os.path.abspath(__file__)))), "docs")
# What the program itself says, not the tools around it: a tool's line begins with the tool's name.
KEYS = re.compile(r"`(?:raire: (?:<[a-z]+>: )?)?([BCFMSV][0-9]+|bad words|no such file|too long|read fault)\b")
OF_A_SESSION = ", of a session"  # a row about a call that has a session
OF_CONTESTS = ", of all contests"  # a row about `contests`


def rows(page):
    """The cells of each row of a page's tables."""
    with open(os.path.join(DOCS, page), encoding="utf-8") as file:
        for line in file:
            if line.startswith("| "):
                yield [cell.strip() for cell in line.strip().strip("|").split("|")]


def limits():
    """The number of each limit in formats.md, as it is written there."""
    found = {}
    for cells in rows("formats.md"):
        if len(cells) == 4:
            names, numbers = re.findall("`([A-Z_]+)`", cells[1]), re.findall("[0-9]+(?:,[0-9]{3})*", cells[2])
            if len(names) == len(numbers):
                found.update(zip(names, numbers))
    return found


def in_words(cell, numbers):
    """A cell without its markup, and with the number of each limit."""
    text = re.sub(r"\[([^\]]*)\]\([^)]*\)", r"\1", cell)
    return re.sub("`([^`]*)`", lambda quoted: numbers.get(quoted[1], quoted[1]), text)


def causes():
    """The cause for each rule, and for each line that names no rule. The first row that has it counts. Numbers have only digits, as in the files."""
    found, digits = {}, {name: number.replace(",", "") for name, number in limits().items()}
    for cells in rows("faults.md"):
        if len(cells) == 4 and cells[0].isdigit() and (key := KEYS.match(cells[1])):
            about = next((words for words in (OF_A_SESSION, OF_CONTESTS) if cells[1].endswith(words)), "")
            found.setdefault(key[1] + about, in_words(cells[2], digits))
    return found
