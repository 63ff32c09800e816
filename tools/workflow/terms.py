"""The table of terms: how the contests of each county are searched and audited."""
import csv
import os
from typing import NamedTuple

import plain
from ask import Refusal
from limits import GREATEST_GAMMA, GREATEST_LIMIT, MOST_DRAWS, MOST_FLOOR, MOST_NODES, MOST_SETS
from plain_audit import is_seed, number_in

NAME = "terms.csv"
EVERYWHERE = "*"
AUDITS = ("contests", "session", "none", "skip")
MOST = {"limit": GREATEST_LIMIT, "gamma": GREATEST_GAMMA, "floor": MOST_FLOOR, "nodes": MOST_NODES, "sets": MOST_SETS}
OF_COUNTY = ("limit", "gamma", "seed", "draws")  # for a contest that `contests` audits, these are the county's


class Terms(NamedTuple):
    """The terms of a contest. A term is an empty text if the table doesn't say it: then the program's default applies."""
    audit: str = "none"
    limit: str = ""
    gamma: str = ""
    seed: str = ""
    draws: tuple = ()  # the numbers of draws at which the audit looks
    trim: str = ""
    floor: str = ""
    nodes: str = ""
    sets: str = ""


COLUMNS = Terms._fields


def wrong(line, text):
    return Refusal(1, f"state: {NAME}: line {line}: {text}\n")


def value_of(column, text, line):
    """The value of a cell that isn't empty."""
    if column == "audit" and text not in AUDITS:
        raise wrong(line, f"audit is one of {', '.join(AUDITS)}, and not {text}")
    if column == "trim" and text not in ("yes", "no"):
        raise wrong(line, f"trim is yes or no, and not {text}")
    if column == "seed" and not is_seed(text):
        raise wrong(line, "a seed is 1 to 64 characters from space to ~")
    if column in MOST and number_in(text, 1, MOST[column]) is None:
        raise wrong(line, f"{column} is a number from 1 to {MOST[column]}, and not {text}")
    return draws_of(text, line) if column == "draws" else text


def draws_of(text, line):
    draws = tuple(number_in(word, 1, MOST_DRAWS) for word in text.split())
    if None in draws or list(draws) != sorted(set(draws)):
        raise wrong(line, f"draws are rising numbers from 1 to {MOST_DRAWS} with a blank between, such as 40 90, and not {text}")
    return draws


class Table:
    """The rows of the table by county and contest. The contest is empty in a row for all contests."""

    def __init__(self, rows=()):
        self.rows, self.line_of = {}, {}
        for line, (county, contest), cells in rows:
            if (county, contest) in self.rows:
                raise wrong(line, f"the row of line {self.line_of[county, contest]} is about the same")
            self.rows[county, contest], self.line_of[county, contest] = cells, line
        self.see_rows()

    def see_rows(self):
        for (county, contest), cells in self.rows.items():
            line = self.line_of[county, contest]
            if contest and county == EVERYWHERE:
                raise wrong(line, f"a row with the county {EVERYWHERE} has no contest")
            if not contest:
                continue
            if cells.get("audit") == "contests":
                raise wrong(line, "contests audits all contests of a county: say so in a row without a contest")
            of_county = [column for column in OF_COUNTY if column in cells]
            if of_county and self.of(county, contest).audit == "contests":
                raise wrong(line, f"contests audits this contest, so its {of_county[0]} is the county's: say so in a row without a contest")

    def of(self, county, contest=""):
        """The terms of a county or a contest: each cell is that of the most specific row that has it."""
        cells = {}
        for row in ((EVERYWHERE, ""), (county, ""), (county, contest)):
            cells.update(self.rows.get(row, {}))
        return Terms(**cells)

    def see_named(self, counties):
        """Checks that each row is about a county and a contest that exist. `counties` has the contests of each, or None if its file can't be read."""
        for (county, contest), line in self.line_of.items():
            if county != EVERYWHERE and county not in counties:
                raise wrong(line, f"there is no folder counties/{county}")
            if contest and counties[county] is not None and contest not in counties[county]:
                raise wrong(line, f"no contest of counties/{county}/ballots.raire is called {contest}")


def rows_of(file):
    """The line, the county and contest, and the cells of each row."""
    reader = csv.DictReader(file, strict=True)
    head = [name.strip() for name in reader.fieldnames or []]
    unknown = [name for name in head if name not in ("county", "contest", *COLUMNS)]
    if "county" not in head or unknown or len(set(head)) < len(head):
        told = f"no column is called {unknown[0]}" if unknown else "a column is there twice" if "county" in head else "there is no column county"
        raise wrong(1, f"{told}; the columns are county, contest, {', '.join(COLUMNS)}")
    reader.fieldnames = head
    for row in reader:
        line = reader.line_num
        if None in row or None in row.values():
            raise wrong(line, "it has another number of cells than line 1")
        row = {name: text.strip() for name, text in row.items()}
        county, contest = row.pop("county"), row.pop("contest", "")
        if not county or contest and not plain.is_id(contest):
            raise wrong(line, "a county is missing" if not county else f"{contest} isn't an id of a contest")
        yield line, (county, contest), {name: value_of(name, text, line) for name, text in row.items() if text}


def read(folder):
    """The table of a state's folder. If there is none, nothing is audited."""
    path = os.path.join(folder, NAME)
    if not os.path.exists(path):
        return Table()
    try:
        with open(path, encoding="utf-8-sig", newline="") as file:
            return Table(rows_of(file))
    except (OSError, UnicodeDecodeError, csv.Error) as fault:
        raise Refusal(1, f"state: {NAME}: {fault}\n") from None
