"""Reads Clear Ballot's export of cast vote records as CSV: a line for each card, and a column for each choice, whose cell has the rank that it was given."""
import re

import convert_columns
from convert_export import add_mark, RANKED, refused

CHOICE = re.compile(r"Choice_[^:]*:([^:]+):Vote For (\d+):([^:]+):([^:]*)", re.IGNORECASE)
NUMBER = "rownumber"
OWN_ID = ["BoxID", "BoxPosition"]
UNKNOWN = "isn't said to be ranked (Clear Ballot's form doesn't say it of any)"


class Export(convert_columns.Export):
    def __init__(self, paths, options):
        self.compares, self.numbers = options.counts == "compare", {}
        super().__init__(paths, options)

    def head_of(self, source, rows):
        return self.rows(source, rows, 1)

    def read_head(self, source, head):
        (place, names), = head
        self.width, lower = len(names), [name.lower() for name in names]
        self.places = {name: column for column, name in reversed(list(enumerate(lower)))}
        for column, name in enumerate(names):
            if lower[column].startswith("choice_"):
                found = CHOICE.fullmatch(name)
                if not found:
                    form = "Choice_, contest, Vote For and a number, choice and party with colons between (Clear Ballot's form)"
                    raise refused(place, f"column {column + 1}: {name} isn't {form}")
                self.add_choice(place, column, found[1].strip(), found[3].strip(), None, why_not=UNKNOWN, seats=int(found[2]))
                self.contests[found[1].strip()].says_kind = False
        if not self.contests:
            raise refused(place, "no column begins with Choice_ (Clear Ballot's form)")
        wanted = self.options.id or OWN_ID
        missing = [name for name in wanted if name.lower() not in self.places]
        if missing:
            raise refused(place, f"no column is called {missing[0]}; --id says which the card's id is made of")
        self.made_of, self.id_columns = "_".join(wanted), [self.places[name.lower()] for name in wanted]

    def mark(self, marks, contest, number, rank, cell, place, column):
        rank = convert_columns.number_in(cell, place)
        if rank > 1 and self.options.made != RANKED:
            raise refused(place, f"is {rank}, a rank: the contest is ranked, so leave --as {self.options.made} away")
        add_mark(marks, rank, contest.mark(number, column))

    def id_of(self, row, place):
        return "_".join(row[column] for column in self.id_columns)

    def see_row(self, source, row, place):
        """Checks the rows' own numbers: a file that lacks some rows is refused."""
        column = self.places.get(NUMBER)
        if column is not None and self.compares:
            number, expected = convert_columns.number_in(row[column], place.at("RowNumber")), self.numbers.get(source)
            if expected is not None and number != expected:
                raise refused(place, f"RowNumber is {number} after {expected - 1}: rows are missing or duplicated; --counts ignore takes what is there")
            self.numbers[source] = number + 1
