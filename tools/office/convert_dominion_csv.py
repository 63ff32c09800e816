"""Reads Dominion's export of cast vote records as CSV: four lines at the head, then a line for each card. It has a column for each choice; in a ranked
contest, one for each choice at each rank."""
import re

import convert_columns
from convert_dominion import VERSION, WITHHELD
from convert_export import add_mark, refused

TITLE = re.compile(r"(.*?)\s*\((?:Vote For\s*=\s*(\d+)|Number of positions\s*=\s*(\d+),\s*Number of ranks\s*=\s*(\d+))\)", re.IGNORECASE)
RANKED_CHOICE = re.compile(r"(.*?)\s*\((\d+)\)")
NUMBER, IMPRINTED = "cvrnumber", "imprintedid"
KEYS = {"tabulatornum": "TabulatorNum", "batchid": "BatchId", "recordid": "RecordId"}


class Export(convert_columns.Export):
    made_of = "TabulatorNum_BatchId_RecordId"

    def __init__(self, paths, options):
        self.compares, self.numbers = options.counts == "compare", {}
        super().__init__(paths, options)

    def head_of(self, source, rows):
        (place, first), *others = self.rows(source, rows, 4)
        if len(first) < 2 or not VERSION.fullmatch(first[1]):
            had = first[1] if len(first) > 1 and first[1] else "missing"
            raise refused(place, f"the version, the second field, is {had}; expected a Version 5, such as 5.10.50.85 (Dominion's CSV)")
        return [row for _, row in others]

    def read_head(self, source, head):
        titles, choices, names = head
        place = f"{source}: the four lines at the head"
        self.width = len(names)
        self.places = {name.lower(): column for column, name in reversed(list(enumerate(names))) if name}
        for key, name in KEYS.items():
            if key not in self.places:
                raise refused(place, f"no column is called {name} in the fourth (Dominion's CSV)")
        if not len(titles) == len(choices) == self.width:
            raise refused(place, f"the second has {len(titles)} fields, the third {len(choices)}, the fourth {self.width}")
        for column, (title, choice) in enumerate(zip(titles, choices)):
            if title:
                self.read_column(place, column, title, choice)

    def read_column(self, place, column, title, choice):
        found = TITLE.fullmatch(title)
        if not found:
            raise refused(place, f"column {column + 1}: {title} doesn't end in (Vote For=1) or (Number of positions=1, Number of ranks=4)")
        ranks, seats = int(found[4] or 0), int(found[2] or found[3])
        ranked = RANKED_CHOICE.fullmatch(choice) if ranks > 1 else None
        if ranks > 1 and not (ranked and 1 <= int(ranked[2]) <= ranks):
            raise refused(place, f"column {column + 1}: {choice} doesn't end in a rank from 1 to {ranks} in brackets, as in Ash(1)")
        name, rank = (ranked[1], int(ranked[2])) if ranked else (choice, None)
        if not name:
            raise refused(place, f"column {column + 1} of {found[1]} has no choice")
        why_not = "isn't ranked (Vote For)" if ranks < 2 else f"elects {seats} (Number of positions)" if seats != 1 else None
        self.add_choice(place, column, found[1], name, rank, most_rank=ranks, why_not=why_not, seats=seats)
        self.contests[found[1]].is_ranked = ranks > 1

    def mark(self, marks, contest, number, rank, cell, place, column):
        if cell != "1":
            raise refused(place, f"is {cell}; expected 1, 0, or nothing if the card doesn't have the contest")
        add_mark(marks, rank or 1, contest.mark(number, column))

    def see_row(self, source, row, place):
        """Keeps the smallest and the largest card number of a file, and how many cards it has: Dominion numbers the cards of an export."""
        column = self.places.get(NUMBER)
        if column is not None and self.compares:
            number = convert_columns.number_in(row[column], place.at("CvrNumber"))
            least, most, count = self.numbers.get(source, (number, number, 0))
            self.numbers[source] = min(least, number), max(most, number), count + 1

    def cards(self, contests):
        yield from super().cards(contests)
        upto = 0
        for source, (least, most, count) in sorted(self.numbers.items(), key=lambda pair: pair[1]):
            if least not in (1, upto + 1) or most - least + 1 != count:
                told = f"CvrNumber goes from {least} to {most} on {count} cards" + (f", and the cards before end with {upto}" if upto else "")
                raise refused(source, f"{told}: cards are missing or duplicated; --counts ignore takes what is there")
            upto = most

    def id_of(self, row, place):
        parts = [row[self.places[key]] for key in KEYS]
        if parts[2] == WITHHELD:
            imprinted = row[self.places[IMPRINTED]].split("-") if IMPRINTED in self.places else []
            if len(imprinted) != 3 or imprinted[:2] != parts[:2]:
                raise refused(place, f"RecordId is {WITHHELD}, and ImprintedId isn't {parts[0]}-{parts[1]}- and a number")
            parts[2] = imprinted[2]
        if not all(part.isascii() and part.isdigit() for part in parts):
            had = ", ".join(f"{name} {part or 'nothing'}" for name, part in zip(KEYS.values(), parts))
            raise refused(place, f"no id can be made of {had}: expected three whole numbers")
        return "_".join(str(int(part)) for part in parts)
