"""A CSV export with a column for each choice of each contest: what Dominion's and Clear Ballot's forms have in common."""
import csv

import convert_files
from alike import HOW
from convert_export import Candidate, Card, Contest, Place, refused, Vote
from convert_sheet import WORDS

NUMBERED = "a number from 0 up, or nothing if the card doesn't have the contest"


def rows_of(source):
    """The rows that aren't blank, with their places. Excel's ="7" is read as 7."""
    reader = csv.reader((line + "\n" for _, line in source.lines()), strict=True)
    try:
        for row in reader:
            if any(row):
                yield Place(source, "line", reader.line_num), [bare(cell) for cell in row]
    except csv.Error as fault:
        raise refused(Place(source, "line", reader.line_num), f"not comma-separated, or truncated: {fault}") from None


def bare(cell):
    cell = cell.strip()
    return cell[2:-1].strip() if cell.startswith('="') and cell.endswith('"') else cell


class Export:
    """The export. The first file's head lists the contests and choices, and further files have the same head."""

    numbers_cards = True  # --counts refers to the numbers of the cards

    def __init__(self, paths, options):
        self.paths, self.options, self.notes = paths, options, {}
        self.sources = [convert_files.Source(path) for path in paths]
        self.contests, self.columns, self.head = {}, {}, None
        for source in self.sources:
            rows = rows_of(source)
            head = self.head_of(source, rows)
            rows.close()
            if self.head is None:
                self.head = head
                self.read_head(source, head)
            elif head != self.head:
                raise refused(source, "has a different header from the first file")

    def rows(self, source, rows, number):
        """The first rows of a file, all of which must be there."""
        found = []
        for _ in range(number):
            place, row = next(rows, (None, None))
            if row is None:
                raise refused(source, f"has {len(found)} of the {number} lines at its head")
            found.append((place, row))
        return found

    def add_choice(self, place, column, title, name, rank, **of_contest):
        """Adds a column: a choice of a contest, at a rank if the column is for one rank."""
        contest = self.contests.get(title)
        if contest is None:
            contest = self.contests[title] = Contest(title, title, **of_contest)
            self.columns[title] = []
        is_write_in = WORDS.get(name.lower()) == "write-in"
        if contest.alike(name) is not None and not is_write_in:
            both = f"{name} and {contest.alike(name)} of {title} {HOW}"
            raise refused(place, f"column {column + 1}: {both}; write one of them for both in the head, or add what tells them apart")
        number = contest.add(Candidate(name, name, is_write_in))
        if (number, rank) in [each[1:] for each in self.columns[title]] and not contest.candidates[number].is_write_in:
            raise refused(place, f"column {column + 1}: a second column is {name}{'' if rank is None else f', rank {rank}'} of {title}")
        self.columns[title].append((column, number, rank))

    def see_chosen(self, contests):
        pass

    def cards(self, contests):
        for source in self.sources:
            rows, count = rows_of(source), 0
            self.head_of(source, rows)
            for count, (place, row) in enumerate(rows, 1):
                if len(row) != self.width:
                    raise refused(place, f"has {len(row)} fields, and its head has {self.width}")
                votes = [vote for vote in (self.vote(contest, row, place) for contest in contests) if vote is not None]
                self.see_row(source, row, place)
                yield Card(place, self.id_of(row, place) if votes else None, votes)
            if count == 0:
                raise refused(source, "has no records after its head")

    def see_row(self, source, row, place):
        pass

    def vote(self, contest, row, place):
        columns = self.columns[contest.key]
        if not any(row[column] for column, _, _ in columns):
            return None
        marks = {}
        for column, number, rank in columns:
            cell = row[column]
            if cell not in ("", "0"):
                self.mark(marks, contest, number, rank, cell, place.at(f"contest {contest.key}, column {column + 1}"), column)
        return Vote(contest, marks)


def number_in(cell, place):
    if not (cell.isascii() and cell.isdigit()):
        raise refused(place, f"is {cell}; expected {NUMBERED}")
    return int(cell)
