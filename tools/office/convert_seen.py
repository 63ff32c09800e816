"""Reads what people read from cards: seen files, and files of the marks as they are on paper. `seen` makes the ballot file of a full count of them,
`marks` a seen file."""
import csv

import convert_files
import records
from ask import ask, Refusal
from convert_export import add_mark, Candidate, Card, Contest, NAME, PAIRS, Place, RANKED, refused, Vote
from convert_sheet import WORDS

BALLOT, MARKS = "ballot", "marks"
WRITE_IN = "write-in"
WHOLE = "the contest of all pairs"


class Export:
    """The readings. The contests and their candidates are those of a ballot file. A card may be in several files, with a different contest in each."""

    made_of = "those of the cards that were read"

    def __init__(self, paths, options):
        self.paths, self.options, self.notes, self.missing = paths, options, {}, []
        self.sources = [convert_files.Source(path) for path in paths]
        self.contests = {}
        self.pairs = self.heads() if options.made == PAIRS else {}
        for key, ids in ({WHOLE: list(dict.fromkeys(each for both in self.pairs.values() for each in both))} if self.pairs else self.heads()).items():
            contest = self.contests[key] = Contest(key, key, [Candidate(each, each, WORDS.get(each.lower()) == WRITE_IN) for each in ids])
            contest.keeps_order, contest.is_ranked = True, options.made == RANKED
        self.stood, self.has_contests = set(), False

    def heads(self):
        """The candidates of each contest of the ballot file. The program judges the file; a tie isn't a fault of the file."""
        data = convert_files.Source(self.options.ballots).read()
        try:
            found = records.contests_of(data)
        except (ValueError, LookupError, StopIteration):
            found = {}
        contest = self.options.contest[0] if self.options.contest else next(iter(found), None)
        try:
            ask(NAME, "tabulate", [self.options.ballots], *([f"--contest={contest}"] if contest else []))
        except Refusal as refusal:
            if refusal.status not in (3, 4):
                raise
        return found

    def see_chosen(self, contests):
        pass

    def cards(self, contests):
        taken = {contest.key: contest for contest in contests}
        votes = {}
        for source in self.sources:
            for place, fields in rows_of(source):
                self.read(place, fields, taken, votes)
        for card, (place, found) in votes.items():
            yield Card(place, card, found)

    def read(self, place, fields, taken, votes):
        card, *rest = fields
        name = None
        if not any(rest):
            raise refused(place, f"the card {card} has no reading")
        if rest[0] not in (BALLOT, MARKS, records.MISSING):
            name, *rest = rest
            if name not in self.contests or not rest:
                raise refused(place, f"{name or 'a blank'} is neither {BALLOT}, {MARKS} nor {records.MISSING}, nor a contest of {self.options.ballots}")
            self.has_contests = True
        elif len(taken) > 1:
            raise refused(place, f"doesn't say which contest it is about; name one with --contest: {'; '.join(taken)}")
        contest = self.contests[name] if name else next(iter(taken.values()))
        if (card, contest.key) in self.stood:
            raise refused(place, f"the card {card} is listed twice{f' with the contest {name}' if name else ''}")
        self.stood.add((card, contest.key))
        if contest.key in taken:
            self.add(place, card, contest, rest, votes)

    def add(self, place, card, contest, rest, votes):
        word, *marked = rest if rest else ("",)
        if word == records.MISSING:
            if any(marked):
                raise refused(place, f"the card {card} is missing, and something comes after that")
            self.missing.append((card, contest.key))
            self.notes["cards that weren't found"] = self.notes.get("cards that weren't found", 0) + 1
            return
        if word not in (BALLOT, MARKS):
            raise refused(place, f"the card {card} has no reading: neither {BALLOT}, {MARKS} nor {records.MISSING} comes after it")
        marks = self.marks_of(place, contest, marked) if word == MARKS else self.ranking_of(place, contest, marked)
        votes.setdefault(card, (place, []))[1].append(Vote(contest, marks))

    def ranking_of(self, place, contest, fields):
        """The candidates who are ranked in a seen file, which already omits what doesn't count."""
        ids = list(dict.fromkeys(filter(None, fields)))
        return {rank: {self.choice(place, contest, each, rank)} for rank, each in enumerate(ids, 1)}

    def marks_of(self, place, contest, fields):
        """The marks from pairs of a rank and the candidate who is marked there."""
        marks = {}
        while fields and not fields[-1]:
            fields = fields[:-1]
        if len(fields) % 2:
            raise refused(place, f"after {MARKS}, expected pairs of a rank and a candidate; there are {len(fields)} fields")
        for rank, each in zip(fields[::2], fields[1::2]):
            if not (rank.isascii() and rank.isdigit() and int(rank) >= 1):
                raise refused(place, f"{rank or 'a blank'} isn't a rank")
            add_mark(marks, int(rank), self.choice(place, contest, each, int(rank)))
        return marks

    def choice(self, place, contest, each, rank):
        if each.lower() == WRITE_IN and each not in contest.numbers:
            found = [candidate.key for candidate in contest.candidates if candidate.is_write_in]
            if not found and self.options.write_ins != "drop":
                why = f"a write-in is marked, and contest {contest} of {self.options.ballots} has no candidate for write-ins; --write-ins drop passes over them"
                raise refused(place, why)
            each = found[0] if found else Candidate(WRITE_IN, WRITE_IN, True).key
            if not found:
                contest.add(Candidate(WRITE_IN, WRITE_IN, True))
        if each not in contest.numbers:
            raise refused(place, f"{each} isn't a candidate of contest {contest} in {self.options.ballots}")
        return contest.mark(contest.numbers[each], rank)


def rows_of(source):
    """The records of a file, by the rules of a seen file. A quote that isn't closed in its line is refused."""
    try:
        for at, fields in records.rows_of(source.read()):
            if any("\n" in field or "\r" in field for field in fields):
                raise refused(Place(source, "record", at), "has a quote that isn't closed in its line")
            yield Place(source, "record", at), fields
    except csv.Error as fault:
        raise refused(source, f"not comma-separated text: {fault}") from None
