"""What the record and the files of a folder say about the audit: what was chosen, what is known, and how far it is."""
import csv
import functools
import io
import itertools
import json
import os
from typing import NamedTuple

import plain_audit
import record
from limits import MOST_CONTESTS

COMPARISON, PLURALITY, POLL, CONTESTS = KINDS = ("comparison", "plurality", "poll", "contests")
BALLOTS, MANIFEST, BOXES, SEEN, COUNTED, NAMES = "ballots.raire", "manifest.csv", "boxes.txt", "seen.csv", "counted.raire", "names.csv"
READERS = ("A", "B")
HEAD_BYTES = 8 << 20  # the part of a ballot file that has the records of its contests
CONFIRMED, UNCONFIRMED = 0, 10
EACH, BEST = "each", "best"  # for a poll: a look after each draw, and the gamma that fits each margin


class Contest(NamedTuple):
    """A contest of the ballot file: its number there, from 1 on, its id, and the ids of its candidates."""
    number: int
    id: str
    candidates: tuple


class Round(NamedTuple):
    number: int
    draws: int
    before: int  # the draws of the rounds before it


class Audit:
    def __init__(self, folder):
        self.folder, self.record = folder, folder.record
        self.deeds = {deed.step: deed for deed in self.record}
        self.choices = {line.name: line.value for deed in self.record for line in deed.lines if isinstance(line, record.Choice)}
        self.files = record.files_of(self.record)

    # ---- what was chosen

    @property
    def kind(self):
        return self.choices.get("audit")

    @property
    def limit(self):
        return int(self.choices["limit"])

    @property
    def gamma(self):
        """The gamma in thousandths, or a word if a poll takes the gamma that fits each margin."""
        return BEST if self.choices["gamma"] == BEST else int(self.choices["gamma"])

    @property
    def is_each(self):
        """Whether a poll looks after each draw, not only at the end of a round."""
        return self.choices.get("looks") == EACH

    @property
    def seed(self):
        return self.choices.get("seed")

    @property
    def assertions(self):
        """The assertion file that is published."""
        return "trimmed.json" if "trimmed.json" in self.files else "assertions.json"

    def planned_rounds(self):
        return [int(draws) for draws in self.choices.get("rounds", "").split()]

    # ---- contests

    @functools.cached_property
    def contests(self):
        """The contests of the ballot file, or none if the file can't be read as one."""
        try:
            with open(self.folder.place(BALLOTS), "rb") as file:
                return contests_of(file.read(HEAD_BYTES))
        except (OSError, plain_audit.Broken):
            return []

    @functools.cached_property
    def names(self):
        """The names of candidates by their contest (if it is named) and their ids, if an export said them. A contest's own name has no id."""
        rows = list(csv.reader(io.StringIO(self.text(NAMES), newline="")))
        return {tuple(row[:-1])[-2:]: row[-1] for row in rows[1:] if len(row) in (2, 3)}

    def called(self, contest, candidate):
        return self.names.get((contest.id, candidate)) or self.names.get((candidate,)) or candidate

    def title(self, contest):
        """The name of a contest, with its id."""
        name = self.names.get((contest.id, ""))
        return f"{name} ({contest.id})" if name and name != contest.id else contest.id

    @property
    def contest(self):
        """The one contest that is audited."""
        return next((each for each in self.contests if each.id == self.choices.get("contest")), None)

    def audited(self):
        """The contests that are audited: the chosen one, or all contests whose assertions were found."""
        if self.kind == CONTESTS:
            return [each for each in self.contests if f"assertions_{each.number}.json" in self.files]
        return [self.contest]

    def undecided(self):
        """The contests of a county that have no assertions: those that are tied, or whose budget ran out."""
        return [each for each in self.contests if f"undecided_{each.number}.txt" in self.files]

    # ---- cards

    @functools.cached_property
    def cards(self):
        """The number of cards of the manifest, which the program has accepted."""
        rows = csv.reader(io.StringIO(self.text(MANIFEST), newline=""))
        next(rows)
        return sum(int(row[1]) for row in rows if any(row))

    # ---- rounds

    def rounds(self):
        """The rounds whose cards are known."""
        found, before = [], 0
        for number in itertools.count(1):
            deed = self.deeds.get(f"fetch{number}")
            if deed is None:
                return found
            draws = int(next(line.value for line in deed.lines if isinstance(line, record.Choice) and line.name == "draws"))
            found.append(Round(number, draws, before))
            before = draws

    def answer_of(self, round):
        """The file with the answer of a round."""
        return {POLL: f"poll{round.draws}.txt", CONTESTS: f"county{round.draws}.txt"}.get(self.kind, f"round{round.number}.json")

    def status_of(self, step, command):
        """The status with which a command of a deed ended."""
        lines = (line for line in self.deeds[step].lines if isinstance(line, record.Command))
        return next(line.status for line in lines if line.words[1] == command)

    def commands(self, step):
        return [line for line in self.deeds[step].lines if isinstance(line, record.Command)]

    def is_signed_off(self):
        """Whether the last round that was counted confirms everything."""
        counted = [each for each in self.rounds() if f"round{each.number}" in self.deeds]
        return bool(counted) and self.commands(f"round{counted[-1].number}")[-1 - self.has_report()].status == CONFIRMED

    def has_report(self):
        """Whether a round ends with a report of its session."""
        return self.kind in (COMPARISON, PLURALITY)

    # ---- files

    def text(self, name):
        return self.folder.text(name) if name in self.files else ""

    def members(self, name):
        """The members of a JSON file."""
        return json.loads(self.text(name))

    def size(self, name):
        return os.path.getsize(self.folder.place(name))


def contests_of(data):
    """The contests of a ballot file, from the records at its head."""
    head = list(itertools.islice(plain_audit.numbered(data), MOST_CONTESTS + 1))
    found = plain_audit.contest_records(head)
    return [Contest(number, name, tuple(ids)) for number, (name, (ids, _)) in enumerate(found.items(), 1)]
