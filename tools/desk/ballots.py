"""What the ballots of a file say by themselves: who has how many first preferences, and which cards of the manifest have no ballot."""
import csv
import functools
import itertools
from typing import NamedTuple

import plain_audit
from audit import BALLOTS, contests_of, COUNTED, HEAD_BYTES, MANIFEST

MOST_NAMED = 10  # cards that are listed one by one


class First(NamedTuple):
    """A candidate's first preferences, and how many more the leader has."""
    candidate: str
    votes: int
    behind: int


class Left(NamedTuple):
    """The ballots of a full count compared with the cards of the manifest: the number of cards, the number without a ballot, the first of those, and the
    number of ballots that belong to no card."""
    cards: int
    without: int
    named: list
    strange: int

    @property
    def is_whole(self):
        return not self.without and not self.strange


def first_preferences(audit):
    """The candidates of the one contest with their first preferences, in descending order."""
    votes = votes_of(audit.folder.place(BALLOTS), audit.files[BALLOTS], audit.contest)
    most = max(votes.values())
    return sorted((First(name, count, most - count) for name, count in votes.items()), key=lambda each: -each.votes)


@functools.lru_cache(maxsize=4)
def votes_of(path, _digest, contest):
    """The first preferences of each candidate, in the order of the file."""
    votes = dict.fromkeys(contest.candidates, 0)
    for row in ballots_of(path, contest):
        ranked = next(filter(None, row[2:]), None)
        if ranked in votes:
            votes[ranked] += 1
    return votes


def ballots_of(path, contest):
    """The records of a contest's ballots in a file that the program has accepted."""
    with open(path, "rb") as file:
        contests = len(contests_of(file.read(HEAD_BYTES)))
    with open(path, encoding="latin-1", newline="") as file:
        records = ([field.strip(" \t") for field in row] for row in csv.reader(file))
        filled = (row for row in records if row not in ([], [""]))
        yield from (row for row in itertools.islice(filled, contests + 1, None) if row[0] == contest.id)


def left_out(audit):
    """The cards that have no ballot in the full count."""
    return left_of(audit.folder.place(COUNTED), audit.files[COUNTED], audit.folder.place(MANIFEST), audit.files[MANIFEST], audit.contest)


@functools.lru_cache(maxsize=4)
def left_of(counted, _digest, manifest, _digest_of_manifest, contest):
    with open(manifest, "rb") as file:
        batches = plain_audit.manifest_of(file.read())
    ids = {row[1] for row in ballots_of(counted, contest)}
    cards = (f"{batch}_{number}" for batch, size in batches.batches.items() for number in range(1, size + 1))
    found = sum(batches.place(card) is not None for card in ids)
    named = list(itertools.islice((card for card in cards if card not in ids), MOST_NAMED)) if found < batches.cards else []
    return Left(batches.cards, batches.cards - found, named, len(ids) - found)
