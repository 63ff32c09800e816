"""What every form of export is turned into: contests, cards with marks by rank, and the place of anything that can't be read."""
import collections

from alike import folded
from ask import Refusal

NAME = "convert"
WRITE_IN = -1  # the candidate that stands for all write-ins together
OVERVOTED = "overvoted"  # the mark at a rank that an export only calls overvoted
RANKED, PLURALITY, PAIRS = "ranked", "plurality", "pairs"  # the records that are made: rankings, one preference, or a contest for each winner and loser

Candidate = collections.namedtuple("Candidate", "key name is_write_in is_disabled", defaults=(False, False))

# A mark is the number of a candidate, a WriteIn, or OVERVOTED. `marks` has the set of marks at each rank.
WriteIn = collections.namedtuple("WriteIn", "number index")
Vote = collections.namedtuple("Vote", "contest marks uncounted", defaults=(0,))
Card = collections.namedtuple("Card", "place id votes")


class Place(collections.namedtuple("Place", "path kind number part", defaults=(None, None, ""))):
    """Where something is: a file, and a record in it."""

    def __str__(self):
        record = f": {self.kind} {self.number}" if self.kind else ""
        return f"{self.path}{record}{self.part and ': ' + self.part}"

    def at(self, part):
        return self._replace(part=f"{self.part}, {part}" if self.part else part)


def refused(place, text):
    return Refusal(2, f"{NAME}: {one_line(f'{place}: {text}')}\n")


def told(text):
    return Refusal(1, f"{NAME}: {one_line(text)}\n")


def one_line(text):
    """A text from a file on one line. The text may have line ends, for instance if a quote isn't closed."""
    return "".join(c if c.isprintable() else " " for c in text)


class Contest:
    """A contest of an export. Its candidates are those that the export lists, or those that were on its records so far."""

    def __init__(self, key, name, candidates=(), most_rank=None, why_not=None, seats=1):
        self.key, self.name, self.why_not = key, name, why_not  # why it isn't converted as a ranked contest if no contest is named
        self.most_rank = most_rank  # the highest rank that a mark may have; None if only the number of candidates says it
        self.seats = seats  # how many candidates it elects; None if the export doesn't say
        self.is_ranked = why_not is None
        self.says_kind = True  # whether the export says that it is ranked, or that it isn't
        self.is_open = False  # candidates are found along the way
        self.keeps_order = False  # the candidates are those of a ballot file, in its order
        self.candidates, self.numbers, self.looks = [], {}, {}
        for candidate in candidates:
            self.add(candidate)

    def __str__(self):
        return self.key if self.name == self.key else f"{self.key} ({self.name})"

    def add(self, candidate):
        number = self.numbers.setdefault(candidate.key, len(self.candidates))
        if number == len(self.candidates):
            self.candidates.append(candidate)
            self.looks.setdefault(folded(candidate.name), candidate.name)
        return number

    def alike(self, name):
        """The name of a candidate that looks like this name but isn't the same, or None."""
        found = self.looks.get(folded(name), name)
        return None if found == name else found

    def mark(self, number, index=None):
        """The mark for a candidate, or for the write-in in this field."""
        return WriteIn(number, index) if self.candidates[number].is_write_in else number


def add_mark(marks, rank, mark):
    marks.setdefault(rank, set()).add(mark)


def member(value, name, kind, place):
    """The member of a JSON object. It must be there and be of this kind."""
    found = value.get(name) if type(value) is dict else None
    if type(found) is not kind:
        had = "has no" if found is None else "has the wrong type for"
        raise refused(place, f"{had} {name}; expected {KINDS[kind]}")
    return found


def option(value, name, kind, place, otherwise=None):
    """A member that may be missing, or null."""
    return otherwise if value.get(name) is None else member(value, name, kind, place)


KINDS = {str: "a text", int: "a whole number", bool: "true or false", list: "a list", dict: "an object"}


def chosen(contests, asked, made, path):
    """The contests that are converted: those given by name or id, or all contests of the kind that is made."""
    if asked:
        taken = list(dict.fromkeys(named(contests, word, path) for word in asked))
        for contest in taken:
            see_kind(contest, made, path)
        return taken
    taken = [contest for contest in contests if (contest.why_not is None if made == RANKED else is_unranked(contest, made))]
    if not taken:
        listed = "; ".join(f"{contest}: {contest.why_not or 'is ranked'}" for contest in contests)
        raise refused(path, f"no contest to convert; name one with --contest: {listed or 'none'}")
    return taken


def is_unranked(contest, made):
    return contest.says_kind and not contest.is_ranked and (made == PAIRS or contest.seats == 1)


def see_kind(contest, made, path):
    """Checks that a contest that is named is of the kind that is made."""
    if made == RANKED and contest.seats not in (1, None):
        raise refused(path, f"contest {contest} elects {contest.seats}, so it isn't an instant-runoff contest; --as pairs audits it by pairs of candidates")
    if made == RANKED and contest.most_rank == 0:
        raise refused(path, f"contest {contest} {contest.why_not}, so it has no order of candidates; --as plurality takes the one who is marked")
    if made == PLURALITY and contest.seats not in (1, None):
        raise refused(path, f"contest {contest} elects {contest.seats}; --as pairs audits it by pairs of candidates")
    if made != RANKED and contest.is_ranked and contest.most_rank != 1:
        raise refused(path, f"contest {contest} is ranked: leave --as {made} away")


def named(contests, word, path):
    found = [contest for contest in contests if contest.key == word] or [contest for contest in contests if contest.name == word]
    if not found:
        raise refused(path, f"no contest has the name or id {word}; there are: {'; '.join(map(str, contests))}")
    if len(found) > 1:
        raise refused(path, f"several contests are called {word}; name one by its id: {', '.join(contest.key for contest in found)}")
    return found[0]
