"""What two readers type in for each card, separately: drafts, until both readings are the same."""
import csv
import hashlib
import io
import json
import re
from typing import NamedTuple

from audit import CONTESTS
from forms import Wrong

MISSING = "missing"
READER = re.compile("[A-Za-z0-9]{1,12}")
RANKED, NOBODY, ELSEWHERE = WAYS = ("ranked", "nobody", "elsewhere")


class Card(NamedTuple):
    id: str
    batch: str
    number: str
    draws: str


def cards_of(audit, number):
    """The cards that are fetched for a round, as ./raire cards lists them."""
    rows = csv.reader(io.StringIO(audit.text(f"cards{number}.csv"), newline=""))
    next(rows, None)
    return [Card(card, batch, place, draws) for batch, place, card, draws in rows]


def name_of(number, reader):
    """The name of a reader's draft. The person's own name is in the draft."""
    return f"seen{number}_{reader}"


class Draft:
    """One reader's readings of the cards of a round: for each card, MISSING or the ranking in each contest."""

    def __init__(self, audit, number, reader):
        self.folder, self.name = audit.folder, name_of(number, reader)
        self.cards, self.contests, self.called = cards_of(audit, number), audit.audited(), audit.called
        kept = json.loads(self.folder.draft(self.name) or "{}")
        self.person, self.readings = kept.get("person", ""), kept.get("readings", {})

    def keep(self):
        self.folder.write_draft(self.name, json.dumps({"person": self.person, "readings": self.readings}, sort_keys=True))

    def left(self):
        return [card for card in self.cards if card.id not in self.readings]

    def next(self, card):
        """The next card without a reading, starting at this one."""
        at = next((at for at, each in enumerate(self.cards) if each.id == card), 0)
        return next((each for each in self.cards[at:] + self.cards[:at] if each.id not in self.readings), None)

    def card(self, name):
        """The card with this id, or the first card that has no reading."""
        return next((each for each in self.cards if each.id == name), None) or (self.left() or self.cards)[0]

    def of(self, card):
        return self.readings.get(card)

    def rank_of(self, card, contest, rank):
        """The number of the candidate at a rank as a text, or an empty text."""
        reading = self.readings.get(card.id)
        ranking = reading[str(contest.number)] if isinstance(reading, dict) else []
        return str(contest.candidates.index(ranking[rank - 1]) + 1) if rank <= len(ranking) else ""

    def way_of(self, card, contest):
        reading = self.readings.get(card.id)
        return NOBODY if isinstance(reading, dict) and not reading[str(contest.number)] else RANKED

    def seen_text(self, contest):
        """The seen file of a contest, which has each card."""
        text = io.StringIO(newline="")
        rows = csv.writer(text, lineterminator="\n")
        for card in self.cards:
            reading = self.readings[card.id]
            rows.writerow([card.id, MISSING] if reading == MISSING else [card.id, "ballot", *reading[str(contest.number)]])
        return text.getvalue()

    def in_words(self, card):
        """A reading as people say it, with a line for each contest."""
        reading = self.readings.get(card)
        if reading is None:
            return ["not read yet"]
        if reading == MISSING:
            return ["not found"]
        told = {each.id: self.ranked_in_words(each, reading[str(each.number)]) for each in self.contests}
        return list(told.values()) if len(told) == 1 else [f"{contest}: {said}" for contest, said in told.items()]

    def ranked_in_words(self, contest, ranking):
        return ", ".join(self.called(contest, name) for name in ranking) or "nobody ranked"


def mark_of(reading):
    """A digest of a reading. A page sees by it whether the reading is still the one that it shows."""
    return hashlib.sha256(json.dumps(reading, sort_keys=True).encode()).hexdigest()


def person_of(form):
    person = form.values.get("person", "").strip()
    if not READER.fullmatch(person):
        raise Wrong("A reader’s name has 1 to 12 letters or digits, such as initials.")
    return person


def reading_of(form, contests):
    """The reading of a card in a form."""
    if form.values.get("missing"):
        return MISSING
    return {str(each.number): ranking_of(form, each, len(contests) > 1) for each in contests}


def ranking_of(form, contest, is_one_of_several):
    """The candidates who are ranked in a contest, the most preferred first."""
    where = f"{contest.id}: " if is_one_of_several else ""
    way = form.chosen(f"way_{contest.number}", f"{where}whether somebody is ranked", WAYS)
    marks = [form.values.get(f"rank_{contest.number}_{rank}", "") for rank in range(1, len(contest.candidates) + 1)]
    found = [candidate_of(contest, mark) for mark in marks if mark]
    if way != RANKED:
        if found:
            raise Wrong(f"{where}Candidates are marked. Remove these marks, or choose “Somebody is ranked”.")
        return []
    if not found:
        raise Wrong(f"{where}Nothing is marked. Rank candidates, or choose “Nobody is ranked” or “The contest isn’t on the card”.")
    if len(set(found)) < len(found):
        raise Wrong(f"{where}A candidate has two ranks, and a seen file can’t say that. Mark the ranks that count by the rules of the contest.")
    if not all(marks[:len(found)]):
        gap = marks.index("") + 1
        raise Wrong(f"{where}Rank {gap} is left out, and a seen file can’t say that. Mark the ranks that count by the rules of the contest, from 1 on.")
    return found


def candidate_of(contest, mark):
    if not mark.isascii() or not mark.isdigit() or not 1 <= int(mark) <= len(contest.candidates):
        raise Wrong("A mark is for no candidate of the contest.")
    return contest.candidates[int(mark) - 1]


def readings_in(text, draft):
    """The readings of a seen file, such as a sheet that was filled in. Cards without a reading are passed over.

    If there are several contests, each record has the id of its contest after the card's, and a card is read in all of them or in none.
    """
    cards, found, ids = {card.id for card in draft.cards}, {}, {each.id: each for each in draft.contests}
    for at, (card, contest, word, *ranked) in enumerate(rows_of(text, draft.contests), 1):
        ranked = list(dict.fromkeys(filter(None, ranked)))
        if card and card not in cards:
            raise Wrong(f"Record {at}: {card} isn't a card of this round.")
        if card and contest not in ids:
            raise Wrong(f"Record {at}: {contest or 'nothing'} isn't a contest of this audit. The contests are {', '.join(ids)}.")
        if contest in found.get(card, {}):
            raise Wrong(f"Record {at}: {card} is listed twice{f' for {contest}' if len(ids) > 1 else ''}.")
        if word or ranked:
            see_reading(at, card, word, ranked, ids[contest].candidates)
            found.setdefault(card, {})[contest] = MISSING if word == MISSING else ranked
    if not found:
        raise Wrong("This file has no reading: nothing is filled in.")
    return {card: reading_of_contests(card, of_card, ids) for card, of_card in found.items()}


def reading_of_contests(card, found, contests):
    """The reading of a card, whose contests must be all read or all missing."""
    if left := [name for name in contests if name not in found]:
        raise Wrong(f"{card} has no reading for {left[0]}. Write a record for each contest, even if the card doesn’t have it.")
    missing = [name for name in contests if found[name] == MISSING]
    if missing and len(missing) < len(contests):
        raise Wrong(f"{card} is missing for {missing[0]} and read for another contest. A card that can’t be found is missing in each.")
    return MISSING if missing else {str(contest.number): found[name] for name, contest in contests.items()}


def rows_of(text, contests):
    """The records of a text: a card, a contest, a word and more, without blanks around them. If there is only one contest, no record names it."""
    try:
        rows = list(csv.reader(io.StringIO(text.removeprefix("\ufeff"), newline="")))
    except csv.Error as fault:
        raise Wrong(f"This is not a comma-separated file: {fault}.") from None
    for row in rows:
        card, *rest = [field.strip() for field in row] or [""]
        contest, *rest = [contests[0].id, *rest] if len(contests) == 1 else rest or [""]
        yield [card, contest, *(rest or [""])]


def see_reading(at, card, word, ranked, candidates):
    if not card or word not in ("ballot", MISSING) or (word == MISSING and ranked):
        raise Wrong(f"Record {at}: after {card or 'the card'}, write either ballot and the ranked candidates, or only missing.")
    if strangers := [name for name in ranked if name not in candidates]:
        raise Wrong(f"Record {at}: {strangers[0]} isn't a candidate. The candidates are {', '.join(candidates)}.")


def differences(drafts):
    """Each card that was read differently, with both readings in words."""
    first, second = drafts
    return [(card, first.in_words(card.id), second.in_words(card.id)) for card in first.cards if first.of(card.id) != second.of(card.id)]


def seen_files(audit, number, drafts):
    """The seen files of both readers, by their names: one file for each contest."""
    for letter, draft in zip("AB", drafts):
        for contest in draft.contests:
            part = f"{number}_{contest.number}" if audit.kind == CONTESTS else str(number)
            yield f"seen{part}_{letter}.csv", draft.seen_text(contest)
