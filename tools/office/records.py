"""The records of ballot files, manifests and seen files, read by `csv` as docs/formats.md says.

The program judges ballot files and manifests (office/ask.py), and what it has accepted is read here. No command of the program judges a seen file by
itself, so the rules of a seen file are judged here.
"""
import csv
import io
import itertools

import share

MARK = b"\xef\xbb\xbf"
MISSING = "missing"
MARKS = "marks"  # the word of a file of marks: ranks follow it, each with the candidate who is marked there

csv.field_size_limit(2**31 - 1)


class Broken(Exception):
    """A file breaks a rule at a record. `why` says how, for people."""

    def __init__(self, rule, at, why):
        super().__init__(f"{rule} at {at}: {why}")
        self.rule, self.at, self.why = rule, at, why


def rows(text):
    """The numbered records of a text stream that was opened with newline="". Blanks around their fields are removed."""
    count = 0
    for row in csv.reader(text):
        fields = [field.strip(" \t") for field in row]
        if fields not in ([], [""]):
            count += 1
            yield count, fields


def rows_of(data):
    """The numbered records of bytes. A byte order mark at the start is removed, and so is a second one after it."""
    data = data.removeprefix(MARK).removeprefix(MARK)
    text = io.StringIO(data.decode(errors="surrogateescape"), newline="")
    share.reading(len(data), text.tell)
    return rows(text)


def text_of(written):
    """Records as text, a line for each."""
    text = io.StringIO(newline="")
    csv.writer(text, lineterminator="\n").writerows(written)
    return text.getvalue()


# ---- ballot files that the program has accepted

def contests_of(data):
    """The candidates of each contest, from the head of a ballot file."""
    numbered = rows_of(data)
    _, (count, *_) = next(numbered)
    head = itertools.islice(numbered, int(count))
    return {name: rest[:int(size)] for _, (_, name, size, *rest) in head}


def ballots_of(data, contest):
    """The id of each ballot of a contest, and the candidates that it ranks, each at the first place where it occurs."""
    numbered = rows_of(data)
    _, (count, *_) = next(numbered)
    for _, (name, ballot, *preferences) in itertools.islice(numbered, int(count), None):
        if name == contest:
            yield ballot, ranking_of(preferences)


def cards_by_contest(data, contests):
    """The ids of the ballots of each of these contests."""
    found = {contest: set() for contest in contests}
    numbered = rows_of(data)
    _, (count, *_) = next(numbered)
    for _, (name, ballot, *_) in itertools.islice(numbered, int(count), None):
        if name in found:
            found[name].add(ballot)
    return found


def ranking_of(preferences):
    return tuple(dict.fromkeys(filter(None, preferences)))


# ---- manifests that the program has accepted

def batches_of(data):
    """The number of cards of each batch, in the order of a manifest."""
    return {batch: int(cards) for _, (batch, cards) in itertools.islice(rows_of(data), 1, None)}


def batch_of(card):
    """The batch of a card and its number in the batch, from the card's id."""
    batch, _, number = card.rpartition("_")
    return batch, int(number)


# ---- seen files, which are judged here

def seen_of(data):
    """What was seen on each card, in the file's order: the ranking, the Marks of a file of marks, or MISSING."""
    seen, places = {}, {}
    for at, fields in rows_of(data):
        see_quotes(at, fields)
        card, *reading = fields
        if not any(reading):
            raise Broken("V1", at, f"the card {short(card)} has no reading")
        if reading[0] not in ("ballot", MISSING, MARKS):
            raise Broken("V1", at, f"the card {short(card)} has neither ballot nor missing after it, but {short(reading[0]) or 'nothing'}")
        if reading[0] == MISSING and any(reading[1:]):
            raise Broken("V1", at, f"the card {card} is missing, and something comes after that")
        if card in seen:
            raise Broken("V3", at, f"the card {card} is already in record {places[card]}")
        seen[card] = MISSING if reading[0] == MISSING else marks_of(at, card, reading[1:]) if reading[0] == MARKS else ranking_of(reading[1:])
        places[card] = at
    return seen


class Marks(tuple):
    """What is marked on a card: pairs of a rank and a candidate, by rank and then by candidate."""


def marks_of(at, card, fields):
    while fields and not fields[-1]:
        fields = fields[:-1]
    ranks = fields[::2]
    if len(fields) % 2 or not all(rank.isascii() and rank.isdigit() and int(rank) >= 1 for rank in ranks):
        raise Broken("V1", at, f"the card {card} has marks, and after that no ranks with a candidate each")
    return Marks(sorted({(int(rank), candidate) for rank, candidate in zip(ranks, fields[1::2])}))


def see_quotes(at, fields):
    """Refuses a quote that isn't closed. It takes the following lines into its field, and no id has a line end."""
    open_quote = next((field for field in fields if "\n" in field or "\r" in field), None)
    if open_quote is not None:
        raise Broken("V1", at, f'a quote isn\'t closed in its line, before {short(open_quote.splitlines()[0])}; take it out, or close it')


def short(text, most=70):
    """A text from a file on one line, no longer than `most`."""
    text = "".join(c if c.isprintable() else " " for c in text)
    return text if len(text) <= most else text[: most - 2] + ".."


def seen_text(seen):
    """The text of a seen file."""
    return text_of([card, *seen_fields(reading)] for card, reading in seen.items())


def seen_fields(reading):
    if reading == MISSING:
        return [MISSING]
    return [MARKS, *(field for pair in reading for field in pair)] if isinstance(reading, Marks) else ["ballot", *reading]
