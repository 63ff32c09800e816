"""Makes a manifest from an office's or a vendor's list of batches: from the columns that name a batch, and the one with its number of cards."""
import os
import re
import tempfile

import convert_export
import convert_files
import convert_sheet
import records
from ask import ask, Refusal
from convert_ids import is_id
from limits import MOST_BATCH_BYTES
from words import see_output, Words

NAME = "manifest"
# For each form, the columns that a batch's id is made of, each with the names that it may have. Their cells are joined by underscores, as in the ids that
# ./raire convert makes.
FORMS = {
    "dominion": [("tabulatorid", "tabulatornum", "tabulator", "tabulatornumber"), ("batchid", "batch", "batchnumber", "batchname")],
    "hart": [("batchnumber", "batch", "batchid", "batchname")],
    "clear-ballot": [("boxid", "box", "boxnumber")],
    "nist": [("batchid", "batch")],
    "plain": [("batch", "batchid", "box", "boxid", "container", "batchname")],
}
COUNTS = ("cards", "count", "ballots", "numberofballots", "numberofcards", "totalballots", "ballotcount", "cardcount", "sheets", "size")
FIRSTS, LASTS = ("first", "from", "start", "firstimprint", "firstnumber", "begin"), ("last", "to", "end", "lastimprint", "lastnumber")
TOTAL = re.compile(r"(grand |sub)?totals?\b|sum\b", re.IGNORECASE)  # a batch may be called Sumner
MOST_TOLD = 20


class Options:
    """The options that a reader of sheets has."""

    def __init__(self, sheet):
        self.sheet = sheet


def words_of(words):
    parser = Words(NAME)
    parser.add_argument("form", choices=FORMS)
    parser.add_argument("file")
    parser.option("--batch", "--count", "--first", "--last", "--sheet")
    given = parser.parse_intermixed_args(words)
    if (given.first is None) != (given.last is None):
        parser.error("--first and --last are given together")
    return given


def refused(place, text):
    return Refusal(2, f"{NAME}: {convert_export.one_line(f'{place}: {text}')}\n")


def plain(name):
    """The name of a column without case, blanks and punctuation."""
    return "".join(filter(str.isalnum, name.lower()))


class Columns:
    """The columns of a list that are read."""

    def __init__(self, given, place, head):
        self.head, self.place = [plain(name) for name in head], place
        wanted = [(name,) for name in given.batch.split(",")] if given.batch is not None else FORMS[given.form]
        self.key = [self.found(names, "--batch") for names in wanted]
        self.first, self.last = self.range_of(given)
        self.count = self.found((given.count,), "--count") if given.count is not None else self.one_of(COUNTS)
        if self.count is None and self.first is None:
            raise refused(place, f"no column is called {', '.join(COUNTS[:5])} ..; --count names the one with the number of cards")

    def one_of(self, names):
        return next((self.head.index(name) for name in names if name in self.head), None)

    def found(self, names, option):
        column = self.one_of([plain(name) for name in names])
        if column is None:
            raise refused(self.place, f"no column is called {' or '.join(names)}; {option} names it")
        return column

    def range_of(self, given):
        if given.first is not None:
            return self.found((given.first,), "--first"), self.found((given.last,), "--last")
        both = self.one_of(FIRSTS), self.one_of(LASTS)
        return both if None not in both else (None, None)


def number_of(cell, place, what, least=0):
    if not (cell.isascii() and cell.isdigit() and len(cell) <= 10 and int(cell) >= least):
        near = "".join(filter(str.isdigit, cell))
        article = "an" if what[0] in "aeiou" else "a"
        raise refused(place, f"{cell or 'a blank'} isn't {article} {what}" + (f"; without marks it would be {near}" if near and near != cell else ""))
    return int(cell)


def batches_in(given):
    """The number of cards of each batch, the imprinted numbers of the batches that have some, and what is reported about the list."""
    source = convert_files.Source(given.file)
    rows = convert_sheet.rows_of(source, Options(given.sheet))
    place, head = next(rows, (source, None))
    if head is None:
        raise refused(source, "is empty")
    columns, sizes, spans, places, empty = Columns(given, place, head), {}, [], {}, []
    for place, row in rows:
        row += [""] * (len(head) - len(row))
        key = [row[column] for column in columns.key]
        if not all(key) or TOTAL.match(key[0]):
            raise refused(place, "the row has no batch: take a line of totals out of the list")
        size, span = size_of(columns, row, place)
        batch = "_".join(str(int(part)) if given.form == "dominion" and part.isascii() and part.isdigit() else part for part in key)
        if not is_id(batch) or len(batch) > MOST_BATCH_BYTES:
            raise refused(place, f"no manifest can have the batch {batch}: 1 to {MOST_BATCH_BYTES} characters from space to ~, no comma and no double quote")
        if batch in places:
            raise refused(place, f"the batch {batch} is already at {places[batch]}")
        places[batch] = place
        if size == 0:
            empty.append(batch)
            continue
        sizes[batch] = size
        spans += [(*span, batch, place)] if span else []
    return sizes, spans, empty, places


def size_of(columns, row, place):
    """The number of cards in a row, and the first and the last imprinted number if the row has them."""
    size = number_of(row[columns.count], place, "number of cards") if columns.count is not None else None
    if columns.first is None or size == 0 or size and not row[columns.first] and not row[columns.last]:
        return size, None
    first, last = (number_of(row[column], place, "imprinted number") for column in (columns.first, columns.last))
    if last < first or size not in (None, last - first + 1):
        counted = f"the numbers {first} to {last} are {max(0, last - first + 1)} cards, and the count is {size}"
        raise refused(place, f"{counted}: see which cards are missing or duplicated")
    return last - first + 1, (first, last)


def missing(first, last):
    return f"number {first} is" if first == last else f"numbers {first} to {last} are"


def gaps_in(spans):
    """What the imprinted numbers show: numbers between two batches that no batch has, and batches that don't begin with 1 although each should."""
    begin = {first for first, _, _, _ in spans}
    if len(begin) < len(spans):  # each batch has its own numbers
        yield from (
            f"batch {batch} begins with the number {first}, and ids count from 1: {missing(1, first - 1)} missing"
            for first, _, batch, _ in spans if first > 1
        )
        return
    upto, before = None, None
    for first, last, batch, place in sorted(spans, key=lambda span: span[:2]):
        if upto is not None and first <= upto:
            raise refused(place, f"the numbers {first} to {last} of batch {batch} overlap with those of batch {before}, which end with {upto}")
        if upto is not None and first > upto + 1:
            yield f"{missing(upto + 1, first - 1)} missing: between batch {before} and batch {batch}"
        upto, before = last, batch


def see_total(sizes, places):
    """A line about a batch that has as many cards as all others together: it is most likely their total."""
    for batch, size in sizes.items():
        if len(sizes) > 2 and 2 * size == sum(sizes.values()):
            return [f"batch {batch} has {size} cards, as many as all others together: is it a line of totals? ({places[batch]})"]
    return []


def read_list(given):
    """The batches of the list. What the readers of exports say about a file is printed under this tool's name."""
    try:
        return batches_in(given)
    except Refusal as refusal:
        raise Refusal(refusal.status, refusal.text.replace("convert: ", f"{NAME}: ", 1)) from None


def answer(words):
    given = words_of(words)
    see_output(NAME, [given.file])
    sizes, spans, empty, places = read_list(given)
    text = records.text_of([["batch", "cards"], *sizes.items()])
    with tempfile.TemporaryDirectory() as folder:
        path = os.path.join(folder, "manifest.csv")
        with open(path, "w") as file:
            file.write(text)
        try:
            ask(NAME, "sample", [path], "--seed=1", "--draws=1")
        except Refusal as refusal:
            raise Refusal(refusal.status, refusal.text.replace(path, f"the manifest of {given.file}")) from None
    gaps = list(gaps_in(spans))
    batches, cards = len(sizes), sum(sizes.values())
    counts = f"{batches} batch{'es' * (batches != 1)} with {cards} card{'s' * (cards != 1)}"
    lines = [f"{counts}; the id of a card is batch, _ and its number from 1, as in {next(iter(sizes))}_1"]
    lines += [f"left out because they have no cards: {', '.join(empty)}"] * bool(empty)
    lines += gaps[:MOST_TOLD] + [f"and {len(gaps) - MOST_TOLD} gaps more"] * (len(gaps) > MOST_TOLD) + see_total(sizes, places)
    return text, "".join(f"{NAME}: {line}\n" for line in lines)
