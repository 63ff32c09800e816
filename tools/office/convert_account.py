"""The account of a conversion: what was read, what was written, and what was done with each kind of mark."""
from convert_book import MOST_FILES
from convert_export import PLURALITY, RANKED
from convert_rules import CARDS_COUNTED, RULES
from limits import FEWEST_CANDIDATES, MOST_CANDIDATES

# What is counted for each contest, and the rule that says what was done with it.
FOUND = {
    "overvoted ranks": "overvotes", "skipped ranks": "skips", "ended by skipped ranks": None, "repeated candidates": "repeats",
    "write-ins": "write_ins", "ranks after the end": None, "marks that aren't taken": "marks",
}
FOUND_UNRANKED = ("overvoted contests", "write-ins", "marks that aren't taken")
OVERVOTED = "more marks than seats, so nobody has the vote"


def meaning(rules, rule, export=None):
    """The meaning of the word that was given for a rule."""
    said = CARDS_COUNTED if rule == "counts" and getattr(export, "numbers_cards", False) else RULES[rule]
    return said[getattr(rules, rule)]


def account(call, export, book, asked, rules):
    """The text of the account. `rules` are those that have a meaning for this form."""
    lines = [call, *(f"rule: --{rule.replace('_', '-')} {getattr(book.rules, rule)}: {meaning(book.rules, rule, export)}" for rule in rules)]
    lines += read_lines(book)
    contests = len(book.names_of_contests())
    lines.append(f"written: {book.written()} records of {len(book.stood)} cards, of {contests} contest{'s' * (contests != 1)}")
    lines.append(f"ids of cards: {export.made_of}, as in {book.first_id()}")
    if book.unplaced:
        why = "aren't a batch, an underscore and a number, so no manifest has these cards: open would refuse them (M7)"
        lines.append(f"warning: {book.unplaced} ids {why}")
    lines += [note if number is None else f"{note}: {number}" for note, number in export.notes.items()]
    for number in book.kept:
        lines += of_contest(book, number)
    lines += left_out(export, book, asked)
    return "".join(f"{line}\n" for line in lines)


def read_lines(book):
    """The number of cards of each file; if there are many files, only the number of files and the number of all cards."""
    if book.files > MOST_FILES:
        yield f"read: {book.files} files: {book.cards} cards"
    else:
        yield from (f"read: {path}: {number} cards" for path, number in book.read.items())


def of_contest(book, number):
    contest, counts, listed, name = book.contests[number], book.counts[number], book.listed[number], book.ids[number]
    yield f"contest {name}: {contest.name}" + (f" (its id is made of {contest.key})" if name != contest.key else "")
    nothing, nobody = counts["nothing marked"], counts["without a preference"]
    yield f"  records: {counts['records']}, of them with nothing marked {nothing}, without a preference {nobody}"
    yield from of_ranks(book, counts) if book.made == RANKED else of_marks(book, number, counts)
    for each, called in listed.values():
        yield f"  candidate {each}" + (f": {called}" if each != called else "")
    for each in book.out_of(number):
        yield f"  left out, since withdrawn (--without): {each.name}"
    left = [each.name for place, each in enumerate(contest.candidates) if each.is_disabled and place not in listed and not each.is_write_in]
    if left:
        yield f"  left out, since disabled and nowhere ranked: {'; '.join(left)}"
    if not FEWEST_CANDIDATES <= len(listed) <= MOST_CANDIDATES:
        yield f"  warning: {len(listed)} candidates, and search takes {FEWEST_CANDIDATES} to {MOST_CANDIDATES} (B3)"
    if any(each.is_write_in for each in contest.candidates) and book.rules.write_ins == "drop":
        yield "  warning: write-ins aren't candidates here, so an audit can't find that one of them won"


def of_ranks(book, counts):
    for what, rule in FOUND.items():
        if what != "ended by skipped ranks" or book.rules.skips != "pass":
            yield f"  {what}: {counts[what]}" + (f" ({meaning(book.rules, rule)})" if counts[what] and rule else "")


def of_marks(book, number, counts):
    """The lines about a contest whose candidates aren't ranked: the overvotes, and who is elected by how many votes."""
    for what in FOUND_UNRANKED:
        yield f"  {what}: {counts[what]}" + (f" ({OVERVOTED})" if counts[what] and what == "overvoted contests" else "")
    for pair in book.pairs.get(number, []):
        yield f"  pair {pair.id}: {pair.winner} has {pair.margin} votes more than {pair.loser}"


def why_left_out(contest, made):
    if made == PLURALITY and not contest.is_ranked and contest.seats not in (1, None):
        return f"elects {contest.seats}, so it is for --as pairs"
    return contest.why_not or "is ranked"


def left_out(export, book, asked):
    """The lines about contests that aren't written, and why they aren't."""
    if not asked:
        others = [contest for contest in export.contests.values() if contest not in book.contests]
        yield from (f"left out: contest {contest}: {why_left_out(contest, book.made)}" for contest in others)
    for number, contest in enumerate(book.contests):
        if number not in book.kept:
            yield f"left out: contest {contest}: " + ("no card ranks anybody" if number in book.listed else "no card has it")
