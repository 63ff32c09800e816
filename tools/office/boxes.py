"""Counts the cards of a manifest and their records before anything is drawn."""
import itertools
import os
import tempfile

import records
from ask import ask, read, Refusal
from words import see_output, Words

NAME = "boxes"
MOST_TOLD = 20


def words_of(words):
    parser = Words(NAME)
    parser.add_argument("ballots")
    parser.add_argument("manifest")
    parser.option("--contest")
    return parser.parse_intermixed_args(words)


def judge(given, contest):
    """Has both files and the link between them judged by `open`. It judges the assertion file last, and the empty file given here isn't one."""
    options = [f"--contest={contest}"] if contest is not None else []
    with tempfile.TemporaryDirectory() as folder:
        empty = os.path.join(folder, "none.json")
        with open(empty, "w"):
            pass
        try:
            ask(NAME, "open", [given.ballots, given.manifest, empty], "--seed=none", *options)
        except Refusal as refusal:
            if refusal.status == 2 and refusal.text.startswith(f"raire: {empty}: F1 at 0\n"):
                return
            raise
    raise Refusal(1, f"{NAME}: the program takes an empty file for assertions: see what RAIRE names\n")


def plural(number, one):
    return f"{number} {one}{'s' * (number != 1)}"


def cards_of(batches):
    return (f"{batch}_{k}" for batch, size in batches.items() for k in range(1, size + 1))


def without(batches, recorded):
    """A line with the number of cards that have no record, and which ones they are."""
    told = ", ".join(itertools.islice((card for card in cards_of(batches) if card not in recorded), MOST_TOLD))
    count = sum(batches.values()) - len(recorded)
    more = f" and {count - MOST_TOLD} more" if count > MOST_TOLD else ""
    return f"cards without a record {count}" + (f": {told}" if told else "") + more


def unnamed(batches, recorded):
    """The batches in which no record names a card."""
    named = {records.batch_of(card)[0] for card in recorded}
    return {batch: size for batch, size in batches.items() if batch not in named}


def of_unnamed(batches, empty):
    """A line for each batch that no record names. A batch with as many cards as all others together is most likely their total."""
    cards = sum(batches.values())
    for batch, size in empty.items():
        total = "; ALL OTHERS TOGETHER HAVE AS MANY: a total that was left in the manifest?" if 2 * size == cards and len(batches) > 2 else ""
        yield f"batch {batch}: {plural(size, 'card')}, and no record names one{total}"


def counts(contest, batches, recorded):
    """The lines about one contest."""
    yield from (f"contest {contest}", f"cards {sum(batches.values())}", f"records {len(recorded)}", without(batches, recorded))
    yield from of_unnamed(batches, unnamed(batches, recorded))


def counts_of_all(batches, recorded):
    """The lines about several contests: a line for each, then the batches that no record of any contest names."""
    yield f"cards {sum(batches.values())}"
    for contest, cards in recorded.items():
        empty = unnamed(batches, cards)
        other = {batch: size for batch, size in batches.items() if batch not in empty}
        more = f"; and {plural(sum(empty.values()), 'card')} in batches that have none: {', '.join(empty)}" if empty else ""
        yield f"contest {contest}: records {len(cards)}, {without(other, cards)}{more}"
    yield from of_unnamed(batches, unnamed(batches, set().union(*recorded.values())))


def answer(words):
    given = words_of(words)
    see_output(NAME, [given.ballots, given.manifest])
    listed = contests_in(given)
    for contest in listed or [given.contest]:
        judge(given, contest)
    ballots, manifest = read(NAME, given.ballots), read(NAME, given.manifest)
    named = listed or [given.contest if given.contest is not None else next(iter(records.contests_of(ballots)))]
    recorded = records.cards_by_contest(ballots, named)
    batches = records.batches_of(manifest)
    lines = counts_of_all(batches, recorded) if listed else counts(named[0], batches, recorded[named[0]])
    return "".join(f"{line}\n" for line in lines), ""


def contests_in(given):
    """All contests of a file with several contests, if no contest is given. A file that isn't a ballot file is left for the program to refuse."""
    if given.contest is not None:
        return []
    try:
        listed = list(records.contests_of(read(NAME, given.ballots)))
    except (ValueError, LookupError, StopIteration):
        return []
    return listed if len(listed) > 1 else []
