"""Prints a manifest of the batches that can have a contest, and what a plan says about it and about the whole manifest."""
import os
import tempfile

import records
from ask import ask, read, Refusal
from words import see_output, Words

NAME = "batches"
STANDS_IN = "--seed=1"  # the seed of a session that is opened only to have the files judged, and then thrown away
PREMISE = "Make sure that no batch that is left out can have the contest, whatever its records say."


def words_of(words):
    parser = Words(NAME)
    parser.add_argument("files", nargs="+")
    parser.option("--contest", "--also", "--limit", "--gamma", "--nodes", "--sets")
    given = parser.parse_intermixed_args(words)
    if len(given.files) not in (2, 3):
        parser.error("give a ballot file, a manifest, and an assertion file where there is one")
    return given


def options_of(given, *names):
    """The options that are passed on to the program, which judges them."""
    return [f"--{name}={getattr(given, name)}" for name in names if getattr(given, name) is not None]


def assertions_of(given, folder):
    """The path of the assertion file: the one that is given, or one with what a search prints."""
    if len(given.files) == 3:
        return given.files[2]
    path = os.path.join(folder, "assertions.json")
    with open(path, "w") as file:
        file.write(ask(NAME, "search", given.files[:1], *options_of(given, "contest", "nodes", "sets")))
    return path


def own_batches(given):
    """The batches that ballots of the contest name and those that the office adds, in the order of the manifest; then the sizes of all batches,
    the number of batches that are named, and the number of ballots."""
    ballots, manifest = (read(NAME, path) for path in given.files[:2])
    sizes = records.batches_of(manifest)
    contest = given.contest if given.contest is not None else next(iter(records.contests_of(ballots)))
    cards = [card for card, _ in records.ballots_of(ballots, contest)]
    named = {records.batch_of(card)[0] for card in cards}
    also = set() if given.also is None else {batch.strip() for batch in given.also.split(",")}
    for batch in sorted(also - set(sizes)):
        raise Refusal(2, f"{NAME}: --also names {batch or 'nothing'}, and {given.files[1]} has no such batch\n")
    return {batch: size for batch, size in sizes.items() if batch in named | also}, sizes, len(named), len(cards)


def draws_of(given, manifest, assertions):
    """What a plan says for all assertions."""
    text = ask(NAME, "plan", [manifest, assertions], *options_of(given, "limit", "gamma"))
    return text.splitlines()[-1].removeprefix("all: ")


def plural(number, one, more=None):
    return f"{number:,} {one if number == 1 else more or one + 's'}"


def of_batches(number):
    return plural(number, "batch", "batches")


def account(given, sizes, own, named, ballots, draws):
    def cards(batches):
        return f"{plural(sum(batches.values()), 'card')} in {of_batches(len(batches))}"

    added = len(own) - named
    left = {batch: size for batch, size in sizes.items() if batch not in own}
    return "".join(f"{NAME}: {line}\n" for line in [
        f"{plural(ballots, 'ballot')} of the contest, in {of_batches(named)}; {added:,} more by --also",
        f"{given.files[1]}: {cards(sizes)}: {draws[0]}",
        f"its own batches: {cards(own)}: {draws[1]}",
        f"left out: {cards(left)}",
        *[PREMISE] * bool(left),
    ])


def answer(words):
    given = words_of(words)
    see_output(NAME, given.files)
    with tempfile.TemporaryDirectory() as folder:
        assertions = assertions_of(given, folder)
        ask(NAME, "open", [*given.files[:2], assertions], STANDS_IN, *options_of(given, "contest", "nodes", "sets"))
        own, sizes, named, ballots = own_batches(given)
        text = records.text_of([["batch", "cards"], *own.items()])
        path = os.path.join(folder, "own.csv")
        with open(path, "w") as file:
            file.write(text)
        draws = [draws_of(given, manifest, assertions) for manifest in (given.files[1], path)]
    return text, account(given, sizes, own, named, ballots, draws)
