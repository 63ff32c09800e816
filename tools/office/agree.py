"""Compares two readings of the same cards: writes the reading if they are the same, and prints the differences if they aren't."""
import itertools
import os

import called
import records
from ask import read, Refusal
from words import see_output, Words

NAME, DIFFERENT = "agree", 6


def reading_of(path):
    try:
        return records.seen_of(read(NAME, path))
    except records.Broken as broken:
        raise Refusal(2, f"{NAME}: {path}: {broken}\n") from None


def shown(reading, names):
    """A reading as words."""
    if reading == records.MISSING:
        return "missing"
    if isinstance(reading, records.Marks):
        by_rank = itertools.groupby(reading, key=lambda pair: pair[0])
        return ", ".join(f"{rank} {' and '.join(names.get(c, c) for _, c in pairs)}" for rank, pairs in by_rank) or "nothing marked"
    between = "; " if any("," in names.get(c, c) for c in reading) else ", "
    return between.join(names.get(c, c) for c in reading) or "nobody ranked"


def candidates_of(readings):
    """The ids of all candidates who are ranked or marked."""
    for reading in readings:
        if isinstance(reading, records.Marks):
            yield from (c for _, c in reading)
        elif reading != records.MISSING:
            yield from reading


def names_of(given, ids):
    """The names of the candidates of the contest that is meant. `ids` are those of the candidates in the readings."""
    if given.names is None:
        return {}
    try:
        found = called.Called(given.names, read(NAME, given.names))
        contest = given.contest if given.contest is not None else next(iter(found.candidates), None)
        if found.has_contests and given.contest is None and len(found.candidates) > 1:
            raise Refusal(2, f"{NAME}: {given.names} has several contests; name one with --contest\n")
        if not found.of(contest):
            raise Refusal(2, f"{NAME}: {given.names} has no candidates of contest {contest}\n")
        return found.of(contest, ids)
    except called.BadNames as bad:
        raise Refusal(2, f"{NAME}: {bad}\n") from None


def differences(first, second, paths, names):
    """A line for each card that was read differently, or that is in only one file."""
    for card, reading in first.items():
        if card not in second:
            yield f"{card}: only in {paths[0]}: {shown(reading, names)}"
        elif reading != second[card] or isinstance(reading, records.Marks) != isinstance(second[card], records.Marks):
            yield f"{card}: {shown(reading, names)} in {paths[0]}; {shown(second[card], names)} in {paths[1]}"
    for card, reading in second.items():
        if card not in first:
            yield f"{card}: only in {paths[1]}: {shown(reading, names)}"


def see_kinds(readings, paths):
    """Refuses a file of marks with a file of rankings. They differ on every card, whatever was read, so people needn't look at the cards."""
    kinds = [{type(reading) for reading in each.values()} - {str} for each in readings]
    if kinds in ([{records.Marks}, {tuple}], [{tuple}, {records.Marks}]):
        with_marks = paths[kinds.index({records.Marks})]
        raise Refusal(2, f"{NAME}: {with_marks} has marks, and the other file has rankings\n")


def answer(words):
    parser = Words(NAME)
    parser.add_argument("files", nargs=2)
    parser.option("--names", "--contest")
    given = parser.parse_intermixed_args(words)
    if given.contest is not None and given.names is None:
        parser.error("--contest is for --names")
    paths = given.files
    see_output(NAME, filter(None, [*paths, given.names]))
    if all(map(os.path.exists, paths)) and os.path.samefile(*paths):
        raise Refusal(1, f"{NAME}: {paths[0]} and {paths[1]} are one file\n")
    first, second = map(reading_of, paths)
    see_kinds([first, second], paths)
    ids = dict.fromkeys(candidates_of([*first.values(), *second.values()])) if given.names is not None else ()
    told = list(differences(first, second, paths, names_of(given, ids)))
    cards = len(set(first) | set(second))
    account = f"{cards - len(told)} of {cards} cards were read the same"
    if told:
        lines = [*told, f"{account}; nothing is written"]
        raise Refusal(DIFFERENT, "".join(f"{NAME}: {line}\n" for line in lines))
    return records.seen_text(first), f"{NAME}: {account}\n"
