"""Turns the marks of a ballot into a ranking or a choice, by the rules in which jurisdictions differ."""
import collections

from convert_export import OVERVOTED, WRITE_IN, WriteIn

# Each rule with its words and what they mean in the account. The first word is the default.
RULES = {
    "overvotes": {"end": "a rank with several candidates ends the ballot", "pass": "a rank with several candidates is passed over"},
    "skips": {
        "pass": "ranks that are skipped are passed over", "one": "a skipped rank ends the ballot",
        "two": "two skipped ranks in a row end the ballot; one is passed over",
    },
    "repeats": {"pass": "a candidate ranked again is passed over", "end": "a candidate ranked again ends the ballot"},
    "write_ins": {"merge": "all write-ins are one candidate", "drop": "a rank with a write-in is passed over"},
    "marks": {
        "counted": "marks are taken that the export counts as votes",
        "made": "marks are taken that were made, also where the export doesn't count them",
    },
    "counts": {
        "compare": "the export's own numbers of overvotes and undervotes have to agree with the marks",
        "ignore": "the export's own numbers of overvotes and undervotes aren't looked at",
    },
}
CARDS_COUNTED = {  # what the words of --counts mean for a form that numbers its cards
    "compare": "the export's own numbers of the cards have to be without a gap",
    "ignore": "the export's own numbers of the cards aren't looked at",
}
OF_SOME = ("marks", "counts")  # rules that only have a meaning for some forms
OF_RANKS = ("overvotes", "skips", "repeats")  # rules that only have a meaning if candidates are ranked

Rules = collections.namedtuple("Rules", RULES)
MOST_SKIPPED = {"pass": float("inf"), "one": 0, "two": 1}


def choice_of(marks, seats, rules, counts):
    """The candidates who are marked, if candidates aren't ranked; nobody if there are more of them than seats."""
    chosen = {choice for choices in marks.values() for choice in choices}
    if OVERVOTED in chosen or len(chosen) > seats:
        counts["overvoted contests"] += 1
        return []
    write_ins = {choice for choice in chosen if isinstance(choice, WriteIn)}
    counts["write-ins"] += len(write_ins)
    merged = {WRITE_IN} if write_ins and rules.write_ins == "merge" else set()
    return sorted((chosen - write_ins) | merged)


def ranking_of(marks, rules, counts):
    """The candidates that a ballot ranks. What comes up before the ballot ends is counted."""
    ranking, last = [], 0
    for rank in sorted(marks):
        skipped, last = rank - last - 1, rank
        counts["skipped ranks"] += skipped
        if skipped > MOST_SKIPPED[rules.skips]:
            counts["ended by skipped ranks"] += 1
        elif not takes(ranking, marks[rank], rules, counts):
            rank += 1
        else:
            continue
        counts["ranks after the end"] += sum(later >= rank for later in marks)
        break
    return ranking


def takes(ranking, choices, rules, counts):
    """Adds the choice at one rank if it counts. Returns False if the ballot ends at this rank."""
    if len(choices) > 1 or OVERVOTED in choices:
        counts["overvoted ranks"] += 1
        return rules.overvotes == "pass"
    (choice,) = choices
    is_write_in = isinstance(choice, WriteIn)
    counts["write-ins"] += is_write_in
    if is_write_in and rules.write_ins == "drop":
        return True
    candidate = WRITE_IN if is_write_in else choice
    if candidate in ranking:
        counts["repeated candidates"] += 1
        return rules.repeats == "pass"
    ranking.append(candidate)
    return True
