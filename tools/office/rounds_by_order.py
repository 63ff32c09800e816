"""Prints the rounds of a contest up to a tie, or beyond it by the order that breaks ties. They are counted here, outside the proof."""
import called
import records
from ask import ask, read, Refusal
from words import see_output, Words

NAME, TIE = "rounds", 3


def words_of(words):
    parser = Words(NAME)
    parser.add_argument("ballots")
    parser.option("--contest", "--ties", "--names")
    return parser.parse_intermixed_args(words)


def judged(given):
    """The text of the program's tabulation; None if the contest is tied, or has more ties than the budget can follow."""
    options = [f"--contest={given.contest}"] if given.contest is not None else []
    try:
        return ask(NAME, "tabulate", [given.ballots], *options)
    except Refusal as refusal:
        if refusal.status not in (3, 4):
            raise
        return None


def order_of(given, ids):
    """The order that is given: if candidates tie, the first of them in it is eliminated."""
    order = [each.strip() for each in given.ties.split(",")] if given.ties is not None else []
    for each in order:
        if each not in ids:
            raise Refusal(2, f"{NAME}: --ties names {each or 'nobody'}, who isn't a candidate; there are: {'; '.join(ids)}\n")
    if len(set(order)) < len(order):
        raise Refusal(2, f"{NAME}: --ties names a candidate twice\n")
    return order


class Tied(Exception):
    """Candidates share the fewest votes, and the order doesn't say which of them is eliminated first."""


def gone_of(votes, tied, order, lines, shown):
    """The candidate who is eliminated among those with the fewest votes."""
    if len(tied) == 1:
        return tied[0]
    lines.append(f"tied {shown(tied)}")
    listed = [c for c in order if c in tied]
    if len(listed) == len(tied):
        lines.append(f"the given order puts {shown(listed[:1])} first")
        return listed[0]
    if votes[tied[0]] == 0:
        lines.append("nobody has a vote for them, so whichever goes first, the votes stay the same")
        return tied[0]
    raise Tied(tied)


def counted(ids, rankings, order, shown, between):
    """The lines of the rounds, and who wins, or who is tied if the order doesn't say how to continue."""
    lines, remaining = [], list(ids)
    for number in range(1, len(ids)):
        votes, exhausted = dict.fromkeys(remaining, 0), 0
        for ranking, ballots in rankings.items():
            first = next((c for c in ranking if c in votes), None)
            if first is None:
                exhausted += ballots
            else:
                votes[first] += ballots
        tallies = [*(f"{shown([c])}={votes[c]}" for c in remaining), f"exhausted={exhausted}"]
        lines.append(f"round {number}: {between.join(tallies)}")
        tied = [c for c in remaining if votes[c] == min(votes.values())]
        try:
            gone = gone_of(votes, tied, order, lines, shown)
        except Tied:
            return lines, None, tied
        lines.append(f"eliminated {shown([gone])}")
        remaining.remove(gone)
    return [*lines, f"winner {shown(remaining)}"], remaining[0], None


def names_of(given, contest, ids):
    """The file of names, and the names of the contest's candidates."""
    try:
        found = called.Called(given.names, read(NAME, given.names)) if given.names is not None else called.Nobody()
        return found, found.of(contest, ids)
    except called.BadNames as bad:
        raise Refusal(2, f"{NAME}: {bad}\n") from None


def answer(words):
    given = words_of(words)
    see_output(NAME, filter(None, [given.ballots, given.names]))
    text = judged(given)
    data = read(NAME, given.ballots)
    contests = records.contests_of(data)
    contest = given.contest if given.contest is not None else next(iter(contests))
    names, called_of = names_of(given, contest, contests[contest])
    order = order_of(given, contests[contest])

    def shown(ids):
        called_so = [called_of.get(c, c) for c in ids]
        return ("; " if any("," in name for name in called_so) else ",").join(called_so)

    rankings = {}
    for _, ranking in records.ballots_of(data, contest):
        rankings[ranking] = rankings.get(ranking, 0) + 1
    between = " " if given.names is None else "; "  # names may have blanks
    lines, winner, tied = counted(contests[contest], rankings, order, shown, between)
    head = [f"contest {names.contest(contest)}", f"records {sum(rankings.values())}"]
    out = "".join(f"{line}\n" for line in [*head, *lines])
    if tied:
        raise Refusal(TIE, f"{NAME}: {shown(tied)} tie; --ties gives the order in which those who tie are eliminated, the first of it first\n", out)
    return out, account(text, winner, order, shown)


def account(text, winner, order, shown):
    """The notes that go with the rounds: that they aren't proved, and what the program says about the winner."""
    lines = ["counted only by this tool: none of it is proved"]
    lines += [f"if candidates tie, the first of these is eliminated: {shown(order)}"] * bool(order)
    if text is None:
        lines.append("by the records the contest is tied: ./raire search finds no assertions, and the winner depends on the order")
    else:
        same = "the same winner, however ties are broken" if text.splitlines()[-1] == f"winner {winner}" else "ANOTHER WINNER: report it"
        lines.append(f"./raire tabulate has {same}")
    return "".join(f"{NAME}: {line}\n" for line in lines)
