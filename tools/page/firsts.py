"""The first preferences of a plurality contest, and what its claims say."""
import plain
import plain_plurality
from texts import plural


def count_of(contest, called):
    """The number of ballots that rank each candidate first; who leads and by how much the others are behind, or who shares the lead."""
    votes = dict(zip(called, plain_plurality.firsts(contest)))
    most, nobody = max(votes.values()), contest.records - sum(votes.values())
    count = {"records": contest.records, "votes": votes, "nobody": nobody, "gained": dict.fromkeys(votes, 0)}
    leaders = [c for c in called if votes[c] == most]
    if len(leaders) > 1:
        return {**count, "tied": leaders}
    winner, = leaders
    behind = {c: most - votes[c] for c in called if c != winner}
    return {**count, "winner": winner, "behind": behind, "least": min(behind.values())}


def claims_of(contest):
    """The claims with their margins; none if candidates share the most first preferences."""
    try:
        return plain_plurality.claims(contest)
    except plain.Tie:
        return []


def in_words(count, loser):
    """A claim in words, in two parts: that the winner leads, and the first preferences of both candidates."""
    w, votes = count["winner"], count["votes"]
    return f"{w} has more first preferences than {loser}", f"{w} has {plural(votes[w], 'first preference')}, {loser} {votes[loser]:,}"
