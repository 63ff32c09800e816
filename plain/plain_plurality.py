"""Plurality contests, directly from their definition: who is first on how many ballots, and what a card counts for a claim."""
import plain


def firsts(contest):
    """How many ballots have each candidate first."""
    return [sum(count for ranking, count in contest.rankings.items() if ranking[:1] == (c,)) for c in range(contest.n)]


def claims(contest):
    """For each loser, in the contest's order, the claim that the winner has more first preferences, and how many more; or the tie."""
    counts = firsts(contest)
    leaders = [c for c in range(contest.n) if counts[c] == max(counts)]
    if len(leaders) > 1:
        names = ",".join(contest.ids[c] for c in leaders)
        raise plain.Tie(f"tie\nround 1\ntied {names}\ntally {max(counts)}\n")
    winner, = leaders
    return [(("FIRST", winner, loser), counts[winner] - counts[loser]) for loser in range(contest.n) if loser != winner]


def lead(winner, loser, ranking):
    """2 if the winner is first, 0 if the loser is, 1 otherwise."""
    return {winner: 2, loser: 0}.get(ranking[0], 1) if ranking else 1
