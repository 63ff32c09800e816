"""What a search counts with `--sets`, plainly and in two ways, and what it results in.

`by_list` tries every suffix, directly from docs/rules.md. `by_sets` goes from set to set: what refutes a suffix first when one more candidate is put in
front depends only on that candidate and on the set behind. Both give `Found`. `searched` gives the status and the text of a search.
"""
import heapq
import itertools
from typing import NamedTuple

import plain

MOST_LISTED = 5  # candidates; all suffixes of a contest with at most this many are listed
MOST_SUMMED = 15  # candidates; the tallies of all sets of a contest with at most this many are summed before any walk


class Found(NamedTuple):
    """The best margin, the certificate's order, how many sets count for the certificate and for its order, and its claims."""

    best: int
    order: tuple
    cover: int
    before: int
    claims: dict

    @property
    def sets(self):
        """The smallest budget that is enough."""
        return max(self.cover, self.before)


def start(contest):
    """The order that a search starts from, which is the tabulated one with its last two exchanged, and its hardness."""
    order = plain.tabulated(contest)[0]
    order = (*order[:-2], order[-1], order[-2])
    return order, plain.Lows(contest).low(order)[0]


def by_list(contest):
    """What counts, directly from the definition: the low of every suffix that ends in a candidate other than the winner."""
    winner, lows, n = plain.tabulated(contest)[0][-1], plain.Lows(contest), contest.n
    suffixes = [suffix for size in range(1, n + 1) for suffix in itertools.permutations(range(n), size) if suffix[-1] != winner]
    low = {suffix: lows.low(suffix) for suffix in suffixes}
    best = min(low[suffix][0] for suffix in suffixes if len(suffix) == n)
    order = min((suffix for suffix in suffixes if len(suffix) == n and low[suffix][0] == best), key=lambda suffix: suffix[::-1])
    parts = [suffix for suffix in suffixes if len(suffix) < n]
    cover = {frozenset(suffix) for suffix in parts if low[suffix][0] < best}
    before = {frozenset(suffix) for suffix in parts if low[suffix][0] <= best and suffix[::-1] < order[::-1]}
    ends = [suffix for suffix in suffixes if low[suffix][0] >= best and (len(suffix) == 1 or low[suffix[1:]][0] < best)]
    return Found(best, order, len(cover), len(before), {low[suffix][1]: low[suffix][0] for suffix in ends})


class Steps:
    """How large the low of a suffix must at least be once a candidate is put in front of it, and because of which assertion; sets are bits."""

    def __init__(self, contest):
        self.n, self.full, self.contest = contest.n, (1 << contest.n) - 1, contest
        self.sums = [self.summed(contest, c) for c in range(contest.n)] if contest.n <= MOST_SUMMED else None
        self.rivals = [sorted(((contest.margin(("NEB", w, c)), w) for w in range(contest.n) if w != c), key=lambda rival: (-rival[0], rival[1]))
                       for c in range(contest.n)]

    def summed(self, contest, c):
        """For each set, how many ballots rank the candidate and rank nobody before it who isn't in the set."""
        sums = [0] * (self.full + 1)
        for ranking, count in contest.rankings.items():
            if c in ranking:
                sums[sum(1 << other for other in ranking[:ranking.index(c)])] += count
        for other in range(self.n):
            for gone in range(self.full + 1):
                if gone >> other & 1:
                    sums[gone] += sums[gone ^ 1 << other]
        return sums

    def votes(self, gone, c, behind):
        """The tally of a candidate when these are gone, and the smallest tally of those behind it with the first candidate who has it."""
        if self.sums:
            return self.sums[c][gone], *min((self.sums[l][gone], l) for l in members(behind))
        tally = self.contest.tally(frozenset(members(behind | 1 << c)))
        return tally[c], *min((tally[l], l) for l in members(behind))

    def of(self, behind, c):
        gone = self.full & ~behind & ~(1 << c)
        margin, w = next(((margin, w) for margin, w in self.rivals[c] if gone >> w & 1), (0, None))
        best = (margin, ("NEB", w, c)) if margin > 0 else (0, None)
        if behind:
            votes, least, l = self.votes(gone, c, behind)
            if votes - least > best[0]:
                best = votes - least, ("NEN", c, l, frozenset(members(behind | 1 << c)))
        return best


def members(bits):
    return [c for c in range(bits.bit_length()) if bits >> c & 1]


def by_sets(contest):
    steps, winner, n = Steps(contest), plain.tabulated(contest)[0][-1], contest.n

    def outside(behind):
        """Who may be put in front of a set; the last candidate isn't the winner."""
        return [c for c in range(n) if not behind >> c & 1 and (behind or c != winner)]

    best = least_way(steps, outside)
    seen, claims, stack = set(), {}, [0]
    while stack:
        behind = stack.pop()
        for c in outside(behind):
            margin, assertion = steps.of(behind, c)
            further = behind | 1 << c
            if margin >= best:
                claims[assertion] = margin
            elif further not in seen:
                seen.add(further)
                stack.append(further)
    before, order = first_way(steps, outside, best)
    return Found(best, order, len(seen), before, {assertion: margin for assertion, margin in claims.items() if assertion})


def least_way(steps, outside):
    """The smallest, over the ways from nobody to all, of their greatest step. Among equally good ways, the one that has come further is continued."""
    heap, done = [(0, 0)], set()
    while True:
        low, come = heapq.heappop(heap)
        if -come == steps.full:
            return low
        if come not in done:
            done.add(come)
            for c in outside(-come):
                heapq.heappush(heap, (max(low, steps.of(-come, c)[0]), -(-come | 1 << c)))


def first_way(steps, outside, best):
    """How many sets are entered until a whole order is found whose steps are at most this, the smallest candidates first; and that order."""
    seen, stack = set(), [((), 0)]
    while True:
        suffix, behind = stack.pop()
        if behind == steps.full:
            return len(seen), suffix
        if behind not in seen:
            seen |= {behind} - {0}
            stack += [((c, *suffix), behind | 1 << c) for c in reversed(outside(behind)) if steps.of(behind, c)[0] <= best]


def found(contest):
    return (by_list if contest.n <= MOST_LISTED else by_sets)(contest)


def printed(contest, came, floor, plan):
    """An assertion file, or the reason for a full count."""
    winner = plain.decided(contest)[0][-1]
    if came.best < floor:
        return 5, f"full count\norder {','.join(contest.ids[c] for c in came.order)}\nmargin {came.best}\nfloor {floor}\n"
    return 0, plain.text_of(contest, winner, came.best, came.order, came.claims, plan)


def searched(contest, sets, floor=1, plan=None, by=found):
    """The status and the text of a search: it is out of budget exactly if more sets count, and the start's hardness doesn't show that nothing is decided."""
    order, hardness = start(contest)
    if hardness:
        came = by(contest)
        if came.sets > sets:
            return 4, f"spent\nsets {sets}\norder {','.join(contest.ids[c] for c in order)}\nmargin {hardness}\n"
        if came.best:
            return printed(contest, came, floor, plan)
    try:
        plain.decided(contest)
    except plain.Tie as tie:
        return 3, str(tie)
    raise AssertionError("a best margin of 0 leaves open who wins")
