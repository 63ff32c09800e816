"""The trimmed file, directly from the definition: every order, every suffix, no index.

From the last claim to the first, each is omitted in turn, and it is removed exactly if the others still refute every order that elects another candidate.
The nodes or sets of a trial are those of `check`, for the claims that are left without the one that is tried.
"""
import itertools
import json

import plain

HEADING = ("candidates", "contest", "margin", "records", "version", "winner")
ENTRY = ("kind", "loser", "margin", "winner")


class Spent(Exception):
    """The budget isn't enough for a trial of this claim, counted from 1, at this candidate."""

    def __init__(self, claim, last):
        super().__init__(claim, last)
        self.claim, self.last = claim, last


class Walked:
    """For each order and each suffix of a contest that elects another candidate, which claims refute it, as bits by their places."""

    def __init__(self, n, winner, claims):
        self.n, self.winner = n, winner
        self.suffixes = {}
        for last in range(n):
            if last != winner:
                others = [c for c in range(n) if c != last]
                ending = [front + (last,) for size in range(n) for front in itertools.permutations(others, size)]
                ending.sort(key=lambda suffix: suffix[::-1])
                self.suffixes[last] = [(suffix, self.refuters(suffix, claims)) for suffix in ending]

    @staticmethod
    def refuters(suffix, claims):
        return sum(1 << at for at, (assertion, _) in enumerate(claims) if plain.refutes(assertion, suffix))

    def covers(self, left, budget):
        """Whether the claims with these bits refute every order. Raises LookupError with the candidate at whom more suffixes or sets count than the budget
        has."""
        of_sets, counted = isinstance(budget, plain.Sets), set()
        for last, suffixes in self.suffixes.items():
            if not of_sets:
                counted = set()
            for suffix, by in suffixes:
                if by & left:
                    continue
                if len(suffix) == self.n:
                    return False
                counted.add(frozenset(suffix) if of_sets else suffix)
                if len(counted) > budget:
                    raise LookupError(last)
        return True


def trimmed(n, winner, claims, budget):
    """The places of the claims that are left."""
    walked, left = Walked(n, winner, claims), (1 << len(claims)) - 1
    for at in reversed(range(len(claims))):
        try:
            if walked.covers(left & ~(1 << at), budget):
                left &= ~(1 << at)
        except LookupError as over:
            raise Spent(at + 1, over.args[0]) from None
    return [at for at in range(len(claims)) if left >> at & 1]


def printed(data, budget):
    """The status and the text of `raire trim`, for an assertion file that a check accepts."""
    file = plain.read_assertions(data)
    ids = file["candidates"]
    try:
        left = trimmed(len(ids), ids.index(file["winner"]), file["assertions"], budget)
    except Spent as spent:
        return plain.spent_sets(budget) if isinstance(budget, plain.Sets) else (4, f"spent\ncandidate {ids[spent.last]}\n")
    value = json.loads(data)
    is_planned, has_order = file["plan"] is not None, file["order"] is not None
    kept = {name: value[name] for name in HEADING + ("order",) * has_order + plain.Plan._fields * is_planned}
    claims = [shown(value["assertions"][at], ids, ENTRY + ("draws",) * is_planned) for at in left]
    if not has_order:
        kept["margin"] = min(claim["margin"] for claim in claims)
    return 0, json.dumps({**kept, "assertions": claims}, sort_keys=True, separators=(",", ":")) + "\n"


def shown(assertion, ids, names):
    """The members of an assertion that are printed, with the remaining candidates in the contest's order."""
    members = {name: assertion[name] for name in names}
    return members if assertion["kind"] == "NEB" else {**members, "rest": sorted(assertion["rest"], key=ids.index)}
