"""Shows that no NEN of an assertion file can be spared: finds as many orders as the file has NENs, each of which elects another candidate. No true NEB of
the file's margin refutes any of these orders, and no true NEN of that margin refutes two of them.

A suffix grows in steps. Each step puts a candidate in front of the set of those who come last. A NEN refutes one step. A NEB refutes all steps of its
loser to a set without its winner. So the search for orders is a flow from the set of all candidates back to the empty set: nothing flows over a step that
such a NEB refutes, at most one over a step that such a NEN refutes, and any number over every other step. The search doesn't have to be trusted:
`are_apart` checks the orders, and a page says nothing if they fail.
"""
import heapq

from tallies import Tallies

MOST_CANDIDATES = 16  # with 65,536 sets
MOST_ORDERS = 2_000
MOST_LOOKED_AT = 100_000  # sets, each counted as often as it is visited


class Steps:
    """The last steps to a set that no NEB refutes: who is put in front, and whether a NEN refutes the step."""

    def __init__(self, tallies, winner, least):
        self.tallies, self.winner, self.least, self.known = tallies, winner, least, {}
        places = range(tallies.n)
        self.needs = [sum(1 << w for w in places if w != c and tallies.neb(w, c) >= least) for c in places]

    def to(self, here):
        """The last steps to this set. Those that no NEN refutes come first, since they can't be used up."""
        if here not in self.known:
            votes = {c: self.tallies.votes(c, here) for c in range(self.tallies.n) if here >> c & 1}
            few = min(votes.values(), default=0) + self.least
            steps = {c: votes[c] >= few for c in votes if not self.needs[c] & ~here and here != 1 << self.winner}
            self.known[here] = dict(sorted(steps.items(), key=lambda step: step[1]))
        return self.known[here]


class TooLong(Exception):
    """The search visited more sets than a page has time for."""


class Flow:
    """The flow over each step, from the set of all candidates back to the empty set."""

    def __init__(self, steps, most):
        self.steps, self.all, self.looked_at = steps, steps.tallies.all, 0
        self.over, self.on = {}, {}  # the flow over each step; the candidates whose step to a set has some flow
        self.value, dead = 0, set()
        while self.value < most and (self.pour(self.all, dead) or self.turn()):
            self.value += 1

    def look(self):
        self.looked_at += 1
        if self.looked_at > MOST_LOOKED_AT:
            raise TooLong

    def open(self, here):
        """The candidates who may still be taken off the front of a set."""
        return [c for c, is_refuted in self.steps.to(here).items() if not (is_refuted and self.over.get((here, c)))]

    def put(self, here, c):
        self.over[here, c] = self.over.get((here, c), 0) + 1
        self.on.setdefault(here ^ 1 << c, set()).add(c)

    def take(self, here, c):
        self.over[here, c] -= 1
        if not self.over[here, c]:
            self.on[here ^ 1 << c].discard(c)

    def pour(self, here, dead):
        """Adds one to the flow from this set to the empty set without taking any step back. A set that can't get there is dead for good."""
        self.look()
        if not here:
            return True
        for c in self.open(here):
            if here ^ 1 << c not in dead and self.pour(here ^ 1 << c, dead):
                self.put(here, c)
                return True
        dead.add(here)
        return False

    def turn(self):
        """Adds one to the flow along a path that may take steps back, and returns whether there is one. Small sets come first, since the empty set is near."""
        came, heap = {self.all: None}, [(0, self.all)]
        while heap and 0 not in came:
            _, here = heapq.heappop(heap)
            self.look()
            ways = [(here ^ 1 << c, (here, c, True)) for c in self.open(here)]
            ways += [(here | 1 << c, (here | 1 << c, c, False)) for c in self.on.get(here, ())]
            for further, way in ways:
                if further not in came:
                    came[further] = way
                    heapq.heappush(heap, (further.bit_count(), further))
        if 0 in came:
            self.follow(came)
        return 0 in came

    def follow(self, came):
        here = 0
        while came[here]:
            step, c, is_on = came[here]
            (self.put if is_on else self.take)(step, c)
            here = step if is_on else step ^ 1 << c

    def orders(self):
        """The orders that the flow consists of, the first eliminated first."""
        left, found = dict(self.over), []
        for _ in range(self.value):
            here, order = self.all, []
            while here:
                c = next(c for c in self.steps.to(here) if left.get((here, c)))
                left[here, c] -= 1
                order.append(c)
                here ^= 1 << c
            found.append(tuple(order))
        return found


def set_of(candidates):
    return sum(1 << c for c in candidates)


def are_apart(tallies, winner, least, orders):
    """Whether each order elects another candidate, no true NEB of at least this margin refutes any of them, and no true NEN of that margin refutes two."""
    refuted = set()
    for order in orders:
        if sorted(order) != list(range(tallies.n)) or order[-1] == winner:
            return False
        for place, c in enumerate(order):
            if any(tallies.neb(w, c) >= least for w in order[:place]):
                return False
            standing = set_of(order[place:])
            if any(tallies.nen(c, l, standing) >= least for l in order[place + 1:]):
                if (c, standing) in refuted:
                    return False
                refuted.add((c, standing))
    return True


def may_be_found(file):
    """Whether a file has NENs, but not too many for a page, and few enough candidates."""
    nens = sum(claim["kind"] == "NEN" for claim in file["assertions"])
    return len(file["candidates"]) <= MOST_CANDIDATES and 1 <= nens <= MOST_ORDERS


def found(ids, rankings, file):
    """The orders for a file that the program has accepted, by the number of the NEN that each of them needs; None if they aren't found."""
    claims, tallies = claims_of(ids, file), Tallies(len(ids), rankings)
    nens = {(w, rest): number for number, (w, _, rest, _) in enumerate(claims, 1) if rest}
    winner, least = ids.index(file["winner"]), file["margin"]
    if any(margin != (tallies.nen(w, l, rest) if rest else tallies.neb(w, l)) for w, l, rest, margin in claims):
        return None
    try:
        orders = Flow(Steps(tallies, winner, least), len(nens)).orders()
    except TooLong:
        return None
    return by_nen(nens, orders) if are_apart(tallies, winner, least, orders) else None


def claims_of(ids, file):
    """The winner, the loser, who is left, and the margin of each assertion, by places. For a NEB, nobody is left."""
    at = {c: place for place, c in enumerate(ids)}
    return [(at[claim["winner"]], at[claim["loser"]], set_of(at[c] for c in claim.get("rest", [])), claim["margin"]) for claim in file["assertions"]]


def by_nen(nens, orders):
    """Each order by the number of the NEN that refutes it; None unless each NEN refutes one order and each order is refuted by one NEN."""
    numbers = [[nens[step] for place, c in enumerate(order) if (step := (c, set_of(order[place:]))) in nens] for order in orders]
    if sorted(numbers) != [[number] for number in sorted(nens.values())]:
        return None
    return dict(sorted((number, order) for (number,), order in zip(numbers, orders)))
