#!/usr/bin/python3
"""The fewest NENs of a contest, plainly and in two ways.

`by_choice` writes down every order that elects another candidate, and which NENs of at least the least margin refute it. It tries choices of NENs until it
finds the fewest that refute each order that no NEB of at least that margin refutes. The least margin is the best one, or smaller by a gap.

`by_flow` counts them as what can flow between sets of candidates, from the empty set to the set of all: a step that such a NEB refutes lets nothing
through, one that such a NEN refutes lets one through, and any other step lets any number through. Neither looks at what the suite prints.

    plain/plain_fewest.py BALLOTS [GAP]
"""
import functools
import itertools
import sys
from collections import Counter
from typing import NamedTuple

import plain
import plain_sets


def least_margin(best, gap):
    """The best margin less this many thousandths of it, rounded up, and at least one vote."""
    return max(1, best - best * gap // 1000)


def nebs(contest, least):
    """Each NEB whose margin is at least this one."""
    pairs = itertools.permutations(range(contest.n), 2)
    return [("NEB", w, l) for w, l in pairs if contest.margin(("NEB", w, l)) >= max(least, 1)]


# ---- by choice


@functools.lru_cache(maxsize=None)
def orders_of(n, winner):
    return [order for order in itertools.permutations(range(n)) if order[-1] != winner]


@functools.lru_cache(maxsize=None)
def refuted(n, winner, assertion):
    """The orders that an assertion refutes, as bits by their places."""
    return sum(1 << at for at, order in enumerate(orders_of(n, winner)) if plain.refutes(assertion, order))


def nen_choices(contest, winner, least):
    """The orders that each NEN of the margin refutes, with each set of orders once."""
    found = set()
    for size in range(2, contest.n + 1):
        for rest in map(frozenset, itertools.combinations(range(contest.n), size)):
            votes = contest.tally(rest)
            for w, l in itertools.permutations(rest, 2):
                if votes[w] - votes[l] >= max(least, 1):
                    found.add(refuted(contest.n, winner, ("NEN", w, l, rest)))
    return found


def places_of(bits):
    while bits:
        yield (bits & -bits).bit_length() - 1
        bits &= bits - 1


class Choices:
    """The fewest sets that together have all of some places, found by trying."""

    def __init__(self, sets):
        self.by_place = {}
        for chosen in sets:
            for at in places_of(chosen):
                self.by_place.setdefault(at, []).append(chosen)
        self.beside = {at: functools.reduce(int.__or__, having) for at, having in self.by_place.items()}

    def apart(self, left):
        """A number of places no two of which are in one set: at least that many sets are needed."""
        count = 0
        while left:
            at = min(places_of(left), key=lambda at: self.beside[at].bit_count()) if count == 0 else (left & -left).bit_length() - 1
            left &= ~self.beside[at]
            count += 1
        return count

    def suffice(self, left, number):
        if not left:
            return True
        if self.apart(left) > number:
            return False
        at = min(places_of(left), key=lambda at: len(self.by_place[at]))
        return any(self.suffice(left & ~chosen, number - 1) for chosen in self.by_place[at])

    def fewest(self, left):
        return next(number for number in itertools.count(self.apart(left)) if self.suffice(left, number))


def by_choice(contest, winner, least):
    """How many NENs are needed, besides all NEBs of the margin, so that each order is refuted."""
    n = contest.n
    left = (1 << len(orders_of(n, winner))) - 1
    for assertion in nebs(contest, least):
        left &= ~refuted(n, winner, assertion)
    sets = {chosen & left for chosen in nen_choices(contest, winner, least)} - {0}
    # A set is never needed if another set has all of its places.
    widest = [chosen for chosen in sets if not any(chosen != other and chosen & other == chosen for other in sets)]
    return Choices(widest).fewest(left)


# ---- by flow


class Steps:
    """Which steps from a set exist, and which of them a NEN can cut; sets are bits. A step puts a candidate in front of a set."""

    def __init__(self, contest, winner, least):
        self.n, self.all, self.winner, self.least = contest.n, (1 << contest.n) - 1, winner, max(least, 1)
        self.sums = plain_sets.Steps(contest)
        # The winners of NEBs over a candidate must be there before the candidate may be put in front.
        self.needs = [0] * contest.n
        for _, w, l in nebs(contest, least):
            self.needs[l] |= 1 << w
        self.known = {}

    def on(self, behind):
        """The steps from a set that no NEB refutes, and for each whether a NEN can cut it."""
        if behind not in self.known:
            outside = [c for c in range(self.n) if not behind >> c & 1 and (behind or c != self.winner)]
            self.known[behind] = {c: self.is_cuttable(behind, c) for c in outside if not self.needs[c] & ~(behind | 1 << c)}
        return self.known[behind]

    def is_cuttable(self, behind, c):
        if not behind:
            return False
        votes, fewest, _ = self.sums.votes(self.all & ~behind & ~(1 << c), c, behind)
        return votes - fewest >= self.least


class Flow:
    """What flows over each step, as much as possible."""

    def __init__(self, steps):
        self.steps, self.over, self.value = steps, Counter(), 0
        self.into = {}  # the candidates over whose step something comes to a set
        dead = set()
        while self.pour(0, dead):
            self.value += 1
        while (way := self.way_back()) is not None:
            self.move(way)

    def goes(self, behind):
        """Who may still be put in front of a set."""
        return [c for c, cuttable in self.steps.on(behind).items() if not (cuttable and self.over[behind, c])]

    def put(self, behind, c):
        self.over[behind, c] += 1
        self.into.setdefault(behind | 1 << c, set()).add(c)

    def take(self, behind, c):
        self.over[behind, c] -= 1
        if not self.over[behind, c]:
            del self.over[behind, c]
            self.into[behind | 1 << c].discard(c)

    def pour(self, behind, dead):
        """Adds one more by forward steps only, from this set to the set of all; a set from which none goes on is dead for good."""
        if behind == self.steps.all:
            return True
        for c in self.goes(behind):
            if behind | 1 << c not in dead and self.pour(behind | 1 << c, dead):
                self.put(behind, c)
                return True
        dead.add(behind)
        return False

    def reached(self):
        """The sets that one more could still come to, each with the step by which it was first reached, and the empty set. They end with the set of all."""
        come, queue = {0: None}, [0]
        for behind in queue:
            further = [(behind | 1 << c, (behind, c, True)) for c in self.goes(behind)]
            further += [(behind ^ 1 << c, (behind ^ 1 << c, c, False)) for c in self.into.get(behind, ())]
            for other, step in further:
                if other not in come:
                    come[other] = step
                    if other == self.steps.all:
                        return come
                    queue.append(other)
        return come

    def way_back(self):
        come = self.reached()
        return come if self.steps.all in come else None

    def move(self, come):
        """Adds one more along the way to the set of all; some of the steps on that way may be taken back."""
        at = self.steps.all
        while come[at] is not None:
            behind, c, on = come[at]
            (self.put if on else self.take)(behind, c)
            at = behind if on else behind | 1 << c
        self.value += 1

    def orders(self):
        """The flow as separate orders: as many as flow, each from all candidates back to nobody."""
        left, into, found = Counter(self.over), {behind: set(cs) for behind, cs in self.into.items()}, []
        for _ in range(self.value):
            behind, order = self.steps.all, []
            while behind:
                c = next(iter(into[behind]))
                order.append(c)
                behind ^= 1 << c
                left[behind, c] -= 1
                if not left[behind, c]:
                    into[behind | 1 << c].discard(c)
            found.append(tuple(order))
        return found


def by_flow(steps):
    """How many NENs are needed, besides all NEBs of the margin: there are that many orders such that no NEN refutes two of them."""
    flow, seen = Flow(steps), set()
    for order in flow.orders():
        assert order[-1] != steps.winner and sorted(order) == list(range(steps.n))
        for place, c in enumerate(order):
            behind = sum(1 << other for other in order[place + 1:])
            assert not (steps.on(behind)[c] and (behind, c) in seen)
            seen.add((behind, c))
    return flow.value


def standing(steps):
    """How many sets stand when only the NEBs of the margin are used; a budget of sets is compared with this number."""
    seen, stack = {0}, [0]
    while stack:
        behind = stack.pop()
        for c in steps.on(behind):
            further = behind | 1 << c
            if further not in seen and further != steps.all:
                seen.add(further)
                stack.append(further)
    return len(seen) - 1


class Found(NamedTuple):
    """The result of a search for the fewest NENs: the best margin with the order, the least margin, the fewest NENs that are possible, and the sets that
    must be within the budget, which are counted at the best margin."""

    best: int
    least: int
    order: tuple
    nens: int
    sets: int


def found(contest, gap=0):
    came = plain_sets.found(contest)
    if not came.best:
        return Found(0, 0, came.order, 0, came.sets)
    winner, least = plain.tabulated(contest)[0][-1], least_margin(came.best, gap)
    at_best = Steps(contest, winner, came.best)
    steps = at_best if least == came.best else Steps(contest, winner, least)
    return Found(came.best, least, came.order, by_flow(steps), max(came.sets, standing(at_best)))


def otherwise(contest, came, sets, floor=1):
    """The status and the text of a search that doesn't print assertions, or None."""
    order, hardness = plain_sets.start(contest)
    if hardness and came.sets > sets:
        return 4, f"spent\nsets {sets}\norder {','.join(contest.ids[c] for c in order)}\nmargin {hardness}\n"
    if not came.best:
        try:
            plain.decided(contest)
        except plain.Tie as tie:
            return 3, str(tie)
    if came.best < floor:
        return 5, f"full count\norder {','.join(contest.ids[c] for c in came.order)}\nmargin {came.best}\nfloor {floor}\n"
    return None


def main():
    contest, gap = plain.read(sys.argv[1]), int(sys.argv[2]) if len(sys.argv) > 2 else 0
    winner, best = plain.tabulated(contest)[0][-1], plain_sets.found(contest).best
    if not best:
        sys.exit("ways of breaking ties elect different candidates")
    least = least_margin(best, gap)
    flow = Flow(Steps(contest, winner, least))
    print(f"margin {least}\nnens {flow.value}\nsets {standing(Steps(contest, winner, best))}")
    for order in flow.orders():
        print("order " + ",".join(contest.ids[c] for c in order))


if __name__ == "__main__":
    main()
