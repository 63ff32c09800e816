"""The tree of elimination orders that elect another candidate, and what cuts each of its branches.

A branch is a suffix of orders: who wins, who is eliminated last, and so on, back toward the first. It is cut by the first assertion of the file that
refutes it. When one more candidate is put in front of a branch, what cuts it depends on who that is and on the set of those who follow, not on their
order. So branches with the same set continue alike, and all are counted set by set, even if there are millions. If the page doesn't have room for all of
them, each set is drawn once.
"""
from math import factorial

MOST_COUNTED = 100_000  # sets
MOST_SHOWN = 400
MOST_OPEN = 40


class Cutting:
    """The assertions by what they cut: a NEB by its loser, a NEN by its winner and its set. A set has a bit for the place of each id."""

    def __init__(self, ids, claims):
        at, self.nebs, self.nens = {c: place for place, c in enumerate(ids)}, [[] for _ in ids], {}
        for number, claim in enumerate(claims):
            winner = at[claim["winner"]]
            if claim["kind"] == "NEB":
                self.nebs[at[claim["loser"]]].append((number, 1 << winner))
            else:
                self.nens.setdefault((winner, sum(1 << at[c] for c in claim["rest"])), number)

    def of(self, front, behind):
        """The first assertion that refutes a suffix because of the candidate in front of these, or None."""
        nen = self.nens.get((front, behind | 1 << front))
        for number, winner in self.nebs[front]:
            if not winner & behind:
                return number if nen is None else min(number, nen)
        return nen


class Counted:
    """For each set: how many uncut branches have it, and how many branches further on are cut or stand."""

    def __init__(self, n, winner, claims, cutting):
        self.full, self.winner, self.cutting = (1 << n) - 1, winner, cutting
        self.cuts_of, self.branches = [0] * claims, 0
        self.cuts, self.standing, self.after = {}, {}, {}
        levels, self.is_whole = self.forward(n), True
        if levels[-1] and self.full not in levels[-1]:
            self.is_whole = False
        self.sets = sum(map(len, levels[1:])) - (self.full in levels[-1])
        for level in reversed(levels):
            for here in level:
                self.back(here)

    def outside(self, behind):
        """The candidates who may be put in front of a set, in the contest's order. The last candidate of an order isn't the winner."""
        return [c for c in range(self.full.bit_length()) if not behind >> c & 1 and (behind or c != self.winner)]

    def forward(self, n):
        """The sets of uncut branches, by size, as far as they are counted."""
        levels, counted = [{0: 1}], 0
        for _ in range(n):
            counted += len(levels[-1])
            if counted > MOST_COUNTED or not levels[-1]:
                break
            levels.append(self.next_level(levels[-1]))
            self.branches += sum(levels[-1].values())
        return levels

    def next_level(self, level):
        found = {}
        for here, ways in level.items():
            own_cuts, after = 0, []
            for c in self.outside(here):
                by = self.cutting.of(c, here)
                if by is None:
                    further = here | 1 << c
                    found[further] = found.get(further, 0) + ways
                    after.append(further)
                else:
                    own_cuts += 1
                    self.cuts_of[by] += ways
                    self.branches += ways
            self.after[here] = own_cuts, after
        return found

    def back(self, here):
        own_cuts, after = self.after.get(here, (0, []))
        self.cuts[here] = own_cuts + sum(self.cuts[further] for further in after)
        self.standing[here] = int(here == self.full) + sum(self.standing[further] for further in after)


class Branch:
    """A suffix, winner first: what cuts it, and how many of its branches are cut or stand."""

    def __init__(self, path, here, by, counted):
        self.path, self.here, self.by = path, here, by
        self.orders = factorial(counted.full.bit_length() - len(path))
        self.stands = by is None and here == counted.full
        self.cuts = counted.cuts[here] if by is None else 1
        self.standing = counted.standing[here] if by is None else 0
        self.is_counted = by is not None or self.stands or here in counted.after
        self.children, self.is_shown, self.like = [], False, None

    @property
    def place(self):
        return len(self.path)

    @property
    def candidate(self):
        return self.path[-1]


class Tree:
    def __init__(self, ids, winner, claims, names=None):
        self.names, n = names or ids, len(ids)  # the names of the candidates on its branches
        self.counted = Counted(n, ids.index(winner), len(claims), Cutting(ids, claims))
        self.is_whole, self.cuts_of, self.sets = self.counted.is_whole, self.counted.cuts_of, self.counted.sets
        self.cuts, self.standing = self.counted.cuts[0], self.counted.standing[0]
        self.orders = factorial(n) - factorial(n - 1)
        self.is_by_sets = not self.is_whole or self.counted.branches > MOST_SHOWN
        self.branches = self.grown((), 0)
        self.show()

    def grown(self, path, here):
        """The branches with one more candidate."""
        of = self.counted.cutting.of
        return [Branch((*path, self.names[c]), here | 1 << c, of(c, here), self.counted) for c in self.counted.outside(here)]

    def show(self):
        """Marks the branches to show, level by level, as many as a page has room for. Branches with an order that stands come first. Of the branches with the
        same set, only the first continues.
        """
        level, shown, drawn = self.branches, 0, {}
        while level:
            level = sorted(level, key=lambda branch: -branch.standing)
            further = []
            for branch in level:
                branch.is_shown = shown < MOST_SHOWN
                shown += branch.is_shown
                if branch.is_shown and branch.by is None and branch.is_counted and not branch.stands:
                    first = drawn.setdefault(branch.here, branch.path) if self.is_by_sets else branch.path
                    if first == branch.path:
                        branch.children = self.grown(branch.path, branch.here)
                        further += branch.children
                    else:
                        branch.like = first
            level = further
        self.is_open = shown <= MOST_OPEN

    def cutting(self):
        """The assertions that cut a branch that is drawn."""
        found, branches = set(), [*self.branches]
        for branch in branches:
            found.add(branch.by)
            branches += branch.children
        return found - {None}
