"""The votes of each candidate of a contest after some are gone, for each set of those who are gone. A set has a bit for each candidate's place."""
import re
from array import array
from collections import Counter

from plain_audit import MARK

LANE = 4  # bytes of a number; there are at most 1,000,000 ballots


def rankings_of(data, contests, name, ids):
    """The number of a contest's ballots with each ranking, in a file with this many contests that the program has read and that has no quotes."""
    data = data.removeprefix(MARK).removeprefix(MARK)
    records = [line for line in re.split("[\r\n]", data.decode("latin-1")) if line.strip(" \t")]
    own = (fields for fields in (record.split(",", 2) for record in records[1 + contests:]) if fields[0].strip(" \t") == name)
    rankings, at = Counter(), {c: place for place, c in enumerate(ids)}
    for preferences, times in Counter(fields[2] if len(fields) > 2 else "" for fields in own).items():
        ranked = (field.strip(" \t") for field in preferences.split(","))
        rankings[tuple(dict.fromkeys(at[c] for c in ranked if c))] += times
    return rankings


def with_sums(numbers, n):
    """For numbers by set, the sums over each set's subsets. All are added up at once, as the digits of one long number."""
    total = int.from_bytes(numbers.tobytes(), "little")
    for c in range(n):
        few = LANE << c
        without = int.from_bytes((b"\xff" * few + bytes(few)) * (1 << n - 1 - c), "little")
        total += (total & without) << 8 * few
    return array("I", total.to_bytes(LANE << n, "little"))


class Tallies:
    def __init__(self, n, rankings):
        self.n, self.all = n, (1 << n) - 1
        self.sums = [array("I", bytes(LANE << n)) for _ in range(n)]
        for ranking, times in rankings.items():
            before = 0
            for c in ranking:
                self.sums[c][before] += times
                before |= 1 << c
        self.sums = [with_sums(numbers, n) for numbers in self.sums]

    def votes(self, c, standing):
        """The number of ballots that count for a candidate if only these candidates are left."""
        return self.sums[c][self.all & ~standing]

    def neb(self, w, l):
        """The margin of a NEB: the first preferences of w, minus the most that l can have while w is still in."""
        return self.votes(w, self.all) - self.votes(l, 1 << w | 1 << l)

    def nen(self, w, l, standing):
        return self.votes(w, standing) - self.votes(l, standing)
