#!/usr/bin/env python3
"""Compares adoptions by the built program with plain_adopt.py.

acceptance/adopt.py PROGRAM [CLAIMS] makes CLAIMS sets of claims (2,000 by default) for contests of 2 to 6 candidates, a few of 8. Some sets are the
assertions of a search, all of them or all but one. Others have more assertions that are true, some that aren't true, or only random ones that are true.
Some have claims twice, in another order or with other margins or members, or name candidates that aren't there. The status and the text must be those of
the plain program, with many nodes or sets and with few. `check` must accept what is adopted with the same budget, and adopting it once more must not change
it. The last line says how many sets agreed, and how they ended.
"""
import json
import os
import subprocess
import sys
import tempfile
from collections import Counter

import places  # noqa: F401
import compare
import plain
import plain_adopt
from draws import Draws
from limits import DEFAULT_NODES

NO_CANDIDATE = "nobody"


def ran(program, *words):
    done = subprocess.run([program, *words], capture_output=True, text=True, timeout=600)
    return done.returncode, done.stdout, done.stderr


def any_assertion(contest, draws):
    """An assertion between two different candidates, true or not."""
    winner = draws.below(contest.n)
    loser = (winner + 1 + draws.below(contest.n - 1)) % contest.n
    rest = frozenset(c for c in range(contest.n) if draws.below(2)) | {winner, loser}
    return ("NEB", winner, loser) if draws.below(3) == 0 else ("NEN", winner, loser, rest)


def true_ones(contest, draws, count):
    found = [assertion for assertion in (any_assertion(contest, draws) for _ in range(4 * count)) if contest.margin(assertion) > 0]
    return found[:count]


def searched(contest):
    """The assertions of a search, or none if the contest isn't decided."""
    try:
        plain.decided(contest)
    except plain.Tie:
        return []
    text = (plain.certificate if contest.n < 7 else plain.certificate_by_bound)(contest)
    return [assertion for assertion, _ in plain.read_assertions(text.encode())["assertions"]]


class Claims:
    """The claims of one file, and how its text may differ from the plainest one."""

    def __init__(self, contest, draws):
        self.contest, self.draws = contest, draws
        self.winner = plain.tabulated(contest)[0][-1]
        self.assertions = searched(contest)

    def less(self):
        if self.assertions:
            self.assertions.pop(self.draws.below(len(self.assertions)))

    def more(self):
        for assertion in true_ones(self.contest, self.draws, 1 + self.draws.below(9)):
            self.assertions.insert(self.draws.below(len(self.assertions) + 1), assertion)

    def by_chance(self):
        self.assertions = true_ones(self.contest, self.draws, self.draws.below(4 * self.contest.n))

    def untrue(self):
        for _ in range(1 + self.draws.below(2)):
            self.assertions.insert(self.draws.below(len(self.assertions) + 1), any_assertion(self.contest, self.draws))

    def doubled(self):
        self.assertions = [assertion for assertion in self.assertions for _ in range(1 + self.draws.below(3))]

    def in_another_order(self):
        for at in reversed(range(1, len(self.assertions))):
            other = self.draws.below(at + 1)
            self.assertions[at], self.assertions[other] = self.assertions[other], self.assertions[at]

    def another_winner(self):
        self.winner = self.draws.below(self.contest.n)

    def value(self):
        """The value of the file, with margins that mean nothing."""
        ids = self.contest.ids
        entries = []
        for kind, winner, loser, *rest in self.assertions:
            entry = {"kind": kind, "winner": ids[winner], "loser": ids[loser]}
            if rest:
                entry["rest"] = [ids[c] for c in sorted(rest[0], key=lambda c: (c * 7) % 5)]
            elif self.draws.below(4) == 0:
                entry["rest"] = [NO_CANDIDATE]
            if self.draws.below(3) == 0:
                entry["margin"] = [0, -1, "many", 1_000_000][self.draws.below(4)]
            entries.append(entry)
        candidates = list(ids)
        if self.draws.below(3) == 0:
            candidates.reverse()
        return {"candidates": candidates, "contest": self.contest.name, "winner": ids[self.winner], "assertions": entries}


WAYS = ("less", "more", "by_chance", "untrue", "doubled", "in_another_order", "another_winner")


def broken(value, draws):
    """Changes the value so that a rule refuses it."""
    entries, candidates = value["assertions"], value["candidates"]
    entry = entries[draws.below(len(entries))] if entries else {}
    return [
        lambda: value.update(contest="another"),
        lambda: candidates.append(NO_CANDIDATE),
        lambda: candidates.append(candidates[0]),
        lambda: candidates.pop(),
        lambda: value.update(winner=NO_CANDIDATE),
        lambda: value.pop("winner"),
        lambda: value.update(assertions={}),
        lambda: entry.update(winner=NO_CANDIDATE),
        lambda: entry.update(loser=NO_CANDIDATE),
        lambda: entry.update(loser=entry.get("winner", "")),
        lambda: entry.update(kind="NEM"),
        lambda: entry.update(kind="NEN", rest=[NO_CANDIDATE]),
        lambda: entry.update(kind="NEN", rest=candidates + candidates[:1]),
        lambda: entry.update(kind="NEN", rest=[entry.get("winner", "")]),
        lambda: entry.pop("loser", None),
    ][draws.below(15)]()


def wanted(contest, data, budget, path):
    try:
        return (*plain_adopt.adopted(contest, data, budget), "")
    except plain.Refused as refused:
        return 2, "", f"raire: {path}: {refused}\n"


def faults(program, folder, contest, data, draws):
    """The differences found, and how the adoption with the default budget ends."""
    ballots, path, again = (os.path.join(folder, name) for name in ("ballots.raire", "claims.json", "adopted.json"))
    with open(path, "wb") as file:
        file.write(data)
    few = 1 + draws.below(12)
    ends, told = [], []
    for words, budget in (((), DEFAULT_NODES), ((f"--nodes={few}",), few), (("--sets=300",), plain.Sets(300)), ((f"--sets={few}",), plain.Sets(few))):
        got, due = ran(program, "adopt", ballots, path, *words), wanted(contest, data, budget, path)
        ends.append(due[0])
        if got != due:
            told.append(f"adopt with {words}: wanted {due}, got {got}")
        elif got[0] == 0:
            with open(again, "w") as file:
                file.write(got[1])
            if ran(program, "check", ballots, again, *words)[0] != 0:
                told.append("what is adopted isn't accepted")
            if ran(program, "adopt", ballots, again, *words) != got:
                told.append("what is adopted isn't adopted as it is")
    return told, ends[0]


def main():
    program, count = sys.argv[1], int(sys.argv[2]) if len(sys.argv) > 2 else 2000
    draws, ends, failed = Draws(58), Counter(), 0
    with tempfile.TemporaryDirectory() as folder:
        for number in range(count):
            n = 8 if number % 200 == 199 else 2 + number % 5
            ids = [str(11 + c) for c in range(n)]
            rankings = compare.contest_of(draws, n, 20 + draws.below(100))
            compare.write(os.path.join(folder, "ballots.raire"), ids, rankings)
            contest = plain.Contest("9", ids, rankings)
            claims = Claims(contest, draws)
            for way in dict.fromkeys(WAYS[draws.below(len(WAYS))] for _ in range(draws.below(4))):
                getattr(claims, way)()
            value = claims.value()
            if number % 10 == 9:
                broken(value, draws)
            data = json.dumps(value).encode()
            told, end = faults(program, folder, contest, data[:-1] if number % 100 == 98 else data, draws)
            ends[end] += 1
            for fault in told:
                print(f"claims {number + 1}: {fault}")
            failed += bool(told)
    how = ", ".join(f"{times} with status {status}" for status, times in sorted(ends.items()))
    print(f"{count - failed} sets of claims agree, {failed} don't: {how}")
    sys.exit(1 if failed else 0)


if __name__ == "__main__":
    main()
