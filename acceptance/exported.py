#!/usr/bin/env python3
"""Tries ./raire export: in SHANGRLA's form, the assertions of examples and of random contests refute the same orders by the same margins.

acceptance/exported.py PROGRAM [COUNT] has PROGRAM search each ballot file of examples/, within a budget, and COUNT random contests. It exports what PROGRAM
prints, and reads that as SHANGRLA's notebooks do: who wins, who loses, and who is already eliminated. The last line says how many came out as they should.
"""
import itertools
import json
import os
import random
import subprocess
import sys
import tempfile

import places  # noqa: F401
import plain
import plain_audit

TOP = os.path.dirname(os.path.dirname(os.path.abspath(__file__)))
ORDERS = 3_000  # the number of random orders that are tried for larger contests
NODES = "2000"  # a search that needs more is skipped, since its time would go to the search


class Claim:
    """An assertion, by SHANGRLA's definitions over the ids of candidates."""

    def __init__(self, entry, candidates):
        self.winner, self.loser, self.kind = entry["winner"], entry["loser"], entry["assertion_type"]
        self.out, self.left = entry["already_eliminated"], [each for each in candidates if each not in entry["already_eliminated"]]
        assert self.kind in ("WINNER_ONLY", "IRV_ELIMINATION") and {self.winner, self.loser} <= set(self.left)
        assert self.kind == "IRV_ELIMINATION" or not self.out

    def refutes(self, order):
        if self.kind == "WINNER_ONLY":
            return order.index(self.winner) < order.index(self.loser)
        return set(order[:len(self.out)]) == set(self.out) and order[len(self.out)] == self.winner

    def votes(self, ranking):
        """1 for the winner, -1 for the loser, 0 otherwise."""
        if self.kind == "WINNER_ONLY":
            if ranking[:1] == [self.winner]:
                return 1
            return -(self.loser in ranking and (self.winner not in ranking or ranking.index(self.loser) < ranking.index(self.winner)))
        first = next((each for each in ranking if each in self.left), None)
        return (first == self.winner) - (first == self.loser)


def orders_of(candidates, chance):
    if len(candidates) <= 6:
        return list(itertools.permutations(candidates))
    return [tuple(chance.sample(candidates, len(candidates))) for _ in range(ORDERS)]


def compare(ballots, path, exported, chance):
    """What isn't the same, or None."""
    file = plain.read_assertions(read(path))
    contest = plain_audit.ballots_of(read(ballots), None)
    audit = json.loads(exported)["audits"][0]
    if (audit["contest"], audit["winner"]) != (file["contest"], file["winner"]) or [*audit["eliminated"], audit["winner"]] != tabulated(contest):
        return f"{audit['contest']}: {audit['winner']}, {audit['eliminated']}"
    claims = [Claim(entry, file["candidates"]) for entry in audit["assertions"]]
    margins = [sum(claim.votes([contest.ids[c] for c in ranking]) * count for ranking, count in contest.rankings.items()) for claim in claims]
    if margins != [margin for _, margin in file["assertions"]]:
        return f"margins {margins}"
    for order in orders_of(file["candidates"], chance):
        numbers = tuple(map(file["candidates"].index, order))
        if [claim.refutes(order) for claim in claims] != [plain.refutes(assertion, numbers) for assertion, _ in file["assertions"]]:
            return f"order {order}"
    return None


def tabulated(contest):
    """The order of elimination, with the winner last."""
    lines = plain.tabulation(contest).splitlines()
    return [line.split(" ", 1)[1] for line in lines if line.startswith(("eliminated ", "winner "))]


def read(path):
    with open(path, "rb") as file:
        return file.read()


def ballot_files(folder, count):
    examples = os.path.join(TOP, "examples")
    yield from (os.path.join(examples, name) for name in sorted(os.listdir(examples)) if name.endswith(".raire"))
    for number in range(count):
        chance, path = random.Random(f"exported {number}"), os.path.join(folder, f"{number}.raire")
        ids = chance.sample(["Ash", "Birch", "Cedar", "Elm 2", "Fir", "Gum"], chance.randint(2, 6))
        ballots = [f"c,b_{place},{','.join(chance.sample(ids, chance.randint(1, len(ids))))}\n" for place in range(1, chance.randint(20, 200))]
        with open(path, "w") as file:
            file.write(f"1\nContest,c,{len(ids)},{','.join(ids)}\n" + "".join(ballots))
        yield path


def main():
    program, count = os.path.abspath(sys.argv[1]), int(sys.argv[2]) if len(sys.argv) > 2 else 40
    tried = failed = 0
    with tempfile.TemporaryDirectory() as folder:
        path = os.path.join(folder, "assertions.json")
        for ballots in ballot_files(folder, count):
            with open(path, "wb") as file:
                draws = ["--cards=1000000"] * (tried % 2)  # every second file has draws, which the export omits
                if subprocess.run([program, "search", "--nodes", NODES, *draws, ballots], stdout=file, stderr=subprocess.DEVNULL).returncode:
                    continue
            ran = subprocess.run([os.path.join(TOP, "tools", "export"), "shangrla", ballots, path], capture_output=True, env={**os.environ, "RAIRE": program})
            wrong = ran.stderr.decode() if ran.returncode else compare(ballots, path, ran.stdout, random.Random(ballots))
            tried += 1
            if wrong:
                failed += 1
                print(f"{ballots}: {wrong}")
    print(f"{tried - failed} exported files as they should be, {failed} not")
    sys.exit(1 if failed or not tried else 0)


if __name__ == "__main__":
    main()
