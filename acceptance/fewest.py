#!/usr/bin/env python3
"""Compares searches for the fewest NENs with plain_fewest.py.

acceptance/fewest.py PROGRAM [CONTESTS] makes CONTESTS contests of 2 to 6 candidates (2,000 by default), and a quarter as many of 8 to 14, most of them of
up to 10. A search must print as many NENs as plain_fewest.py finds necessary: by trying choices of them in the small contests, and by a flow in all
contests. Each assertion must have its margin, the smallest of which is the best one, and the order is that of the certificate. `check` says yes to what is
printed, and refuses it with `no: order .. stands` if any one assertion is omitted. One worker and eight print the same bytes. With exactly as many sets as
must stand, the search is answered; with one fewer, it is out of budget. All of that is tried again with a gap below the best margin. If the smallest margin
with that gap is still the best one, the bytes are the same. If a smaller margin is used, the file has no order. The last line says how many agreed.
"""
import json
import multiprocessing.pool
import os
import subprocess
import sys
import tempfile

import places  # noqa: F401
import compare
import plain
import plain_fewest
import plain_sets
from draws import Draws
from limits import MOST_SETS, MOST_WORKERS

GAPS = (1, 20, 50, 100, 250, 500)  # thousandths of the best margin
MOST_LEFT_OUT = 20  # each assertion of a file with at most this many is omitted in turn; of a larger file, this many are


def ran(program, *words):
    done = subprocess.run([program, *words], capture_output=True, text=True, timeout=600)
    return done.returncode, done.stdout, done.stderr


class Contest:
    """A contest in a file of its own, and how the program's answers about it differ from what is expected."""

    def __init__(self, program, folder, number, rankings, n):
        self.program, self.number, self.draws = program, number, Draws(number)
        ids = [str(11 + c) for c in range(n)]
        self.ballots, self.assertions = (os.path.join(folder, f"{number}.{end}") for end in ("raire", "json"))
        compare.write(self.ballots, ids, rankings)
        self.contest, self.wrong = plain.Contest("9", ids, rankings), []

    def says(self, told):
        self.wrong.append(f"contest {self.number} of {self.contest.n} candidates: {told}")

    def see(self, wanted, *words):
        got = ran(self.program, *words)
        if got != (*wanted, ""):
            self.says(f"{' '.join(words)}: wanted {str(wanted)[:400]}, got {str(got)[:400]}")

    def search(self, *more):
        return ran(self.program, "search", self.ballots, "--fewest", *self.by_gap, *more)

    def judge(self):
        self.by_gap = ()
        without = self.answer(0)
        gap = GAPS[self.number % len(GAPS)]
        self.by_gap = (f"--gap={gap}",)
        got, best = self.answer(gap), plain_sets.found(self.contest).best
        if plain_fewest.least_margin(best, gap) == max(best, 1) and got != without:
            self.says(f"a gap of {gap} leaves the best margin, and prints something else")

    def answer(self, gap):
        contest, is_small = self.contest, self.contest.n <= 6
        came = plain_fewest.found(contest, gap)
        got = self.search("--workers=1")
        if self.search(f"--workers={MOST_WORKERS}") != got:
            self.says("eight workers print something else than one")
        if (other := plain_fewest.otherwise(contest, came, MOST_SETS)) is not None:
            if got != (*other, ""):
                self.says(f"wanted {other}, got {str(got)[:400]}")
        elif got[0] or got[2]:
            self.says(f"it isn't answered: {str(got)[:400]}")
        else:
            self.file(got[1], came)
            if is_small and (chosen := plain_fewest.by_choice(contest, plain.tabulated(contest)[0][-1], came.least)) != came.nens:
                self.says(f"{chosen} NENs by choice, {came.nens} by flow")
        self.budgets(came)
        return got

    def budgets(self, came):
        """Exactly as many sets as must stand, or one fewer; and a floor above the margin."""
        for sets in {max(came.sets, 1), came.sets - 1} - {0, -1}:
            wanted = plain_fewest.otherwise(self.contest, came, sets)
            more = self.search(f"--sets={sets}")
            if wanted is None and more[0] == 0 and not more[2]:
                self.file(more[1], came, sets)  # NEBs may stay whose trials take more sets
            elif wanted is None or more != (*wanted, ""):
                self.says(f"with {sets} sets: wanted {wanted or 'a file'}, got {str(more)[:400]}")
        floor = came.best + 1
        self.see(plain_fewest.otherwise(self.contest, came, MOST_SETS, floor), "search", self.ballots, "--fewest", *self.by_gap, f"--floor={floor}")

    def file(self, text, came, sets=MOST_SETS):
        contest, value = self.contest, json.loads(text)
        winner = plain.tabulated(contest)[0][-1]
        read = plain.read_assertions(text.encode())
        own = min(margin for _, margin in read["assertions"])
        order = came.order if own == came.best else None
        if own > came.best or text != plain.text_of(contest, winner, own, order, dict(read["assertions"]), None):
            self.says(f"it isn't in the form of a file of its smallest margin, with the order where that is the best one: {text[:400]}")
        for assertion, margin in read["assertions"]:
            if margin != contest.margin(assertion) or margin < came.least:
                self.says(f"{assertion} has another margin than {margin}, or less than the least one")
        nens = [assertion for assertion, _ in read["assertions"] if assertion[0] == "NEN"]
        if len(nens) != came.nens:
            self.says(f"{len(nens)} NENs, where {came.nens} are enough")
        not_best = "" if order else "not said to be best\n"
        self.checked(value, (0, f"yes\nassertions {len(value['assertions'])}\nmargin {own}\n{not_best}"), sets)
        if sets == MOST_SETS:
            self.left_out(value)

    def checked(self, value, wanted, sets):
        with open(self.assertions, "w") as file:
            json.dump(value, file)
        self.see(wanted, "check", self.ballots, self.assertions, f"--sets={sets}")

    def left_out(self, value):
        """Without any one of the assertions, an order stands."""
        claims = value["assertions"]
        some = range(len(claims)) if len(claims) <= MOST_LEFT_OUT else {self.draws.below(len(claims)) for _ in range(MOST_LEFT_OUT)}
        nebs = [at for at, claim in enumerate(claims) if claim["kind"] == "NEB"]
        for at in {*some, *nebs}:
            with open(self.assertions, "w") as file:
                json.dump({**value, "assertions": claims[:at] + claims[at + 1:]}, file)
            status, said, _ = ran(self.program, "check", self.ballots, self.assertions, f"--sets={MOST_SETS}")
            if status != 6 or not (said.startswith("no: order ") and said.endswith(" stands\n")):
                self.says(f"without assertion {at + 1}: {status} {said}")

    def end(self):
        for path in (self.ballots, self.assertions):
            if os.path.exists(path):
                os.remove(path)


def nearly_equal(draws, n, ballots):
    """Rankings of some candidates each; every candidate is equally likely to be ranked."""
    rankings = []
    for _ in range(ballots):
        left, ranking = list(range(n)), []
        for _ in range(1 + draws.below(n)):
            ranking.append(left.pop(draws.below(len(left))))
        rankings.append(tuple(ranking))
    return rankings


def made(draws, count):
    """Small contests, many of them close or with ties, and large ones."""
    for number in range(count):
        n = 2 + number % 5
        kind = compare.contest_of if number % 3 else nearly_equal
        yield kind(draws, n, 1 + draws.below(12) if number % 7 == 0 else 20 + draws.below(150)), n
    for number in range(count // 4):
        n = 8 + (number // 10 % 7 if number % 10 == 0 else number % 3)
        kind = compare.contest_of if number % 2 else nearly_equal
        yield kind(draws, n, 200 + draws.below(3000)), n


def told(program, folder, numbered):
    number, (rankings, n) = numbered
    contest = Contest(program, folder, number, rankings, n)
    contest.judge()
    contest.end()
    return contest.wrong


def main():
    program, count = sys.argv[1], int(sys.argv[2]) if len(sys.argv) > 2 else 2000
    agree = failed = 0
    with tempfile.TemporaryDirectory() as folder, multiprocessing.pool.Pool(os.cpu_count()) as pool:
        contests = enumerate(made(Draws(23), count), 1)
        for wrong in pool.imap(Told(program, folder), contests, chunksize=10):
            for line in wrong:
                print(line)
            agree, failed = agree + (not wrong), failed + bool(wrong)
    print(f"{agree} contests agree, {failed} don't")
    sys.exit(1 if failed else 0)


class Told:
    """What is wrong with a contest, in a process of its own."""

    def __init__(self, program, folder):
        self.program, self.folder = program, folder

    def __call__(self, numbered):
        return told(self.program, self.folder, numbered)


if __name__ == "__main__":
    main()
