#!/usr/bin/env python3
"""Compares what the built program says of contests with many ties with plain.py, which breaks each tie in every way.

acceptance/ties.py PROGRAM [CONTESTS] makes CONTESTS contests of 2 to 6 candidates (2,000 by default), most of them with fewer than ten ballots, searches
each with 1, 2, 4 and 8 workers and tabulates it. There must be assertions that refute every other order exactly if each way of breaking the ties elects the
same candidate. With a budget of one node the answer is the same, or that the budget is spent, with an order that some true assertion refutes. The printed
assertions pass a check. Then come contests of 21 to 32 candidates, the weak ones of whom tie; in every second contest two strong ones are alike, so that it
isn't decided. The last lines say how many contests agreed.
"""
import os
import subprocess
import sys
import tempfile

import places  # noqa: F401
import compare
import plain
from draws import Draws
from limits import MOST_WORKERS


def rankings_of(draws, n):
    """A few ballots, many of them alike, so that tallies are alike too."""
    kinds = compare.contest_of(draws, n, 1 + draws.below(4))
    return [kinds[draws.below(len(kinds))] for _ in range(draws.below(10))]


def ran(program, *words):
    done = subprocess.run([program, *words], capture_output=True, text=True)
    return done.returncode, done.stdout, done.stderr


def best_margin(contest, winner):
    """The smallest, over all orders that elect another candidate, of the largest margin by which a true assertion refutes the order."""
    lows, others = plain.Lows(contest), (order for order in plain.itertools.permutations(range(contest.n)) if order[-1] != winner)
    return min(lows.low(order)[0] for order in others)


def is_spent(contest, answer):
    """Whether these are the four lines of a budget that is spent: a candidate who didn't win, an order that elects another candidate than the winner, and a
    margin from 1 to that of the order that a search starts from, which is the tabulated order with its last two exchanged."""
    lines, tabulated, lows = answer[1].splitlines(), plain.tabulated(contest)[0], plain.Lows(contest)
    if answer[0] != 4 or answer[2] or len(lines) != 4 or lines[0] != "spent":
        return False
    others = [contest.ids[c] for c in tabulated[:-1]]
    order = tuple(contest.ids.index(c) for c in lines[2].removeprefix("order ").split(","))
    low, first = lows.low(order)[0], lows.low((*tabulated[:-2], tabulated[-1], tabulated[-2]))[0]
    is_alternative = sorted(order) == sorted(tabulated) and order[-1] != tabulated[-1]
    return lines[1].removeprefix("candidate ") in others and is_alternative and lines[3] == f"margin {low}" and 0 < low <= first


def faults(program, path, contest):
    """What differs from what plain.py says of the contest."""
    search = (*compare.wanted(contest, plain.certificate), "")
    rounds = (*compare.wanted(contest, plain.tabulation), "")
    is_decided = search[0] == 0
    if is_decided != (best_margin(contest, plain.tabulated(contest)[0][-1]) > 0):
        yield "the best margin and the ways of breaking ties"
    for workers in (1, 2, 4, MOST_WORKERS):
        if ran(program, "search", path, f"--workers={workers}") != search:
            yield f"search at {workers} workers, wanted {search}"
    if ran(program, "tabulate", path) != rounds:
        yield f"tabulate, wanted {rounds}"
    for command, wanted in [("search", search), ("tabulate", rounds)]:
        answer = ran(program, command, path, "--nodes=1")
        if answer != wanted and not is_spent(contest, answer):
            yield f"{command} with one node: {answer}"
    if is_decided:
        with open(path + ".json", "w") as file:
            file.write(search[1])
        if ran(program, "check", path, path + ".json")[0] != 0:
            yield "check of what was printed"


MANY = 20  # contests of many candidates


def mirrored(rankings):
    """The same ballots twice, the second time with the first two candidates exchanged."""
    return rankings + [tuple({0: 1, 1: 0}.get(c, c) for c in ranking) for ranking in rankings]


def faults_of_many(program, path, contest):
    """What differs with any number of workers; there are too many orders to list them all."""
    wanted = (*compare.wanted(contest, plain.certificate_by_bound), "")
    for workers in (1, 2, 4, MOST_WORKERS):
        if ran(program, "search", path, f"--workers={workers}") != wanted:
            yield f"search at {workers} workers, wanted {wanted}"
    if ran(program, "tabulate", path) != (*compare.wanted(contest, plain.tabulation), ""):
        yield "tabulate"


def many(program, folder):
    """How many contests of many candidates differ."""
    draws, path, failed = Draws(32), os.path.join(folder, "many.raire"), 0
    for number in range(MANY):
        ids = [str(11 + c) for c in range(compare.many_of(draws))]
        rankings = compare.few_strong(draws, len(ids))
        contest = plain.Contest("9", ids, mirrored(rankings) if number % 2 else rankings)
        compare.write(path, ids, mirrored(rankings) if number % 2 else rankings)
        wrong = list(faults_of_many(program, path, contest))
        failed += bool(wrong)
        for fault in wrong:
            print(f"{len(ids)} candidates, contest {number + 1}: {fault}")
    print(f"{MANY} contests of many candidates with ties: {MANY - failed} agree, {failed} don't")
    return failed


def main():
    program, contests = os.path.abspath(sys.argv[1]), int(sys.argv[2]) if len(sys.argv) > 2 else 2000
    draws, failed, told = Draws(28), 0, {0: 0, 3: 0}
    with tempfile.TemporaryDirectory() as folder:
        for number in range(contests):
            ids = [str(11 + c) for c in range(2 + number % 5)]
            rankings, path = rankings_of(draws, len(ids)), os.path.join(folder, f"{number}.raire")
            compare.write(path, ids, rankings)
            contest = plain.Contest("9", ids, rankings)
            told[compare.wanted(contest, plain.certificate)[0]] += 1
            wrong = list(faults(program, path, contest))
            failed += bool(wrong)
            for fault in wrong:
                print(f"{ids} {rankings}: {fault}")
        of_many = many(program, folder)
    print(f"{contests} contests with many ties ({told[0]} decided, {told[3]} not): {contests - failed} agree, {failed} don't")
    sys.exit(1 if failed or of_many else 0)


if __name__ == "__main__":
    main()
