#!/usr/bin/env python3
"""Compares what the built program prints with plain.py, on contests from a fixed generator.

acceptance/compare.py PROGRAM [CONTESTS] searches and tabulates CONTESTS contests of 2 to 6 candidates (400 by default), a few of 8 to 12, and some of 21 to
32, few of whom are strong. Then it searches each example, including those of the audits, once with one worker, and several times with two, four and eight.
The last line says how many contests agreed.
"""
import glob
import os
import subprocess
import sys
import tempfile

import places  # noqa: F401
import plain
import plain_audit
from draws import Draws
from limits import MOST_CANDIDATES

TOP = os.path.dirname(os.path.dirname(os.path.abspath(__file__)))
RUNS = {2: 5, 4: 5, 8: 10}  # the number of runs for each number of workers
FEWEST_MANY = 21  # candidates, few of whom are strong


def contest_of(draws, n, ballots):
    """Rankings of up to n preferences each, possibly none; candidates with small numbers are ranked more often."""
    rankings = []
    for _ in range(ballots):
        ranking = []
        for _ in range(draws.below(n + 1)):
            c = min(draws.below(n), draws.below(n))
            if c not in ranking:
                ranking.append(c)
        rankings.append(tuple(ranking))
    return rankings


def many_of(draws):
    """A number of candidates that only contests with few strong ones have."""
    return FEWEST_MANY + draws.below(MOST_CANDIDATES + 1 - FEWEST_MANY)


def few_strong(draws, n):
    """Rankings in which the first two to four candidates have most of the votes. Each other candidate is first on a few ballots; up to three of them are
    first on the same number, so that not too many tie. Most of these ballots pass to a strong candidate, and some to another weak one before that."""
    strong = 2 + draws.below(3)

    def behind():
        return [min(draws.below(strong), draws.below(strong)) for _ in range(draws.below(strong + 1))]

    rankings = [behind() for _ in range(200 + draws.below(200))]
    rankings += [[c] + behind() for c in range(strong) for _ in range(40 * (strong - c))]
    for c in range(strong, n):
        rankings += [[c] + ([strong + draws.below(n - strong)] if draws.below(6) == 0 else []) + behind() for _ in range(1 + (c - strong) // 3)]
    return [tuple(dict.fromkeys(ranking)) for ranking in rankings]


def write(path, ids, rankings):
    with open(path, "w") as file:
        file.write(f"1\nContest,9,{len(ids)},{','.join(ids)}\n")
        for number, ranking in enumerate(rankings):
            file.write(",".join(["9", f"b_{number + 1}"] + [ids[c] for c in ranking]) + "\n")


def wanted(contest, make):
    try:
        return 0, make(contest)
    except plain.Tie as tie:
        return 3, str(tie)


def differs(program, path, contest, make, command):
    status, text = wanted(contest, make)
    ran = subprocess.run([program, command, path], capture_output=True, text=True)
    if (ran.returncode, ran.stdout, ran.stderr) == (status, text, ""):
        return False
    print(f"{command} of {path}: wanted {status}\n{text}got {ran.returncode}\n{ran.stdout}{ran.stderr}")
    return True


def contests_in(path):
    with open(path, "rb") as file:
        return list(plain_audit.contest_records(plain_audit.records_of(file.read())))


def searched(program, path, name, workers):
    ran = subprocess.run([program, "search", path, f"--contest={name}", f"--workers={workers}"], capture_output=True, timeout=60)
    return ran.returncode, ran.stdout, ran.stderr


def hangs_on_turns(program, path, name):
    """Whether several workers, in any of several runs, give another status or text than one worker does."""
    one = searched(program, path, name, 1)
    others = [workers for workers, runs in RUNS.items() if any(searched(program, path, name, workers) != one for _ in range(runs))]
    if one[0] in (0, 3, 5) and not others:
        return False
    print(f"search of {name} of {path}: status {one[0]} with one worker; {others} workers don't always come to what one comes to")
    return True


def main():
    program, contests = sys.argv[1], int(sys.argv[2]) if len(sys.argv) > 2 else 400
    draws, failed = Draws(20), 0
    sizes = [2 + number % 5 for number in range(contests)] + [8, 8, 9, 9, 10, 12] + [MOST_CANDIDATES] * 3 + [many_of(draws) for _ in range(37)]
    with tempfile.TemporaryDirectory() as folder:
        for number, n in enumerate(sizes):
            ids = [str(11 + c) for c in range(n)]
            rankings = few_strong(draws, n) if n >= FEWEST_MANY else contest_of(draws, n, 20 + draws.below(100) if n < 8 else 3000)
            path = os.path.join(folder, f"{number}.raire")
            write(path, ids, rankings)
            contest = plain.Contest("9", ids, rankings)
            search = plain.certificate if n < 7 else plain.certificate_by_bound
            failed += differs(program, path, contest, search, "search") or differs(program, path, contest, plain.tabulation, "tabulate")
    paths = sorted(glob.glob(os.path.join(TOP, "examples", "**", "*.raire"), recursive=True))
    examples = [(path, name) for path in paths for name in contests_in(path)]
    failed += sum(hangs_on_turns(program, path, name) for path, name in examples)
    print(f"{len(sizes) + len(examples) - failed} contests agree, {failed} don't")
    sys.exit(1 if failed else 0)


if __name__ == "__main__":
    main()
