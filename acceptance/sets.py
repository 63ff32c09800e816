#!/usr/bin/env python3
"""Compares searches, checks and trims by `--sets` with those by `--nodes` and with plain_sets.py.

acceptance/sets.py PROGRAM [CONTESTS] makes CONTESTS contests of 2 to 9 candidates (2,000 by default). With sets for all of them, a search must print what
it prints with all nodes, byte for byte, at one worker and at eight. With as many sets as count it must do so too, and with one fewer it must be out of
budget. A check of what is printed says yes with exactly as many sets as its search counted for the assertions. Without one of the assertions, and with few
sets, it says what plain.py does, and so does a trim. Then a tenth as many contests of 10 to 20 candidates are made as they occur in practice. Each must be
answered with the maximum number of sets, and checked; those of up to 13 candidates, or with few assertions, are compared with plain_sets.py. The last line
says how many agreed.
"""
import json
import multiprocessing.pool
import os
import subprocess
import sys
import tempfile
import time

import places  # noqa: F401
import compare
import plain
import plain_sets
import plain_trim
from draws import Draws
from limits import MOST_NODES, MOST_SETS, MOST_WORKERS

ALL = 512  # always enough for up to nine candidates, who have 2^9 sets
MOST_LARGE, MOST_COMPARED, MOST_TRIMMED = 20, 13, 5  # candidates
FEW = 100  # assertions; a contest with at most this many is compared for any number of candidates

# How often each candidate is ranked, and the largest number of candidates for a contest of this kind: with more, the file of its assertions is so long that
# no command reads it.
KINDS = {
    "each less often than the one before": (20, lambda n: [max(1, int(1000 * 0.75**c)) for c in range(n)]),
    "few strong": (20, lambda n: [1000 - 150 * c for c in range(4)] + [10] * (n - 4)),
    "a landslide over small ones": (17, lambda n: [1000, 300] + [700 // (n - 2)] * (n - 2)),
    "each a little less often": (14, lambda n: [int(1000 * 0.9**c) for c in range(n)]),
    "nearly equal": (13, lambda n: [1000] * n),
}


def ranking_of(draws, weights, most):
    """A ranking of at most this many candidates, each drawn by its weight among those that are left."""
    left, ranking = dict(enumerate(weights)), []
    for _ in range(min(1 + draws.below(most), len(weights))):
        at = draws.below(sum(left.values()))
        for c, weight in left.items():
            at -= weight
            if at < 0:
                break
        ranking.append(c)
        del left[c]
    return tuple(ranking)


def ran(program, *words):
    done = subprocess.run([program, *words], capture_output=True, text=True, timeout=600)
    return done.returncode, done.stdout, done.stderr


def write(path, text):
    with open(path, "w") as file:
        file.write(text)


class Contest:
    """A contest in a file of its own, and how the program's answers about it differ from what is expected."""

    def __init__(self, program, folder, number, rankings, n):
        self.program, self.number, self.draws = program, number, Draws(number)
        ids = [str(11 + c) for c in range(n)]
        self.ballots, self.assertions = (os.path.join(folder, f"{number}.{end}") for end in ("raire", "json"))
        compare.write(self.ballots, ids, rankings)
        self.contest, self.wrong = plain.Contest("9", ids, rankings), []

    def see(self, wanted, *words):
        got = ran(self.program, *words)
        if got != (*wanted, ""):
            self.wrong.append(f"contest {self.number}: {' '.join(words)}: wanted {str(wanted)[:400]}, got {str(got)[:400]}")
        return got

    def search(self, wanted, sets, *more):
        return self.see(wanted, "search", self.ballots, f"--sets={sets}", *more)

    def judge(self, value, sets):
        """A check of this file, compared with the plain program."""
        text = json.dumps(value)
        write(self.assertions, text)
        self.see(plain.judge(self.contest, text.encode(), plain.Sets(sets)), "check", self.ballots, self.assertions, f"--sets={sets}")

    def small(self):
        """A contest of few candidates: by nodes, by plain_sets.py, and with as many sets as count, or one fewer."""
        more = [f"--floor={1 + self.draws.below(12)}"] if self.draws.below(4) == 0 else []
        by_nodes = ran(self.program, "search", self.ballots, f"--nodes={MOST_NODES}", "--workers=1", *more)
        for workers in (1, MOST_WORKERS):
            self.search(by_nodes[:2], ALL, f"--workers={workers}", *more)
        found = plain_sets.found(self.contest)
        whole = plain_sets.searched(self.contest, ALL, by=lambda _: found)
        if not more and whole != by_nodes[:2]:
            self.wrong.append(f"contest {self.number}: by nodes {by_nodes}, by plain_sets.py {whole}")
        for sets in {found.sets, found.sets - 1, 1 + self.draws.below(found.sets)} - {0}:
            self.search(plain_sets.searched(self.contest, sets, by=lambda _: found), sets, f"--workers={1 + self.draws.below(MOST_WORKERS)}")
        if whole[0] == 0:
            self.checks(whole[1], found.cover)

    def checks(self, text, cover):
        value = json.loads(text)
        for sets in {max(cover, 1), cover - 1, 1 + self.draws.below(cover + 1)} - {0, -1}:
            self.judge(value, sets)
        claims = value["assertions"]
        at = self.draws.below(len(claims))
        self.judge({**value, "assertions": claims[:at] + claims[at + 1:]}, 1 + self.draws.below(min(ALL, 2**self.contest.n)))
        if self.contest.n <= MOST_TRIMMED:
            sets = 1 + self.draws.below(2**self.contest.n)
            write(self.assertions, text)
            checked = plain.judge(self.contest, text.encode(), plain.Sets(sets))
            wanted = checked if checked[0] else plain_trim.printed(text.encode(), plain.Sets(sets))
            self.see(wanted, "trim", self.ballots, self.assertions, f"--sets={sets}")

    def large(self):
        """A contest of many candidates, which must be answered and checked."""
        status, text, err = ran(self.program, "search", self.ballots, f"--sets={MOST_SETS}")
        is_compared = self.contest.n <= MOST_COMPARED or (status == 0 and text.count('"kind"') <= FEW)
        if is_compared and (status, text) != plain_sets.searched(self.contest, MOST_SETS):
            self.wrong.append(f"contest {self.number}: plain_sets.py comes to another end than {status} {text[:400]} {err}")
        if status == 3:
            return
        if status:
            self.wrong.append(f"contest {self.number} of {self.contest.n} candidates isn't answered: {status} {text[:400]} {err}")
            return
        write(self.assertions, text)
        value = json.loads(text)
        yes = 0, f"yes\nassertions {len(value['assertions'])}\nmargin {value['margin']}\n"
        self.see(yes, "check", self.ballots, self.assertions, f"--sets={MOST_SETS}")

    def end(self):
        for path in (self.ballots, self.assertions):
            if os.path.exists(path):
                os.remove(path)


def small_ones(draws, count):
    """Contests, most of them of up to six candidates; many of the contests tie."""
    for number in range(count):
        n = 2 + number % 5 if number % 10 else 7 + number // 10 % 3
        yield compare.contest_of(draws, n, 1 + draws.below(12) if number % 4 == 0 else 20 + draws.below(100)), n


def large_ones(draws, count):
    for number in range(count):
        n = 10 + number % (MOST_LARGE - 9)
        kinds = [weights for most, weights in KINDS.values() if n <= most]
        weights, most = kinds[number // (MOST_LARGE - 9) % len(kinds)](n), (3, 5, n)[draws.below(3)]
        yield [ranking_of(draws, weights, most) for _ in range(500 + draws.below(2500))], n


def tried(program, folder, number, made, part):
    rankings, n = made
    contest = Contest(program, folder, number, rankings, n)
    part(contest)
    contest.end()
    return contest.wrong


def main():
    program, count = os.path.abspath(sys.argv[1]), int(sys.argv[2]) if len(sys.argv) > 2 else 2000
    failed = total = 0
    with tempfile.TemporaryDirectory() as folder, multiprocessing.pool.Pool() as pool:
        for made, part in ((small_ones(Draws(36), count), Contest.small), (large_ones(Draws(37), count // 10), Contest.large)):
            began, before = time.monotonic(), total
            jobs = [(program, folder, number, each, part) for number, each in enumerate(made, 1)]
            for wrong in pool.starmap(tried, jobs, chunksize=4):
                total, failed = total + 1, failed + bool(wrong)
                print(*wrong[:3], sep="\n", end="\n" if wrong else "")
            print(f"{part.__name__} contests: {total - before}, {time.monotonic() - began:.0f} s")
    print(f"{total - failed} contests agree by sets, {failed} don't")
    sys.exit(1 if failed else 0)


if __name__ == "__main__":
    main()
