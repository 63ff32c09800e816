#!/usr/bin/env python3
"""Times `raire search --fewest` and `raire search --sets`, on contests that are the same at every run.

For each contest it prints how many assertions the certificate has, and how many a search for the fewest NENs prints, with the NENs among them. It also
prints the seconds of both searches with one worker, and of the second search with four; the peak memory and the status of the second search; and the
seconds of a `check` of what that search printed. The best of three runs counts, or the only run if it took more than ten seconds.

    bench/fewest.py                      all contests
    bench/fewest.py "near-equal 16"      the contests with these names
    bench/fewest.py families [SEED [FAMILY ..]]
        some contests of each family, of 20,000 ballots: the median and the sum of the assertions of both searches, and of the NENs
    bench/fewest.py slowest CANDIDATES [CONTESTS]
        makes CONTESTS close contests in the plane (40 by default) and takes the one whose search for the fewest NENs takes the most processor time
        with one worker: prints that time and memory, and those of the search by sets
"""
import math
import os
import random
import resource
import statistics
import sys
import tempfile

from search import PROGRAM, weights_of, write_pool
from sets import Ran, least

from limits import MOST_SETS  # noqa: E402

BALLOTS, SECONDS, MEMORY = 100_000, 600, 8_000_000_000

# For each contest, how often each candidate is ranked, and how many candidates a ballot ranks at most.
CONTESTS = {
    "near-equal 12": (weights_of(12, "near-equal"), 12),
    "near-equal 16": (weights_of(16, "near-equal"), 16),
    "near-equal 20": (weights_of(20, "near-equal"), 20),
    "a landslide of 20": ([1000, 300] + [40] * 18, 20),
    "five strong of 20": ([1000, 900, 850, 600, 450] + [60 - c for c in range(15)], 10),
    "20, each weaker": ([int(1000 * 0.88**c) for c in range(20)], 10),
    "ten near-equal of 20": ([1000] * 10 + [20] * 10, 10),
}

FAMILY_BALLOTS, EACH, FEW = 20_000, 12, 3


def in_file(path):
    """How many assertions a file has, and how many of them are NENs. A large file isn't read as JSON."""
    with open(path, "rb") as file:
        text = file.read()
    return text.count(b'"kind"'), text.count(b'"NEN"')


def time_contest(name, folder):
    ballots, printed, fewest = (os.path.join(folder, file) for file in ("ballots.raire", "printed.json", "fewest.json"))
    write_pool(ballots, *CONTESTS[name], BALLOTS)
    by_sets = least([PROGRAM, "search", ballots, f"--sets={MOST_SETS}", "--workers=1"], printed, SECONDS, MEMORY)
    four = least([PROGRAM, "search", ballots, "--fewest", "--workers=4"], os.devnull, SECONDS, MEMORY)
    one = least([PROGRAM, "search", ballots, "--fewest", "--workers=1"], fewest, SECONDS, MEMORY)
    check = least([PROGRAM, "check", ballots, fewest, f"--sets={MOST_SETS}"], os.devnull, SECONDS, MEMORY)
    print(
        f"{name:<22} {in_file(printed)[0]:>10} {by_sets.told()} | {in_file(fewest)[0]:>8} {in_file(fewest)[1]:>8} {one.told()} {four.told()}"
        f" {one.memory / 1e6:>7.0f} {one.status_told():>6} | {check.told()} {check.status_told():>6}",
        flush=True,
    )


# ---- families


def by_weights(weights):
    """Each next candidate of a ranking is drawn by its weight; rankings are cut off as people do it."""

    def ranking(dice):
        keys = sorted(range(len(weights)), key=lambda c: -math.log(dice.random()) / weights[c])
        return keys[: cut(dice, len(weights))]

    return ranking


def cut(dice, n):
    return min(n, 1 + int(-math.log(1 - dice.random()) / 0.35))


def mallows(n, phi):
    """Each candidate of a fixed order is inserted at a place: the further from the end, the less often."""

    def ranking(dice):
        order = []
        for c in range(n):
            weights = [phi ** (len(order) - at) for at in range(len(order) + 1)]
            order.insert(dice.choices(range(len(order) + 1), weights)[0], c)
        return order[: cut(dice, n)]

    return ranking


def in_the_plane(n, dice, spread=0):
    """Voters rank by nearness; each candidate's strength is added to it."""
    candidates = [(dice.gauss(0, 1), dice.gauss(0, 1), dice.gauss(0, spread)) for _ in range(n)]

    def ranking(dice):
        x, y = dice.gauss(0, 1), dice.gauss(0, 1)
        worth = [strength - (across - x) ** 2 - (up - y) ** 2 for across, up, strength in candidates]
        return sorted(range(n), key=lambda c: -worth[c])[: cut(dice, n)]

    return ranking


def in_camps(camps, spread, strengths, pull, most, dice):
    """Voters are near the middle of one of some camps. They rank by strength, nearness and chance, up to this many candidates."""
    candidates = [(dice.gauss(0, spread), dice.gauss(0, spread), strength) for strength in strengths]
    weights = [weight for weight, _, _, _ in camps]

    def ranking(dice):
        _, across, up, wide = dice.choices(camps, weights)[0]
        x, y = dice.gauss(across, wide), dice.gauss(up, wide)
        worth = [strength - pull * math.hypot(left - x, low - y) - math.log(dice.expovariate(1)) for left, low, strength in candidates]
        return sorted(range(len(worth)), key=lambda c: -worth[c])[: 1 + dice.randrange(most)]

    return ranking


CITY = [(0.34, 0.8, 0.2, 0.5), (0.26, -0.7, 0.5, 0.5), (0.25, -0.1, -0.6, 0.5), (0.15, 0.3, 0.9, 0.6)]  # the weight of each camp, its place and its width
TWO_CAMPS = [(0.6, 0.4, 0, 0.6), (0.4, -0.5, 0.2, 0.6)]
ONE_CAMP = [(1, 0, 0, 0.5)]
CITY_STRENGTHS = [1.4, 1.2, 1.1, 0.9, 0, -0.2, -0.2, -0.5, -1.9, -2, -2.4, -2.5, -2.6, -4]

# For each family, the number of candidates and of contests, and how a contest is made.
FAMILIES = {
    "nearly equal, 8": (8, EACH, lambda dice: by_weights([1 + 0.02 * dice.random() for _ in range(8)])),
    "nearly equal, 12": (12, EACH, lambda dice: by_weights([1 + 0.02 * dice.random() for _ in range(12)])),
    "Mallows 0.95, 12": (12, EACH, lambda dice: mallows(12, 0.95)),
    "Mallows 0.85, 12": (12, EACH, lambda dice: mallows(12, 0.85)),
    "falling strengths, 12": (12, EACH, lambda dice: by_weights([0.75**c for c in range(12)])),
    "any strengths, 12": (12, EACH, lambda dice: by_weights([0.05 + dice.random() for _ in range(12)])),
    "in the plane, 12": (12, EACH, lambda dice: in_the_plane(12, dice)),
    "the same with strengths, 12": (12, EACH, lambda dice: in_the_plane(12, dice, 1)),
    "like a city's, 12": (12, EACH, lambda dice: by_weights([6 - c for c in range(4)] + [0.3 / (c - 2) for c in range(4, 12)])),
    "a landslide, 12": (12, EACH, lambda dice: by_weights([12, 4] + [1] * 10)),
    "four camps of a city, 14": (14, EACH, lambda dice: in_camps(CITY, 0.6, CITY_STRENGTHS, 2.2, 5, dice)),
    "two camps, each weaker, 20": (20, EACH, lambda dice: in_camps(TWO_CAMPS, 0.6, [1.6 - 0.18 * c for c in range(20)], 1.5, 10, dice)),
    "one camp, 20": (20, FEW, lambda dice: in_camps(ONE_CAMP, 0.5, [0] * 20, 0.15, 10, dice)),
}


def write_family(path, n, ranking, dice):
    with open(path, "w") as file:
        file.write(f"1\nContest,1,{n},{','.join(str(c + 1) for c in range(n))}\n")
        for number in range(FAMILY_BALLOTS):
            file.write(",".join(["1", f"b_{number + 1}", *(str(c + 1) for c in ranking(dice))]) + "\n")


def count_family(name, seed, folder):
    n, each, made = FAMILIES[name]
    before, after, nens, ties = [], [], [], 0
    ballots, printed, fewest = (os.path.join(folder, file) for file in ("ballots.raire", "printed.json", "fewest.json"))
    for number in range(each):
        dice = random.Random(f"{name} {seed} {number}")
        write_family(ballots, n, made(dice), dice)
        if Ran([PROGRAM, "search", ballots, "--fewest"], fewest, SECONDS, MEMORY).status != 0:
            ties += 1
            continue
        Ran([PROGRAM, "search", ballots, f"--sets={MOST_SETS}"], printed, SECONDS, MEMORY)
        before.append(in_file(printed)[0])
        for had, count in zip((after, nens), in_file(fewest)):
            had.append(count)
    told = " | ".join(f"{statistics.median(had):>11.0f} {sum(had):>11}" for had in (before, after, nens)) if before else ""
    print(f"{name:<28} {len(before):>8} | {told}" + f"  {ties} without assertions" * bool(ties), flush=True)


# ---- many ways back


def processor(words):
    """Processor seconds, peak memory and status."""
    before = resource.getrusage(resource.RUSAGE_CHILDREN)
    ran = Ran(words, os.devnull, SECONDS, MEMORY)
    after = resource.getrusage(resource.RUSAGE_CHILDREN)
    return after.ru_utime + after.ru_stime - before.ru_utime - before.ru_stime, ran.memory / 1e6, ran.status


def slowest(n, contests, folder):
    ballots, found = os.path.join(folder, "ballots.raire"), []
    for number in range(contests):
        dice = random.Random(f"slowest {n} {number}")
        made = in_camps(ONE_CAMP, dice.uniform(0.2, 1), [dice.gauss(0, 0.1) for _ in range(n)], dice.uniform(0, 0.4), dice.randint(2, n), dice)
        write_family(ballots, n, made, dice)
        fewest = processor([PROGRAM, "search", ballots, "--fewest", "--workers=1"])
        by_sets = processor([PROGRAM, "search", ballots, f"--sets={MOST_SETS}", "--workers=1"])
        found.append((fewest, by_sets, number))
    fewest, by_sets, number = max(found)
    print(f"{n} candidates, contest {number} of {contests}: --fewest {fewest[0]:.2f} s, {fewest[1]:.0f} MB, status {fewest[2]};", end=" ")
    print(f"--sets {by_sets[0]:.2f} s, {by_sets[1]:.0f} MB; at most {max(one[0] / other[0] for one, other, _ in found):.2f} times as long", flush=True)


def main():
    if not os.path.exists(PROGRAM):
        sys.exit("there is no program to time: ./raire --build")
    with tempfile.TemporaryDirectory() as folder:
        if sys.argv[1:2] == ["families"]:
            print(f"{'family':<28} {'contests':>8} | {'certificate':>11} {'in all':>11} | {'fewest':>11} {'in all':>11} | {'NENs':>11} {'in all':>11}")
            for name in sys.argv[3:] or FAMILIES:
                count_family(name, (sys.argv[2:] or ["1"])[0], folder)
            return
        if sys.argv[1:2] == ["slowest"]:
            slowest(int(sys.argv[2]), int((sys.argv[3:] or ["40"])[0]), folder)
            return
        print(f"{'contest':<22} {'assertions':>10} {'search':>8} | {'fewest':>8} {'NENs':>8} {'search':>8} {'of four':>8} {'peak MB':>7} {'status':>6} | {'check':>8} {'status':>6}")
        for name in sys.argv[1:] or CONTESTS:
            time_contest(name, folder)


if __name__ == "__main__":
    main()
