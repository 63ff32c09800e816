#!/usr/bin/env python3
"""Times `raire poll`, and prints how many draws a poll takes compared with a comparison audit.

    bench/poll.py            a poll of 1,000,000 cards, 30 assertions and 10,000 draws, and a poll of the same files with one draw; the last number
                             is what the draws take. The best of five runs of each counts. Then the same with a look after each draw
    bench/poll.py draws      for margins of a contest of two candidates and 10,000 cards, each of them for one or the other: the draws of a clean
                             comparison by `raire plan`, and the draws after which half, and nine in ten, of 200 seeds are confirmed by a
                             poll with a look after each draw and the gamma that fits, and by polls without; the program confirms each at that
                             draw, and not before. A dash means that they aren't within 100,000 draws, or 20,000 without a look after each
"""
import math
import os
import subprocess
import sys
import tempfile

from search import PROGRAM, TOP, run

import plain_audit  # noqa: E402
import plain_poll  # noqa: E402
from draws import Draws  # noqa: E402

CARDS, BATCHES, CANDIDATES, CLAIMS, DRAWS, SEED = 1_000_000, 4_000, 10, 30, 10_000, "2024"
PERCENTS, GAMMAS, LIMIT, SEEDS, MOST, MOST_EACH = (1, 2, 5, 10, 20, 30, 40, 50, 60, 80), (500, 100), 50_000, 200, 20_000, 100_000


# ---- what a poll takes

def write_large():
    """Writes a manifest, what is seen of the drawn cards, and assertions: those of a contest, and some of them again."""
    draws, size = Draws(20), CARDS // BATCHES
    rankings = [
        ",".join(str(15 + c) for c in dict.fromkeys(min(draws.below(CANDIDATES), draws.below(CANDIDATES)) for _ in range(1 + draws.below(5))))
        for _ in range(20_000)
    ]
    with open("manifest.csv", "w") as file:
        file.write("batch,cards\n" + "".join(f"{99813 + k}_1,{size}\n" for k in range(BATCHES)))
    with open("seen.csv", "w") as file:
        for place in sorted({plain_audit.drawn(SEED, k, CARDS) - 1 for k in range(1, DRAWS + 1)}):
            file.write(f"{99813 + place // size}_1_{place % size + 1},ballot,{rankings[draws.below(len(rankings))]}\n")
    names = ",".join(str(15 + c) for c in range(CANDIDATES))
    with open("ballots.raire", "w") as file:
        file.write(f"1\nContest,339,{CANDIDATES},{names}\n" + "".join(f"339,a_{at},{ranking}\n" for at, ranking in enumerate(rankings)))
    found = subprocess.run([PROGRAM, "search", "ballots.raire"], stdout=subprocess.PIPE, text=True, check=True).stdout
    head, claims = found.split("[", 1)
    claims, tail = claims.split('],"candidates"', 1)
    claims = claims.replace("},{", "}\n{").split("\n")
    claims = (claims * CLAIMS)[:max(CLAIMS, len(claims))]
    with open("assertions.json", "w") as file:
        file.write(f"{head}[{','.join(claims)}],\"candidates\"{tail}")
    return len(claims)


def time_large():
    claims = write_large()
    words = [PROGRAM, "poll", "manifest.csv", "assertions.json", "seen.csv", f"--seed={SEED}"]
    for more in ([], ["--each", "--gamma=best", "--limit=1"]):
        one, many = (min(run([*words, *more, f"--draws={draws}"]) for _ in range(5)) for draws in (1, DRAWS))
        told = f"one draw {one[0]:.3f} s, {DRAWS:,} draws {many[0]:.3f} s, {many[1] / 1e6:.0f} MB, status {many[2]}"
        print(f"{CARDS:,} cards, {claims} assertions{''.join(f' {word}' for word in more)}: {told}")
        print(f"the draws take {many[0] - one[0]:.3f} s")


# ---- how many draws

def write_contest(cards, margin):
    """Writes a contest of two candidates, with this margin for the first; the seen file has all cards."""
    first = (cards + margin) // 2
    with open("manifest.csv", "w") as file:
        file.write(f"batch,cards\nb,{cards}\n")
    with open("seen.csv", "w") as file:
        file.writelines(f"b_{at + 1},ballot,{'A' if at < first else 'B'}\n" for at in range(cards))
    with open("assertions.json", "w") as file:
        claim = f'{{"kind":"NEB","loser":"B","margin":{margin},"winner":"A"}}'
        rest = f'"candidates":["A","B"],"contest":"c","margin":{margin},"order":["A","B"],"records":{cards},"version":1,"winner":"A"'
        file.write(f'{{"assertions":[{claim}],{rest}}}\n')
    return first


def lowered(gamma):
    """The printed risk after 0, 1, 2, .. draws for the first candidate, and none for the other."""
    units = [plain_poll.UNIT]
    for _ in range(MOST):
        units.append(-(-units[-1] * (500 + gamma) // (1000 + gamma)))
    return units


def is_within(units, against, gamma):
    """Whether the printed risk, raised by this many draws for the other candidate, is within the limit."""
    for _ in range(against):
        if units > LIMIT * 10**12:
            return False
        units = -(-units * (500 + gamma) // gamma)
    return units <= LIMIT * 10**12


def first_draw(seed, cards, first, gamma, units):
    """The first draw after which the assertion is confirmed, or None. If even the smallest units are raised above the limit, no later draw confirms it."""
    against = 0
    for k in range(1, MOST + 1):
        against += plain_audit.drawn(seed, k, cards) > first
        if is_within(units[k - against], against, gamma):
            return k
        if not is_within(units[-1], against, gamma):
            return None
    return None


def each_first_draw(seed, cards, first, gamma):
    """The same with a look after each draw."""
    units = plain_poll.UNIT
    for k in range(1, MOST_EACH + 1):
        units = plain_poll.next_risk(units, 0 if plain_audit.drawn(seed, k, cards) > first else 2, gamma)
        if units <= LIMIT * 10**12:
            return k
    return None


def is_first(seed, draws, *more):
    words = [PROGRAM, "poll", "manifest.csv", "assertions.json", "seen.csv", f"--seed={seed}", f"--limit={LIMIT}", *more]
    return [subprocess.run([*words, f"--draws={at}"], stdout=subprocess.DEVNULL).returncode for at in (draws - 1, draws) if at] == [10, 0][-min(draws, 2):]


def polls(cards, first, gamma):
    units = lowered(gamma)
    return shares([(first_draw(seed, cards, first, gamma, units), seed) for seed in range(SEEDS)], f"--gamma={gamma}")


def polls_each(cards, first):
    gamma = plain_poll.best_gamma(cards, 2 * first - cards)
    return shares([(each_first_draw(seed, cards, first, gamma), seed) for seed in range(SEEDS)], "--gamma=best", "--each")


def shares(found, *more):
    """The draws that half of the seeds and nine in ten take, as texts."""
    took = sorted((draws, seed) for draws, seed in found if draws)
    told = []
    for share in (0.5, 0.9):
        at = math.ceil(share * SEEDS) - 1
        if at < len(took) and not is_first(took[at][1], took[at][0], *more):
            sys.exit(f"the program says otherwise: {took[at]}, {' '.join(more)}")
        told.append(f"{took[at][0]:,}" if at < len(took) else "-")
    return told


def tell_draws():
    cards = 10_000
    heads = ["each, best", *(f"poll {gamma}" for gamma in GAMMAS)]
    print(f"{'margin':>7} {'comparison':>11}" + "".join(f" {f'{head}: half':>16} {'9 in 10':>8}" for head in heads))
    for percent in PERCENTS:
        first = write_contest(cards, cards * percent // 100)
        plan = subprocess.run([PROGRAM, "plan", "manifest.csv", "assertions.json"], stdout=subprocess.PIPE, text=True).stdout.split()
        texts = [*polls_each(cards, first), *(text for gamma in GAMMAS for text in polls(cards, first, gamma))]
        print(f"{percent:>6}% {plan[-2]:>11}" + "".join(f" {half:>16} {most:>8}" for half, most in zip(texts[::2], texts[1::2])), flush=True)


def main():
    tell = tell_draws if sys.argv[1:] == ["draws"] else time_large
    with tempfile.TemporaryDirectory() as folder:
        os.chdir(folder)
        tell()
        os.chdir(TOP)


if __name__ == "__main__":
    main()
