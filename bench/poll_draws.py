#!/usr/bin/env python3
"""Prints after how many draws the program's polls confirm, and what `plan --poll` says.

bench/poll_draws.py [PROGRAM] [SEEDS]    for contests of two candidates and 10,000 cards, each of them for one or the other: the draw that confirms in
                                         half of SEEDS seeds (200 by default), and in nine in ten, by `poll --each --gamma best` of each seed; then
                                         what is planned, and how many of the seeds confirmed within these draws
"""
import math
import os
import re
import subprocess
import sys
import tempfile

import search

sys.path.append(os.path.join(search.TOP, "tools", "office"))

import plan_poll  # noqa: E402
from poll import write_contest  # noqa: E402

CARDS, PERCENTS, LIMIT = 10_000, (20, 10, 5), 50_000
MORE = (1, 4, 100)  # the draws of a call, as multiples of those planned for nine in ten; the later ones are for polls that weren't confirmed


def confirming(program, seed, draws):
    """The draw that confirms the poll of a seed, or None if it isn't confirmed within 100,000."""
    for factor in MORE:
        words = [program, "poll", "manifest.csv", "assertions.json", "seen.csv", f"--seed={seed}", f"--limit={LIMIT}", "--gamma=best", "--each"]
        ran = subprocess.run([*words, f"--draws={min(factor * draws, 100_000)}"], capture_output=True, text=True)
        found = re.search(" confirmed ([0-9]+)\n", ran.stdout)
        if found:
            return int(found[1])
        if ran.returncode != 10:
            sys.exit(f"seed {seed}: status {ran.returncode}: {ran.stderr}")
    return None


def tell(program, percent, seeds):
    margin = CARDS * percent // 100
    write_contest(CARDS, margin)
    poll = plan_poll.Poll(CARDS, CARDS, LIMIT)
    planned = poll.both({(margin, plan_poll.best_gamma(CARDS, margin)): 1})
    took = sorted(confirming(program, seed, planned[1]) or math.inf for seed in range(seeds))
    half, nine = (took[math.ceil(share * seeds) - 1] for share in (0.5, 0.9))
    within = [sum(draws <= each for draws in took) for each in planned]
    print(f"{percent:>5}% {half:>7,} {nine:>8,}   planned {planned[0]:>6,} {planned[1]:>7,}   within these {within[0]} and {within[1]} of {seeds}", flush=True)


def main():
    program = os.path.abspath(sys.argv[1]) if len(sys.argv) > 1 else search.PROGRAM
    seeds = int(sys.argv[2]) if len(sys.argv) > 2 else 200
    print("margin    half  9 in 10")
    with tempfile.TemporaryDirectory() as folder:
        os.chdir(folder)
        for percent in PERCENTS:
            tell(program, percent, seeds)
        os.chdir(search.TOP)


if __name__ == "__main__":
    main()
