#!/usr/bin/env python3
"""Times `raire contests` on a county that is the same at every run.

The county has 64 contests of 4 candidates, 1,000,000 ballots in all, 250,000 cards with 4 of the contests each, and 10,000 draws. Each drawn card is seen
as it is recorded in each contest.

    bench/contests.py [PROGRAM]     for 1, 2, 4 and 8 workers the seconds of one draw and of 10,000, what the draws take, and the peak memory; then
                                    the same contests one by one with `search` and `audit`, which read the file once each. The best of three runs
                                    counts
"""
import os
import subprocess
import sys
import tempfile

from search import least, pool, PROGRAM, run, TOP, weights_of

import plain_audit  # noqa: E402
from draws import Draws  # noqa: E402
from limits import MOST_CONTESTS  # noqa: E402

CANDIDATES, CARDS, ON_A_CARD, BATCHES, DRAWS, SEED, WORKERS = 4, 250_000, 4, 500, 10_000, "2024", (1, 2, 4, 8)
SIZE = CARDS // BATCHES


def contests_on(at):
    """The contests on a card, which are those of a district; the cards of a district are next to each other."""
    first = at * (MOST_CONTESTS // ON_A_CARD) // CARDS * ON_A_CARD
    return range(first, first + ON_A_CARD)


def write_county():
    """Writes ballots, a manifest, and what is seen of the drawn cards, with a record for each contest."""
    draws, names = Draws(64), ",".join(str(15 + c) for c in range(CANDIDATES))
    rankings = pool(draws, weights_of(CANDIDATES, ""), 20_000, CANDIDATES)
    drawn = {plain_audit.drawn(SEED, k, CARDS) - 1 for k in range(1, DRAWS + 1)}
    seen = []
    with open("ballots.raire", "w") as file:
        file.write(f"{MOST_CONTESTS}\n" + "".join(f"Contest,{300 + k},{CANDIDATES},{names}\n" for k in range(MOST_CONTESTS)))
        for at in range(CARDS):
            card, read = f"{99813 + at // SIZE}_1_{at % SIZE + 1}", {}
            for k in contests_on(at):
                read[k] = rankings[draws.below(len(rankings))]
                file.write(f"{300 + k},{card},{read[k]}\n")
            if at in drawn:
                seen += [f"{card},{300 + k},ballot" + (f",{read[k]}" if k in read else "") + "\n" for k in range(MOST_CONTESTS)]
    with open("seen.csv", "w") as file:
        file.writelines(seen)
    with open("manifest.csv", "w") as file:
        file.write("batch,cards\n" + "".join(f"{99813 + k}_1,{SIZE}\n" for k in range(BATCHES)))


def written(name, *command):
    with open(name, "w") as file:
        subprocess.run(command, stdout=file, check=True)


def time_alone(program):
    """Times a contest with commands of its own: its search and its round, each of which reads the files again."""
    contest, files = ["--contest=300"], ["ballots.raire", "manifest.csv", "alone.json"]
    written("alone.json", program, "search", "ballots.raire", *contest, "--workers=1")
    written("session.json", program, "open", *files, *contest, f"--seed={SEED}")
    with open("seen.csv") as seen, open("alone.csv", "w") as file:
        file.writelines(line.replace(",300,", ",", 1) for line in seen if ",300," in line)
    search, _, _ = least(program, "search", "ballots.raire", *contest, "--workers=1")
    audit, _, status = least(program, "audit", "session.json", *files, "alone.csv", f"--draws={DRAWS}")
    print(f"one contest by itself: search {search:.3f} s, audit {audit:.3f} s, status {status}; times {MOST_CONTESTS}: {MOST_CONTESTS * (search + audit):.1f} s")


def main():
    program = os.path.abspath(sys.argv[1]) if len(sys.argv) > 1 else PROGRAM
    with tempfile.TemporaryDirectory() as folder:
        os.chdir(folder)
        write_county()
        sizes = ", ".join(f"{name} {os.path.getsize(name) / 1e6:.1f} MB" for name in ("ballots.raire", "seen.csv"))
        print(f"{MOST_CONTESTS} contests, {CARDS * ON_A_CARD:,} ballots, {CARDS:,} cards: {sizes}", flush=True)
        words = [program, "contests", "ballots.raire", "manifest.csv", "seen.csv", f"--seed={SEED}"]
        for workers in WORKERS:
            one, many = (min(run([*words, f"--draws={draws}", f"--workers={workers}"]) for _ in range(3)) for draws in (1, DRAWS))
            if {one[2], many[2]} - {0, 10}:
                sys.exit(f"the program ended with {one[2]} and {many[2]}")
            print(f"{workers} workers: one draw {one[0]:.3f} s, {DRAWS:,} draws {many[0]:.3f} s, the draws {many[0] - one[0]:.3f} s, {many[1] / 1e6:.0f} MB, status {many[2]}", flush=True)
        time_alone(program)
        os.chdir(TOP)


if __name__ == "__main__":
    main()
