#!/usr/bin/env python3
"""Times the commands of an audit on a county that is the same at every run.

The county has 1,000,000 cards in 4,000 batches, a ballot for each card, and 10 candidates. The audit has 10,000 draws in two rounds. Each command is run
three times, and the best time counts. The time of `tabulate` is printed for comparison, since most of an audit is reading the ballots. Commands that the
program doesn't have are omitted.

    bench/audit.py            the county, which takes a minute or two to make
    bench/audit.py 100000     this many cards
"""
import os
import subprocess
import sys
import tempfile
import time

TOP = os.path.dirname(os.path.dirname(os.path.abspath(__file__)))
sys.path += [os.path.join(TOP, name) for name in ("acceptance", "plain")]

import audits  # noqa: E402
import plain_audit  # noqa: E402
from draws import Draws  # noqa: E402

PROGRAM = os.path.join(TOP, "crates/raire/out/raire")
SEED, CANDIDATES, BATCHES, ROUNDS = "2024", 10, 4_000, (5_000, 10_000)


def write_county(cards):
    """Writes ballots, a manifest and what is seen of the drawn cards, which is what is recorded."""
    draws = Draws(20)
    size = cards // BATCHES
    pool = [
        ",".join(str(15 + c) for c in dict.fromkeys(min(draws.below(CANDIDATES), draws.below(CANDIDATES)) for _ in range(1 + draws.below(5))))
        for _ in range(20_000)
    ]
    rankings = [pool[draws.below(len(pool))] for _ in range(size * BATCHES)]
    names = ",".join(str(15 + c) for c in range(CANDIDATES))
    with open("manifest.csv", "w") as file:
        file.write("batch,cards\n" + "".join(f"{99813 + k}_1,{size}\n" for k in range(BATCHES)))
    with open("ballots.raire", "w") as file:
        file.write(f"1\nContest,339,{CANDIDATES},{names}\n")
        for place, ranking in enumerate(rankings):
            file.write(f"339,{99813 + place // size}_1_{place % size + 1},{ranking}\n")
    drawn = {plain_audit.drawn(SEED, k, len(rankings)) - 1 for k in range(1, ROUNDS[-1] + 1)}
    with open("seen.csv", "w") as file:
        for place in sorted(drawn):
            file.write(f"{99813 + place // size}_1_{place % size + 1},ballot,{rankings[place]}\n")


def run(name, words, keeps=None):
    """Prints the best of three times, and keeps what the command prints."""
    times = []
    for _ in range(3):
        began = time.monotonic()
        ran = subprocess.run([PROGRAM, *words], stdout=subprocess.PIPE, stderr=subprocess.PIPE)
        times.append(time.monotonic() - began)
    told = ran.stderr.decode().strip() or f"{len(ran.stdout):,} bytes"
    print(f"{name:12} {min(times):7.3f} s   status {ran.returncode}, {told}", flush=True)
    if keeps:
        with open(keeps, "wb") as file:
            file.write(ran.stdout)


def main():
    cards = int(sys.argv[1]) if len(sys.argv) > 1 else 1_000_000
    commands = audits.Runs(PROGRAM).commands
    files = ["ballots.raire", "manifest.csv", "assertions.json"]
    with tempfile.TemporaryDirectory() as folder:
        os.chdir(folder)
        write_county(cards)
        run("tabulate", ["tabulate", "ballots.raire"])
        run("search", ["search", "ballots.raire"], "assertions.json")
        run("check", ["check", "ballots.raire", "assertions.json"])
        lines = [
            ("plan", ["plan", "manifest.csv", "assertions.json"], None),
            ("sample", ["sample", "manifest.csv", f"--seed={SEED}", "--draws=100000"], None),
            ("open", ["open", *files, f"--seed={SEED}"], "session.json"),
            ("audit", ["audit", "session.json", *files, "seen.csv", f"--draws={ROUNDS[0]}"], "further.json"),
            ("audit", ["audit", "further.json", *files, "seen.csv", f"--draws={ROUNDS[1]}"], "last.json"),
            ("report", ["report", "last.json"], None),
        ]
        for name, words, keeps in lines:
            if name in commands:
                run(name, words, keeps)
        os.chdir(TOP)


if __name__ == "__main__":
    main()
