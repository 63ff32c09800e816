#!/usr/bin/env python3
"""Times files whose author wants them to take long, compared with honest files of the same size.

For each it prints the smallest processor time of several runs of each file, the ratio of the adversary's time to the longest honest time, and the peak
memory of both. The files are the same at every run.

    bench/adversary.py [RUNS]    RUNS runs of each (3 by default)
"""
import os
import random
import sys
import tempfile

TOP = os.path.dirname(os.path.dirname(os.path.abspath(__file__)))
sys.path += [os.path.join(TOP, name) for name in ("acceptance", "plain")]

from colliding import BATCHES, COUNTED_BYTES, alike_front, write, write_ballots, write_manifest  # noqa: E402
from limits import MOST_RECORDS  # noqa: E402

PROGRAM = os.path.join(TOP, "crates/raire/out/raire")
SAMPLE = ["--seed=1", "--draws=3"]
CANDIDATES = 20


def run(words):
    """Processor seconds and peak memory in megabytes."""
    pid = os.fork()
    if pid == 0:
        null = os.open(os.devnull, os.O_WRONLY)
        os.dup2(null, 1)
        os.execvp(PROGRAM, [PROGRAM, *words])
    _, status, usage = os.wait4(pid, 0)
    if os.waitstatus_to_exitcode(status) not in (0, 3, 4):
        sys.exit(f"{' '.join(words)}: it ended with {os.waitstatus_to_exitcode(status)}")
    return usage.ru_utime + usage.ru_stime, usage.ru_maxrss / 1024


def pair(shows, command, honest, adversary, *options):
    """Runs of the honest files and of the adversary's, in turn."""
    files = [*honest, adversary]
    told = {name: [] for name in files}
    for _ in range(RUNS):
        for name in files:
            told[name].append(run([command, name, *options]))
    seconds = {name: min(it[0] for it in told[name]) for name in files}
    memory = {name: max(it[1] for it in told[name]) for name in files}
    longest = max(honest, key=seconds.get)
    print(
        f"{shows:<56} {seconds[longest]:>7.3f} {seconds[adversary]:>9.3f} {seconds[adversary] / seconds[longest]:>6.2f} |"
        f" {memory[longest]:>6.0f} {memory[adversary]:>9.0f}",
        flush=True,
    )


# ---- ids of ballots

def shuffled(ids):
    mixed = [*ids]
    random.Random(1).shuffle(mixed)
    return mixed


def ballots():
    front, counted = alike_front(), "x" * COUNTED_BYTES
    ordered = [f"{'batch_':>024}{counted}{number:08}" for number in range(MOST_RECORDS)]
    write_ballots("in order", ordered)
    write_ballots("in no order", shuffled(ordered))
    draws = random.Random(2)
    write_ballots("at random", (f"{draws.randrange(10**37):037}" for _ in range(MOST_RECORDS)))
    write_ballots("alike", (f"{front}{number:08}{counted}" for number in range(MOST_RECORDS)))
    write_ballots("alike, in no order", shuffled([f"{front}{number:08}{counted}" for number in range(MOST_RECORDS)]))
    honest = ["in order", "in no order", "at random"]
    pair("ids of which each digest is alike, in order", "tabulate", honest, "alike")
    pair("ids of which each digest is alike, in no order", "tabulate", honest, "alike, in no order")
    pair("ids in no order", "tabulate", ["in order", "at random"], "in no order")


# ---- names of batches

def batches():
    for name, front in (("honest", f"{'batch':>024}"), ("colliding", alike_front())):
        names = [f"{front}{number:08x}" for number in range(BATCHES)]
        write_manifest(name, names)
    pair(f"a manifest of {BATCHES:,} batches of one digest", "sample", ["honest"], "colliding", *SAMPLE)


# ---- candidates

def contest(name, ballots):
    head = f"1\nContest,1,{CANDIDATES},{','.join(str(15 + c) for c in range(CANDIDATES))}\n"
    write(name, [head, *(f"1,{number},{','.join(str(15 + c) for c in ballot)}\n" for number, ballot in enumerate(ballots))])


def candidates():
    """Each candidate alone on a ballot, and one candidate on the rest of the ballots; the honest contests have random rankings."""
    draws = random.Random(3)
    everybody = range(CANDIDATES)
    few = [draws.sample(everybody, 1 + draws.randrange(3)) for _ in range(CANDIDATES * CANDIDATES)]
    contest("drawn, few", few)
    contest("one ballot each", [[c] for c in everybody] + [[0]] * (len(few) - CANDIDATES))
    pair(f"{CANDIDATES} candidates whom one ballot each ranks, few ballots", "search", ["drawn, few"], "one ballot each", "--workers=1")
    many = 100_000
    contest("drawn, many", (draws.sample(everybody, 1 + draws.randrange(CANDIDATES)) for _ in range(many)))
    contest("one ballot each of many", [[c] for c in everybody] + [[0]] * (many - CANDIDATES))
    pair(f"the same, {many:,} ballots", "search", ["drawn, many"], "one ballot each of many", "--workers=1")
    rotated = [[(first + c) % CANDIDATES for c in range(CANDIDATES)] for first in range(CANDIDATES)]
    contest("in turn", (rotated[number % CANDIDATES] for number in range(many)))
    pair("candidates who are first in turn", "search", ["drawn, many"], "in turn", "--workers=1")


def main():
    here = os.getcwd()
    print(f"{'the file':<56} {'honest':>7} {'adversary':>9} {'times':>6} | {'MB':>6} {'adversary':>9}")
    for part in (ballots, batches, candidates):
        with tempfile.TemporaryDirectory() as folder:
            os.chdir(folder)
            part()
            os.chdir(here)


if __name__ == "__main__":
    RUNS = int(sys.argv[1]) if sys.argv[1:] else 3
    main()
