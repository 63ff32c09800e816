#!/usr/bin/env python3
"""Times `raire adopt` and `raire check`, on assertions of contests that are the same at every run.

For each contest it searches by sets, adopts the assertions that are printed, and prints how many there are. Then it prints the processor seconds and the
peak memory of three commands: a check of what `adopt` printed, a check of the same file with one more blank, which isn't read in the quick way of
printed files, and an adoption. Last it prints how many times as much the adoption took as the first check. The commands take turns, and the best of ten
runs of each counts. The claims are those of `./raire import`, in its form.

    bench/adopt.py                     all contests
    bench/adopt.py "near-equal 12"     the contests with these names
"""
import json
import os
import subprocess
import sys
import tempfile

from search import PROGRAM, write_ballots

from limits import MOST_SETS  # noqa: E402

RUNS, EQUAL, MEASURED = 10, "near-equal", "/usr/bin/time"

# For each contest, the candidates, the ballots, and the sets that are enough.
CONTESTS = {
    "near-equal 12": (12, 100_000, 4096),
    "near-equal 12, few ballots": (12, 2_000, 4096),
    "near-equal 15": (15, 100_000, MOST_SETS),
}


def printed(path, *words):
    """Writes what the program prints to a file."""
    with open(path, "wb") as file:
        if subprocess.run([PROGRAM, *words], stdout=file).returncode != 0:
            sys.exit(f"{' '.join(words)}: it has no answer")


def claims_of(path):
    """The claims of an assertion file, as `./raire import` writes them."""
    with open(path) as file:
        found = json.load(file)
    assertions = [{name: each[name] for name in ("kind", "loser", "rest", "winner") if name in each} for each in found["assertions"]]
    claims = {"assertions": assertions, **{name: found[name] for name in ("candidates", "contest", "winner")}}
    return json.dumps(claims, sort_keys=True, separators=(",", ":")) + "\n", len(assertions)


def seconds_of(words):
    """The seconds of one run in user mode and in the system, since for a run this short the system can't tell the two apart."""
    pid = os.posix_spawn(PROGRAM, [PROGRAM, *words], os.environ, file_actions=[(os.POSIX_SPAWN_OPEN, 1, os.devnull, os.O_WRONLY, 0)])
    _, status, usage = os.wait4(pid, 0)
    if status != 0:
        sys.exit(f"{' '.join(words)}: it has no answer")
    return usage.ru_utime + usage.ru_stime


def memory_of(words):
    """The memory of one run in MB, measured by a small program, so that what this script uses doesn't count."""
    done = subprocess.run([MEASURED, "-f", "%M", PROGRAM, *words], stdout=subprocess.DEVNULL, stderr=subprocess.PIPE, text=True)
    return int(done.stderr.split()[-1]) * 1024 / 1e6


def least(*commands):
    """The smallest seconds and the smallest memory of each command; the commands take turns."""
    runs = [[(seconds_of(words), memory_of(words)) for words in commands] for _ in range(RUNS)]
    return [tuple(map(min, zip(*of_one))) for of_one in zip(*runs)]


def time_contest(name, folder):
    candidates, ballots, sets = CONTESTS[name]
    files = ("ballots.raire", "searched.json", "claims.json", "adopted.json", "blank.json")
    made, searched, claims, adopted, blank = (os.path.join(folder, file) for file in files)
    write_ballots(made, candidates, ballots, EQUAL)
    budget = f"--sets={sets}"
    printed(searched, "search", made, budget)
    text, count = claims_of(searched)
    with open(claims, "w") as file:
        file.write(text)
    printed(adopted, "adopt", made, claims, budget)
    with open(adopted) as file, open(blank, "w") as other:
        other.write(" " + file.read())
    found = least(("check", made, adopted, budget), ("check", made, blank, budget), ("adopt", made, claims, budget))
    check, _, adopt = found
    told = "".join(f" | {seconds:>7.3f} {memory:>7.1f}" for seconds, memory in found)
    print(f"{name:<28} {count:>10} {os.path.getsize(claims) / 1e6:>6.1f}{told} | {adopt[0] / check[0]:>6.2f} {adopt[1] / check[1]:>6.2f}", flush=True)


def main():
    if not os.path.exists(PROGRAM):
        sys.exit("there is no program to time: ./raire --build")
    heads = "".join(f" | {head:>7} {'peak MB':>7}" for head in ("check", "blank", "adopt"))
    print(f"{'contest':<28} {'assertions':>10} {'MB':>6}{heads} | {'times':>6} {'memory':>6}")
    with tempfile.TemporaryDirectory() as folder:
        for name in sys.argv[1:] or CONTESTS:
            time_contest(name, folder)


if __name__ == "__main__":
    main()
