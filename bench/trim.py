#!/usr/bin/env python3
"""Times `raire trim` and `raire check`, on the assertions that `raire search` prints for contests that are the same at every run.

For each contest it prints how many assertions there are and how many are left, the seconds of `check` and of `trim`, the peak memory of `trim` and its
status: 4 if the nodes aren't enough for a trial. The best of three runs counts.

    bench/trim.py              10 candidates and 200,000 ballots; 32, four of them strong; 8, 10 and 12 nearly equal ones
    bench/trim.py equal 11     one near-equal contest of this many candidates and 100,000 ballots
    bench/trim.py sets         12, 13 and 15 nearly equal ones, with the maximum number of sets
    bench/trim.py sets OTHER   the same, compared with the program OTHER, which is given the same words, and whether both print the same
"""
import json
import subprocess
import sys
import tempfile

from search import PROGRAM, least, write_ballots

from limits import MOST_SETS  # noqa: E402

EQUAL = "near-equal"
CONTESTS = [(10, 200_000, ""), (32, 100_000, "few strong"), (8, 100_000, EQUAL), (10, 100_000, EQUAL), (12, 100_000, EQUAL)]

BY_SETS, KIND = [12, 13, 15], b'"kind"'


def assertions_in(text):
    return len(json.loads(text)["assertions"]) if text else 0


def time_contest(candidates, ballots, kind):
    with tempfile.NamedTemporaryFile(suffix=".raire") as file, tempfile.NamedTemporaryFile(suffix=".json") as found:
        write_ballots(file.name, candidates, ballots, kind)
        searched = subprocess.run([PROGRAM, "search", file.name], capture_output=True)
        name = f"{kind} {candidates}, {ballots:,} ballots".strip()
        if searched.returncode != 0:
            print(f"{name:<28} search ends with {searched.returncode}")
            return
        found.write(searched.stdout)
        found.flush()
        check, _, _ = least(PROGRAM, "check", file.name, found.name)
        trim, peak, status = least(PROGRAM, "trim", file.name, found.name)
        left = subprocess.run([PROGRAM, "trim", file.name, found.name], capture_output=True).stdout if status == 0 else b""
        print(
            f"{name:<28} {assertions_in(searched.stdout):>10} {assertions_in(left):>6} {check:>8.3f} {trim:>8.3f} {peak / 1e6:>8.1f} {status:>6}",
            flush=True,
        )


def printed(program, *words):
    return subprocess.run([program, *words], capture_output=True).stdout


def time_by_sets(candidates, others):
    with tempfile.NamedTemporaryFile(suffix=".raire") as file, tempfile.NamedTemporaryFile(suffix=".json") as found:
        write_ballots(file.name, candidates, 100_000, EQUAL)
        sets = ("--sets", str(MOST_SETS))
        found.write(printed(PROGRAM, "search", file.name, *sets))
        found.flush()
        words = ("trim", file.name, found.name, *sets)
        left, told = printed(PROGRAM, *words), ""
        trim, peak, status = least(PROGRAM, *words)
        for other in others:
            told += f" {least(other, *words)[0]:>8.3f} {'yes' if printed(other, *words) == left else 'no':>5}"
        with open(found.name, "rb") as file:
            assertions, kept = file.read().count(KIND), left.count(KIND)
        print(f"{candidates:>10} {assertions:>10} {kept:>8} {trim:>8.3f} {peak / 1e6:>8.1f} {status:>6}{told}", flush=True)


def main():
    words = sys.argv[1:]
    if words[:1] == ["sets"]:
        print(f"{'candidates':>10} {'assertions':>10} {'left':>8} {'trim':>8} {'peak MB':>8} {'status':>6}" + f" {'other':>8} {'same':>5}" * len(words[1:]))
        for candidates in BY_SETS:
            time_by_sets(candidates, words[1:])
        return
    print(f"{'contest':<28} {'assertions':>10} {'left':>6} {'check':>8} {'trim':>8} {'peak MB':>8} {'status':>6}")
    for contest in [(int(words[1]), 100_000, EQUAL)] if words[:1] == ["equal"] else CONTESTS:
        time_contest(*contest)


if __name__ == "__main__":
    main()
