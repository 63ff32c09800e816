#!/usr/bin/env python3
"""Times `raire search` and `raire tabulate` on ballot files that are the same at every run.

For each contest it prints the size of the file, the seconds of `tabulate` and of `search`, and how these are made up: reading (the time in which the same
file is refused at its last record), tabulating (the time of `tabulate` beyond that), and searching with certifying (the time of `search` beyond that of
`tabulate`). Then it prints the bytes read a second, the peak memory of `search`, its status, and the time of `cksum` on the file. The best of three runs
counts.

    bench/search.py            all contests, which take a minute or two
    bench/search.py 4 10000    one realistic contest: candidates and ballots
    bench/search.py equal 15   one near-equal contest of this many candidates and 100,000 ballots
    bench/search.py strong 20  one contest of this many candidates, four of them strong, and 100,000 ballots
"""
import os
import sys
import tempfile
import time

TOP = os.path.dirname(os.path.dirname(os.path.abspath(__file__)))
sys.path += [os.path.join(TOP, name) for name in ("acceptance", "plain")]

from draws import Draws  # noqa: E402

PROGRAM = os.path.join(TOP, "crates/raire/out/raire")

REALISTIC = [(2, 1_000_000), (4, 10_000), (10, 200_000), (14, 940_000), (32, 100_000)]
FEW_STRONG, STRONG = [20, 32], 4
NEAR_EQUAL = [12, 15, 20]


def pool(draws, weights, size, most):
    """Rankings of at most this many candidates, each drawn by its weight among those that are left."""
    rankings = []
    for _ in range(size):
        left, ranking = list(range(len(weights))), []
        for _ in range(min(1 + draws.below(most), len(left))):
            at = draws.below(sum(weights[c] for c in left))
            for c in left:
                at -= weights[c]
                if at < 0:
                    break
            ranking.append(c)
            left.remove(c)
        rankings.append(",".join(str(15 + c) for c in ranking))
    return rankings


def weights_of(candidates, kind):
    """How often each candidate is ranked: all equally often; a few far more often than the others; or each less often than the one before."""
    if kind == "near-equal":
        return [1000] * candidates
    if kind == "few strong":
        return [1000 - 150 * c for c in range(STRONG)] + [10] * (candidates - STRONG)
    return [max(1, int(1000 * 0.75**c)) for c in range(candidates)]


def write_ballots(path, candidates, ballots, kind=""):
    write_pool(path, weights_of(candidates, kind), candidates if kind == "near-equal" else 5, ballots)


def write_pool(path, weights, most, ballots):
    """Writes ballots on which candidates are ranked as often as these weights say, at most this many on a ballot."""
    candidates = len(weights)
    draws = Draws(candidates)
    rankings = pool(draws, weights, 50_000, most)
    with open(path, "w") as file:
        file.write(f"1\nContest,339,{candidates},{','.join(str(15 + c) for c in range(candidates))}\n")
        for number in range(ballots):
            batch, place = divmod(number, 500)
            file.write(f"339,{99813 + batch}_1_{place + 1},{rankings[draws.below(len(rankings))]}\n")


def run(command):
    """The seconds, the peak memory in bytes and the exit status."""
    start = time.monotonic()
    pid = os.fork()
    if pid == 0:
        null = os.open(os.devnull, os.O_WRONLY)
        os.dup2(null, 1)
        os.dup2(null, 2)
        os.execvp(command[0], command)
    _, status, usage = os.wait4(pid, 0)
    return time.monotonic() - start, usage.ru_maxrss * 1024, os.waitstatus_to_exitcode(status)


def least(*command):
    return min(run(command) for _ in range(3))


def time_contest(name, candidates, ballots, kind):
    with tempfile.NamedTemporaryFile(suffix=".raire") as file, tempfile.NamedTemporaryFile(suffix=".raire") as cut:
        write_ballots(file.name, candidates, ballots, kind)
        os.system(f"cp {file.name} {cut.name} && echo nothing >> {cut.name}")
        size = os.path.getsize(file.name)
        read, _, refused = least(PROGRAM, "tabulate", cut.name)
        tabulate, _, _ = least(PROGRAM, "tabulate", file.name)
        search, peak, status = least(PROGRAM, "search", file.name)
        cksum, _, _ = least("cksum", file.name)
        if refused != 2 or status not in (0, 3, 4):
            sys.exit(f"{name}: the program ended with {refused} and {status}")
        print(
            f"{name:<28} {size / 1e6:>6.1f} {tabulate:>9.3f} {search:>8.3f} | {read:>7.3f} {tabulate - read:>7.3f} {search - tabulate:>8.3f} |"
            f" {size / 1e6 / read:>6.0f} {peak / 1e6:>8.1f} {status:>6} {cksum:>7.3f}",
            flush=True,
        )


def main():
    words = sys.argv[1:]
    print(f"{'contest':<28} {'MB':>6} {'tabulate':>9} {'search':>8} | {'reading':>7} {'tally':>7} {'rest':>8} | {'MB/s':>6} {'peak MB':>8} {'status':>6} {'cksum':>7}")
    kinds = {"equal": "near-equal", "strong": "few strong"}
    if words[:1] and words[0] in kinds:
        contests = [(int(words[1]), 100_000, kinds[words[0]])]
    elif words:
        contests = [(int(words[0]), int(words[1]), "")]
    else:
        contests = [(n, ballots, "") for n, ballots in REALISTIC]
        contests += [(n, 100_000, kind) for kind, sizes in (("few strong", FEW_STRONG), ("near-equal", NEAR_EQUAL)) for n in sizes]
    for n, ballots, kind in contests:
        time_contest(f"{kind} {n}, {ballots:,} ballots".strip(), n, ballots, kind)


if __name__ == "__main__":
    main()
