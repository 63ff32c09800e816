#!/usr/bin/env python3
"""Times `raire search` and `raire check` by `--sets`, on contests of many candidates that are the same at every run.

For each contest it prints the seconds of a search with `--sets 1048576` with one worker and with four, how many assertions there are and how many MB they
take, the peak memory of the search with one worker, and its status. Then come the seconds, memory and status of a check of what was printed (`too long` if
the file has more bytes than are read), and the seconds and status of a search with the default of `--nodes`, with one worker and with four. Many of these are
out of budget (status 4). The best of three runs counts, or the only run if it took more than ten seconds. A run of more than SECONDS (300 by default) is
ended, and a line says so. A run that needs more than MEGABYTES (8,000 by default) gets no more (status 9): 20 nearly equal candidates have millions of
assertions.

    bench/sets.py                                    all contests
    bench/sets.py "landslide 12" "near-equal 15"     the contests with these names
    bench/sets.py --beside 'PROGRAM search {} --nodes 200000'
        times another command too, in which `{}` is the ballot file; its environment is this one's
"""
import argparse
import os
import resource
import shlex
import signal
import sys
import tempfile
import time

from search import PROGRAM, weights_of, write_pool

TOP = os.path.dirname(os.path.dirname(os.path.abspath(__file__)))
sys.path += [os.path.join(TOP, name) for name in ("acceptance", "plain")]

from limits import MOST_FILE_BYTES, MOST_SETS  # noqa: E402

BALLOTS, LONG = 100_000, 10

# For each contest, how often each candidate is ranked, and how many candidates a ballot ranks at most.
CONTESTS = {
    "landslide 12": ([1000, 300] + [70] * 10, 12),  # one candidate has half of the first preferences, and ten small ones are equal
    "landslide 16": ([1000, 300] + [50] * 14, 16),
    "near-equal 12": (weights_of(12, "near-equal"), 12),
    "near-equal 15": (weights_of(15, "near-equal"), 15),
    "ten near-equal of 20": ([1000] * 10 + [20] * 10, 10),
    "near-equal 20": (weights_of(20, "near-equal"), 20),
    "near-equal 32": (weights_of(32, "near-equal"), 32),
    "32 with a clear tail": ([max(1, int(1000 * 0.75**c)) for c in range(32)], 5),
    "five strong of 32": ([1000, 900, 850, 600, 450] + [60 - c for c in range(27)], 10),  # many sets have the best margin
    "20, each weaker": ([int(1000 * 0.88**c) for c in range(20)], 10),
    "32, each weaker": ([int(1000 * 0.9**c) for c in range(32)], 10),
}


class Ran:
    """One run: seconds, peak memory in bytes and status, which is None if the run was ended."""

    def __init__(self, words, output, most, memory):
        began = time.monotonic()
        pid = os.fork()
        if pid == 0:
            self.become(words, output, most, memory)
        _, status, usage = os.wait4(pid, 0)
        self.seconds, self.memory = time.monotonic() - began, usage.ru_maxrss * 1024
        self.status = os.waitstatus_to_exitcode(status) if not os.WIFSIGNALED(status) else None

    @staticmethod
    def become(words, output, most, memory):
        try:
            os.dup2(os.open(output, os.O_WRONLY | os.O_CREAT | os.O_TRUNC, 0o644), 1)
            os.dup2(os.open(os.devnull, os.O_WRONLY), 2)
            signal.alarm(most)  # the command keeps this alarm
            resource.setrlimit(resource.RLIMIT_AS, (memory, memory))
            os.execvp(words[0], words)
        finally:
            os._exit(127)

    def told(self):
        return f"{self.seconds:>8.2f}" if self.status is not None else f">{self.seconds:>7.0f}"

    def status_told(self):
        return "ended" if self.status is None else str(self.status)


def least(words, output, *most):
    runs = [Ran(words, output, *most)]
    while len(runs) < 3 and runs[0].seconds < LONG:
        runs.append(Ran(words, output, *most))
    return min(runs, key=lambda ran: ran.seconds)


def checked(ballots, printed, *most):
    if os.path.getsize(printed) > MOST_FILE_BYTES:
        return f"{'too long':>8} {'':>7} {'':>6}"
    ran = least([PROGRAM, "check", ballots, printed, f"--sets={MOST_SETS}"], os.devnull, *most)
    return f"{ran.told()} {ran.memory / 1e6:>7.0f} {ran.status_told():>6}"


def assertions_in(path):
    """How many assertions there are. A large file isn't read as JSON."""
    with open(path, "rb") as file:
        text = file.read()
    return text.count(b'"kind"')


def time_contest(name, folder, beside, *most):
    ballots, printed = os.path.join(folder, "ballots.raire"), os.path.join(folder, "printed.json")
    write_pool(ballots, *CONTESTS[name], BALLOTS)
    search = [PROGRAM, "search", ballots, f"--sets={MOST_SETS}"]
    one = least([*search, "--workers=1"], printed, *most)
    told = checked(ballots, printed, *most) if one.status == 0 else f"{'':>8} {'':>7} {'':>6}"
    number, size = (assertions_in(printed), os.path.getsize(printed) / 1e6) if one.status == 0 else (0, 0)
    four = least([*search, "--workers=4"], os.devnull, *most)
    nodes = [least([PROGRAM, "search", ballots, f"--workers={workers}"], os.devnull, *most) for workers in (1, 4)]
    others = [least(shlex.split(command.replace("{}", shlex.quote(ballots))), os.devnull, *most) for command in beside]
    print(
        f"{name:<22} {one.told()} {four.told()} {number:>10} {size:>8.1f} {one.memory / 1e6:>7.0f} {one.status_told():>6} | {told} |"
        f" {nodes[0].told()} {nodes[1].told()} {nodes[1].status_told():>6}" + "".join(f" | {ran.told()} {ran.memory / 1e6:>7.0f} {ran.status_told():>6}" for ran in others),
        flush=True,
    )


def main():
    parser = argparse.ArgumentParser()
    parser.add_argument("names", nargs="*", metavar="CONTEST")
    parser.add_argument("--beside", action="append", default=[], metavar="COMMAND")
    parser.add_argument("--seconds", type=int, default=300)
    parser.add_argument("--megabytes", type=int, default=8_000)
    given = parser.parse_args()
    if set(given.names) - set(CONTESTS):
        parser.error("the contests are " + ", ".join(CONTESTS))
    if not os.path.exists(PROGRAM):
        sys.exit("there is no program to time: ./raire --build")
    others = "".join(f" | {'beside':>8} {'peak MB':>7} {'status':>6}" for _ in given.beside)
    print(f"{'contest':<22} {'search':>8} {'of four':>8} {'assertions':>10} {'MB':>8} {'peak MB':>7} {'status':>6} | {'check':>8} {'peak MB':>7} {'status':>6} | {'by nodes':>8} {'of four':>8} {'status':>6}{others}")
    for name in given.names or CONTESTS:
        with tempfile.TemporaryDirectory() as folder:
            time_contest(name, folder, given.beside, given.seconds, given.megabytes * 1_000_000)


if __name__ == "__main__":
    main()
