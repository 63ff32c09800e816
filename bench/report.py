#!/usr/bin/env python3
"""Times `raire report` on a session of many rounds: 1,000 rounds of 100 draws each, for 10 claims.

Each round has the risks of all its draws, so a reader that begins each chain anew takes 500 million steps, and one that continues from the round before
takes one million.

    bench/report.py                       the processor time of the built program: the best of three runs
    bench/report.py PROGRAM [PROGRAM ..]  that of each of these programs, and its ratio to the first; all must print the same
    BENCH_ROUNDS=100 bench/report.py ..   this many rounds
"""
import os
import resource
import subprocess
import sys
import tempfile

TOP = os.path.dirname(os.path.dirname(os.path.abspath(__file__)))
sys.path.append(os.path.join(TOP, "acceptance"))

import plain_audit  # noqa: E402

PROGRAM = os.path.join(TOP, "crates/raire/out/raire")
ROUNDS, DRAWS = int(os.environ.get("BENCH_ROUNDS", "1000")), 100
ONE, CARDS, GAMMA, LIMIT, CLAIMS = 10**18, 1_000_000, 100, 50_000, 10
MARGINS = [40 + 3 * claim for claim in range(CLAIMS)]


def chain(margin):
    """The printed risks at the ends of the rounds if each draw is clean."""
    threshold, now, risks = 2 * CARDS - margin, ONE, []
    over, under = (500 + GAMMA) * threshold, 1000 * CARDS + GAMMA * threshold
    for _ in range(ROUNDS):
        for _ in range(DRAWS):
            now = -(-now * over // under)
        risks.append(now)
    return risks


def session():
    """A session of these rounds, as it is printed."""
    chains = [chain(margin) for margin in MARGINS]
    rounds = [
        {"counts": [[0, 0, DRAWS * (k + 1), 0, 0]] * CLAIMS, "draws": DRAWS * (k + 1), "risks": [risks[k] for risks in chains]}
        for k in range(ROUNDS)
    ]
    content = {name: "00" * 32 for name in ("assertions", "ballots", "manifest")} | {
        "cards": CARDS, "contest": "339", "gamma": GAMMA, "limit": LIMIT, "margins": MARGINS, "rounds": rounds, "seed": "2024",
        "version": 1,
    }
    content["signed_off"] = plain_audit.is_signed_off(content)
    return plain_audit.session_text(content)


def once(program, path):
    """The processor seconds of one run, and what it prints and answers."""
    before = resource.getrusage(resource.RUSAGE_CHILDREN)
    ran = subprocess.run([program, "report", path], stdout=subprocess.PIPE, stderr=subprocess.STDOUT)
    after = resource.getrusage(resource.RUSAGE_CHILDREN)
    return after.ru_utime + after.ru_stime - before.ru_utime - before.ru_stime, ran.stdout, ran.returncode


def main():
    programs = [os.path.abspath(program) for program in sys.argv[1:]] or [PROGRAM]
    with tempfile.TemporaryDirectory() as folder:
        path = os.path.join(folder, "session.json")
        with open(path, "w") as file:
            file.write(session())
        print(f"{ROUNDS:,} rounds of {CLAIMS} claims, {ROUNDS * DRAWS:,} draws: {os.path.getsize(path) / 1e6:.1f} MB", flush=True)
        first = None
        for program in programs:
            runs = [once(program, path) for _ in range(3)]
            least, answer = min(run[0] for run in runs), runs[0][1:]
            first = first or (least, answer)
            if answer[1] not in (0, 10) or answer != first[1]:
                sys.exit(f"{program}: status {answer[1]}, or another answer than {programs[0]}: {answer[0][:200]}")
            print(f"report {least:8.3f} s processor, {least / first[0]:6.3f} of the first   {program}", flush=True)


if __name__ == "__main__":
    main()
