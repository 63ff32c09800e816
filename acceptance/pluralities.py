#!/usr/bin/env python3
"""Whole audits of plurality contests, from the count of first preferences to the report, compared with plain_audit.py.

acceptance/pluralities.py PROGRAM [AUDITS] first goes through audits that were worked out by hand. Then it makes AUDITS others (500 by default), as
audits.py makes its own: with other contests in the same file, cards without a ballot, cards that are missing or read otherwise, and in most of them
something damaged. Some sessions are also given to `audit`, and some sessions of assertions to `plurality`. Each command is run by plain_audit.py and by the
program: the status and both texts must agree. The last line says how many commands were run, and how many of them disagreed.
"""
import json
import multiprocessing
import os
import sys

import places  # noqa: F401
import audits
import plain_audit
from audits import in_folder, lines, one_of, write
from draws import Draws

OPEN = "plurality ballots.raire manifest.csv --seed 2024"
AUDIT = "plurality session.json ballots.raire manifest.csv seen.csv --draws"
NO_BYTES = "e3b0c44298fc1c149afbf4c8996fb92427ae41e4649b934ca495991b7852b855"


# ---- audits by hand

def session_with(margins, cards, rounds, is_signed_off, **others):
    digests = {}
    for name, path in (("ballots", "ballots.raire"), ("manifest", "manifest.csv")):
        with open(path, "rb") as file:
            digests[name] = plain_audit.digest(file.read())
    return plain_audit.session_text({
        **digests, "assertions": NO_BYTES, "cards": cards, "contest": "7", "gamma": 100, "limit": 50_000, "margins": margins,
        "rounds": rounds, "seed": "2024", "signed_off": is_signed_off, "version": 1, **others,
    })


def first_preferences(runs):
    """Five, four and three first preferences, though the runoff goes to the second candidate; and the same with ties."""
    write("manifest.csv", "batch,cards\nt,12\n")
    for firsts, wanted in [
        ([5, 4, 3], None), ([4, 4, 4], "tie\nround 1\ntied 1,2,3\ntally 4\n"), ([2, 5, 5], "tie\nround 1\ntied 2,3\ntally 5\n"),
        ([0, 0, 0], "tie\nround 1\ntied 1,2,3\ntally 0\n"),
    ]:
        rankings = ["1"] * firsts[0] + ["2"] * firsts[1] + ["3,2"] * firsts[2]
        write("ballots.raire", lines("1", "Contest,7,3,1,2,3", *(f"7,t_{at},{ranking}" for at, ranking in enumerate(rankings, 1))))
        runs.row(OPEN, (3, wanted, "") if wanted else (0, session_with([1, 2], 12, [], False), ""))


def one_card(runs):
    """The audit of one card, round by round, and what is refused in it."""
    write("ballots.raire", audits.BALLOTS)
    write("manifest.csv", audits.MANIFEST)
    write("assertions.json", audits.ASSERTIONS)
    write("seen.csv", audits.SEEN)
    opened, first = session_with([1], 1, [], False), session_with([1], 1, [audits.FIRST], False)
    runs.row(OPEN, (0, opened, ""))
    write("session.json", opened)
    runs.row(f"{AUDIT} 5", (0, session_with([1], 1, [audits.SECOND], True), ""))
    runs.row(f"{AUDIT} 4", (10, first, ""))
    write("session.json", first)
    runs.row(f"{AUDIT} 4", (2, "", "raire: session.json: S4 had 4\n"))
    runs.row(f"{AUDIT} 5", (0, session_with([1], 1, [audits.FIRST, audits.SECOND], True), ""))
    found = plain_audit.digest(audits.ASSERTIONS.encode())
    told = f"raire: assertions.json: S2 expected {NO_BYTES} found {found}\n"
    runs.row("audit session.json ballots.raire manifest.csv assertions.json seen.csv --draws 6", (2, "", told))
    write("session.json", session_with([1], 1, [], False, assertions=found))
    runs.row(f"{AUDIT} 5", (2, "", f"raire: session.json: S2 expected {found} found {NO_BYTES}\n"))
    for margins, cards in (([1], 2), ([1, 1], 1)):
        write("session.json", session_with(margins, cards, [], False))
        runs.row(f"{AUDIT} 5", (2, "", "raire: session.json: S5\n"))
    write("session.json", first)
    write("seen.csv", "b_1,missing\n")
    runs.row(f"{AUDIT} 5", (2, "", "raire: session.json: S3 round 1 claim 1 expected 0 0 4 0 0 found 4 0 0 0 0\n"))
    write("seen.csv", "")
    runs.row(f"{AUDIT} 5", (2, "", "raire: seen.csv: V4 card 1 draw 1\n"))


def tied_session(runs):
    """A session made by hand for tied ballots: the tie is reported before anything is said of its margins."""
    write("ballots.raire", "1\nContest,7,2,1,2\n7,b_1,1\n7,b_2,2\n")
    write("manifest.csv", "batch,cards\nb,2\n")
    write("seen.csv", "none_1,missing\n")
    write("session.json", session_with([1], 2, [], False))
    tie = "tie\nround 1\ntied 1,2\ntally 1\n"
    runs.row(OPEN, (3, tie, ""))
    runs.row(f"{AUDIT} 1", (3, tie, ""))
    write("manifest.csv", "batch,cards\nb,1\n")
    runs.row(OPEN, (2, "", "raire: ballots.raire: M7 at 4\n"))


def words(runs):
    """Lines of neither form, with options of the other one, or other numbers of files."""
    for line in (
        "plurality", "plurality a --seed 1", "plurality a b", "plurality a b --seed 1 --draws 5", "plurality a b --draws 5", "plurality a b c --seed 1",
        "plurality a b c d", "plurality a b c d --seed 1", "plurality a b c d --draws 5 --limit 1", "plurality a b c d e --draws 5",
        "plurality a b --seed 1 --nodes 5", "plurality a b c d --draws 0", "plurality a b --seed 1 --limit 0", "plurality a b c d --draws 5 --contest 7",
    ):
        runs.row(line, (1, "", "raire: bad words\n"))


# ---- audits that are generated

DAMAGES = [damage for damage in audits.DAMAGES if damage[0] != "assertions.json"]


def audit(runs, draws):
    """Runs one audit; the damage comes before one of its commands."""
    contest = audits.Made(draws, may_have_two=True, may_be_many=True).contest_words()
    options = [f"--gamma={1 + draws.below(500)}"] if draws.below(3) == 0 else []
    limits = options + ([f"--limit={1 + draws.below(400_000)}"] if draws.below(2) else [])
    at = draws.below(8)

    def step(number, *words):
        if number == at:
            one_of(draws, [damage for name, damage in DAMAGES if os.path.exists(name)])(draws)
        return runs.run(list(words))

    status, text, _ = step(0, "plurality", "ballots.raire", "manifest.csv", f"--seed={one_of(draws, ['2024', 'a, b'])}", *contest, *limits)
    if status != 0:
        return
    write("session.json", text)
    files, had = ["session.json", "ballots.raire", "manifest.csv", "seen.csv"], 0
    for number in range(1, 5):
        had += 1 + draws.below(12 if number < 3 else 60) - (draws.below(10) == 0)
        status, text, _ = step(number, "plurality", *files, "--draws", str(max(had, 1)))
        if status in (0, 10):
            write("session.json", text)
    step(5, "report", "session.json")
    exchanged(runs, draws, contest, had)


def exchanged(runs, draws, contest, had):
    """Gives the session to an audit of assertions, and a session of assertions to the audit of the plurality contest."""
    status, text, _ = runs.run(["search", "ballots.raire", *contest])
    if status != 0:
        return
    write("assertions.json", text)
    runs.run(["audit", "session.json", "ballots.raire", "manifest.csv", "assertions.json", "seen.csv", f"--draws={had + 1}"])
    status, text, _ = runs.run(["open", "ballots.raire", "manifest.csv", "assertions.json", "--seed=2024", *contest])
    if status == 0 and draws.below(2):
        write("session.json", json.dumps({**json.loads(text), "assertions": NO_BYTES}))
    elif status == 0:
        write("session.json", text)
    runs.run(["plurality", "session.json", "ballots.raire", "manifest.csv", "seen.csv", "--draws=9"])


def made(job):
    """The runs of `count` audits, made from one number."""
    program, number, count = job
    runs, draws = audits.Runs(program), Draws(number)
    for _ in range(count):
        in_folder(audit, runs, draws)
    return runs


def main():
    runs, count = audits.Runs(sys.argv[1]), int(sys.argv[2]) if len(sys.argv) > 2 else 500
    for make in (first_preferences, one_card, tied_session, words):
        in_folder(make, runs)
    parts = max(1, count // 50)
    with multiprocessing.Pool(min(4, os.cpu_count())) as pool:
        for others in pool.imap(made, [(runs.program, 41 + part, count // parts) for part in range(parts)]):
            runs.failed += others.failed
            runs.statuses += others.statuses
    told = ", ".join(f"{command} {status}: {number}" for (command, status), number in sorted(runs.statuses.items()))
    commands = " ".join(name for name in plain_audit.COMMANDS if name in runs.commands)
    print(f"{sum(runs.statuses.values())} commands of {count} audits ({told}), {runs.failed} aren't as they should be; compared: {commands}")
    sys.exit(1 if runs.failed else 0)


if __name__ == "__main__":
    main()
