#!/usr/bin/env python3
"""Compares trims of the built program with the plain trimmer.

acceptance/trims.py PROGRAM [CONTESTS] makes CONTESTS contests of 2 to 7 candidates (1,000 by default). It searches each; if the contest is decided, it
trims the file and trims it again, with many nodes or sets and with few. It does the same with that file and up to a dozen more assertions that hold, some
of which refute the same as others, and with a file like that without its order, as version 3, in which the assertions may have a smaller margin than its
own. `check` must accept what is printed, and refuse it with `no: order .. stands` if any one claim is omitted.
"""
import json
import os
import subprocess
import sys
import tempfile

import places  # noqa: F401
import compare
import plain
from draws import Draws
from limits import DEFAULT_NODES
from plain_trim import printed


def ran(program, *words):
    done = subprocess.run([program, *words], capture_output=True, text=True)
    return done.returncode, done.stdout, done.stderr


def another(contest, claims, draws):
    """An assertion: any one, or a NEN of the file with another loser."""
    winner, loser = draws.below(contest.n), draws.below(contest.n)
    rest = frozenset(c for c in range(contest.n) if draws.below(2)) | {winner, loser}
    nens = [claim for claim in claims if claim["kind"] == "NEN"]
    if nens and draws.below(3) == 0:
        claim = nens[draws.below(len(nens))]
        winner, rest = contest.ids.index(claim["winner"]), frozenset(map(contest.ids.index, claim["rest"]))
        loser = sorted(rest)[draws.below(len(rest))]
    return ("NEB", winner, loser) if draws.below(3) == 0 else ("NEN", winner, loser, rest)


def crowded(contest, found, draws):
    """The file with more assertions that hold, anywhere among its own, and of no smaller margin."""
    value = json.loads(found)
    add_claims(contest, value, value["margin"], draws)
    return json.dumps(value)


def covering(contest, found, draws):
    """The same without its order, and with more assertions of any margin."""
    value = json.loads(found)
    del value["order"]
    value["version"] = 3
    add_claims(contest, value, 1, draws)
    value["margin"] = min(claim["margin"] for claim in value["assertions"])
    return json.dumps(value)


def add_claims(contest, value, least, draws):
    """Adds assertions that hold by at least this margin, anywhere among those of the file."""
    claims = value["assertions"]
    for _ in range(draws.below(13)):
        kind, winner, loser, *rest = assertion = another(contest, claims, draws)
        if winner != loser and contest.margin(assertion) >= least:
            claim = {"kind": kind, "loser": contest.ids[loser], "margin": contest.margin(assertion), "winner": contest.ids[winner]}
            more = {"rest": [contest.ids[c] for c in sorted(rest[0])]} if rest else {}
            claims.insert(draws.below(len(claims) + 1), {**claim, **more})


def faults(program, ballots, found, folder, draws):
    """How trims of a file's assertions differ from the definition."""
    path, again = os.path.join(folder, "found.json"), os.path.join(folder, "trimmed.json")
    with open(path, "w") as file:
        file.write(found)
    budgets = [(f"--nodes={number}", number) for number in (DEFAULT_NODES, 1 + draws.below(40))]
    budgets += [(f"--sets={number}", plain.Sets(number)) for number in (128, 1 + draws.below(40))]
    for words, budget in budgets:
        checked, words = ran(program, "check", ballots, path, words), (words,)
        wanted = (checked if checked[0] else (*printed(found.encode(), budget), ""))
        got = ran(program, "trim", ballots, path, *words)
        if got != wanted:
            yield f"trim with {words}: wanted {wanted}, got {got}"
        elif got[0] == 0:
            yield from faults_of_trimmed(program, ballots, got[1], again, words)


def faults_of_trimmed(program, ballots, text, path, words):
    value = json.loads(text)
    with open(path, "w") as file:
        file.write(text)
    if ran(program, "check", ballots, path, *words)[0] != 0:
        yield "the trimmed file isn't accepted"
    status, same, _ = ran(program, "trim", ballots, path)
    if status == 0 and same != text:
        yield "trimmed again it changes"
    for at in range(len(value["assertions"])):
        with open(path, "w") as file:
            json.dump({**value, "assertions": value["assertions"][:at] + value["assertions"][at + 1:]}, file)
        status, said, _ = ran(program, "check", ballots, path)
        if status != 6 or not (said.startswith("no: order ") and said.endswith(" stands\n")):
            yield f"without assertion {at + 1} of the trimmed file: {status} {said}"


def main():
    program, contests = sys.argv[1], int(sys.argv[2]) if len(sys.argv) > 2 else 1000
    draws, agree, failed = Draws(19), 0, 0
    with tempfile.TemporaryDirectory() as folder:
        for number in range(contests):
            # One in fifty has seven candidates, since going through all their suffixes takes a while.
            n = 7 if number % 50 == 49 else 2 + number % 5
            ids = [str(11 + c) for c in range(n)]
            ballots = os.path.join(folder, "ballots.raire")
            rankings = compare.contest_of(draws, n, 20 + draws.below(100))
            compare.write(ballots, ids, rankings)
            status, found, _ = ran(program, "search", ballots)
            contest = plain.Contest("9", ids, rankings)
            files = [] if status else [found, crowded(contest, found, draws), covering(contest, found, draws)]
            told = [fault for file in files for fault in faults(program, ballots, file, folder, draws)]
            for fault in told:
                print(f"contest {number + 1}: {fault}")
            agree, failed = agree + (not told), failed + bool(told)
    print(f"{agree} contests agree, {failed} don't")
    sys.exit(1 if failed else 0)


if __name__ == "__main__":
    main()
