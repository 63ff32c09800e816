#!/usr/bin/env python3
"""Compares ballot polls of the built program with the plain poll.

acceptance/polls.py PROGRAM [POLLS] [SEEDS] first goes through polls that were worked out by hand. Then it makes POLLS others (1,000 by default), half of
them with a look after each draw: assertions of a contest of 2 to 5 candidates, now and then of 21 to 32, a manifest, and what was seen of the cards; in
half of them something is damaged. The status and both texts must agree with plain_poll.py. Each risk that is printed must be at least the exact one, and
may exceed it only by its roundings. Last come contests whose cards elect another candidate than the assertions prove, or could do so by the way a tie is
broken. Of SEEDS seeds for each (2,000 by default), few may confirm the assertions, at whichever draw; with a look after each draw, at four gammas.
"""
import collections
import json
import math
import multiprocessing
import os
import re
import sys
from fractions import Fraction

import places  # noqa: F401
import audits
import plain
import plain_audit
import plain_poll
from audits import lines, one_of, write
from draws import Draws

POLL = "poll manifest.csv assertions.json seen.csv --seed 2024 --draws"


# ---- polls by hand

def table(draws, counts, risk, is_confirmed):
    state, last = ("confirmed", "yes") if is_confirmed else ("unconfirmed", "no")
    told = f"NEB 1 2 counts {counts} risk {risk} {state}"
    return (0 if is_confirmed else 10), lines("cards 1", f"draws {draws}", "limit 50000", "gamma 100", told, f"confirmed {last}"), ""


def each_table(draws, gamma, end, is_confirmed):
    told = lines("contest 7", "winner 1", "cards 1", f"draws {draws}", "limit 50000", f"gamma {gamma}", "seed 2024", f"NEB 1 2 {end}")
    return (0 if is_confirmed else 10), told + f"confirmed {'yes' if is_confirmed else 'no'}\n", ""


def one_card(runs):
    write("manifest.csv", audits.MANIFEST)
    write("assertions.json", audits.ASSERTIONS)
    write("seen.csv", audits.SEEN)
    runs.row(f"{POLL} 4", table(4, "0 0 4", "0.088518543815313162", False))
    runs.row(f"{POLL} 5", table(5, "0 0 5", "0.048282842081079907", True))
    runs.row(f"{POLL} 4 --each", each_table(4, 100, "gamma 100 counts 0 0 4 risk 0.088518543815313162 unconfirmed", False))
    runs.row(f"{POLL} 9 --each", each_table(9, 100, "gamma 100 counts 0 0 5 risk 0.048282842081079907 confirmed 5", True))
    runs.row(f"{POLL} 9 --gamma best --each", each_table(9, "best", "gamma 1 counts 0 0 5 risk 0.031406406093750188 confirmed 5", True))
    runs.row(f"{POLL} 9 --gamma=1000000 --each", each_table(9, 1000000, "gamma 1000000 counts 0 0 9 risk 0.995513467070736321 unconfirmed", False))
    for words in ("--gamma best", "--gamma=501", "--each=", "--each --each", "--each --gamma=1000001", "--each --gamma=0", "--each 1"):
        runs.row(f"{POLL} 9 {words}", (1, "", "raire: bad words\n"))
    write("seen.csv", "b_1,missing\n")
    runs.row(f"{POLL} 1 --each", each_table(1, 100, "gamma 100 counts 1 0 0 risk 6.000000000000000000 unconfirmed", False))
    # after the eighth draw the risk is above a million, and stays as it is
    runs.row(f"{POLL} 8 --each", each_table(8, 100, "gamma 100 counts 8 0 0 risk 1679616.000000000000000000 unconfirmed", False))
    runs.row(f"{POLL} 20 --each", each_table(20, 100, "gamma 100 counts 20 0 0 risk 1679616.000000000000000000 unconfirmed", False))
    runs.row(f"{POLL} 1", table(1, "1 0 0", "1.000000000000000000", False))
    write("seen.csv", "b_1,ballot\n")
    runs.row(f"{POLL} 3", table(3, "0 3 0", "1.000000000000000000", False))
    write("seen.csv", "")
    runs.row(f"{POLL} 1", (2, "", "raire: seen.csv: V4 card 1 draw 1\n"))
    runs.row(f"{POLL} 1 --each", (2, "", "raire: seen.csv: V4 card 1 draw 1\n"))
    write("seen.csv", "b_1,ballot,3\n")
    runs.row(f"{POLL} 1", (2, "", "raire: seen.csv: V5 at 1\n"))
    write("assertions.json", audits.ASSERTIONS.replace('[{"kind":"NEB","loser":"2","margin":1,"winner":"1"}]', "[]"))
    runs.row(f"{POLL} 1", (6, "no: order 1,2 stands\n", ""))
    runs.row(f"{POLL} 0", (1, "", "raire: bad words\n"))


# ---- polls that are generated

DAMAGES = [audits.damage_seen] * 4 + [audits.damage_assertions] * 3 + [
    audits.damage_bytes(name) for name in ("manifest.csv", "assertions.json", "seen.csv")
]


def options_of(draws):
    """A seed, a number of draws, and now and then a limit, a gamma, few nodes."""
    words = ["--seed", one_of(draws, ["2024", 'a "seed"', "a, b\\c"]), "--draws", str(1 + draws.below(one_of(draws, [5, 40, 400])))]
    if draws.below(2):
        words += ["--limit", str(1 + draws.below(900_000))]
    is_each = draws.below(2)
    words += ["--each"] * is_each
    if draws.below(2):
        words += ["--gamma", gamma_of(draws, is_each)]
    return words + (["--nodes", str(1 + draws.below(4))] if draws.below(4) == 0 else [])


def gamma_of(draws, is_each):
    """A gamma; with the flag, possibly a larger one, or the one that fits."""
    return one_of(draws, ["best", str(1 + draws.below(10_000)), str(1 + draws.below(1_000_000))]) if is_each else str(1 + draws.below(500))


def poll(runs, draws):
    """A poll with the assertions of a contest's records; the poll itself doesn't see these records."""
    audits.Made(draws, may_be_many=True)
    status, found, _ = plain_audit.run(["search", "ballots.raire"])
    if status != 0:
        return
    write("assertions.json", found)
    os.remove("ballots.raire")
    if draws.below(2):
        one_of(draws, DAMAGES)(draws)
    words = options_of(draws)
    answer = runs.run(["poll", "manifest.csv", "assertions.json", "seen.csv", *words])
    if answer[0] in (0, 10) and not (are_each_right if "--each" in words else are_right)(answer[1], draws_in(words)):
        runs.differ(words, "risks at and a little above the exact ones", answer)


def draws_in(words):
    return int(words[words.index("--draws") + 1])


def are_right(text, draws):
    """The counts are of all draws. Each risk is at least the exact risk or 1, whichever is smaller, and at most a unit a draw above that, scaled by the
    draws with 0."""
    head, *claims = text.splitlines()[3:-1]
    gamma = int(head.removeprefix("gamma "))
    for line in claims:
        *_, n0, n1, n2, _, told, _ = line.split(" ")
        counts, units = [int(n0), int(n1), int(n2)], int(told.replace(".", ""))
        least = min(plain_poll.exact_risk(counts, gamma) * plain_poll.UNIT, plain_poll.UNIT)
        if sum(counts) != draws or not least <= units <= least + draws * Fraction(500 + gamma, gamma) ** counts[0]:
            return False
    return True


def are_each_right(text, draws):
    """The counts are of the draws up to the one that confirms, or of all. No risk is below the exact one, unless it is above a million and stays."""
    for line in text.splitlines()[7:-1]:
        told = re.fullmatch(r".* gamma (\d+) counts (\d+) (\d+) (\d+) risk ([\d.]+) (?:confirmed (\d+)|unconfirmed)", line)
        gamma, *counts = map(int, told.groups()[:4])
        units, at = int(told[5].replace(".", "")), int(told[6] or draws)
        least = plain_poll.exact_risk(counts, gamma) * plain_poll.UNIT
        most = least + draws * Fraction(500 + gamma, gamma) ** counts[0]
        if sum(counts) != at or not (least <= units <= most or units > plain_poll.CEILING):
            return False
    return True


def made_polls(job):
    program, number, count = job
    runs, draws = audits.Runs(program), Draws(number)
    for _ in range(count):
        audits.in_folder(poll, runs, draws)
    return runs


# ---- cards that elect another candidate

# The candidates, the rankings of the cards, and assertions that prove 1; then the limit and gamma of the polls. All but the third are ties, which can be
# broken in another way: so no cards are nearer to the assertions.
TWO = [("NEB", "1", "2")]
THREE = [("NEN", "1", "2", "12"), ("NEB", "1", "3"), ("NEB", "2", "3")]
WRONG = {
    "a tie of 20 cards": ("12", ["1"] * 10 + ["2"] * 10, TWO, 50_000, 100),
    "a tie of 20 cards, the least gamma": ("12", ["1"] * 10 + ["2"] * 10, TWO, 100_000, 1),
    "41 cards, a vote too few": ("12", ["1"] * 20 + ["2"] * 21, TWO, 50_000, 500),
    "a tie, and cards for neither": ("12", ["1"] * 7 + ["2"] * 7 + [""] * 6, TWO, 250_000, 500),
    "a tie of the last two of three": ("123", ["1"] * 8 + ["21"] * 8 + ["3", "31", "32"], THREE, 100_000, 500),
}
MOST_LOOKED_AT = 300

# the gammas that are used with a look after each draw
EACH_GAMMAS = 100, 500, 4_500, "best"


def file_of(ids, claims):
    """An assertion file that proves 1. Its margins mean nothing, as a poll doesn't use them."""
    assertions = [{"kind": kind, "winner": w, "loser": l, "margin": 1, **({"rest": [*rest[0]]} if rest else {})} for kind, w, l, *rest in claims]
    return json.dumps({
        "assertions": assertions, "candidates": [*ids], "contest": "9", "margin": 1, "order": [c for c in ids if c != "2"] + ["2"], "records": 1,
        "version": 1, "winner": "1",
    })


def write_wrong(ids, rankings, claims):
    """Writes the files of a poll of these cards, and returns the value of each card for each assertion."""
    write("manifest.csv", f"batch,cards\nb,{len(rankings)}\n")
    write("assertions.json", file_of(ids, claims))
    write("seen.csv", lines(*(",".join([f"b_{at}", "ballot", *ranking]) for at, ranking in enumerate(rankings, 1))))
    file = plain.read_assertions(file_of(ids, claims).encode())
    return [[plain_audit.value(assertion, tuple(map(ids.index, ranking))) for ranking in rankings] for assertion, _ in file["assertions"]]


def seeds(job):
    """How many seeds from one number to another confirm the assertions at some draw; the program must say so at that draw."""
    program, shows, low, high = job
    ids, rankings, claims, limit, gamma = WRONG[shows]
    runs, confirmed = audits.Runs(program), []

    def each_seed():
        values = write_wrong(ids, rankings, claims)
        for seed in range(low, high):
            drawn = [plain_audit.drawn(seed, k, len(rankings)) - 1 for k in range(1, MOST_LOOKED_AT + 1)]
            at = plain_poll.first_confirmed([[each[card] for card in drawn] for each in values], limit, gamma)
            words = ["poll", "manifest.csv", "assertions.json", "seen.csv", f"--seed={seed}", f"--limit={limit}", f"--gamma={gamma}"]
            answer = runs.run([*words, f"--draws={at or MOST_LOOKED_AT}"])
            if answer[0] != (0 if at else 10):
                runs.differ(words, f"confirmed first at {at}", answer)
            confirmed.append(at is not None)

    audits.in_folder(each_seed)
    return shows, limit, gamma, sum(confirmed), runs


def each_seeds(job):
    """The same with a look after each draw, for one gamma, with one call for each seed."""
    program, shows, given, low, high = job
    ids, rankings, claims, limit, _ = WRONG[shows]
    gamma = plain_poll.best_gamma(len(rankings), 1) if given == "best" else given
    runs, confirmed = audits.Runs(program), []

    def each_seed():
        values = write_wrong(ids, rankings, claims)
        for seed in range(low, high):
            drawn = [plain_audit.drawn(seed, k, len(rankings)) - 1 for k in range(1, MOST_LOOKED_AT + 1)]
            is_confirmed = all(plain_poll.end_of([each[card] for card in drawn], limit, gamma)[2] for each in values)
            words = ["poll", "manifest.csv", "assertions.json", "seen.csv", f"--seed={seed}", f"--limit={limit}", f"--gamma={given}", "--each"]
            answer = runs.run([*words, f"--draws={MOST_LOOKED_AT}"])
            if answer[0] != (0 if is_confirmed else 10):
                runs.differ(words, f"confirmed: {is_confirmed}", answer)
            confirmed.append(is_confirmed)

    audits.in_folder(each_seed)
    return f"{shows}, each draw", limit, given, sum(confirmed), runs


def most_of(count, limit):
    """If each of `count` seeds confirms with a probability of the limit, fewer than one in 10,000 such tests have more confirmations than this."""
    mean = count * limit / 10**6
    return math.floor(mean + 4 * math.sqrt(mean * (1 - limit / 10**6)))


def wrong_winners(pool, runs, count):
    """Polls of cards that elect another candidate: few of the seeds may confirm the assertions."""
    spans = [(count * part // 4, count * (part + 1) // 4) for part in range(4)]
    ends = [pool.apply_async(seeds, [(runs.program, shows, *span)]) for shows in WRONG for span in spans]
    ends += [pool.apply_async(each_seeds, [(runs.program, shows, gamma, *span)]) for shows in WRONG for gamma in EACH_GAMMAS for span in spans]
    found = collections.Counter()
    for end in ends:
        shows, limit, gamma, confirmed, others = end.get()
        found[shows, limit, gamma] += confirmed
        runs.failed += others.failed
        runs.statuses += others.statuses
    for (shows, limit, gamma), confirmed in found.items():
        most = most_of(count, limit)
        print(f"{shows}: limit {limit}, gamma {gamma}: {confirmed} of {count} seeds confirm a wrong winner; at most {most} may")
        runs.failed += confirmed > most


def main():
    count, count_of_seeds = (int(sys.argv[at]) if len(sys.argv) > at else number for at, number in ((2, 1000), (3, 2000)))
    runs = audits.Runs(sys.argv[1])
    audits.in_folder(one_card, runs)
    parts = max(1, count // 50)
    with multiprocessing.Pool(min(4, os.cpu_count())) as pool:
        for others in pool.imap(made_polls, [(runs.program, 17 + part, count // parts) for part in range(parts)]):
            runs.failed += others.failed
            runs.statuses += others.statuses
        wrong_winners(pool, runs, count_of_seeds)
    told = ", ".join(f"{status}: {number}" for (command, status), number in sorted(runs.statuses.items()) if command == "poll")
    compared = "" if "poll" in runs.commands else "; the program has no polls, so none was compared"
    print(f"{runs.statuses.total()} polls ({told}), {runs.failed} aren't as they should be{compared}")
    sys.exit(1 if runs.failed else 0)


if __name__ == "__main__":
    main()
