#!/usr/bin/env python3
"""Tries ./raire plan --poll: the draws after which half of all polls, and nine in ten, confirm.

acceptance/poll_plans.py PROGRAM compares its shares with all sequences of a few draws, and with polls that are simulated by plain_poll.py; its numbers for
two candidates with those of an earlier simulation; and its gammas with those of the plain poll. Then it tries the lines that are printed, what is refused,
and the script ./raire. The last line says how many came out as they should.
"""
import itertools
import json
import math
import os
import random
import subprocess
import sys
import tempfile

import places

sys.path.append(os.path.join(places.TOP, "tools", "office"))

import plain_poll  # noqa: E402
import plan_poll  # noqa: E402
import walk  # noqa: E402
from limits import GREATEST_EACH_GAMMA, GREATEST_LIMIT  # noqa: E402

TOOL = os.path.join(places.TOP, "tools", "office", "plan_poll.py")
LIMIT = 50_000
CARDS = 10_000  # in a contest of two candidates, each card for one of them
# by percent: the draws after which half, and nine in ten, of at most 200 seeds confirmed, simulated independently of this program
SIMULATED = {2: (11_168, 31_562), 5: (1_943, 5_572), 10: (464, 1_240), 20: (119, 310), 30: (50, 128), 40: (30, 75)}


def poll_of(cards=CARDS, recorded=CARDS, limit=LIMIT):
    return plan_poll.Poll(cards, recorded, limit)


def fitted(percent):
    margin = CARDS * percent // 100
    return margin, plan_poll.best_gamma(CARDS, margin)


# ---- the counts

def table():
    """The numbers of the earlier simulation. It had few seeds: its number for nine in ten is a late draw of at most 20 polls."""
    for percent, (half, nine) in SIMULATED.items():
        poll = poll_of()
        poll.most = 40_000
        found = poll.both({fitted(percent): 1})
        yield f"{percent} percent, half: {found}", abs(found[0] / half - 1) < 0.08
        yield f"{percent} percent, nine in ten: {found}", abs(found[1] / nine - 1) < 0.15


def of_all_sequences(shares, limit, gamma, draws):
    """The share of all sequences of this many draws that are confirmed, counted one by one. `shares` are the shares of a draw with the values 0, 1 and 2."""
    confirmed = 0.0
    for values in itertools.product((0, 1, 2), repeat=draws):
        if plain_poll.end_of(values, limit, gamma)[2]:
            confirmed += math.prod(shares[s] for s in values)
    return confirmed


def sequences():
    """The shares for a few draws are those of all sequences."""
    for cards, recorded, margin, limit, gamma in (
        (10, 10, 6, 50_000, 125), (10, 10, 10, 50_000, 1), (10, 8, 4, 200_000, 750), (10, 9, 5, 300_000, 500), (12, 7, 7, 600_000, 250),
        (100, 60, 20, 700_000, 2_000), (9, 9, 1, 900_000, 4_000), (10, 10, 2, 999_999, 100), (10, 6, 4, 360_000, 250), (10, 10, 8, 216_000, 250),
    ):
        those_for, against = plan_poll.cards_for(margin, recorded)
        shares = against / cards, (cards - those_for - against) / cards, those_for / cards
        poll = poll_of(cards, recorded, limit)
        for draws in (1, 2, 5, 8):
            found, wanted = poll.within(margin, gamma, draws), of_all_sequences(shares, limit, gamma, draws)
            yield f"all sequences of {draws} draws, {cards} cards, margin {margin}, gamma {gamma}: {found}, {wanted}", abs(found - wanted) < 1e-12


def simulated(draws, share, limit, gamma, polls, seed):
    """How many polls are confirmed within this many draws, step by step of the printed risk. `share` is the share of draws that speak for the assertion."""
    source, confirmed = random.Random(seed), 0
    for _ in range(polls):
        units = plain_poll.UNIT
        for _ in range(draws):
            units = plain_poll.next_risk(units, 2 if source.random() < share else 0, gamma)
            if units <= limit * 10**12:
                confirmed += 1
                break
    return confirmed


def is_near(count, polls, share):
    """Fewer than one in 10,000 such counts are further away."""
    return abs(count - polls * share) <= 4 * math.sqrt(polls * share * (1 - share)) + 1


def simulations():
    """As many simulated polls are confirmed as are counted."""
    for percent, polls in ((5, 300), (10, 1_000), (20, 3_000), (40, 3_000), (80, 3_000)):
        margin, gamma = fitted(percent)
        for gamma, limit in ((gamma, LIMIT), (500 if percent >= 20 else gamma // 2, 100_000)):
            poll = poll_of(limit=limit)
            for draws in filter(None, poll.both({(margin, gamma): 1})):
                count = simulated(draws, (1 + margin / CARDS) / 2, limit, gamma, polls, 57)
                yield f"{count} of {polls} polls within {draws} draws: {percent} percent, {gamma}", is_near(count, polls, poll.within(margin, gamma, draws))


def numbers():
    """The numbers of draws are the first ones; what is known without counting is no less than what is counted; blank cards make a poll shorter."""
    for percent in (5, 10, 20, 30, 50, 80):
        margin, gamma = fitted(percent)
        poll, claim = poll_of(), (margin, gamma)
        for share, draws in zip((0.5, 0.9), poll.both({claim: 1})):
            yield f"{draws} draws are the first: {percent}", poll.within(*claim, draws) >= share > poll.within(*claim, draws - 1)
            most = poll.way(*claim).most_within(draws)
            yield f"{draws} draws: {most} is no less", poll.within(*claim, draws) <= most <= 1
        half, nine = poll.both({claim: 1})
        for speaking in (9_000, 6_000, 3_000):
            if speaking > margin:
                less = poll_of(recorded=speaking).both({claim: 1})
                yield f"{speaking} cards speak: {less}, {half}, {nine}", less[0] <= half + 1 and less[1] <= nine
    for recorded, margin in ((10, 4), (11, 4), (1, 1), (7, 7), (8, 7)):
        those_for, against = plan_poll.cards_for(margin, recorded)
        yield f"cards of {recorded} records", those_for - against == margin and recorded - 1 <= those_for + against <= recorded
    yield "the gammas are those of a poll", all(
        plan_poll.best_gamma(cards, margin) == plain_poll.best_gamma(cards, margin)
        for cards in (1, 2, 7, 10_000, 10_000_000) for margin in {1, 2, 3, 7, 999, 5_000, cards} if margin <= cards
    )


def several():
    """All assertions take at least as many draws as one of them. The plan's numbers are enough, however their cards are combined."""
    poll = poll_of(1_000, 1_000)
    margins = [200, 200, 260, 400]
    claims = [(margin, plan_poll.best_gamma(1_000, margin)) for margin in margins]
    half, nine = poll.both(plan_poll.counted(claims))
    yield "no fewer draws", half >= poll.both({claims[0]: 1})[0] and nine >= poll.both({claims[0]: 1})[1]
    yield "one claim alone", poll.both({claims[0]: 1}) == poll.both(plan_poll.counted(claims[:1]))
    yield "none", poll.both({}) == (0, 0)
    for seed in range(4):
        source = random.Random(seed)
        values = [[2] * ((1_000 + margin) // 2) + [0] * ((1_000 - margin) // 2) for margin in margins]
        for each in values[seed:]:  # with 0, the cards are combined in any way; with 3, nearly all agree
            source.shuffle(each)
        for share, draws in ((0.5, half), (0.9, nine)):
            drawn = [[source.randrange(1_000) for _ in range(draws)] for _ in range(500)]
            count = sum(all(plain_poll.end_of([each[card] for card in poll], LIMIT, gamma)[2] for each, (_, gamma) in zip(values, claims)) for poll in drawn)
            yield f"{count} of 500 polls confirm all within {draws} draws", count >= 500 * share - 4 * math.sqrt(500 * share * (1 - share))
    gamma, found = poll.single_gamma(margins)
    yield f"a single gamma {gamma}: {found}", found == poll.both(plan_poll.counted((margin, gamma) for margin in margins))
    fits = plan_poll.best_gamma(1_000, 200)
    yield "no worse than the one that fits", found[1] <= poll.both(plan_poll.counted((margin, fits) for margin in margins))[1]


# ---- the lines, and what is refused

def file_of(claims, recorded, **other):
    """An assertion file with these margins."""
    assertions = [{"kind": "NEB", "winner": "A", "loser": "B", "margin": margin} for margin in claims]
    return json.dumps({
        "assertions": assertions, "candidates": ["A", "B"], "contest": "c 1", "margin": min(claims, default=1), "order": ["A", "B"], "records": recorded,
        "version": 1, "winner": "A", **other,
    })


def ran(*words, program=None, **given):
    done = subprocess.run([*([program] if program else [sys.executable, TOOL]), *words], capture_output=True, text=True, env={**os.environ, **given})
    return done.returncode, done.stdout, done.stderr


def lines():
    with open("m.csv", "w") as file:
        file.write("batch,cards\nb,1000\n")
    for name, text in (("a.json", file_of([200, 10], 1_000)), ("one.json", file_of([200], 1_000)), ("none.json", file_of([], 1_000)), ("bad.json", "{"),
                       ("few.json", file_of([200], 500)), ("more.json", file_of([200], 2_000))):
        with open(name, "w") as file:
            file.write(text)
    head = "contest c 1\nwinner A\ncards 1000\nlimit 50000\n"
    one = "half after 117 draws, nine in ten after 302 draws"
    status, text, told = ran("m.csv", "one.json", "--poll")
    yield f"one assertion: {text}{told}", (status, told) == (0, "") and text.startswith(f"{head}gamma best\nNEB A B margin 200 gamma 2000: {one}\nall: ")
    yield "all of one", f"\nall: {one.replace('after', 'after at most')}\nsingle gamma " in text and text.count("\n") == 8
    yield "words in another order", ran("--poll", "one.json", "m.csv")[0] == 2 and ran("--poll", "m.csv", "one.json") == (0, text, "")
    yield "gamma best", ran("m.csv", "--gamma=best", "one.json", "--poll") == (0, text, "")
    yield "gamma 2000", ran("m.csv", "one.json", "--poll", "--gamma", "2000")[1] == text.replace("gamma best", "gamma 2000")
    yield "gamma 100 never does", "NEB A B margin 200 gamma 100: half by a full count, nine in ten by a full count" in ran("m.csv", "one.json", "--poll", "--gamma=100")[1]
    told = "raire: the risk limit 100000 is 10 percent\n"
    yield "a limit is told", ran("m.csv", "one.json", "--poll", "--limit=100000", RAIRE_QUIET="")[2] == told
    yield "or not", ran("m.csv", "one.json", "--poll", "--limit=100000", RAIRE_QUIET="1")[2] == ""
    small = ran("m.csv", "a.json", "--poll")[1].splitlines()
    yield f"a small margin: {small}", small[6:8] == ["NEB A B margin 10 gamma 49500: half by a full count, nine in ten by a full count",
                                                     "all: half by a full count, nine in ten by a full count"]
    yield "no assertion", ran("m.csv", "none.json", "--poll") == (0, f"{head}gamma best\nall: half after at most 0 draws, nine in ten after at most 0 draws\n", "")
    few = ran("m.csv", "few.json", "--poll")[1]
    yield f"cards without a record: {few}", "NEB A B margin 200 gamma 2000: half after 92 draws, nine in ten after 161 draws" in few
    for words in ((), ("--limit=0",), (f"--limit={GREATEST_LIMIT + 1}",), ("--limit=x",), ("--limit=-1",), ("--limit", "5", "--limit", "5"), ("--gamma=0",),
                  (f"--gamma={GREATEST_EACH_GAMMA + 1}",), ("--gamma=Best",), ("--gamma",), ("--poll",), ("--seed=1",), ("third.csv",), ("--draws=5",), ("--each",)):
        got = ran("m.csv", *(["one.json"] if words else []), "--poll", *words)
        yield f"refused: {words}: {got}", got[:2] == (1, "") and got[2].startswith("plan: ") and "./raire help plan" in got[2]
    for files in (("m.csv", "bad.json"), ("one.json", "m.csv"), ("m.csv", "no.json"), ("no.csv", "one.json"), ("m.csv", "more.json")):
        own, got = ran("plan", *files, program=os.environ["RAIRE"]), ran(*files, "--poll")
        yield f"refused as the program does: {files}: {got}, {own}", got == own and own[0] > 1


def by_the_script(program):
    """./raire plan is the program's own without --poll, and if --poll is a file after --."""
    walk.write_stand_in(program, "raire")
    own = ran("plan", "m.csv", "one.json", program=program)
    yield "without --poll", ran("plan", "m.csv", "one.json", program="./raire") == own and own[0] == 0
    wanted = ran("m.csv", "one.json", "--poll")
    for words in (("--poll", "m.csv", "one.json"), ("m.csv", "one.json", "--poll")):
        yield f"with it: {words}", ran("plan", *words, program="./raire") == wanted
    yield "with names", ran("plan", "m.csv", "one.json", "--poll", "--names=n.csv", program="./raire")[1] == wanted[1].replace("A B", "Ann; Ben").replace(
        "winner A", "winner Ann")
    got = ran("plan", "--", "m.csv", "--poll", program="./raire")
    yield f"a file called --poll: {got}", got[0] == ran("plan", "--", "m.csv", "--poll", program=program)[0] and got[2].startswith("raire: --poll: no such file")
    yield "another command has none", ran("sample", "m.csv", "--poll", "--seed=1", "--draws=2", program="./raire")[0] == 1


def main():
    program = os.path.abspath(sys.argv[1])
    os.environ["RAIRE"] = program
    failed = tried = 0
    with tempfile.TemporaryDirectory() as folder:
        os.chdir(folder)
        with open("n.csv", "w") as file:
            file.write("id,name\nA,Ann\nB,Ben\n")
        for shows, holds in itertools.chain(sequences(), simulations(), numbers(), several(), lines(), by_the_script(program), table()):
            tried += 1
            if not holds:
                failed += 1
                print(f"plan --poll: {shows}: not so")
        os.chdir(places.TOP)
    print(f"{tried - failed} plans of polls as they should be, {failed} not")
    sys.exit(1 if failed else 0)


if __name__ == "__main__":
    main()
