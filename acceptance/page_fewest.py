#!/usr/bin/env python3
"""Tries what ./raire show says of the fewest NENs, and how long its pages of 16 nearly equal candidates take to open.

acceptance/page_fewest.py PROGRAM [CONTESTS [FOLDER]] makes CONTESTS contests of 2 to 6 candidates (200 by default). For the file of a search for the fewest
NENs, and for any other file that has no more NENs than plain_fewest.py finds necessary, as many orders as NENs are found; for other files none. By the
definitions, no true NEB of the file's margin refutes any of these orders, and no true NEN of that margin refutes two. Then the pages of a few files are
made and read. Last a browser opens pages of 16 nearly equal candidates, each within two seconds, and unfolds everything that is folded. If there is a
FOLDER, the pictures are kept in it.
"""
import base64
import itertools
import json
import math
import os
import re
import subprocess
import sys
import tempfile
import time

import places  # noqa: F401
import compare
import page
import plain
import plain_fewest
from browser import Browser, found
from draws import Draws
from limits import MOST_SETS

sys.path.append(os.path.join(page.TOP, "tools", "page"))

import apart  # noqa: E402

MOST_SECONDS = 2
SAID = "No NEN can be spared: "


def searched(shows, ballots, name, *words):
    """An assertion file that a search prints, or None if it prints none."""
    ran = subprocess.run([shows.given["PROGRAM"], "search", ballots, *words], capture_output=True, text=True)
    if ran.returncode:
        return None
    page.write(name, ran.stdout)
    return json.loads(ran.stdout)


def nens_in(file):
    return sum(claim["kind"] == "NEN" for claim in file["assertions"])


# ---- orders


def true_assertions(contest, least):
    """All true assertions of at least this margin."""
    for w, l in itertools.permutations(range(contest.n), 2):
        others = [c for c in range(contest.n) if c not in (w, l)]
        rests = (frozenset((w, l, *more)) for size in range(contest.n - 1) for more in itertools.combinations(others, size))
        yield from (each for each in [("NEB", w, l), *(("NEN", w, l, rest) for rest in rests)] if contest.margin(each) >= least)


def wrong_with(contest, file, orders):
    """How the definitions contradict the claim that these orders need a NEN each, or None."""
    if any(sorted(order) != list(range(contest.n)) or contest.ids[order[-1]] == file["winner"] for order in orders):
        return "one of them doesn't elect another candidate"
    for assertion in true_assertions(contest, file["margin"]):
        refuted = sum(plain.refutes(assertion, order) for order in orders)
        if refuted > (assertion[0] == "NEN"):
            return f"{assertion} refutes {refuted}"
    return None


def small_contests(shows, tried, draws, count):
    shown = 0
    for number in range(count):
        n = 2 + number % 5
        contest = plain.Contest("9", [f"C{c}" for c in range(n)], compare.contest_of(draws, n, 5 + draws.below(60)))
        compare.write("ballots.raire", contest.ids, contest.rankings.elements())
        for words in (["--fewest"], [f"--sets={MOST_SETS}"]):
            file = searched(shows, "ballots.raire", "assertions.json", *words)
            if file:
                shown += see_orders(tried, contest, file)
    tried.see("many files have NENs that can't be spared", shown > count // 2, shown)


def see_orders(tried, contest, file):
    """Sees whether orders are found exactly if they should be, and returns whether they are."""
    orders = apart.found(contest.ids, contest.rankings, file) if apart.may_be_found(file) else None
    are_fewest = nens_in(file) == plain_fewest.found(contest).nens > 0
    tried.see("orders are found if the NENs are the fewest, and only then", bool(orders) == are_fewest, (file, orders))
    if orders:
        tried.see("there are as many as NENs", [*orders] == [j for j, claim in enumerate(file["assertions"], 1) if claim["kind"] == "NEN"], (file, orders))
        wrong = wrong_with(contest, file, orders.values())
        tried.see("they need one each", wrong is None, (wrong, file, orders))
        claims = plain.read_assertions(json.dumps(file).encode())["assertions"]
        tried.see("each is refuted by its own", all(plain.refutes(claims[j - 1][0], order) for j, order in orders.items()), (file, orders))
    return bool(orders)


# ---- pages


def nearly_equal(n, ballots, start=""):
    """A contest on whose ballots, of up to n ranks, every candidate is equally likely to be ranked."""
    draws, path = Draws(n), f"near{n}.raire"
    with open(path, "w") as file:
        file.write(f"{start}1\nContest,near,{n},{','.join(f'Candidate {c + 1}' for c in range(n))}\n")
        for number in range(ballots):
            left = list(range(n))
            ranking = [left.pop(draws.below(len(left))) for _ in range(1 + draws.below(n))]
            file.write(",".join(["near", f"b_{number + 1}", *(f"Candidate {c + 1}" for c in ranking)]) + "\n")
    return path


def pages(shows, tried):
    """What the page says, and when it says nothing of it."""
    ballots = nearly_equal(6, 2000)
    file = searched(shows, ballots, "fewest.json", "--fewest")
    searched(shows, ballots, "certificate.json")
    count, ids = nens_in(file), file["candidates"]
    status, made, err = shows.run(ballots, "fewest.json")
    text = page.text_of(made)
    tried.see("a file of the fewest NENs is shown", status == 0 and f"{SAID}these {count} orders need one each." in text, (err, text[:500]))
    tried.see("this is outside of the proof, and is said to be", "by itself. That is outside of the proof." in text, text)
    listed = re.findall(r"<li><b>(\d+):</b> ([^<]*)</li>", made)
    tried.see("the orders are folded", len(listed) == count and made.count("<details>\n<summary>The ") == 1, listed)
    contest = plain.read(ballots)
    orders = {int(number): tuple(ids.index(c) for c in order.split("; ")) for number, order in listed}
    tried.see("those that are shown need one each", wrong_with(contest, file, orders.values()) is None, orders)
    for shows_what, words in {
        "a file with more NENs": [ballots, "certificate.json"], "a file without its ballots": ["fewest.json"],
        "a check that is spent": [ballots, "fewest.json", "--nodes=1"],
    }.items():
        status, made, err = shows.run(*words)
        tried.see(f"{shows_what}: nothing is said", status == 0 and SAID not in made, err)
    file["assertions"].pop()
    page.write("fewer.json", json.dumps(file))
    status, made, err = shows.run(ballots, "fewer.json")
    tried.see("a file that isn't accepted: nothing is said", status == 0 and SAID not in made, err)
    marked = nearly_equal(6, 2000, start="\ufeff \n\t\n")
    tried.see("blank records and a mark in front change nothing", shows.run(marked, "fewest.json")[1].count(SAID) == 1)
    page.write("one.raire", "1\nContest,9,2,1,2\n9,b_1,1\n9,b_2,1\n9,b_3,2\n")
    searched(shows, "one.raire", "one.json", "--fewest")
    status, made, err = shows.run("one.raire", "one.json")
    tried.see("a file of NEBs alone: nothing is said", status == 0 and (SAID in made) == (nens_in(json.load(open("one.json"))) > 0), err)


def many_candidates(shows, tried):
    """A contest with more candidates than the page looks for orders of."""
    n = apart.MOST_CANDIDATES + 1
    compare.write("many.raire", [f"C{c}" for c in range(n)], compare.contest_of(Draws(n), n, 3000))
    file = searched(shows, "many.raire", "many.json", "--fewest")
    status, made, err = shows.run("many.raire", "many.json", f"--sets={MOST_SETS}")
    tried.see("of many candidates nothing is said", status == 0 and nens_in(file) and SAID not in made, (err, nens_in(file)))


# ---- opened


def seconds_to(opened, act, holds):
    """How long something takes until it is painted."""
    began = time.monotonic()
    act()
    if not opened.wait(f"document.readyState === 'complete' && {holds}"):
        return math.inf
    opened.value("window.isPainted = false; requestAnimationFrame(() => requestAnimationFrame(() => window.isPainted = true))")
    return time.monotonic() - began if opened.wait("window.isPainted") else math.inf


def opens(shows, tried, keep):
    """Pages of 16 nearly equal candidates, as a browser opens them."""
    tried.see("a browser is there: apt-get install chromium-headless-shell", found())
    if not found():
        return
    ballots = nearly_equal(16, 20_000)
    made = {}
    for name, words in {"fewest": ["--fewest"], "certificate": [f"--sets={MOST_SETS}"]}.items():
        searched(shows, ballots, f"{name}.json", *words)
        for given in ([ballots, f"{name}.json", f"--sets={MOST_SETS}"], [f"{name}.json"]):
            began = time.monotonic()
            status, text, err = shows.run(*given)
            told = f"{name}{' with its ballots' * (len(given) > 1)}"
            tried.see(f"{told}: 16 nearly equal candidates are shown", status == 0, err)
            made[told] = text
            print(f"{told}: made in {time.monotonic() - began:.1f} s, {len(text) / 1000:,.0f} kB")
    tried.see("of 16 candidates orders are found", re.search(SAID + r"these [\d,]+ orders need one each\.", page.text_of(made["fewest with its ballots"])))
    with tempfile.TemporaryDirectory() as folder, Browser(folder, folder) as opened:
        opened.look(1200, 1000)
        for told, text in made.items():
            open_one(opened, tried, told, text, keep)


def open_one(opened, tried, told, text, keep):
    path = os.path.abspath("shown.html")
    page.write(path, text)
    opened.ask("Page.navigate", url="about:blank")
    seconds = seconds_to(opened, lambda: opened.ask("Page.navigate", url=f"file://{path}"), "document.querySelector('#made') !== null")
    unfolded = seconds_to(opened, lambda: opened.value("document.querySelectorAll('details').forEach((each) => each.open = true)"), "true")
    print(f"{told}: opened in {seconds:.2f} s, unfolded in {unfolded:.2f} s")
    tried.see(f"{told}: it opens within {MOST_SECONDS} seconds", seconds < MOST_SECONDS, seconds)
    tried.see(f"{told}: all of it unfolds within {MOST_SECONDS} seconds", unfolded < MOST_SECONDS, unfolded)
    if keep:
        os.makedirs(keep, exist_ok=True)
        with open(os.path.join(keep, f"{told}.png"), "wb") as file:
            file.write(base64.b64decode(opened.picture()))


def main():
    program, count = sys.argv[1], int(sys.argv[2]) if len(sys.argv) > 2 else 200
    keep = os.path.abspath(sys.argv[3]) if len(sys.argv) > 3 else None
    tried, here = page.Tried(), os.getcwd()
    with tempfile.TemporaryDirectory() as folder:
        shows = page.Shows(program, folder)
        os.chdir(folder)
        small_contests(shows, tried, Draws(29), count)
        pages(shows, tried)
        many_candidates(shows, tried)
        opens(shows, tried, keep)
        os.chdir(here)
    print(f"{tried.count - tried.failed} things of pages and their NENs as they should be, {tried.failed} not")
    sys.exit(1 if tried.failed else 0)


if __name__ == "__main__":
    main()
