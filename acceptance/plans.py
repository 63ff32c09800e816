#!/usr/bin/env python3
"""Compares assertion files of version 2, which say the clean draws of each assertion, with the plain programs.

acceptance/plans.py PROGRAM [CONTESTS] first goes through searches and checks that were worked out by hand. Then it makes CONTESTS contests (500 by default)
of 2 to 6 candidates, now and then of 21 to 32 with few strong ones, and searches each for a number of cards, a limit and a gamma. What is printed must be
what plain_audit.py prints. Apart from the draws it must be what a search without cards prints, and its draws must be those of a plan. It is checked,
opened, trimmed and polled in the same way as the file of version 1. Then draws, cards, limit and gamma are changed: each answer is that of plain_audit.py.
The last line says how many commands were as they should be.
"""
import json
import multiprocessing
import os
import sys

import places  # noqa: F401
import audits
import compare
import plain
import plain_audit
from audits import in_folder, lines, one_of, write
from draws import Draws
from limits import GREATEST_GAMMA, GREATEST_LIMIT, MOST_BATCH_CARDS, MOST_CARDS, MOST_DRAWS, MOST_RECORDS

# ---- by hand

FIVE = "1\nContest,1,2,1,2\n" + lines(*(f"1,b_{k},1" for k in range(1, 6)))
PLANNED = (
    '{"assertions":[{"draws":5,"kind":"NEB","loser":"2","margin":5,"winner":"1"}],"candidates":["1","2"],"cards":5,"contest":"1","gamma":100,'
    '"limit":50000,"margin":5,"order":["1","2"],"records":5,"version":2,"winner":"1"}\n'
)
TIED = "1\nContest,1,2,1,2\n1,b_1,1\n1,b_2,2\n"
YES = lines("yes", "assertions 1", "margin 5")


def put(*changes):
    """What is printed, with each text replaced by the text after it."""
    text = PLANNED
    for old, new in zip(changes[::2], changes[1::2]):
        assert text.count(old) == 1, old
        text = text.replace(old, new)
    return text


ORDER = '"order":["1","2"],'
CARDS, GAMMA, LIMIT, RECORDS, VERSION, DRAWS = '"cards":5', '"gamma":100', '"limit":50000', '"records":5', '"version":2', '"draws":5,'

# the assertion file, its status and what is said of it
CHECKED = [
    (PLANNED, 0, YES), (put(DRAWS, '"draws":4,'), 6, "no: assertion 1 needs 5 draws\n"), (put(DRAWS, '"draws":6,'), 6, "no: assertion 1 needs 5 draws\n"),
    (put(DRAWS, '"draws":null,'), 6, "no: assertion 1 needs 5 draws\n"), (put(DRAWS, f'"draws":{MOST_DRAWS},'), 6, "no: assertion 1 needs 5 draws\n"),
    (put(LIMIT, '"limit":48283'), 0, YES), (put(LIMIT, '"limit":48282'), 6, "no: assertion 1 needs a full count\n"),
    (put(LIMIT, '"limit":48282', DRAWS, '"draws":null,'), 0, YES),
    (put(DRAWS, '"draws":4,', '"margin":5,"winner"', '"margin":4,"winner"'), 6, "no: assertion 1 has margin 5\n"),
    (put(DRAWS, '"draws":4,', '"order":["1","2"]', '"order":["2","1"]'), 6, "no: order elects the winner\n"),
    (put(VERSION, '"version":1', DRAWS, '"draws":4,', CARDS, '"cards":"none"'), 0, YES),
    (put(VERSION, '"version":3', ORDER, ""), 0, YES + "not said to be best\n"),
    (put(VERSION, '"version":3', ORDER, "", DRAWS, '"draws":4,'), 6, "no: assertion 1 needs 5 draws\n"),
]
# the assertion file, and the rule and the place that refuse it
REFUSED = [
    (put(f"{CARDS},", ""), "F2 at 0"), (put(f"{GAMMA},", ""), "F2 at 0"), (put(f"{LIMIT},", ""), "F2 at 0"), (put(DRAWS, ""), "F2 at 1"),
    (put(CARDS, '"cards":null'), "F2 at 0"), (put(GAMMA, '"gamma":"100"'), "F2 at 0"), (put(LIMIT, '"limit":0.05'), "F2 at 0"),
    (put(CARDS, '"cards":4294967296'), "F2 at 0"), (put(CARDS, '"cards":-5'), "F2 at 0"), (put(LIMIT, '"limit":5e4'), "F2 at 0"),
    (put(DRAWS, '"draws":"5",'), "F2 at 1"), (put(DRAWS, '"draws":5.0,'), "F2 at 1"), (put(DRAWS, '"draws":false,'), "F2 at 1"),
    (put(DRAWS, '"draws":[5],'), "F2 at 1"), (put(DRAWS, '"draws":4294967296,'), "F2 at 1"), (put(DRAWS, '"draws":-1,'), "F2 at 1"),
    (put(VERSION, '"version":0'), "F3 at 0"), (put(VERSION, '"version":4'), "F3 at 0"), (put(VERSION, '"version":3'), "F2 at 0"), (put(VERSION, '"version":null'), "F2 at 0"),
    (put(VERSION, '"version":4', f"{CARDS},", ""), "F3 at 0"), (put(f"{CARDS},", "", '"contest":"1"', '"contest":""'), "F2 at 0"),
    (put(CARDS, '"cards":4'), "F6 at 0"), (put(CARDS, '"cards":0'), "F6 at 0"), (put(CARDS, f'"cards":{MOST_CARDS + 1}'), "F6 at 0"),
    (put(GAMMA, '"gamma":0'), "F6 at 0"), (put(GAMMA, f'"gamma":{GREATEST_GAMMA + 1}'), "F6 at 0"), (put(LIMIT, '"limit":0'), "F6 at 0"),
    (put(LIMIT, f'"limit":{GREATEST_LIMIT + 1}'), "F6 at 0"), (put(RECORDS, '"records":6'), "F6 at 0"), (put(DRAWS, '"draws":0,'), "F6 at 1"),
    (put(DRAWS, f'"draws":{MOST_DRAWS + 1},'), "F6 at 1"), (put(DRAWS, '"draws":0,', '"loser":"2"', '"loser":"3"'), "F4 at 1"),
    (put(CARDS, '"cards":4', '"order":["1","2"]', '"order":["1"]'), "F5 at 0"), (put(CARDS, '"cards":4', DRAWS, ""), "F6 at 0"),
]

# extra words that make a search for cards bad words
BAD_WORDS = [
    "--limit 50000", "--gamma 100", "--limit=50000 --gamma=100", "--cards 0", f"--cards {MOST_CARDS + 1}", "--cards", "--cards=", "--cards x", "--cards 5 --cards 5",
    "--cards 5 --limit 0", f"--cards 5 --limit {GREATEST_LIMIT + 1}", "--cards 5 --gamma 0", f"--cards 5 --gamma {GREATEST_GAMMA + 1}", "--cards 5 --draws 5",
    "--cards 5 --limit 1 --limit 1", "--cards 5 --seed 1",
]


def by_hand(runs):
    write("five.raire", FIVE)
    write("tied.raire", TIED)
    for words in ("--cards 5", "--cards=005 --limit=50000", "--gamma 100 --cards 5", "--cards 5 --workers 1 --nodes 1", "--cards 5 --floor 5 --contest 1"):
        runs.row(f"search five.raire {words}", (0, PLANNED, ""))
    runs.row("search five.raire", (0, PLANNED_AS_1, ""))
    runs.row("search five.raire --cards 4", (2, "", "raire: five.raire: B11 at 0\n"))
    runs.row("search tied.raire --cards 1", (2, "", "raire: tied.raire: B11 at 0\n"))
    runs.row("search tied.raire --cards 2", (3, lines("tie", "round 1", "tied 1,2", "tally 1"), ""))
    runs.row("search five.raire --cards 4 --contest 2", (2, "", "raire: five.raire: B5 at 1\n"))
    runs.row("search none.raire --cards 4", (12, "", "raire: none.raire: no such file\n"))
    runs.row("search five.raire --cards 5 --floor 6", (5, lines("full count", "order 1,2", "margin 5", "floor 6"), ""))
    for words in BAD_WORDS:
        runs.row(f"search five.raire {words}", (1, "", "raire: bad words\n"))
    for command in ("tabulate five.raire", "check five.raire planned.json", "plan m.csv planned.json", "trial --number 1"):
        runs.row(f"{command} --cards 5", (1, "", "raire: bad words\n"))
    for text, status, told in CHECKED:
        write("planned.json", text)
        runs.row("check five.raire planned.json", (status, told, ""))
    rounded(runs)
    write("manifest.csv", "batch,cards\nb,5\n")
    write("seen.csv", lines(*(f"b_{k},ballot,1" for k in range(1, 6))))
    for text, told in REFUSED:
        write("planned.json", text)
        for line in ("check five.raire planned.json", "trim five.raire planned.json", "plan manifest.csv planned.json",
                     "open five.raire manifest.csv planned.json --seed=1", "poll manifest.csv planned.json seen.csv --seed=1 --draws=5"):
            runs.row(line, (2, "", f"raire: planned.json: {told}\n"))


def rounded(runs):
    """Draws with an exact risk within the limit, while the printed risk isn't, since each step is rounded up: one more draw is needed."""
    write("rounded.raire", FIVE[:FIVE.index("1,b_1")] + lines(*(f"1,b_{k},1" for k in range(1, 48))))
    status, text, _ = runs.run("search rounded.raire --cards 104236 --limit 1".split())
    runs.see("a draw more than by the exact risk", status == 0 and '"draws":73527,' in text, text)
    write("planned.json", text.replace("73527", "73526"))
    runs.row("check rounded.raire planned.json", (6, "no: assertion 1 needs 73527 draws\n", ""))


PLANNED_AS_1 = put(DRAWS, "", f"{CARDS},", "", f"{GAMMA},", "", f"{LIMIT},", "", VERSION, '"version":1')


# ---- contests that are generated

FILES = "ballots.raire", "planned.json"


def terms_of(draws, records):
    """A number of cards, now and then too few for the records, or as many as there may be; and words for a limit and a gamma, or none."""
    cards = one_of(draws, [max(1, records - 1), records, records + draws.below(50), records + draws.below(50), 10 * records, 1000 * records, MOST_CARDS])
    words = [f"--cards={cards}"]
    if draws.below(2):
        words.append(f"--limit={1 + draws.below(one_of(draws, [GREATEST_LIMIT, 200_000, 1000]))}")
    if draws.below(2):
        words.append(f"--gamma={1 + draws.below(GREATEST_GAMMA)}")
    return cards, words


def without_plan(text):
    """The file without what belongs to version 2, as a search without cards prints it."""
    value = json.loads(text)
    claims = [{name: member for name, member in claim.items() if name != "draws"} for claim in value["assertions"]]
    kept = {name: member for name, member in value.items() if name not in plain.Plan._fields}
    return json.dumps({**kept, "assertions": claims, "version": 1}, sort_keys=True, separators=(",", ":")) + "\n"


def write_manifest(cards):
    full, left = divmod(cards, MOST_BATCH_CARDS)
    write("manifest.csv", "batch,cards\n" + lines(*(f"b{k},{MOST_BATCH_CARDS}" for k in range(full)), *([f"b,{left}"] if left else [])))


def planned_draws(text):
    """The draws of each assertion in the lines of a plan, as version 2 has them."""
    told = [line.rpartition(": ")[2] for line in text.splitlines()[:-1]]
    return [None if each == "full count" else int(each.removesuffix(" draws")) for each in told]


def contest(runs, draws, is_large):
    """A contest with its ballots, searched for some number of cards."""
    n = compare.many_of(draws) if is_large else 2 + draws.below(5)
    ids = [str(11 + c) for c in range(n)]
    rankings = compare.few_strong(draws, n) if is_large else compare.contest_of(draws, n, 5 + draws.below(100))
    compare.write("ballots.raire", ids, rankings)
    cards, words = terms_of(draws, len(rankings))
    status, text, _ = runs.run(["search", "ballots.raire", *words])
    plain_status, found, _ = runs.run(["search", "ballots.raire"])
    if cards < len(rankings):
        return runs.see("too few cards are refused before all else", status == 2, text)
    runs.see("cards change no status", status == plain_status, text)
    if status:
        return runs.see("cards change no other text", text == found, text)
    runs.see("version 1 is what is left without the draws", without_plan(text) == found, text)
    write("found.json", found)
    is_linked = cards <= 2 * MOST_BATCH_CARDS
    whole(runs, draws, text, cards, words[1:], is_linked, is_large)
    changed(runs, draws, text)


def whole(runs, draws, text, cards, terms, is_linked, is_large):
    """Gives what is printed to all commands that read it, and compares with the file of version 1."""
    write("planned.json", text)
    value = json.loads(text)
    runs.see("a check says yes", runs.run(["check", *FILES])[0] == 0, text)
    write_manifest(cards)
    both = [runs.run(["plan", "manifest.csv", name, *terms]) for name in ("planned.json", "found.json")]
    told = [claim["draws"] for claim in value["assertions"]]
    runs.see("a plan says the same draws", both[0] == both[1] and planned_draws(both[0][1]) == told, (both, told))
    runs.see("and of the file's own draws it asks nothing", runs.run(["plan", "manifest.csv", "planned.json"]) == runs.run(["plan", "manifest.csv", "found.json"]))
    if not is_large:
        trimmed(runs)
    if is_linked:
        opened(runs, draws, value["records"])


def trimmed(runs):
    """Both versions are trimmed alike, and what is printed has the version that was read."""
    (status, text, _), (status_1, text_1, _) = (runs.run(["trim", "ballots.raire", name]) for name in ("planned.json", "found.json"))
    runs.see("a trim keeps the version", status == status_1 and (status != 0 or without_plan(text) == text_1), text)
    if status == 0:
        write("trimmed.json", text)
        runs.see("a check accepts it trimmed", runs.run(["check", "ballots.raire", "trimmed.json"])[0] == 0, text)
        runs.see("trimmed again it is the same", runs.run(["trim", "ballots.raire", "trimmed.json"])[1] == text, text)


def opened(runs, draws, records):
    """An audit is opened with either version, and a poll is the same with both."""
    write("manifest.csv", f"batch,cards\nb,{records}\n")
    words = ["--seed=7"] + [f"--limit={1 + draws.below(400_000)}"] * draws.below(2)
    sessions = [runs.run(["open", "ballots.raire", "manifest.csv", name, *words])[1] for name in ("planned.json", "found.json")]
    with open("planned.json", "rb") as file:
        digest = plain_audit.digest(file.read())
    runs.see("it is opened", json.loads(sessions[0])["assertions"] == digest, sessions)
    write("session.json", sessions[0])
    ids = plain.read("ballots.raire").ids
    write("seen.csv", lines(*(",".join([f"b_{k}", "ballot", *([one_of(draws, ids)] if draws.below(3) else [])]) for k in range(1, records + 1))))
    runs.run(["audit", "session.json", "ballots.raire", "manifest.csv", "planned.json", "seen.csv", f"--draws={1 + draws.below(60)}"])
    words.append(f"--draws={1 + draws.below(60)}")
    both = [runs.run(["poll", "manifest.csv", name, "seen.csv", *words]) for name in ("planned.json", "found.json")]
    runs.see("a poll asks for no draws", both[0] == both[1], both)


def changed(runs, draws, text):
    """A check refuses draws that were changed, at the first of them; it also refuses other members if changing them changes the draws."""
    value = json.loads(text)
    claims = value["assertions"]
    for _ in range(3):
        at, later = sorted((draws.below(len(claims)), draws.below(len(claims))))
        had, told = claims[at]["draws"], [dict(claim) for claim in claims]
        for place in (later, at):
            told[place]["draws"] = other_number(draws, claims[place]["draws"])
        write("planned.json", json.dumps({**value, "assertions": told}))
        wanted = 6, f"no: assertion {at + 1} needs " + ("a full count\n" if had is None else f"{had} draws\n"), ""
        runs.see("draws that were changed are told", runs.run(["check", *FILES]) == wanted, told)
        runs.see("and not trimmed", runs.run(["trim", *FILES]) == wanted or len(claims) > 30, told)
    for _ in range(4):
        write("planned.json", json.dumps(one_of(draws, CHANGES)(draws, json.loads(text))))
        runs.run(["check", *FILES])


def other_number(draws, had):
    """Another number of draws, or null."""
    if had is None:
        return 1 + draws.below(MOST_DRAWS)
    return one_of(draws, [None, had - 1 or 2, min(had + 1, MOST_DRAWS - 1) if had < MOST_DRAWS - 1 else 1])


def off_by(name):
    def change(draws, value):
        value[name] += one_of(draws, [-1, 1, 1000, -value[name]])
        return value
    return change


def without(name):
    def change(draws, value):
        one_of(draws, [value, *value["assertions"]]).pop(name, None)
        return value
    return change


def member(name, *values):
    def change(draws, value):
        holder = value if name in value else one_of(draws, value["assertions"])
        holder[name] = one_of(draws, values)
        return value
    return change


CHANGES = [
    off_by("cards"), off_by("limit"), off_by("gamma"), off_by("records"), off_by("margin"), off_by("version"), without("cards"), without("limit"), without("gamma"),
    without("draws"), member("version", 0, 1, 2, 3, "2", None), member("draws", 0, 1, MOST_DRAWS, MOST_DRAWS + 1, None, "1", 1.5, -1, [], 2**32, True),
    member("cards", 0, MOST_RECORDS, MOST_CARDS, MOST_CARDS + 1, 2**32, None, "1", 1.0), member("limit", 0, 1, GREATEST_LIMIT, GREATEST_LIMIT + 1, None, 0.05),
    member("gamma", 0, 1, GREATEST_GAMMA, GREATEST_GAMMA + 1, None, "100"),
]


class Runs(audits.Runs):
    """Runs whose answers must also agree with each other."""

    def see(self, shows, holds, told=""):
        if not holds:
            self.differ([shows], True, told)


def made(job):
    """The runs of `count` contests, made from one number."""
    program, number, count = job
    runs, draws = Runs(program), Draws(number)
    for at in range(count):
        in_folder(contest, runs, draws, at % 20 == 19)
    return runs


def main():
    runs, count = Runs(sys.argv[1]), int(sys.argv[2]) if len(sys.argv) > 2 else 500
    in_folder(by_hand, runs)
    parts = max(1, count // 20)
    with multiprocessing.Pool(min(4, os.cpu_count())) as pool:
        for others in pool.imap(made, [(runs.program, 32 + part, count // parts) for part in range(parts)]):
            runs.failed += others.failed
            runs.statuses += others.statuses
    told = ", ".join(f"{command} {status}: {number}" for (command, status), number in sorted(runs.statuses.items()))
    print(f"{runs.statuses.total()} commands about assertion files with draws ({told}), {runs.failed} aren't as they should be")
    sys.exit(1 if runs.failed else 0)


if __name__ == "__main__":
    main()
