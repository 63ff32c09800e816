#!/usr/bin/env python3
"""Compares what the built program says of all contests of a file on one sample with the plain program, and with itself.

acceptance/contests.py PROGRAM [COUNTIES] first goes through counties that were worked out by hand. Then it makes COUNTIES others (500 by default): 1 to 12
contests of 2 to 5 candidates, now and then one of 21 to 32, on cards that each have some of the contests. Some contests tie, some cards are read otherwise
or are missing, and in half of the counties something is damaged. The status and both texts must agree with plain_contests.py, at any number of workers. If
there is an answer, the program is given each contest by itself, and must print the same block. For one contest a session is opened and audited, which must
have the same counts and risks. With few nodes, a block must also be the same, or say that the budget is spent in the words of a search of that contest.
"""
import collections
import csv
import multiprocessing
import os
import subprocess
import sys

import places  # noqa: F401
import audits
import compare
import plain_audit
import ties
from audits import lines, one_of, write
from draws import Draws
from limits import MOST_CANDIDATES, MOST_CONTESTS

WORKERS = (1, 2, 8)
CALL = ["contests", "ballots.raire", "manifest.csv", "seen.csv"]


# ---- counties by hand

TWO = lines("2", "Contest,7,2,1,2", "Contest,8,2,1,2", "7,b_1,1", "8,b_1,2")
SEEN = lines("b_1,7,ballot,1", "b_1,8,missing")
SEVEN = lines(
    "contest 7", "records 1", "winner 1", "margin 1", "NEB 1 2 margin 1 counts 0 0 5 0 0 risk 0.048282842081079907 confirmed", "signed off yes",
)
EIGHT = lines(
    "contest 8", "records 1", "winner 2", "margin 1", "NEB 2 1 margin 1 counts 5 0 0 0 0 risk 1.000000000000000000 unconfirmed", "signed off no",
)
TIE = lines("contest 8", "tie", "round 1", "tied 1,2", "tally 0", "signed off no")


def row(runs, ballots, seen, wanted, *words, manifest=audits.MANIFEST):
    """The answer for these files, with five draws of seed 2024, at each number of workers."""
    for name, text in (("ballots.raire", ballots), ("manifest.csv", manifest), ("seen.csv", seen)):
        write(name, text)
    for workers in WORKERS:
        runs.row(" ".join([*CALL, "--seed=2024", "--draws=5", f"--workers={workers}", *words]), wanted)


def refused(text):
    return 2, "", f"raire: {text}\n"


def answers(runs):
    row(runs, TWO, SEEN, (10, SEVEN + EIGHT + "all no\n", ""))
    row(runs, TWO.replace("8,b_1,2\n", ""), SEEN, (10, SEVEN + TIE + "all no\n", ""))
    row(runs, TWO.replace("8,b_1,2\n", ""), "b_1,7,ballot,1\n", (10, SEVEN + TIE + "all no\n", ""))
    row(runs, TWO, SEEN.replace("missing", "ballot,2"), (0, SEVEN + EIGHT_YES + "all yes\n", ""))
    row(runs, TWO, SEEN, (10, SEVEN.replace(" confirmed", " unconfirmed").replace("yes", "no") + EIGHT + "all no\n", ""), "--limit=48282")
    row(runs, TWO, SEEN.replace("missing", "ballot,2"), (0, SEVEN + EIGHT_YES + "all yes\n", ""), "--limit=48283")
    backwards = lines("2", "Contest,8,2,1,2", "Contest,7,2,1,2", "7,b_1,1", "8,b_1,2")
    row(runs, backwards, SEEN, (10, EIGHT + SEVEN + "all no\n", ""))
    row(runs, lines("1", "Contest,7,2,1,2", "7,b_1,1"), "b_1,7,ballot,1\n", (0, SEVEN + "all yes\n", ""))
    row(runs, lines("1", "Contest,8,2,1,2"), "", (10, TIE + "all no\n", ""))


EIGHT_YES = SEVEN.replace("contest 7", "contest 8").replace("winner 1", "winner 2").replace("NEB 1 2", "NEB 2 1")
THREE_CARDS = "batch,cards\nb,3\n"


def refusals(runs):
    """Each rule of the seen file with its place, the first of two in one record, and the order in which files are judged."""
    for seen, rule in [
        ("b_1,9,missing\n" + SEEN, "V6 at 1"), (SEEN + "b_1,9,ballot\n", "V6 at 3"), ("b_1,ballot\n", "V1 at 1"), ("b_1\n", "V1 at 1"), ("b_1,7\n", "V1 at 1"),
        ("b_1,7,seen\n", "V1 at 1"), ("b_1,7,missing,1\n", "V1 at 1"), ("b_1,7,missing,,1\n", "V1 at 1"), ("7,b_1,ballot,1\n", "V2 at 1"), ("b_2,7,ballot,1\n", "V2 at 1"),
        (SEEN + SEEN, "V3 at 3"), (SEEN + "b_1,8,ballot,2\n", "V3 at 3"), ("b_1,7,ballot,3\n", "V5 at 1"), (SEEN + "b_2,9,seen,3\n", "V1 at 3"),
        (SEEN + "b_2,9,ballot,3\n", "V2 at 3"), (SEEN + "b_1,9,ballot,3\n", "V6 at 3"), (SEEN + "b_1,7,ballot,3\n", "V3 at 3"), ("b_1,7,ballot,1\nb_1,8,ballot,3\n", "V5 at 2"),
        ("", "V4 card 1 draw 1"), ("b_1,7,ballot,1\n", "V4 card 1 draw 1"), ("b_1,8,ballot,1\n", "V4 card 1 draw 1"),
    ]:
        row(runs, TWO, seen, refused(f"seen.csv: {rule}"))
    for ballots, rule in [
        (TWO.replace("8,b_1,2", "8,b_2,2"), "M7 at 5"), (TWO.replace("8,b_1,2", "8,b_2,2").replace("7,b_1,1", "7,b_01,1"), "M7 at 4"),
        (lines("2", "Contest,7,2,1,2", "Contest,8,2,1,2", "8,x_1,1", "7,b_1,1", "7,x_1,1"), "M7 at 6"),
        (TWO.replace("8,2,1,2", "8,1,1"), "B3 at 3"), (TWO.replace("7,2,1,2", "7,1,1").replace("8,b_1,2", "9,b_1,2"), "B3 at 2"),
        (TWO.replace("Contest,8", "Contest,7"), "B2 at 3"), (TWO.replace("8,b_1,2", "9,b_1,2"), "B7 at 5"), (TWO + "8,b_1,1\n", "B9 at 6"), (TWO + "8,b_2,3\n", "B8 at 6"),
        (TWO.replace("8,2,1,2", f"8,{MOST_CANDIDATES + 1},{','.join(map(str, range(MOST_CANDIDATES + 1)))}"), "B3 at 3"),
        (lines(str(MOST_CONTESTS + 1), *(f"Contest,{k},2,1,2" for k in range(MOST_CONTESTS + 1))), "B1 at 1"), ("", "B1 at 1"), ("2\nContest,7,2,1,2\n", "B2 at 3"),
    ]:
        row(runs, ballots, SEEN, refused(f"ballots.raire: {rule}"))
    far = TWO.replace("8,b_1,2", "8,b_2,2")
    row(runs, far, "b_1,9,missing\n", refused("seen.csv: V6 at 1"))
    row(runs, far, "", refused("ballots.raire: M7 at 5"))
    row(runs, far, "b_1,9,missing\n", refused("manifest.csv: M3 at 2"), manifest="batch,cards\nb,0\n")
    row(runs, far.replace("7,b_1,1", "9,b_1,1"), "", refused("ballots.raire: B7 at 4"), manifest="")
    one = "b_{},7,ballot,1\n".format
    cards = [plain_audit.drawn("2024", k, 3) for k in range(1, 6)]
    last = next(card for card in cards if card != cards[0])
    told = f"seen.csv: V4 card {last} draw {cards.index(last) + 1}"
    row(runs, TWO, "".join(one(card) for card in {*cards} - {last}) + f"b_{last},8,missing\n", refused(told), manifest=THREE_CARDS)


def most_contests(runs):
    """As many contests as there may be, each but the last with a ballot on the one card; the last is tied."""
    heads = [f"Contest,{k},2,1,2" for k in range(MOST_CONTESTS)]
    cast = [f"{k},b_1,{1 + k % 2}" for k in range(MOST_CONTESTS - 1)]
    seen = lines(*(f"b_1,{k},ballot,{1 + k % 2}" for k in range(MOST_CONTESTS - 1)))
    told = [SEVEN if k % 2 == 0 else EIGHT_YES for k in range(MOST_CONTESTS - 1)] + [TIE]
    told = [text.replace(text.splitlines()[0], f"contest {k}", 1) for k, text in enumerate(told)]
    row(runs, lines(str(MOST_CONTESTS), *heads, *cast), seen, (10, "".join(told) + "all no\n", ""))


def words(runs):
    for line in (
        "contests", "contests b m --seed=1 --draws=1", "contests b m s v --seed=1 --draws=1", "contests b m s --seed=1", "contests b m s --draws=1",
        *(f"contests b m s --seed=1 --draws=1 {more}" for more in (
            "--contest=7", "--floor=1", "--cards=1", "--workers=9", "--nodes=0", "--limit=0", "--gamma=501", "--seed=1", "--draws=2",
        )), "contests b m s --seed= --draws=1", "contests b m s --seed=1 --draws=0", "contest b m s --seed=1 --draws=1",
    ):
        runs.row(line, (1, "", "raire: bad words\n"))


# ---- counties that are generated

NAMES = ["7", "8", "210", "Mayor", "City council 3", "signed off yes", "all no", "contest 7", "a=1 b=2", "<i>9</i>", "Sheriff", "W" * 64, "tie", "0007"]
CANDIDATES = ["15", "16", "Lee Ann", "Zoe", "no", "c d", "e=1 f=2"]


class Contest:
    def __init__(self, draws, name):
        self.name = name
        if draws.below(100) == 0:
            self.ids = [str(11 + c) for c in range(compare.many_of(draws))]
            self.rankings = compare.few_strong(draws, len(self.ids))
            return
        first = draws.below(3)
        self.ids = CANDIDATES[first:first + 2 + draws.below(4)]
        self.rankings = audits.rankings_of(draws, self.ids)
        if draws.below(20) == 0:
            self.rankings = one_of(draws, [[], [()] * 3, [(0,), (1,)], [(1, 0), (0, 1), (), ()]])

    def named(self, ranking):
        return [self.ids[c] for c in ranking]


class County:
    """The files of a county."""

    def __init__(self, draws):
        self.draws = draws
        names = list(NAMES)
        self.contests = [Contest(draws, names.pop(draws.below(len(names)))) for _ in range(1 + draws.below(one_of(draws, [2, 12, 12])))]
        batches = [(f"9{k}_{k}", 1 + draws.below(15)) for k in range(1 + draws.below(3))]
        lacking = max(len(each.rankings) for each in self.contests) - sum(size for _, size in batches)
        batches.append(("last", max(1, lacking + draws.below(3))))
        self.cards = [f"{batch}_{k + 1}" for batch, size in batches for k in range(size)]
        self.is_clean = draws.below(2) == 0
        self.cast = {each.name: self.on_cards(each.rankings) for each in self.contests}
        write("manifest.csv", "batch,cards\n" + lines(*(f"{batch},{size}" for batch, size in batches)))
        write("ballots.raire", self.ballots_text())
        write("seen.csv", self.seen_text())

    def on_cards(self, rankings):
        """A card for each ranking; the other cards don't have the contest."""
        free = list(self.cards)
        return {free.pop(self.draws.below(len(free))): ranking for ranking in rankings}

    def ballots_text(self):
        """The records of one card, or those of one contest, are next to each other."""
        of_contests = [[",".join([each.name, card, *each.named(ranking)]) for card, ranking in self.cast[each.name].items()] for each in self.contests]
        rows = [each for rows in of_contests for each in rows]
        if self.draws.below(2):
            rows.sort(key=lambda row: self.cards.index(row.split(",")[1]))
        return lines(len(self.contests), *(",".join(["Contest", each.name, str(len(each.ids)), *each.ids]) for each in self.contests), *rows)

    def seen_text(self):
        """Each card is seen in each contest as it is recorded, but in a county that isn't clean one in eight may differ; now and then one contest is
        omitted."""
        left_out = one_of(self.draws, self.contests) if self.contests[1:] and self.draws.below(6) == 0 else None
        return lines(*(self.seen_of(card, each) for card in self.cards for each in self.contests if each is not left_out))

    def seen_of(self, card, contest):
        ranking = self.cast[contest.name].get(card, ())
        if not self.is_clean and contest.rankings and self.draws.below(8) == 0:
            ranking = one_of(self.draws, contest.rankings)
        if not self.is_clean and self.draws.below(16) == 0:
            return f"{card},{contest.name},missing"
        return ",".join([card, contest.name, "ballot", *contest.named(ranking)])


def rows_of(name):
    with open(name) as file:
        return file.read().splitlines()


def damage_seen(draws):
    rows = rows_of("seen.csv")
    at = draws.below(max(1, len(rows)))
    card, contest, *_ = (rows[at:at + 1] or ["b_1,7,ballot"])[0].split(",")
    rows[at:at + 1] = one_of(draws, [
        [], [], [rows[at], rows[at]] if rows else [], [f"{card},{contest}"], [f"{card},ballot"], [card], [f"{card},{contest},missing,15"], [f"{card},{contest},ballot,99"],
        [f"{card},{contest},missing,,"], ["none_1," + contest + ",missing"], [f"{card},none,missing"], [f"{card},none,ballot,15"], [f"{card},{contest},missing"],
        [f"{card},{contest},ballot"], [f"{card},{contest},ballot,16"], [f" {card} ,\t{contest} ,ballot,,16,16"], [f"{contest},{card},ballot"], ["none_1,none,seen"],
    ])
    write("seen.csv", lines(*rows))


def damage_ballots(draws):
    """A ballot of no card, in one contest or two; a ballot that is there twice; a head with one candidate."""
    rows = rows_of("ballots.raire")
    first = int(rows[0]) + 1
    for _ in range(1 + draws.below(2)):
        at = first + draws.below(max(1, len(rows) - first))
        name, card, *ranking = (rows[at:at + 1] or ["7,b_1"])[0].split(",")
        rows[at:at + 1] = one_of(draws, [
            [",".join([name, "none_1", *ranking])], [",".join([name, card + "0000", *ranking])], [",".join([name, card, *ranking])] * 2, [f"none,{card}"],
            [f"{name},{card},none"], [], [name],
        ])
    if draws.below(6) == 0:
        head = rows[1].split(",")
        rows[1] = ",".join([*head[:2], "1", *head[3:]])
    write("ballots.raire", lines(*rows))


DAMAGES = [damage_seen] * 4 + [damage_ballots] * 3 + [audits.damage_bytes(name) for name in ("ballots.raire", "manifest.csv", "seen.csv")]


def options_of(draws):
    """A seed, a number of draws, and now and then a limit and a gamma."""
    words = ["--seed", one_of(draws, ["2024", 'a "seed"', "a, b\\c"]), "--draws", str(1 + draws.below(one_of(draws, [5, 100, 400])))]
    if draws.below(2):
        words += ["--limit", str(1 + draws.below(900_000))]
    return words + (["--gamma", str(1 + draws.below(500))] if draws.below(2) else [])


def blocks_of(text):
    """The blocks of an answer, and its last line."""
    *told, last = text.splitlines(keepends=True)
    blocks, block = [], ""
    for line in told:
        block += line
        if line.startswith("signed off "):
            blocks.append(block)
            block = ""
    return blocks, last


def county(runs, draws):
    made = County(draws)
    if draws.below(2):
        one_of(draws, DAMAGES)(draws)
    options = options_of(draws)
    answer = runs.run([*CALL, *options])
    for workers in WORKERS:
        if "contests" in runs.commands and ran(runs, *CALL, *options, f"--workers={workers}") != answer:
            runs.differ(CALL + options, answer, f"otherwise with {workers} workers")
    if answer[0] not in (0, 10) or "contests" not in runs.commands:
        return
    blocks, _ = blocks_of(answer[1])
    contests = plain_audit.contests_of(bytes_of("ballots.raire"))
    for contest, block in zip(contests, blocks, strict=True):
        alone(runs, contest, block, options)
    at = draws.below(len(contests))
    by_session(runs, contests[at], blocks[at], options)
    few_nodes(runs, contests, blocks, options, 1 + draws.below(4))
    runs.statuses["contests", "of them cards without a contest"] += any(len(cast) < len(made.cards) for cast in made.cast.values())
    runs.statuses["contests", "of them with a tie"] += any("\ntie\n" in block for block in blocks)


def ran(runs, *words):
    done = subprocess.run([runs.program, *words], capture_output=True, text=True)
    return done.returncode, done.stdout, done.stderr


def bytes_of(name):
    with open(name, "rb") as file:
        return file.read()


def records_in(name):
    return plain_audit.records_of(bytes_of(name))


def put(name, rows):
    with open(name, "w", encoding="latin-1", newline="") as file:
        csv.writer(file, lineterminator="\n").writerows(rows)


def put_alone(contest):
    """Writes the ballot file and the seen file without the records of other contests, and the seen cards without the contest's id."""
    count, *rows = records_in("ballots.raire")
    heads, cast = rows[:int(count[0])], rows[int(count[0]):]
    put("alone.raire", [["1"], *(row for row in heads if row[1] == contest.name), *(row for row in cast if row[0] == contest.name)])
    seen = [row for row in records_in("seen.csv") if row[1] == contest.name]
    put("alone.csv", seen)
    put("cards.csv", [row[:1] + row[2:] for row in seen])


def alone(runs, contest, block, options):
    """The contest by itself has the same block."""
    put_alone(contest)
    words = ["contests", "alone.raire", "manifest.csv", "alone.csv", *options]
    is_signed_off = block.endswith("signed off yes\n")
    wanted = 0 if is_signed_off else 10, block + f"all {'yes' if is_signed_off else 'no'}\n", ""
    got = ran(runs, *words)
    if got != wanted:
        runs.differ(words, wanted, got)


def by_session(runs, contest, block, options):
    """A session of the contest, audited in a round with the same number of draws, has the claims' margins, counts and risks, and the same sign-off."""
    put_alone(contest)
    seed, draws, limits = options[:2], options[2:4], options[4:]
    status, text, _ = ran(runs, "search", "alone.raire")
    if status == 3:
        if text not in block or "signed off no" not in block:
            runs.differ(["search", contest.name], text, block)
        return
    write("alone.json", text)
    write("session.json", ran(runs, "open", "alone.raire", "manifest.csv", "alone.json", *seed, *limits)[1])
    status, text, err = ran(runs, "audit", "session.json", "alone.raire", "manifest.csv", "alone.json", "cards.csv", *draws)
    write("session.json", text)
    report = ran(runs, "report", "session.json")[1].splitlines()
    wanted = [line.split(" margin ")[1] for line in report if line.startswith("assertion ")] + report[-1:]
    got = [line.rpartition(" margin ")[2] for line in block.splitlines() if line.startswith("NE")] + block.splitlines()[-1:]
    if got != wanted or (status == 0) != block.endswith("yes\n"):
        runs.differ(["audit", contest.name], wanted, f"{got} {err}")


def few_nodes(runs, contests, blocks, options, nodes):
    """With few nodes a block is the same, or says that its search is spent, as a search of the contest by one worker does."""
    words = [*CALL, *options, f"--nodes={nodes}"]
    status, text, err = ran(runs, *words)
    got, last = blocks_of(text) if text else ([], "")
    if len(got) != len(blocks) or err or (status == 0) != (last == "all yes\n") or (status == 0) != all(block.endswith("yes\n") for block in got):
        return runs.differ(words, blocks, (status, text, err))
    for contest, block, whole in zip(contests, got, blocks):
        lines_of = block.splitlines(keepends=True)
        told = 4, "".join(lines_of[1:-1]), ""
        runs.statuses["contests", "blocks that are spent"] += block != whole
        if block != whole and not (lines_of[0] == whole.splitlines(keepends=True)[0] and lines_of[-1] == "signed off no\n" and ties.is_spent(contest, told)):
            runs.differ(words, whole, block)
        elif block != whole and ran(runs, "search", "ballots.raire", f"--contest={contest.name}", f"--nodes={nodes}", "--workers=1") != told:
            runs.differ(words, "what a search by one worker tells", block)


def made_counties(job):
    program, number, count = job
    runs, draws = audits.Runs(program), Draws(number)
    for _ in range(count):
        audits.in_folder(county, runs, draws)
    return runs


def main():
    count = int(sys.argv[2]) if len(sys.argv) > 2 else 500
    runs = audits.Runs(sys.argv[1])
    for make in (answers, refusals, most_contests, words):
        audits.in_folder(make, runs)
    parts, told = max(1, count // 25), collections.Counter()
    with multiprocessing.Pool(min(4, os.cpu_count())) as pool:
        for others in pool.imap(made_counties, [(runs.program, 64 + part, count // parts) for part in range(parts)]):
            runs.failed += others.failed
            told += others.statuses
    shown = ", ".join(f"{status}: {number}" for (command, status), number in sorted(told.items(), key=str) if command == "contests")
    compared = "" if "contests" in runs.commands else "; the program has no contests, so none was compared"
    print(f"{sum(n for (_, status), n in told.items() if type(status) is int)} counties ({shown}), {runs.failed} aren't as they should be{compared}")
    sys.exit(1 if runs.failed else 0)


if __name__ == "__main__":
    main()
