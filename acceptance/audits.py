#!/usr/bin/env python3
"""Whole audits, from the search to the report, compared with plain_audit.py.

acceptance/audits.py PROGRAM [AUDITS] first goes through audits that were worked out by hand. Then it makes AUDITS others (1,000 by default): a contest of 2
to 5 candidates, now and then one of 21 to 32 with few strong ones, in some files together with another contest; assertions with draws or without; a
manifest with cards that have no ballot; and what was seen of the cards, now and then another ranking or no card. In most audits something is damaged.
plain_audit.py runs each command of an audit, and so does the program if it has the command. The status and both texts must agree. The last line says how
many commands were run, and how many of them disagreed.
"""
import collections
import json
import multiprocessing
import os
import subprocess
import sys
import tempfile

import places  # noqa: F401
import compare
import plain
import plain_audit
from draws import Draws
from limits import GREATEST_GAMMA, GREATEST_LIMIT, MOST_CANDIDATES, MOST_CARDS, MOST_DRAWS, MOST_NODES, MOST_NUMBER, MOST_RECORDS, MOST_SEED_BYTES, MOST_WORKERS

UNIT = plain_audit.UNIT


class Runs:
    """Runs lines of words in a folder, and counts the results."""

    def __init__(self, program):
        self.program, self.failed, self.statuses = os.path.abspath(program), 0, collections.Counter()
        self.commands = {name for name in plain_audit.COMMANDS if self.knows(name)}

    def knows(self, name):
        """Whether the program has this command: a line of it with missing files and with values given isn't bad words."""
        _, files, must, _ = plain_audit.COMMANDS[name]
        words = [name, *["no_such_file"] * files, *[f"--{option}=1" for option in must.split()]]
        return subprocess.run([self.program, *words], capture_output=True).returncode != 1

    def run(self, words):
        """What the plain program answers; the built one must agree."""
        wanted = plain_audit.run(words)
        self.statuses[words[0], wanted[0]] += 1
        if words[0] in self.commands:
            ran = subprocess.run([self.program, *words], capture_output=True, text=True)
            got = ran.returncode, ran.stdout, ran.stderr
            if got != wanted:
                self.differ(words, wanted, got)
        return wanted

    def differ(self, words, wanted, got):
        self.failed += 1
        print(f"{' '.join(words)} in {os.getcwd()}: wanted {wanted}, got {got}")
        for name in sorted(os.listdir(".")):
            with open(name, "rb") as file:
                print(f"  {name}: {file.read()[:2000]}")

    def row(self, words, wanted):
        """Runs a command whose answer was worked out by hand."""
        got = self.run(words.split())
        if got != wanted:
            self.differ(words.split(), wanted, got)


def write(name, text):
    with open(name, "w") as file:
        file.write(text)


# ---- audits by hand

def lines(*texts):
    return "".join(f"{text}\n" for text in texts)


BALLOTS, MANIFEST, SEEN = "1\nContest,7,2,1,2\n7,b_1,1\n", "batch,cards\nb,1\n", "b_1,ballot,1\n"
FIRST = {"counts": [[0, 0, 4, 0, 0]], "draws": 4, "risks": [88518543815313162]}
SECOND = {"counts": [[0, 0, 5, 0, 0]], "draws": 5, "risks": [48282842081079907]}
AUDIT = "audit session.json ballots.raire manifest.csv assertions.json seen.csv --draws"


def session_with(rounds, is_signed_off):
    digests = {
        name: plain_audit.digest(text.encode())
        for name, text in {"ballots": BALLOTS, "manifest": MANIFEST, "assertions": ASSERTIONS}.items()
    }
    return plain_audit.session_text({
        **digests, "cards": 1, "contest": "7", "gamma": 100, "limit": 50_000, "margins": [1], "rounds": rounds,
        "seed": "2024", "signed_off": is_signed_off, "version": 1,
    })


ASSERTIONS = (
    '{"assertions":[{"kind":"NEB","loser":"2","margin":1,"winner":"1"}],"candidates":["1","2"],"contest":"7","margin":1,'
    '"order":["1","2"],"records":1,"version":1,"winner":"1"}\n'
)


def one_card(runs):
    """The audit of one card, round by round, and what is refused in it."""
    write("ballots.raire", BALLOTS)
    write("manifest.csv", MANIFEST)
    write("seen.csv", SEEN)
    for workers in ("", " --workers 1", " --workers=2", " --workers 008"):
        runs.row(f"search ballots.raire{workers}", (0, ASSERTIONS, ""))
    write("assertions.json", ASSERTIONS)
    opening = "open ballots.raire manifest.csv assertions.json --seed 2024"
    runs.row(opening, (0, session_with([], False), ""))
    write("session.json", session_with([], False))
    runs.row(f"{AUDIT} 4", (10, session_with([FIRST], False), ""))
    write("seen.csv", "b_1,missing\n")
    missing = {"counts": [[5, 0, 0, 0, 0]], "draws": 5, "risks": [UNIT]}
    runs.row(f"{AUDIT} 5", (10, session_with([missing], False), ""))
    write("seen.csv", "")
    runs.row(f"{AUDIT} 5", (2, "", "raire: seen.csv: V4 card 1 draw 1\n"))
    write("session.json", session_with([FIRST], False))
    write("seen.csv", "b_1,missing\n")
    told = "raire: session.json: S3 round 1 claim 1 expected 0 0 4 0 0 found 4 0 0 0 0\n"
    runs.row(f"{AUDIT} 5", (2, "", told))
    write("seen.csv", SEEN)
    runs.row(f"{AUDIT} 5", (0, session_with([FIRST, SECOND], True), ""))
    write("session.json", session_with([FIRST, SECOND], True))
    runs.row(f"{AUDIT} 5", (2, "", "raire: session.json: S4 had 5\n"))
    runs.row("report session.json", (0, lines(
        "contest 7", "cards 1", "limit 50000", "gamma 100", "seed 2024", "round 1 draws 4",
        "assertion 1 margin 1 counts 0 0 4 0 0 risk 0.088518543815313162 unconfirmed", "round 2 draws 5",
        "assertion 1 margin 1 counts 0 0 5 0 0 risk 0.048282842081079907 confirmed", "signed off yes",
    ), ""))
    write("session.json", session_with([FIRST, SECOND], False))
    runs.row("report session.json", (2, "", "raire: session.json: S1\n"))
    changed = BALLOTS.replace("7,b_1,1", "7,b_1,2")
    digests = [plain_audit.digest(text.encode()) for text in (BALLOTS, changed)]
    write("session.json", session_with([], False))
    write("ballots.raire", changed)
    runs.row(f"{AUDIT} 4", (2, "", "raire: ballots.raire: S2 expected {} found {}\n".format(*digests)))
    for card in ("b_2", "b_01"):
        write("ballots.raire", BALLOTS.replace("b_1", card))
        runs.row(opening, (2, "", "raire: ballots.raire: M7 at 3\n"))


def tables(runs):
    """Samples, plans and a trial."""
    write("manifest.csv", MANIFEST)
    runs.row("sample manifest.csv --seed 2024 --draws 3", (0, "1,1,b_1\n2,1,b_1\n3,1,b_1\n", ""))
    write("manifest.csv", "batch,cards\nb,1000\n")
    file = {
        "assertions": [{"kind": "NEB", "loser": "B", "margin": 100, "winner": "A"}], "candidates": ["A", "B"], "contest": "c",
        "margin": 100, "order": ["A", "B"], "records": 1000, "version": 1, "winner": "A",
    }
    write("assertions.json", json.dumps(file))
    runs.row("plan manifest.csv assertions.json", (0, "NEB A B margin 100: 70 draws\nall: 70 draws\n", ""))
    write("assertions.json", json.dumps({**file, "records": 1001}))
    runs.row("plan manifest.csv assertions.json", (2, "", "raire: assertions.json: F7 at 0\n"))
    write("assertions.json", json.dumps({**file, "assertions": []}))
    runs.row("plan manifest.csv assertions.json", (0, "all: 0 draws\n", ""))
    write("manifest.csv", "batch,cards\nb,12\n")
    file = {**file, "records": 12, "margin": 1, "assertions": [{**file["assertions"][0], "margin": 1}]}
    write("assertions.json", json.dumps(file))
    runs.row("plan manifest.csv assertions.json", (0, "NEB A B margin 1: full count\nall: full count\n", ""))
    told = lines("number 0", "candidates 2", "records 1", "winner 1", "margin 1", "assertions 1", "order 1,2")
    runs.row("trial --number 0 --candidates 2 --ballots 1", (0, told, ""))


def trials(runs):
    """Trials of 2 to 6 candidates: decided or not, by any number of workers."""
    draws = Draws(2026)
    for _ in range(100):
        number, n, ballots, workers = (low + draws.below(count) for low, count in [(0, MOST_NUMBER + 1), (2, 5), (1, 400), (1, MOST_WORKERS)])
        runs.run(["trial", f"--number={number}", f"--candidates={n}", f"--ballots={ballots}", f"--workers={workers}"])
    for workers in (1, 4, MOST_WORKERS):
        runs.run(["trial", "--number", "7", "--workers", str(workers)])


def manifests(runs):
    for text, rule in [
        ("batch,count\nb,1\n", "M1 at 1"), ("batch,cards\nb,0\n", "M3 at 2"), ("batch,cards\n", "M6 at 1"),
        ("batch,cards\nb,1\nb,1\n", "M4 at 3"), ("batch,cards\nb,1,\n", "M2 at 2"), ("", "M1 at 1"),
        ("batch,cards\n" + "".join(f"b{k},1000000\n" for k in range(11)), "M5 at 12"),
    ]:
        write("manifest.csv", text)
        runs.row("sample manifest.csv --seed 1 --draws 1", (2, "", f"raire: manifest.csv: {rule}\n"))


def county(runs):
    """A sample of many draws over thousands of batches."""
    draws = Draws(4000)
    write("manifest.csv", "batch,cards\n" + lines(*(f"{99813 + k}_{k % 7},{1 + draws.below(500)}" for k in range(4000))))
    for number in (10_000, MOST_DRAWS):
        status, text, _ = runs.run(["sample", "manifest.csv", "--seed=2024", f"--draws={number}"])
        if status != 0 or text.count("\n") != number:
            runs.differ(["sample"], f"{number} lines", text[:1000])


POLL_WORDS = ["poll", "manifest.csv", "a.json", "s.csv"]


def words(runs):
    """Lines whose seeds, draws and the like are out of range, or that lack what must be given."""
    for line in [
        ["sample", "manifest.csv", "--draws", "1"], ["sample", "manifest.csv", "--seed", "1"],
        ["sample", "manifest.csv", "--seed", "", "--draws", "1"], ["sample", "manifest.csv", "--seed", "x" * (MOST_SEED_BYTES + 1), "--draws", "1"],
        ["sample", "manifest.csv", "--seed", "\u00e9", "--draws", "1"], ["sample", "manifest.csv", "--seed", "1", "--draws", "0"],
        ["sample", "manifest.csv", "--seed", "1", f"--draws={MOST_DRAWS + 1}"], ["trial"], ["trial", f"--number={MOST_NUMBER + 1}"],
        ["trial", "--number", "0", "--candidates", "1"], ["trial", "--number", "0", f"--candidates={MOST_CANDIDATES + 1}"],
        ["trial", "--number", "0", "--ballots", "0"], ["trial", "--number", "0", f"--ballots={MOST_RECORDS + 1}"],
        ["plan", "manifest.csv", "a.json", "--limit", "0"], ["plan", "manifest.csv", "a.json", f"--limit={GREATEST_LIMIT + 1}"],
        ["plan", "manifest.csv", "a.json", f"--gamma={GREATEST_GAMMA + 1}"], ["plan", "manifest.csv"], ["report"], ["report", "a", "b"],
        ["search", "a.raire", "--workers", "0"], ["search", "a.raire", f"--workers={MOST_WORKERS + 1}"], ["search", "a.raire", "--workers"],
        *(["search", "a.raire", *more] for more in [
            ["--limit=1"], ["--gamma=1"], ["--cards=0"], [f"--cards={MOST_CARDS + 1}"], ["--cards=9", "--limit=0"], ["--cards=9", f"--gamma={GREATEST_GAMMA + 1}"],
        ]),
        ["search", "a.raire", "--workers=2", "--workers=2"], ["search", "--workers", "a.raire"], ["check", "a.raire", "a.json", "--workers=1"],
        *([*POLL_WORDS, *more] for more in [
            ["--seed=1"], ["--draws=1"], ["--seed=1", f"--draws={MOST_DRAWS + 1}"], *(["--seed=1", "--draws=1", word] for word in [
                "a word too many", "--limit=0", f"--limit={GREATEST_LIMIT + 1}", f"--gamma={GREATEST_GAMMA + 1}", f"--nodes={MOST_NODES + 1}", "--contest=9",
            ]),
        ]),
    ]:
        if runs.run(line)[0] != 1:
            runs.differ(line, 1, plain_audit.run(line))


# ---- audits that are generated

def one_of(draws, choices):
    return choices[draws.below(len(choices))]


def rankings_of(draws, ids):
    """Ballots; few of these contests leave open who has won."""
    while True:
        rankings = compare.contest_of(draws, len(ids), 4 + draws.below(24))
        try:
            plain.decided(plain.Contest("9", ids, rankings))
            return rankings
        except plain.Tie:
            if draws.below(20) == 0:
                return rankings


class Made:
    """The files of an audit."""

    def __init__(self, draws, may_have_two=False, may_be_many=False):
        is_many = may_be_many and draws.below(40) == 0
        self.draws, n = draws, compare.many_of(draws) if is_many else 2 + draws.below(4)
        self.ids = [str(15 + c) for c in range(n)]
        self.rankings = compare.few_strong(draws, n) if is_many else rankings_of(draws, self.ids)
        self.has_two = may_have_two and draws.below(4) == 0
        batches = [(f"9{k}_{k}", 1 + draws.below(15)) for k in range(1 + draws.below(3))]
        lacking = len(self.rankings) - sum(size for _, size in batches)
        batches.append(("last", max(1, lacking + draws.below(3))))
        self.cards = [f"{batch}_{k + 1}" for batch, size in batches for k in range(size)]
        free = list(self.cards)
        self.ballots = {free.pop(draws.below(len(free))): ranking for ranking in self.rankings}
        self.is_clean = draws.below(2) == 0
        write("manifest.csv", "batch,cards\n" + lines(*(f"{batch},{size}" for batch, size in batches)))
        write("ballots.raire", self.ballots_text())
        write("seen.csv", self.seen_text())

    def ballots_text(self):
        rows = [",".join(["9", card, *(self.ids[c] for c in ranking)]) for card, ranking in self.ballots.items()]
        head = [",".join(["Contest", "9", str(len(self.ids)), *self.ids])]
        if self.has_two:
            head.insert(self.draws.below(2), "Contest,8,2,yes,no")
            others = [f"8,{card},{one_of(self.draws, ['yes', 'no', ''])}" for card in self.cards if self.draws.below(3)]
            rows = rows + others if self.draws.below(2) else others + rows
        return lines(len(head), *head, *rows)

    def contest_words(self):
        """The words that name the contest; one in ten files with two contests gets none."""
        return ["--contest=9"] if self.has_two and self.draws.below(10) else []

    def seen_text(self):
        """All cards are seen as they are recorded, except that one in eight may differ in an audit that isn't clean."""
        rows = []
        for card in self.cards:
            ranking = self.ballots.get(card, ())
            if not self.is_clean and self.draws.below(8) == 0:
                ranking = one_of(self.draws, self.rankings)
            is_missing = not self.is_clean and self.draws.below(16) == 0
            rows.append(f"{card},missing" if is_missing else ",".join([card, "ballot", *(self.ids[c] for c in ranking)]))
        return lines(*rows)


def changed_session(draws, session):
    """The session with one thing in it changed."""
    numbers = ["cards", "gamma", "limit", "version"]
    choice = draws.below(9)
    if choice == 0:
        session[one_of(draws, numbers)] += 1
    elif choice == 1:
        name = one_of(draws, ["ballots", "manifest", "assertions"])
        session[name] = one_of(draws, [session[name][1:] + "0", session[name].upper(), session[name] + "0", 7])
    elif choice == 2:
        session["signed_off"] = not session["signed_off"]
    elif choice == 3:
        session["margins"] = one_of(draws, [[], session["margins"] + [1], [0] * len(session["margins"]), [1] * len(session["margins"])])
    elif choice == 4:
        session["seed"] = one_of(draws, ["", "2025", "x" * 65, "\u00e9"])
    elif choice == 5:
        session["contest"] = one_of(draws, ["8", "9 ", ""])
    elif choice == 6:
        session.pop(one_of(draws, sorted(session)))
    elif choice == 7:
        session["note"] = one_of(draws, [1, [], "more"])
    elif session["rounds"]:
        done = one_of(draws, session["rounds"])
        counts = one_of(draws, done["counts"])
        change = draws.below(4)
        if change == 0:
            done["risks"][0] += one_of(draws, [-1, 1])
        elif change == 1:
            counts[0], counts[2] = counts[2], counts[0]
        elif change == 2:
            done["draws"] += 1
        else:
            counts.pop()
    return session


def damage_session(draws):
    with open("session.json") as file:
        session = json.load(file)
    write("session.json", json.dumps(changed_session(draws, session)))


def damage_bytes(name):
    def damage(draws):
        with open(name, "rb") as file:
            data = bytearray(file.read())
        at = draws.below(len(data))
        data[at:at + 1] = one_of(draws, [b"", bytes([data[at] ^ 1]), b",", b"\n", b'"', b"1", b"\xff"])
        with open(name, "wb") as file:
            file.write(data)
    return damage


def damage_seen(draws):
    with open("seen.csv") as file:
        rows = file.read().splitlines()
    at = draws.below(len(rows))
    card = rows[at].split(",")[0]
    rows[at:at + 1] = one_of(draws, [
        [], [], [], [rows[at], rows[at]], [f"{card},{card}"], [card], [f"{card},missing,15"], [f"{card},ballot,15,99"], [f"{card},missing,,"],
        ["none_1,missing"], [f"{card},missing"], [f"{card},missing"], [f"{card},ballot"], [f"{card},ballot,16"], [f" {card} ,ballot,,16,16"],
    ])
    write("seen.csv", lines(*rows))


def damage_assertions(draws):
    """Removes an assertion, or changes a margin or draws."""
    with open("assertions.json") as file:
        published = json.load(file)
    claim = one_of(draws, published["assertions"])
    if draws.below(2):
        published["assertions"].remove(claim)
    elif "draws" in claim and draws.below(2):
        claim["draws"] = one_of(draws, [None, 1, (claim["draws"] or 0) + 1])
    else:
        one_of(draws, [published, claim])["margin"] += 1
    write("assertions.json", json.dumps(published))


# each with the file that it damages
DAMAGES = [("session.json", damage_session)] * 3 + [("seen.csv", damage_seen)] * 3 + [("assertions.json", damage_assertions)] * 2 + [
    (name, damage_bytes(name))
    for name in ("ballots.raire", "manifest.csv", "assertions.json", "session.json", "seen.csv")
]


def audit(runs, draws):
    """Runs one audit; the damage comes before one of its commands."""
    contest = Made(draws, may_have_two=True, may_be_many=True).contest_words()
    seed = one_of(draws, ["2024", 'a "seed"', "a, b\\c"])
    options = ["--gamma", str(1 + draws.below(500))] if draws.below(3) == 0 else []
    limits = options + (["--limit", str(1 + draws.below(400_000))] if draws.below(2) else [])
    budget = [f"--sets={1 + draws.below(one_of(draws, [4, 40, 5000]))}"] if draws.below(3) == 0 else []
    at = draws.below(8)

    def step(number, *words):
        if number == at:
            one_of(draws, [damage for name, damage in DAMAGES if os.path.exists(name)])(draws)
        return runs.run(list(words))

    planned = [f"--cards={20 + draws.below(one_of(draws, [20, 2000]))}", *limits] if draws.below(3) == 0 else []
    status, text, _ = runs.run(["search", "ballots.raire", *contest, *planned, *(budget if draws.below(2) else [])])
    if status != 0:
        return
    write("assertions.json", text)
    step(0, "check", "ballots.raire", "assertions.json", *contest, *budget)
    step(1, "plan", "manifest.csv", "assertions.json", *limits)
    status, text, _ = step(2, "open", "ballots.raire", "manifest.csv", "assertions.json", "--seed", seed, *contest, *limits, *budget)
    if status != 0:
        return
    write("session.json", text)
    step(-1, "sample", "manifest.csv", "--seed", seed, "--draws", str(1 + draws.below(40)))
    files, had = ["session.json", "ballots.raire", "manifest.csv", "assertions.json", "seen.csv"], 0
    for number in range(3, 7):
        had += 1 + draws.below(12 if number < 5 else 60) - (draws.below(10) == 0)
        status, text, _ = step(number, "audit", *files, "--draws", str(max(had, 1)), *budget)
        if status in (0, 10):
            write("session.json", text)
    step(7, "report", "session.json")


def in_folder(make, *given):
    """Makes something in a folder of its own."""
    here = os.getcwd()
    with tempfile.TemporaryDirectory() as folder:
        os.chdir(folder)
        make(*given)
        os.chdir(here)


def made(job):
    """The runs of `count` audits, made from one number."""
    program, number, count = job
    runs, draws = Runs(program), Draws(number)
    for _ in range(count):
        in_folder(audit, runs, draws)
    return runs


def main():
    runs, count = Runs(sys.argv[1]), int(sys.argv[2]) if len(sys.argv) > 2 else 1000
    for make in (one_card, tables, trials, manifests, county, words):
        in_folder(make, runs)
    parts = max(1, count // 50)
    with multiprocessing.Pool(min(4, os.cpu_count())) as pool:
        for others in pool.imap(made, [(runs.program, 22 + part, count // parts) for part in range(parts)]):
            runs.failed += others.failed
            runs.statuses += others.statuses
    told = ", ".join(f"{command} {status}: {number}" for (command, status), number in sorted(runs.statuses.items()))
    commands = " ".join(name for name in plain_audit.COMMANDS if name in runs.commands)
    print(f"{sum(runs.statuses.values())} commands of {count} audits ({told}), {runs.failed} aren't as they should be; compared: {commands}")
    sys.exit(1 if runs.failed else 0)


if __name__ == "__main__":
    main()
