#!/usr/bin/python3
"""Tries ./raire convert on exports made by hand and random ones, in each form, against a plain count of them, and on bad or damaged exports.

acceptance/convert.py PROGRAM [COUNT] takes the exports of examples/exports, and COUNT random exports of each form (acceptance/made_exports.py). It converts
each one, reads the ballot file back, and compares who is ranked on each card with a plain count of the export (acceptance/plain_export.py). It compares
what PROGRAM tabulates with the tabulation of that count. The last line says how many came out as they should.
"""
import csv
import io
import itertools
import json
import os
import random
import subprocess
import sys
import tempfile
import traceback

TOP = os.path.dirname(os.path.dirname(os.path.abspath(__file__)))
sys.dont_write_bytecode = True
sys.path.insert(0, os.path.join(TOP, "tools", "office"))

import places  # noqa: E402, F401
try:
    import convert  # the one in office/
except ImportError as missing:
    print(f"acceptance/convert.py: NOT TRIED: {missing}; apt-get install python3-ijson python3-openpyxl")
    sys.exit(1)

import bad_exports  # noqa: E402
import made_exports  # noqa: E402
import plain  # noqa: E402
import plain_audit  # noqa: E402
import plain_export  # noqa: E402

EXPORTS = os.path.join(TOP, "examples", "exports")
RULES = {"overvotes": ["end", "pass"], "skips": ["pass", "one", "two"], "repeats": ["pass", "end"], "write_ins": ["merge", "drop"]}
TAKES_MARKS = ("dominion", "nist")


def called(words):
    """The status, output and error output of a call, made in this process."""
    out, err = io.TextIOWrapper(io.BytesIO(), newline=""), io.StringIO()
    was = sys.stdout, sys.stderr
    sys.stdout, sys.stderr = out, err
    try:
        status = convert.main(words)
        out.flush()
        return status, out.buffer.getvalue(), err.getvalue()
    finally:
        sys.stdout, sys.stderr = was


def rows_of(path):
    with open(path, newline="") as file:
        return list(csv.DictReader(file))


class Conversion:
    """An export, converted, and the plain count of it."""

    is_by_hand = False

    def __init__(self, form, paths, words, folder):
        self.form, self.paths, self.words = form, paths, words
        given = dict(zip(words[::2], words[1::2]))
        self.rules = {name: given[f"--{name.replace('_', '-')}"] for name in [*RULES, "marks"] if f"--{name.replace('_', '-')}" in given}
        self.made_of = next((given[name].split(",") for name in ("--id", "--batch") if name in given), None)
        self.names_path, self.account_path = os.path.join(folder, "names.csv"), os.path.join(folder, "account.txt")
        self.ballots = os.path.join(folder, "ballots.raire")
        self.status, self.data, self.err = called([form, *paths, *words, "--names", self.names_path, "--account", self.account_path])

    def compare(self, program):
        """What differs from the plain count, or None."""
        if self.status:
            return None if "no candidates" in self.err and self.ranks_nobody() else f"status {self.status}: {self.err}"
        with open(self.ballots, "wb") as file:
            file.write(self.data)
        with open(self.account_path) as file:
            if file.read() != self.err:
                return "the account isn't the same on both ways"
        counted = {key: contest for key, contest in self.counted().items() if contest.cards and self.candidates_of(contest) and self.is_asked(key)}
        contests = plain_audit.contest_records(plain_audit.records_of(self.data))
        if len(contests) != len(counted):
            return f"contests {list(contests)} of {list(counted)}"
        return next(filter(None, (self.compare_contest(program, name, ids, *pair) for (name, (ids, _)), pair in zip(contests.items(), counted.items()))), None)

    def counted(self):
        return plain_export.counted(self.form, self.paths, self.rules, self.made_of)

    def candidates_of(self, contest):
        drops = self.rules.get("write_ins") == "drop"
        return [name for name in contest.names.values() if not (drops and name == plain_export.WRITE_IN)]

    def ranks_nobody(self):
        return not any(self.candidates_of(contest) for contest in self.counted().values())

    def is_asked(self, key):
        """Generated exports also have contests that aren't ranked, which are omitted; of exports made by hand, all contests in the ballot file are
        compared."""
        return key not in ("900", "_other") and (not self.is_by_hand or "--title" in self.words or f"\nContest,{key},".encode() in self.data)

    def compare_contest(self, program, name, ids, key, counted):
        if plain.is_id(key) and name != key and "--title" not in self.words:
            return f"contest {key} became {name}"
        ids_of = self.ids_of(name, counted)
        if set(ids_of.values()) != set(ids) and not self.is_by_hand:
            return f"candidates {ids} of {counted.names}"
        wanted = {card: tuple(ids_of[each] for each in ranking) for card, ranking in counted.cards.items()}
        if len(ids) < 2:
            return None
        ballots = plain_audit.ballots_of(self.data, name)
        got = {card: tuple(ids[each] for each in ranking) for card, _, ranking in ballots.cast}
        if got != wanted:
            card = next(card for card in [*wanted, *got] if got.get(card) != wanted.get(card))
            return f"card {card}: {got.get(card)}, and the plain count has {wanted.get(card)}"
        contest = plain.Contest(name, ids, [tuple(map(ids.index, ranking)) for ranking in wanted.values()])
        ran = subprocess.run([program, "tabulate", "--contest", name, self.ballots], capture_output=True, text=True)
        try:
            told = 0, plain.tabulation(contest)
        except plain.Tie as tie:
            told = 3, str(tie)
        return None if (ran.returncode, ran.stdout) == told else f"tabulated {ran.stdout} {ran.stderr}, and the plain count gives {told}"

    def ids_of(self, name, counted):
        """The ids of the candidates of the count, by their names in names.csv, or by their own keys."""
        rows = [row for row in rows_of(self.names_path) if row["contest"] == name and row["id"]]
        ids, found = {row["name"]: row["id"] for row in rows}, {}
        for key, called in counted.names.items():
            if called in ids and called != plain_export.WRITE_IN:
                found[key] = key if key in ids.values() and plain.is_id(key) else ids[called]
        write_ins = [key for key, called in counted.names.items() if called == plain_export.WRITE_IN]
        left = [row["id"] for row in rows if row["id"] not in found.values()]
        return {**found, **{key: each for key in [*write_ins, plain_export.WRITE_IN] for each in left if write_ins}}


def by_hand(program):
    """The exports of examples/exports: `words`, and what is expected in `out`, `names` and `account`."""
    for name in sorted(os.listdir(EXPORTS)):
        folder = os.path.join(EXPORTS, name)
        with open(os.path.join(folder, "words")) as file:
            form, *words = file.read().splitlines()
        words = [os.path.join(folder, word) if os.path.exists(os.path.join(folder, word)) else word for word in words]
        files = list(itertools.takewhile(lambda word: not word.startswith("--"), words))
        with tempfile.TemporaryDirectory() as place:
            made = Conversion(form, files, words[len(files):], place)
            made.is_by_hand = True
            yield name, made.compare(program) if form in plain_export.READERS and not {"--as", "--word"} & set(words) else made.err * bool(made.status)
            if made.status:
                continue
            for wanted, got in (("out", made.data), ("names", read(made.names_path)), ("account", made.err.replace(folder + "/", "").encode())):
                is_same = read(os.path.join(folder, wanted)) == got
                yield f"{name}: {wanted}", None if is_same else f"another one:\n{got.decode()}"


def read(path):
    with open(path, "rb") as file:
        return file.read()


def by_chance(program, count):
    for maker, number in itertools.product(made_exports.MAKERS, range(count)):
        chance, form = random.Random(f"{maker} {number}"), maker.partition(" ")[0]
        with tempfile.TemporaryDirectory() as folder:
            paths, words = made_exports.MAKERS[maker](folder, chance)
            for name, meanings in RULES.items():
                if chance.random() < 0.7:
                    words = [*words, f"--{name.replace('_', '-')}", chance.choice(meanings)]
            if form in TAKES_MARKS and chance.random() < 0.5:
                words = [*words, "--marks", chance.choice(["counted", "made"])]
            made = Conversion(form, paths, words, folder)
            yield f"{maker} {number} {' '.join(words)}", made.compare(program)


def by_chance_unranked(program, count):
    """Contests whose candidates aren't ranked: each record of one seat, each pair of several, and who wins, against a plain count."""
    for number in range(count):
        chance = random.Random(f"unranked {number}")
        with tempfile.TemporaryDirectory() as folder:
            paths, words = made_exports.unranked(folder, chance)
            write_ins = chance.choice(["merge", "drop"])
            words = [*words, "--write-ins", write_ins]
            status, data, err = called(["dominion", *paths, *words, "--names", os.path.join(folder, "names.csv")])
            wrong = see_unranked(status, data, err, plain_export.chosen(paths, write_ins), words[1], write_ins)
            yield f"unranked {number} {' '.join(words)}", wrong


def see_unranked(status, data, err, counted, made, write_ins):
    """What differs from the plain count, or None."""
    if made == "plurality":
        counted = {key: each for key, each in counted.items() if each[0] == 1}
    wanted, ties = {}, 0
    for key, (seats, names, cards) in counted.items():
        all_of = [name for name in dict.fromkeys(names.values()) if name != plain_export.WRITE_IN]
        ids = all_of + [plain_export.WRITE_IN] * (plain_export.WRITE_IN in names.values() and write_ins == "merge")
        shown = {**{name: name for name in all_of}, plain_export.WRITE_IN: next((str(c) for c, name in names.items() if name == plain_export.WRITE_IN), "")}
        if made == "plurality":
            wanted[str(key)] = [shown[each] for each in ids], {card: tuple(shown[each] for each in chosen) for card, chosen in cards.items()}
            continue
        votes = {each: sum(each in chosen for chosen in cards.values()) for each in ids}
        order = sorted(ids, key=lambda each: -votes[each])
        ties += len(order) <= seats or votes[order[seats - 1]] == votes[order[seats]]
        for w, l in itertools.product(order[:seats], order[seats:]):
            ballots = {card: tuple(shown[each] for each in (w, l) if chosen & {w, l} == {each}) for card, chosen in cards.items()}
            wanted[f"{key}: {shown[w]} over {shown[l]}"] = [shown[w], shown[l]], ballots
    if ties or not wanted or len(wanted) > 64:
        return None if status == 2 and not data else f"status {status}, and {ties} ties in {len(wanted)} contests: {err}"
    if status:
        return f"status {status}: {err}"
    got = {}
    for name, (ids, _) in plain_audit.contest_records(plain_audit.records_of(data)).items():
        ballots = plain_audit.ballots_of(data, name)
        got[name] = list(ids), {card: tuple(ids[each] for each in ranking) for card, _, ranking in ballots.cast}
    return None if got == wanted else f"{got}, and the plain count has {wanted}"


def bad():
    """Each is refused with its status, its file and its place, and writes neither an output nor a file."""
    for name, make in bad_exports.CASES.items():
        with tempfile.TemporaryDirectory() as folder:
            os.mkdir(os.path.join(folder, "in"))
            words, status, told = make(os.path.join(folder, "in"))
            names, account = (os.path.join(folder, each) for each in ("names.csv", "account.txt"))
            got = called([*words, "--names", names, "--account", account])
            shown = got[2].replace(os.path.join(folder, "in") + "/", "").replace(os.path.join(folder, "in"), "in")
            left = [each for each in os.listdir(folder) if each != "in"]
            is_told = shown.partition(". What to do: ")[0].rstrip("\n") == f"convert: {told}" and shown.count("\n") == 1
            is_so = (got[0], got[1]) == (status, b"") and is_told and not left
            yield f"bad: {name}", None if is_so else f"{got[0]}, {len(got[1])} bytes, {left}: {shown}wanted {status}, {told}"


def too_large():
    """If there are more records than a file may have, the message says whether several contests have them, or one that is too large by itself."""
    book = convert.Book([], None, None)
    for of_contest, told in (
        (900_000, "is record 1000001, and a .raire file has at most 1000000; convert fewer contests at once: --contest"),
        (1_000_001, "is record 1000001 of one contest, and no .raire file has more than 1000000: this contest is too large for the program"),
    ):
        yield f"too many records, {of_contest} of one contest", None if book.too_many(of_contest) == told else book.too_many(of_contest)


VALUES = [None, True, 0, -1, 7, 2**70, 1.5, "", "1", "yes", "X", [], [[]], {}, {"Id": 1}]


def nodes(value):
    """Each list and object in a value."""
    if isinstance(value, (list, dict)):
        yield value
        for each in value.values() if isinstance(value, dict) else value:
            yield from nodes(each)


def change(value, chance):
    """Changes or removes something somewhere, or puts it there twice."""
    node = chance.choice([each for each in nodes(value) if each])
    at = chance.choice(list(node)) if isinstance(node, dict) else chance.randrange(len(node))
    kind = chance.randrange(3)
    if kind == 0:
        node[at] = chance.choice(VALUES)
    elif kind == 1:
        del node[at]
    elif isinstance(node, list):
        node.append(node[at])


def damage(path, chance):
    """Cuts a file off, or changes some of it."""
    data = bytearray(read(path))
    for _ in range(chance.randint(1, 3)):
        at = chance.randrange(len(data))
        data[at:at + chance.randint(0, 2)] = chance.choice([b"", b"\0", b"\xff", b",", b'"', b"\n", b"{", b"}", b"9"])
    with open(path, "wb") as file:
        file.write(data[:chance.randrange(len(data) + 1)] if chance.random() < 0.3 else data)


def damaged(count):
    """Whatever is in an export, a call ends with the text or with a line that names the file."""
    for maker, number in itertools.product(made_exports.MAKERS, range(count)):
        chance, form = random.Random(f"damaged {maker} {number}"), maker.partition(" ")[0]
        with tempfile.TemporaryDirectory() as folder:
            paths, words = made_exports.MAKERS[maker](folder, chance)
            files = [os.path.join(where, name) for where, _, names in sorted(os.walk(paths[0])) for name in sorted(names)]
            path = chance.choice(files if os.path.isdir(paths[0]) else paths)
            if path.endswith(".json") and chance.random() < 0.8:
                value = json.loads(read(path).decode("utf-8-sig"))
                change(value, chance)
                with open(path, "w") as file:
                    json.dump(value, file)
            else:
                damage(path, chance)
            try:
                status, out, err = called([form, *paths, *words])
                is_told = status == 0 and bool(out) or status == 2 and out == b"" and err.startswith("convert: ") and folder in err and err.count("\n") == 1
                yield f"damaged {maker} {number}", None if is_told else f"{status}, {len(out)} bytes: {err}"
            except Exception as fault:
                yield f"damaged {maker} {number}", "".join(traceback.format_exception(fault)[-3:])


def main():
    program, count = os.path.abspath(sys.argv[1]), int(sys.argv[2]) if len(sys.argv) > 2 else 200
    tried = failed = 0
    for name, wrong in itertools.chain(by_hand(program), by_chance(program, count), by_chance_unranked(program, count), bad(), too_large(), damaged(count)):
        tried += 1
        if wrong:
            failed += 1
            print(f"{name}: {wrong}")
    print(f"{tried - failed} conversions as they should be, {failed} not")
    sys.exit(1 if failed else 0)


if __name__ == "__main__":
    main()
