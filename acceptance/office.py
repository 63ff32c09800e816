#!/usr/bin/env python3
"""Tries what an office uses around an audit: ./raire cards, agree, batches, boxes, manifest, rounds, names for ids, and the notes on terms.

acceptance/office.py PROGRAM compares them with the examples' files and with what plain_audit.py draws and reads, and tries words and files that are
refused. acceptance/entry.py tries the page for typing in readings. The last line says how many came out as they should.
"""
import os
import subprocess
import sys
import tempfile

import places  # noqa: F401
import bad_exports
import plain_audit
import walk
from draws import Draws

TOP = os.path.dirname(os.path.dirname(os.path.abspath(__file__)))
TOWN = os.path.join(TOP, "examples", "town")
LOOK = "look at the card again, together; correct the file of the reader who was wrong, and compare again"
SEED = "2026-11-03 dice 2 6 1 4 5 5 3 1"
MANIFEST, BALLOTS, ASSERTIONS, SEEN = (os.path.join(TOWN, name) for name in ("manifest.csv", "ballots.raire", "assertions.json", "seen.csv"))

sys.path.append(os.path.join(TOP, "tools", "office"))
sys.dont_write_bytecode = True
import records  # noqa: E402


class Tried:
    def __init__(self, program):
        self.program, self.count, self.failed = os.path.abspath(program), 0, 0

    def run(self, script, *words, out=None):
        """The status and both texts of a script of the office, or of the program."""
        path = self.program if script == "raire" else os.path.join(TOP, "tools", script)
        given = {**os.environ, "RAIRE": self.program}
        ran = subprocess.run([path, *words], stdin=subprocess.DEVNULL, stdout=out or subprocess.PIPE, stderr=subprocess.PIPE, env=given)
        return ran.returncode, (ran.stdout or b"").decode(), ran.stderr.decode()

    def see(self, shows, holds, told=""):
        self.count += 1
        if not holds:
            self.failed += 1
            print(f"{shows}: not so {told}")

    def refused(self, status, told, script, *words):
        got = self.run(script, *words)
        self.see(f"{script} {' '.join(words)} is refused", got[:2] == (status, "") and got[2].startswith(told.rstrip("\n")), got)


def write(name, text):
    with open(name, "w") as file:
        file.write(text)


def read(path):
    with open(path) as file:
        return file.read()


# ---- ./raire cards

def wanted_cards(seed, first, last):
    """The lines of a table, by the plain program's draws: each card that no draw before `first` took, once, in the manifest's order."""
    with open(MANIFEST, "rb") as file:
        manifest = plain_audit.manifest_of(file.read())
    draws = {}
    for draw in range(1, last + 1):
        draws.setdefault(plain_audit.drawn(seed, draw, manifest.cards), []).append(draw)
    rows = ["batch,number,card,draws"]
    for place, of_card in sorted(draws.items()):
        if of_card[0] >= first:
            batch, _, number = manifest.card(place).rpartition("_")
            rows.append(f"{batch},{number},{batch}_{number},{' '.join(map(str, of_card))}")
    return "".join(row + "\n" for row in rows)


def tables(tried):
    for seed, draws in ((SEED, 1), (SEED, 40), (SEED, 90), ("x", 1000), (" -1", 7)):
        words = [MANIFEST, f"--seed={seed}", "--draws", str(draws)]
        note = f'cards: the seed begins with a blank: "␣{seed[1:]}", where each ␣ is a blank\n' if seed[0] == " " else ""
        short = f"cards: the seed has {len(seed)} character{'s' * (len(seed) != 1)}, too few to be made by chance: use at least 20 throws of a ten-sided die\n"
        note += short if len(seed) < 12 else ""
        tried.see(f"the cards of {draws} draws of {seed!r}", tried.run("cards", *words) == (0, wanted_cards(seed, 1, draws), note))
        after = draws // 2
        status, out, err = tried.run("cards", *words, f"--after={after}")
        tried.see(f"those that {after} draws didn't take", (status, out) == (0, wanted_cards(seed, after + 1, draws)), err)
    told = tried.run("cards", MANIFEST, "--seed", SEED, "--draws", "90", "--after", "40")[2]
    again = "cards: 6 cards were, and count again as they were seen: B02_5, B04_41, B05_37, B06_45, B07_3, B08_8\n"
    tried.see("cards that are drawn again are told", told == "cards: 43 cards of draws 41 to 90 were not drawn before\n" + again, told)
    ids = [line.partition(",")[0] for line in read(SEEN).splitlines()]
    rounds = [tried.run("cards", MANIFEST, "--seed", SEED, *words)[1] for words in (["--draws", "40"], ["--draws", "90", "--after", "40"])]
    listed = [line.split(",")[2] for text in rounds for line in text.splitlines()[1:]]
    tried.see("round after round they have the order of the seen file", listed == ids)


def shelves(tried):
    write("places.csv", "batch,place\n" + "".join(f'B0{batch},"shelf {batch}, left"\n' for batch in range(1, 9)))
    words = [MANIFEST, "--seed", SEED, "--draws", "2"]
    wanted = 'batch,number,card,draws,place\nB05,36,B05_36,1,"shelf 5, left"\nB07,19,B07_19,2,"shelf 7, left"\n'
    tried.see("places are told", tried.run("cards", *words, "--places", "places.csv") == (0, wanted, ""))
    write("few.csv", "B05,shelf 5\n")
    tried.refused(2, "cards: few.csv: no place for batch B07, which has a listed card\n", "cards", *words, "--places=few.csv")
    for text, told in (("B05\n", "record 1 isn't a batch"), ("batch,place\n\nB09,x\n", "record 2 is about B09, and "), ("B05,a\nB05,b\n", "record 2 repeats B05")):
        write("bad.csv", text)
        tried.refused(2, f"cards: bad.csv: {told}", "cards", *words, "--places=bad.csv")
    tried.refused(12, "cards: none.csv: no such file\n", "cards", *words, "--places=none.csv")


def sheets(tried):
    """An audit refuses a sheet until each reading is there, and names the record of the first card without one."""
    status, sheet, err = tried.run("cards", MANIFEST, "--seed", SEED, "--draws", "40", "--sheet")
    first = [line for line in read(SEEN).splitlines() if line.partition(",")[0] + ",\n" in sheet]
    tried.see("a sheet has the ids", sheet == "".join(line.partition(",")[0] + ",\n" for line in first) and (status, err) == (0, ""))
    later = tried.run("cards", MANIFEST, "--seed", SEED, "--draws", "90", "--after", "40", "--sheet")[1]
    both = sorted((sheet + later).splitlines())
    tried.see("both rounds' sheets have each card once", both == sorted(line.partition(",")[0] + "," for line in read(SEEN).splitlines()))
    files = [BALLOTS, MANIFEST, ASSERTIONS]
    write("open.json", tried.run("raire", "open", *files, "--seed", SEED)[1])
    for filled in (0, 1, 17, len(first) - 1):
        write("sheet.csv", "".join(line + "\n" for line in first[:filled]) + "".join(sheet.splitlines(keepends=True)[filled:]))
        got = tried.run("raire", "audit", "open.json", *files, "sheet.csv", "--draws", "40")
        tried.see(f"a sheet of which {filled} are filled", got == (2, "", f"raire: sheet.csv: V1 at {filled + 1}\n"), got)
        told = f"agree: sheet.csv: V1 at {filled + 1}: the card {first[filled].partition(',')[0]} has no reading\n"
        tried.refused(2, told, "agree", "sheet.csv", SEEN)
    write("sheet.csv", "".join(line + "\n" for line in first))
    got = tried.run("raire", "audit", "open.json", *files, "sheet.csv", "--draws", "40")
    tried.see("a sheet that is filled", got[0] == 10 and got[2] == "", got)


def card_words(tried):
    words = [MANIFEST, "--seed", SEED, "--draws", "40"]
    for seed, draws in (("", "4"), ("x" * 65, "4"), ("a\tb", "4"), ("ö", "4"), (SEED, "0"), (SEED, "100001"), (SEED, "x"), (SEED, ""), (SEED, "1.0")):
        tried.refused(1, "raire: bad words\n", "cards", MANIFEST, f"--seed={seed}", f"--draws={draws}")
    for text, rule in (("", "M1 at 1"), ("batch,cards\nb,0\n", "M3 at 2"), ("batch,cards\nb,1\nb,1\n", "M4 at 3"), ("batch,cards\n", "M6 at 1")):
        write("m.csv", text)
        tried.refused(2, f"raire: m.csv: {rule}\n", "cards", "m.csv", "--seed", SEED, "--draws", "4")
    tried.refused(12, "raire: none.csv: no such file\n", "cards", "none.csv", "--seed", SEED, "--draws", "4")
    for more, told in [
        (["--after", "40"], "--after needs fewer draws"), (["--after=x"], "--after needs fewer draws"), (["--after=-1"], "--after needs fewer draws"),
        (["--seed", "2"], "--seed is given twice"), (["--page", "--sheet"], "give only one of --page, --sheet and --entry"), (["more"], "unrecognized"),
        (["--entry"], "--entry needs the candidates"), (["--ballots", BALLOTS], "--ballots and --names are for"), (["--plac=x"], "unrecognized"),
        (["--contest=1"], "--contest is for"), (["--ranks=2"], "--ranks is for"),
    ]:
        tried.refused(1, f"cards: {told}", "cards", *words, *more)
    write("one.csv", "batch,cards\nb,1\n")
    tried.refused(1, "cards: there is no card to read: 1 draw took", "cards", "one.csv", "--seed=1", "--draws=2", "--after=1", "--entry", "--ballots", BALLOTS)
    status, out, err = tried.run("cards", "one.csv", "--seed=1", "--draws=2", "--after=1")
    tried.see("one card is told as one", "cards: 1 card was, and counts again as it was seen: b_1\n" in err, err)
    tried.see("a table without cards", (status, out) == (0, "batch,number,card,draws\n") and "cards: 0 cards of draws 2 to 2 were not drawn before\n" in err, err)
    tried.refused(1, "cards: the following arguments are required: --draws", "cards", MANIFEST, "--seed", SEED)
    tried.refused(2, "raire: " + BALLOTS + ": B5 at 1\n", "cards", *words, "--entry", "--ballots", BALLOTS, "--contest", "9")
    for text, told in [
        ("id,name\n1,A\n1,B\n", ": record 3 repeats 1"), ("1,A\n2\n", ": record 2 isn't id,name of a candidate"), ("", " has no candidates"),
        ("contest,id,name\n7,1,A\n8,1,A\n", " has several contests; name one with --contest"), ("contest,id,name\n1,A\n", ": record 2 isn't contest,id,name"),
    ]:
        write("names.csv", text)
        tried.refused(2, f"cards: names.csv{told}", "cards", *words, "--entry", "--names", "names.csv")
    write("names.csv", "contest,id,name\n7,1,A\n8,1,B\n8,2,C\n")
    tried.refused(2, "cards: names.csv has no candidates of contest 9", "cards", *words, "--entry", "--names", "names.csv", "--contest=9")
    page = tried.run("cards", *words, "--entry", "--names", "names.csv", "--contest=8")[1]
    tried.see("the names are those of the contest", '"candidates": [{"id": "1", "name": "B"}, {"id": "2", "name": "C"}]' in page)


# ---- ./raire agree

def agreements(tried):
    text = read(SEEN)
    write("a.csv", text)
    write("b.csv", text.replace("\n", "\r\n").replace("B01_4,ballot,Ash,", "\r\n\"B01_4\", ballot ,Ash,, Ash,"))
    tried.see("what is read the same is written", tried.run("agree", "a.csv", "b.csv") == (0, text, "agree: 81 of 81 cards were read the same\n"))
    tried.see("whoever comes first", tried.run("agree", "b.csv", "a.csv")[:2] == (0, text))
    write("b.csv", "".join(text.splitlines(keepends=True)[::-1]))
    tried.see("in the order of the first", tried.run("agree", "a.csv", "b.csv")[:2] == (0, text))
    write("b.csv", text.replace("B01_5,ballot,Elm,Ash\n", "B01_5,ballot,Ash,Elm\n").replace("B06_11,ballot\n", "B06_11,missing\n").replace("B08_57,", "B08_58,"))
    wanted = (
        "agree: B01_5: Elm, Ash in a.csv; Ash, Elm in b.csv\nagree: B06_11: nobody ranked in a.csv; missing in b.csv\n"
        "agree: B08_57: only in a.csv: Cedar, Birch, Elm\nagree: B08_58: only in b.csv: Cedar, Birch, Elm\n"
        f"agree: 78 of 82 cards were read the same; nothing is written. What to do: {LOOK}\n"
    )
    tried.see("each difference is told with both", tried.run("agree", "a.csv", "b.csv") == (6, "", wanted), tried.run("agree", "a.csv", "b.csv"))
    for bad, told in [
        ("B01_4,\n", "V1 at 1: the card B01_4 has no reading"), ("B01_4\n", "V1 at 1: the card B01_4 has no reading"),
        ("\nx_1,ballot\nx_2,balot\n", "V1 at 2: the card x_2 has neither"), ("x_1,missing,Ash\n", "V1 at 1: the card x_1 is missing, and"),
        ("x_1,,Ash\n", "V1 at 1: the card x_1 has neither"), ("x_1,missing\nx_1,missing\n", "V3 at 2: the card x_1 is already in record 1"),
    ]:
        write("b.csv", bad)
        tried.refused(2, f"agree: b.csv: {told}", "agree", "a.csv", "b.csv")
    tried.refused(12, "agree: none.csv: no such file\n", "agree", "a.csv", "none.csv")
    tried.refused(7, "agree: .: read fault\n", "agree", "a.csv", ".")
    tried.refused(1, "agree: a.csv and ./a.csv are one file", "agree", "a.csv", "./a.csv")
    tried.refused(1, "agree: the following arguments", "agree", "a.csv")
    with open("a.csv", "a") as out:
        got = tried.run("agree", SEEN, "a.csv", out=out)
    tried.see("nothing is written over a reading", got[0] == 1 and read("a.csv") == text, got)
    with open("/dev/full", "w") as out:
        write("b.csv", text)
        got = tried.run("agree", "a.csv", "b.csv", out=out)
    tried.see("an output that is full is told", (got[0], got[2]) == (8, "agree: the output could not be written. What to do: free the disk\n"), got)


def readings(tried):
    """Files are read in the same way as by the plain program."""
    draws = Draws(36)
    for _ in range(20_000):
        data = "".join('ab,,""  \t\r\n'[draws.below(11)] for _ in range(draws.below(14))).encode()
        data = records.MARK * (draws.below(20) // 17) + data
        tried.see(f"records of {data}", [row for _, row in records.rows_of(data)] == plain_audit.records_of(data))


# ---- ./raire batches

def ward(margin, names=("P017", "P018"), contest="Ward 3"):
    """The records of a contest of two batches with 194 ballots each, which Moss wins by this margin."""
    first = (388 + margin) // 2
    lines = ["1", f"Contest,{contest},2,Lee,Moss"]
    for number in range(388):
        lines.append(f"{contest},{names[number // 194]}_{number % 194 + 1},{'Moss' if number < first else 'Lee'}")
    return "".join(line + "\n" for line in lines)


def own_batches(tried):
    sizes = {f"P{batch:03}": 194 if batch in (17, 18) else 500 for batch in range(1, 122)}
    county = "batch,cards\n" + "".join(f"{batch},{cards}\n" for batch, cards in sizes.items())
    write("county.csv", county)
    write("ward.raire", ward(66))
    write("ward.json", tried.run("raire", "search", "ward.raire")[1])
    for also, own in (("", ["P017", "P018"]), ("P019,P001", ["P001", "P017", "P018", "P019"]), ("P017", ["P017", "P018"])):
        wanted = "batch,cards\n" + "".join(f"{batch},{sizes[batch]}\n" for batch in own)
        for files in (["ward.raire", "county.csv"], ["ward.raire", "county.csv", "ward.json"]):
            status, text, told = tried.run("batches", *files, *([f"--also={also}"] if also else []))
            tried.see(f"own batches with {also}", (status, text) == (0, wanted), (status, text, told))
            write("own.csv", text)
            for path, cards in (("county.csv", sizes.values()), ("own.csv", [sizes[batch] for batch in own])):
                plan = tried.run("raire", "plan", path, "ward.json")[1].splitlines()[-1].removeprefix("all: ")
                tried.see(f"the plan on {path} is told", f": {sum(cards):,} cards in {len(cards)} batches: {plan}\n" in told, told)
            tried.see("the premise is told", "Make sure that no batch that is left out can have the contest, whatever its records say" in told, told)
            opened = tried.run("raire", "open", "ward.raire", "own.csv", "ward.json", "--seed=1")
            tried.see("an audit is opened on them", opened[0] == 0, opened)
    write("one.csv", "batch,cards\nP019,400\n" + wanted.partition("\n")[2])
    told = tried.run("batches", "ward.raire", "one.csv")[2]
    tried.see("one batch is told as one", "batches: left out: 400 cards in 1 batch\n" in told and "Make sure that no batch that is left out" in told, told)
    told = tried.run("batches", "ward.raire", "own.csv")[2]
    tried.see("where none is left out, there is no premise", told.endswith("batches: left out: 0 cards in 0 batches\n"), told)
    told = tried.run("batches", "ward.raire", "county.csv", "--limit=100000", "--gamma", "200")[2]
    plan = tried.run("raire", "plan", "county.csv", "ward.json", "--limit=100000", "--gamma=200")[1].splitlines()[-1].removeprefix("all: ")
    tried.see("limit and gamma are the plan's", f"{plan}\n" in told and plan != "full count", told)
    bad_batches(tried)


def bad_batches(tried):
    both = ["ward.raire", "county.csv"]
    write("m.csv", "batch,cards\nP017,0\n")
    write("few.csv", "batch,cards\nP017,194\n")
    write("tie.raire", ward(0))
    row1 = os.path.join(TOP, "examples", "row1.json")
    for status, told, *words in [
        (2, "batches: --also names P999, and county.csv has no such batch\n", *both, "--also=P001,P999"), (2, "batches: --also names nothing", *both, "--also=,"),
        (2, "raire: m.csv: M3 at 2\n", "ward.raire", "m.csv"), (2, "raire: ward.raire: M7 at 197\n", "ward.raire", "few.csv"),
        (2, "raire: ward.raire: B5 at 1\n", *both, "--contest=9"), (2, "raire: county.csv: B1 at 1\n", "county.csv", "ward.raire"),
        (3, "tie\nround 1\n", "tie.raire", "county.csv"), (6, "no: contest differs\n", *both, row1), (1, "raire: bad words\n", *both, "--limit=0"),
        (1, "batches: give a ballot file", "ward.raire"), (1, "batches: unrecognized arguments: --floor=1", *both, "--floor=1"), (12, "raire: none: no such file\n", "none", "county.csv"),
    ]:
        tried.refused(status, told, "batches", *words)


# ---- ./raire boxes, of one contest and of all

def counted_boxes(tried):
    write("m.csv", "batch,cards\nB 1,3\nB 2,2\nTotal,5\n")
    write("b.raire", "2\nContest,1,2,Ann,Ben\nContest,2,2,Cy,Di\n1,B 1_1,Ann\n1,B 1_3,Ben\n1,B 2_1,Ann\n2,B 2_1,Cy\n2,B 2_2\n")
    total = "batch Total: 5 cards, and no record names one; ALL OTHERS TOGETHER HAVE AS MANY: a total that was left in the manifest?\n"
    one = "contest 1\ncards 10\nrecords 3\ncards without a record 7: B 1_2, B 2_2, Total_1, Total_2, Total_3, Total_4, Total_5\n" + total
    tried.see("boxes of one contest", tried.run("boxes", "b.raire", "m.csv", "--contest=1") == (0, one, ""), tried.run("boxes", "b.raire", "m.csv", "--contest=1"))
    both = (
        "cards 10\ncontest 1: records 3, cards without a record 2: B 1_2, B 2_2; and 5 cards in batches that have none: Total\n"
        "contest 2: records 2, cards without a record 0; and 8 cards in batches that have none: B 1, Total\n" + total
    )
    tried.see("boxes of all contests in one call", tried.run("boxes", "b.raire", "m.csv") == (0, both, ""), tried.run("boxes", "b.raire", "m.csv"))
    write("few.csv", "batch,cards\nB 1,3\nB 2,1\n")
    tried.refused(2, "raire: b.raire: M7 at 8\n", "boxes", "b.raire", "few.csv")


# ---- all cards, marks as they are on the card, names

def all_cards(tried):
    write("m.csv", "batch,cards\nB1,2\nB2,1\nB3,2\n")
    tried.see("all cards", tried.run("cards", "m.csv", "--all") == (0, "batch,number,card,draws\nB1,1,B1_1,\nB1,2,B1_2,\nB2,1,B2_1,\nB3,1,B3_1,\nB3,2,B3_2,\n", ""))
    tried.see("a sheet of some batches", tried.run("cards", "m.csv", "--all", "--batch", "B3, B1", "--sheet") == (0, "B1_1,\nB1_2,\nB3_1,\nB3_2,\n", ""))
    for words, told in [
        (["--all", "--seed=1"], "--all takes all cards: no --seed"), (["--seed=1", "--draws=1", "--batch=B1"], "--batch is for --all"),
        ([], "the following arguments are required: --seed, --draws (or --all)"), (["--all", "--marks"], "--marks is for --entry"),
        (["--all", "--entry", "--ballots", BALLOTS, "--ranks=0"], "--ranks needs a number from 1 to 1000"),
    ]:
        tried.refused(1, f"cards: {told}", "cards", "m.csv", *words)
    tried.refused(2, "cards: --batch names B9, and m.csv has no such batch\n", "cards", "m.csv", "--all", "--batch=B9")
    write("large.csv", "batch,cards\nB1,5001\n")
    tried.refused(1, "cards: 5,001 cards are more than a page holds", "cards", "large.csv", "--all", "--entry", "--ballots", BALLOTS)
    write("names.csv", 'contest,id,name\n1,,Town council\n1,Ash,"Ash, Ana"\n')
    page = tried.run("cards", "m.csv", "--all", "--entry", "--marks", "--ranks=3", "--ballots", BALLOTS, "--contest", "Town council seat 3")[1]
    tried.see("marks have a row for write-ins", '"Write-in (no candidate)"' in page and '"ranks": 3' in page and '"has_marks": true' in page)


def marks(tried):
    """Two readings of marks are compared mark by mark, and become a seen file by the rules of ./raire convert."""
    write("a.csv", "B1_1,marks,1,Ash,1,Elm,2,Birch\nB1_2,marks\nB1_3,missing\n")
    write("b.csv", "B1_1,marks,2,Birch,1,Elm,1,Ash\nB1_2,marks,,\nB1_3,missing\n")
    tried.see("the same marks in another order", tried.run("agree", "a.csv", "b.csv")[:2] == (0, "B1_1,marks,1,Ash,1,Elm,2,Birch\nB1_2,marks\nB1_3,missing\n"))
    write("b.csv", "B1_1,marks,1,Ash,2,Birch\nB1_2,ballot\nB1_3,marks,3,Elm\n")
    write("names.csv", 'id,name\nAsh,"Ash, Ana"\n')
    wanted = (
        "agree: B1_1: 1 Ash, Ana and Elm, 2 Birch in a.csv; 1 Ash, Ana, 2 Birch in b.csv\nagree: B1_2: nothing marked in a.csv; nobody ranked in b.csv\n"
        "agree: B1_3: missing in a.csv; 3 Elm in b.csv\n"
        f"agree: 0 of 3 cards were read the same; nothing is written. What to do: {LOOK}\n"
    )
    got = tried.run("agree", "a.csv", "b.csv", "--names", "names.csv")
    tried.see("marks that differ are told by name", got == (6, "", wanted), got)
    for skips, seen in (("pass", "B1_1,ballot,Birch\nB1_2,ballot\nB1_3,missing\n"), ("one", "B1_1,ballot,Birch\nB1_2,ballot\nB1_3,missing\n")):
        got = tried.run("convert", "marks", "a.csv", "--ballots", BALLOTS, "--overvotes=pass", f"--skips={skips}")
        tried.see(f"marks by the rules, skips {skips}", got[:2] == (0, seen), got)
    for bad, told in [
        ("B1_1,marks,1\n", "V1 at 1: the card B1_1 has marks, and after that no ranks"), ("B1_1,marks,x,Ash\n", "V1 at 1: the card B1_1 has marks"),
        ('B1_1,ballot,"Ash\nB1_2,ballot\n', "V1 at 1: a quote isn't closed in its line, before Ash; take it out, or close it\n"),
    ]:
        write("b.csv", bad)
        tried.refused(2, f"agree: b.csv: {told}", "agree", "a.csv", "b.csv")
    write("b.csv", 'B1_1,ballot,"Ash\n' + "B1_2,ballot,Birch\n" * 2000)
    told = tried.run("agree", "a.csv", "b.csv")[2]
    tried.see("a quote that isn't closed prints a line, and no file", len(told) < 250 and told.count("\n") == 1, told)


def pairs(tried):
    """A contest of two seats, from its sheet to the sign-off of each pair; and one card that was recorded incorrectly."""
    chosen = [["Ann", "Ben"]] * 40 + [["Ann"]] * 20 + [["Ben", "Cy"]] * 15 + [["Cy"]] * 10 + [["Ann", "Ben", "Cy"]] * 5 + [["Di", "Ann"]] * 10
    head = [*"CvrNumber TabulatorNum BatchId RecordId".split(), "Ann", "Ben", "Cy", "Di"]
    rows = [[str(k), "1", "1", str(k), *("1" if c in votes else "0" for c in head[4:])] for k, votes in enumerate(chosen, 1)]
    lines = [["Town", "5.10.50.85"], [""] * 4 + ["Board (Vote For=2)"] * 4, [""] * 4 + head[4:], head[:4] + [""] * 4, *rows]
    write("export.csv", "".join(",".join(line) + "\n" for line in lines))
    status, text, err = tried.run("convert", "dominion-csv", "export.csv", "--as", "pairs")
    ids = ["Board: Ann over Cy", "Board: Ann over Di", "Board: Ben over Cy", "Board: Ben over Di"]
    tried.see("a contest for each winner and loser", status == 0 and [line.split(",")[1] for line in text.splitlines()[1:5]] == ids, (text[:200], err))
    tried.see("overvotes of two seats are told", "overvoted contests: 5 (more marks than seats, so nobody has the vote)" in err and "pair Board: Ben over Cy: Ben has 30 votes more than Cy" in err, err)
    write("pairs.raire", text)
    write("m.csv", "batch,cards\n1_1,100\n")
    for last, wanted in ((chosen[-1], 0), (["Cy"], 0)):
        marked = [*chosen[:-1], last]
        write("marks.csv", "".join(f"1_1_{k},marks{''.join(f',1,{c}' for c in votes)}\n" for k, votes in enumerate(marked, 1)))
        seen = tried.run("convert", "marks", "marks.csv", "--ballots", "pairs.raire", "--as", "pairs", "--seats", "2")[1]
        if last == chosen[-1]:
            tried.see("marks are read as the records were", sorted(seen.replace(",ballot", "").splitlines()) == sorted(
                ",".join([row[1], row[0], *row[2:]]) for row in (line.split(",") for line in text.splitlines()[5:])), seen[:300])
        write("seen.csv", seen)
        status, told, err = tried.run("raire", "contests", "pairs.raire", "m.csv", "seen.csv", "--seed=1", "--draws=80")
        tried.see(f"each pair is signed off, the last card read as {last}", status == wanted and told.count("signed off yes") == 4, (told, err))


def named(tried):
    """The program's lines with names for ids; the status and the other lines are the program's."""
    write("b.raire", "1\nContest,101,3,15,16,17\n101,b_1,15\n101,b_2,16\n101,b_3,16\n101,b_4,17,16\n")
    write("names.csv", 'contest,id,name\n101,,Mayor\n101,15,"Ash, Ana"\n101,16,Birch\n101,17,Zoë\n')
    given = ["--names", "names.csv"]
    got = run_script(tried, "tabulate", "b.raire", *given)
    wanted = "contest Mayor (101)\nrecords 4\nround 1: Ash, Ana=1; Birch=2; Zoë=1; exhausted=0\ntied Ash, Ana; Zoë\neliminated Ash, Ana\nround 2: Birch=2; Zoë=1; exhausted=1\neliminated Zoë\nwinner Birch\n"
    tried.see("a tabulation with names", got == (0, wanted, ""), got)
    write("tied.raire", "1\nContest,101,3,15,16,17\n101,b_1,15\n101,b_2,16\n")
    got = run_script(tried, "tabulate", "tied.raire", *given)
    tried.see("a tie of the only contest with names", got == (3, "tie\nround 2\ntied Ash, Ana; Birch\ntally 1\n", ""), got)
    write("tied.raire", "2\nContest,101,3,15,16,17\nContest,102,2,1,2\n101,b_1,15\n101,b_2,16\n")
    for words, told in [(["--contest=101"], "tied Ash, Ana; Birch\n"), (["--contest", "102"], "tied 1; 2\n")]:
        got = run_script(tried, "tabulate", "tied.raire", *words, *given)
        tried.see(f"a tie of several contests with names {words}", got[0] == 3 and told in got[1], got)
    got = run_script(tried, "tabulate", "b.raire", "--names")
    tried.see("names without a file", got[0] == 1 and got[2].startswith("names: --names needs a file, such as --names names.csv"), got)
    got = tried.run("rounds", "b.raire", "--ties=15", *given)
    tried.see("rounds with names", got[:2] == (3, wanted[:wanted.index("eliminated")]), got)
    write("a.json", tried.run("raire", "search", "b.raire")[1])
    write("m.csv", "batch,cards\nb,4\n")
    got = run_script(tried, "plan", "m.csv", "a.json", *given)
    tried.see("a plan with names", got[0] == 0 and "Birch; Ash, Ana" in got[1] and "15" not in got[1], got)
    write("s.json", tried.run("raire", "open", "b.raire", "m.csv", "a.json", "--seed=1")[1])
    got = run_script(tried, "report", "s.json", *given)
    tried.see("a report with names", got[0] == 0 and got[1].startswith("contest Mayor (101)\ncards 4\n"), got)
    got = run_script(tried, "contests", "b.raire", "m.csv", "s.csv", "--seed=1", "--draws=1", *given)
    tried.see("a refusal is the program's", got[0] == 12 and got[2].startswith("raire: s.csv: no such file\n"), got)
    for text, told in [("", "names: names.csv"), ("id,name\n1,A\n1,B\n", "names: names.csv: record 3 repeats 1")]:
        write("names.csv", text)
        got = run_script(tried, "tabulate", "b.raire", *given)
        tried.see(f"names {text!r}", (got[0], got[2][:len(told)]) == (2, told) if text else got[0] == 0, got)


ALIKE = (("Birch", "Birch"), ("Birch", "birch"), ("Ann Lee", "Ann  Lee"), ("Ann Lee", "AnnLee"), ("Zo\u00eb", "Zoe\u0308"), ("Fitz", "\ufb01tz"), ("Stra\u00dfer", "STRASSER"))


def alike(tried):
    """Names that look alike are refused by each tool that takes names; the message has both records and both ids."""
    write("b.raire", "1\nContest,101,3,15,16,17\n101,b_1,15\n101,b_2,16\n101,b_3,16\n101,b_4,17,16\n")
    write("m.csv", "batch,cards\nb,4\n")
    write("seen.csv", "b_1,ballot,15\n")
    write("other.csv", "b_1,ballot,16\n")
    given = ["--names", "names.csv"]
    tools = (("cards", "m.csv", "--all", "--entry"), ("cards", "m.csv", "--all", "--entry", "--ballots", "b.raire"), ("agree", "seen.csv", "other.csv"), ("rounds", "b.raire"))
    for first, second in ALIKE:
        write("names.csv", f"contest,id,name\n101,15,{first}\n101,16,{second}\n101,17,Elm\n")
        told = f"names.csv: record 2 calls 15 {first}, and record 3 calls 16 {second}; these names look alike (case, blanks and letter forms don't count): give each another one, such as {second} (16)\n"
        for name, *words in tools:
            tried.refused(2, f"{name}: {told}", name, *words, *given)
        got = run_script(tried, "tabulate", "b.raire", *given)
        tried.see(f"names {first} and {second} are refused", got[:2] == (2, "") and got[2].startswith(f"names: {told.rstrip()}. What to do: "), got)
        write("names.csv", f"contest,id,name\n101,15,{first}\n102,16,{second}\n")
        tried.see(f"{first} and {second} of two contests", tried.run("cards", "m.csv", "--all", "--entry", *given, "--contest=101")[0] == 0)
    write("names.csv", "id,name\n15, 1 7\n16,Birch\n")
    told = "names.csv calls 15 1 7, and has no name for 17; both look alike (case, blanks and letter forms don't count): give each another name, such as 1 7 (15)\n"
    write("other.csv", "b_1,ballot,17\n")
    for name, *words in tools[1:]:
        tried.refused(2, f"{name}: {told}", name, *words, *given)
    got = run_script(tried, "tabulate", "b.raire", *given)
    tried.see("a name like an id is refused", got[:2] == (2, "") and got[2].startswith(f"names: {told.rstrip()}. What to do: "), got)
    write("ids.raire", "1\nContest,1,2,Birch,birch\n1,b_1,Birch\n")
    tried.see("ids that look alike are shown as they are", tried.run("cards", "m.csv", "--all", "--entry", "--ballots", "ids.raire")[0] == 0)
    os.mkdir("export")
    people = [{"Description": name, "Id": number, "ContestId": 5, "Type": "Regular"} for number, name in enumerate(("Ash", "Birch", "ASH"), 1)]
    words = bad_exports.dominion("export", bad_exports.session(1, (1, 1), (2, 2)), files={"CandidateManifest.json": {"Version": "5.10.50.85", "List": people}})
    got = tried.run("convert", *words, "--names", "made.csv")
    tried.see("an export's names that look alike have their ids behind them", got[0] == 0 and read("made.csv") == "contest,id,name\n5,,Mayor\n5,1,Ash (1)\n5,2,Birch\n5,3,ASH (3)\n", (got, read("made.csv")))


def run_script(tried, *words):
    """A command of the program with --names, as ./raire passes it on."""
    ran = subprocess.run([os.path.join(TOP, "tools", "office", "named.py"), *words], capture_output=True, text=True, env={**os.environ, "RAIRE": tried.program})
    return ran.returncode, ran.stdout, ran.stderr


# ---- terms that are easily misread

def terms(tried):
    import term_notes as told

    for limit, percent, is_usual in ((5, "0.0005", False), (999, "0.0999", False), (1_000, "0.1", True), (50_000, "5", True), (200_000, "20", True), (200_001, "20.0001", False)):
        tried.see(f"{limit} millionths are {percent} percent", (told.percent(limit), told.is_usual(limit)) == (percent, is_usual))
    for seed, note in [
        ("2026 dice 6", ""), (" 2", "begins with a blank"), ("2 ", "ends with a blank"), ("a  b", "has two blanks in a row"),
        (" a  b ", "begins with a blank, has two blanks in a row and ends with a blank"),
    ]:
        tried.see(f"the blanks of {seed!r}", told.blanks_in(seed) == note, told.blanks_in(seed))
        tried.see(f"{seed!r} is shown with each blank", told.seed_note(seed) == (f'the seed {note}: "{seed.replace(" ", "␣")}", where each ␣ is a blank' if note else ""))
    for words, wanted in [
        (["plan", "m", "a", "--limit", "5"], "raire: the risk limit 5 is 0.0005 percent; that is unusual: --limit counts millionths, so 5 percent is --limit 50000\n"),
        (["poll", "--limit=50000", "--seed=dice 10 4 7 1"], "raire: the risk limit 50000 is 5 percent\n"),
        (["sample", "m", "--seed", "dice 10 4 7 "], 'raire: the seed ends with a blank: "dice␣10␣4␣7␣", where each ␣ is a blank\n'),
        (["sample", "m", "--seed", "7"], "raire: the seed has 1 character, too few to be made by chance: use at least 20 throws of a ten-sided die\n"),
        (["plan", "--", "--limit=5"], ""),
    ]:
        ran = subprocess.run([os.path.join(TOP, "tools", "office", "term_notes.py"), *words], capture_output=True, text=True)
        tried.see(f"what is told of {words}", (ran.returncode, ran.stdout, ran.stderr) == (0, "", wanted), ran)
    by_the_script(tried)
    status, page, err = tried.run("cards", MANIFEST, "--seed=2026  6 ", "--draws=2", "--page")
    tried.see("a page shows each blank of a seed", '<code class="seed">2026<span class="blank"> </span><span class="blank"> </span>6<span class="blank"> </span></code>' in page)
    tried.see("and says that there are some", "It has two blanks in a row and ends with a blank." in page and err.startswith('cards: the seed has two blanks'), err)
    tried.see("a short seed is told too", err.count("\n") == 2 and "cards: the seed has 8 characters, too few to be made by chance" in err, err)
    tried.see("where all cards are listed there is none", tried.run("cards", MANIFEST, "--all", "--batch=B01")[2] == "")
    tried.see("its command has the seed in quotes", "&#39;--seed=2026  6 &#39;" in page)


def by_the_script(tried):
    """On standard error ./raire gives a limit in percent, and says which blanks a seed has; standard output and the status are the program's."""
    walk.write_stand_in(tried.program, "raire")
    write("names.csv", "id,name\nBirch,Bea Birch\n")

    def ran(*words):
        got = subprocess.run(["./raire", *words], stdin=subprocess.DEVNULL, capture_output=True, text=True, env={**os.environ, "RAIRE": tried.program})
        return got.returncode, got.stdout, got.stderr

    note = 'raire: the seed has two blanks in a row and ends with a blank: "dice␣10␣4␣␣7␣", where each ␣ is a blank\n'
    for words, told in [
        (["plan", MANIFEST, ASSERTIONS, "--limit", "5"], "raire: the risk limit 5 is 0.0005 percent; that is unusual: --limit counts millionths, so 5 percent is --limit 50000\n"),
        (["plan", MANIFEST, ASSERTIONS, "--limit=100000"], "raire: the risk limit 100000 is 10 percent\n"), (["plan", MANIFEST, ASSERTIONS], ""),
        (["sample", MANIFEST, "--seed=dice 10 4  7 ", "--draws=3"], note), (["sample", MANIFEST, "--seed=dice 10 4 7 1", "--draws=3"], ""),
        (["sample", MANIFEST, "--seed=6 6", "--draws=3"], "raire: the seed has 3 characters, too few to be made by chance: use at least 20 throws of a ten-sided die\n"),
        (["open", BALLOTS, MANIFEST, ASSERTIONS, "--seed", "dice 10 4  7 ", "--limit=5"], "raire: the risk limit 5 is 0.0005 percent; that is unusual: --limit counts millionths, so 5 percent is --limit 50000\n" + note),
    ]:
        tried.see(f"what ./raire says of {words}", ran(*words) == (0, tried.run("raire", *words)[1], told), ran(*words))
    write("s.json", tried.run("raire", "open", BALLOTS, MANIFEST, ASSERTIONS, "--seed", "dice 10 4  7 ")[1])
    tried.see("and of a session that is reported", ran("report", "s.json") == (0, tried.run("raire", "report", "s.json")[1], note), ran("report", "s.json"))
    tried.see("names are put for ids by ./raire", ran("tabulate", BALLOTS, "--names", "names.csv")[1].endswith("winner Bea Birch\n"), ran("tabulate", BALLOTS, "--names", "names.csv"))


# ---- ./raire manifest

def manifests(tried):
    write("l.csv", "Tabulator,Batch ID,Ballots,First,Last\n01,1,10,1,10\n1,2,5,11,15\n2,1,6,20,25\n2,2,0,,\n")
    wanted = "batch,cards\n1_1,10\n1_2,5\n2_1,6\n"
    told = (
        "manifest: 3 batches with 21 cards; the id of a card is batch, _ and its number from 1, as in 1_1_1\nmanifest: left out because they have no cards: 2_2\n"
        "manifest: numbers 16 to 19 are missing: between batch 1_2 and batch 2_1\n"
    )
    got = tried.run("manifest", "dominion", "l.csv")
    tried.see("a manifest of Dominion's batches", got == (0, wanted, told), got)
    write("o.csv", "Box name,Shelf,How many\nBox 7,left,3\nBox 8,right,4\nAll,,7\n")
    got = tried.run("manifest", "plain", "o.csv", "--batch=Box name", "--count=How many")
    tried.see("a manifest of an office's boxes, and its total", got[:2] == (0, "batch,cards\nBox 7,3\nBox 8,4\nAll,7\n") and "batch All has 7 cards, as many as all others together" in got[2], got)
    write("o.csv", "Batch,Cards,First,Last\nSumner 1,3,1,3\nTotally,2,,\nOak,2,5,6\n")
    got = tried.run("manifest", "plain", "o.csv")
    tried.see("batches whose names begin as a total does, and one without numbers", got[:2] == (0, "batch,cards\nSumner 1,3\nTotally,2\nOak,2\n"), got)
    tried.see("a number that is missing", "manifest: number 4 is missing: between batch Sumner 1 and batch Oak\n" in got[2], got)
    for total in ("Total", "TOTALS:", "Grand Total", "Subtotal", "Sum"):
        write("o.csv", f"Batch,Cards,First,Last\nOak,2,1,2\n{total},2,,\n")
        tried.refused(2, "manifest: o.csv: line 3: the row has no batch: take a line of totals out of the list", "manifest", "plain", "o.csv")
    write("h.csv", "Batch Number;Cards\n1;2\n")
    tried.refused(2, "manifest: h.csv: line 1: no column is called batchnumber", "manifest", "hart", "h.csv")
    for text, told in [
        ("batch,cards\nB1,x\n", "line 2: x isn't a number of cards"), ("batch,cards\nB1,\"1,200\"\n", "line 2: 1,200 isn't a number of cards; without marks it would be 1200"),
        ("batch,cards\nB1,2\nB1,3\n", "line 3: the batch B1 is already at b.csv: line 2"), ("batch,cards\nB1,2\n,2\n", "line 3: the row has no batch"),
        ("batch,cards\nTotal,2\n", "line 2: the row has no batch: take a line of totals out"), ("batch,cards\nÖl,2\n", "line 2: no manifest can have the batch Öl"),
        ("batch,cards,first,last\nB1,2,1,3\n", "line 2: the numbers 1 to 3 are 3 cards, and the count is 2"), ("batch,first,last\nB1,5,4\n", "line 2: the numbers 5 to 4 are 0 cards"),
        ("batch,first,last\nB1,1,5\nB2,5,6\n", "line 3: the numbers 5 to 6 of batch B2 overlap with those of batch B1, which end with 5"),
        ("batch\nB1\n", "line 1: no column is called cards, count"), ("", "is empty"),
    ]:
        write("b.csv", text)
        tried.refused(2, f"manifest: b.csv: {told}", "manifest", "plain", "b.csv")
    tried.refused(12, "manifest: none.csv: no such file\n", "manifest", "plain", "none.csv")
    write("b.csv", "batch,first,last\nB1,1,5\nB2,1,6\nB3,3,4\nB4,1,1\n")
    got = tried.run("manifest", "plain", "b.csv")
    tried.see("numbers of each batch", got[0] == 0 and "manifest: batch B3 begins with the number 3, and ids count from 1: numbers 1 to 2 are missing\n" in got[2], got)


# ---- ./raire rounds

def rounds(tried):
    """With the order that is given if candidates tie; the same as the program if they don't."""
    draws = Draws(60)
    for number in range(60):
        n = 2 + draws.below(4)
        ids = [f"c{c}" for c in range(n)]
        ballots = [[ids[draws.below(n)] for _ in range(draws.below(n + 1))] for _ in range(1 + draws.below(9))]
        write("b.raire", f"1\nContest,x,{n},{','.join(ids)}\n" + "".join(f"x,b_{k},{','.join(each)}\n".replace(",\n", "\n") for k, each in enumerate(ballots, 1)))
        order = sorted(ids, key=lambda _: draws.below(1000))
        status, text, err = tried.run("rounds", "b.raire", "--ties", ",".join(order))
        gone, remaining = [], list(ids)
        while len(remaining) > 1:
            votes = {c: sum(next((each for each in ballot if each in remaining), None) == c for ballot in ballots) for c in remaining}
            gone.append(min(remaining, key=lambda c: (votes[c], order.index(c))))
            remaining.remove(gone[-1])
        told = [line.removeprefix("eliminated ") for line in text.splitlines() if line.startswith("eliminated ")]
        tried.see(f"rounds {number}", (status, told, text.splitlines()[-1]) == (0, gone, f"winner {remaining[0]}"), (text, err))
        tried.see("that they aren't proved is told", "none of it is proved" in err, err)
    tie = os.path.join(TOP, "examples", "tie_that_matters.raire")
    got = tried.run("rounds", tie)
    wanted = "contest 1\nrecords 5\nround 1: 1=2 2=2 3=1 exhausted=0\neliminated 3\nround 2: 1=2 2=2 exhausted=1\ntied 1,2\n"
    tried.see("the rounds up to a tie", got == (3, wanted, "rounds: 1,2 tie; --ties gives the order in which those who tie are eliminated, the first of it first\n"), got)
    tried.refused(2, "rounds: --ties names 9, who isn't a candidate; there are: 1; 2; 3\n", "rounds", tie, "--ties=9")
    tried.refused(2, "rounds: --ties names a candidate twice\n", "rounds", tie, "--ties=1,1")
    tried.see("an order without one who ties stops there", tried.run("rounds", tie, "--ties=3,1")[0] == 3)


# ---- words and outputs of all tools

def helps(tried):
    for script in ("cards", "agree", "batches", "boxes", "manifest", "rounds"):
        page = read(os.path.join(TOP, "docs", "help", f"{script}.txt"))
        for word in ("--help", "-h", "help"):
            tried.see(f"{script} {word}", tried.run(script, word) == (0, page, ""))
        given = {**os.environ, "RAIRE": "/none"}
        words = {"cards": [MANIFEST, "--seed=1", "--draws=1"], "batches": [BALLOTS, MANIFEST]}.get(script)
        if words:
            ran = subprocess.run([os.path.join(TOP, "tools", script), *words], capture_output=True, text=True, env=given)
            tried.see(f"{script} needs a program", (ran.returncode, ran.stderr) == (1, f"{script}: RAIRE names no program: /none. What to do: unset RAIRE\n"), ran)
            ran = subprocess.run([os.path.join(TOP, "tools", script), *words], capture_output=True, text=True, env={**given, "RAIRE": "/bin/true"})
            told = (1, "", f"{script}: /bin/true gave no answer. What to do: unset RAIRE\n")
            tried.see(f"{script} needs one that answers", (ran.returncode, ran.stdout, ran.stderr) == told, ran)


def main():
    tried, here = Tried(sys.argv[1]), os.getcwd()
    for part in (
        tables, shelves, sheets, card_words, agreements, readings, own_batches, counted_boxes, all_cards, marks, pairs, named, terms, manifests, rounds, helps, alike,
    ):
        with tempfile.TemporaryDirectory() as folder:
            os.chdir(folder)
            part(tried)
            os.chdir(here)
    print(f"{tried.count - tried.failed} things of the office's tools as they should be, {tried.failed} not")
    sys.exit(1 if tried.failed else 0)


if __name__ == "__main__":
    main()
