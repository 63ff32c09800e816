#!/usr/bin/env python3
"""Tries ./raire desk without a browser: README's audits, what is left when it is killed, and what an observer finds.

acceptance/desk.py PROGRAM [KILLS] goes through the audits of the town, the village, the library, the county and the harbor, each at its own desk. Their
files must be the examples', and those that the commands make. `sh commands.txt` in an empty folder must make them again, and `./raire desk --read` must
find each file that was changed. The desk of another audit of the town is killed at KILLS instants (20 by default). A deed is killed before each of its
calls to the system. A full disk and a folder that can't be written must be reported. The last line says how many checks passed. PROGRAM is the one of
./raire.
"""
import collections
import contextlib
import glob
import gzip
import http.client
import io
import itertools
import os
import random
import re
import shutil
import signal
import socket
import subprocess
import sys
import tarfile
import tempfile
import threading
import time
import zipfile
from multiprocessing.pool import Pool, ThreadPool

from desk_shown import files_of, is_same, SHOWN
from desk_visit import Desk, free_ports, HOST, RAIRE, read, TOP, Visitor
from desk_walks import EXAMPLES, go_through, HOW, polled, read_cards, take, Walk, WALKS

sys.dont_write_bytecode = True
sys.path += [os.path.join(TOP, "tools", "desk"), os.path.join(TOP, "plain")]

import again  # noqa: E402
import exports  # noqa: E402
import folder  # noqa: E402
import forms  # noqa: E402
import record  # noqa: E402
import steps  # noqa: E402

PATH = {**os.environ, "PATH": f"{TOP}:{os.environ['PATH']}"}
KILLS = 20
LONGEST_LEG = 2.5  # seconds until a kill that comes after a while
MOST_WRITES, LOOK = 60, 0.0002  # at most how often files grow before a kill, and the seconds between two looks at them


class Tried:
    def __init__(self):
        self.count = self.failed = 0

    def see(self, shows, holds, told=""):
        self.count += 1
        if not holds:
            self.failed += 1
            print(f"./raire desk: {shows}: not so {told}", flush=True)


def files_in(place):
    return {name: read(os.path.join(place, name)) for name in os.listdir(place) if os.path.isfile(os.path.join(place, name))}


# ---- README's audits

def audit(name, place, port):
    """Goes through an audit to its end, and returns its bundle, or what went wrong."""
    try:
        with Desk(place, port) as desk:
            visitor = Visitor(desk)
            go_through(visitor, WALKS[name]())
            return visitor.ask("GET", "/bundle").body, None
    except (AssertionError, TimeoutError, OSError) as fault:
        return b"", f"{type(fault).__name__}: {fault}"


def audits(tried, place):
    """Goes through all audits at the same time, each at its own desk."""
    ports = free_ports(len(WALKS))
    with Pool(len(WALKS)) as pool:
        ran = pool.starmap(audit, [(name, os.path.join(place, name), port) for name, port in zip(WALKS, ports)])
    bundles = {}
    for name, (bundle, fault) in zip(WALKS, ran):
        tried.see(f"the audit of the {name} goes to its end", fault is None, fault)
        bundles[name] = bundle
    for name in SHOWN:
        there = files_in(os.path.join(place, name))
        for what, file, data in files_of(name, os.path.abspath(sys.argv[1])):
            tried.see(f"{file} of the {name} is {what} of README and docs", is_same(what, data, there.get(file)), len(data))
    see_harbor(tried, files_in(os.path.join(place, "harbor")))
    return bundles


def see_harbor(tried, there):
    """A poll whose cards are read as they are recorded."""
    for file in ("ballots.raire", "manifest.csv", "assertions.json"):
        tried.see(f"{file} of the harbor is the example's", there.get(file) == read(os.path.join(EXAMPLES, "harbor", file)))


def as_script(tried, place):
    """`sh commands.txt` in an empty folder makes all files again."""
    for name in WALKS:
        see_script(tried, os.path.join(place, name), os.path.join(place, f"{name}_by_sh"))


def see_script(tried, made, empty):
    os.mkdir(empty)
    ran = subprocess.run(["sh", os.path.join(made, record.NAME)], cwd=empty, env=PATH, capture_output=True, text=True)
    wanted = {file: data for file, data in files_in(made).items() if file != record.NAME}
    tried.see(f"sh commands.txt of {os.path.basename(made)} makes its files", ran.returncode == 0 and files_in(empty) == wanted, ran.stderr[-500:])


# ---- an export, and steps that are undone

RULES = {"as": "ranked", "overvotes": "end", "skips": "pass", "repeats": "pass", "write-ins": "merge", "marks": "counted", "counts": "compare"}


def exported(tried, place):
    """The town from a vendor's export: its account is confirmed line by line; then steps are undone, and plans are tried out."""
    path, [port] = os.path.join(place, "exported"), free_ports(1)
    with Desk(path, port) as desk:
        visitor, sheet = Visitor(desk), read(os.path.join(EXAMPLES, "office", "export.csv"))
        visitor.do("records", {"way": "export", "format": "ess", "id": "Batch,Card", **RULES}, [("exports", sheet)])
        tried.see("an export comes to README's records", read(os.path.join(path, "ballots.raire")) == read(os.path.join(EXAMPLES, "town", "ballots.raire")))
        lines = re.findall('name="line" value="([0-9]+)"', visitor.go("/step/account").text)
        tried.see("each line of the account is there", len(lines) == len(read(os.path.join(path, "account.txt")).splitlines()) > 10, lines)
        for ticked in ([], lines[1:]):
            told = f"{len(lines) - len(ticked)} of {len(lines)} lines aren’t checked off"
            page = visitor.do("account", [("line", line) for line in ticked])
            tried.see("an account that isn't confirmed stays open", told in page.text, page.words()[:300])
            tried.see("and keeps its check marks", page.text.count(" checked>") == len(ticked), page.text.count(" checked>"))
        tried.see("an account is confirmed line by line", 'class="typed"' in visitor.do("account", [("line", line) for line in lines]).text)
        visitor.do("contest", {"audit": "comparison"})
        visitor.do("cards", {"cast": "479"}, [("manifest", read(os.path.join(EXAMPLES, "town", "manifest.csv")))])
        tried.see("counts that don't agree are told", "The counts don’t agree" in visitor.page.text)
        page = visitor.post("/step/cards/back")
        tried.see("a step that is taken back leaves no file", "manifest.csv" not in os.listdir(path) and page.path == "/step/cards", os.listdir(path))
        visitor.do("cards", {"cast": "480"}, [("manifest", read(os.path.join(EXAMPLES, "town", "manifest.csv")))])
        visitor.do("assertions", {"budget": "--sets=1048576", "trim": "yes"})
        visitor.do("plan", {"limit": "2.5", "gamma": "150"})
        tried.see("a limit is typed in percent", "limit=25000\n" in read(os.path.join(path, record.NAME), "r"))
        visitor.post("/step/plan/try")
        before = files_in(path)
        words = visitor.go("/step/plan").words()
        tried.see("other limits and gammas are looked at", "5 percent 51 draws 56 draws 60 draws 65 draws" in words, words[-1500:])
        tried.see("hours are worked out", "about 2.7 hours" in visitor.go("/step/plan?draws=90&minutes=4&teams=2").words(), visitor.page.words()[:900])
        tried.see("to look changes no file", files_in(path) == before)
        visitor.do("plan", {"limit": "5", "gamma": "100"})
        text = read(os.path.join(path, record.NAME), "r")
        tried.see("a plan is made anew", "limit=50000\n" in text and "limit=25000" not in text)
        tried.see("seeds that differ aren't taken", "aren’t the same" in seed_refused(visitor))
        page = visitor.post("/step/seed/preview", {"seed": "dice  6 1 ", "again": "dice  6 1 "})
        tried.see("a seed is shown with every blank", "dice␣␣6␣1␣" in page.text, page.words()[:300])


def seed_refused(visitor):
    visitor.do("terms", {"rounds": "40 90", "how": HOW})
    visitor.go("/step/seed")
    text = visitor.post("/step/seed/preview", {"seed": "dice 6  1", "again": "dice 6 1"}).text
    visitor.go("/step/seed")
    return text


def named(tried, place):
    """Candidates whose ids are numbers are called by their names in the export."""
    path, [port] = os.path.join(place, "named"), free_ports(1)
    packed = export_of(os.path.join(EXAMPLES, "exports", "dominion_cards", "export"))
    with Desk(path, port) as desk:
        visitor = Visitor(desk)
        page = visitor.do("records", {"way": "export", "format": "dominion", **RULES}, [("exports", packed)])
        names = [line.rsplit(",", 1)[1] for line in read(os.path.join(path, "names.csv"), "r").splitlines()[1:]]
        are_called = names and all(name.strip('"') in page.words() for name in names)
        tried.see("candidates have their names", 'class="typed"' in page.text and are_called, page.words()[:600])
        page = visitor.post("/step/records/back")
        page = visitor.do("records", {"way": "export", "format": "dominion", **RULES, "skips": "two", "contest": "Mayor"}, [("exports", b"{}")])
        tried.see("another file than a zip is told", "it is text, and a zip is needed" in page.words(), page.words()[:300])
        is_kept = all(kept in page.text for kept in ('value="export" checked', "<details open>", 'value="two" selected', ">\nMayor</textarea>"))
        tried.see("and what was filled in with it is still there", is_kept, page.words()[:900])


def forms_of_exports(tried, place):
    """Each form of export, with the options of the examples: the desk's ballot file and names are the examples'."""
    path, [port] = os.path.join(place, "forms"), free_ports(1)
    with Desk(path, port) as desk:
        visitor, tried_forms = Visitor(desk), set()
        for example in sorted(glob.glob(os.path.join(EXAMPLES, "exports", "*"))):
            form, *words = read(os.path.join(example, "words"), "r").splitlines()
            given = list(itertools.takewhile(lambda word: not word.startswith("--"), words))
            options = dict.fromkeys(words[len(given)::2], "")
            for name, value in zip(words[len(given)::2], words[len(given) + 1::2]):
                options[name] += f"{value}\r\n" if name in ("--word", "--contest", "--without") else value
            if form not in exports.FORMATS or "--candidates" in options:
                continue
            title = {"title": os.path.splitext(given[0])[0]} if form in exports.UNTITLED else {}
            fields = {"way": "export", "format": form, **RULES, **title, **{name.removeprefix("--"): value for name, value in options.items()}}
            page = visitor.do("records", fields, [("exports", export_of(os.path.join(example, name))) for name in given])
            there, name = files_in(path), os.path.basename(example)
            tried.see(f"{name} comes to its ballot file", there.get("ballots.raire") == read(os.path.join(example, "out")), page.words()[:900])
            tried.see(f"{name} comes to its names", there.get("names.csv") == read(os.path.join(example, "names")))
            tried_forms.add(form)
            visitor.post("/step/records/back")
    tried.see("each form is tried", tried_forms == set(exports.FORMATS), set(exports.FORMATS) - tried_forms)


def export_of(path):
    """A file as it is uploaded; a folder is put in a zip."""
    if os.path.isfile(path):
        return read(path)
    packed = io.BytesIO()
    with zipfile.ZipFile(packed, "w") as zipped:
        for top, _, names in os.walk(path):
            for name in names:
                zipped.write(os.path.join(top, name), os.path.relpath(os.path.join(top, name), path))
    return packed.getvalue()


def sheet_of_reader_b(tried, visitor, walk):
    """Reader B gives a sheet that was filled in: first with mistakes, then without."""
    visitor.go("/read/1/B")
    visitor.post("/read/1/B/begin", {"person": "JL"})
    rows = read(os.path.join(visitor.folder, "sheet1.csv"), "r").splitlines()
    cards = {row.rstrip(","): walk.seen[row.rstrip(",")][None] for row in rows}
    lines = [f"{card},missing" if ranked is None else ",".join([card, "ballot", *ranked]) for card, ranked in cards.items()]
    for bad, told in (
        (["x_1,ballot"], "x_1 isn't a card of this round"), (["x"], "isn't a card"), ([lines[0] + ",Nobody"], "Nobody isn't a candidate"),
        ([lines[0]] * 2, "is listed twice"), (rows, "This file has no reading"), ([""], "This file has no reading"), ([rows[0] + "torn"], "either ballot and the ranked candidates"), (["x" * 200_000], "not a comma-separated file"),
    ):
        visitor.go("/read/1/B")
        page = visitor.post("/read/1/B/sheet", {}, [("readings", "\n".join(bad).encode())])
        tried.see(f"a sheet with {bad[0][:40]} is refused", page.status == 400 and told in page.words(), page.words()[:400])
    visitor.go("/read/1/B")
    page = visitor.post("/read/1/B/sheet", {}, [("readings", "\n".join([lines[0], *rows[1:]]).encode())])
    tried.see("a sheet that is filled in part gives that part", f"1 of {len(rows)} cards read" in page.words(), page.words()[:400])
    page = visitor.post("/read/1/B/sheet", {}, [("readings", "\n".join(lines).encode())])
    tried.see("a sheet gives all readings", page.path == "/step/read1" and f"{len(rows)} of {len(rows)} cards read" in page.words(), page.words()[:400])


def no_new_card(tried, place):
    """A round whose draws took only cards that were read before: nobody has to read, and each counts again."""
    path, [port] = os.path.join(place, "no_new_card"), free_ports(1)
    walk = WALKS["town"]()
    walk.rounds = (45, 46)
    with Desk(path, port) as desk:
        visitor = Visitor(desk)
        go_through(visitor, walk, until="end")
        tried.see("a round without a new card is counted", "round 2 draws 46" in read(os.path.join(path, "report2.txt"), "r"))
    tried.see("and is the same again", looked_at(path)[0] == 0)


def county_by_files(tried, place):
    """The county, whose readers give seen files of all its contests. Its terms name the contests, those that are omitted, and when an audit ends."""
    path, [port] = os.path.join(place, "county_by_files"), free_ports(1)
    walk = WALKS["county"]()
    with Desk(path, port) as desk:
        visitor = Visitor(desk)
        go_through(visitor, walk, until="read1")
        tried.see("a sheet without contests isn't offered", "a sheet to fill in" not in visitor.go("/step/fetch1").words())
        terms = " ".join(read(os.path.join(path, "terms.txt"), "r").split())
        for told in (
            "Contests Mayor; Sheriff; Council ward 1; School board seat 4; Library levy", "Left out Council ward 2 (it is tied)",
            "a contest's audit ends with its first \"signed off yes\"", "Budget --nodes=100000, the default",
        ):
            tried.see(f"the terms of a county say {told[:30]}", told in terms, terms)
        cards = {line.split(",")[2] for line in read(os.path.join(path, "cards1.csv"), "r").splitlines()[1:]}
        seen = [line for line in walk.data("seen.csv").decode().splitlines() if line.split(",")[0] in cards]
        first = seen[0].split(",")[0]
        for reader, person in (("A", "MK"), ("B", "JL")):
            visitor.go(f"/read/1/{reader}")
            visitor.post(f"/read/1/{reader}/begin", {"person": person})
            for bad, told in (
                (seen[:1], f"{first} has no reading for Sheriff"), ([seen[0].replace("Mayor", "Mayer")], "Mayer isn't a contest of this audit"), (seen[:1] * 2, "twice for Mayor"),
                ([f"{first},Mayor,missing", *seen[1:5]], "A card that can’t be found is missing in each"), (["x_1,Mayor,ballot"], "x_1 isn't a card of this round"),
                ([first], "nothing isn't a contest"), ([f"{first},Mayor,"], "has no reading: nothing is filled in"),
            ):
                visitor.go(f"/read/1/{reader}")
                page = visitor.post(f"/read/1/{reader}/sheet", {}, [("readings", "\n".join(bad).encode())])
                tried.see(f"a seen file of a county with {bad[0][:40]} is refused", page.status == 400 and told in page.words(), page.words()[:400])
            visitor.go(f"/read/1/{reader}")
            page = visitor.post(f"/read/1/{reader}/sheet", {}, [("readings", "\n".join(seen).encode())])
            tried.see("a seen file gives all readings of a county", page.path == "/step/read1" and f"{len(cards)} of {len(cards)} cards read" in page.words(), page.words()[:400])
        tried.see("and both agree", 'class="typed"' in visitor.do("read1").text, visitor.page.words()[:400])
        go_through(visitor, walk, until="end")
        tried.see("that contests are left is told", "Not every contest is signed off." in visitor.go("/step/end").words(), visitor.page.words()[:400])
        go_through(visitor, walk)
    tried.see("the county is that of README", files_in(path).get("seen1.csv", b"").decode().splitlines() == in_order(seen, path))


def in_order(seen, path):
    """The records of a seen file, card by card in the order of fetching."""
    cards = [line.split(",")[2] for line in read(os.path.join(path, "cards1.csv"), "r").splitlines()[1:]]
    return sorted(seen, key=lambda line: cards.index(line.split(",")[0]))


def differing(tried, place):
    """Readings that differ are shown side by side, and nothing is written until both readers agree."""
    path, [port] = os.path.join(place, "differing"), free_ports(1)
    walk = WALKS["library"]()
    with Desk(path, port) as desk:
        visitor = Visitor(desk)
        go_through(visitor, walk, until="read1")
        card = re.search(r"<td>([A-Z0-9a-z]+_[0-9]+)</td>", visitor.go("/step/fetch1").text)[1]
        right = walk.seen[card]
        walk.seen[card] = {None: ["Okafor"] if right[None] != ["Okafor"] else ["Ito"]}
        read_cards(visitor, walk, 1, ["A"])
        walk.seen[card] = right
        sheet_of_reader_b(tried, visitor, walk)
        before = files_in(path)
        page = visitor.do("read1")
        words = page.words()
        are_shown = "ended with status 6" in words and f"Cards that were read differently Card MK JL {card}" in words
        tried.see("readings that differ are side by side", are_shown, words[:900])
        tried.see("and nothing is written", files_in(path) == before)
        page = visitor.go(f"/read/1/A?card={card}")
        take(visitor, walk, 1, "A", page)
        tried.see("what was said of them isn't said any longer", "ended with status 6" not in visitor.go("/step/read1").text, visitor.page.words()[:600])
        tried.see("a reading that is mended agrees", 'class="typed"' in visitor.do("read1").text, visitor.page.words()[:600])


# ---- the observer

def looked_at(path):
    ran = subprocess.run([RAIRE, "desk", "--read", path], capture_output=True, text=True)
    return ran.returncode, dict(line.split(": ", 1) for line in ran.stdout.splitlines() if ": " in line), ran.stderr


def bundle_of(place, data):
    path = os.path.join(place, "bundle")
    with tarfile.open(fileobj=io.BytesIO(data)) as tar:
        tar.extractall(path)
    return os.path.join(path, "audit")


def observers(tried, place, data):
    """A bundle is found to be the same, and each of its files is found to be changed if a byte of it is."""
    whole = bundle_of(place, data)
    status, said, err = looked_at(whole)
    tried.see("a bundle is the same when it is run again", status == 0 and set(said.values()) == {"the same"}, (said, err))
    tried.see("each of its files is looked at", set(said) == set(os.listdir(whole)), set(os.listdir(whole)) - set(said))
    with ThreadPool(4) as pool:
        for name, found in pool.imap(lambda name: (name, changed(place, whole, name)), sorted(os.listdir(whole))):
            tried.see(f"a changed byte of {name} is found", found is None, found)
    packed = os.path.join(place, "audit.tar.gz")
    with open(packed, "wb") as file:
        file.write(data)
    tried.see("a bundle is read as it is", looked_at(packed)[0] == 0)
    damaged_bundles(tried, place, data)
    os.unlink(os.path.join(whole, "seen1.csv"))
    tried.see("a file that is missing is told", looked_at(whole)[1]["seen1.csv"] == "is missing")
    os.unlink(os.path.join(whole, "seen1_A.csv"))
    said = looked_at(whole)[1]["seen.csv"]
    tried.see("what isn't made again for want of a file names it", said == "isn't made again: seen1.csv: No such file or directory", said)
    no_desks(tried)


def no_desks(tried):
    """A folder that isn't a desk's is reported, along with what checks its files."""
    town = os.path.join(TOP, "examples", "town")
    for path, why in ((town, "isn't the folder of a desk: it has no commands.txt. What to do: the commands in docs/observers.md check its files"),
                      (town + "s", "no such file")):
        got = looked_at(path)
        tried.see(f"{path} is no desk's folder", got == (7, {}, f"desk: {path}: {why}\n"), got)


def damaged_bundles(tried, place, data):
    """If a bundle is damaged anywhere, a line says so, with status 7, and nothing of it is run."""
    path = os.path.join(place, "damaged.tar.gz")
    header, trailer = range(10), range(len(data) - 8, len(data))
    flips = {f"bit {bit} of byte {at} changed": flipped(data, at, bit) for bit, at in ((0, min(5_000, len(data) // 2)), (0, 4), (3, len(data) - 1))}
    packed = {"other archive": gzip.compress(b"no archive" * 1_000, 6, mtime=0)}
    unzipped = gzip.decompress(data)
    packed["archive without its end"] = zipped(unzipped[:-tarfile.RECORDSIZE])
    packed["archive with more after its end"] = zipped(unzipped + b"more")
    packed["archive of a changed head"] = zipped(unzipped.replace(b"audit/terms.txt", b"audit/terms.txu", 1))
    for what, damaged in {**flips, **packed, "cut off": data[:-1], "a byte after its end": data + b"\0", "two in one": data + data, "empty": b""}.items():
        with open(path, "wb") as file:
            file.write(damaged)
        status, said, err = looked_at(path)
        is_told = err.startswith("desk: ") and err.count("\n") == 1 and "a desk's bundle" in err
        tried.see(f"a bundle with {what} is told", (status, said) == (7, {}) and is_told, (status, said, err))
    rest = random.Random(7).sample(range(len(data)), 60)
    for at in {*header, *trailer, *rest}:
        with open(path, "wb") as file:
            file.write(flipped(data, at, at % 8))
        tried.see(f"a changed byte {at} of {len(data)} of a bundle is noticed", is_unusable(path))


def flipped(data, at, bit):
    return data[:at] + bytes([data[at] ^ 1 << bit]) + data[at + 1:]


def zipped(data):
    out = io.BytesIO()
    with gzip.GzipFile(filename="", mode="wb", fileobj=out, compresslevel=6, mtime=0) as file:
        file.write(data)
    return out.getvalue()


def is_unusable(path):
    with tempfile.TemporaryDirectory() as own:
        try:
            again.unpacked(path, os.path.join(own, "bundle"))
        except folder.Unusable:
            return True
    return False


def changed(place, whole, name):
    """What isn't found when one byte of this file is changed."""
    copy = os.path.join(place, f"changed_{name}")
    shutil.copytree(whole, copy)
    data = bytearray(read(os.path.join(copy, name)))
    data[random.Random(name).randrange(len(data))] ^= 1
    with open(os.path.join(copy, name), "wb") as file:
        file.write(data)
    before = files_in(copy)
    status, said, err = looked_at(copy)
    is_found = status == 6 and "was changed" in said.get(name, "")
    is_left = files_in(copy) == before
    shutil.rmtree(copy)
    return None if is_found and is_left else (status, said.get(name), err)


def hostile_records(tried, place):
    """A record with somebody else's command isn't run."""
    path = os.path.join(place, "hostile")
    os.mkdir(path)
    for number, line in enumerate((
        "touch ../was_here > /dev/null", "raire report ../../etc/passwd > report1.txt", "raire report /etc/passwd > report1.txt", "raire desk x.txt > report1.txt",
        "raire report round1.json > ../was_here.txt", "raire report round1.json; touch was_here > report1.txt", "raire report $(touch was_here) > report1.txt",
        "raire show page.html --names=/etc/passwd > page.html", "raire convert plain ../export1.csv > ballots.raire", "cat ../seen1.csv > seen.csv", "joined a ../seen1.csv > seen1.csv",
        "raire --build > report1.txt", "raire release . > report1.txt", "`touch was_here`", "raire report round1.json > commands.txt", "raire search -- ../x.raire > a.json",
    )):
        text = f"{record.HEAD}\n{record.STEP}round1\n{line}\nmade 0\n"
        with open(os.path.join(path, record.NAME), "w") as file:
            file.write(f"{text}\n{record.END}{record.digest_of(text.encode())}\n")
        status, said, err = looked_at(path)
        tried.see(f"{line} is refused", status == 6 and said.get(record.NAME, "").startswith("was changed") and sorted(os.listdir(path)) == [record.NAME], (number, said, err))
    tried.see("nothing was made by them", not os.path.exists(os.path.join(place, "was_here")))


# ---- killed at any instant

class Killer(threading.Thread):
    """Kills a desk and its commands at some instant: after a while, or as soon as files of its folder have grown a number of times."""

    def __init__(self, desk, chance):
        super().__init__(daemon=True)
        self.desk, self.is_over = desk, threading.Event()
        self.seconds, self.writes = chance.uniform(0, LONGEST_LEG), chance.choice((None, chance.randrange(1, MOST_WRITES)))

    def run(self):
        if self.writes is None:
            if not self.is_over.wait(self.seconds):
                self.desk.end(signal.SIGKILL)
            return
        sizes = sizes_in(self.desk.folder)
        while not self.is_over.wait(LOOK):
            was, sizes = sizes, sizes_in(self.desk.folder)
            self.writes -= any(size > was.get(path, 0) for path, size in sizes.items())
            if self.writes <= 0:
                self.desk.end(signal.SIGKILL)
                return

    def call_off(self):
        self.is_over.set()
        self.join()


def sizes_in(path):
    """The size of each file of a desk's folder, including those that it is about to make."""
    found = {}
    for top in (path, os.path.join(path, folder.SCRATCH)):
        with contextlib.suppress(OSError):
            found.update({entry.path: entry.stat(follow_symlinks=False).st_size for entry in os.scandir(top)})
    return found


def killed(tried, place, kills, whole):
    """Kills the desks of audits of the town this many times in all. Each audit ends with the bytes of the one that nobody killed."""
    chance, began, [port], left, audits_made = random.Random(61), time.monotonic(), free_ports(1), kills, 0
    counts = collections.Counter()
    while left > 0:
        audits_made += 1
        path = os.path.join(place, f"killed_{audits_made}")
        left -= killed_audit(tried, path, port, chance, left, whole, counts)
    at_writes, within = counts["at a write"], counts["within a deed"]
    print(
        f"the desk was killed {kills - left} times in {audits_made} audits and {time.monotonic() - began:.0f} seconds: "
        f"{at_writes} times when a file had grown, {within} times within a deed", flush=True,
    )


def killed_audit(tried, path, port, chance, kills, whole, counts):
    """Kills one audit of the town up to this many times, and returns how often it was killed."""
    walk, done = WALKS["town"](), 0
    while True:
        with Desk(path, port) as desk:
            tried.see(f"the desk goes on after {done} kills", desk.address is not None, desk.told)
            killer = Killer(desk, chance)
            if done < kills:
                killer.start()
            try:
                go_through(Visitor(desk), walk)
                if done < kills:
                    killer.call_off()
                break
            except (OSError, http.client.HTTPException) as fault:
                killer.join()
                done += 1
                counts["at a write"] += killer.writes is not None
                counts["within a deed"] += os.path.isdir(os.path.join(path, folder.SCRATCH))
                tried.see("only a kill ends a walk", desk.process.poll() == -signal.SIGKILL, fault)
                see_whole(tried, path, whole)
                if desk.process.poll() != -signal.SIGKILL:
                    return done
    tried.see("a town that was killed ends with the same bytes", files_in(path) == files_in(whole), (set(files_in(path)), done))
    return done


def see_whole(tried, path, whole):
    """Each file that a killed desk leaves, besides drafts and scratch, is one of the whole audit, or is ready to be moved into place."""
    wanted = files_in(whole)
    for name, data in files_in(path).items():
        is_known = name.endswith((folder.DRAFT_END, folder.NEW_END)) or name in (record.NAME, "seen.csv") or wanted.get(name) == data
        tried.see(f"{name} is whole after a kill", is_known, len(data))


STATES = {(): [{}], ("one",): [{"a.txt": b"first"}], ("one", "two"): [{"a.txt": b"first", "b.txt": data} for data in (b"second", b"other")]}


def at_each_call(tried, place):
    """A deed and its undoing, killed before each call to the system in turn: the folder is as before or as after."""
    ended = []
    for number in range(1, 400):
        path = os.path.join(place, f"call_{number}")
        child = os.fork()
        if child == 0:
            die_at(number, path)
        status = os.waitpid(child, 0)[1]
        ended.append(status)
        opened = folder.Folder(path)
        opened.open()
        steps = [deed.step for deed in opened.record]
        there = {name: data for name, data in files_in(path).items() if name != record.NAME}
        is_whole = there in STATES.get(tuple(steps), []) and not opened.damaged()
        tried.see(f"killed before call {number}", is_whole, (steps, there))
        os.close(opened.is_locked_by)
        shutil.rmtree(path)
        if status == 0:
            break
    tried.see("the deeds end once no call is left", ended[-1] == 0 and len(ended) > 60, len(ended))


def die_at(number, path):
    """Does two deeds, undoes one, does it again and then in another way, and dies before the call of this number."""
    left = [number]

    def counted(call):
        def called(*words, **given):
            left[0] -= 1
            if left[0] == 0:
                os.kill(os.getpid(), signal.SIGKILL)
            return call(*words, **given)
        return called

    for name in ("rename", "unlink", "fsync", "symlink", "makedirs", "open", "rmdir", "write"):
        setattr(os, name, counted(getattr(os, name)))
    folder.write_synced = counted(folder.write_synced)
    place = folder.Folder(path)
    place.open()
    do(place, [], "one", {"a.txt": b"first"})
    do(place, place.record, "two", {"b.txt": b"second"})
    place.prepare([])
    place.commit(place.record[:-1])
    do(place, place.record, "two", {"b.txt": b"second"})
    do(place, place.record[:-1], "two", {"b.txt": b"other"})
    os._exit(0)


def do(place, base, step, files):
    place.prepare(base)
    lines = []
    for name, data in files.items():
        path = os.path.join(place.scratch, name)
        if os.path.lexists(path):
            os.unlink(path)
        with open(path, "wb") as file:
            file.write(data)
        lines.append(record.Given(name, record.digest_of(data)))
    place.commit([*base, record.Deed(step, tuple(lines))])


def changed_by_hand(tried, place):
    """A desk doesn't go on with a folder if a file in it, or its record, was changed."""
    path, [port] = os.path.join(place, "by_hand"), free_ports(1)
    with Desk(path, port) as desk:
        go_through(Visitor(desk), WALKS["village"](), until="cards")
    for name in ("ballots.raire", record.NAME):
        was = read(os.path.join(path, name))
        with open(os.path.join(path, name), "ab") as file:
            file.write(b"x")
        with Desk(path, port) as desk:
            tried.see(f"{name} that was changed is told", desk.process.wait(60) == 7 and name in desk.told, desk.told)
        with open(os.path.join(path, name), "wb") as file:
            file.write(was)
    with Desk(path, port) as desk:
        tried.see("as it was it goes on", desk.address is not None, desk.told)


STRANGE = ["<script>alert(1)</script>", "$(id) `id` '; #", "--x=\\\\n & %41 +"]  # what ids may be


def strange_ids(tried, place):
    """Ids that look like scripts, shell words or parts of an address mean only themselves, in all contests of a file."""
    path, [port] = os.path.join(place, "strange"), free_ports(1)
    people = [name.replace("x", "y") for name in STRANGE]
    cards = [f"{batch}_{number}" for batch in STRANGE for number in range(1, 6)]
    votes = [f"{contest},{card},{','.join(people)}" for contest in STRANGE[::2] for card in cards]
    walk = WALKS["county"]()
    walk.data = {
        "ballots.raire": "\n".join(["2", *[f"Contest,{contest},3,{','.join(people)}" for contest in STRANGE[::2]], *votes, ""]).encode(),
        "manifest.csv": "".join(["batch,cards\n", *[f"{batch},5\n" for batch in STRANGE]]).encode(),
    }.get
    walk.seed, walk.rounds, walk.cast = "$(id) ' ; rm -rf / <b>", (6, 9), 15
    walk.seen = {card: dict.fromkeys(STRANGE[::2], people) for card in cards}
    walk.seen[cards[0]] = dict.fromkeys(STRANGE[::2])
    with Desk(path, port) as desk:
        visitor = Visitor(desk)
        go_through(visitor, walk)
        pages = [visitor.ask("GET", f"/step/{step}").text for step, _, _ in walk.steps()] + [visitor.ask("GET", "/typed").text]
    tried.see("no id is a script on a page", not any("<script>alert" in page or "rm -rf / <b>" in page for page in pages))
    status, said, err = looked_at(path)
    tried.see("strange ids come to the same files again", status == 0, (said, err))
    see_script(tried, path, os.path.join(place, "strange_by_sh"))


def numbers(tried):
    """Numbers with misplaced commas are refused, and aren't read as other numbers."""
    for text, wanted in (
        ("480", 480), ("4,805", 4_805), (" 1,234,567 ", 1_234_567), ("480,5", None), ("48,05", None), ("4,8,05", None), (",480", None), ("480,", None), ("1,2345", None),
        ("0480", 480), ("4 805", None), ("4.805", None), ("", None), ("2,000,000,000", None), ("1,000,000,000", 1_000_000_000),
    ):
        tried.see(f"{text!r} is {wanted}", judged(lambda form: form.number("x", "The number", 1, 1_000_000_000), text)[0] == wanted, text)
    tried.see("how commas stand is told", "Use commas only between thousands" in judged(lambda form: form.number("x", "The number", 1, 10), "480,5")[1])
    for text, wanted in (("5", 50_000), ("5.5", 55_000), ("2.5 %", 25_000), ("5,5", None), ("5,", None), ("1e1", 100_000)):
        tried.see(f"{text!r} percent is {wanted}", judged(lambda form: form.millionths("x", "The risk limit"), text)[0] == wanted, text)
    tried.see("a point is asked for", "Write 5.5, with a point" in judged(lambda form: form.millionths("x", "The risk limit"), "5,5")[1])
    for text, wanted in (("40 90", [40, 90]), ("40, 90", [40, 90]), ("1,200", None), ("40,90", None), ("90 40", None), (", ", None)):
        tried.see(f"the draws {text!r} are {wanted}", judged(lambda form: steps.rounds_of(form.values["x"]), text)[0] == wanted, text)


def judged(judge, text):
    """The value that a form's text is read as, or None and why it is refused."""
    try:
        return judge(forms.Form({"x": text}, {})), ""
    except forms.Wrong as wrong:
        return None, str(wrong)


def begun_in_vain(tried, place):
    """A desk whose port is taken leaves no folder that it made, and leaves an existing folder as it was."""
    port = socket.socket()
    with port:
        port.bind((HOST, 0))
        port.listen()
        os.makedirs(os.path.join(place, "vain", "there"))
        for name in ("new", "new/and/deep", "there"):
            path = os.path.join(place, "vain", name)
            with Desk(path, port.getsockname()[1]) as desk:
                tried.see("a port that is taken is told", desk.process.wait(60) == 7 and "--port gives another port" in desk.told, desk.told)
            tried.see("nothing is left", os.listdir(os.path.join(place, "vain")) == ["there"] and not os.listdir(os.path.join(place, "vain", "there")), name)


def full_counts(tried, place):
    """A count of another contest is refused at its step; for one of the contest, the page says which cards have no ballot. Draws can be looked at before
    they are made."""
    path, [port] = os.path.join(place, "counts"), free_ports(1)
    walk = WALKS["village"]()
    with Desk(path, port) as desk:
        visitor = Visitor(desk)
        go_through(visitor, walk, until="terms")
        page = visitor.post("/step/terms/preview", {"rounds": "", "how": HOW})
        tried.see("draws that are missing are told", "The list of the numbers of draws is missing." in page.words(), page.words()[:300])
        page = visitor.post("/step/terms/preview", {"rounds": "37", "how": "dice, in publik", "change": "yes"})
        is_kept = 'value="37"' in page.text and 'value="dice, in publik"' in page.text and "Preview the terms" in page.text
        tried.see("terms that are changed again are as they were typed", page.status == 200 and is_kept, page.words()[:300])
        for address, wanted in (("/step/terms/preview", "/step/terms"), ("/step/records/do", "/step/records"), ("/step/plan/try", "/step/plan"), ("/step/terms/back", "/step/terms")):
            answer = visitor.ask("GET", address)
            tried.see(f"{address} leads to its page", (answer.status, answer.headers.get("Location")) == (303, wanted), answer.status)
        for address in ("/step/nothing/do", "/step/terms/nothing", "/read/1/A/take"):
            tried.see(f"{address} is no page", visitor.ask("GET", address).status == 404)
        go_through(visitor, walk, until="fetch1")
        visitor.go("/step/fetch1")
        before = files_in(path)
        for draws, told in (("380", "This isn’t the number that the terms say."), ("38", "38 draws at this round")):
            page = visitor.post("/step/fetch1/preview", {"draws": draws})
            tried.see(f"{draws} draws are looked at", told in page.words() and ("isn’t the number" in page.words()) == (draws != "38"), page.words()[:600])
        cards = re.search(r"New cards to fetch (\d+)", page.words())[1]
        tried.see("and change nothing", files_in(path) == before)
        page = visitor.post("/step/fetch1/preview", {"draws": "3,8"})
        tried.see("a number that is none is told", page.status == 400 and "is a whole number" in page.words(), page.words()[:300])
        go_through(visitor, walk, until="read1")
        tried.see("as many cards as were said", len(read(os.path.join(path, "cards1.csv")).splitlines()) - 1 == int(cards), cards)
        for address in ("/read/1/A", "/read/1/A/take", "/read/1/A/begin", "/read/1/A/sheet"):
            tried.see(f"{address} leads to a reader's page", visitor.go(address).path == "/read/1/A", visitor.page.path)
        go_through(visitor, walk, until="count")
        tried.see("that the terms have no further draws is told", "The terms have no further draws: after them comes a full count." in visitor.go("/step/round1").words())
        counted = walk.data("counted.raire")
        for data, told in (
            (read(os.path.join(EXAMPLES, "town", "ballots.raire")), "&#34;Village mayor&#34; is none of them"),
            (counted.replace(b"3,Fir,Hazel,Oak", b"3,Hazel,Fir,Oak"), "with the same candidates in the same order"),
            (counted.replace(b"3,Fir,Hazel,Oak", b"4,Fir,Hazel,Oak,Elm"), "with the same candidates in the same order"),
            (b"no ballots", "B1 at 1"),
        ):
            page = visitor.do("count", {}, [("counted", data)])
            tried.see("another count is refused at its step", told in page.text and "counted.raire" not in os.listdir(path), page.words()[:600])
            tried.see("only the last refusal is there", page.text.count('role="alert"') == 1, page.words()[:600])
        wrong = counted.replace(b"V1_1,", b"V9_1,", 1)
        for data, wanted in ((counted, "1 of 60 cards has no ballot."), (wrong, "names no card of the manifest"), (counted[:counted.rindex(b"Village", 0, -1)], "2 of 60 cards have no ballot.")):
            page = visitor.do("count", {}, [("counted", data)])
            words = page.words()
            tried.see("cards without a ballot are told", wanted in words and "Not a full count yet." in words and "Without a ballot: V" in words, words[:900])
            visitor.post("/step/count/back")
        manifest = read(os.path.join(path, "manifest.csv"), "r").splitlines()[1:]
        cards = [f"{batch}_{at}" for batch, size in (line.split(",") for line in manifest) for at in range(1, int(size) + 1)]
        ballots = "".join(f"Village mayor,{card},Oak\n" for card in cards)
        for left in (0, 1, 12):
            data = f"1\nContest,Village mayor,3,Fir,Hazel,Oak\n{''.join(ballots.splitlines(True)[left:])}".encode()
            words = visitor.do("count", {}, [("counted", data)]).words()
            told = {0: "Whole: each of the 60 cards", 1: "1 of 60 cards has no ballot. Without a ballot: V1_1 .", 12: f"Without a ballot: {', '.join(cards[:10])} and 2 more."}[left]
            tried.see(f"{left} cards without a ballot are told", told.replace(" .", ".") in words, words[:900])
            visitor.post("/step/count/back")


def helps(tried):
    """The help page, and words that are wrong."""
    wanted = read(os.path.join(TOP, "docs", "help", "desk.txt"), "r")
    for words in (["--help"], ["-h"], ["help"]):
        ran = subprocess.run([RAIRE, "desk", *words], capture_output=True, text=True)
        tried.see(f"desk {words[0]} prints its page", (ran.returncode, ran.stdout) == (0, wanted), ran.stderr)
    for words in ([], ["a", "b"], ["a", "--port", "0"], ["a", "--port=x"], ["--read", "a", "--port=8021"], ["--nothing", "a"]):
        ran = subprocess.run([RAIRE, "desk", *words], capture_output=True, text=True)
        tried.see(f"desk {words} is refused", ran.returncode == 1 and "./raire help desk" in ran.stderr, ran.stderr)


def of_plurality(tried, place):
    """If first preferences of a plurality contest tie, the page says so at the step with its boxes; a full count of it elects nobody by a runoff."""
    path, [port] = os.path.join(place, "plurality"), free_ports(1)
    with Desk(path, port) as desk:
        visitor = Visitor(desk)
        for ranked, is_tied in ((["Ann", "Bo", "Cy,Bo"], True), (["Ann", "Ann", "Ann", "Bo", "Bo", "Cy,Bo", "Cy,Bo"], False)):
            records = "".join(f"m,b_{at},{ids}\n" for at, ids in enumerate(ranked, 1))
            ballots = f"1\nContest,m,3,Ann,Bo,Cy\n{records}".encode()
            visitor.do("records", {"way": "raire"}, [("ballots", ballots)])
            page = visitor.do("contest", {"audit": "plurality"})
            told = "3 candidates share the most first preferences" if is_tied else "Ann has the most first preferences"
            tried.see("who leads is told", told in page.words(), page.words()[:500])
            margins = "Ann 3 – Bo 2 1 Cy 2 1"
            tried.see("with first preferences and margins", is_tied or margins in page.words(), page.words()[:900])
            page = visitor.do("cards", {"cast": len(ranked)}, [("manifest", f"batch,cards\nb,{len(ranked)}\n".encode())])
            tried.see("a tie is told before the terms", ("tied Ann,Bo,Cy" in page.text) == is_tied == ("manifest.csv" not in os.listdir(path)), page.words()[:500])
            if is_tied:
                visitor.go("/step/contest")
                visitor.post("/step/contest/back")
                visitor.go("/step/records")
                visitor.post("/step/records/back")
        visitor.do("plan", {"limit": "5", "gamma": "100"})
        visitor.do("terms", {"rounds": "2", "how": HOW})
        visitor.do("seed", {"seed": "1", "again": "1"})
        page = visitor.do("fetch1", {"draws": "1"})
        tried.see("draws that the terms don't say are told", "The terms say 2 draws in all at this round, and 1 were made" in page.text, page.words()[:500])
        for reader in "AB":
            visitor.go(f"/read/1/{reader}")
            visitor.post(f"/read/1/{reader}/begin", {"person": reader})
            visitor.post(f"/read/1/{reader}/sheet", {}, [("readings", read(os.path.join(path, "sheet1.csv")).replace(b",\n", b",missing\n"))])
        visitor.do("read1")
        page = visitor.do("round1")
        are_named = all(f"Ann has more first preferences than {name}" in page.words() for name in ("Bo", "Cy"))
        tried.see("a round names the candidates of each claim", are_named, page.words()[:900])
        page = visitor.go("/step/end")
        tried.see("an end without an answer is told", "The audit isn’t signed off, and this folder has no full count" in page.text, page.words()[:500])
        page = visitor.do("count", {}, [("counted", ballots)])
        tried.see("a full count names no winner of a runoff", page.status == 200 and "counted.raire" in os.listdir(path) and "winner" not in page.text, page.words()[:500])
        visitor.do("end")
        tried.see("the page names who has the most first preferences", b"Ann wins" in files_in(path)["page.html"], page.words()[:500])
    status, _, err = looked_at(path)
    tried.see("its files are made again", status == 0, err)


def polled_each(tried, place):
    """A poll that looks after each draw, with the gamma that fits each margin: the terms say so, and the round has the draw that confirms each assertion."""
    path, [port] = os.path.join(place, "polled_each"), free_ports(1)
    walk = Walk("harbor", "poll", WALKS["harbor"]().seed, (40, 100), 142, gamma="best", seen=polled("harbor") + "H3_42,ballot\n", plan={"looks": "each"})
    with Desk(path, port) as desk:
        visitor = Visitor(desk)
        go_through(visitor, walk, until="plan")
        page = visitor.do("plan", {**walk.plan, "gamma": "best", "looks": "rounds"})
        tried.see("gamma is fitted only where each draw is looked at", "Gamma is a whole number from 1 to 500." in page.text, page.words()[:500])
        page = visitor.do("plan", {**walk.plan, "gamma": "1000001"})
        tried.see("and has a limit", "Gamma is a whole number from 1 to 1,000,000." in page.text, page.words()[:500])
        go_through(visitor, walk)
        page = visitor.go("/step/round2")
    words = ["poll", "manifest.csv", "assertions.json", "seen.csv", f"--seed={walk.seed}", "--draws=100", "--limit=50000", "--gamma=best", "--each"]
    ran = subprocess.run([RAIRE, *words], cwd=path, capture_output=True)
    there = files_in(path)
    tried.see("the answer is what is typed prints", ran.returncode in (0, 10) and there.get("poll100.txt") == ran.stdout, ran.stderr)
    draws = re.findall(r"confirmed (\d+)$", ran.stdout.decode(), re.MULTILINE)
    tried.see("the page has the draw of each assertion", draws and all(f"confirmed by draw {draw}" in page.words() for draw in draws), (draws, page.words()[:3000]))
    terms = " ".join(there["terms.txt"].decode().split())
    tried.see("the terms say so", "the risk is computed after each draw" in terms and "Gamma the one that fits the margin of each assertion" in terms, terms)
    tried.see("and so does the audit's page", b"by draw " in there["page.html"], there.keys())
    see_script(tried, path, f"{path}_by_sh")
    status, _, err = looked_at(path)
    tried.see("its files are made again", status == 0, err)


def main():
    kills = int(sys.argv[2]) if len(sys.argv) > 2 else KILLS
    tried = Tried()
    with tempfile.TemporaryDirectory() as place:
        at_each_call(tried, place)
        hostile_records(tried, place)
        helps(tried)
        numbers(tried)
        begun_in_vain(tried, place)
        full_counts(tried, place)
        county_by_files(tried, place)
        exported(tried, place)
        named(tried, place)
        forms_of_exports(tried, place)
        differing(tried, place)
        no_new_card(tried, place)
        of_plurality(tried, place)
        polled_each(tried, place)
        changed_by_hand(tried, place)
        strange_ids(tried, place)
        bundles = audits(tried, place)
        as_script(tried, place)
        observers(tried, place, bundles["village"])
        killed(tried, place, kills, os.path.join(place, "town"))
    print(f"{tried.count - tried.failed} things of the desk as they should be, {tried.failed} not")
    sys.exit(1 if tried.failed else 0)


if __name__ == "__main__":
    main()
