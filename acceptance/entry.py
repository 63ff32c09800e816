#!/usr/bin/env python3
"""Types whole audits into the page of ./raire cards --entry, in a browser, and looks at the pages of ./raire cards.

acceptance/entry.py PROGRAM [FOLDER] fills in the town's cards by keyboard only and the village's by mouse, with reloads, and with an end of the browser in
the middle. What is saved must be the examples' seen files, byte for byte. What a seen file can't say must be refused. Then nothing on the pages may overlap
or be cut off, narrow, wide, dark and as in print (look.js). If there is a FOLDER, the screenshots are kept in it.
"""
import base64
import json
import os
import re
import sys
import tempfile
import time

import browser
from office import BALLOTS, MANIFEST, read, SEED, SEEN, TOP, Tried, write

VILLAGE = os.path.join(TOP, "examples", "village")
LOOKS = {"narrow": (360, "screen", False), "wide": (1200, "screen", False), "dark": (900, "screen", True), "print": (700, "print", False)}


class Entry:
    """The page of ./raire cards --entry in a browser."""

    def __init__(self, opened, downloads):
        self.opened, self.downloads = opened, downloads

    def open(self, path, reader):
        self.opened.open(path)
        self.begin(reader)

    def begin(self, reader):
        """Enters a reader's name. If readings are kept under this name, the page asks whether the same person continues."""
        self.opened.press(*reader, "Enter")
        self.opened.wait("!document.getElementById('reading').hidden || !document.getElementById('again').hidden")
        if not self.opened.value("document.getElementById('again').hidden"):
            self.opened.press("Enter")
            self.click("#same")
            self.opened.wait("!document.getElementById('reading').hidden")

    def text(self, name):
        return self.opened.value(f"document.getElementById({json.dumps(name)}).innerText")

    def press(self, *keys):
        self.opened.press(*keys)

    def click(self, selector):
        self.opened.click(selector)

    def mark(self, candidate, rank):
        self.click(f"#grid tbody tr:nth-child({candidate + 1}) td:nth-child({rank + 2}) button")

    def saved(self, reader, kind="seen"):
        """The file that the browser was given to save."""
        path, end = os.path.join(self.downloads, f"{kind}_{reader}.csv"), time.monotonic() + browser.PATIENCE
        while not os.path.exists(path) and time.monotonic() < end:
            time.sleep(0.05)
        return read(path) if os.path.exists(path) else None


def rows_of(path):
    return [line.split(",") for line in read(path).splitlines()]


def by_place(rows):
    """The records of both rounds in the order of a page with all their cards: by batch, and then by number."""
    return sorted(rows, key=lambda row: (row[0].partition("_")[0], int(row[0].partition("_")[2])))


def made(tried, name, *words):
    """A page of ./raire cards, in a file of its own."""
    status, page, err = tried.run("cards", *words)
    is_later = "--after" in words  # standard error then says which cards count again
    tried.see(f"{name} is made", status == 0 and (is_later or "--seed=1" in words or err == ""), err)
    write(name, page)
    return os.path.abspath(name)


# ---- filled in by keyboard only

def by_keyboard(tried, page, keep):
    """The town: digits, arrow keys and letters; the page is reloaded at card 20, and the browser ends at card 50."""
    ids, rows = ["Ash", "Birch", "Cedar", "Elm"], by_place(rows_of(SEEN))
    for part in (rows[:50], rows[50:]):
        with browser.Browser(os.path.abspath("profile"), os.path.abspath("saved")) as opened:
            entry = Entry(opened, "saved")
            entry.open(page, "AB")
            for at, (card, _, *ranked) in enumerate(part):
                if part[0] is rows[0] and at == 20:
                    entry.press("1" if ranked[:1] != ["Ash"] else "2")
                    opened.reload()
                    tried.see("what was marked stands after a reload", entry.text("told").startswith("1 ") and entry.text("card") == card, entry.text("told"))
                    entry.press("Backspace")
                tried.see(f"{card} is next", entry.text("card") == card, entry.text("card"))
                type_reading(entry, [ids.index(name) for name in ranked], at % 3 == 0)
                entry.press("Enter")
            done = len(part) if part[0] is rows[0] else len(rows)
            tried.see("how many are read is told", entry.text("progress") == f"AB: {done} of {len(rows)} cards read", entry.text("progress"))
            if done == len(rows):
                entry.press("Enter")
                tried.see("the town's seen file, by keyboard", entry.saved("AB") == "".join(f"{','.join(row)}\n" for row in rows))
                picture(opened, keep, "filled")


def type_reading(entry, ranked, by_arrows):
    """Types a reading with digits, or with arrow keys and the space bar, starting at the first cell."""
    if not ranked:
        entry.press("n")
    elif not by_arrows:
        entry.press(*[str(c + 1) for c in ranked])
    else:
        at = 0
        for rank, c in enumerate(ranked):
            entry.press(*["ArrowDown" if c > at else "ArrowUp"] * abs(c - at), *["ArrowRight"] * (rank > 0), " ")
            at = c


# ---- filled in by mouse

def by_mouse(tried, page):
    """The village, with a card that isn't found; the last card is read first."""
    ids, rows = ["Fir", "Hazel", "Oak"], rows_of(os.path.join(VILLAGE, "seen.csv"))
    with browser.Browser(os.path.abspath("profile"), os.path.abspath("saved")) as opened:
        opened.look(1000, 800)
        entry = Entry(opened, "saved")
        entry.open(page, "c3")
        entry.click("#cards li:last-child button")
        for card, kind, *ranked in [rows[-1], *rows[:-1]]:
            tried.see(f"{card} is shown", entry.text("card") == card, entry.text("card"))
            for rank, name in enumerate(ranked):
                entry.mark(ids.index(name), rank)
            if not ranked:
                entry.click(f"[data-kind={'missing' if kind == 'missing' else 'elsewhere'}]")
            entry.click("#take")
        entry.click("#save")
        tried.see("the village's seen file, by mouse", entry.saved("c3") == read(os.path.join(VILLAGE, "seen.csv")))
        tried.see("names are shown", "Hazel of the Wood" in entry.text("grid"), entry.text("grid"))
        in_words = "document.querySelector('#cards').innerText"
        tried.see("the list tells readings in words", "1 Fir, 2 Hazel of the Wood" in opened.value(in_words) and "✓ not found" in opened.value(in_words))


# ---- what a seen file can't say

def refusals(tried, page, keep):
    with browser.Browser(os.path.abspath("profile"), os.path.abspath("saved")) as opened:
        entry = Entry(opened, "saved")
        opened.open(page)
        entry.press("Enter")
        tried.see("a reader has a name", opened.value("document.getElementById('reading').hidden"))
        entry.press("a", "-", "Enter")
        tried.see("of letters and digits", "1 to 12 letters or digits" in entry.text("alarm"))
        entry.open(page, "Z")
        tried.see("another reader begins anew", entry.text("progress") == "Z: 0 of 81 cards read", entry.text("progress"))
        seen = steps(tried, entry)
        picture(opened, keep, "refused")
        entry.open(page, "Z")
        tried.see("a reader's entries are there again", entry.text("progress") == "Z: 2 of 81 cards read" and seen, entry.text("progress"))
        opened.value("for (const name of Object.keys(localStorage)) localStorage.setItem(name, '{\"readings\":[{}],\"at\":7}')")
        entry.open(page, "Z")
        tried.see("what is kept and no reading isn't taken", entry.text("progress") == "Z: 0 of 81 cards read", entry.text("progress"))


def same_initials(tried, page, keep):
    """A second reader with the same initials is asked, and doesn't get the first one's marks."""
    with browser.Browser(os.path.abspath("profile"), os.path.abspath("saved")) as opened:
        entry = Entry(opened, "saved")
        entry.open(page, "JD")
        entry.press("1", "Enter", "2", "Enter")
        entry.click("#leave")
        tried.see("another reader is asked for a name", opened.value("document.getElementById('reading').hidden && !document.getElementById('begin').hidden"))
        opened.press("J", "D", "Enter")
        opened.wait("!document.getElementById('again').hidden")
        tried.see("whether the same person reads", entry.text("whose") == "This browser has 2 of 81 cards read by JD. Did you read them?", entry.text("whose"))
        picture(opened, keep, "again")
        opened.press("Enter", "Enter", "1")
        tried.see("nothing is shown before the answer", opened.value("document.getElementById('reading').hidden"))
        entry.click("#other")
        opened.press(*"JD2", "Enter")
        opened.wait("!document.getElementById('reading').hidden")
        tried.see("another name begins anew", entry.text("progress") == "JD2: 0 of 81 cards read", entry.text("progress"))
        entry.press("3", "Enter")
        entry.click("#leave")
        entry.begin("JD")
        tried.see("the first one goes on", entry.text("progress") == "JD: 2 of 81 cards read", entry.text("progress"))
        opened.reload()
        tried.see("a page that is loaded again goes on by itself", entry.text("progress") == "JD: 2 of 81 cards read", entry.text("progress"))


def by_marks(tried, keep):
    """Marks as they are on the card: two at a rank, a candidate at two ranks, skipped ranks, more ranks than candidates. The file has each mark."""
    write("few.csv", "batch,cards\nB1,5\n")
    page = made(tried, "marks.html", "few.csv", "--all", "--batch", "B1", "--entry", "--marks", "--ranks", "5", "--ballots", BALLOTS)
    with browser.Browser(os.path.abspath("profile"), os.path.abspath("saved")) as opened:
        opened.look(1000, 900)
        entry = Entry(opened, "saved")
        entry.open(page, "M")
        tried.see("the grid has the ballot's ranks", opened.value("document.querySelectorAll('#grid thead th').length") == 6)
        tried.see("no draw is told of a card of a full count", entry.text("where") == "Card 1 of batch B1", entry.text("where"))
        for c, rank in ((0, 0), (3, 0), (1, 2), (1, 4)):
            entry.mark(c, rank)
        tried.see("marks are told as they stand", entry.text("told") == "1 Ash and Elm, 3 Birch, 5 Birch", entry.text("told"))
        picture(opened, keep, "marks")
        entry.press("Enter", "2", "1", "Enter", "m", "Enter", "n", "Enter")
        entry.press("1", "1", "1", "1", "1", "1")
        tried.see("no mark goes above the ballot's ranks", entry.text("alarm") == "All ranks have a mark: there are 5. Take a mark away first.", entry.text("alarm"))
        entry.press("Backspace", "Backspace", "Backspace", "Backspace", "Enter", "Enter")
        wanted = "B1_1,marks,1,Ash,1,Elm,3,Birch,5,Birch\nB1_2,marks,1,Birch,2,Ash\nB1_3,missing\nB1_4,marks\nB1_5,marks,1,Ash\n"
        got = entry.saved("M_B1", "marks")
        tried.see("the file of marks", got == wanted, got)
        write("marks.csv", got or "")
        read_by = tried.run("convert", "marks", "marks.csv", "--ballots", BALLOTS, "--ranks=5")
        tried.see("it is read by the rules", read_by[:2] == (0, "B1_1,ballot\nB1_2,ballot,Birch,Ash\nB1_4,ballot\nB1_5,ballot,Ash\nB1_3,missing\n"), read_by)
    return page


def each_round_apart(tried, town):
    """Pages of two rounds, and of another seed, share nothing, though one person reads all of them. The files that they save have different names."""
    entry_words = ["--entry", "--ballots", BALLOTS]
    manifest, _, seed, _, draws = town
    first = made(tried, "first.html", manifest, "--seed", seed, "--draws", "3", *entry_words)
    second = made(tried, "second.html", manifest, "--seed", seed, "--draws", "6", "--after", "3", *entry_words)
    with browser.Browser(os.path.abspath("profile"), os.path.abspath("saved")) as opened:
        entry = Entry(opened, "saved")
        entry.open(first, "R")
        entry.press("1", "Enter", "2", "Enter")
        entry.open(second, "R")
        tried.see("a second round begins without marks", (entry.text("progress"), entry.text("told")) == ("R: 0 of 3 cards read", "nothing yet"), entry.text("progress"))
        entry.press("3", "Enter", "n", "Enter", "4", "Enter", "Enter")
        tried.see("its file has a name of its own", entry.saved("R_after_3") is not None and entry.saved("R_after_3").count("\n") == 3)
        entry.open(first, "R")
        tried.see("the first round has its marks still", entry.text("progress") == "R: 2 of 3 cards read", entry.text("progress"))
        entry.press("2", "Enter", "Enter")
        tried.see("and is saved with them", (entry.saved("R") or "").count("\n") == 3, entry.saved("R"))


def keeps_nothing(tried, page):
    """If the browser has no storage, the page says so, and works."""
    with browser.Browser(os.path.abspath("profile"), os.path.abspath("saved")) as opened:
        gone = "Object.defineProperty(window, '%s', {get() { throw new Error('none'); }});"
        opened.ask("Page.addScriptToEvaluateOnNewDocument", source=gone % "localStorage" + gone % "sessionStorage")
        entry = Entry(opened, "saved")
        entry.open(page, "N")
        entry.press("1", "Enter", "2")
        said = entry.text("alarm"), entry.text("progress"), entry.text("told")
        tried.see("a browser that keeps nothing is told", said[0].startswith("This browser keeps nothing") and said[1:] == ("N: 1 of 81 cards read", "1 Birch"), said)


def steps(tried, entry):
    """Each step with what the page then says, and what the reading is."""
    for keys, alarm, told in [
        (["Enter"], "Nothing is marked", "nothing yet"), (["1"], "", "1 Ash"), (["1"], "Ash has rank 1 already", "1 Ash"),
        (["ArrowDown", " "], "Rank 1 has Ash already, and a seen file can’t say two at one rank", "1 Ash"),
        (["ArrowUp", "ArrowRight", " "], "Ash has rank 1 already, and a seen file can’t say two ranks of one candidate", "1 Ash"),
        (["m"], "Candidates are marked", "1 Ash"), (["ArrowDown", "ArrowRight", " "], "", "1 Ash, 3 Birch"), (["Enter"], "Rank 2 is left out", "1 Ash, 3 Birch"),
        (["4"], "", "1 Ash, 2 Elm, 3 Birch"), (["Backspace"], "", "1 Ash, 2 Elm"), (["9"], "", "1 Ash, 2 Elm"), (["PageDown"], "", "nothing yet"),
        (["c"], "", "contest not on card"), (["c"], "", "nothing yet"), (["M"], "", "not found"), (["2"], "", "1 Birch"), (["Backspace", "m", "Enter"], "", "nothing yet"),
        (["PageUp"], "", "not found"), (["PageUp", "Enter"], "", "nothing yet"),
    ]:
        entry.press(*keys)
        said = entry.text("alarm"), entry.text("told")
        tried.see(f"{keys}: {alarm or told}", said[0].startswith(alarm) and bool(said[0]) == bool(alarm) and said[1] == told, said)
    entry.click("#save")
    tried.see("a file without all readings isn't saved", entry.text("alarm").startswith("79 cards have no reading that was taken: B01_12, "), entry.text("alarm"))
    tried.see("nothing was saved", not os.path.exists(os.path.join("saved", "seen_Z.csv")))
    return True


# ---- looks

def picture(opened, keep, name):
    if keep:
        with open(os.path.join(keep, f"{name}.png"), "wb") as file:
            file.write(base64.b64decode(opened.picture()))


def looks(tried, pages, keep):
    with browser.Browser(os.path.abspath("profile"), os.path.abspath("saved")) as opened:
        for shown, path in pages.items():
            page = read(path)
            tried.see(f"{shown} is alone", not re.search(r"\s(src|href)=|@import|url\(|https?:", page), shown)
            for name, (width, medium, is_dark) in LOOKS.items():
                opened.look(width, 1000, medium, is_dark)
                opened.open(path)
                if shown.startswith("entry") and opened.value("document.getElementById('reading').hidden"):
                    Entry(opened, "saved").begin("L")
                opened.value(read(os.path.join(TOP, "acceptance", "look.js")))
                laid = json.loads(opened.value("document.getElementById('found').textContent"))
                wrong = [found for found in laid["found"] if not found.startswith("something from elsewhere")]
                tried.see(f"{shown} looks right, {name}", not wrong and laid["texts"] > 10 and (sum(laid["ground"][:3]) < 3 * 128) == is_dark, wrong[:5])
                opened.value("document.getElementById('found').remove()")
                picture(opened, keep, f"{shown}_{name}")


def many(tried):
    """A page with more candidates than there are digits, whose names are markup, and as long as ids may be."""
    ids = ["<script>alert(1)</script>", "W" * 64, "a=1 b=2", "{{ 7 * 7 }} '</script>"] + [f"Candidate {c}" for c in range(5, 15)]
    write("names.csv", "".join(f'{c},"{name}"\n' for c, name in enumerate(ids)))
    write("long.csv", "batch,cards\n" + "W" * 56 + ",40\n<b>,40\n")
    words = ["long.csv", "--seed=1", "--draws=20"]
    return {"entry_many": made(tried, "many.html", *words, "--entry", "--names", "names.csv"), "page_many": made(tried, "slips.html", *words, "--page")}


def main():
    keep = os.path.abspath(sys.argv[2]) if len(sys.argv) > 2 else None
    tried, here = Tried(sys.argv[1]), os.getcwd()
    if keep:
        os.makedirs(keep, exist_ok=True)
    with tempfile.TemporaryDirectory() as folder:
        os.chdir(folder)
        town = [MANIFEST, "--seed", SEED, "--draws", "90"]
        page = made(tried, "town.html", *town, "--entry", "--ballots", BALLOTS)
        write("names.csv", "id,name\nHazel,Hazel of the Wood\n")
        words = [os.path.join(VILLAGE, "manifest.csv"), "--seed", "2026-11-03 dice 4 6 6 1 2 4 3 4", "--draws", "38"]
        village = made(tried, "village.html", *words, "--entry", "--ballots", os.path.join(VILLAGE, "ballots.raire"), "--names", "names.csv")
        by_keyboard(tried, page, keep)
        by_mouse(tried, village)
        refusals(tried, page, keep)
        keeps_nothing(tried, page)
        same_initials(tried, page, keep)
        each_round_apart(tried, town)
        marks = by_marks(tried, keep)
        looks(tried, {"entry": page, "entry_marks": marks, "page": made(tried, "page.html", *town, "--page"), **many(tried)}, keep)
        os.chdir(here)
    print(f"{tried.count - tried.failed} things of the entry page and of the pages of cards as they should be, {tried.failed} not")
    sys.exit(1 if tried.failed else 0)


if __name__ == "__main__":
    main()
