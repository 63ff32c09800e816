#!/usr/bin/env python3
"""Tries ./raire show: what it refuses, that its numbers are the program's, and how its pages look in a browser.

acceptance/page.py PROGRAM [AUDITS [FOLDER]] first tries words, programs and files that are refused, and what the page says of sessions and seen cards. Then
it makes pages of AUDITS generated audits (40 by default), of as many audits of plurality contests and of as many polls, and compares their numbers with
what the commands print; and pages of as many generated contests, whose bars it measures. It asks PROGRAM, or plain_audit.py for commands that PROGRAM
doesn't have. Then it opens the example audits, contests of many candidates and one with strange names in a browser (the package chromium-headless-shell or
chromium, or google-chrome). Narrow, wide, dark and as in print, nothing may overlap or be cut off, and contrast, texts next to drawings and what a keyboard
reaches must be right. If there is a FOLDER, the screenshots are kept in it.
"""
import html
import itertools
import json
import math
import os
import re
import shutil
import subprocess
import sys
import tempfile
import threading
import time
from multiprocessing.pool import ThreadPool

import places  # noqa: F401
import audits
import compare
import plain
import plain_audit
import walk
from draws import Draws
from limits import MOST_CANDIDATES

HERE = os.path.dirname(os.path.abspath(__file__))
TOP = os.path.dirname(HERE)
sys.path.append(os.path.join(TOP, "tools", "page"))

import orders  # noqa: E402

SHOW = os.path.join(TOP, "tools", "show")
BROWSERS = ("chromium-headless-shell", "chromium", "google-chrome")
FLAGS = ["--headless", "--no-sandbox", "--disable-gpu", "--hide-scrollbars"]
LOOKS = {"narrow": (360, "screen", False), "wide": (1200, "screen", False), "dark": (900, "screen", True), "print": (700, "print", False)}
DARK = "@media screen and (prefers-color-scheme: dark)"

# Asks the program, or plain_audit.py if the program has no such command.
ASKS = """#!/usr/bin/env bash
case " $COMMANDS " in *" $1 "*) exec "$PROGRAM" "$@" ;; esac
exec "$PLAIN" "$@"
"""


class Tried:
    def __init__(self):
        self.count = self.failed = 0

    def see(self, shows, holds, told=""):
        self.count += 1
        if not holds:
            self.failed += 1
            print(f"./raire show: {shows}: not so {told}")


# Replaces the ./raire of a clone, without a build.
STANDS_IN = """#!/usr/bin/env bash
case "$1" in --build) exit ;; --version) echo "raire 1a2b3c4; kit 5"; exit ;; esac
exec "$PROGRAM" "$@"
"""


def write_program(path, text):
    write(path, text)
    os.chmod(path, 0o755)


class Shows:
    """Runs ./raire show with a program that has every command."""

    def __init__(self, program, folder):
        runs = audits.Runs(program)
        self.path = os.path.join(folder, "raire")
        write_program(self.path, ASKS)
        plain = os.path.join(TOP, "plain", "plain_audit.py")
        self.given = {**os.environ, "RAIRE": self.path, "PROGRAM": runs.program, "COMMANDS": " ".join(runs.commands), "PLAIN": plain}

    def run(self, *words, program=None, script=SHOW):
        given = self.given if program is None else {**self.given, "RAIRE": program}
        ran = subprocess.run([script, *words], capture_output=True, text=True, env=given)
        return ran.returncode, ran.stdout, ran.stderr


def text_of(page):
    """The words of a page, without its markup."""
    return " ".join(html.unescape(re.sub("<[^>]*>", " ", page.partition("<main>")[2])).split())


# ---- refusals

def write(name, text):
    with open(name, "w") as file:
        file.write(text)


def refusals(shows, tried):
    audits.write("ballots.raire", audits.BALLOTS)
    audits.write("manifest.csv", audits.MANIFEST)
    audits.write("assertions.json", audits.ASSERTIONS)
    audits.write("session.json", audits.session_with([audits.FIRST, audits.SECOND], True))
    audits.write("seen.csv", audits.SEEN)
    write("other.raire", audits.BALLOTS.replace("7,b_1,1", "7,b_1,2"))
    write("more.raire", audits.BALLOTS + "7,b_2,1\n")
    write("other.json", audits.ASSERTIONS.replace('"contest":"7"', '"contest":"8"'))
    write("broken.json", "[1")
    write("broken.raire", "1\nContest,7,2,1\n")
    write("broken.csv", "batch,cards\nb,0\n")
    write("changed.json", audits.session_with([audits.FIRST, audits.SECOND], False))
    write("missing.csv", "b_1,missing\n")
    whole = ["ballots.raire", "manifest.csv", "assertions.json", "session.json"]
    for words, status, told in [
        ([], 1, "show: no files"), (["--none", "ballots.raire"], 1, "show: no such option"),
        (["none.json"], 12, "raire: none.json: no such file\n"), (["."], 7, "raire: .: read fault\n"),
        (["broken.raire"], 2, "raire: broken.raire: B3 at 2\n"), (["broken.csv"], 2, "raire: broken.csv: M3 at 2\n"),
        (["broken.json"], 2, "raire: broken.json: F1 at 0\n"), (["changed.json"], 2, "raire: changed.json: S1\n"),
        (["ballots.raire", "broken.json"], 2, "raire: broken.json: F1 at 0\n"),
        (["ballots.raire", "--contest", "9"], 2, "raire: ballots.raire: B5 at 1\n"),
        (["ballots.raire", "other.raire"], 1, "show: ballots.raire and other.raire are both of one kind (ballot file)"),
        (["ballots.raire", "other.json"], 1, "show: other.json isn't about the contest of ballots.raire"),
        (["more.raire", "assertions.json"], 1, "show: assertions.json isn't about the contest of more.raire"),
        (["other.raire", "session.json"], 1, "show: other.raire isn't the ballot file of session.json"),
        (["session.json", "other.json"], 1, "show: other.json isn't the assertion file of session.json"),
        ([*whole, "missing.csv"], 1, "show: missing.csv doesn't give round 1 of session.json: assertion 1 has the counts "),
        (["more.raire", "manifest.csv", "assertions.json"], 1, "show: assertions.json isn't about"),
    ]:
        got = shows.run(*words)
        tried.see(f"{words} are refused", got[0] == status and got[1] == "" and got[2].startswith(told), got)
        is_of_program = told.startswith("raire: ") and status == 2  # ./raire adds what to do, and here only the program is asked
        tried.see(f"what to do about {words}", is_of_program or " What to do: " in got[2] or "./raire help show" in got[2], got)
    before = sorted((name, open(name).read()) for name in os.listdir("."))
    status, page, err = shows.run(*whole, "seen.csv")
    tried.see("a whole audit is shown", status == 0 and err == "" and "ended with the same bytes" in page, (status, err))
    tried.see("no file is written", before == sorted((name, open(name).read()) for name in os.listdir(".")))
    with open("ballots.raire", "a") as out:
        ran = subprocess.run([SHOW, "ballots.raire"], stdout=out, stderr=subprocess.PIPE, env=shows.given)
    tried.see("no page is written over its files", ran.returncode == 1 and open("ballots.raire").read() == audits.BALLOTS)
    for files in (["assertions.json"], ["session.json"], ["manifest.csv"], ["seen.csv", "session.json"], ["assertions.json", "session.json"]):
        status, page, err = shows.run(*files)
        tried.see(f"{files} are shown", status == 0 and err == "", err)


# ---- words

def words(shows, tried):
    """Words are judged as ./raire judges them, whatever the files are."""
    audits.write("ballots.raire", audits.BALLOTS)
    audits.write("assertions.json", audits.ASSERTIONS)
    audits.write("manifest.csv", audits.MANIFEST)
    write("-b.raire", audits.BALLOTS)
    both = ["ballots.raire", "assertions.json"]
    for line, told in [
        (["--nodes"], "--nodes needs a value"), (["--nodes="], "--nodes needs a value"), (["--contest", "--nodes=1"], "--contest needs a value"),
        (["--nodes", "0"], "--nodes needs a number"), (["--nodes=x"], "--nodes needs a number"), (["--nodes=200001"], "--nodes needs a number"),
        (["--contest=7", "--contest=7"], "--contest is given twice"), (["--nodes=1", "--nodes", "2"], "--nodes is given twice"),
        (["--contest= 7"], "--contest needs the id"), (["--floor=1"], "no such option"), (["-n"], "no such option"), ([""], "a file has no name"),
        (["--", "--nodes"], "raire: --nodes: no such file"),
    ]:
        for files in ([], ["ballots.raire"], both):
            status, page, err = shows.run(*files, *line)
            is_told = err.startswith(told if told.startswith("raire") else f"show: {told}") or (not files and err.startswith("show: no files"))
            tried.see(f"{files + line} are refused", status == (12 if told.startswith("raire") else 1) and page == "" and is_told, (status, err))
    for line, told in [
        (["ballots.raire", "--nodes=1"], "show: --nodes is the budget"), (["manifest.csv", "--contest=7"], "show: --contest needs a file"),
        (["assertions.json", "--contest=9"], "show: assertions.json is about contest 7, and not 9"),
    ]:
        status, page, err = shows.run(*line)
        tried.see(f"{line} are refused", status == 1 and page == "" and err.startswith(told), (status, err))
    for line in ([*both, "--nodes", "0005"], ["--contest", "7", *both], ["--contest=7", "--", *both], ["assertions.json", "--", "-b.raire"]):
        status, page, err = shows.run(*line)
        tried.see(f"{line} are shown", status == 0 and "The assertions hold" in page, (status, err))
    for line in (both, ["--help"]):
        for output in ("> /dev/full", ">&-", "| true"):
            told = f'set -o pipefail; (sleep 0.1; exec "$0" "$@") {output}' if output == "| true" else f'exec "$0" "$@" {output}'
            ran = subprocess.run(["bash", "-c", told, SHOW, *line], capture_output=True, text=True, env=shows.given)
            tried.see(f"{line} {output} is told", ran.returncode == 8 and ran.stderr.startswith("show: the page could not be written. What to do: free the disk"), ran)


# ---- which program, and what it judged

def copy_of_clone(folder):
    """A clone's ./raire show with a ./raire that needs no build."""
    for name in (os.path.join("tools", "page"), os.path.join("tools", "office"), os.path.join("tools", "hints"), "plain"):
        shutil.copytree(os.path.join(TOP, name), os.path.join(folder, name), ignore=shutil.ignore_patterns("__pycache__"))
    shutil.copy(SHOW, os.path.join(folder, "tools"))
    write_program(os.path.join(folder, "raire"), STANDS_IN)
    return os.path.join(folder, "tools", "show"), os.path.join(folder, "raire")


def programs(shows, tried):
    """The page names the program that was asked, and calls only the clone's own program proved."""
    audits.write("ballots.raire", audits.BALLOTS)
    audits.write("seen.csv", audits.SEEN)
    show, own = copy_of_clone(os.getcwd())
    for program in ("", own, "./raire"):
        page = shows.run("ballots.raire", program=program, script=show)[1]
        holds = "of the proved program (raire 1a2b3c4; kit 5)" in page and f"<code>{program or './raire'} tabulate ballots.raire</code>" in page
        tried.see(f"RAIRE={program} is the clone's own", holds, page[-900:])
    with open(shows.path, "rb") as file:
        digest = plain_audit.digest(file.read())
    page = shows.run("ballots.raire", program=shows.path, script=show)[1]
    named = f"<code>{shows.path}</code>" in page and digest in page and f"<code>{shows.path} tabulate ballots.raire</code>" in page
    tried.see("another program is named", named and "proved program" not in page and "<code>./raire" not in page and "1a2b3c4" not in page, page[-900:])
    page = shows.run("seen.csv")[1]
    tried.see("where no program judged, none is named", "No program has judged any of this" in page and "proved program" not in page)
    for program in ("./none", "none_of_these", "./ballots.raire", "/bin/true", "/bin/false", "/"):
        status, page, err = shows.run("ballots.raire", program=program)
        tried.see(f"RAIRE={program} is refused", status == 1 and page == "" and err.startswith("show: ") and err.count("\n") == 1, (status, err))


def top_of(page):
    """The state and the findings at the top of a page."""
    return page.partition("<header>")[2].partition("</header>")[0]


def states_of(page):
    """What is in the frames at the top: the kind, the mark and the words of each."""
    found = re.findall(r'<p class="state (\w+)"><span class="mark" aria-hidden="true">(.)</span>(.*)</p>', page)
    return [(kind, mark, " ".join(html.unescape(re.sub("<[^>]*>", "", text)).split())) for kind, mark, text in found]


def sessions(shows, tried):
    """The program judges a session, which is green if the program ran the whole audit again."""
    for name, text in [("ballots.raire", audits.BALLOTS), ("manifest.csv", audits.MANIFEST), ("assertions.json", audits.ASSERTIONS), ("seen.csv", audits.SEEN)]:
        audits.write(name, text)
    rounds, files = [audits.FIRST, audits.SECOND], ["ballots.raire", "manifest.csv", "assertions.json"]
    audits.write("session.json", audits.session_with(rounds, True))
    write("open.json", audits.session_with(rounds[:1], False))
    for name, said in (("session.json", "SIGNED OFF in round 2, after 5 draws"), ("open.json", "NOT SIGNED OFF, and no cards left: 1 of 1 assertion")):
        for others in ([], files, ["seen.csv", *files]):
            page = shows.run(name, *others)[1]
            mine = states_of(page)
            tried.see(f"{name} with {others} is told", [text.startswith(said) for _, _, text in mine] == [True], mine)
            is_green = any(kind == "signed" and "ran the whole audit again, and ended with the same bytes" in text for kind, _, text in mine) and '<span class="good">' in page
            tried.see(f"{name} with {others} is green where it was run again", is_green == (name == "session.json" and len(others) == 4), mine)
    for name, text, told in [
        ("session.json", "[1", "it isn't JSON"), ("a.json", '{"seed":1}', "the member assertions is missing"),
        ("a.json", audits.session_with(rounds, False), "signed_off isn't what"), ("a.json", audits.session_with(rounds[::-1], True), "round 2 doesn't have more draws"),
        ("a.json", audits.session_with(rounds, True).replace('"margins":[1]', '"margins":[2]'), "the margins aren't"),
        ("a.json", audits.session_with(rounds, True).replace("88518543815313162", "88518543815313161"), "round 1 doesn't"),
    ]:
        write(name, text)
        status, page, err = shows.run(name)
        tried.see(f"{told} is told", status == 2 and page == "" and err.startswith(f"raire: {name}: S1\nshow: {name}: {told}"), (status, err))
    write("m.csv", "batch,cards\nb,0\n")
    walk.write_stand_in(os.path.abspath(shows.given["PROGRAM"]), "./adds")
    for name, told in (("a.json", "show: a.json: round 1 doesn't"), ("m.csv", "raire: M3: the number of cards isn't a number")):
        status, page, err = shows.run(name, program=os.path.abspath("adds"))
        tried.see(f"{told} is told behind ./raire's line", page == "" and err.split("\n")[1].startswith(told), (status, err))
    lines = shows.run("a.json", program=os.path.abspath("adds"))[2].split("\n")
    tried.see("the line that ./raire adds stands last", len(lines) == 4 and lines[2].startswith("raire: S1: "), lines)
    write("cards.json", audits.session_with(rounds[:0], False).replace('"cards":1', '"cards":2'))
    got = shows.run("cards.json", "manifest.csv")
    tried.see("another number of cards is told", got[:2] == (1, "") and got[2].startswith("show: cards.json is about 2 cards, and manifest.csv has 1. What to do: use files of the same contest"), got)
    write("margins.json", audits.session_with(rounds[:0], False).replace('"gamma":100', '"gamma":99').replace('"version":1', '"version":1,"more":1'))
    status, page, err = shows.run("margins.json", *files)
    tried.see("a session in another form is shown", status == 0 and "no card was drawn yet" in page, err)
    write("broken.csv", "batch,cards\nb,0\n")
    got = shows.run("broken.csv")
    tried.see("the program refuses a manifest", got == (2, "", "raire: broken.csv: M3 at 2\n"), got)
    page = shows.run("session.json", *files, "seen.csv")[1]
    write("seen.csv", "b_1,missing\n")
    got = shows.run("open.json", *files, "seen.csv")
    tried.see("seen cards of another audit are told", got[:2] == (1, "") and got[2].startswith("show: seen.csv doesn't give round 1 of open.json: assertion 1 has the counts "), got)
    write("seen.csv", "")
    status, page, err = shows.run("open.json", *files, "seen.csv")
    tried.see("a drawn card that wasn't seen is told", status == 2 and page == "" and err.endswith("V4 card 1 draw 1\n"), (status, err))


def promises(shows, tried):
    """The page says what follows from the assertions if a check has accepted them, or if no order stands and nothing was checked."""
    row1, mayor, assembly = (os.path.join(TOP, "examples", f"{name}.raire") for name in ("row1", "mayor", "assembly"))
    found = [subprocess.run([shows.path, "search", name], capture_output=True, text=True, env=shows.given).stdout for name in (row1, mayor, assembly)]
    write("whole.json", found[0])
    write("winner.json", found[0].replace('"winner":"2"}\n', '"winner":"3"}\n'))
    write("part.json", re.sub(r'"assertions":\[({[^}]*}).*?],"candidates"', r'"assertions":[\1],"candidates"', found[0]))
    write("mayor.json", found[1])
    write("large.json", found[2])
    shutil.copy(os.path.join(HERE, "cases", "check_assembly_spent", "assertions.json"), "none.json")
    for files, follows, said in [
        (["whole.json"], True, "refute every order that elects a candidate other than 2"), (["whole.json", row1], True, "The assertions hold"),
        (["winner.json", row1], False, "no: winner is 2"), (["winner.json"], False, "standing"), (["part.json"], False, "standing"),
        (["part.json", row1], False, "isn’t accepted"), (["mayor.json", mayor, "--nodes", "2"], False, "The check was spent"),
        (["large.json"], True, "refute every order that elects a candidate other than 56"), (["large.json", assembly], True, "The assertions hold"),
        (["none.json"], False, "A check by the program goes through all of them"), (["none.json", assembly], False, "The program’s check goes through all of them"),
    ]:
        status, page, err = shows.run(*files)
        text = text_of(page) if status == 0 else err
        tried.see(f"what follows from {files}", status == 0 and ("of the ballots on paper, then" in text) == follows and said in text, text[:300])


def trees(shows, tried, draws):
    """What the tree counts set by set, and what it draws, is what all suffixes give, one by one, even if assertions are missing."""
    n = 2 + draws.below(5)
    ids = [f"C{c}" for c in range(n)]
    while True:
        contest = plain.Contest("9", ids, compare.contest_of(draws, n, 10 + draws.below(60)))
        try:
            value = json.loads(plain.certificate_by_bound(contest))
            break
        except plain.Tie:
            continue
    claims = [claim for claim in value["assertions"] if draws.below(6)]
    tree = orders.Tree(ids, value["winner"], claims)
    assertions = [plain.claim_of(claim, value, 0)[0] for claim in claims]
    cuts_of, sets, standing = [0] * len(claims), set(), 0
    stack = [(c,) for c in range(n) if ids[c] != value["winner"]]
    while stack:
        suffix = stack.pop()
        by = next((j for j, assertion in enumerate(assertions) if plain.refutes(assertion, suffix)), None)
        if by is not None:
            cuts_of[by] += 1
        elif len(suffix) == n:
            standing += 1
        else:
            sets.add(frozenset(suffix))
            stack += [(c, *suffix) for c in range(n) if c not in suffix]
    counted = (tree.cuts_of, tree.cuts, tree.standing, tree.sets, tree.is_whole)
    tried.see("a tree is counted", counted == (cuts_of, sum(cuts_of), standing, len(sets), True), (counted, cuts_of, standing, len(sets)))
    drawn = list(branches_of(tree.branches))
    shown = [branch for branch in drawn if branch.is_shown]
    if tree.is_by_sets:
        gone_on = [branch.here for branch in drawn if branch.children]
        tried.see("each set is drawn once", len(set(gone_on)) == len(gone_on) and len(shown) <= orders.MOST_SHOWN, len(shown))
        tried.see("others name it", all(sorted(branch.like) == sorted(branch.path) for branch in drawn if branch.like))
    else:
        held = sum(branch.by is not None for branch in shown), sum(branch.stands for branch in shown)
        tried.see("a small tree is drawn whole", held == (tree.cuts, tree.standing), held)


def branches_of(level):
    for branch in level:
        yield branch
        yield from branches_of(branch.children)


def by_sets(shows, tried):
    """A landslide over small candidates, with too many orders to draw: its page is small, and quickly made."""
    ballots, assertions = landslide(".")
    began = time.monotonic()
    status, page, err = shows.run(ballots, assertions, "--sets=4096")
    seconds, text = time.monotonic() - began, text_of(page)
    tried.see("a contest by sets is shown", status == 0 and "The assertions hold" in text, (err, text[:300]))
    tried.see("its sets are counted", "There are 2,047 such sets that no assertion cuts." in text and ", 0 orders standing" in text)
    tried.see("its page is small and quickly made", len(page) < 250_000 and seconds < 20, (len(page), seconds))
    status, page, err = shows.run(ballots, assertions, "--sets=2046")
    tried.see("a budget that is spent is told", status == 0 and "The check was spent (spent, sets 2046)" in text_of(page) and "--sets 1048576" in page, err)
    for words, told in [
        (["--sets=1", "--nodes=1"], "--sets takes the place of --nodes"), (["--sets=0"], "--sets needs a number from 1 to 1048576"),
        (["--sets=1048577"], "--sets needs a number from 1 to 1048576"), (["--sets"], "--sets needs a value"),
    ]:
        got = shows.run(ballots, assertions, *words)
        tried.see(f"{words} are refused", got[:2] == (1, "") and got[2].startswith(f"show: {told}"), got)
    got = shows.run(assertions, "--sets=1")
    tried.see("sets without ballots are refused", got[:2] == (1, "") and got[2].startswith("show: --sets is the budget of a check"), got)
    got = shows.run(*harbor(), f"--seed={SEED}", "--draws=100", "--sets=1")
    tried.see("a poll has no sets", got[:2] == (1, "") and got[2].startswith("show: a poll has no --sets"), got)
    town = example("town")
    status, page, err = shows.run(*town, "--sets=32")
    tried.see("a whole audit by sets", status == 0 and "ended with the same bytes" in page and "--sets=32" in page, err)


def belonging(shows, tried):
    """If a ballot names no card, the page gives both files and the record, whichever program is asked."""
    write("1.raire", "2\nContest,6,2,1,2\nContest,7,2,1,2\n6,x_1,1\n\n7,b_1,1\n7,b_3,2\n7,b_2,2\n")
    write("2.csv", "batch,cards\nb,2\n")
    write("3.csv", "batch,cards\nb,3\n")
    county, town = (os.path.join(TOP, "examples", *path) for path in (["county.raire"], ["town", "manifest.csv"]))
    got = shows.run("1.raire", "2.csv", "--contest=7")
    tried.see("M7 is told", got[:2] == (1, "") and got[2].startswith("show: 1.raire doesn't belong to 2.csv: M7 at 6 of 1.raire: the ballot b_3 names no card of 2.csv. What to do: "), got)
    status, page, err = shows.run("1.raire", "3.csv", "--contest=7")
    tried.see("a card for each ballot", status == 0 and "3 ballots on record, each with the id of one of these cards" in page, err)
    status, page, err = shows.run("1.raire", "3.csv", "--contest=6")
    tried.see("M7 is about the contest that is meant", status == 1 and "M7 at 4 of 1.raire: the ballot x_1" in err, (status, err))
    got = shows.run(county, town)
    tried.see("the county isn't the town", got[0] == 1 and got[1] == "" and county in got[2] and town in got[2] and "M7 at 3 " in got[2], got)
    write("4.json", audits.ASSERTIONS.replace('"records":1', '"records":9'))
    got = shows.run("4.json", "3.csv")
    tried.see("more ballots than cards are told", got == (1, "", "show: 4.json is about 9 ballots, and 3.csv has 3 cards. What to do: use files of the same contest; compare sha256sum\n"), got)


def seen_alone(shows, tried):
    """A seen file is judged by as many of its rules as the other files allow."""
    audits.write("ballots.raire", audits.BALLOTS)
    audits.write("assertions.json", audits.ASSERTIONS)
    audits.write("manifest.csv", audits.MANIFEST)
    for text, others, told in [
        ("b_1,ballot,1\nb_1,ballot,1\n", [], "V3 at 2"), ("b_1,ballot\nb_2\n", [], "V1 at 2"), ("b_2,seen\nb_1,missing\n", [], "V1 at 1"),
        ("b_1,missing,1\n", [], "V1 at 1"), ("b_0,ballot\n", [], "V2 at 1"), ("b,missing\n", [], "V2 at 1"), ("b_%s,ballot\n" % ("9" * 5000), [], "V2 at 1"),
        ("b_2,ballot\n", ["manifest.csv"], "V2 at 1"), ("b_1,ballot,3\n", ["ballots.raire"], "V5 at 1"), ("b_1,ballot,3\n", ["assertions.json"], "V5 at 1"),
        ("b_1,ballot, x y ,%s\n" % ("W" * 65), [], "V5 at 1"),
    ]:
        write("s.csv", text)
        got = shows.run("s.csv", *others)
        line = f"show: s.csv: {told} (judged by this page, and not by the program). What to do: "
        tried.see(f"{told} is told of {text[:40]!r}", got[:2] == (2, "") and got[2].startswith(line) and got[2].count("\n") == 1, got)
    write("s.csv", "b_1,ballot,3,4\nb_2,missing\n")
    write("t.csv", "b_1,ballot,2,1\n")
    write("seen.csv", "")
    for files, title, rules, text in [
        (["s.csv"], "A seen file", "V1 and V3", "2 cards: 1 ballot read from paper, 1 missing"), (["seen.csv"], "A seen file", "V1 and V3", "0 cards"),
        (["manifest.csv", "t.csv"], "A manifest and a seen file", "V1, V2 and V3", "1 card: 1 ballot"),
        (["ballots.raire", "t.csv"], "Contest 7", "V1, V3 and V5", "1 card: 1 ballot"),
        (["ballots.raire", "manifest.csv", "t.csv"], "Contest 7", "V1, V2, V3 and V5", "1 card: 1 ballot"),
    ]:
        status, page, err = shows.run(*files)
        tried.see(f"{files} are shown", status == 0 and f"<h1>{title}</h1>" in page and text in text_of(page), err)
        noted = status == 0 and f"didn’t judge the seen file {files[-1]}: " in top_of(page) and f"By this page’s own reading {rules} of" in top_of(page)
        tried.see(f"{files} are named as not judged", noted and "seen file, not judged by the program" in page)


def kinds(shows, tried):
    """A broken file is judged by the rules of what it was meant to be."""
    for name, text, told in [
        ("a.csv", "batches,cards\nb,1\n", "M1 at 1"), ("a.csv", "Batch,Cards\nb,1\n", "M1 at 1"), ("a.csv", "batch;cards\nb;1\n", "M1 at 1"),
        ("a.csv", "cards,batch\n1,b\n", "M1 at 1"), ("a.csv", "b,1\nc,2\n", "M1 at 1"), ("a.csv", "1,60\n2,60\n", "M1 at 1"), ("a.csv", "id,size\nb,1\n", "M1 at 1"),
        ("manifest.csv", "", "M1 at 1"), ("a.csv", "batch,cards\nContest,0\n", "M3 at 2"), ("a.csv", "batch,cards\nb,ballot\n", "M3 at 2"), ("a.csv", "batch,cards\n", "M6 at 1"),
        ("a.csv", "x\nContest,7,2,1,2\n", "B1 at 1"), ("a.csv", "1\nContst,7,2,1,2\n7,b_1,1\n", "B2 at 2"), ("a.raire", "b,1\nc,1\n", "B1 at 1"), ("a.csv", "", "B1 at 1"),
        ("a.csv", "1,ballot\nContest,7,0\n", "B3 at 2"), ("a.csv", "1\nContest,7,2,1,2\n7,ballot\n7,b_1,3\n", "B8 at 4"), ("a.json", "[1", "F1 at 0"),
    ]:
        write(name, text)
        status, page, err = shows.run(name)
        tried.see(f"{told} is told of {text!r}", status == 2 and page == "" and f" {name}: {told}" in err, (status, err))


# ---- the state of an audit

def two_candidates(records, seen_of):
    """Writes an audit of 200 cards with a record each: the files, and what is seen of the cards, which `seen_of` gives by a card's number and record."""
    write("ballots.raire", "1\nContest,7,2,1,2\n" + "".join(f"7,b_{k},{c}\n" for k, c in enumerate(records, 1)))
    write("manifest.csv", f"batch,cards\nb,{len(records)}\n")
    write("seen.csv", "".join(f"b_{k},ballot,{seen_of(k, c)}\n" for k, c in enumerate(records, 1)))
    write("assertions.json", plain_audit.run(["search", "ballots.raire"])[1])
    return ["ballots.raire", "manifest.csv", "assertions.json"]


def go_on(files, name, draws, *terms):
    """Writes a session with a round for each of these numbers of draws."""
    write(name, plain_audit.run(["open", *files, "--seed=1", *terms])[1])
    for number in draws:
        write(name, plain_audit.run(["audit", name, *files, "seen.csv", f"--draws={number}"])[1])


def states(shows, tried):
    """Each page begins with the state of the audit, in words and with a mark of its own."""
    files = two_candidates([1] * 150 + [2] * 50, lambda k, c: c)
    go_on(files, "opened.json", [])
    go_on(files, "few.json", [2])
    go_on(files, "whole.json", [2, 40])
    one = [("ballots1.raire", audits.BALLOTS), ("manifest1.csv", audits.MANIFEST), ("assertions1.json", audits.ASSERTIONS), ("seen1.csv", audits.SEEN)]
    for name, text in one:
        write(name, text)
    write("none_left.json", audits.session_with([audits.FIRST], False))
    no_paper, marks = "NOT AUDITED: records only. No paper has been looked at", {}
    for words, kind, said in [
        (["ballots.raire"], "unaudited", no_paper), (["assertions.json"], "unaudited", no_paper), (files, "unaudited", no_paper),
        (["manifest.csv"], "unaudited", "NOT AUDITED: no session"), (["seen.csv"], "unaudited", "NOT AUDITED: no session"),
        ([*files, "seen.csv"], "unaudited", "NOT AUDITED: no session is given, so what was read from paper"),
        (["opened.json", *files], "open", "OPEN: no card was drawn yet. 1 of 1 assertion"),
        (["few.json", *files, "seen.csv"], "open", "OPEN: not signed off after 2 draws in 1 round: 1 of 1 assertion"),
        (["whole.json"], "said", "SIGNED OFF in round 2, after 40 draws, so the session says"),
        (["whole.json", *files], "said", "SIGNED OFF in round 2, after 40 draws, so the session says"),
        (["whole.json", *files, "seen.csv"], "signed", "SIGNED OFF in round 2, after 40 draws. Each assertion had a risk of at most 0.05"),
        (["none_left.json", *(name for name, _ in one)], "unsigned", "NOT SIGNED OFF, and no cards left: 1 of 1 assertion"),
    ]:
        status, page, err = shows.run(*words)
        found = states_of(page) if status == 0 else []
        tried.see(f"the state of {words}", [each[0] for each in found] == [kind] and found[0][2].startswith(said), (found, err[-200:]))
        marks.setdefault(found[0][1] if found else kind, set()).add(kind)
        has_title = status == 0 and re.search("<title>.*: (NOT AUDITED|OPEN|SIGNED OFF|NOT SIGNED OFF)", page)
        tried.see(f"the title of {words} has the state", has_title, page[:300])
        tried.see(f"what was only checked isn't green: {words}", kind == "signed" or 'class="good"' not in page)
    tried.see("each state has its own mark", len(marks) == 5 and all(len(kinds) == 1 for kinds in marks.values()), marks)
    page = shows.run(*files)[1]
    tried.see("a check is of the records", "The assertions hold of these records" in text_of(page) and "No paper was looked at for this." in text_of(page))
    unusual(shows, tried, files)


def unusual(shows, tried, files):
    """The page names a limit and a gamma that few audits have, and shows the blanks of a seed."""
    write("session.json", plain_audit.run(["open", *files, "--seed=2026  6 "])[1])
    page = shows.run("session.json")[1]
    blank = '<span class="blank"> </span>'
    tried.see("each blank of a seed is shown", f'<code class="seed">2026{blank}{blank}6{blank}</code>' in page and "It has two blanks in a row and ends with a blank." in page)
    for terms, said in [
        ((), None), (("--limit=200000", "--gamma=50"), None), (("--gamma=200",), None), (("--limit=1000",), None),
        (("--limit=200001",), "a risk limit of 20.0001 percent, which is above 20."), (("--gamma=49",), "a gamma of 49 thousandths, which is outside 50 to 200."),
        (("--limit=999",), "a risk limit of 0.0999 percent, which is below 0.1."), (("--limit=5",), "a risk limit of 0.0005 percent, which is below 0.1."),
        (("--limit=300000", "--gamma=201"), "a risk limit of 30 percent, which is above 20, and a gamma of 201 thousandths, which is outside 50 to 200."),
    ]:
        go_on(files, "session.json", [], *terms)
        found = [text for kind, _, text in states_of(shows.run("session.json")[1]) if kind == "unusual"]
        tried.see(f"the terms {terms}", found == ([f"UNUSUAL TERMS: {said}"] if said else []), found)


def later(shows, tried):
    """An audit that was signed off after 40 draws, and then continued, to cards that speak against it."""
    drawn = {plain_audit.drawn("1", k, 200) for k in range(1, 41)}
    files = two_candidates([1] * 150 + [2] * 50, lambda k, c: c if k in drawn else 2)
    go_on(files, "session.json", [40, 200])
    for others in ([], [*files, "seen.csv"]):
        page = shows.run("session.json", *others)[1]
        found = {kind: text for kind, _, text in states_of(page)}
        first = found.get("signed" if others else "said", "")
        tried.see(f"the round of the sign-off is told, with {others}", first.startswith("SIGNED OFF in round 1, after 40 draws"), found)
        against = "LATER DRAWS SPEAK AGAINST IT: the risk of 1 assertion is now above the limit of 0.05."
        tried.see(f"what speaks against it is told, with {others}", found.get("against") == against, found)
        tried.see("and in the row of the assertion", re.search("Confirmed in round 1 ?, now above", text_of(page)) is not None)
    go_on(files, "session.json", [40])
    tried.see("nothing speaks against it before", "against" not in {kind for kind, _, _ in states_of(shows.run("session.json")[1])})


def bytes_of_sessions(shows, tried):
    """A session isn't called the same if one of its bytes differs from what the program prints."""
    files = two_candidates([1] * 150 + [2] * 50, lambda k, c: c)
    go_on(files, "session.json", [40])
    with open("session.json") as file:
        printed = file.read()
    for text, told in [
        (printed, None), (printed.replace('"version":1', '"version":1,"watched":"by nobody"'), "its bytes are different, and watched was added."),
        (printed.replace(",", ", "), "its bytes are different."), (printed + "\n", "its bytes are different."),
    ]:
        write("session.json", text)
        for others in ([], [*files, "seen.csv"]):
            status, page, err = shows.run("session.json", *others)
            words = text_of(page) if status == 0 else err
            is_same = "with the same bytes" in words
            tried.see(f"the same bytes, {told}", is_same == (told is None and bool(others)), words[:300])
            is_otherwise = "ended with other bytes" in words
            tried.see(f"what the audit ended with, {told}", is_otherwise == (told is not None and bool(others)), words[:300])
            tried.see(f"other bytes are told, {told}", (told is None) == ("isn’t as the program prints it" not in words) and (told or "") in words, words[:300])


# ---- clean draws

def town_draws(name, *words):
    """The town's ballots and manifest, and assertions with their draws in a file of this name."""
    ballots, manifest = (os.path.join(TOP, "examples", "town", each) for each in ("ballots.raire", "manifest.csv"))
    write(name, plain_audit.run(["search", ballots, *words])[1])
    return ballots, manifest


def clean_draws(shows, tried):
    """The draws that an assertion file says are shown next to those of a plan, and so is whether they are for the same terms."""
    ballots, manifest = town_draws("said.json", "--cards=480")
    town_draws("far.json", "--cards=600", "--limit=100000")
    town_draws("none.json", "--cards=9000000", "--limit=1")
    with open("said.json") as file:
        said = file.read()
    write("changed.json", said.replace('"draws":56', '"draws":55'))
    write("opened.json", plain_audit.run(["open", ballots, manifest, "said.json", "--seed=1", "--limit=40000"])[1])
    write("wrong.json", said.replace('"margin":62', '"margin":63'))
    enough, terms = "For all of them: 56 draws.", "for 480 cards, a risk limit of 0.05 and a gamma of 100 thousandths."
    plan, own = "So the program’s plan says, by the file’s margins", "for the file’s own margin, cards, risk limit and gamma."
    for files, top, told in [
        (["said.json"], None, f"{enough} This is what the assertion file says, {terms} Give the ballot file too"),
        (["said.json", ballots], None, f"{enough} This is what the assertion file says, {terms} The program’s check worked out the same."),
        (["said.json", manifest], None, f"{enough} {plan}, {terms} The assertion file says the same."),
        (["said.json", ballots, manifest], None, f"{enough} {plan}, {terms} The assertion file says the same."),
        (["none.json", ballots], None, "For all of them: a full count. A full count: as many draws as there are cards, or 100,000, aren’t enough. This is what the assertion file says"),
        (["far.json", manifest], "for other terms: for 600 cards; the manifest has 480 cards. An audit doesn’t go by the file’s draws and terms.", "“By the file” is what the assertion file says, for 600 cards"),
        (["changed.json", ballots], "The assertion file isn’t accepted : no: assertion 3 needs 56 draws. All else holds", "The program’s check worked out other draws."),
        (["wrong.json", ballots], "The assertion file isn’t accepted : no: assertion 1 has margin 62", "The program hasn’t confirmed it."),
        (["wrong.json", manifest], f"assertion 1 has 54 draws, and needs 53 draws, {own}", f"{plan}, {terms} “By the file”"),
        (["changed.json", manifest], f"assertion 3 has 55 draws, and needs 56 draws, {own}", f"{plan}, {terms} “By the file”"),
        (["said.json", ballots, manifest, "opened.json"], "for a risk limit of 0.05; the session has a risk limit of 0.04.", "for 480 cards, a risk limit of 0.04 and"),
        (["said.json", "opened.json"], "for a risk limit of 0.05; the session has a risk limit of 0.04.", f"This is what the assertion file says, {terms}"),
    ]:
        status, page, err = shows.run(*files)
        text, found = (text_of(page), text_of("<main>" + top_of(page))) if status == 0 else (err, "")
        tried.see(f"draws of {files}", status == 0 and told in text, text.partition("Clean draws: ")[2][:500] or err)
        is_other = top is not None and "isn’t accepted" not in top
        tried.see(f"what stands on top of {files}", (top or "") in found and ("The assertion file’s draws" in found) == is_other, found[-600:])
    manifest, _, seen = harbor()
    write("polled.json", plain_audit.run(["search", os.path.join(TOP, "examples", "harbor", "ballots.raire"), "--cards=9999"])[1])
    status, page, err = shows.run(manifest, "polled.json", seen, f"--seed={SEED}", "--draws=20")
    text = text_of(page) if status == 0 else err
    tried.see("a poll asks for no draws", "the file’s margins, its draws and its number of ballots aren’t used" in text and "Clean draws" not in text, text[:600])
    page = shows.run("said.json", ballots)[1]
    for claim in json.loads(said)["assertions"]:
        tried.see("the draws of a row", f"Margin {claim['margin']} " in text_of(page) and f"Clean draws {claim['draws']} draws" in text_of(page), claim)


# ---- a full count, cards, names, ties

def counts(shows, tried):
    """A full count is shown as what it is, next to the audit that led to it."""
    village = os.path.join(TOP, "examples", "village")
    files = [os.path.join(village, name) for name in sorted(os.listdir(village))]
    for words in (files, files[::-1]):
        status, page, err = shows.run(*words)
        text = text_of(page) if status == 0 else err
        found = states_of(page)
        tried.see("the village is counted", status == 0 and [kind for kind, _, _ in found] == ["part", "unsigned"], (found, err))
        head = "COUNTED, BUT 1 OF 60 CARDS HAS NO BALLOT IN IT: Oak wins by 59 ballots of counted.raire. This isn’t a full count until"
        tried.see("who wins by the count, and how many cards have no ballot in it", found and found[0][2].startswith(head), found)
        tried.see("the audit before it", found and found[-1][2].startswith("NOT SIGNED OFF after 38 draws in 1 round: 3 of 3 assertions"), found)
        tried.see("nobody is told to draw on", status == 0 and "Draw further cards" not in text)
        count = text.partition("The full count ")[2]
        tried.see("the rounds of the count", all(each in count for each in ("Fir 16", "Hazel 14", "Oak 27", "Fir 23 +7", "Oak 30 +3")), count[:400])
        tried.see("it is named as that", "full count, judged by the program counted.raire" in text, text[-900:])
    write("a.raire", "1\nContest,7,2,1,2\n7,b_1,1\n7,b_2,1\n7,b_3,2\n")
    write("counted.raire", "1\nContest,7,2,1,2\n7,b_1,1\n7,b_2,2\n7,b_3,2\n")
    write("tie_counted.raire", "1\nContest,7,2,1,2\n7,b_1,1\n7,b_2,2\n")
    write("others_counted.raire", "1\nContest,7,2,1,3\n7,b_1,1\n")
    write("contest_counted.raire", "1\nContest,8,2,1,2\n8,b_1,1\n")
    write("b.raire", "1\nContest,7,2,1,2\n7,b_1,1\n7,b_2,2\n7,b_3,2\n")
    whole_counts(shows, tried)
    found = states_of(shows.run("counted.raire", "a.raire")[1])
    tried.see("another winner is told", found and "2 wins by 3 ballots of counted.raire. The records elect 1: they are wrong, or the count is." in found[0][2], found)
    page = shows.run("a.raire", "tie_counted.raire")[1]
    found = states_of(page)
    tried.see("its state is", found and found[0][2] == "COUNTED, BUT 1 OF 3 RECORDS HAS NO BALLOT IN IT: tie_counted.raire leaves open who wins.", found)
    tried.see("its ballots are told", "The full count 2 ballots of tie_counted.raire." in text_of(page), text_of(page)[:600])
    tried.see("no tree is told where there is none", "The page itself proves nothing." in text_of(page) and "drawn and counted by it" not in page)
    tried.see("a count without a winner is told", "leaves open who wins" in page and "Candidates share the least votes in round 1" in page, page[:300])
    for words, status, told in [
        (["a.raire", "b.raire"], 1, "show: a.raire and b.raire are both of one kind (ballot file); give one of them, or call"),
        (["a.raire", "b.raire", "counted.raire"], 1, "show: a.raire and b.raire are both of one kind"),
        (["counted.raire", "tie_counted.raire"], 1, "show: counted.raire and tie_counted.raire are both of one kind"),
        (["a.raire", "others_counted.raire"], 1, "show: others_counted.raire has different candidates than a.raire"),
        (["a.raire", "contest_counted.raire"], 2, "raire: contest_counted.raire: B5 at 1"),
    ]:
        got = shows.run(*words)
        tried.see(f"{words} are refused", got[0] == status and got[1] == "" and got[2].startswith(told), got)
    files = two_candidates([1] * 150 + [2] * 50, lambda k, c: c)
    go_on(files, "session.json", [2])
    page = shows.run("b.raire", "session.json", *files)[1]
    tried.see("a session tells the records from the count", "2 wins by 3 ballots of b.raire" in text_of(page), top_of(page) if page else "")


def whole_counts(shows, tried):
    """A count is called full only if it has a ballot for each card, or for each record if there is no manifest."""
    write("m.csv", "batch,cards\nb,3\n")
    write("more.csv", "batch,cards\nb,402\nc,4998\n")
    for words, head in [
        (["counted.raire", "a.raire"], "COUNTED IN FULL: "), (["counted.raire", "a.raire", "m.csv"], "COUNTED IN FULL: "),
        (["counted.raire", "a.raire", "more.csv"], "COUNTED, BUT 5,397 OF 5,400 CARDS HAVE NO BALLOT IN IT: "), (["b.raire", "less_counted.raire"], "COUNTED, BUT 1 OF 3 RECORDS HAS NO BALLOT IN IT: "),
        (["less.raire", "counted.raire"], "COUNTED, WITH 3 BALLOTS FOR 2 RECORDS: "),
    ]:
        write("less.raire", "1\nContest,7,2,1,2\n7,b_1,1\n7,b_3,1\n")
        write("less_counted.raire", "1\nContest,7,2,1,2\n7,b_1,1\n7,b_3,1\n")
        found = states_of(shows.run(*words)[1])
        tried.see(f"whether {words} is whole", found and found[0][2].startswith(head), found)


TIED = "1\nContest,Library board,3,Ito,Mendez,Okafor\nLibrary board,Main_1,Mendez\nLibrary board,Main_2,Okafor\n"


def pluralities(shows, tried):
    """An audit of a plurality contest is shown by its first preferences, without rounds, orders or a tree."""
    library = os.path.join(TOP, "examples", "library")
    files = {name: os.path.join(library, name) for name in sorted(os.listdir(library))}
    leads = "Ito leads by the records of 88 ballots, with 46 first preferences: at least 26 more than each other candidate."
    behind, unread = "Ito leads: Mendez is 27 behind, Okafor is 26 behind. Nobody is first on 3 ballots.", "give the ballot file too to read it"
    holds, alone = "The assertions hold of these records: the program opened this audit again", "Counted only by this page. Give the manifest too"
    said, session, ballots, manifest = "SIGNED OFF in round 2, after 24 draws", "session.json", "ballots.raire", "manifest.csv"
    for words, kind, told, untold in [
        ([*files], "signed", [leads, behind, holds, "Another 2 drawn cards have no record, and nobody is ranked there: as a card that doesn’t have the contest. No assertion has a discrepancy. Main_23, Main_40"], [unread, alone]),
        ([session, ballots, manifest], "said", [leads, behind, holds], [unread, alone]), ([session, ballots], "said", [leads, behind, alone], [unread, holds]),
        ([session], "said", [unread], [holds, alone]), ([session, manifest, "seen.csv"], "said", [unread, "Give session, ballot file and manifest too"], [holds, alone]),
    ]:
        status, page, err = shows.run(*map(files.get, words))
        text, found = (text_of(page), states_of(page)) if status == 0 else (err, [])
        tried.see(f"the state of the library by {words}", [each[0] for each in found] == [kind] and found[0][2].startswith(said), (found, err))
        tried.see(f"the library by {words}", all(each in text for each in told) and not any(each in text for each in untold), text[:900])
        tried.see("it is called a plurality contest", text.startswith("Audit of a plurality contest Contest Library board"), text[:200])
        runoff = ("Round 1 Ito", "is eliminated", "Every other way", "assertion file", "instant-runoff", "Clean draws", "Cuts")
        tried.see(f"nothing of a runoff is there: {words}", not any(each in text for each in runoff), [each for each in runoff if each in text])
    refused_pluralities(shows, tried, files)
    counted_pluralities(shows, tried, files)


def changed(path, name, *pairs):
    """A copy of a file with some words replaced."""
    with open(path) as file:
        text = file.read()
    for old, new in pairs:
        text = text.replace(old, new)
    write(name, text)
    return plain_audit.digest(text.encode())


def refused_pluralities(shows, tried, files):
    """Files that don't belong to the session of a plurality contest."""
    other = changed(files["ballots.raire"], "other.raire", ("Main_3,Mendez", "Main_3,Okafor"))
    write("tie.raire", TIED)
    with open(files["session.json"]) as file:
        had = json.load(file)["ballots"]
    changed(files["session.json"], "margins.json", ("[27,26]", "[26,27]"), ('"risks":[111334294195113147,121703134987918451]', '"risks":[121703134987918451,111334294195113147]'),
            ('"risks":[37148684597317507,42457326958628976]', '"risks":[42457326958628976,37148684597317507]'))
    changed(files["session.json"], "of_other.json", (had, other))
    changed(files["session.json"], "of_tie.json", (had, plain_audit.digest(TIED.encode())))
    changed(files["seen.csv"], "read.csv", ("Main_1,ballot,Ito", "Main_1,ballot,Mendez"))
    changed(files["seen.csv"], "less.csv", ("Main_1,ballot,Ito\n", ""))
    audits.write("assertions.json", audits.ASSERTIONS)
    three = [files["ballots.raire"], files["manifest.csv"]]
    for words, status, told in [
        ([files["session.json"], "other.raire"], 1, "show: other.raire isn't the ballot file of "), (["margins.json", *three], 1, f"show: {three[0]} doesn't have the margins of margins.json"),
        (["of_other.json", "other.raire"], 1, "show: other.raire doesn't have the margins of of_other.json"),
        (["of_tie.json", "tie.raire"], 1, "show: tie.raire doesn't have the margins of of_tie.json"),
        ([files["session.json"], "assertions.json"], 1, "show: assertions.json isn't the assertion file of "),
        ([files["session.json"], *three, "--nodes=5"], 1, "show: --nodes is the budget of a check"),
        ([files["session.json"], *three, "read.csv"], 1, "show: read.csv doesn't give round 1 of "),
        ([files["session.json"], *three, "less.csv"], 2, "raire: less.csv: V4 card "),
    ]:
        got = shows.run(*words)
        tried.see(f"{words} are refused", got[0] == status and got[1] == "" and got[2].startswith(told), got)


def counted_pluralities(shows, tried, files):
    """A full count of first preferences, with a winner and with a tie."""
    changed(files["ballots.raire"], "counted.raire", (",Okafor\n", ",Mendez\n"), ("3,Ito,Mendez,Mendez\n", "3,Ito,Mendez,Okafor\n"))
    write("tie_counted.raire", TIED)
    for name, head, count in [
        ("counted.raire", "Ito wins by 88 ballots of counted.raire.", "Ito 46 Mendez 39 Okafor 0 Ito leads: Mendez is 7 behind, Okafor is 46 behind. Nobody is first on 3 ballots."),
        ("tie_counted.raire", "tie_counted.raire leaves open who wins.", "Ito 0 Mendez 1 Okafor 1 Mendez and Okafor have 1 first preference each, and nobody has more."),
    ]:
        page = shows.run(*files.values(), name)[1]
        text, found = text_of(page), states_of(page)
        part = f"COUNTED, BUT {2 if name == 'counted.raire' else 88} OF 90 CARDS HAVE NO BALLOT IN IT: {head}"
        tried.see(f"the state by {name}", [kind for kind, _, _ in found] == ["part", "signed"] and found[0][2].startswith(part), found)
        tried.see(f"the first preferences of {name}", count in text.partition("The full count ")[2], text.partition("The full count ")[2][:400])


SEED = "2026-11-03 dice 3 1 6 2 5 4 4 6"


def harbor():
    """The harbor's files for a poll: each card is seen as it is recorded, and the one without a record has nobody ranked."""
    ballots, manifest, assertions = (os.path.join(TOP, "examples", "harbor", name) for name in ("ballots.raire", "manifest.csv", "assertions.json"))
    with open(ballots) as file:
        rows = [row.split(",") for row in file.read().splitlines()[2:]]
    write("seen.csv", "".join(",".join([card, "ballot", *ranking]) + "\n" for _, card, *ranking in rows) + "H3_42,ballot\n")
    return [manifest, assertions, "seen.csv"]


def polls(shows, tried):
    """A poll is shown by its counts and risks; one that isn't confirmed says nothing about who won."""
    files, terms = harbor(), [f"--seed={SEED}", "--gamma=500"]
    with open(files[1]) as file:
        printed = file.read()
    write("part.json", re.sub(r'"assertions":\[({[^}]*}).*?],"candidates"', r'"assertions":[\1],"candidates"', printed))
    write("more.json", re.sub(r'"records":[0-9]*', '"records":9999', printed))
    draw, unpolled, confirms = "Draw further cards with the same seed, or count in full.", [files[0], "part.json", "seen.csv"], "The poll confirms Heron as the winner"
    for words, kinds, said, judged in [
        ([*files, "--draws=100"], ["open"], f"OPEN: not confirmed by a poll after 100 draws: 1 of 5 assertions is above the limit of 0.05. This says nothing about who won. {draw}", True),
        ([*files, "--draws=150"], ["signed"], f"CONFIRMED BY A POLL after 150 draws. {confirms}: each assertion has a risk of at most 0.05 by the drawn cards.", True),
        ([files[0], "more.json", "seen.csv", "--draws=150"], ["signed"], "CONFIRMED BY A POLL after 150 draws.", True),
        ([*files, "--draws=150", "--limit=200001"], ["signed", "unusual"], "CONFIRMED BY A POLL after 150 draws.", True),
        ([*files, "--draws=1000"], ["unsigned"], "NOT CONFIRMED BY A POLL, and no cards left: 3 of 5 assertions are above", True),
        ([*unpolled, "--draws=150"], ["unsigned"], "NOT POLLED: the assertions don’t prove the winner of their file (no: order ", False),
        ([*files, "--draws=150", "--nodes=1"], ["unaudited"], "NOT POLLED: the budget ended before it was known whether the assertions prove the winner of their file (spent, ", False),
    ]:
        status, page, err = shows.run(*words, *terms)
        found = states_of(page) if status == 0 else []
        tried.see(f"the state of the poll {words}", [kind for kind, _, _ in found] == kinds and found[0][2].startswith(said), (found, err))
        text = text_of(page) if status == 0 else ""
        tried.see(f"who won is said where it is confirmed: {words}", (confirms in text) == ("signed" in kinds) and " wins" not in text and "Heron leads" not in text, text[:500])
        tried.see(f"what the poll judged: {words}", ("seen file, judged by the program" in text) == judged == ("nothing was polled" not in text), text[-900:])
        tried.see(f"no margin is told: {words}", "Margin" not in text and "more than" not in text and "Clean draws" not in text, text[:900])
    polls_of_each(shows, tried, files)
    refused_polls(shows, tried, files, terms)


def polls_of_each(shows, tried, files):
    """A poll that looks after each draw: the page has the draw that confirms each assertion, as in the program's lines."""
    for words, head in [
        (["--draws=40", "--gamma=best"], "OPEN: not confirmed by a poll after 40 draws: "), (["--draws=300", "--gamma=best"], "CONFIRMED BY A POLL by draw "),
        (["--draws=300", "--gamma=2000", "--limit=300000"], "CONFIRMED BY A POLL by draw "), (["--draws=300"], "OPEN: not confirmed by a poll after 300 draws: "),
    ]:
        given = [*files, f"--seed={SEED}", "--each", *words]
        _, lines, _ = plain_audit.run(["poll", *given])
        status, page, err = shows.run(*given)
        text, claims = text_of(page) if status == 0 else err, [line for line in lines.splitlines() if " counts " in line]
        states = [re.fullmatch(r".* gamma (\d+) counts (\d+) (\d+) (\d+) risk (\S+) (unconfirmed|confirmed \d+)", line).groups() for line in claims]
        told = [state.replace("unconfirmed", "no").replace("confirmed", "by draw") for *_, state in states]
        rows = [f"Gamma {int(state[0]):,} Draws against it, for neither side, for it {', '.join(state[1:4])} Risk {short(state[4])} Confirmed {said}" for state, said in zip(states, told)]
        tried.see(f"each assertion of the poll {words}", all(text.count(row) == rows.count(row) for row in rows) and len(rows) == 5, (rows, text[:3000]))
        last = max((int(said.rpartition(" ")[2]) for said in told if said != "no"), default=0)
        tried.see(f"the state of the poll {words}", states_of(page)[0][2].startswith(f"{head}{last}." if head.startswith("CONF") else head), states_of(page))
        tried.see(f"how gamma was found: {words}", ("Gamma the one that fits each margin" in text) == ("--gamma=best" in words), text[-1500:])
    tells = "show: --seed, --draws, --limit and --gamma are for a poll or for all contests on one sample: give --seed, --draws, a manifest"
    ballots, terms = os.path.join(TOP, "examples", "harbor", "ballots.raire"), [f"--seed={SEED}", "--draws=9"]
    for words, told in [
        ([*files, "--each"], tells), ([*files, *terms, "--each=1"], "show: --each has no value"), ([*files, *terms, "--each", "--each"], "show: --each is given twice"),
        ([*files, *terms, "--gamma=best"], "show: --gamma needs a number from 1 to 500"), ([*files, *terms, "--each", "--gamma=1000001"], "show: --gamma needs a number from 1 to 1000000"),
        ([*files, *terms, "--each", "--limit=best"], "show: --limit needs a number from 1 to"), ([ballots, files[0], "seen.csv", *terms, "--each"], "show: --each is for a poll, but"),
    ]:
        got = shows.run(*words)
        tried.see(f"{words} are refused", got[:2] == (1, "") and got[2].startswith(told), got)


def refused_polls(shows, tried, files, terms):
    """What the program refuses in a poll, and words that aren't those of a poll."""
    harbor_files = {name: os.path.join(TOP, "examples", "harbor", name) for name in ("ballots.raire", "session.json")}
    changed("seen.csv", "less.csv", ("H1_1,ballot", "H9_1,ballot"))
    write("one.csv", "H1_1,ballot\n")
    tells = "show: --seed, --draws, --limit and --gamma are for a poll or for all contests on one sample: give --seed, --draws, a manifest"
    for words, status, told in [
        ([*files, *terms], 1, tells), ([*files, "--draws=9"], 1, tells), ([*files, "--limit=9"], 1, tells), ([*files[:2], *terms, "--draws=9"], 1, tells),
        *(([*files, other, *terms, "--draws=9"], 1, tells) for other in harbor_files.values()), ([harbor_files["ballots.raire"], "--gamma=9"], 1, tells),
        ([*files, "--seed=", "--draws=9"], 1, "show: --seed needs a value"), ([*files, "--seed=\t", "--draws=9"], 1, "show: --seed needs 1 to 64 characters"),
        ([*files, *terms, "--draws=0"], 1, "show: --draws needs a number from 1 to 100000"), ([*files, *terms, "--limit=1000000"], 1, "show: --limit needs a number from 1 to 999999"),
        ([*files, "--seed=1", "--gamma=501"], 1, "show: --gamma needs a number from 1 to 500"), ([*files, *terms, "--draws=9", "--draws=9"], 1, "show: --draws is given twice"),
        ([*files[:2], "less.csv", *terms, "--draws=150"], 2, "raire: less.csv: V2 at "), ([*files[:2], "one.csv", *terms, "--draws=150"], 2, "raire: one.csv: V4 card "),
    ]:
        got = shows.run(*words)
        tried.see(f"{words} are refused", got[0] == status and got[1] == "" and got[2].startswith(told), got)


COUNTY_SEED = "2026-11-03 dice 5 1 4 4 2 6 3 1"


def row_of(text, name):
    """What a page of all contests says of one of them, up to the cards that were seen otherwise."""
    return text.partition("The contests ")[2].partition(f" {name} ")[2]


def counties(shows, tried):
    """All contests of a file on one page: how each ends, its claims and its rounds; and what is refused."""
    files, terms = example("county"), [f"--seed={COUNTY_SEED}", "--draws=80"]
    status, page, err = shows.run(*files, *terms)
    text, found = (text_of(page), states_of(page)) if status == 0 else (err, [])
    head = "4 OF 6 CONTESTS SIGNED OFF after 80 draws: each assertion of these has a risk of at most 0.05; 1 is not signed off, 1 is tied. Draw further cards"
    tried.see("the county's state", [kind for kind, _, _ in found] == ["open"] and found[0][2].startswith(head), (found, err))
    for name, told in [
        ("Mayor", "✓ signed off Winner Chen Margin 112 Assertions 4 Greatest risk 0.000469 358 ballots on record; 2 cards of the manifest without"),
        ("Sheriff", "✗ not signed off Winner Fox Margin 6 Assertions 3 Greatest risk 0.5722 358 ballots"),
        ("Council ward 1", "✓ signed off Winner Ivers Margin 56 Assertions 2 Greatest risk 0.0044 179 ballots on record; 181 cards of"),
        ("Council ward 2", "= tied Round 2 Lopez and Moss share the least votes, 80 votes each 179 ballots"),
    ]:
        tried.see(f"the row of {name}", row_of(text, name).startswith(told), row_of(text, name)[:300])
    for told in (
        "1 of 3 assertions is above the limit.", "Chen can't be eliminated before Ellis Chen has 163 first votes, Ellis at most 45 while Chen stands Margin 118",
        "Draws by discrepancy, −2 to +2 0, 2, 78, 0, 0 Risk 0.000017 Confirmed yes", "P2_24 Draws 68 Recorded Chen > Abbott > Diaz > Ellis Seen Abbott > Chen > Diaz > Ellis",
        "P1_34 Draws 10 Recorded Diaz > Chen > Abbott Seen no card found", "seen file, judged by the program", "360 cards by the manifest; 80 draws took 75 cards of them.",
    ):
        tried.see(f"the county's page says {told}", told in text, text[:900])
    tried.see("each contest is opened by its row", page.count("<details class=") == 6, page.count("<details class="))
    for more, kind, told in [
        (["--limit=900000"], "unsigned", "5 OF 6 CONTESTS SIGNED OFF after 80 draws: each assertion of these has a risk of at most 0.9; 1 is tied."),
        (["--limit=1"], "open", "0 OF 6 CONTESTS SIGNED OFF after 80 draws: 5 are not signed off, 1 is tied. Draw further"), (["--gamma=500"], "open", "OF 6 CONTESTS SIGNED OFF after 80 draws: "),
    ]:
        found = states_of(shows.run(*files, *terms, *more)[1])
        tried.see(f"the county's state with {more}", found and found[0][0] == kind and told in found[0][2], found)
        tried.see(f"what is unusual with {more}", [each for each, _, _ in found[1:]] == ["unusual"], found)
    county_by_names(shows, tried, files, terms)
    small_counties(shows, tried)
    refused_counties(shows, tried, files, terms)


def write_county(cast, seen, cards=2):
    """Contests 7 and 8 of two candidates with these records, and what was seen."""
    write("ballots.raire", "2\nContest,7,2,1,2\nContest,8,2,1,2\n" + cast)
    write("manifest.csv", f"batch,cards\nb,{cards}\n")
    write("seen.csv", seen)
    return ["ballots.raire", "manifest.csv", "seen.csv", "--seed=2024", "--draws=5"]


# A program whose answer for all contests is prepared; the plain program is asked for the other answers.
SPENDS = """#!/usr/bin/env bash
[ "$1" != contests ] || { cat told.txt; exit 10; }
exec "$PLAIN" "$@"
"""


def small_counties(shows, tried):
    """All signed off; no cards left; nothing but ties; ids with blanks and markup; a search that is out of budget."""
    words = write_county("7,b_1,1\n8,b_1,2\n", "b_1,7,ballot,1\nb_1,8,ballot,2\n", 1)
    page = shows.run(*words)[1]
    all_of = "ALL SIGNED OFF after 5 draws: 2 contests. Each assertion of these has a risk of at most 0.05."
    tried.see("all signed off", states_of(page) == [("signed", "✓", all_of)], states_of(page))
    words = write_county("7,b_1,1\n8,b_1,2\n", "b_1,7,ballot,1\nb_1,8,missing\n", 1)
    page = shows.run(*words)[1]
    told = "1 OF 2 CONTESTS SIGNED OFF after 5 draws: each assertion of it has a risk of at most 0.05; 1 is not signed off. No cards are left to draw: count in full"
    tried.see("no cards are left", [(kind, told in text) for kind, _, text in states_of(page)] == [("unsigned", True)], states_of(page))
    tried.see("nothing stands of a wrong winner", row_of(text_of(page), "8").startswith("✗ not signed off Winner 2 Margin 1 Assertions 1 Greatest risk 1.0000"), text_of(page)[:900])
    words = write_county("7,b_1,1\n7,b_2,2\n", "", 2)
    page = shows.run(*words)[1]
    told = "0 OF 2 CONTESTS SIGNED OFF after 5 draws: 2 are tied."
    tried.see("nothing but ties", states_of(page) == [("unsigned", "✗", told)], states_of(page))
    write("told.txt", "contest 7\nspent\ncandidate 1\norder 2,1\nmargin 1\nsigned off no\ncontest 8\ntie\nround 1\ntied 1,2\ntally 0\nsigned off no\nall no\n")
    write_program("spends", SPENDS)
    status, page, err = shows.run(*words, program=os.path.abspath("spends"))
    text = text_of(page) if status == 0 else err
    tried.see("a spent search", row_of(text, "7").startswith("? spent Budget the search ended before all was known") and "spent, candidate 1, order 2,1, margin 1" in text, text[:900])
    tried.see("is told on top", "2 CONTESTS SIGNED OFF after 5 draws: 1 is tied, 1 is not searched to the end." in text, text[:300])
    write("told.txt", "contest 8\ntie\nround 1\ntied 1,2\ntally 0\nsigned off no\nall no\n")
    got = shows.run(*words, program=os.path.abspath("spends"))
    tried.see("another list of contests is refused", got[0] == 1 and "doesn't answer “contests” as ./raire does" in got[2], got)
    ids, cast = ["Lee", "Lee Ann", "Ann Zoe", "<b>Zoe"], "".join(f"a=1 <i>,b_{k},{c}\n" for k, c in enumerate(["Lee", "Lee", "Lee Ann", "Lee", "<b>Zoe", "Lee"], 1))
    write("ballots.raire", f"1\nContest,a=1 <i>,{len(ids)},{','.join(ids)}\n{cast}")
    write("manifest.csv", "batch,cards\nb,6\n")
    write("seen.csv", "".join(f"b_{k},a=1 <i>,ballot,{line.split(',')[2]}\n" for k, line in enumerate(cast.splitlines(), 1)))
    status, page, err = shows.run(*words)
    tried.see("ids with blanks and marks are told apart", status == 0 and "<i>" not in page.partition("<main>")[2] and "Winner Lee Margin" in text_of(page), err)


def county_by_names(shows, tried, files, terms):
    """The names of contests and candidates replace ids in each row and in what it opens."""
    heads = plain_audit.contest_records(plain_audit.records_of(plain_audit.read(files[0])))
    lines = [f"{name},{c},{c} of {name.upper()}" for name, (ids, _) in heads.items() for c in ids]
    write("names.csv", "contest,id,name\n" + "".join(f"{name},,The {name} contest\n" for name in heads) + "".join(line + "\n" for line in lines))
    status, page, err = shows.run(*files, "names.csv", *terms)
    text = text_of(page).partition("What this page is made of")[0] if status == 0 else err
    for told in ("The Mayor contest (Mayor) ✓ signed off Winner Chen of MAYOR", "Fox of SHERIFF can't be eliminated", "Lopez of COUNCIL WARD 2 and Moss of COUNCIL WARD 2 share", "Diaz of MAYOR > Chen of MAYOR"):
        tried.see(f"the county's page by names says {told}", told in text, text[:900])
    tried.see("cards without the contest stand apart", "no record, and nobody is ranked there: as a card that doesn’t have the contest" in text and "Seen nobody ranked Discrepancy none" not in text)


def refused_counties(shows, tried, files, terms):
    ballots, manifest, seen = files
    town = os.path.join(TOP, "examples", "town", "manifest.csv")
    changed(seen, "other.csv", ("P1_34,Mayor", "P1_34,Major"))
    changed(ballots, "far.raire", ("Sheriff,P1_1,", "Sheriff,P9_1,"))
    write("names.csv", "id,name\nChen,Chen\n")
    write("counted.raire", "1\nContest,7,2,1,2\n")
    tells = "show: --seed, --draws, --limit and --gamma are for a poll or for all contests on one sample: give"
    for words, status, told in [
        ([ballots, manifest, "other.csv", *terms], 2, "raire: other.csv: V6 at "), (["far.raire", manifest, seen, *terms], 2, "raire: far.raire: M7 at "),
        ([ballots, town, seen, *terms], 2, f"raire: {seen}: V2 at 1\n"), ([*files, terms[0], "--draws=100"], 2, f"raire: {seen}: V4 card "),
        ([*files, *terms, "--contest=Mayor"], 1, "show: --contest is for one contest"), ([*files, *terms, "--sets=5"], 1, "show: all contests on one sample have no --sets"), ([*files, "names.csv", *terms], 1, "show: names.csv names the candidates of one contest"),
        ([*files, "counted.raire", *terms], 1, "show: counted.raire is a full count of one contest"), ([*files, terms[0]], 1, tells), ([*files, terms[1]], 1, tells),
        ([ballots, manifest, *terms], 1, tells), ([ballots, seen, *terms], 1, tells), ([*files, *terms, "--draws=0"], 1, "show: --draws is given twice"),
        ([*files, os.path.join(TOP, "examples", "town", "session.json"), *terms], 1, tells), (files, 2, f"raire: {ballots}: B5 at 1\n"),
    ]:
        got = shows.run(*words)
        tried.see(f"{words} are refused", got[0] == status and got[1] == "" and got[2].startswith(told), got)


def cards(shows, tried):
    """The top of the page has the cards, the records and the cards without a record, and a batch that no ballot names."""
    town = os.path.join(TOP, "examples", "town")
    ballots, manifest = (os.path.join(town, name) for name in ("ballots.raire", "manifest.csv"))
    text = text_of(shows.run(ballots, manifest)[1])
    tried.see("the town's cards", "480 cards by the manifest, 477 ballots on record, 3 cards without a record ." in text, text[:400])
    tried.see("each of its batches is named", "No ballot is of a card of" not in text)
    with open(manifest) as file:
        write("manifest.csv", file.read() + "Total,480\n")
    page = shows.run(ballots, "manifest.csv")[1]
    text = text_of(page)
    tried.see("a line of sums is counted", "960 cards by the manifest, 477 ballots on record, 483 cards without a record ." in text, text[:400])
    tried.see("and pointed at", "No ballot is of a card of this batch: Total (480 cards)." in text, text[:600])
    one = "Make sure that it is a box of cards, and not a line of sums, and that its records are there."
    tried.see("and to be seen to", one in text, text[:700])
    with open("manifest.csv", "a") as file:
        file.write("Sum,480\n")
    two = "Make sure that they are boxes of cards, and not lines of sums, and that their records are there."
    tried.see("two of them too", two in text_of(shows.run(ballots, "manifest.csv")[1]))
    tried.see("and in its row", re.search("Total 480 none 481 to 960", text) is not None, text[-900:])


def names(shows, tried):
    """Names replace ids everywhere."""
    ids = {"c-one": "Zoë Œil", "c-two": "Lee, Ann", "c-three": "<b>Ray</b>"}
    write("names.csv", "id,name\n" + "".join(f'{c},"{name}"\n' for c, name in ids.items()))
    one, two, three = ids
    cast = [[one, two]] * 90 + [[two, three]] * 70 + [[three, one]] * 40
    write("ballots.raire", f"1\nContest,7,3,{','.join(ids)}\n" + "".join(f"7,b_{k},{','.join(ranking)}\n" for k, ranking in enumerate(cast, 1)))
    write("manifest.csv", "batch,cards\nb,200\n")
    write("seen.csv", "".join(f"b_{k},ballot,{','.join(ranking if k % 9 else ranking[::-1])}\n" for k, ranking in enumerate(cast, 1)))
    write("assertions.json", plain_audit.run(["search", "ballots.raire"])[1])
    go_on(["ballots.raire", "manifest.csv", "assertions.json"], "session.json", [30])
    with open("assertions.json") as file:
        printed = file.read()
    write("less.json", re.sub(r'"assertions":\[({[^}]*}).*?],"candidates"', r'"assertions":[\1],"candidates"', printed))
    write("winner.json", printed.replace(f'"winner":"{one}"}}\n', f'"winner":"{two}"}}\n'))
    write("tie.raire", f"1\nContest,7,3,{','.join(ids)}\n7,b_1,{one}\n7,b_2,{two}\n")
    whole = ["ballots.raire", "manifest.csv", "assertions.json", "session.json", "seen.csv"]
    write("firsts.json", plain_audit.run(["plurality", "ballots.raire", "manifest.csv", "--seed=1"])[1])
    write("firsts.json", plain_audit.run(["plurality", "firsts.json", "ballots.raire", "manifest.csv", "seen.csv", "--draws=30"])[1])
    for order in itertools.permutations(ids):
        write("order.json", re.sub(r'"order":\[.*?\]', f'"order":{json.dumps(order)}', printed))
        if "refuted by" in plain_audit.run(["check", "ballots.raire", "order.json"])[1]:
            break
    for files in [
        ["ballots.raire"], ["assertions.json"], whole, *(["ballots.raire", f"{name}.json"] for name in ("less", "winner", "order")), ["tie.raire"], [*whole, "tie.raire"],
        *(["manifest.csv", f"{name}.json", "seen.csv", "--seed=1", "--draws=30"] for name in ("assertions", "less")),
        *(["ballots.raire", "manifest.csv", "firsts.json", "seen.csv", *others] for others in ([], ["tie.raire"])),
    ]:
        status, page, err = shows.run(*files, "names.csv")
        text = text_of(page).partition("What this page is made of")[0] if status == 0 else err
        left = [c for c in ids if c in text]
        tried.see(f"no id stands where a name is: {files}", status == 0 and not left and "Zoë Œil" in text, (left, text[:500]))
        is_told = "c-one is Zoë Œil; c-two is Lee, Ann; c-three is <b>Ray</b>" in text_of(page) and "names, not judged by the program names.csv" in text_of(page)
        tried.see(f"who is who: {files}", is_told, text_of(page)[-500:])
    write("cover.json", re.sub(r'"order":\[.*?\],', "", printed).replace('"version":1', '"version":3'))
    told = "The file has no order, so nothing is said of a best margin"
    for name, is_told in (("cover", True), ("assertions", False)):
        status, page, err = shows.run("ballots.raire", f"{name}.json", "names.csv")
        tried.see(f"whether the margin of {name}.json is said to be the best", status == 0 and (told in text_of(page)) == is_told, err or text_of(page)[:500])
    text = text_of(shows.run("ballots.raire", "order.json", "names.csv")[1])
    tried.see("an assertion of a check has names", re.search("no: order is refuted by NE[BN] (Zoë|Lee|<b>)", text) is not None, text[:500])
    page = shows.run(*whole, "names.csv")[1]
    tried.see("a card's ranking has names", "Lee, Ann > Zoë Œil" in text_of(page), text_of(page)[-900:])
    for text, told in [
        ("c-one,Zoë\n", "doesn't begin with a line id,name"), ("id,name\nc-one\n", "record 2 isn't id,name of a candidate"), ("id,name\nc-one,\n", "record 2 isn't"),
        ("id,name\nc-one,A\nc-one,B\n", "record 3 repeats c-one"), ("contest,id,name\n8,c-one,A\n", "has no names for the candidates of contest 7"),
        ("contest,id,name\n7,c-one,A\n7,c-one,B\n", "record 3 repeats c-one"), ("id,name\nc-four,A\n", "has a name for c-four, who isn't a candidate"),
        ("id,name\nc-one,A\nc-two,A\n", "record 2 calls c-one A, and record 3 calls c-two A; these names look alike"),
        ("id,name\nc-one,c-two\n", "calls c-one c-two, and has no name for c-two; both look alike"), ("id,name\nc-one,C-Two\n", "calls c-one C-Two, and has no name for c-two"),
        ("id,name\nc-one,Zo\u00eb\nc-two,Zoe\u0308\n", "these names look alike (case, blanks and letter forms don't count): give each another one, such as Zoe\u0308 (c-two)"),
        ("id,name\nc-one,Ann Lee\nc-two,Ann  Lee\n", "these names look alike"), ("id,name\nc-one,Lee\nc-two,LEE\n", "these names look alike"),
        ("id,name\nc-one,A\u202eB\n", "record 2 isn't id,name of a candidate, with a name that can be shown"), ('id,name\nc-one,"A\n', "isn't comma-separated text"),
    ]:
        write("names.csv", text)
        got = shows.run("ballots.raire", "names.csv")
        tried.see(f"{told} is told", got[0] == 1 and got[1] == "" and got[2].startswith("show: ") and "names.csv" in got[2] and told in got[2], got)
    with open("names.csv", "wb") as file:
        file.write("id,name\nc-one,Zoë\n".encode("latin-1"))
    tried.see("another code than UTF-8 is told", "isn't comma-separated text in UTF-8" in shows.run("ballots.raire", "names.csv")[2])
    write("names.csv", "id,name\nc-one,A\n")
    got = shows.run("session.json", "names.csv")
    tried.see("names without candidates are told", got[0] == 1 and "names.csv names candidates: give a ballot file" in got[2], got)
    tried.see("one name is enough", "<b>A</b> wins" in shows.run("ballots.raire", "names.csv")[1])
    write("names.csv", 'contest,id,name\n7,,"Mayor, Town"\n7,c-one,A\n9,c-one,B\n')
    text = text_of(shows.run("ballots.raire", "names.csv")[1])
    tried.see("a session has the name of its contest", "Contest Mayor, Town (7)" in text_of(shows.run("session.json", "names.csv")[1]))
    tried.see("names of several contests, and of the contest", "Contest Mayor, Town (7)" in text and "A wins by the records" in text, text[:300])


# A program that prints a prepared text for a tabulation.
PREPARED = """#!/usr/bin/env bash
cat tabulated.txt
exit "$(cat status.txt)"
"""


# A program whose tabulation is out of budget.
NO_ROUNDS = """#!/usr/bin/env bash
[ "$1" != tabulate ] || { printf 'spent\\ncandidate 1\\norder 2,1\\nmargin 1\\n'; exit 4; }
exec "$PROGRAM" "$@"
"""


def ties(shows, tried):
    """The page reports a tie, and whether it matters."""
    write("ballots.raire", "1\nContest,7,4,a,b,c d,e=1 f=2\n7,b_1,a\n")
    write_program("prepared", PREPARED)
    prepared = os.path.abspath("prepared")
    rounds = [
        "contest 7", "records 9", "round 1: a=5 b=1 c d=1 e=1 f=2=2 exhausted=0", "tied b,c d", "eliminated b", "round 2: a=5 c d=2 e=1 f=2=2 exhausted=0",
        "tied c d,e=1 f=2", "eliminated c d", "round 3: a=5 e=1 f=2=3 exhausted=1", "eliminated e=1 f=2", "winner a",
    ]
    share = "Candidates share the least votes in round"
    for text, status, marked, said in [
        (rounds, 0, [1, 2], f"{share}s 1 and 2. Each way of breaking these ties elects a."),
        ([line for line in rounds if line != "tied b,c d"], 0, [2], f"{share} 2. Each way of breaking this tie elects a."),
        ([line for line in rounds if not line.startswith("tied")], 0, [], None),
        (["tie", "round 2", "tied b,c d,e=1 f=2", "tally 1"], 3, [], f"{share} 2: b, c d and e=1 f=2, 1 vote each. The ways of breaking the ties"),
        (["spent", "candidate b", "order a,b", "margin 0"], 4, [], "wasn’t found within the budget (spent, candidate b, order a,b, margin 0)."),
    ]:
        write("tabulated.txt", "".join(f"{line}\n" for line in text))
        write("status.txt", str(status))
        got, page, err = shows.run("ballots.raire", program=prepared)
        tried.see("exhausted are those from before the round", "Exhausted so far" not in page and ("Exhausted before: 1." in page) == (status == 0), page[:300])
        words = text_of(page) if got == 0 else err
        tried.see(f"the tie of {text}", got == 0 and (said in words if said else "share the least votes" not in words), words[:500])
        found = [number for number in (1, 2, 3) if f"Round {number} a tie" in words]
        tried.see(f"rounds with a tie are marked: {text}", found == marked, (found, marked))
        told = "c d and e=1 f=2 share the least votes. Whichever of them goes first, a wins; c d , who is first in the file, is eliminated"
        tried.see(f"who goes, and that it doesn't matter: {text}", (told in words) == (2 in marked), words[:900])
    write_program("no_rounds", NO_ROUNDS)
    audits.write("ballots.raire", audits.BALLOTS)
    write("assertions.json", subprocess.run([shows.given["PROGRAM"], "search", "ballots.raire"], capture_output=True, text=True).stdout)
    status, page, err = shows.run("ballots.raire", "assertions.json", program=os.path.abspath("no_rounds"))
    tried.see("a tie that isn't followed to its end is no alarm where the assertions hold", status == 0 and "share the least votes in some round" in text_of(page) and "prove that each way of breaking the ties elects" in text_of(page) and "wasn’t found" not in page, err or text_of(page)[:500])
    write("bottom.raire", "1\nContest,1,3,1,2,3\n1,b_1,1\n1,b_2,1\n1,b_3,1\n")
    status, page, _ = shows.run("bottom.raire")
    tried.see("a tie at the bottom is shown", status == 0 and "Candidates share the least votes in round 1" in text_of(page))


# ---- numbers

def numbers(shows, tried, draws):
    """A page of a generated audit has the numbers of the program's own texts, even if the assertion file says draws."""
    audits.Made(draws, may_be_many=True)
    if plain_audit.run(["search", "ballots.raire"])[0] != 0:
        status, page, _ = shows.run("ballots.raire")
        tried.see("a tie is shown", status == 0 and "Candidates share the least votes in round" in text_of(page))
        return
    for words, name in [
        ("search ballots.raire" + " --cards 2000" * draws.below(2), "assertions.json"),
        (f"open ballots.raire manifest.csv assertions.json --seed {1 + draws.below(99)}", "session.json"),
        (f"audit session.json ballots.raire manifest.csv assertions.json seen.csv --draws {1 + draws.below(30)}", "session.json"),
        (f"audit session.json ballots.raire manifest.csv assertions.json seen.csv --draws {31 + draws.below(90)}", "session.json"),
    ]:
        write(name, plain_audit.run(words.split())[1])
    status, page, err = shows.run("ballots.raire", "manifest.csv", "assertions.json", "session.json", "seen.csv")
    text = text_of(page) if status == 0 else ""
    tried.see("an audit is shown", status == 0, err)
    for line in plain_audit.run(["tabulate", "ballots.raire"])[1].splitlines():
        match = re.match(r"round (\d+): (.*) exhausted=(\d+)$", line)
        if match:
            votes = [pair.split("=") for pair in match[2].split(" ")]
            shown = text.partition(f"Round {match[1]} ")[2].partition("is eliminated")[0]
            tried.see(line, all(re.search(rf"(^| ){c} {int(n):,}( |$)", shown) for c, n in votes), shown)
    report = plain_audit.run(["report", "session.json"])[1].splitlines()
    tried.see(report[-1], ("SIGNED OFF in round" in text) == report[-1].endswith("yes"))
    last = max(at for at, line in enumerate(report) if line.startswith("round"))
    for line in report[last + 1:-1]:
        _, j, _, margin, _, *counts, _, risk, state = line.split(" ")
        row = text.partition("The assertions ")[2].partition("Every other way")[0]
        wanted = rf" Margin {int(margin):,} Cuts .* {', '.join(counts)} Risk {short(risk)} Confirmed {'in round' if state == 'confirmed' else 'not yet'}"
        tried.see(line, re.search(wanted, row) is not None, row)
    tried.see("all branches are cut", ", 0 orders standing" in text)


def plurality_numbers(shows, tried, draws):
    """A page of a generated audit of a plurality contest has the numbers of the program's own texts."""
    made = audits.Made(draws)
    opened = plain_audit.run(["plurality", "ballots.raire", "manifest.csv", f"--seed={1 + draws.below(99)}"])
    if opened[0] != 0:
        return
    write("session.json", opened[1])
    for number in (1 + draws.below(30), 31 + draws.below(90)):
        write("session.json", plain_audit.run(["plurality", "session.json", "ballots.raire", "manifest.csv", "seen.csv", f"--draws={number}"])[1])
    status, page, err = shows.run("ballots.raire", "manifest.csv", "session.json", "seen.csv")
    text = text_of(page) if status == 0 else ""
    tried.see("an audit of a plurality contest is shown", status == 0 and "ended with the same bytes" in text, err)
    votes = [sum(ranking[:1] == (c,) for ranking in map(tuple, made.rankings)) for c in range(len(made.ids))]
    winner, rows = max(range(len(votes)), key=votes.__getitem__), text.partition("The assertions No.")[2].partition("The session")[0] or text
    tried.see("who leads", f"{made.ids[winner]} leads by the records of {plural(sum(1 for _ in made.rankings), 'ballot')}, with {plural(votes[winner], 'first preference')}: " in text, text[:600])
    report = plain_audit.run(["report", "session.json"])[1].splitlines()
    tried.see(report[-1], ("SIGNED OFF in round" in text.replace("NOT SIGNED OFF", "")) == report[-1].endswith("yes"))
    last = max(at for at, line in enumerate(report) if line.startswith("round"))
    losers = [c for c in range(len(votes)) if c != winner]
    for line, c in zip(report[last + 1:-1], losers, strict=True):
        _, j, _, margin, _, *counts, _, risk, state = line.split(" ")
        wanted = (
            f"{made.ids[winner]} has more first preferences than {made.ids[c]} {made.ids[winner]} has {plural(votes[winner], 'first preference')}, {made.ids[c]} {votes[c]:,} "
            f"Margin {int(margin):,} Draws by discrepancy, −2 to +2 {', '.join(counts)} Risk {short(risk)} Confirmed {'in round' if state == 'confirmed' else 'not yet'}"
        )
        tried.see(line, f"{j} {wanted}" in rows and int(margin) == votes[winner] - votes[c], (wanted, rows[:900]))
        tried.see(f"behind: {line}", f"{made.ids[c]} is {int(margin):,} behind" in text)


def poll_numbers(shows, tried, draws):
    """A page of a generated poll has the numbers of the program's own lines."""
    audits.Made(draws)
    status, found, _ = plain_audit.run(["search", "ballots.raire"])
    if status != 0:
        return
    write("assertions.json", found)
    words = ["manifest.csv", "assertions.json", "seen.csv", f"--seed={1 + draws.below(99)}", f"--draws={1 + draws.below(300)}", f"--gamma={1 + draws.below(500)}"]
    words += [f"--limit={1 + draws.below(400_000)}"] if draws.below(2) else []
    answer, lines, _ = plain_audit.run(["poll", *words])
    status, page, err = shows.run(*words)
    text = text_of(page) if status == 0 else ""
    tried.see("a poll is shown", status == 0, err)
    *terms, last = (line for line in lines.splitlines() if " counts " not in line)
    tried.see(last, ("CONFIRMED BY A POLL after" in text) == last.endswith("yes") == (answer == 0), text[:300])
    for line in terms:
        name, number = line.split(" ")
        shown = {"limit": f"Risk limit {int(number) / 10**6:.6f}".rstrip("0"), "gamma": f"Gamma {number} thousandths"}.get(name, f"{name.capitalize()} {int(number):,}")
        tried.see(line, shown in text.partition(" The poll Seed ")[2], text[-900:])
    rows, limit = page.partition("<tbody>")[2].partition("</tbody>")[0].split("</tr>")[:-1], int(terms[2].removeprefix("limit "))
    for line, row in zip((line for line in lines.splitlines() if " counts " in line), rows, strict=True):
        see_poll_row(tried, line, row, limit)


def see_poll_row(tried, line, row, limit):
    """The row has the line's claim, counts, risk and state, and its bar ends before the limit exactly if the claim is confirmed."""
    kind, winner, loser, *_ = line.split(" ")
    counts, risk, state = re.fullmatch(r".* counts (\d+ \d+ \d+) risk (\S+) (\w+)", line).groups()
    text = " ".join(html.unescape(re.sub("<[^>]*>", " ", row)).split())
    claim = f"{winner} can't be eliminated before {loser} " if kind == "NEB" else f"{winner} can't be eliminated while "
    told = f"for it {', '.join(counts.split(' '))} Risk {short(risk)} Confirmed {'yes' if state == 'confirmed' else 'no'}"
    tried.see(line, claim in text and text.endswith(told), text)
    width = float(re.search(r"width:([0-9.]+)%", row)[1])
    exact = 100 * max(0, 1 - math.log(10**18 / int(risk.replace(".", ""))) / (4 * math.log(10**6 / limit)))
    tried.see(f"its bar: {line}", abs(width - exact) < 0.001 and (width <= 75.001 if state == "confirmed" else width >= 74.999), row)


def plural(number, one):
    return f"{number:,} {one if number == 1 else one + 's'}"


def short(risk):
    """A printed risk in 4 or 6 digits, rounded up."""
    units = int(risk.replace(".", ""))
    digits = 4 if units >= 10**15 else 6
    up = -(-units // 10 ** (18 - digits))
    return f"{up // 10**digits}.{up % 10**digits:0{digits}}"


# ---- looks

def browsers():
    """Those browsers that are installed, each of which can lay out a page without a screen."""
    return list(filter(None, map(shutil.which, BROWSERS)))


def laid_out(browser, path, page, *flags):
    """What a page's script writes in the element #found once the page is laid out, or None."""
    write(path, page)
    ran = subprocess.run([browser, *FLAGS, *flags, "--virtual-time-budget=3000", "--dump-dom", f"file://{os.path.abspath(path)}"], capture_output=True, text=True, timeout=300)
    told = re.search(r'<pre id="found">(.*?)</pre>', ran.stdout, re.DOTALL)
    return json.loads(html.unescape(told[1])) if told else None


def script_of(name):
    with open(os.path.join(HERE, name)) as file:
        return f'<script id="look">{file.read()}</script>'


def as_printed(page):
    return page.replace(DARK, "@media not all").replace("@media print", "@media all")


def look(browser, page, name, folder, keep):
    """What is wrong with one look of the page."""
    width, medium, is_dark = LOOKS[name]
    page = as_printed(page) if medium == "print" else page
    path, colours = os.path.join(folder, f"{name}.html"), f"--blink-settings=preferredColorScheme={0 if is_dark else 1}"
    laid = laid_out(browser, path, page.replace("</body>", script_of("look.js") + "</body>"), f"--window-size={width},1000", colours)
    if laid is None:
        return ["the page was not laid out"]
    if keep:
        write(path, page)
        shot = ["--window-size=%d,4000" % width, f"--screenshot={os.path.join(keep, name + '.png')}"]
        subprocess.run([browser, *FLAGS, colours, *shot, f"file://{path}"], capture_output=True, timeout=120)
    wrong = laid["found"]
    if laid["texts"] < 10:
        wrong.append("few texts")
    if (sum(laid["ground"][:3]) < 3 * 128) != is_dark:
        wrong.append("not the colours that are wanted")
    return wrong


def example(name):
    """The files of an example."""
    folder = os.path.join(TOP, "examples", name)
    return [os.path.join(folder, name) for name in sorted(os.listdir(folder))]


def looks(shows, tried, folder, keep):
    found = browsers()
    tried.see("a browser is there: apt-get install chromium-headless-shell", found)
    if not found:
        return
    browser = found[0]
    town = os.path.join(TOP, "examples", "town")
    pages = {
        "town": shows.run(*example("town")),
        "draws": shows.run("draws.json", *town_draws("draws.json", "--cards=6000", "--limit=1000")),
        "names": shows.run(*names_that_are_none(folder)),
        "many": shows.run(*many_candidates(folder)),
        "most": shows.run(*most_candidates(shows, folder)),
        "sets": shows.run(*landslide(folder), "--sets=4096"),
        "uncounted": shows.run(os.path.join(HERE, "cases", "check_assembly_spent", "assertions.json")),
        "tie": shows.run(os.path.join(TOP, "examples", "tie.raire")),
        "village": shows.run(*example("village")),
        "session": shows.run(os.path.join(town, "session.json")),
        "seen": shows.run(os.path.join(town, "manifest.csv"), os.path.join(town, "seen.csv")),
        "later": shows.run(*gone_on_with()),
        "library": shows.run(*example("library")),
        "poll": shows.run(*harbor(), f"--seed={SEED}", "--gamma=500", "--draws=100"),
        "confirmed": shows.run(*harbor(), f"--seed={SEED}", "--gamma=500", "--draws=150"),
        "county": shows.run(*example("county"), f"--seed={COUNTY_SEED}", "--draws=80"),
    }
    status, page, err = pages["county"]
    pages["opened county"] = status, page.replace("<details class=", "<details open class="), err
    for other in found[1:]:
        wrong = look(other, pages["town"][1], "narrow", folder, None)
        tried.see(f"the town looks right in {other}", not wrong, wrong[:5])
    for shown, (status, page, err) in pages.items():
        tried.see(f"{shown} is shown", status == 0, err)
        if keep and status == 0:
            os.makedirs(os.path.join(keep, shown), exist_ok=True)
        for name in LOOKS if status == 0 else []:
            wrong = look(browser, page, name, folder, os.path.join(keep, shown) if keep else None)
            tried.see(f"{shown} looks right, {name}", not wrong, wrong[:5])
    page = pages["names"][1]
    tried.see("a candidate called <script> is shown as that", "&lt;script&gt;alert(1)&lt;/script&gt;" in page and "<script>" not in page)


def without_browser(tried):
    """If no browser is installed or can be installed, .ci/page says so and fails."""
    os.mkdir("bin")
    for name in ("bash", "dirname", "head", "id", "env"):
        os.symlink(shutil.which(name), os.path.join("bin", name))
    for name in ("apt-get", "sudo"):
        write_program(os.path.join("bin", name), "#!/usr/bin/env bash\nexit 100\n")
    ran = subprocess.run([os.path.join(TOP, ".ci", "page")], capture_output=True, text=True, env={**os.environ, "PATH": os.path.abspath("bin")})
    told = (ran.stdout + ran.stderr).strip()
    tried.see("no browser is told, and fails", ran.returncode == 1 and told.startswith(".ci/page: NOT TRIED:") and "chromium" in told, ran)


# ---- bars

LEE = {("Lee",): 125_000, ("Wong",): 102_000, ("Tan", "Wong"): 30_000}


def generated_bars(draws):
    """Ballots of a few kinds, some of which have many ballots."""
    ids = [f"C{c}" for c in range(2 + draws.below(6))]
    kinds = {}
    for _ in range(1 + draws.below(9)):
        ranking = dict.fromkeys(ids[draws.below(len(ids))] for _ in range(1 + draws.below(4)))
        kinds[tuple(ranking)] = 1 + draws.below(10 ** (1 + draws.below(4)))
    return ids, kinds


def bars(shows, tried, draws, count):
    """On each page all bars have one scale: the width drawn for each number is proportional to it."""
    def made(contest):
        (ids, kinds), name = contest, f"{threading.get_ident()}.raire"
        cast = (ranking for ranking, times in kinds.items() for _ in range(times))
        write(name, f"1\nContest,9,{len(ids)},{','.join(ids)}\n" + "".join(f"9,b_{k},{','.join(ranking)}\n" for k, ranking in enumerate(cast, 1)))
        return shows.run(name)

    contests = [(["Lee", "Tan", "Wong"], LEE)] + [generated_bars(draws) for _ in range(count - 1)]
    with ThreadPool(4) as pool:
        pages = pool.map(made, contests)
    tried.see("contests are shown", all(status == 0 for status, _, _ in pages), [err for _, _, err in pages if err][:1])
    drawn = [(contest, page) for contest, (_, page, _) in zip(contests, pages) if 'class="bars"' in page]
    tried.see("most of them have rounds", len(drawn) > count // 3, len(drawn))
    drawn.append(("the library", shows.run(*example("library"))[1]))
    for width in (LOOKS["narrow"][0], LOOKS["wide"][0]):
        for at in range(0, len(drawn), 50):
            part = drawn[at:at + 50]
            frames = "".join(f'<iframe width="{width}" srcdoc="{html.escape(page)}"></iframe>' for _, page in part)
            laid = laid_out(browsers()[0], "bars.html", f"<!doctype html><meta charset=utf-8>{script_of('measure.js')}<body>{frames}</body>") if browsers() else None
            for (contest, _), rows in zip(part, laid or [[]] * len(part)):
                wrong = off_scale(rows)
                tried.see(f"bars of one scale, {width} wide", rows and not wrong, (contest, wrong[:3]))


def off_scale(rows):
    """The rows of a page that are drawn wider or narrower than the largest number's scale requires, by more than half a pixel."""
    largest = max(rows, key=lambda row: row["votes"], default=None)
    if not largest or not largest["votes"]:
        return []
    scale = (largest["kept_width"] + largest["gained_width"]) / largest["votes"]
    return [
        row for row in rows
        if abs(row["gained_width"] - scale * row["gained"]) > 0.5 or abs(row["kept_width"] - scale * (row["votes"] - row["gained"])) > 0.5
    ]


# ---- contests to look at

def gone_on_with():
    """An audit that later draws speak against."""
    drawn = {plain_audit.drawn("1", k, 200) for k in range(1, 41)}
    files = two_candidates([1] * 150 + [2] * 50, lambda k, c: c if k in drawn else 2)
    go_on(files, "session.json", [40, 80, 120, 200], "--limit=200000")
    return [*files, "session.json", "seen.csv"]


def most_candidates(shows, folder):
    """As many candidates as there may be, with long names; the lowest have equal numbers of votes."""
    ids = [f"c{c}" for c in range(1, MOST_CANDIDATES + 1)]
    cast = [c for place, c in enumerate(ids) for _ in range(max(0, place - 1) ** 2)]
    ballots, assertions, named = (os.path.join(folder, name) for name in ("most.raire", "most.json", "names.csv"))
    write(ballots, f"1\nContest,most,{len(ids)},{','.join(ids)}\n" + "".join(f"most,b_{k},{c}\n" for k, c in enumerate(cast, 1)))
    write(named, "id,name\n" + "".join(f'{c},"Alexandra {c}, Upper Willowbrook"\n' for c in ids))
    ran = subprocess.run([shows.path, "search", ballots], capture_output=True, text=True, env=shows.given)
    write(assertions, ran.stdout)
    return [ballots, *[assertions] * (ran.returncode == 0), named]


def names_that_are_none(folder):
    """Candidates whose ids are markup, are as long as ids may be, or have blanks and equals signs."""
    ids = ["<script>alert(1)</script>", "W" * 64, "a=1 b=2", "&amp; 'it' <b>"]
    rows = [["1"], ["Contest", "<i>9</i>", "4", *ids]]
    for number in range(40):
        first = (0, 0, 0, 0, 1, 1, 1, 2, 2, 3)[number % 10]
        rows.append(["<i>9</i>", f"b_{number + 1}", ids[first], ids[(first + 1) % 4]])
    ballots, assertions = os.path.join(folder, "names.raire"), os.path.join(folder, "names.json")
    write(ballots, "".join(",".join(row) + "\n" for row in rows))
    write(assertions, plain_audit.run(["search", ballots])[1])
    return ballots, assertions


def many_candidates(folder):
    """A contest of 14 candidates, with thousands of branches."""
    draws, n = Draws(14), 14
    ids = [f"Candidate {c + 1}" for c in range(n)]
    rows = [["1"], ["Contest", "many", str(n), *ids]]
    for number in range(3000):
        ranking = dict.fromkeys(min(draws.below(n), draws.below(n), draws.below(n)) for _ in range(1 + draws.below(5)))
        rows.append(["many", f"b_{number + 1}", *(ids[c] for c in ranking)])
    ballots, assertions = os.path.join(folder, "many.raire"), os.path.join(folder, "many.json")
    write(ballots, "".join(",".join(row) + "\n" for row in rows))
    write(assertions, plain_audit.run(["search", ballots])[1])
    return ballots, assertions


def landslide(folder):
    """A contest of 12 candidates, one of whom leads by far. Each set of the others may come last: 2,047 of them."""
    ballots, assertions = os.path.join(HERE, "cases", "sets_landslide", "ballots.raire"), os.path.join(folder, "landslide.json")
    write(assertions, plain_audit.run(["search", ballots, "--sets=4096"])[1])
    return ballots, assertions


def main():
    program, count = sys.argv[1], int(sys.argv[2]) if len(sys.argv) > 2 else 40
    keep = os.path.abspath(sys.argv[3]) if len(sys.argv) > 3 else None
    tried, draws, here = Tried(), Draws(23), os.getcwd()
    made = (trees, numbers, plurality_numbers, poll_numbers)
    with tempfile.TemporaryDirectory() as tools:
        shows = Shows(program, tools)
        cases = (refusals, words, programs, sessions, promises, by_sets, belonging, seen_alone, kinds, states, later, bytes_of_sessions, clean_draws, counts, pluralities, polls, counties, cards, names, ties)
        makers = [lambda case=case: case(shows, tried) for case in cases] + [lambda case=case: case(shows, tried, draws) for case in made] * count
        makers += [lambda: without_browser(tried), lambda: bars(shows, tried, draws, count), lambda: looks(shows, tried, os.getcwd(), keep)]
        for maker in makers:
            with tempfile.TemporaryDirectory() as folder:
                os.chdir(folder)
                maker()
                os.chdir(here)
    print(f"{tried.count - tried.failed} things of pages as they should be, {tried.failed} not")
    sys.exit(1 if tried.failed else 0)


if __name__ == "__main__":
    main()
