#!/usr/bin/env python3
"""Tries ./raire state: on the processors of this machine, and on a Slurm cluster of two nodes that this script starts and ends.

acceptance/state.py PROGRAM [CONTESTS [COUNTIES [INSTANTS]]] first goes through a small state that was made by hand: each output is compared with the same
command typed, and refused files and tables with their lines. Then come programs that answer with each status. Then it makes a state (24 contests in 8
counties by default). It runs the state, runs a copy that is killed at INSTANTS instants (4 by default) and cut off, and runs a copy on Slurm, where one job
is cancelled, another is killed, and a node is lost. The digests must be the same, and what was whole isn't made again. The last line says how many checks
passed. If Snakemake or Slurm isn't installed, what needs it isn't tried, and a line says so.
"""
import os
import re
import shlex
import shutil
import subprocess
import sys
import tempfile
import time

import made_state
import places  # noqa: F401
from state_answers import by_status
from state_ended import cut_off, on_slurm
from state_folder import CALL, copy_of, put, read, rows, times, TOP, Tried

JOBS = 25  # about this many on Slurm, each with three or more contests
COUNTY_SEED, TOWN_SEED = "2026-11-03 dice 5 1 4 4 2 6 3 1", "2026-11-03 dice 2 6 1 4 5 5 3 1"
TERMS = f"""\
county,contest,audit,limit,gamma,seed,draws,trim,floor,nodes,sets
*,,none,,,,,,,,
county,,contests,,,{COUNTY_SEED},40 80,,,,
county,Library levy,skip,,,,,,,,
town,,session,,,{TOWN_SEED},40 90,yes,,,
o'neil,,,,,,,,2,,
assembly,,,,,,,,,3,
"""
TOWN = "Town+council+seat+3"


# ---- by hand

def write_by_hand(folder):
    put(folder, "terms.csv", text=TERMS)
    for name in ("ballots.raire", "manifest.csv"):
        put(folder, "counties", "county", name, of=f"county/{name}")
        put(folder, "counties", "town", name, of=f"town/{name}")
    for name in ("seen.csv", "seen_40.csv"):
        put(folder, "counties", "county", name, of="county/seen.csv")
        put(folder, "counties", "town", TOWN, name, of="town/seen.csv")
    for name, of in (("o'neil", "county.raire"), ("tied", "tie_that_matters.raire"), ("assembly", "assembly.raire")):
        put(folder, "counties", name, "ballots.raire", of=of)
        put(folder, "counties", name, "manifest.csv", text="batch,cards\nb,100000\n")


def typed():
    """Outputs, and the commands that print them in the state's folder."""
    county, town, own = "counties/county/ballots.raire", "counties/town/ballots.raire", f"made/contests/town/{TOWN}"
    ward, files = "made/contests/county/Council+ward+1", "counties/county/ballots.raire counties/county/manifest.csv"
    audited = f"{town} counties/town/manifest.csv {own}/trimmed.json"
    return {
        f"{ward}/assertions.json": f'search --contest "Council ward 1" {county}',
        f"{ward}/check.txt": f'check --sets 1048576 --contest "Council ward 1" {county} {ward}/assertions.json',
        f"{ward}/plan.txt": f"plan counties/county/manifest.csv {ward}/assertions.json",
        "made/contests/county/Council+ward+2/search.txt": f'search --contest "Council ward 2" {county}',
        "made/contests/tied/1/search.txt": "search counties/tied/ballots.raire",
        "made/contests/o'neil/339/search.txt": "search --floor 2 counties/o\"'\"neil/ballots.raire",
        "made/counties/county/sample_80.csv": f'sample counties/county/manifest.csv --seed "{COUNTY_SEED}" --draws 80',
        "made/counties/county/contests_40.txt": f'contests {files} counties/county/seen_40.csv --seed "{COUNTY_SEED}" --draws 40',
        "made/counties/county/contests_80.txt": f'contests {files} counties/county/seen.csv --seed "{COUNTY_SEED}" --draws 80',
        f"{own}/trimmed.json": f"trim {town} {own}/assertions.json",
        f"{own}/check_of_trimmed.txt": f"check {town} {own}/trimmed.json",
        f"{own}/session.json": f'open {audited} --seed "{TOWN_SEED}"',
        f"{own}/session_40.json": f"audit {own}/session.json {audited} counties/town/{TOWN}/seen_40.csv --draws 40",
        f"{own}/session_90.json": f"audit {own}/session_40.json {audited} counties/town/{TOWN}/seen.csv --draws 90",
        f"{own}/sample_90.csv": f'sample counties/town/manifest.csv --seed "{TOWN_SEED}" --draws 90',
        f"{own}/page.html": f"show {audited} {own}/session_90.json counties/town/{TOWN}/seen.csv --contest 'Town council seat 3' --sets 1048576",
        "made/counties/county/page.html": f'show {files} counties/county/seen.csv --seed "{COUNTY_SEED}" --draws 80',
    }


def by_hand(tried, folder):
    write_by_hand(folder)
    status, out, err = tried.run(folder, "--jobs", "2", "--group", "3")
    tried.see("the state by hand is done", status == 0, (status, out, err))
    found = rows(folder)
    wanted = {
        "tie": [("tied", "1"), ("county", "Council ward 2")], "full count": [("county", "Sheriff"), ("o'neil", "339")],
        "signed off": [("county", "Mayor"), ("county", "Council ward 1"), ("county", "School board seat 4"), ("town", "Town council seat 3")],
    }
    states = {key: row["state"] for key, row in found.items()}
    tried.see("a budget of the table is kept", [states.pop(key) for key in found if key[0] == "assembly"] == ["spent"], found)
    tried.see("each contest has its state", states == {key: state for state, keys in wanted.items() for key in keys}, found)
    order = [row["state"] for row in found.values()]
    states = ["tie", "spent", "full count", "signed off"]
    tried.see("those that need a hand are first", order == sorted(order, key=states.index), order)
    tried.see("the first look that signs off is told", [found["county", name]["signed_off"] for name in ("Mayor", "Council ward 1")] == ["40", "80"], found)
    tool = {"show": os.path.join(TOP, "tools", "show")}
    for path, line in typed().items():
        words = shlex.split(line)
        done = subprocess.run([tool.get(words[0], tried.program), *words[words[0] in tool:]], cwd=folder, capture_output=True, env=tried.given())
        got, is_same = read(folder, path), False
        is_same = got == done.stdout if words[0] != "show" else without_asked(got) == without_asked(done.stdout)
        tried.see(f"{path} is what is typed prints: {line}", is_same, done.stderr.decode())
    done = subprocess.run(["sha256sum", "--check", "--quiet", "made/digests"], cwd=folder, capture_output=True, text=True)
    tried.see("the digests are those of the files", done.returncode == 0, done.stdout + done.stderr)
    page = read(folder, "made", "index.html").decode()
    links = re.findall('href="([^"]+)"', page)
    opens = all(os.path.exists(os.path.join(folder, "made", decoded(link))) for link in links)
    tried.see("the page opens the page of each contest", len(links) == len(found) + 1 and opens, links)
    again(tried, folder)
    refused(tried, folder)


def decoded(link):
    from urllib.parse import unquote
    return unquote(link.replace("&#39;", "'"))


def without_asked(page):
    """A page without the list of what was asked, since its words may be in another order."""
    return re.sub(rb"<li><code>.*?</li>\n", b"", re.sub(rb"<div><dt>.*?</div>\n", b"", page))


def again(tried, folder):
    before, digests = times(folder), read(folder, "made", "digests")
    status, _, err = tried.run(folder, "--group", "3")
    tried.see("what is whole isn't made anew", status == 0 and times(folder) == before and "; 0 jobs to do" in err, err)
    names = [f"made/contests/town/{TOWN}/session_40.json", "made/contests/county/Mayor/assertions.json", "made/counties/county/contests_40.txt"]
    for name, cut in zip(names, (lambda data: data[:len(data) // 2], lambda data: b"", None)):
        path = os.path.join(folder, name)
        data = read(path)
        os.remove(path)
        if cut:
            with open(path, "wb") as file:
                file.write(cut(data))
    for words, of in ((["--", "--dry-run"], "of a dry run"), (["--profile", "nowhere"], "where there is no such profile")):
        status, out, err = tried.run(folder, "--group", "3", *words)
        now = times(folder)
        gone = [path for path in before if now.get(path) != before[path] and os.path.relpath(path, folder) not in names]
        tried.see(f"{of} nothing comes, and what is whole stays", status == 1 and " failed, " in out and not gone, (out, err, gone))
    status, _, err = tried.run(folder, "--group", "3")
    after = times(folder)
    changed = {os.path.relpath(path, folder) for path in after if after[path] != before.get(path)}
    tried.see("what is cut off or gone is made anew, and nothing else", status == 0 and changed == set(names), (changed, err))
    tried.see("with the same digests", read(folder, "made", "digests") == digests)


BAD_TERMS = [
    ("county,conteste\n", "line 1: no column is called conteste"),
    ("contest\n", "line 1: there is no column county"),
    ("county,county\n", "line 1: a column is there twice"),
    ("county,audit\nnone,none\n", "line 2: there is no folder counties/none"),
    ("county,contest\ntown,Mayor\n", "line 2: no contest of counties/town/ballots.raire is called Mayor"),
    ("county,audit\ntown,contest\n", "line 2: audit is one of"),
    ("county,limit\ntown,5\ntown,6\n", "line 3: the row of line 2 is about the same"),
    ("county,limit\ntown,0\n", "line 2: limit is a number from 1 to"),
    ("county,draws\ntown,90 40\n", "line 2: draws are rising numbers"),
    ("county,trim\ntown,maybe\n", "line 2: trim is yes or no"),
    ("county,seed\ntown,é\n", "line 2: a seed is"),
    ("county,limit\ntown\n", "line 2: it has another number of cells"),
    ("county,contest,audit\n*,Mayor,none\n", "line 2: a row with the county *"),
    ("county,contest,audit\ncounty,Mayor,contests\n", "line 2: contests audits all contests"),
    ("county,contest,audit,limit\ncounty,,contests,\ncounty,Mayor,,7\n", "line 3: contests audits this contest"),
    ('county,"limit\n', "terms.csv: "),
]


def refused(tried, folder):
    """Bad tables and words; and files that the program refuses, which fail without the others and are then repaired."""
    for text, line in BAD_TERMS:
        put(folder, "terms.csv", text=text)
        status, out, err = tried.run(folder)
        tried.see(f"{text!r} is refused", (status, out) == (1, "") and line in err, err)
    put(folder, "terms.csv", text=TERMS)
    for words in ([], [folder, "--jobs", "0"], [folder, "--jobs"], [folder, "--no-such"], [os.path.join(folder, "counties")], [folder, folder]):
        done = subprocess.run([CALL, *words], capture_output=True, text=True, env=tried.given())
        tried.see(f"{words} is refused", (done.returncode, done.stdout) == (1, "") and done.stderr.startswith("state: "), done.stderr)
    ballots, manifest, seen = (os.path.join(folder, "counties", name) for name in ("tied/ballots.raire", "o'neil/manifest.csv", "county/seen.csv"))
    before, kept = read(ballots), read(seen)
    with open(ballots, "ab") as file:
        file.write(b"7,b_1,1\n")
    with open(seen, "ab") as file:
        file.write(b"P1_1\n")
    session = os.path.join(folder, f"made/contests/town/{TOWN}/session_90.json")
    before_it = times(folder)[session]
    status, out, err = tried.run(folder, "--group", "50")
    tried.see("refused files fail", status == 1 and "4 failed" in out, (out, err))
    of_mayor = rows(folder)["county", "Mayor"]
    told = "signed off by 40 draws; then failed: county: contests 80: status 2: raire: counties/county/seen.csv: V1 at "
    tried.see("a sign-off of an earlier look stays", (of_mayor["state"], of_mayor["signed_off"]) == ("signed off", "40") and of_mayor["why"].startswith(told), of_mayor)
    tried.see("what only the later look signed off fails", rows(folder)["county", "Council ward 1"]["state"] == "failed", out)
    tried.see("the digests have the files that are refused", b"counties/tied/ballots.raire" in read(folder, "made", "digests"), out)
    tried.see("with the program's line", "state: tied, contest 1: search --nodes=100000: status 2: raire: counties/tied/ballots.raire: B7 at " in err, err)
    tried.see("of each of them", "state: county: contests 80: status 2: raire: counties/county/seen.csv: V1 at " in err, err)
    tried.see("the others are done", rows(folder)["o'neil", "339"]["state"] == "full count", out)
    for path, data in ((ballots, before), (seen, kept)):
        with open(path, "wb") as file:
            file.write(data)
    status, out, err = tried.run(folder, "--group", "1")
    tried.see("once they are mended the rest is made", status == 0 and times(folder)[session] == before_it, (out, err))
    os.remove(os.path.join(folder, "counties", "town", "manifest.csv"))
    put(folder, "counties", "county", "seen_45.csv", text="")
    put(folder, "counties", "town", TOWN, "seen_9.csv", text="")
    status, out, err = tried.run(folder, "--group", "1")
    for path in ("counties/county/seen_45.csv", f"counties/town/{TOWN}/seen_9.csv"):
        tried.see("readings that no look asks for are told", f"state: {path} isn't read: no look of terms.csv asks for it\n" in err, err)
    tried.see("a file that isn't there fails", status == 1 and "status 12: raire: counties/town/manifest.csv: no such file" in err, err)


# ---- a state that is generated, cut off and on Slurm

def pages(tried, folder):
    """A county with a contest whose file was found by sets, and is accepted with more nodes than a page uses by default."""
    made_state.write_state(folder, 5, 1, first=10, audits=("session",))
    status, out, err = tried.run(folder)
    found = rows(folder)
    tried.see("each contest has its page, by its own budget", status == 0 and all(row["page"] for row in found.values()), (out, err))
    tried.see("one of them by more nodes", ("--sets=1048576", "--nodes=200000") in [(row["search"], row["check"]) for row in found.values()], found)


def made(tried, place, contests, counties, instants):
    folder = os.path.join(place, "made_state")
    made_state.write_state(folder, contests, counties)
    start = time.monotonic()
    status, out, err = tried.run(folder, "--without-pages")
    tried.see("a state that is made is done", status == 0, (out, err))
    tried.see("each contest has a row", status == 0 and len(rows(folder)) == contests, out)
    if status:
        return
    print(f"state: {contests} contests of {counties} counties in {round(time.monotonic() - start)} seconds: {out.splitlines()[0]}")
    digests, group = read(folder, "made", "digests"), str(max(3, contests // JOBS))
    cut_off(tried, copy_of(folder, os.path.join(place, "cut_off")), digests, group, instants)
    os.mkdir(os.path.join(place, "slurm"))
    on_slurm(tried, copy_of(folder, os.path.join(place, "on_slurm")), digests, group, os.path.join(place, "slurm"))


def main():
    program = os.path.abspath(sys.argv[1])
    numbers = [int(word) for word in sys.argv[2:]]
    contests, counties, instants = numbers + [24, 8, 4][len(numbers):]
    if not shutil.which("snakemake"):
        print("acceptance/state.py: NOT TRIED: snakemake isn't here")
        return
    tried = Tried(program)
    with tempfile.TemporaryDirectory() as place:
        by_hand(tried, os.path.join(place, "by hand"))
        by_status(tried, os.path.join(place, "answers"))
        pages(tried, os.path.join(place, "pages"))
        made(tried, place, contests, counties, instants)
    print(f"{tried.count - tried.failed} things of a state as they should be, {tried.failed} not")
    sys.exit(1 if tried.failed else 0)


if __name__ == "__main__":
    main()
