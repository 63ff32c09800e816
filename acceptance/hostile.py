#!/usr/bin/env python3
"""The built program with failing outputs, malformed files, malicious files and little memory.

acceptance/hostile.py PROGRAM runs each command that the program has. Whatever happens, the program must end by itself, with a status of docs/formats.md and
no signal; it must write what the status says and nothing more, and use less than ten seconds of processor time. The last line says how many runs did.
"""
import os
import resource
import signal
import socket
import subprocess
import sys
import tempfile
import threading
import time

import places  # noqa: F401
import audits
import plain_audit
from limits import MOST_CANDIDATES, MOST_CONTESTS, MOST_FILE_BYTES as LARGEST, MOST_LISTED, MOST_RECORDS, MOST_SETS

MOST_SECONDS = 10
MIB = 2**20
WITH_LINE = {1, 2, 7, 9, 11, 12}
WITH_TEXT = {0, 3, 4, 5, 6, 10}
NOBODY = 65534

# For each command, a line of words that has an answer, on the files of `good_files`.
LINES = {
    "tabulate": ["tabulate", "ballots.raire"],
    "search": ["search", "ballots.raire"],
    "search for cards": ["search", "ballots.raire", "--cards=1", "--limit=600000"],
    "check": ["check", "ballots.raire", "assertions.json"],
    "check of draws": ["check", "ballots.raire", "planned.json"],
    "trim": ["trim", "ballots.raire", "assertions.json"],
    "adopt": ["adopt", "ballots.raire", "assertions.json"],
    "sample": ["sample", "manifest.csv", "--seed=2024", "--draws=3"],
    "plan": ["plan", "manifest.csv", "assertions.json"],
    "open": ["open", "ballots.raire", "manifest.csv", "assertions.json", "--seed=2024"],
    "audit": ["audit", "session.json", "ballots.raire", "manifest.csv", "assertions.json", "seen.csv", "--draws=5"],
    "report": ["report", "session.json"],
    "poll": ["poll", "manifest.csv", "assertions.json", "seen.csv", "--seed=2024", "--draws=5"],
    "trial": ["trial", "--number=0", "--candidates=2", "--ballots=1"],
    "search by sets": ["search", "ballots.raire", "--sets=1"],
    "check by sets": ["check", "ballots.raire", "assertions.json", "--sets=1"],
    "plurality": ["plurality", "ballots.raire", "manifest.csv", "--seed=2024"],
    "plurality, a round": ["plurality", "plural.json", "ballots.raire", "manifest.csv", "seen.csv", "--draws=5"],
    "contests": ["contests", "ballots.raire", "manifest.csv", "seen_by.csv", "--seed=2024", "--draws=5"],
}
FILES = {"ballots.raire", "manifest.csv", "assertions.json", "planned.json", "session.json", "plural.json", "seen.csv", "seen_by.csv"}


def good_files():
    audits.write("ballots.raire", audits.BALLOTS)
    audits.write("manifest.csv", audits.MANIFEST)
    audits.write("assertions.json", audits.ASSERTIONS)
    audits.write("planned.json", plain_audit.run(LINES["search for cards"])[1])
    audits.write("session.json", audits.session_with([audits.FIRST], False))
    audits.write("plural.json", plain_audit.run(LINES["plurality"])[1])
    audits.write("seen.csv", audits.SEEN)
    audits.write("seen_by.csv", audits.SEEN.replace("b_1,", "b_1,7,"))


class Runs:
    def __init__(self, program):
        self.program, self.count, self.failed = os.path.abspath(program), 0, 0
        commands = audits.Runs(program).commands
        self.lines = {name: line for name, line in LINES.items() if line[0] in commands}

    def wrong(self, shows, told):
        self.failed += 1
        print(f"{shows}: {told}")

    def run(self, shows, words, statuses, **how):
        """A run that must end with one of these statuses, and write what that status says."""
        self.count += 1
        before = resource.getrusage(resource.RUSAGE_CHILDREN)
        how = {"stdout": subprocess.PIPE, "stderr": subprocess.PIPE, "stdin": subprocess.DEVNULL, "timeout": 120, **how}
        try:
            ran = subprocess.run([self.program, *words], **how)
        except subprocess.TimeoutExpired:
            return self.wrong(shows, "it doesn't end")
        after = resource.getrusage(resource.RUSAGE_CHILDREN)
        seconds = after.ru_utime + after.ru_stime - before.ru_utime - before.ru_stime
        status, out, err = ran.returncode, ran.stdout or b"", ran.stderr or b""
        if status not in statuses:
            self.wrong(shows, f"wanted status {sorted(statuses)}, got {status} {out[:200]} {err[:200]}")
        elif seconds > MOST_SECONDS:
            self.wrong(shows, f"took {seconds:.1f} s")
        elif out and status not in WITH_TEXT | {8}:
            self.wrong(shows, f"status {status}, and wrote {out[:200]}")
        elif how["stderr"] == subprocess.PIPE and (status in WITH_LINE) != bool(err):
            self.wrong(shows, f"status {status}, and told {err[:200]}")
        elif err and (not err.startswith(b"raire: ") or not err.endswith(b"\n")):
            self.wrong(shows, f"told {err[:200]}")


# ---- outputs that fail

def outputs(runs):
    for name, line in runs.lines.items():
        with open("/dev/full", "wb") as full:
            runs.run(f"{name} on a full disk", line, {8}, stdout=full)
        runs.run(f"{name} on a closed output", line, {8}, stdout=None, preexec_fn=lambda: os.close(1))
        for is_ignored in (False, True):
            read, write = os.pipe()
            os.close(read)
            action = signal.SIG_IGN if is_ignored else signal.SIG_DFL
            runs.run(
                f"{name} into a pipe that nobody reads, with a signal that is {'ignored' if is_ignored else 'as it comes'}", line, {8},
                stdout=write, restore_signals=False, preexec_fn=lambda: signal.signal(signal.SIGPIPE, action),
            )
            os.close(write)
        with open("/dev/full", "wb") as full:
            runs.run(f"{name} refused on a full disk", line + ["one more"], {8}, stderr=full)
        runs.run(f"{name} refused, with all outputs closed", line + ["one more"], {8}, stdout=None, stderr=None, preexec_fn=close_all)
    with open("/dev/full", "wb") as full:
        runs.run("no words on a full disk", [], {8}, stderr=full)


def close_all():
    for number in (0, 1, 2):
        os.close(number)


# ---- names that aren't those of files

def names(runs):
    os.mkdir("folder")
    os.symlink("nowhere", "dangling")
    os.symlink("loop", "loop")
    with socket.socket(socket.AF_UNIX) as bound:
        bound.bind("socket")
        for line in runs.lines.values():
            for place, word in enumerate(line):
                if word in FILES:
                    names_of(runs, line, place)


def names_of(runs, line, place):
    def put(name):
        return line[:place] + [name] + line[place + 1:]

    shown = f"{line[0]}, file {place}"
    for name, statuses in [
        ("folder", {7}), ("dangling", {12}), ("loop", {7}), ("socket", {7}), ("ballots.raire/none", {7}), ("none", {12}),
        ("x" * 300, {7}), ("/dev/null", {2}), ("/dev/zero", {11}), ("/dev/full", {11}), ("none\n\"'\t none", {12}),
    ]:
        runs.run(f"{shown}: {name[:20]!r}", put(name), statuses)
    runs.run(f"{shown}: a name that isn't UTF-8", [word.encode() for word in put("x")][:place] + [b"x\xff"] + line[place + 1:], {13})
    copy = f"a \"copy\" of it's {line[place]}"
    with open(line[place], "rb") as file, open(copy, "wb") as other:
        other.write(file.read())
    runs.run(f"{shown}: blanks and quotes", put(copy), {0, 10})
    os.chmod(copy, 0)
    runs.run(f"{shown}: a forbidden file", put(copy), {7}, **as_nobody())
    os.remove(copy)
    growing(runs, shown, put, line[place])


def as_nobody():
    """The system's superuser may read everything, so another user is the one who may not read a file."""
    return {"user": NOBODY, "group": NOBODY, "extra_groups": []} if os.getuid() == 0 else {}


def growing(runs, shown, put, name):
    """A file that someone appends to while it is read."""
    with open(name, "rb") as file:
        data = file.read()
    ends = threading.Event()
    with open("growing", "wb", buffering=0) as file:
        file.write(data)

        def grow():
            for _ in range(200):
                if ends.is_set():
                    return
                file.write(b"\n" * 100_000)
        writer = threading.Thread(target=grow)
        writer.start()
        runs.run(f"{shown}: a file that grows", put("growing"), {0, 2, 10, 11})
        ends.set()
        writer.join()


# ---- malicious files

def repeated(text, size=LARGEST):
    return (text * (size // len(text) + 1))[:size]


def in_json(name, text):
    """An assertion file with one member replaced by this text."""
    members = {
        "assertions": b"[]", "candidates": b'["1","2"]', "contest": b'"7"', "margin": b"1", "order": b'["1","2"]', "records": b"1",
        "version": b"1", "winner": b'"1"', name: text,
    }
    return b"{" + b",".join(b'"%s":%s' % (key.encode(), value) for key, value in members.items()) + b"}"


HEAD = b"1\nContest,1,2,1,2\n"
NEB = b'{"kind":"NEB","loser":"2","margin":1,"winner":"1"},'
NEB_2 = b'{"draws":1,' + NEB[1:]
NO_DRAWS = b'{"draws":null,' + NEB[1:]

# what it shows, the bytes, the statuses
COMMA_SEPARATED = [
    ("brackets", repeated(b"["), {2}), ("commas", repeated(b","), {2}), ("quotes", repeated(b'"'), {2}), ("one id", repeated(b"x"), {2}),
    ("line feeds", repeated(b"\n"), {2}), ("blanks", repeated(b" \n"), {2}), ("zeros", repeated(b"\0"), {2}), ("digits", repeated(b"1"), {2}),
    ("marks", repeated(plain_audit.MARK), {2}), ("one quote", b'"' + repeated(b",\n", LARGEST - 1), {2}),
    ("a byte too many", repeated(b"x", LARGEST + 1), {11}),
]
BALLOTS = COMMA_SEPARATED + [
    ("a million contests", b"1000000\n" + b"".join(b"Contest,%d,2,1,2\n" % c for c in range(1000000)), {2}),
    ("a contest of 1,000 candidates", b"1\nContest,1,%d," % MOST_LISTED + b",".join(b"%d" % c for c in range(MOST_LISTED)) + b"\n", {2}),
    ("64 contests of 1,000 candidates", b"64\n" + b"".join(
        b"Contest,%d,1000," % k + b",".join(b"%d" % c for c in range(1000)) + b"\n" for k in range(64)), {2}),
    ("ballots of commas", HEAD + b"1,t_1," + repeated(b",", LARGEST - len(HEAD) - 6), {3}),
    ("ballots of one candidate", HEAD + b"1,t_1" + repeated(b",1", LARGEST - len(HEAD) - 6), {0, 3, 6}),
    ("short ballots", HEAD + b"".join(b"1,%d,1\n" % k for k in range(MOST_RECORDS)), {0, 6}),
    ("a million quotes in one field", HEAD + b'1,"' + repeated(b'""', 2_000_000) + b'",1\n', {2}),
]
ASSERTIONS = [
    ("brackets", repeated(b"["), {2}), ("braces", repeated(b'{"a":'), {2}), ("commas", repeated(b","), {2}), ("quotes", repeated(b'"'), {2}),
    ("one text", in_json("note", b'"' + repeated(b"x", LARGEST - 500) + b'"'), {6}), ("digits", in_json("note", repeated(b"1", LARGEST - 500)), {2}),
    ("zeros behind a point", in_json("note", b"0." + repeated(b"0", LARGEST - 500)), {6}), ("blanks", repeated(b" "), {2}),
    ("escapes", in_json("note", b'"' + repeated(b"\\u0041", (LARGEST - 500) // 6 * 6) + b'"'), {6}),
    ("half surrogates", in_json("note", b'"' + repeated(b"\\ud800", (LARGEST - 500) // 6 * 6) + b'"'), {2}),
    ("nulls", in_json("note", b"[" + repeated(b"null,", 50_000_000) + b"0]"), {6, 9}),
    ("lists", in_json("note", b"[" + repeated(b"[],", 30_000_000) + b"0]"), {6, 9}),
    ("one member again and again", b"{" + repeated(b'"margin":1,', 50_000_000 // 11 * 11) + in_json("note", b"1")[1:], {6}),
    ("assertions", in_json("assertions", b"[" + NEB * ((LARGEST - 500) // len(NEB) - 1) + NEB[:-1] + b"]"), {0, 6, 9}),
    ("candidates", in_json("candidates", b"[" + repeated(b'"1",', 50_000_000) + b'"2"]'), {2, 9}),
    ("a byte too many", repeated(b" ", LARGEST + 1), {11}),
]


OPENED = audits.session_with([], False).encode()
SESSIONS = [(shows, data, statuses if 11 in statuses else statuses & {9} | {2}) for shows, data, statuses in ASSERTIONS] + [
    ("rounds", OPENED.replace(b'"rounds":[]', b'"rounds":[' + b"{}," * 20_000_000 + b"{}]"), {2, 9}),
    ("margins", OPENED.replace(b'"margins":[1]', b'"margins":[' + b"1," * 10_000_000 + b"1]"), {0, 9}),
]
SEEN = COMMA_SEPARATED + [
    ("one card again and again", repeated(b"b_1,ballot,1\n"), {2}), ("a ballot of one candidate", b"b_1,ballot" + repeated(b",1", LARGEST - 10), {0}),
    ("cards that aren't there", b"".join(b"b_%d,missing\n" % k for k in range(2, 100_000)), {2}),
]
SEEN_BY = COMMA_SEPARATED + [
    ("one card again and again", repeated(b"b_1,7,ballot,1\n"), {2}), ("a ballot of one candidate", b"b_1,7,ballot" + repeated(b",1", LARGEST - 12), {0}),
    ("contests that aren't there", b"".join(b"b_1,%d,missing\n" % k for k in range(8, 100_000)), {2}),
]
MANIFESTS = COMMA_SEPARATED + [
    ("batches of one card", b"batch,cards\n" + b"".join(b"%d,1\n" % k for k in range(2_000_000)), {0}),
    ("one batch again and again", b"batch,cards\n" + repeated(b"b,1\n", LARGEST - 12), {2}),
    ("more cards than there may be", b"batch,cards\n" + b"".join(b"%d,1000000\n" % k for k in range(100_000)), {2}),
]


def in_version_2(name, text, cards=b"1", gamma=b"100", limit=b"600000"):
    """The same, in the version with draws."""
    further = b'"version":2,"cards":%s,"gamma":%s,"limit":%s' % (cards, gamma, limit)
    return in_json(name, text).replace(b'"version":1', further)


PLANNED = [
    ("assertions with draws", in_version_2("assertions", b"[" + NEB_2 * ((LARGEST - 500) // len(NEB_2) - 1) + NEB_2[:-1] + b"]"), {0, 9}),
    ("digits of draws", in_version_2("assertions", NEB_2[:-1].replace(b":1,", b":" + repeated(b"1", LARGEST - 500) + b",", 1).join([b"[", b"]"])), {2}),
    ("digits of cards", in_version_2("assertions", b"[]", cards=repeated(b"1", LARGEST - 500)), {2}), ("cards of no one", in_version_2("note", b"[]", cards=b"0"), {2}),
    ("the most cards", in_version_2("assertions", b"[" + NO_DRAWS * 100_000 + NO_DRAWS[:-1] + b"]", cards=b"10000000", limit=b"1"), {0}),
]


# For each kind of file, the commands that are given malicious ones, with the statuses that may come in addition to those of the table. The first command gets
# all of them. Each other command, which reads them in the same way, gets only a few of those that must be refused.
MALICIOUS = {
    "ballots.raire": (BALLOTS, {"tabulate": set(), "open": {2, 6}, "plurality": {2, 3}, "contests": {2}}), "plural.json": (SESSIONS, {"plurality, a round": {2}}),
    "assertions.json": (ASSERTIONS, {"check": set(), "trim": {0, 2}, "plan": {0, 2}, "poll": {0, 2}, "adopt": {0, 2, 6}}),
    "planned.json": (PLANNED, {"check of draws": set()}),
    "manifest.csv": (MANIFESTS, {"sample": set(), "open": {2}, "poll": {2}, "plurality": {2}, "contests": {2}}), "session.json": (SESSIONS, {"report": set(), "audit": {2}}),
    "seen.csv": (SEEN, {"audit": set(), "poll": set(), "plurality, a round": set()}), "seen_by.csv": (SEEN_BY, {"contests": set()}),
}


def malicious(runs):
    for name, (cases, commands) in MALICIOUS.items():
        for shows, data, statuses in cases:
            with open("malicious", "wb") as file:
                file.write(data)
            for command, more in commands.items():
                is_first = command == next(iter(commands))
                if command in runs.lines and (is_first or statuses != {2} or shows == "brackets"):
                    words = ["malicious" if word == name else word for word in runs.lines[command]]
                    runs.run(f"{command}: {shows}", words, statuses | (more if 11 not in statuses else set()))
    if "check of draws" in runs.lines:
        doubtful(runs)
    many_sets(runs)
    if "contests" in runs.lines:
        many_contests(runs)


def many_contests(runs):
    """As many contests as there may be, each with as many candidates as there may be: first without ballots, so that each is a tie, then with as many
    ballots as a file may have."""
    ids, cards = b",".join(b"c%d" % c for c in range(MOST_CANDIDATES)), MOST_RECORDS // MOST_CONTESTS
    heads = b"%d\n" % MOST_CONTESTS + b"".join(b"Contest,%d,%d,%s\n" % (k, MOST_CANDIDATES, ids) for k in range(MOST_CONTESTS))
    with open("many.raire", "wb") as file:
        file.write(heads)
    with open("full.raire", "wb") as file:
        file.write(heads + b"".join(b"%d,b_%d,c%d\n" % (k, card + 1, card % 3 // 2) for card in range(cards) for k in range(MOST_CONTESTS)))
    audits.write("full.csv", f"batch,cards\nb,{cards}\n")
    card = plain_audit.drawn("1", 1, cards)
    audits.write("full_by.csv", audits.lines(*(f"b_{card},{k},missing" for k in range(MOST_CONTESTS))))
    audits.write("none.csv", "")
    runs.run("contests: many without ballots", ["contests", "many.raire", "manifest.csv", "none.csv", "--seed=1", "--draws=1"], {10})
    runs.run("contests: many with many ballots", ["contests", "full.raire", "full.csv", "full_by.csv", "--seed=1", "--draws=1"], {10})


# If a risk is very near the limit, bounds don't show whether it is within the limit, and each draw is a step. A file may require that for each of its
# assertions, so it isn't given more of them than this.
MOST_DOUBTFUL = 1_000


def doubtful(runs):
    """Numbers of draws for which bounds on the risk don't show whether they are enough."""
    margin, cards, gamma, limit = 34, 103_962, 50, 1
    audits.write("doubtful.raire", audits.BALLOTS.replace("7,b_1,1\n", "".join(f"7,b_{k},1\n" for k in range(margin))))
    claim = NEB_2.replace(b'"margin":1', b'"margin":%d' % margin).replace(b'"draws":1', b'"draws":%d' % plain_audit.clean_draws(cards, margin, gamma, limit))
    data = in_version_2("assertions", b"[" + claim * (MOST_DOUBTFUL - 1) + claim[:-1] + b"]", *(b"%d" % number for number in (cards, gamma, limit)))
    with open("doubtful.json", "wb") as file:
        file.write(data.replace(b'"margin":1,"order"', b'"margin":%d,"order"' % margin).replace(b'"records":1', b'"records":%d' % margin))
    runs.run("check of draws that bounds leave open", ["check", "doubtful.raire", "doubtful.json"], {0})


# ---- words and contests of the budget of sets

MANY_SETS = 100_000


def many_sets(runs):
    """Bad words; and as many candidates as there may be, one of whom leads. Each set of the others may come last, and no assertion of less than the best
    margin refutes that, so more sets count than any budget has."""
    for words in (["--sets=1", "--nodes=1"], ["--sets=0"], [f"--sets={MOST_SETS + 1}"], ["--sets=-1"], ["--sets="], ["--sets=1", "--sets=1"]):
        for line in (["search", "ballots.raire"], ["check", "ballots.raire", "assertions.json"], ["trial", "--number=0"]):
            runs.run(f"{line[0]} {words}", [*line, *words], {1})
    for command in ("tabulate", "poll", "plan", "sample", "report", "plurality"):
        runs.run(f"{command} has no sets", [*runs.lines[command], "--sets=1"], {1})
    others = [str(c) for c in range(1, MOST_CANDIDATES)]
    rankings = ["0"] * 40 + [f"{c},{after},0" for c, after in zip(others, others[1:] + others[:1])]
    audits.write("wide.raire", f"1\nContest,9,{MOST_CANDIDATES},0,{','.join(others)}\n" + "".join(f"9,b_{k},{each}\n" for k, each in enumerate(rankings, 1)))
    runs.run("search of 32 candidates, of whom too many sets count", ["search", "wide.raire", f"--sets={MANY_SETS}"], {4})
    for size in (16, 24, 32):
        runs.run(f"the same in {size} MB", ["search", "wide.raire", f"--sets={MANY_SETS}"], {4, 9}, preexec_fn=lambda: limit(size))


# ---- little memory

def memory(runs):
    with open("large.raire", "wb") as file:
        file.write(HEAD + b"".join(b"1,batch_%d,%d\n" % (k + 1, 1 + k % 3 // 2) for k in range(MOST_RECORDS)))
    with open("large.csv", "w") as file:
        file.write(f"batch,cards\nbatch,{MOST_RECORDS}\n")
    margin = sum(1 - k % 3 // 2 * 2 for k in range(MOST_RECORDS))
    with open("large.json", "wb") as file:
        claim = b'[{"kind":"NEB","loser":"2","margin":%d,"winner":"1"}]' % margin
        file.write(in_json("assertions", claim).replace(b'"7"', b'"1"').replace(b'"margin":1', b'"margin":%d' % margin).replace(b'"records":1', b'"records":%d' % MOST_RECORDS))
    large = {
        "tabulate": ["large.raire"], "search": ["large.raire"], "check": ["large.raire", "large.json"], "trim": ["large.raire", "large.json"],
        "open": ["large.raire", "large.csv", "large.json", "--seed=1"], "plurality": ["large.raire", "large.csv", "--seed=1"],
        "search for cards": ["large.raire", f"--cards={MOST_RECORDS}"],
        "contests": ["large.raire", "large.csv", "large_by.csv", "--seed=1", "--draws=1", "--limit=999999"],
    }
    card = plain_audit.drawn("1", 1, MOST_RECORDS)
    audits.write("large_by.csv", f"batch_{card},1,ballot,{1 + (card - 1) % 3 // 2}\n")
    for size in (16, 24, 32, 64, 128, 256, 1024):
        for line in runs.lines.values():
            runs.run(f"{line[0]} in {size} MB", line, {0, 9, 10}, preexec_fn=lambda: limit(size))
        for command in large.keys() & runs.lines.keys():
            wanted = {0, 9} if size < 1024 else {0}
            runs.run(f"{command} of a million ballots in {size} MB", [runs.lines[command][0], *large[command]], wanted, preexec_fn=lambda: limit(size))


def limit(size):
    resource.setrlimit(resource.RLIMIT_AS, (size * MIB, size * MIB))


def main():
    runs, here = Runs(sys.argv[1]), os.getcwd()
    for part in (outputs, names, malicious, memory):
        began, before = time.monotonic(), runs.count
        with tempfile.TemporaryDirectory() as folder:
            os.chmod(folder, 0o755)
            os.chdir(folder)
            good_files()
            part(runs)
            os.chdir(here)
        print(f"{part.__name__}: {runs.count - before} runs, {time.monotonic() - began:.0f} s")
    print(f"{runs.count - runs.failed} runs among failing things as they should be, {runs.failed} not; tried: {' '.join(runs.lines)}")
    sys.exit(1 if runs.failed else 0)


if __name__ == "__main__":
    main()
