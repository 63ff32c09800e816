#!/usr/bin/env python3
"""Damaged files of every kind, with cuts, flipped bits, repeats, swaps and inserted words, given to the built program.

acceptance/damaged.py PROGRAM [FILES] gives it each beginning of a file of each kind, and FILES damaged files (20,000 by default). Each run must end with
the status and both texts of plain_audit.py, whose only answers are those of docs/formats.md. The last line says how many did.
"""
import collections
import json
import multiprocessing
import os
import subprocess
import sys
import tempfile

import places  # noqa: F401
import audits
import plain_audit
from draws import Draws

TOP = os.path.dirname(os.path.dirname(os.path.abspath(__file__)))

# For each kind of file, the commands that read it, with the other files whole.
COMMANDS = {
    "ballots.raire": [
        ["tabulate", "ballots.raire"], ["open", "ballots.raire", "whole.csv", "whole.json", "--seed=1"],
        ["plurality", "ballots.raire", "whole.csv", "--seed=1"], ["contests", "ballots.raire", "whole.csv", "whole_by.csv", "--seed=1", "--draws=5"],
        ["adopt", "ballots.raire", "whole_claims.json"],
    ],
    "assertions.json": [
        ["check", "whole.raire", "assertions.json"], ["trim", "whole.raire", "assertions.json"], ["plan", "whole.csv", "assertions.json"],
        ["poll", "whole.csv", "assertions.json", "whole_seen.csv", "--seed=1", "--draws=5"], ["adopt", "whole.raire", "assertions.json"],
    ],
    "planned.json": [["check", "whole.raire", "planned.json"], ["trim", "whole.raire", "planned.json"], ["plan", "whole.csv", "planned.json"]],
    "claims.json": [["adopt", "whole.raire", "claims.json"]],
    "manifest.csv": [
        ["sample", "manifest.csv", "--seed=1", "--draws=5"], ["open", "whole.raire", "manifest.csv", "whole.json", "--seed=1"],
        ["poll", "manifest.csv", "whole.json", "whole_seen.csv", "--seed=1", "--draws=5"], ["plurality", "whole.raire", "manifest.csv", "--seed=1"],
        ["contests", "whole.raire", "manifest.csv", "whole_by.csv", "--seed=1", "--draws=5"],
    ],
    "session.json": [
        ["report", "session.json"], ["audit", "session.json", "whole.raire", "whole.csv", "whole.json", "whole_seen.csv", "--draws=20"],
    ],
    "plural.json": [["plurality", "plural.json", "whole.raire", "whole.csv", "whole_seen.csv", "--draws=20"]],
    "seen.csv": [
        ["plurality", "plural_opened.json", "whole.raire", "whole.csv", "seen.csv", "--draws=20"],
        ["audit", "opened.json", "whole.raire", "whole.csv", "whole.json", "seen.csv", "--draws=20"],
        ["poll", "whole.csv", "whole.json", "seen.csv", "--seed=7", "--draws=20"],
    ],
    "seen_by.csv": [["contests", "whole.raire", "whole.csv", "seen_by.csv", "--seed=7", "--draws=20"]],
}
WORDS = {
    "csv": [b",", b"\n", b"\r\n", b"\r", b'"', b'""', b" ", b"\t", b"\xef\xbb\xbf", b"\0", b"\xff", b"0", b"1", b"-1", b"1000001", b"Contest",
            b"ballot", b"missing", b"batch,cards\n", b"_", b"x" * 65, b"99999999999"],
    "json": [b",", b"\n", b'"', b"{", b"}", b"[", b"]", b":", b"\\", b"\\u0041", b"\\ud800", b"\xff", b"0", b"-1", b"1.0", b"1e1", b"1e999", b"null",
             b"true", b"4294967296", b"18446744073709551616", b"NaN", b'"version":1,', b'"margin":1,', b"[" * 130, b"NEB", b"NEN", b'"version":2,', b'"version":3,',
             b'"cards":9,', b'"draws":null,', b'"draws":1,', b'"limit":1,'],
}


def one_of(draws, choices):
    return choices[draws.below(len(choices))]


def damaged(draws, data, words):
    """The bytes with one to three things done to them."""
    for _ in range(1 + draws.below(3)):
        at, size = draws.below(len(data) + 1), 1 + draws.below(12)
        other = draws.below(len(data) + 1)
        change = draws.below(8)
        if change == 0 and at < len(data):
            data = data[:at] + bytes([data[at] ^ 1 << draws.below(8)]) + data[at + 1:]
        elif change == 1:
            data = data[:at]
        elif change == 2:
            data = data[:at] + data[at:at + size] * (1 + draws.below(3)) + data[at:]
        elif change == 3:
            data = data[:at] + data[at + size:]
        elif change == 4:
            low, high = sorted((at, other))
            data = data[:low] + data[high:high + size] + data[low + size:high] + data[low:low + size] + data[max(high, low + size) + size:]
        elif change == 5:
            lines = data.split(b"\n")
            lines.insert(draws.below(len(lines) + 1), one_of(draws, lines))
            data = b"\n".join(lines)
        else:
            data = data[:at] + one_of(draws, words) + data[at + (size if change == 6 else 0):]
    return data


def claims_of(text):
    """What an assertion file claims, without any margins."""
    found = json.loads(text)
    claims = [{name: value for name, value in claim.items() if name != "margin"} for claim in found["assertions"]]
    return json.dumps({"assertions": claims, **{name: found[name] for name in ("candidates", "contest", "winner")}})


def whole_files(draws):
    """Writes audits with a session of one round each, and a copy of their files under names that nothing damages."""
    while True:
        audits.Made(draws)
        status, text, _ = plain_audit.run(["search", "ballots.raire"])
        opened = plain_audit.run(["plurality", "ballots.raire", "manifest.csv", "--seed=7"])
        if status == opened[0] == 0:
            break
    audits.write("assertions.json", text)
    audits.write("claims.json", claims_of(text))
    cards = json.loads(text)["records"] + draws.below(100)
    audits.write("planned.json", plain_audit.run(["search", "ballots.raire", f"--cards={cards}", "--limit=300000"])[1])
    with open("seen.csv") as file:
        audits.write("seen_by.csv", "".join(line.replace(",", ",9,", 1) for line in file))
    names = {
        "ballots.raire": "whole.raire", "manifest.csv": "whole.csv", "assertions.json": "whole.json", "seen.csv": "whole_seen.csv", "seen_by.csv": "whole_by.csv",
        "claims.json": "whole_claims.json",
    }
    for name, other in names.items():
        with open(name) as file:
            audits.write(other, file.read())
    audits.write("opened.json", plain_audit.run(["open", "whole.raire", "whole.csv", "whole.json", "--seed=7"])[1])
    words = ["audit", "opened.json", "whole.raire", "whole.csv", "whole.json", "seen.csv", "--draws=9"]
    audits.write("session.json", plain_audit.run(words)[1])
    audits.write("plural_opened.json", opened[1])
    words = ["plurality", "plural_opened.json", "whole.raire", "whole.csv", "seen.csv", "--draws=9"]
    audits.write("plural.json", plain_audit.run(words)[1])


def tried(job):
    """Tries a number of files, made from one number, and returns the statuses that came and what differed."""
    program, number, files, kinds = job
    draws, statuses, wrong = Draws(number), collections.Counter(), []
    with tempfile.TemporaryDirectory() as folder:
        os.chdir(folder)
        for at in range(files):
            if at % 25 == 0:
                whole_files(draws)
                whole = {kind: open(kind, "rb").read() for kind in kinds}
            kind = list(kinds)[at % len(kinds)]
            data = damaged(draws, whole[kind], WORDS["json" if kind.endswith("json") else "csv"])
            with open(kind, "wb") as file:
                file.write(data)
            words = one_of(draws, kinds[kind])
            wanted = plain_audit.run(words)
            ran = subprocess.run([program, *words], capture_output=True)
            statuses[words[0], ran.returncode] += 1
            got = ran.returncode, ran.stdout.decode("latin-1"), ran.stderr.decode("latin-1")
            if got != wanted:
                wrong.append(f"{words} on {data}: wanted {wanted}, got {got}")
        os.chdir("/")
    return statuses, wrong


# What a search says of the first 0, 1, 2, .. bytes of examples/row1.raire, worked out by hand: a rule and its place, or the tied candidates.
BEGINNINGS = ["B1 at 1"] + ["B2 at 2"] * 11 + ["B3 at 2"] * 6 + ["B4 at 2"] + ["1,2,3"] * 2 + ["B6 at 3", "B4 at 3", "1,2,3"]


def beginnings(program, kinds):
    """Each beginning of a ballot file, searched, and of one file of each kind, given to each command that reads it."""
    runs, wrong = 0, []
    with open(os.path.join(TOP, "examples", "row1.raire"), "rb") as file:
        row = file.read()
    with tempfile.TemporaryDirectory() as folder:
        os.chdir(folder)
        whole_files(Draws(7))
        files = [(["search", "row1.raire"], "row1.raire", row)]
        files += [(words, kind, open(kind, "rb").read()) for kind in kinds for words in kinds[kind]]
        for words, name, data in files:
            for size in range(len(data) + 1):
                with open(name, "wb") as file:
                    file.write(data[:size])
                wanted = plain_audit.run(words)
                if name == "row1.raire" and size < len(BEGINNINGS) and BEGINNINGS[size] not in wanted[1] + wanted[2]:
                    wrong.append(f"{size} bytes: {wanted} by plain_audit.py")
                ran = subprocess.run([program, *words], capture_output=True, text=True)
                runs += 1
                if (ran.returncode, ran.stdout, ran.stderr) != wanted:
                    wrong.append(f"{words} on {data[:size]}: wanted {wanted}, got {ran}")
        os.chdir("/")
    print(f"{runs} beginnings of files, {len(wrong)} answers aren't as they should be")
    return wrong


def main():
    program, files = os.path.abspath(sys.argv[1]), int(sys.argv[2]) if len(sys.argv) > 2 else 20000
    commands = audits.Runs(program).commands
    kinds = {kind: [words for words in lines if words[0] in commands] for kind, lines in COMMANDS.items()}
    kinds = {kind: lines for kind, lines in kinds.items() if lines}
    wrong = beginnings(program, kinds)
    parts = max(1, files // 250)
    jobs = [(program, 24 + part, files // parts, kinds) for part in range(parts)]
    statuses, cut = collections.Counter(), len(wrong)
    with multiprocessing.Pool(min(4, os.cpu_count())) as pool:
        for each, told in pool.imap(tried, jobs):
            statuses += each
            wrong += told
    for told in wrong[:5]:
        print(told)
    told = ", ".join(f"{command} {status}: {count}" for (command, status), count in sorted(statuses.items()))
    print(f"{sum(statuses.values())} damaged files ({told}), {len(wrong) - cut} answers aren't as they should be")
    sys.exit(1 if wrong else 0)


if __name__ == "__main__":
    main()
