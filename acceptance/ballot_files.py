#!/usr/bin/env python3
"""Ballot files that are read or refused, each rule with its place, tried on the built program.

acceptance/ballot_files.py PROGRAM writes each file of the tables below and tabulates it. The last line says how many came out as they should.
"""
import os
import subprocess
import sys
import tempfile

import places  # noqa: F401
from limits import MOST_CANDIDATES, MOST_CONTESTS, MOST_LISTED, MOST_NAME_BYTES, MOST_RECORDS

MARK = b"\xef\xbb\xbf"
HEAD = b"1\nContest,1,3,1,2,3\n"
BALLOTS = b"1,t_1,1\n1,t_2,1\n1,t_3,2\n1,t_4,1\n1,t_5,2,3\n1,t_6,3\n"
ROUNDS = (
    "contest 1\nrecords 6\nround 1: 1=3 2=2 3=1 exhausted=0\neliminated 3\n"
    "round 2: 1=3 2=2 exhausted=1\neliminated 2\nwinner 1\n"
)
TWO = b"2\nContest,1,3,1,2,3\nContest,2,2,1,2\n"


def contests(count):
    return b"%d\n" % count + b"".join(b"Contest,c%d,2,1,2\n" % number for number in range(count))


def many(count):
    return HEAD + b"".join(b"1,t_%d,1,2\n" % number for number in range(count))


# what it shows, the file, the rule and the place, further words
REFUSED = [
    ("no bytes", b"", "B1 at 1"),
    ("blank lines alone", b"\r\n  \r\n\t\n", "B1 at 1"),
    ("no contests", b"0\n", "B1 at 1"),
    ("a contest too many", contests(MOST_CONTESTS + 1), "B1 at 1"),
    ("a word for a number", MARK + b'"one"\n' + HEAD[2:], "B1 at 1"),
    ("eleven digits", b"00000000001\n" + HEAD[2:], "B1 at 1"),
    ("a contest that isn't there", b"1\n", "B2 at 2"),
    ("the second contest isn't there", b"2\n\nContest,1,2,1,2\n \n", "B2 at 3"),
    ("no number of candidates", b"1\nContest,1", "B2 at 2"),
    ("another word", b"1\ncontest,1,2,1,2\n", "B2 at 2"),
    ("a contest twice", b'2\r\nContest,1,2,1,2\r\n\r\n"Contest"," 1",2,1,2\r\n', "B2 at 3"),
    ("too few candidates", b"1\nContest,1,3,1,2", "B3 at 2"),
    ("no candidate", b'\n1\n\nContest,1,"0"\n', "B3 at 2"),
    ("a listed candidate too many", b"1\nContest,1,%d," % (MOST_LISTED + 1) + b",".join(b"%d" % c for c in range(MOST_LISTED + 1)) + b"\n", "B3 at 2"),
    ("one candidate is audited", b"1\nContest,1,1,1\n", "B3 at 2"),
    ("a candidate too many is audited", b"1\n  \nContest,1,%d," % (MOST_CANDIDATES + 1) + b",".join(b"%d" % c for c in range(MOST_CANDIDATES + 1)) + b"\n", "B3 at 2"),
    ("the range comes after all contests", b"2\nContest,1,1,1\nContest,2\n", "B2 at 3"),
    ("an id that is too long", b"1\nContest," + b"x" * (MOST_NAME_BYTES + 1) + b",2,1,2\n", "B4 at 2"),
    ("a candidate twice", b'1\r\n\r\nContest,1,2,"1", 1\r\n', "B4 at 2"),
    ("a ballot without an id", HEAD + b"1,,1\n", "B4 at 3"),
    ("a byte above the range of ids", HEAD + b"1,t\xc3\xa9,1\n", "B4 at 3"),
    ("a NUL in an id", HEAD + b"1,t\x00,1\n", "B4 at 3"),
    ("a comma in quotes", HEAD + b'1,"t,1",1\n', "B4 at 3"),
    ("two contests, none asked for", TWO + b"1,t_1,1\n", "B5 at 1"),
    ("another contest asked for", HEAD + BALLOTS, "B5 at 1", "--contest", "2"),
    ("asked for before its size", TWO.replace(b"3,1,2,3", b"1,1"), "B5 at 1", "--contest=3"),
    ("one field", HEAD + b"1,t_1,1\n1\n", "B6 at 4"),
    ("one field in quotes", HEAD + b'1,t_1,1\r\n\r\n"1,t_2"\r\n', "B6 at 4"),
    ("a quote that is never closed", HEAD + b'1,t_1,1\n"1,t_2,1\n1,t_3,2\n', "B6 at 4"),
    ("another contest's ballot", HEAD + b"1,t_1,1\n2,t_2,1\n", "B7 at 4"),
    ("another contest's ballot behind a blank line", HEAD + b"1,t_1,1\n \t \n\"2\",t_2,1\n", "B7 at 4"),
    ("no candidate of the contest", HEAD + b"1,t_1,1,4\n", "B8 at 3"),
    ("a candidate of the other contest", TWO + b"1,t_1,3\n\n2,t_1,3\n", "B8 at 5", "--contest", "1"),
    ("a ballot's id twice", HEAD + b"1,t_1,1\n1,t_1,2\n", "B9 at 4"),
    ("a ballot's id twice, with a space in it", HEAD + b"1,t 00001,1\n1,t 00001,2\n", "B9 at 4"),
    ("an id twice, behind one with another front", HEAD + b"1,a_00001,1\n1,b_00001,2\n1,a_00001,2\n", "B9 at 5"),
    ("a ballot's id twice, once in quotes", HEAD + b'1,t_1,1\r\n\r\n1,"t_1",2\r\n', "B9 at 4"),
    ("twice comes before its preferences", HEAD + b"1,t_1,1\n1,t_1,9\n", "B9 at 4"),
    ("its id comes before its contest", HEAD + b"9,,1\n", "B4 at 3"),
    ("a ballot too many", many(MOST_RECORDS + 1), f"B10 at {MOST_RECORDS + 3}"),
    ("a ballot too many and blank lines", many(MOST_RECORDS).replace(b"\n1,t_9,", b"\n\n1,t_9,") + b"7\n", f"B10 at {MOST_RECORDS + 3}"),
]

# what it shows, the file, what is printed, further words
READ = [
    ("plain", HEAD + BALLOTS, ROUNDS),
    ("a mark, blank lines, line ends and blanks", MARK + b"1 , more\r\n\r\n Contest ,1,3,1,2,3,winner,1\r\n\t\r\n" + BALLOTS.replace(b"\n", b"\r\n"), ROUNDS),
    ("blank and repeated preferences", HEAD + BALLOTS.replace(b"t_5,2,3", b"t_5,2,, 2 ,3,2").replace(b"t_1,1", b't_1,"1",'), ROUNDS),
    ("leading zeros", b"01\nContest,1,0000000003,1,2,3\n" + BALLOTS, ROUNDS),
    ("no line feed at the end", HEAD + BALLOTS[:-1], ROUNDS),
    ("a contest among two", TWO + BALLOTS + b"2,t_1,2\n", ROUNDS, "--contest", "1"),
    ("the other of the two", TWO + BALLOTS + b"2,t_1,2\n", "contest 2\nrecords 1\nround 1: 1=0 2=1 exhausted=0\neliminated 1\nwinner 2\n", "--contest=2"),
    ("as many contests as may be", contests(MOST_CONTESTS) + b"c63,t_1,1\n", "contest c63\nrecords 1\nround 1: 1=1 2=0 exhausted=0\neliminated 2\nwinner 1\n", "--contest", "c63"),
    ("an id of 64 bytes", b"1\nContest," + b"x" * 64 + b",2,1,2\n" + b"x" * 64 + b",t_1,1\n", f"contest {'x' * 64}\nrecords 1\nround 1: 1=1 2=0 exhausted=0\neliminated 2\nwinner 1\n"),
    ("a million fields", HEAD + BALLOTS.replace(b"t_5,2,3", b"t_5,2" + b"," * 1_000_000 + b"3"), ROUNDS),
    ("a ballot without a preference", HEAD + BALLOTS + b"1,t_7\n", ROUNDS.replace("records 6", "records 7").replace("exhausted=1", "exhausted=2").replace("exhausted=0", "exhausted=1")),
    ("a contest of 1,000 candidates beside it", b"2\nContest,1,3,1,2,3\nContest,2,1000," + b",".join(b"%d" % c for c in range(1000)) + b"\n" + BALLOTS + b"2,t_1,999\n", ROUNDS, "--contest", "1"),
]


def main():
    program = sys.argv[1]
    cases = [(shows, data, (2, "", text), words) for shows, data, text, *words in REFUSED]
    cases += [(shows, data, (0, text, ""), words) for shows, data, text, *words in READ]
    failed = 0
    with tempfile.TemporaryDirectory() as folder:
        path = os.path.join(folder, "ballots.raire")
        for shows, data, (status, out, refusal), words in cases:
            with open(path, "wb") as file:
                file.write(data)
            ran = subprocess.run([program, "tabulate", *words, path], capture_output=True, text=True)
            err = f"raire: {path}: {refusal}\n" if refusal else ""
            if (ran.returncode, ran.stdout, ran.stderr) != (status, out, err):
                failed += 1
                print(f"{shows}: wanted {status} {out}{err}got {ran.returncode} {ran.stdout}{ran.stderr}")
    print(f"{len(cases) - failed} ballot files as they should be, {failed} not")
    sys.exit(1 if failed else 0)


if __name__ == "__main__":
    main()
