#!/usr/bin/env python3
"""Ballot files of some MiB, which reach a search in many pieces, compared with a plain reading of each record.

acceptance/parts.py PROGRAM [FILES] makes FILES files (80 by default): with ids that are counted up, shuffled, of several forms or without a common start,
with line ends of three kinds, blank lines and a second contest. In most of them one record is broken, or repeats the id of any earlier record. Some have a
double quote, a byte order mark or an id that is also in the other contest, which breaks nothing. With 1, 2, 3 and 8 workers a search must refuse the file
by the rule that a plain reading finds first, and at its record; otherwise it must print the same. The last line says how many agreed.
"""
import os
import subprocess
import sys
import tempfile

import places  # noqa: F401
from draws import Draws
from limits import MOST_WORKERS

FILES = 80
WORKERS = 1, 2, 3, MOST_WORKERS
CANDIDATES = [b"Ann", b"Ben Wyn", b"C", b"Dee-4", b"a longer name than the others"]
OTHERS = [b"Yes", b"No"]
KINDS = ("whole", "id again", "id again", "id again", "id in the other contest", "quoted", "marked", "unknown candidate", "unknown contest", "no name", "short")


def ids(draws, kind, number):
    """The ids of this many ballots, all different."""
    if kind == "counted up":
        return [b"ballot_%d" % (k + 1) for k in range(number)]
    if kind == "of batches":
        return [b"%d_%d_%d" % (99800 + k // 1000, k // 50 % 20, k % 50) for k in range(number)]
    if kind == "without a common front":
        return [b"%x-%05d" % (draws.below(2**30), k) for k in range(number)]
    made = [b"b%07d" % k for k in range(number)]
    for k in range(number - 1, 0, -1):
        other = draws.below(k + 1)
        made[k], made[other] = made[other], made[k]
    return made


def records_of(draws, number):
    """The records of a file; the first record of a ballot is number 4."""
    names = ids(draws, ("counted up", "of batches", "without a common front", "shuffled")[draws.below(4)], number)
    made = []
    for name in names:
        contest, candidates = (b"340", OTHERS) if draws.below(9) == 0 else (b"339", CANDIDATES)
        made.append([contest, name, *(candidates[draws.below(len(candidates))] for _ in range(draws.below(6)))])
    return made


def damaged(draws, records):
    """What is done to a record, and the rule that it breaks with its place among these, if it breaks one."""
    kind = KINDS[draws.below(len(KINDS))]
    at = 1 + draws.below(len(records) - 1)
    record, before = records[at], records[draws.below(at)]
    if kind == "id again":
        records[at] = [before[0], before[1]]
        return kind, ("B9", at)
    if kind == "id in the other contest":
        records[at] = [b"340" if before[0] == b"339" else b"339", before[1]]
    elif kind == "quoted":
        record[1] = b'"' + record[1] + b'"'
    elif kind == "unknown candidate":
        record.append(b"Ann " + record[1])
        return kind, ("B8", at)
    elif kind == "unknown contest":
        record[0] = b"341"
        return kind, ("B7", at)
    elif kind == "no name":
        record[1] = b"caf\xc3\xa9"
        return kind, ("B4", at)
    elif kind == "short":
        records[at] = [b"339"]
        return kind, ("B6", at)
    return kind, None


def file_of(draws, records, kind):
    end = (b"\n", b"\r\n", b"\r")[draws.below(3)]
    lines = [b"2", b"Contest,339,%d,%s" % (len(CANDIDATES), b",".join(CANDIDATES)), b"Contest,340,2,Yes,No"]
    for record in records:
        lines.append(b",".join(record))
        if draws.below(500) == 0:
            lines.append(b"  " if draws.below(2) else b"")
    return (b"\xef\xbb\xbf" if kind == "marked" else b"") + end.join(lines) + (b"" if draws.below(3) == 0 else end)


def ran(program, path, workers):
    done = subprocess.run([program, "search", path, "--contest", "339", "--workers", str(workers)], capture_output=True, timeout=600)
    return done.returncode, done.stdout, done.stderr


def main():
    program, files = sys.argv[1], int(sys.argv[2]) if len(sys.argv) > 2 else FILES
    draws, agreed, told = Draws(20240601), 0, {}
    with tempfile.TemporaryDirectory() as folder:
        path = os.path.join(folder, "b.raire")
        for k in range(files):
            records = records_of(draws, 100_000 + draws.below(200_000))
            kind, broken = damaged(draws, records)
            with open(path, "wb") as file:
                file.write(file_of(draws, records, kind))
            answers = [ran(program, path, workers) for workers in WORKERS]
            wanted = (2, b"", b"raire: %s: %s at %d\n" % (path.encode(), broken[0].encode(), 4 + broken[1])) if broken else answers[0]
            is_well = all(answer == wanted for answer in answers) and (broken is not None or wanted[0] in (0, 3))
            agreed += is_well
            told[kind] = told.get(kind, 0) + 1
            if not is_well:
                print(f"parts: file {k}, {kind}: wanted {wanted[0]} {wanted[2][:80]}, got", *(f"{a[0]} {a[2][:80]}" for a in answers))
    print(f"parts: {agreed} of {files} files by {len(WORKERS)} numbers of workers ({', '.join(f'{n} {kind}' for kind, n in sorted(told.items()))})")
    sys.exit(agreed != files)


if __name__ == "__main__":
    main()
