#!/usr/bin/env python3
"""Files whose author chose ids and names that have one digest, or cards and assertions that crowd in a table, by a hash with a known seed.

acceptance/colliding.py PROGRAM runs commands on such files and on honest ones of the same size. The status and standard error must be the same. The
processor time must be at most twice that of the honest file, or ten times for ids of ballots, batches, cards and members. The last line says how many runs
passed.
"""
import json
import os
import resource
import subprocess
import sys
import tempfile

import places  # noqa: F401
from limits import MOST_BATCH_CARDS, MOST_CONTESTS, MOST_RECORDS

MOST_TIMES = 2
MOST_TIMES_OF_IDS = 10
# A shorter time counts as this one, since the start of a program isn't what is measured.
LEAST_SECONDS = 0.05
BATCHES = 65_536
CARD_BATCHES = 5
MEMBERS = 1_000_000
# The candidates of a contest that nobody asks for, its ballots, and the number of candidates that each ballot ranks.
RIVALS = 300
LONG_BALLOTS = 25_000
RANKED = 50
# The ballots of the last of many contests.
LATE_BALLOTS = 250_000
ASSERTIONS = 100_000
# More candidates than have a table of all sets.
CANDIDATES = 25
# The last bytes of a ballot's id; no digest covers them.
COUNTED_BYTES = 5

# ---- the hash, which is that of the kit's `FoldHasher`

SEED, MULTIPLIER, MASK = 0x243F6A8885A308D3, 0x9E3779B97F4A7C15, 2**64 - 1


def folded(a, b):
    product = a * b
    return product & MASK ^ product >> 64


def word(data, at):
    return int.from_bytes(data[at:at + 8], "little")


def after_length(state, number):
    """The state after the length of a list is hashed, before its bytes."""
    return folded(state ^ number, MULTIPLIER ^ 16)


def after_one(state, byte):
    return folded(state ^ byte * 0x010101, MULTIPLIER ^ 2)


def after_four(state, number):
    return folded(state ^ number ^ number << 32, MULTIPLIER ^ 8)


def group(state, groups):
    """The group in which a table of `groups` groups tries to put a key first."""
    return (state ^ state >> 32) % groups


# ---- keys that the hash can't distinguish

LETTERS = b"0123456789ABCDEFGHIJKLMNOPQRSTUVWXYZabcdefghijklmnopqrstuvwxyz"


def alike_front():
    """Returns 24 bytes; any 32 bytes that begin with them have the digest 0, whatever the last eight are.

    The first 16 lead to a state that can be written as text. That state comes next, so that the product after it is 0.
    """
    for number in range(len(LETTERS) ** 4):
        tail = bytes(LETTERS[number // len(LETTERS) ** k % len(LETTERS)] for k in range(4))
        front = b"collidingids" + tail
        state = folded(word(front, 0) ^ SEED + 32, word(front, 8) ^ MULTIPLIER).to_bytes(8, "little")
        if all(0x21 <= byte <= 0x7E and byte not in b'",' for byte in state):
            return (front + state).decode()
    raise AssertionError("no front leads to a text")


def crowded_cards(most):
    """Numbers of cards that all begin in one 64th of the groups of a table for them."""
    groups = 1 << (most // 64 // 9).bit_length()
    return [card for card in range(1, most + 1) if group(after_four(SEED, card), groups) < groups // 64]


def crowded_names(front, most):
    """Names that all begin in one group of a table for them and have the same tag there, so that each is compared. Keys are hashed a byte at a time."""
    groups = 1 << (most // 9).bit_length()
    start = after_length(SEED, len(front) + 8)
    for byte in front.encode():
        start = after_one(start, byte)
    states, found = [("", start)], []
    while states:
        digits, state = states.pop()
        if len(digits) < 8:
            states += [(f"{digits}{digit}", after_one(state, ord("0") + digit)) for digit in range(10)]
        elif group(state, groups) == 0 and (state ^ state >> 32) >> 24 & 0xFF == 1:
            found.append(front + digits)
            if len(found) == most:
                return found
    raise AssertionError("too few names crowd")


def spread_and_crowded_sets():
    """Sets with the first two candidates: some that are spread over a table, and as many that begin in one 64th of it.

    A set is hashed after the kind of a NEN and its winner, the first candidate.
    """
    groups = 1 << (ASSERTIONS // 9).bit_length()
    state = after_one(after_one(SEED, 0), 0)
    spread, crowded = [], []
    for rest in range(3, 1 << CANDIDATES, 4):
        place = group(after_four(state, rest), groups)
        if place % 64 == 0:
            spread.append(rest)
        if place < groups // 64:
            crowded.append(rest)
    return spread[:ASSERTIONS], crowded[:ASSERTIONS]


# ---- files

HEAD = "1\nContest,1,2,a,b\n"


def write(name, parts):
    with open(name, "w", encoding="ascii") as file:
        file.writelines(parts)


def write_ballots(name, ids):
    """Writes ballots: the first ranks b, and all others rank a."""
    write(name, [HEAD, *(f"1,{ballot},{'a' if number else 'b'}\n" for number, ballot in enumerate(ids))])


def write_manifest(name, batches):
    write(name, ["batch,cards\n", *(f"{batch},1\n" for batch in batches)])


class Runs:
    def __init__(self, program):
        self.program, self.count, self.failed = os.path.abspath(program), 0, 0

    def timed(self, words):
        before = resource.getrusage(resource.RUSAGE_CHILDREN)
        ran = subprocess.run([self.program, *words], stdin=subprocess.DEVNULL, stdout=subprocess.PIPE, stderr=subprocess.PIPE, timeout=600)
        after = resource.getrusage(resource.RUSAGE_CHILDREN)
        told = ran.stderr.decode()
        for name in words:
            told = told.replace(name, "FILE")
        return after.ru_utime + after.ru_stime - before.ru_utime - before.ru_stime, ran.returncode, told, ran.stdout.decode()

    def made(self, words):
        """What the program prints for honest files."""
        _, status, told, printed = self.timed(words)
        if status != 0:
            raise AssertionError(f"{' '.join(words)}: {status} {told}")
        return printed

    def pair(self, shows, honest, colliding, most_times=MOST_TIMES_OF_IDS):
        self.count += 1
        long, status, told, _ = self.timed(honest)
        try:
            longer, *answer = self.timed(colliding)[:3]
        except subprocess.TimeoutExpired:
            self.failed += 1
            return print(f"{shows}: it doesn't end")
        print(f"{shows}: {long:.2f} s, colliding {longer:.2f} s")
        if answer != [status, told]:
            self.failed += 1
            print(f"{shows}: wanted {status} {told!r}, got {answer}")
        elif longer > most_times * max(long, LEAST_SECONDS):
            self.failed += 1
            print(f"{shows}: more than {most_times} times as long")


# ---- the cases

def ballots(runs):
    front, counted = alike_front(), "x" * COUNTED_BYTES
    honest = [f"{'batch_':>024}{counted}{number:08}" for number in range(MOST_RECORDS)]
    colliding = [f"{front}{number:08}{counted}" for number in range(MOST_RECORDS)]
    write_ballots("honest", honest)
    write_ballots("colliding", colliding)
    runs.pair("ids of ballots", ["tabulate", "honest"], ["tabulate", "colliding"])
    write_ballots("honest", honest[:-1] + honest[1:2])
    write_ballots("colliding", colliding[:-1] + colliding[1:2])  # only the first has the page of them all
    runs.pair("ids of ballots, the last repeats the second", ["tabulate", "honest"], ["tabulate", "colliding"])
    write("honest", ["2\nContest,1,2,a,b\nContest,2,2,a,b\n1,x,a\n", *(f"2,{ballot},a\n" for ballot in honest[:-1])])
    write("colliding", ["2\nContest,1,2,a,b\nContest,2,2,a,b\n1,x,a\n", *(f"2,{ballot},a\n" for ballot in colliding[:-1])])
    runs.pair("ids of ballots of another contest", ["tabulate", "honest", "--contest=1"], ["tabulate", "colliding", "--contest=1"])


def candidates(runs):
    """The names of candidates of a contest that nobody asks for, as its ballots rank them."""
    front = f"{'candidate':>024}"
    for file, names in (("honest", [f"{front}{number:08}" for number in range(RIVALS)]), ("colliding", crowded_names(front, RIVALS))):
        ranked = (",".join(names[(number * 7919 + rank * 31) % RIVALS] for rank in range(RANKED)) for number in range(LONG_BALLOTS))
        heads = f"2\nContest,1,2,a,b\nContest,2,{RIVALS},{','.join(names)}\n1,x,a\n"
        write(file, [heads, *(f"2,{number},{preferences}\n" for number, preferences in enumerate(ranked))])
    runs.pair("names of candidates", ["tabulate", "honest", "--contest=1"], ["tabulate", "colliding", "--contest=1"], MOST_TIMES)


def contests(runs):
    """The ballots of the last contest in a file with as many contests as a file may have."""
    for file, front in (("honest", f"{'contest':>024}"), ("colliding", alike_front())):
        names = [f"{front}{number:08}" for number in range(MOST_CONTESTS)]
        heads = [f"{MOST_CONTESTS}\n", *(f"Contest,{name},2,a,b\n" for name in names), f"{names[0]},x,a\n"]
        write(file, [*heads, *(f"{names[-1]},{number},a\n" for number in range(LATE_BALLOTS))])
    first = [f"--contest={front}{0:08}" for front in (f"{'contest':>024}", alike_front())]
    runs.pair("ids of contests", ["tabulate", "honest", first[0]], ["tabulate", "colliding", first[1]], MOST_TIMES)


def batches(runs):
    for name, front in (("honest", f"{'batch':>024}"), ("colliding", alike_front())):
        names = [f"{front}{number:08x}" for number in range(BATCHES)]
        write_manifest(name, names)
        write_ballots(f"{name}.raire", [f"{batch}_1" for batch in names])
    sample = ["--seed=1", "--draws=3"]
    runs.pair("names of batches", ["sample", "honest", *sample], ["sample", "colliding", *sample])
    write("assertions", [runs.made(["search", "honest.raire"])])
    opened = (["open", f"{name}.raire", name, "assertions", "--seed=1"] for name in ("honest", "colliding"))
    runs.pair("ballots of batches", *opened)


def cards(runs):
    write("manifest", ["batch,cards\n", *(f"b{batch},{MOST_BATCH_CARDS}\n" for batch in range(CARD_BATCHES))])
    write_ballots("ballots", ["b0_1", "b0_2", "b0_3"])
    write("assertions", [runs.made(["search", "ballots"])])
    files = ["ballots", "manifest", "assertions"]
    write("session", [runs.made(["open", *files, "--seed=1"])])
    crowded = crowded_cards(CARD_BATCHES * MOST_BATCH_CARDS)
    for name, seen in (("honest", range(1, len(crowded) + 1)), ("colliding", crowded)):
        write(name, (f"b{(card - 1) // MOST_BATCH_CARDS}_{(card - 1) % MOST_BATCH_CARDS + 1},ballot,a\n" for card in seen))
    audited = (["audit", "session", *files, name, "--draws=1"] for name in ("honest", "colliding"))
    runs.pair("seen cards", *audited)


def members(runs):
    front = alike_front()
    write_ballots("ballots", ["1", "2", "3"])
    printed = runs.made(["search", "ballots"])
    for name, front in (("honest", "member of a file in JSON"), ("colliding", front)):
        quoted = front.replace("\\", "\\\\")
        write(name, ["{", *(f'"{quoted}{number:08}":0,' for number in range(MEMBERS)), printed[1:]])
    runs.pair("members of an assertion file", ["check", "ballots", "honest"], ["check", "ballots", "colliding"])


def assertions(runs):
    """NENs of the first candidate, who has all the ballots, over the second."""
    names = [f"c{number}" for number in range(CANDIDATES)]
    write("ballots", [f"1\nContest,1,{CANDIDATES},{','.join(names)}\n", *(f"1,{ballot},c0\n" for ballot in "123")])
    file = json.loads(runs.made(["search", "ballots"]))
    needed, margin = file["assertions"], file["records"]
    for name, sets in zip(("honest", "colliding"), spread_and_crowded_sets()):
        claims = [
            {"kind": "NEN", "loser": "c1", "margin": margin, "rest": [names[c] for c in range(CANDIDATES) if rest >> c & 1], "winner": "c0"}
            for rest in sets
        ]
        file["assertions"] = needed + claims
        write(name, [json.dumps(file, separators=(",", ":")), "\n"])
    for command in ("check", "trim"):
        words = ([command, "ballots", name] for name in ("honest", "colliding"))
        runs.pair(f"assertions, {command}", *words, MOST_TIMES)


def main():
    runs, here = Runs(sys.argv[1]), os.getcwd()
    for part in (ballots, candidates, contests, batches, cards, members, assertions):
        with tempfile.TemporaryDirectory() as folder:
            os.chdir(folder)
            part(runs)
            os.chdir(here)
    print(f"{runs.count - runs.failed} passed, {runs.failed} failed")
    sys.exit(1 if runs.failed else 0)


if __name__ == "__main__":
    main()
