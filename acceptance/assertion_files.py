#!/usr/bin/env python3
"""Assertion files that are accepted, that differ or that are refused, tried on the built program.

acceptance/assertion_files.py PROGRAM [FILES] checks each file of the tables below against examples/row1.raire. Then it takes what a search prints for
generated contests: one in three in version 1, the others in version 2, with draws, and some of both without their order, as version 3. It changes what is
printed and checks FILES of these changed files (1,500 by default). Each answer is also compared with plain.py. The last lines say how many came out as
they should.
"""
import collections
import copy
import json
import os
import subprocess
import sys
import tempfile

import places  # noqa: F401
import compare
import plain
from draws import Draws
from limits import DEFAULT_NODES, GREATEST_GAMMA, GREATEST_LIMIT, MOST_CANDIDATES, MOST_CARDS, MOST_NUMBER, MOST_RECORDS

EXAMPLES = os.path.join(os.path.dirname(os.path.abspath(__file__)), "..", "examples")
BALLOTS = os.path.join(EXAMPLES, "row1.raire")
with open(os.path.join(EXAMPLES, "row1.json"), "rb") as example:
    PRINTED = example.read()


def compact(value):
    return json.dumps(value, sort_keys=True, separators=(",", ":")).encode()


NEB, NEN_2, NEN_3 = map(compact, json.loads(PRINTED)["assertions"])
NEN_1 = b'{"kind":"NEN","loser":"3","margin":2,"rest":["1","2","3"],"winner":"1"}'


def put(*changes):
    """What is printed, with each text replaced by the text after it."""
    data = PRINTED
    for old, new in zip(changes[::2], changes[1::2]):
        assert data.count(old) == 1, old
        data = data.replace(old, new)
    return data


def claims(*listed):
    return put(b",".join([NEB, NEN_2, NEN_3]), b",".join(listed))


def with_member(claim, **members):
    return compact({**json.loads(claim), **members})


def without(name):
    return compact({key: value for key, value in json.loads(PRINTED).items() if key != name})


def covered(*changes):
    """What is printed without its order, with these changes."""
    return put(ORDER + b",", b"", VERSION, b'"version":3', *changes)


def covered_by(*listed):
    return covered(b",".join([NEB, NEN_2, NEN_3]), b",".join(listed))


def ids(count):
    return b"[" + b",".join(b'"%d"' % c for c in range(1, count + 1)) + b"]"


CONTEST, MARGIN, RECORDS, VERSION = b'"contest":"1"', b'"margin":1,"order"', b'"records":12', b'"version":1'
WINNER, LIST, ORDER = b'"winner":"2"}\n', b'"candidates":["1","2","3"]', b'"order":["2","1","3"]'
LOSER, REST = b'"loser":"3"', b'"rest":["1","2"]'
PLANNED = b'"cards":12,"gamma":100,"limit":50000,"version":2'
PLANNED_3 = b'"cards":12,"gamma":100,"limit":50000,"version":3'
FIRST_2, SECOND_2, THIRD_2 = (with_member(claim, draws=None) for claim in (NEB, NEN_2, NEN_3))


def further(value):
    """What is printed, with one more member, of this value."""
    return put(VERSION, b'"note":' + value + b"," + VERSION)


def contest(text):
    return put(CONTEST, b'"contest":' + text)


def order(*listed):
    return put(ORDER, b'"order":[' + b",".join(b'"%s"' % c for c in listed) + b"]")


def records(number):
    return put(RECORDS, b'"records":' + number)


def rest(text):
    return put(REST, b'"rest":' + text)


# what it shows, the file, the number of assertions, further words
ACCEPTED = [
    ("what a search prints", PRINTED, 3),
    ("the contest by its id", PRINTED, 3, "--contest", "1"),
    ("as few nodes as suffice", PRINTED, 3, "--nodes=1"),
    ("members in another order, and further ones", json.dumps({"note": [{}], **dict(reversed(json.loads(PRINTED).items()))}, indent=2).encode(), 3),
    ("blanks between", b" \t\r\n" + PRINTED.replace(b",", b" ,\r\n").replace(b":", b"\t: "), 3),
    ("no line feed at the end", PRINTED[:-1], 3),
    ("a rest in another order", rest(b'["2","1"]'), 3),
    ("a rest of a NEB", claims(with_member(NEB, rest=[["9"], 2]), NEN_2, NEN_3), 3),
    ("assertions in another order", claims(NEN_3, NEB, NEN_2), 3),
    ("an assertion twice", claims(NEB, NEN_2, NEN_3, NEB), 4),
    ("a true assertion more", claims(NEB, NEN_2, NEN_3, NEN_1), 4),
    ("an assertion less, which isn't needed", claims(NEB, NEN_2), 2),
    ("members of version 2, which say nothing in version 1", put(VERSION, b'"cards":-1,"gamma":[],"limit":null,' + VERSION, LOSER, b'"draws":"x",' + LOSER), 3),
    ("version 2, whose draws are no fewer than the cards", put(VERSION, PLANNED, NEB, FIRST_2, NEN_2, SECOND_2, NEN_3, THIRD_2), 3),
    ("a name twice: the last stands", put(RECORDS, b'"records":"x",' + RECORDS), 3),
    ("escapes", put(CONTEST, b'"con\\u0074est":"\\u0031"'), 3),
    ("a pair of surrogates in a further member", further(b'"\\ud83d\\ude00"'), 3),
    ("any number in a further member", further(b"[-1,-0,1e99,18446744073709551616]"), 3),
    ("127 levels", further(b"[" * 126 + b"]" * 126), 3),
]

# the same for files without an order, whose margin isn't said to be the best
COVERING = [
    ("what a search prints, without its order", covered(), 3),
    ("an assertion less, which isn't needed, and no order", covered_by(NEB, NEN_2), 2),
    ("assertions in another order, and no order", covered_by(NEN_3, NEB, NEN_2, NEB), 4),
    ("as few nodes as suffice, and no order", covered(), 3, "--nodes=1"),
    ("draws and no order", covered(b'"version":3', PLANNED_3, NEB, FIRST_2, NEN_2, SECOND_2, NEN_3, THIRD_2), 3),
    ("blanks between, and no order", covered().replace(b",", b" ,\r\n"), 3),
]

# what it shows, the file, the status, the text, further words
DIFFERENT = [
    ("no NEB", claims(NEN_2, NEN_3), 6, "no: order 2,1,3 stands"),
    ("another margin claimed for the NEB", claims(with_member(NEB, margin=2), NEN_2, NEN_3), 6, "no: assertion 1 has margin 1"),
    ("a harder order", order(b"3", b"2", b"1"), 6, "no: order is refuted by NEN 2 1 {1,2} margin 2"),
    ("an order for the winner", order(b"3", b"1", b"2"), 6, "no: order elects the winner"),
    ("no assertions", claims(), 6, "no: order 3,2,1 stands"),
    ("no assertions and another winner", put(b",".join([NEB, NEN_2, NEN_3]), b"", WINNER, b'"winner":"1"}\n'), 6, "no: winner is 2"),
    ("another contest", contest(b'"2"'), 6, "no: contest differs"),
    ("other candidates", PRINTED.replace(b'"3"', b'"4"'), 6, "no: contest differs"),
    ("candidates in another order", put(LIST, b'"candidates":["1","3","2"]'), 6, "no: contest differs"),
    ("as many candidates as may be", put(LIST, b'"candidates":' + ids(MOST_CANDIDATES), ORDER, b'"order":' + ids(MOST_CANDIDATES)), 6, "no: contest differs"),
    ("an id of 64 bytes", contest(b'"%s"' % (b"x" * 64)), 6, "no: contest differs"),
    ("a record less", records(b"11"), 6, "no: contest differs"),
    ("a record more", records(b"13"), 6, "no: contest differs"),
    ("as many records as may be", records(b"%d" % MOST_RECORDS), 6, "no: contest differs"),
    ("an assertion that isn't true", claims(NEB, NEN_2, NEN_3, with_member(NEB, winner="1")), 6, "no: assertion 4 has margin -2"),
    ("a larger margin than the smallest", put(MARGIN, b'"margin":2,"order"'), 6, "no: smallest margin is 1"),
    ("the contest comes before the winner", put(RECORDS, b'"records":11', WINNER, b'"winner":"1"}\n'), 6, "no: contest differs"),
    ("the winner comes before margins", put(NEB, with_member(NEB, margin=2), WINNER, b'"winner":"3"}\n'), 6, "no: winner is 2"),
    ("the first margin that differs", claims(NEB, with_member(NEN_2, margin=1), with_member(NEN_3, margin=3)), 6, "no: assertion 2 has margin 2"),
    ("margins come before orders that stand", claims(NEN_2, with_member(NEN_3, margin=1)), 6, "no: assertion 2 has margin 2"),
    ("orders that stand come before the smallest margin", put(NEB + b",", b"", MARGIN, b'"margin":2,"order"'), 6, "no: order 2,1,3 stands"),
    ("the smallest margin comes before the order", put(MARGIN, b'"margin":2,"order"', ORDER, b'"order":["3","1","2"]'), 6, "no: smallest margin is 1"),
    ("too few nodes", claims(), 4, "spent\ncandidate 1", "--nodes", "1"),
    ("just as many nodes", claims(), 6, "no: order 3,2,1 stands", "--nodes", "2"),
    ("too few nodes for the other candidate", claims(NEN_2, NEN_3), 4, "spent\ncandidate 3", "--nodes", "1"),
    ("draws of version 2", put(VERSION, PLANNED, NEB, with_member(NEB, draws=12), NEN_2, with_member(NEN_2, draws=1), NEN_3, with_member(NEN_3, draws=1)), 6,
     "no: assertion 1 needs a full count"),
    ("no order, and no NEB", covered_by(NEN_2, NEN_3), 6, "no: order 2,1,3 stands"),
    ("no order, and no NEN that is needed", covered_by(NEB, NEN_3), 6, "no: order 3,2,1 stands"),
    ("no order, and the last assertion missing", covered_by(NEN_2, NEN_3, with_member(NEB, loser="1", margin=2)), 6, "no: assertion 3 has margin -1"),
    ("no order, and another margin claimed", covered_by(NEB, with_member(NEN_2, margin=1), NEN_3), 6, "no: assertion 2 has margin 2"),
    ("no order, and a larger margin than the smallest", covered(b'"margin":1,"records"', b'"margin":2,"records"'), 6, "no: smallest margin is 1"),
    ("no order, and no assertions", covered_by(), 6, "no: order 3,2,1 stands"),
    ("no order, and another winner", covered(WINNER, b'"winner":"3"}\n'), 6, "no: winner is 2"),
    ("no order, and other draws", covered(b'"version":3', PLANNED_3, NEB, FIRST_2, NEN_2, SECOND_2, NEN_3, with_member(NEN_3, draws=1)), 6,
     "no: assertion 3 needs a full count"),
    ("margins come before nodes", claims(with_member(NEN_2, margin=1)), 6, "no: assertion 1 has margin 2", "--nodes=1"),
]

# what it shows, the file, the rule and the place
REFUSED = [
    ("no bytes", b"", "F1 at 0"),
    ("the last brace is missing", PRINTED[:-2] + b"\n", "F1 at 0"),
    ("text behind the object", PRINTED + b"{}", "F1 at 0"),
    ("a comma too many", put(RECORDS, RECORDS + b","), "F1 at 0"),
    ("200 opening brackets", b"[" * 200, "F1 at 0"),
    ("200 brackets, and closed", b"[" * 200 + b"]" * 200, "F1 at 0"),
    ("128 levels", further(b"[" * 127 + b"]" * 127), "F1 at 0"),
    ("a number out of range", further(b"1e999"), "F1 at 0"),
    ("a whole number out of range", further(b"1" + b"0" * 400), "F1 at 0"),
    ("a number out of range in a member that doesn't stand", put(RECORDS, b'"records":-1e999,' + RECORDS), "F1 at 0"),
    ("a leading zero", records(b"012"), "F1 at 0"),
    ("a plus", records(b"+12"), "F1 at 0"),
    ("a number that ends with a point", records(b"12."), "F1 at 0"),
    ("no number", further(b"NaN"), "F1 at 0"),
    ("infinity", further(b"-Infinity"), "F1 at 0"),
    ("the first half of a pair", further(b'"\\ud800"'), "F1 at 0"),
    ("the second half of a pair", further(b'"\\udc00"'), "F1 at 0"),
    ("a half in a name", put(VERSION, b'"\\ud800x":1,' + VERSION), "F1 at 0"),
    ("a half in a member that doesn't stand", put(RECORDS, b'"records":["\\udfff"],' + RECORDS), "F1 at 0"),
    ("a byte that is no UTF-8", contest(b'"\xff"'), "F1 at 0"),
    ("a zero in two bytes", contest(b'"\xc0\x80"'), "F1 at 0"),
    ("half of a pair in three bytes", contest(b'"\xed\xa0\x80"'), "F1 at 0"),
    ("UTF-16", PRINTED.decode().encode("utf-16"), "F1 at 0"),
    ("a byte order mark", b"\xef\xbb\xbf" + PRINTED, "F1 at 0"),
    ("a line feed in a text", contest(b'"1\n"'), "F1 at 0"),
    ("a NUL behind the object", PRINTED + b"\0", "F1 at 0"),
    ("single quotes", PRINTED.replace(b'"', b"'"), "F1 at 0"),
    ("a comment", b"// \n" + PRINTED, "F1 at 0"),
    ("no object", b"[]", "F2 at 0"),
    ("null", b"null\n", "F2 at 0"),
    ("a text", b'"' + PRINTED.strip().replace(b'"', b'\\"') + b'"', "F2 at 0"),
    ("records with a point", records(b"12.0"), "F2 at 0"),
    ("records with an exponent", records(b"12e0"), "F2 at 0"),
    ("records below zero", records(b"-1"), "F2 at 0"),
    ("records of minus zero", records(b"-0"), "F2 at 0"),
    ("records of a number more", records(b"%d" % (MOST_NUMBER + 1)), "F2 at 0"),
    ("records of 12 and 2 to the 64", records(b"18446744073709551628"), "F2 at 0"),
    ("records as a text", records(b'"12"'), "F2 at 0"),
    ("records that are true", records(b"true"), "F2 at 0"),
    ("a name twice: the last is of another kind", put(RECORDS, RECORDS + b',"records":"x"'), "F2 at 0"),
    ("a number among the candidates", put(LIST, b'"candidates":["1","2",3]'), "F2 at 0"),
    ("null in the order", put(ORDER, b'"order":["2",null,"3"]'), "F2 at 0"),
    ("an order as a text", put(ORDER, b'"order":"213"'), "F2 at 0"),
    ("no contest but null", contest(b"null"), "F2 at 0"),
    ("kinds come before the version", put(VERSION, b'"version":4', CONTEST, b'"contest":1'), "F2 at 0"),
    ("another kind in the second", claims(NEB, with_member(NEN_2, kind="NEC"), NEN_3), "F2 at 2"),
    ("a kind in small letters", claims(with_member(NEB, kind="neb"), NEN_2, NEN_3), "F2 at 1"),
    ("a NEN without a rest", claims(NEB, NEN_2, with_member(NEB, kind="NEN")), "F2 at 3"),
    ("a rest that is null", rest(b"null"), "F2 at 2"),
    ("a number in a rest", rest(b'["1",2]'), "F2 at 2"),
    ("an assertion that is no object", claims(NEB, NEN_2, NEN_3, b"[]"), "F2 at 4"),
    ("an assertion's margin with a point", claims(NEB, with_member(NEN_2, margin=2.5), NEN_3), "F2 at 2"),
    ("an assertion's loser as a number", claims(with_member(NEB, loser=3), NEN_2, NEN_3), "F2 at 1"),
    ("version 4", put(VERSION, b'"version":4'), "F3 at 0"),
    ("version 4 without an order", put(VERSION, b'"version":4', ORDER + b",", b""), "F2 at 0"),
    ("version 3 with an order", put(VERSION, b'"version":3'), "F2 at 0"),
    ("version 3 with an order that is null", put(VERSION, b'"version":3', ORDER, b'"order":null'), "F2 at 0"),
    ("version 3 with cards alone", covered(b'"version":3', b'"cards":12,"version":3'), "F2 at 0"),
    ("version 3 without a limit", covered(b'"version":3', b'"cards":12,"gamma":100,"version":3', NEB, FIRST_2, NEN_2, SECOND_2, NEN_3, THIRD_2), "F2 at 0"),
    ("version 3 with a limit that is null", covered(b'"version":3', PLANNED_3.replace(b"50000", b"null")), "F2 at 0"),
    ("version 3 with draws for nothing", covered(NEN_3, THIRD_2), "F2 at 3"),
    ("version 3 with draws of one alone", covered(b'"version":3', PLANNED_3, NEB, FIRST_2), "F2 at 2"),
    ("version 3 with cards below the records", covered(b'"version":3', PLANNED_3.replace(b"12", b"11"), NEB, FIRST_2), "F6 at 0"),
    ("version 3 with a margin above the records", covered(b'"margin":1,"records"', b'"margin":13,"records"'), "F6 at 0"),
    ("version 3 with a winner who isn't a candidate", covered(WINNER, b'"winner":"4"}\n'), "F4 at 0"),
    ("version 2 without its members", put(VERSION, b'"version":2'), "F2 at 0"),
    ("version 0", put(VERSION, b'"version":0'), "F3 at 0"),
    ("the version comes before ids", put(VERSION, b'"version":4', CONTEST, b'"contest":""'), "F3 at 0"),
    ("a contest without an id", contest(b'""'), "F4 at 0"),
    ("a contest's id of 65 bytes", contest(b'"%s"' % (b"x" * 65)), "F4 at 0"),
    ("a comma in an id", contest(b'"1,2"'), "F4 at 0"),
    ("a quote in an id", contest(b'"1\\""'), "F4 at 0"),
    ("an id that begins with a space", contest(b'" 1"'), "F4 at 0"),
    ("an id that ends with a space", contest(b'"1 "'), "F4 at 0"),
    ("a tab in an id", contest(b'"1\\t1"'), "F4 at 0"),
    ("a byte above the range of ids", contest(b'"\xc3\xa9"'), "F4 at 0"),
    ("a deletion in an id", contest(b'"1\\u007f"'), "F4 at 0"),
    ("a NUL in an id", contest(b'"1\\u0000"'), "F4 at 0"),
    ("one candidate", put(LIST, b'"candidates":' + ids(1)), "F4 at 0"),
    ("a candidate too many", put(LIST, b'"candidates":' + ids(MOST_CANDIDATES + 1), ORDER, b'"order":' + ids(MOST_CANDIDATES + 1)), "F4 at 0"),
    ("a candidate twice", put(LIST, b'"candidates":["1","2","3","1"]'), "F4 at 0"),
    ("a candidate's id that is none", put(LIST, b'"candidates":["1","2","3",""]'), "F4 at 0"),
    ("a winner who isn't a candidate", put(WINNER, b'"winner":"4"}\n'), "F4 at 0"),
    ("an unknown candidate in the order", order(b"2", b"1", b"4"), "F4 at 0"),
    ("unknown comes before too few", order(b"4"), "F4 at 0"),
    ("an unknown loser in the first", put(LOSER, b'"loser":"4"'), "F4 at 1"),
    ("a loser with a space", put(LOSER, b'"loser":"3 "'), "F4 at 1"),
    ("an unknown winner in the second", claims(NEB, with_member(NEN_2, winner="4"), NEN_3), "F4 at 2"),
    ("a winner who is the loser", put(LOSER, b'"loser":"2"'), "F4 at 1"),
    ("an unknown candidate in a rest", rest(b'["1","2","4"]'), "F4 at 2"),
    ("unknown comes before repeated", rest(b'["1","1","4"]'), "F4 at 2"),
    ("no order", order(), "F5 at 0"),
    ("an order without a candidate", order(b"2", b"1"), "F5 at 0"),
    ("a candidate twice in the order", order(b"2", b"1", b"1"), "F5 at 0"),
    ("a candidate too many in the order", order(b"2", b"1", b"3", b"1"), "F5 at 0"),
    ("the order comes before margins", put(MARGIN, b'"margin":13,"order"', ORDER, b'"order":[]'), "F5 at 0"),
    ("a rest without the winner", rest(b'["1"]'), "F5 at 2"),
    ("a rest without the loser", rest(b'["2"]'), "F5 at 2"),
    ("a rest of others", claims(NEB, NEN_2, with_member(NEN_3, rest=["1", "2"])), "F5 at 3"),
    ("no one in a rest", rest(b"[]"), "F5 at 2"),
    ("a candidate twice in a rest", rest(b'["1","2","2"]'), "F5 at 2"),
    ("no records", records(b"0"), "F6 at 0"),
    ("a record too many", records(b"%d" % (MOST_RECORDS + 1)), "F6 at 0"),
    ("records of the greatest number that is read", records(b"%d" % MOST_NUMBER), "F6 at 0"),
    ("a margin of 0", put(MARGIN, b'"margin":0,"order"'), "F6 at 0"),
    ("a margin above the records", put(MARGIN, b'"margin":13,"order"'), "F6 at 0"),
    ("the file's members come before its assertions", put(LOSER, b'"loser":"4"', RECORDS, b'"records":0'), "F6 at 0"),
    ("a margin above the records in the third", claims(NEB, NEN_2, with_member(NEN_3, margin=13)), "F6 at 3"),
    ("a margin of 0 in the first", claims(with_member(NEB, margin=0), NEN_2, NEN_3), "F6 at 1"),
    ("the second comes before the third", claims(NEB, with_member(NEN_2, margin=13), with_member(NEN_3, kind="NEC")), "F6 at 2"),
]
REFUSED += [(f"version 2: {shows}", put(VERSION, head, NEB, claim, NEN_2, SECOND_2, NEN_3, THIRD_2), rule) for shows, head, claim, rule in [
    ("no cards", b'"gamma":100,"limit":50000,"version":2', FIRST_2, "F2 at 0"), ("cards below the records", PLANNED.replace(b"12", b"11"), FIRST_2, "F6 at 0"),
    ("cards too many", PLANNED.replace(b"12", b"%d" % (MOST_CARDS + 1)), FIRST_2, "F6 at 0"), ("no gamma", PLANNED.replace(b"100", b"0"), FIRST_2, "F6 at 0"),
    ("gamma above a half", PLANNED.replace(b"100", b"%d" % (GREATEST_GAMMA + 1)), FIRST_2, "F6 at 0"),
    ("no limit", PLANNED.replace(b"50000", b"0"), FIRST_2, "F6 at 0"), ("a limit of all", PLANNED.replace(b"50000", b"%d" % (GREATEST_LIMIT + 1)), FIRST_2, "F6 at 0"),
    ("no draws", PLANNED, NEB, "F2 at 1"), ("draws of 0", PLANNED, with_member(NEB, draws=0), "F6 at 1"),
    ("draws as a text", PLANNED, with_member(NEB, draws="full count"), "F2 at 1"),
]]
REFUSED += [(f"no member {name}", without(name), "F2 at 0") for name in json.loads(PRINTED)]
REFUSED += [
    (f"no member {name} of the first", claims(compact({key: value for key, value in json.loads(NEB).items() if key != name}), NEN_2), "F2 at 1")
    for name in json.loads(NEB)
]


# ---- the program, and plain.py

def ran(program, ballots, path, words):
    done = subprocess.run([program, "check", ballots, path, *words], capture_output=True, text=True)
    return done.returncode, done.stdout, done.stderr


def answer(contest, path, data, nodes):
    """What plain.py says, with a refusal in the program's words."""
    try:
        return *plain.judge(contest, data, nodes), ""
    except plain.Refused as refused:
        return 2, "", f"raire: {path}: {refused}\n"


def nodes_of(words):
    """The budget that these words give."""
    given = " ".join(words).replace("=", " ").split()
    return int(given[given.index("--nodes") + 1]) if "--nodes" in given else DEFAULT_NODES


def differs(shows, wanted, found, by):
    if wanted == found:
        return False
    print(f"{shows}: wanted {wanted}\n{by} says {found}")
    return True


def failures_of_tables(program, folder):
    path = os.path.join(folder, "assertions.json")
    cases = [
        (shows, data, (0, f"yes\nassertions {count}\nmargin 1\n{more}", ""), words)
        for files, more in ((ACCEPTED, ""), (COVERING, "not said to be best\n")) for shows, data, count, *words in files
    ]
    cases += [(shows, data, (status, text + "\n", ""), words) for shows, data, status, text, *words in DIFFERENT]
    cases += [(shows, data, (2, "", f"raire: {path}: {rule}\n"), ()) for shows, data, rule in REFUSED]
    contest, failed = plain.read(BALLOTS), 0
    for shows, data, wanted, words in cases:
        with open(path, "wb") as file:
            file.write(data)
        failed += differs(shows, wanted, ran(program, BALLOTS, path, words), "the program")
        failed += differs(shows, wanted, answer(contest, path, data, nodes_of(words)), "plain.py")
    print(f"{len(cases)} assertion files in tables, {failed} answers aren't as they should be")
    return failed


# ---- files that are changed

def one_of(draws, listed):
    return listed[draws.below(len(listed))]


def swap(draws, listed):
    """Exchanges two elements, possibly one with itself."""
    i, j = draws.below(len(listed)), draws.below(len(listed))
    listed[i], listed[j] = listed[j], listed[i]


def off_by_one(draws, holder, name):
    holder[name] += 1 - 2 * draws.below(2)


def claim_in(draws, file):
    """An assertion of the file, or one that isn't in it if it has none."""
    return one_of(draws, file["assertions"] or [{"kind": "NEB", "loser": "", "margin": 1, "winner": ""}])


def true_claim(draws, contest, file):
    """A proper assertion, with its margin and, if there is a plan, its draws."""
    w = draws.below(contest.n)
    l = (w + 1 + draws.below(contest.n - 1)) % contest.n
    standing = sorted({w, l} | {c for c in range(contest.n) if draws.below(2)})
    assertion = ("NEN", w, l, frozenset(standing)) if draws.below(3) else ("NEB", w, l)
    claim = {"kind": assertion[0], "loser": contest.ids[l], "margin": contest.margin(assertion), "winner": contest.ids[w]}
    if plain.is_planned(file):
        claim["draws"] = plain.Plan(file["cards"], file["limit"], file["gamma"]).draws(claim["margin"]) if claim["margin"] > 0 else 1
    return {**claim, "rest": [contest.ids[c] for c in standing]} if assertion[0] == "NEN" else claim


def drop(draws, contest, file):
    if file["assertions"]:
        file["assertions"].pop(draws.below(len(file["assertions"])))


def add(draws, contest, file):
    claim = true_claim(draws, contest, file)
    if claim["margin"] > 0 or not draws.below(5):
        file["assertions"].insert(draws.below(len(file["assertions"]) + 1), claim)


def replace(draws, contest, file):
    drop(draws, contest, file)
    add(draws, contest, file)


def repeat(draws, contest, file):
    file["assertions"].append(copy.deepcopy(claim_in(draws, file)))


def reorder(draws, contest, file):
    file["assertions"].reverse()


def exchange(draws, contest, file):
    claim = claim_in(draws, file)
    claim["winner"], claim["loser"] = claim["loser"], claim["winner"]


def rename(draws, contest, file):
    claim_in(draws, file)[one_of(draws, ["winner", "loser"])] = one_of(draws, contest.ids + ["10"])


def turn(draws, contest, file):
    claim = claim_in(draws, file)
    claim["kind"] = one_of(draws, ["NEB", "NEN"])


def resize(draws, contest, file):
    claim = claim_in(draws, file)
    standing = claim.setdefault("rest", list(contest.ids))
    if standing and draws.below(2):
        standing.pop(draws.below(len(standing)))
    else:
        standing.append(one_of(draws, contest.ids))


def shuffle(draws, contest, file):
    for claim in file["assertions"]:
        claim.get("rest", []).reverse()


def reclaim(draws, contest, file):
    off_by_one(draws, claim_in(draws, file), "margin")


def remargin(draws, contest, file):
    off_by_one(draws, file, "margin")


def recount(draws, contest, file):
    off_by_one(draws, file, "records")


def crown(draws, contest, file):
    file["winner"] = one_of(draws, contest.ids)


def permute(draws, contest, file):
    swap(draws, file["order"])


def permute_whole(draws, contest, file):
    for _ in contest.ids:
        swap(draws, file["order"])


def misorder(draws, contest, file):
    file["order"][draws.below(len(file["order"]))] = one_of(draws, contest.ids)


def relist(draws, contest, file):
    swap(draws, file["candidates"])


def recontest(draws, contest, file):
    file["contest"] = one_of(draws, ["8", "9 ", ""])


def remove(draws, contest, file):
    holder = one_of(draws, [file, claim_in(draws, file)])
    holder.pop(one_of(draws, sorted(holder)))


def unkind(draws, contest, file):
    holder = one_of(draws, [file, claim_in(draws, file)])
    holder[one_of(draws, sorted(holder))] = one_of(draws, [None, 1, "1", 1.0, -1, 2**32, [], {}, True])


def redraw(draws, contest, file):
    claim = claim_in(draws, file)
    claim["draws"] = one_of(draws, [None, 1, (claim.get("draws") or 1) + 1, (claim.get("draws") or 3) - 1, 100_000, 100_001])


def replan(draws, contest, file):
    off_by_one(draws, file, one_of(draws, ["cards", "gamma", "limit"]))


def replan_far(draws, contest, file):
    name = one_of(draws, ["cards", "gamma", "limit"])
    file[name] = one_of(draws, [0, 1, contest.records, {"cards": MOST_CARDS, "gamma": GREATEST_GAMMA, "limit": GREATEST_LIMIT}[name] + draws.below(2)])


def reversion(draws, contest, file):
    file["version"] = one_of(draws, [0, 1, 2, 3, 4])


def unorder(draws, contest, file):
    del file["order"]
    file["version"] = 3


def reorder_version(draws, contest, file):
    file["order"] = list(contest.ids)


def keep(draws, contest, file):
    file["note"] = {"assertions": file["margin"]}


CHANGES = [
    keep, drop, drop, drop, drop, add, add, replace, replace, replace, repeat, reorder, exchange, rename, turn, resize, shuffle,
    reclaim, remargin, recount, crown, permute, permute, permute, permute_whole, permute_whole, permute_whole, misorder, relist,
    recontest, remove, unkind,
]
CHANGES_2 = [*CHANGES, redraw, redraw, redraw, replan, replan, replan_far, replan_far, remove, unkind, reversion]
CHANGES_3 = [reorder_version, redraw, remove, remargin, drop, drop, add, add, replan_far]


def damaged(draws, data):
    """The bytes with one of them changed, or cut off."""
    at = draws.below(len(data))
    if draws.below(3):
        return data[:at] + bytes([one_of(draws, b'"{}[],:0129eE.+-\\ u\x00\x7f\xc3\xff')]) + data[at + 1:]
    return data[:at]


def changed(draws, contest, printed):
    file, data = copy.deepcopy(printed), None
    try:
        for _ in range(1 + draws.below(2)):
            changes = [*(CHANGES_2 if "cards" in printed else CHANGES), *([] if "order" in printed else CHANGES_3)]
            one_of(draws, changes)(draws, contest, file)
    except (AttributeError, KeyError, TypeError):
        pass  # the first change removed what the second one needed
    data = compact(file) + b"\n"
    return data if draws.below(10) else damaged(draws, data)


def plan_of(draws, contest):
    """The cards, limit and gamma of a file with draws."""
    return plain.Plan(contest.records + draws.below(one_of(draws, [3, 100, 10_000])), 1 + draws.below(400_000), 1 + draws.below(GREATEST_GAMMA))


def printed_of(contest, plan):
    """What a search prints, or, if the contest isn't decided, some file for it."""
    try:
        return json.loads(plain.certificate(contest, plan))
    except plain.Tie:
        neb = {"kind": "NEB", "loser": contest.ids[1], "margin": 1, "winner": contest.ids[0]}
        return {
            "assertions": [neb], "candidates": contest.ids, "contest": contest.name, "margin": 1, "order": contest.ids,
            "records": contest.records, "version": 1, "winner": contest.ids[0],
        }


def failures_of_changes(program, folder, files):
    ballots, path = os.path.join(folder, "ballots.raire"), os.path.join(folder, "assertions.json")
    draws, failed, statuses = Draws(21), 0, collections.Counter()
    for number in range(files):
        if number % 5 == 0:
            names = [str(11 + c) for c in range(2 + number // 5 % 5)]
            rankings = compare.contest_of(draws, len(names), 8 + draws.below(60))
            compare.write(ballots, names, rankings)
            contest = plain.Contest("9", names, rankings)
            printed = printed_of(contest, plan_of(draws, contest) if number // 5 % 3 else None)
            if number // 5 % 2:
                unorder(draws, contest, printed)
        data = changed(draws, contest, printed)
        with open(path, "wb") as file:
            file.write(data)
        nodes = DEFAULT_NODES if draws.below(3) else 1 + draws.below(2 * contest.n)
        wanted = answer(contest, path, data, nodes)
        statuses[wanted[0]] += 1
        shows = f"file {number}, {nodes} nodes, {names}, {rankings}, {data}"
        failed += differs(shows, wanted, ran(program, ballots, path, ["--nodes", str(nodes)]), "the program")
    told = ", ".join(f"{count} with status {status}" for status, count in sorted(statuses.items()))
    print(f"{files} changed assertion files ({told}), {failed} answers aren't as they should be")
    return failed


def main():
    program, files = sys.argv[1], int(sys.argv[2]) if len(sys.argv) > 2 else 1500
    with tempfile.TemporaryDirectory() as folder:
        failed = failures_of_tables(program, folder) + failures_of_changes(program, folder, files)
    sys.exit(1 if failed else 0)


if __name__ == "__main__":
    main()
