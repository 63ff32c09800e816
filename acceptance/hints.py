#!/usr/bin/env python3
"""Tries the line that ./raire adds after a refusal, and the counts of ./boxes.

acceptance/hints.py PROGRAM makes files that each break a rule, and compares the added line with the expected one. The status, standard output and the
program's own line must stay as they are, even if the added line can't be made. The last line says how many came out as they should.
"""
import errno
import json
import os
import re
import shutil
import subprocess
import sys
import tempfile

import places  # noqa: F401
import limits
import walk

TOP = os.path.dirname(os.path.dirname(os.path.abspath(__file__)))
sys.path.append(os.path.join(TOP, "tools", "hints"))

import rules  # noqa: E402
import table  # noqa: E402

POINTER = "./raire help lists the commands, ./raire help COMMAND the files and options of one"
END = "What to do: docs/faults.md"
RULES = {"B": 11, "C": 5, "F": 7, "M": 7, "S": 5, "V": 6}  # the number of rules of each letter

HEAD = "1\nContest,9,2,Ann,Ben\n"
BALLOTS = HEAD + "9,b_1,Ann\n9,b_2,Ann,Ben\n9,b_3,Ben\n"
MANIFEST = "batch,cards\nb,4\n"
SEEN = "b_1,ballot,Ann\n"
ASSERTIONS = (
    '{"assertions":[{"kind":"NEN","loser":"Ben","margin":1,"rest":["Ann","Ben"],"winner":"Ann"}],"candidates":["Ann","Ben"],'
    '"contest":"9","margin":1,"order":["Ann","Ben"],"records":3,"version":1,"winner":"Ann"}\n'
)
CHANGED = ASSERTIONS.replace
MOST_NUMBER = 4294967295  # of an assertion file
CLAIM = '{"kind":"NEN","loser":"Ben","margin":1,"rest":["Ann","Ben"],"winner":"Ann"}'
PLANNED = CHANGED('"version":1', '"version":2').replace('"contest"', '"cards":4,"gamma":100,"limit":50000,"contest"').replace('{"kind"', '{"draws":null,"kind"').replace
COVERED = CHANGED('"version":1', '"version":3').replace('"order":["Ann","Ben"],', "").replace
MANY = json.dumps([f"c{c}" for c in range(limits.MOST_CANDIDATES + 1)])

CLAIMS = json.dumps({name: json.loads(ASSERTIONS)[name] for name in ("assertions", "candidates", "contest", "winner")}, separators=(",", ":"))
CLAIMED = CLAIMS.replace

# What a ballot file is, by `tabulate`, and the sentences after the rule's cause.
OF_BALLOTS = [
    ("", "B1", "The file is empty; a > after the command empties its file first"),
    (MANIFEST, "B1", 'It begins with "batch,cards", as a manifest does'),
    (ASSERTIONS, "B1", 'It begins with "{"assertions":[{"kind":"NEN","loser":"Ben","margin":1,"rest":["Ann",..", as an assertion file does'),
    ("1;\nContest;9;2;Ann;Ben\n", "B1", 'It begins with "1;"; its semicolons have to be commas'),
    ("contest,ballot,first\n9,b_1,Ann\n", "B1", 'It begins with "contest,ballot,first"; a ballot file has no header: its first record is the number of contests'),
    ("Contest,9,2,Ann,Ben\n9,b_1,Ann\n", "B1", 'It begins with "Contest,9,2,Ann,Ben"; a ballot file has no header: its first record is the number of contests'),
    ("65\n", "B1", 'It begins with "65"'),
    ("PK\x03\x04\n", "B1", r'It begins with "PK\x03\x04"'),
    (SEEN, "B1", 'It begins with "b_1,ballot,Ann", as a file of seen cards does'),
    ("1\nContest;9;2\n", "B2", '"Contest;9;2" is in place of "Contest"; its semicolons have to be commas. Record 2, line 2: Contest;9;2'),
    ("1\ncontest,9,2,Ann,Ben\n", "B2", '"contest" is in place of "Contest". Record 2, line 2: contest,9,2,Ann,Ben'),
    ("2\n\nContest,9,2,Ann,Ben\n", "B2", "The file ends before record 3"),
    ("2\nContest,9,2,Ann,Ben\nContest,9,2,Ann,Ben\n", "B2", '"9" is repeated. Record 3, line 3: Contest,9,2,Ann,Ben'),
    ("1\nContest,9,3,Ann,Ben\n", "B3", "It says 3 candidates, and 2 ids follow. Record 2, line 2: Contest,9,3,Ann,Ben"),
    ("1\nContest,9,2,Ann\n", "B3", "It says 2 candidates, and 1 id follows. Record 2, line 2: Contest,9,2,Ann"),
    ("1\nContest,9,1,Ann\n", "B3", "It says 1 candidate. Record 2, line 2: Contest,9,1,Ann"),
    ("1\nContest,9,two,Ann,Ben\n", "B3", '"two" isn\'t a number of candidates. Record 2, line 2: Contest,9,two,Ann,Ben'),
    ("1\nContest,9,2,Zoë,Ben\n", "B4", '"Zoë" isn\'t an id; "Zoe" would be one. Record 2, line 2: Contest,9,2,Zoë,Ben'),
    ('1\nContest,9,2,"Lee, Ann",Ben\n', "B4", '"Lee, Ann" isn\'t an id; "Lee Ann" would be one. Record 2, line 2: Contest,9,2,"Lee, Ann",Ben'),
    ("1\nContest,9,2,Ann,Ann\n", "B4", '"Ann" is repeated. Record 2, line 2: Contest,9,2,Ann,Ann'),
    (HEAD + "9,,Ann\n", "B4", "The id is empty. Record 3, line 3: 9,,Ann"),
    (HEAD + f"9,{'b' * 65},Ann\n", "B4", f'"{"b" * 65}" has 65 bytes; the limit is 64. Record 3, line 3: 9,{"b" * 65},Ann'),
    (HEAD + "9,b\x01,Ann\n", "B4", "\"b\\x01\" isn't an id. Record 3, line 3: 9,b\\x01,Ann"),
    (HEAD + "9,Zo\xeb\x7f,Ann\n", "B4", "\"Zoë\\x7f\" isn't an id. Record 3, line 3: 9,Zoë\\x7f,Ann"),
    (HEAD + '9,b_1,Ann\n9,"b_2,Ben\n9,b_3,Ann\n', "B4",
     '"b_2,Ben\\n9,b_3,Ann" isn\'t an id. A quote in line 4 isn\'t closed in that line. Record 4, line 4: 9,"b_2,Ben\\n9,b_3,Ann'),
    (HEAD + '9,"b\r1",Ann\n', "B4", '"b\\r1" isn\'t an id. A quote in line 3 isn\'t closed in that line. Record 3, line 3: 9,"b\\r1",Ann'),
    ("2\nContest,9,2,Ann,Ben\nContest,10,2,Cy,Di\n", "B5", 'The file has the contests "9", "10". Name one with --contest'),
    (HEAD + "\n  \n9\n", "B6", "Record 3, line 5: 9"),
    (HEAD + '9,b_1,Ann\n"9,b_2,Ben\n9,b_3,Ann\n', "B6", 'A quote in line 4 isn\'t closed in that line. Record 4, line 4: "9,b_2,Ben\\n9,b_3,Ann'),
    (HEAD + "90,b_1,Ann\n", "B7", '"90" isn\'t a contest; the file has "9". Record 3, line 3: 90,b_1,Ann'),
    (HEAD + "Contest,8,2,Cy,Di\n", "B7", "The number of contests in the first record, 1, is too small. Record 3, line 3: Contest,8,2,Cy,Di"),
    (HEAD + "9,b_1,Ben,ANN\n", "B8", '"ANN" isn\'t a candidate; the contest has "Ann". Record 3, line 3: 9,b_1,Ben,ANN'),
    (HEAD + "9,b_1,Ben\r9,b_2,\x1b[2J\r", "B8", "\"\\x1b[2J\" isn't a candidate; the contest has \"Ann\", \"Ben\". Record 4, line 4: 9,b_2,\\x1b[2J"),
    ("1\nContest,9,2,A\\x01n,Ben\n9,b_1,A\x01n\n", "B8", "\"A\\x01n\" isn't a candidate; the contest has \"A\\x01n\", \"Ben\". Record 3, line 3: 9,b_1,A\\x01n"),
    (HEAD + "9,b_1,Ben\n\n9,b_1,Ann\n", "B9", '"b_1" is also in record 3, line 3. Record 4, line 5: 9,b_1,Ann'),
]
# A manifest, by `sample`.
OF_MANIFEST = [
    ("Batch,Cards\nb,3\n", "M1", 'It begins with "Batch,Cards"; it has to be in lowercase'),
    ("batch,number\nb,3\n", "M1", 'It begins with "batch,number"'),
    ("batch,cards,\nb,3,\n", "M1", 'It begins with "batch,cards,"; there is an extra comma after cards'),
    ("Batch,cards, ,\nb,3\n", "M1", 'It begins with "Batch,cards, ,"; it has to be in lowercase; there are 2 extra commas after cards'),
    ("batch,cards,place\nb,3,hall\n", "M1", 'It begins with "batch,cards,place"; "place" comes after them'),
    (BALLOTS, "M1", 'It begins with "1", as a ballot file does'),
    ("batch;cards\nb;3\n", "M1", 'It begins with "batch;cards"; its semicolons have to be commas'),
    ("batch,cards\nb;3\n", "M2", "It has 1 field; its semicolons have to be commas. Record 2, line 2: b;3"),
    ("batch,cards\nb,1,200\n", "M2", "It has 3 fields; without commas the number would be 1200. Record 2, line 2: b,1,200"),
    ('batch,cards\n"b,3\nc,4\n', "M2", 'It has 1 field. A quote in line 2 isn\'t closed in that line. Record 2, line 2: "b,3\\nc,4'),
    ("batch,cards\nb,1.200\n", "M3", '"1.200" isn\'t a number of cards; 1200 would be one. Record 2, line 2: b,1.200'),
    ("batch,cards\nb,1\n\nb,2\n", "M4", '"b" is also in record 2, line 2. Record 3, line 4: b,2'),
    (f"batch,cards\n{'b' * 57},2\n", "M4", f'"{"b" * 57}" has 57 bytes; the limit is 56. Record 2, line 2: {"b" * 57},2'),
    (f"batch,cards\n{'b' * 65},2\n", "M4", f'"{"b" * 65}" has 65 bytes; the limit is 56. Record 2, line 2: {"b" * 65},2'),
    ("batch,cards\nZoë,2\n", "M4", '"Zoë" isn\'t an id; "Zoe" would be one. Record 2, line 2: Zoë,2'),
    ("batch,cards\n" + "".join(f"b{number},1000000\n" for number in range(11)), "M5", "Record 12, line 12: b10,1000000"),
    ("batch,cards\n", "M6", ""),
]
# An assertion file, by `plan` of the manifest.
OF_ASSERTIONS = [
    (BALLOTS, "F1", 'It begins with "1", as a ballot file does'),
    (ASSERTIONS[:60], "F1", "The file ends before the object does"),
    (CHANGED('"margin":1,"rest"', '"rest"'), "F2", 'It lacks "margin". Assertion 1: {"kind":"NEN","loser":"Ben","rest":["Ann","Ben"],"winner":"Ann"}'),
    (CHANGED('"winner":"Ann"}\n', '"winner":5}\n'), "F2", 'Its "winner" is 5; it has to be a text in quotes'),
    (CHANGED('"order":["Ann","Ben"]', '"order":["Ann",5]'), "F2", 'Its "order" is ["Ann", 5]; it has to be a list of texts in quotes'),
    *[(CHANGED(CLAIM, changed), "F2", f"{told}. Assertion 1: {changed}") for changed, told in [
        (CLAIM.replace('"NEN"', '"nen"'), 'Its "kind" is "nen"; it has to be "NEB" or "NEN"'),
        (CLAIM.replace('"loser":"Ben"', '"loser":5'), 'Its "loser" is 5; it has to be a text in quotes'),
        (CLAIM.replace('"margin":1', '"margin":"1"'), f'Its "margin" is "1"; it has to be 0 to {MOST_NUMBER}, in digits alone'),
        (CLAIM.replace('["Ann","Ben"]', '"Ann"'), 'Its "rest" is "Ann"; it has to be a list of texts in quotes'),
    ]],
    (CHANGED('"version":1', '"version":4'), "F3", "It says version 4"),
    (CHANGED('"version":1', '"version":3'), "F2", "It says version 3, which has no order"),
    (COVERED('"margin":1,"records"', '"records"'), "F2", 'It lacks "margin"'),
    (COVERED('"contest"', '"cards":4,"contest"'), "F2", 'It lacks "gamma", "limit"'),
    (COVERED('"contest"', '"cards":4,"gamma":100,"limit":50000,"contest"'), "F2", f'It lacks "draws". Assertion 1: {CLAIM}'),
    (COVERED('{"kind"', '{"draws":4,"kind"'), "F2", f'It has draws, and the file has no cards, gamma and limit for them. Assertion 1: {{"draws":4,{CLAIM[1:]}'),
    (COVERED('"winner":"Ann"}\n', '"winner":"ann"}\n'), "F4", '"ann" isn\'t a candidate; the file has "Ann"'),
    (CHANGED('"loser":"Ben"', '"loser":"ben"'), "F4", '"ben" isn\'t a candidate; the file has "Ben". Assertion 1: {"kind":"NEN","loser":"ben","margin":1,"rest":["Ann","Ben"],"winner":"Ann"}'),
    (CHANGED('"rest":["Ann","Ben"]', '"rest":["Ann"]'), "F5", 'The rest lacks "Ben". Assertion 1: {"kind":"NEN","loser":"Ben","margin":1,"rest":["Ann"],"winner":"Ann"}'),
    (CHANGED('"rest":["Ann","Ben"]', '"rest":["Ann","Ann","Ben"]'), "F5",
     '"Ann" is repeated in the rest. Assertion 1: {"kind":"NEN","loser":"Ben","margin":1,"rest":["Ann","Ann","Ben"],"winner":"Ann"}'),
    (CHANGED('"loser":"Ben"', '"loser":"Ann"'), "F4",
     '"Ann" is its winner and its loser. Assertion 1: {"kind":"NEN","loser":"Ann","margin":1,"rest":["Ann","Ben"],"winner":"Ann"}'),
    (CHANGED('"candidates":["Ann","Ben"]', f'"candidates":{MANY}'), "F4", f"It has {limits.MOST_CANDIDATES + 1} candidates"),
    (CHANGED('"candidates":["Ann","Ben"]', '"candidates":["Ann"]'), "F4", "It has 1 candidate"),
    (CHANGED('"candidates":["Ann","Ben"]', '"candidates":["Ann","Ben","Ann"]'), "F4", '"Ann" is repeated among the candidates'),
    (CHANGED('"candidates":["Ann","Ben"]', '"candidates":["Ann",""]'), "F4", "The id is empty"),
    (CHANGED('"order":["Ann","Ben"]', '"order":["Ann","ben"]'), "F4", '"ben" isn\'t a candidate; the file has "Ben"'),
    (CHANGED('"order":["Ann","Ben"]', '"order":["Ann"]'), "F5", 'The order lacks "Ben"'),
    (CHANGED('"order":["Ann","Ben"]', '"order":["Ann","Ann"]'), "F5", '"Ann" is repeated in the order'),
    (CHANGED('"margin":1,"order"', '"margin":4,"order"'), "F6", "Its margin 4 is above the 3 records"),
    (CHANGED('"margin":1,"order"', '"margin":0,"order"'), "F6", "Its margin is 0"),
    (CHANGED('"margin":1,"rest"', '"margin":4,"rest"'), "F6",
     'Its margin 4 is above the 3 records. Assertion 1: {"kind":"NEN","loser":"Ben","margin":4,"rest":["Ann","Ben"],"winner":"Ann"}'),
    (CHANGED('"records":3', '"records":0'), "F6", "It says 0 records"),
    *[(PLANNED(*change), rule, told) for change, rule, told in [
        (('"cards":4,', ""), "F2", 'It lacks "cards"'), (('"draws":null,', ""), "F2", f'It lacks "draws". Assertion 1: {CLAIM}'),
        (('"draws":null,', '"draws":"4",'), "F2", f'Its draws are "4"; they have to be null or 1 to 100000, in digits alone. Assertion 1: {{"draws":"4",{CLAIM[1:]}'),
        (('"draws":null,', '"draws":4294967296,'), "F2",
         f'Its draws are 4294967296; they have to be null or 1 to 100000, in digits alone. Assertion 1: {{"draws":4294967296,{CLAIM[1:]}'),
        (('"cards":4', '"cards":4.0'), "F2", f'Its "cards" is 4.0; it has to be 0 to {MOST_NUMBER}, in digits alone'),
        (('"limit":50000', '"limit":null'), "F2", f'Its "limit" is null; it has to be 0 to {MOST_NUMBER}, in digits alone'),
        (('"version":2', '"version":5000000000'), "F2", f'Its "version" is 5000000000; it has to be 0 to {MOST_NUMBER}, in digits alone'),
        (('"version":2', '"version":"2"'), "F2", f'Its "version" is "2"; it has to be 0 to {MOST_NUMBER}, in digits alone'),
        (('"draws":null,', '"draws":0,'), "F6", f'Its draws are 0. Assertion 1: {{"draws":0,{CLAIM[1:]}'),
        (('"draws":null,', '"draws":100001,'), "F6", f'Its draws are 100001. Assertion 1: {{"draws":100001,{CLAIM[1:]}'),
        (('"cards":4', '"cards":2'), "F6", "It says 2 cards for 3 records"), (('"cards":4', '"cards":10000001'), "F6", "It says 10000001 cards"),
        (('"limit":50000', '"limit":0'), "F6", "Its limit is 0; it has to be 1 to 999999"),
        (('"gamma":100', '"gamma":501'), "F6", "Its gamma is 501; it has to be 1 to 500"),
    ]],
    (CHANGED('"records":3', '"records":5'), "F7", "The assertions are about 5 ballots, and the manifest has 4 cards"),
]
# A claims file, by `adopt` of the ballots.
OF_CLAIMS = [
    (BALLOTS, "C1", 'It begins with "1", as a ballot file does'),
    (CLAIMS[:60], "C1", "The file ends before the object does"),
    (CLAIMED(',"winner":"Ann"}]', "}]"), "C2", 'It lacks "winner". Assertion 1: {"kind":"NEN","loser":"Ben","margin":1,"rest":["Ann","Ben"]}'),
    (CLAIMED('"contest":"9"', '"contest":9'), "C2", 'Its "contest" is 9; it has to be a text in quotes'),
    (CLAIMED('"contest":"9"', '"contest":"8"'), "C3", 'It is about "8", and the ballots are about "9"'),
    (CLAIMED('"candidates":["Ann","Ben"]', '"candidates":["Ann","ben"]'), "C4", '"ben" isn\'t a candidate; the contest has "Ben"'),
    (CLAIMED('"candidates":["Ann","Ben"]', '"candidates":["Ann","Ben","Ann"]'), "C4", '"Ann" is repeated among the candidates'),
    (CLAIMED('"candidates":["Ann","Ben"]', '"candidates":["Ann"]'), "C4", 'The candidates lack "Ben"'),
    (CLAIMED('"loser":"Ben"', '"loser":"ben"'), "C4",
     '"ben" isn\'t a candidate; the contest has "Ben". Assertion 1: {"kind":"NEN","loser":"ben","margin":1,"rest":["Ann","Ben"],"winner":"Ann"}'),
    (CLAIMED('"loser":"Ben"', '"loser":"Ann"'), "C4",
     '"Ann" is its winner and its loser. Assertion 1: {"kind":"NEN","loser":"Ann","margin":1,"rest":["Ann","Ben"],"winner":"Ann"}'),
    (CLAIMED('"rest":["Ann","Ben"]', '"rest":["Ann"]'), "C5",
     'The rest lacks "Ben". Assertion 1: {"kind":"NEN","loser":"Ben","margin":1,"rest":["Ann"],"winner":"Ann"}'),
]
OF_CONTESTS = 'The contest\'s id is between the card and "{}": only ./raire contests reads such a file'
# Seen cards, by `audit` and by `poll` with four draws, of the cards 1, 2, 3 and 4 (seed 10).
OF_SEEN = [
    (BALLOTS, "V1", 'It begins with "1", as a ballot file does'),
    ("b_1;ballot\n", "V1", "It has 1 field; its semicolons have to be commas. Record 1, line 1: b_1;ballot"),
    ("b_1,ballots,Ann\n", "V1", '"ballots" isn\'t a word of a seen card; the closest match is "ballot". Record 1, line 1: b_1,ballots,Ann'),
    ("b_1,Ann,ballots\n", "V1", '"Ann" isn\'t a word of a seen card; the words are "ballot", "missing". Record 1, line 1: b_1,Ann,ballots'),
    ("b_1,9,ballot,Ann\n", "V1", f'{OF_CONTESTS.format("ballot")}. Record 1, line 1: b_1,9,ballot,Ann'),
    (SEEN + "b_2,ballots,missing\n", "V1", f'{OF_CONTESTS.format("missing")}. Record 2, line 2: b_2,ballots,missing'),
    ("b_1,missing,Ann\n", "V1", '"Ann" comes after missing. Record 1, line 1: b_1,missing,Ann'),
    ("b_01,ballot\n", "V2", '"b_01" has a leading zero in its number; the card is "b_1". Record 1, line 1: b_01,ballot'),
    ("B_1,ballot\n", "V2", '"B" isn\'t a batch; the manifest has "b". Record 1, line 1: B_1,ballot'),
    ("b_9,ballot\n", "V2", '"b" has 4 cards, and "9" is none of their numbers. Record 1, line 1: b_9,ballot'),
    (SEEN + "\n" + SEEN, "V3", '"b_1" is also in record 1, line 1. Record 2, line 3: b_1,ballot,Ann'),
    ("b_1,ballot,Anne\n", "V5", '"Anne" isn\'t a candidate; the contest has "Ann". Record 1, line 1: b_1,ballot,Anne'),
]
# Seen cards of two contests, by `contests` with four draws, of the cards 1, 2, 3 and 4 (seed 10); contest "10" is tied.
TWO = "3\nContest,9,2,Ann,Ben\nContest,10,2,Cy,Di\nContest,11,2,Ed,Flo\n9,b_1,Ann\n11,b_2,Flo\n"
OF_ALL_SEEN = [
    (BALLOTS, "V1", 'It begins with "1", as a ballot file does'),
    (SEEN, "V1", 'The contest\'s id is missing between the card and "ballot". Record 1, line 1: b_1,ballot,Ann'),
    ("b_1,9\n", "V1", "It has 2 fields; it needs at least 3. Record 1, line 1: b_1,9"),
    ("b_1;9;ballot\n", "V1", "It has 1 field; it needs at least 3; its semicolons have to be commas. Record 1, line 1: b_1;9;ballot"),
    ("b_1,9,ballots,Ann\n", "V1", '"ballots" isn\'t a word of a seen card; the closest match is "ballot". Record 1, line 1: b_1,9,ballots,Ann'),
    ("b_1,9,missing,Ann\n", "V1", '"Ann" comes after missing. Record 1, line 1: b_1,9,missing,Ann'),
    ("b_01,9,ballot\n", "V2", '"b_01" has a leading zero in its number; the card is "b_1". Record 1, line 1: b_01,9,ballot'),
    ("b_1,90,ballot\n", "V6", '"90" isn\'t a contest; the ballot file has "9", "10", "11". Record 1, line 1: b_1,90,ballot'),
    ("b_1,Mayor,ballot\n", "V6", '"Mayor" isn\'t a contest; the ballot file has "9", "10", "11". Record 1, line 1: b_1,Mayor,ballot'),
    ("b_1,9,ballot\n\nb_1,10,ballot\nb_1,9,ballot\n", "V3", '"b_1" is also with "9" in record 1, line 1. Record 3, line 4: b_1,9,ballot'),
    ("b_1,11,ballot,Ann\n", "V5", '"Ann" isn\'t a candidate; the contest has "Ed", "Flo". Record 1, line 1: b_1,11,ballot,Ann'),
]
# Words, and which of them is wrong.
OF_WORDS = [
    (["serch", "x"], '"serch" isn\'t a command; the closest match is "search"'),
    (["x"], '"x" isn\'t a command; the commands are adopt, audit, check, contests, open, plan, plurality, poll, report, sample, search, tabulate, trial, trim'),
    (["shwo", "x"], '"shwo" isn\'t a command; the closest match is "show"'),
    (["audit", "--draw", "5"], '"--draw" isn\'t an option of audit; the closest match is "--draws"'),
    (["search", "-x", "b"], '"-x" isn\'t an option of search; its options are --contest, --workers, --nodes, --sets, --floor, --cards, --limit, --gamma, --fewest, --gap'),
    (["search", "---sets", "1"], '"---sets" isn\'t an option of search; the closest match is "--sets"'),
    (["search", "--help"], '"--help" isn\'t an option of search; its page: ./raire help search'),
    (["report", "s", "-h"], '"-h" isn\'t an option of report; its page: ./raire help report'),
    (["search", "-"], '"-" isn\'t a file; standard input is the file /dev/stdin'),
    (["tabulate", "-x.raire"], '"-x.raire" isn\'t an option of tabulate; its options are --contest, --nodes; the file of this name is "./-x.raire"'),
    (["report", "my", "session.json"], '"session.json" is one word too many: report takes SESSION; a name with blanks needs quotes: "my session.json"'),
    (["check", "my", "session.json", "a"], '"a" is one word too many: check takes BALLOTS ASSERTIONS; a name with blanks needs quotes: "my session.json"'),
    (["report", "my", "other.json"], '"other.json" is one word too many: report takes SESSION'),
    (["search", "b", "--gamma=100"], "search takes --gamma only together with --cards"),
    (["search", "b", "--cards=9", "--limit", "0.05"], '"0.05" isn\'t a value of --limit, which is 1 to 999999 millionths, such as 50000 for 5 percent'),
    (["search", "b", "--cards=9", "--gamma", "501"], '"501" isn\'t a value of --gamma, which is 1 to 500 thousandths'),
    (["check", "--workers=5", "b"], '"--workers=5" isn\'t an option of check; its options are --contest, --nodes, --sets'),
    (["report", "--nodes=5", "b"], '"--nodes=5" isn\'t an option of report; it has no options'),
    (["search", "b", "--nodes", "1", "--nodes", "1"], "--nodes is given twice"),
    (["search", "b", "--nodes"], "--nodes has no value"),
    (["search", "b", "--nodes", "1", "--sets", "1"], "--sets takes the place of --nodes, and both are given"),
    (["search", "b", "--fewest", "--nodes", "1"], "--nodes isn't an option of a line with --fewest"),
    (["search", "b", "--nodes=1", "--fewest"], "--nodes isn't an option of a line with --fewest"),
    (["search", "b", "--fewest=9"], "--fewest takes no value"),
    (["search", "b", "--fewest", "9"], '"9" is one word too many: search takes BALLOTS'),
    (["search", "b", "--fewest", "--sets", "0"], '"0" isn\'t a value of --sets, which is 1 to 1048576'),
    (["search", "b", "--fewes"], '"--fewes" isn\'t an option of search; the closest match is "--fewest"'),
    (["check", "b", "a", "--sets", "1048577"], '"1048577" isn\'t a value of --sets, which is 1 to 1048576'),
    (["audit", "s", "b", "m", "a", "c", "--draws=1", "--set=5"], '"--set=5" isn\'t an option of audit; the closest match is "--sets"'),
    (["tabulate", "b", "--sets=5"], '"--sets=5" isn\'t an option of tabulate; its options are --contest, --nodes'),
    (["sample", "b", "--seed", "-1", "--draws", "1"], '--seed has no value; "-1" begins with -, so write it after --seed='),
    (["search", "b", "--gap", "5"], "--gap is an option of search only with --fewest"),
    (["search", "b", "--gap=501"], '"501" isn\'t a value of --gap, which is 0 to 500'),
    (["search", "b", "--workers", "0"], '"0" isn\'t a value of --workers, which is 1 to 8'),
    (["sample", "b", "--seed", "2", "6", "1", "--draws", "1"],
     '"6" is one word too many: sample takes MANIFEST; a seed of several words needs quotes, as in --seed "2 6 1 4"'),
    (["check", "b"], "check takes BALLOTS ASSERTIONS, and 1 of these is here"),
    (["check"], "check takes BALLOTS ASSERTIONS, and none of these is here"),
    (["sample", "b", "--draws", "1"], "sample needs --seed"),
    (["search", ""], "a file has no name"),
    (["poll", "m", "a", "s", "--draws", "1"], "poll needs --seed"),
    (["poll", "m", "a", "--seed", "1", "--draws", "1"], "poll takes MANIFEST ASSERTIONS SEEN, and 2 of these are here"),
    (["poll", "m", "a", "s", "--seed=1", "--draws=1", "--contest=1"],
     '"--contest=1" isn\'t an option of poll; its options are --seed, --draws, --limit, --gamma, --nodes, --each'),
    (["poll", "m", "a", "s", "--seed=1", "--draws=1", "--gamma=501"],
     '"501" isn\'t a value of --gamma, which is 1 to 500 thousandths; a line with --each may have it'),
    (["poll", "m", "a", "s", "--seed=1", "--draws=1", "--gamma=best"],
     '"best" isn\'t a value of --gamma, which is 1 to 500 thousandths; a line with --each may have it'),
    (["poll", "m", "a", "s", "--seed=1", "--draws=1", "--gamma=beste"], '"beste" isn\'t a value of --gamma, which is 1 to 500 thousandths'),
    (["poll", "m", "a", "s", "--seed=1", "--draws=1", "--each", "--gamma=1000001"],
     '"1000001" isn\'t a value of --gamma, which is 1 to 1000000 thousandths or best'),
    (["poll", "m", "a", "s", "--seed=1", "--draws=1", "--each=1"], "--each takes no value"),
    (["poll", "m", "a", "s", "--seed=1", "--draws=1", "--each", "--each"], "--each is given twice"),
    (["poll", "m", "a", "s", "--each", "--draws=1"], "poll needs --seed"),
    (["plan", "m", "a", "--gamma=best"], '"best" isn\'t a value of --gamma, which is 1 to 500 thousandths; a line with --poll may have it'),
    (["plan", "m", "a", "--gamma=501"], '"501" isn\'t a value of --gamma, which is 1 to 500 thousandths; a line with --poll may have it'),
    (["plan", "m", "a", "--poll=1"], "--poll takes no value"),
    (["contests", "b", "m", "s", "--seed=1"], "contests needs --draws"),
    (["contests", "b", "m", "--seed=1", "--draws=1"], "contests takes BALLOTS MANIFEST SEEN, and 2 of these are here"),
    (["contests", "b", "m", "s", "--seed=1", "--draws=1", "--contest=1"],
     '"--contest=1" isn\'t an option of contests; its options are --seed, --draws, --limit, --gamma, --workers, --nodes'),
    (["contest", "b"], '"contest" isn\'t a command; the closest match is "contests"'),
    (["plurality", "b", "m"], "plurality needs --seed"),
    (["plurality", "b", "--seed=1"], "plurality takes BALLOTS MANIFEST, and 1 of these is here"),
    (["plurality", "b", "m", "--seed", "1", "--draws", "1"], "--draws is an option of plurality only with SESSION BALLOTS MANIFEST SEEN"),
    (["plurality", "s", "b", "m", "v", "--draws", "1", "--limit", "9"], "--limit is an option of plurality only with BALLOTS MANIFEST"),
    (["plurality", "b", "m", "--seeds", "1"], '"--seeds" isn\'t an option of plurality; the closest match is "--seed"'),
    (["search", "b", "--gap", "5", "--nodes=1"], "--gap is an option of search only with --fewest"),
    (["plurality", "s", "b", "m", "--draws", "1"], "plurality takes SESSION BALLOTS MANIFEST SEEN, and 3 of these are here"),
    (["plurality", "s", "b", "m", "v"], "plurality needs --draws"),
    (["plurality", "s", "b", "m", "v", "--draws", "0"], '"0" isn\'t a value of --draws, which is 1 to 100000'),
]


class Tried:
    def __init__(self, program, folder):
        self.program, self.script = program, os.path.join(folder, "raire")
        self.count, self.failed = 0, 0
        walk.write_stand_in(program, self.script)

    def see(self, shows, holds, got=""):
        self.count += 1
        if not holds:
            self.failed += 1
            print(f"./raire: {shows}: not so {got}")

    def ran(self, words, program=None, **how):
        how.setdefault("env", {**os.environ, "RAIRE_QUIET": "1"})  # notes on limits and seeds aren't hints
        ran = subprocess.run([program or self.script, *words], stdin=subprocess.DEVNULL, stdout=subprocess.PIPE, stderr=subprocess.PIPE, **how)
        return ran.returncode, ran.stdout, ran.stderr.decode()

    def says(self, words, line):
        """Checks that this line comes after the program's own line, and that everything else is the program's."""
        status, out, err = self.ran(words, self.program)
        got = self.ran(words)
        self.see(f"{words} has {line}", got == (status, out, err + f"raire: {line}\n"), got)
        return status, err

    def breaks(self, name, text, rule, told, *words):
        write(name, text)
        causes, about = table.causes(), table.OF_CONTESTS * (words[0] == "contests")
        status, err = self.says(words, ". ".join(part for part in (f"{rule}: {causes.get(rule + about, causes[rule])}", told, END) if part))
        self.see(f"{text[:60]!r} breaks {rule}", status == 2 and f"raire: {name}: {rule} " in err, err)


def write(name, text):
    with open(name, "w", newline="") as file:
        file.write(text)


def rules_are_told(tried):
    """Each rule has a cause, in the first row of faults.md that begins with it, and each limit of formats.md is the one that acceptance/ knows."""
    rules = {f"{letter}{number}" for letter, most in RULES.items() for number in range(1, most + 1)}
    stand = {match[1] for cells in table.rows("faults.md") if len(cells) == 4 and (match := table.KEYS.match(cells[1]))}
    tried.see("each rule stands in faults.md", rules == {key for key in stand if re.fullmatch("[BCFMSV][0-9]+", key)}, sorted(stand))
    known = {name: number for name, number in vars(limits).items() if name.isupper()}
    for rule, cause in table.causes().items():
        tried.see(f"a number stands in {rule} as in a file", not re.search("[0-9],[0-9]", cause), cause)
    for rule in ("B10", "F6", "M3", "M5", "too long"):
        tried.see(f"the limit stands in {rule}", re.search("[0-9]{7}", table.causes()[rule]), table.causes()[rule])
    for name, number in table.limits().items():
        tried.see(f"{name} is {number}", known.get(name, int(number.replace(",", ""))) == int(number.replace(",", "")))


def files_are_told(tried):
    write("ballots.raire", BALLOTS)
    write("manifest.csv", MANIFEST)
    write("assertions.json", ASSERTIONS)
    for text, rule, told in OF_BALLOTS:
        tried.breaks("broken.raire", text, rule, told, "tabulate", "broken.raire")
    two = next(text for text, rule, _ in OF_BALLOTS if rule == "B5")
    tried.breaks("two.raire", two, "B5", 'The file has the contests "9", "10". "90" is none of them', "search", "two.raire", "--contest=90")
    told = "The contest has 3 ballots, and --cards says 2"
    tried.breaks("few.raire", BALLOTS, "B11", told, "search", "few.raire", "--cards=2")
    for text, rule, told in OF_MANIFEST:
        tried.breaks("broken.csv", text, rule, told, "sample", "broken.csv", "--seed=1", "--draws=1")
    for text, rule, told in OF_ASSERTIONS:
        tried.breaks("broken.json", text, rule, told, "plan", "manifest.csv", "broken.json")
    for text, rule, told in OF_CLAIMS:
        tried.breaks("broken.json", text, rule, told, "adopt", "ballots.raire", "broken.json")
    opens = ["manifest.csv", "assertions.json", "--seed=10"]
    tried.breaks("far.raire", HEAD + "9,c_1,Ann\n", "M7", '"c" isn\'t a batch; the manifest has "b". Record 3, line 3: 9,c_1,Ann', "open", "far.raire", *opens)


def audits_are_told(tried):
    files = ["ballots.raire", "manifest.csv", "assertions.json"]
    status, session, err = tried.ran(["open", *files, "--seed=10"])
    tried.see("an audit is opened, and nothing more is said", (status, err) == (0, ""), err)
    write("open.json", session.decode())
    for text, rule, told in OF_SEEN:
        tried.breaks("seen.csv", text, rule, told, "audit", "open.json", *files, "seen.csv", "--draws=4")
        tried.breaks("seen.csv", text, rule, told, "poll", *files[1:], "seen.csv", "--seed=10", "--draws=4")
    cards = dict.fromkeys(line.split(",")[2] for line in tried.ran(["sample", "manifest.csv", "--seed=10", "--draws=9"])[1].decode().split())
    left = [card for card in cards if card != "b_1"]
    told = f"Not read yet ({len(left)} of the {len(cards)} cards that are drawn): {', '.join(left)}"
    tried.see("several cards are unread", len(left) > 1)
    told = "Most drawn cards aren't read. If they should be, check the seed and the manifest. The seed is " + '"10". ' + told
    tried.see("most cards are unread", 2 * len(left) > len(cards))
    tried.breaks("seen.csv", SEEN, "V4", told, "audit", "open.json", *files, "seen.csv", "--draws=9")
    tried.breaks("seen.csv", SEEN, "V4", told, "poll", *files[1:], "seen.csv", "--seed=10", "--draws=9")
    most = "".join(f"{card},ballot\n" for card in cards if card != left[0])
    told = f"Not read yet (1 of the {len(cards)} cards that are drawn): {left[0]}"
    tried.breaks("seen.csv", most, "V4", told, "audit", "open.json", *files, "seen.csv", "--draws=9")
    blanks_are_shown(tried, files)
    swapped = ["audit", "open.json", "manifest.csv", "ballots.raire", "assertions.json", "seen.csv", "--draws=9"]
    tried.says(swapped, f'S2: {table.causes()["S2"]}. "ballots.raire" has the first digest; see the order of the files. {END}')
    write("changed.json", session.decode().replace('"contest":"9"', '"contest":"8"'))
    told = f'B5: {table.causes()["B5, of a session"]}. The session is of contest "8", and the file has "9". {END}'
    status, err = tried.says(["audit", "changed.json", *files, "seen.csv", "--draws=9"], told)
    tried.see("a session of another contest is B5", status == 2 and err == "raire: ballots.raire: B5 at 1\n", err)
    write("other.json", ASSERTIONS)
    tried.says(["report", "other.json"], f"S1: {table.causes()['S1']}. It is an assertion file. {END}")
    write("again.json", "")
    tried.says(["report", "again.json"], f"S1: {table.causes()['S1']}. The file is empty; a > after the command empties its file first. {END}")


def blanks_are_shown(tried, files):
    """A seed with other blanks draws other cards: if most of them aren't read, the blanks of the seed are shown."""
    write("seen.csv", "")
    words = ["poll", *files[1:], "seen.csv", "--seed=dice  6 1", "--draws=1"]
    blanks, note = '"dice␣␣6␣1", where each ␣ is a blank', "raire: the seed has two blanks in a row: "
    told = tried.ran(words)[2]
    tried.see("the blanks of a seed are shown", f"The seed is {blanks}. Not read yet (1 of the 1 cards" in told and note not in told, told)
    told = tried.ran(words, env={**os.environ, "RAIRE_QUIET": ""})[2]
    tried.see("and are told after a refusal", f"{note}{blanks}\n" in told and "characters" not in told, told)


def contests_are_told(tried):
    write("two.raire", TWO)
    words = ["contests", "two.raire", "manifest.csv", "seen.csv", "--seed=10", "--draws=9"]
    drawn = list(dict.fromkeys(line.split(",")[2] for line in tried.ran(["sample", "manifest.csv", "--seed=10", "--draws=9"])[1].decode().split()))
    for text, rule, told in OF_ALL_SEEN:
        tried.breaks("seen.csv", text, rule, told, *words)
    text = "".join(f"{card},{name},ballot\n" for card in drawn for name in (9, 11) if (card, name) != (drawn[-1], 11))
    tried.breaks("seen.csv", text, "V4", f'Not read yet for "11" (1 of the {len(drawn)} cards that are drawn): {drawn[-1]}', *words)
    unread, none = f"({len(drawn)} of the {len(drawn)} cards that are drawn): {', '.join(drawn)}", "A tied contest needs none"
    recorded = {tuple(line.split(",")[:2]) for line in TWO.splitlines()}
    bare = [f"{card},{name},ballot" for name in ("9", "10", "11") for card in drawn if (name, card) not in recorded]
    apart = f"{len(bare)} of these have no record in the ballot file: if the card doesn't have the contest, write {bare[0]}"
    tried.see("some cards have no record of a contest", len(bare) > 1)
    other = "Most drawn cards aren't read. If they should be, check the seed and the manifest. The seed is " + '"10"'
    tried.breaks("seen.csv", "", "V4", ". ".join([other, *(f'Not read yet for "{name}" {unread}' for name in (9, 10, 11)), none, apart]), *words)
    write("far.raire", TWO + "11,c_1,Ed\n")
    write("seen.csv", "")
    tried.breaks("far.raire", TWO + "11,c_1,Ed\n", "M7", '"c" isn\'t a batch; the manifest has "b". Record 7, line 7: 11,c_1,Ed', "contests", "far.raire", *words[2:])


def pluralities_are_told(tried):
    """A session of plurality isn't one of audit, nor the other way round."""
    files = ["ballots.raire", "manifest.csv"]
    status, session, err = tried.ran(["plurality", *files, "--seed=10"])
    tried.see("an audit of first preferences is opened, and nothing more is said", (status, err) == (0, ""), err)
    write("first.json", session.decode())
    tried.breaks("seen.csv", "b_1,ballot,Anne\n", "V5", '"Anne" isn\'t a candidate; the contest has "Ann". Record 1, line 1: b_1,ballot,Anne',
                 "plurality", "first.json", *files, "seen.csv", "--draws=4")
    tried.breaks("seen.csv", "b_1,9,missing\n", "V1", f'{OF_CONTESTS.format("missing")}. Record 1, line 1: b_1,9,missing',
                 "plurality", "first.json", *files, "seen.csv", "--draws=4")
    write("changed.json", session.decode().replace('"contest":"9"', '"contest":"8"'))
    told = f'B5: {table.causes()["B5, of a session"]}. The session is of contest "8", and the file has "9". {END}'
    tried.says(["plurality", "changed.json", *files, "seen.csv", "--draws=4"], told)
    head = f"S2: {table.causes()['S2']}."
    told = "The session was opened with an assertion file; audit continues it"
    tried.says(["plurality", "open.json", *files, "seen.csv", "--draws=4"], f"{head} {told}. {END}")
    told = "The session is one of plurality, which has no assertion file; plurality continues it"
    tried.says(["audit", "first.json", *files, "assertions.json", "seen.csv", "--draws=4"], f"{head} {told}. {END}")


def words_are_told(tried):
    for name in ("-x.raire", "my session.json"):
        write(name, "")
    for words, told in OF_WORDS:
        tried.says(words, f"{told}. {POINTER}")
    paths_are_told(tried)


def paths_are_told(tried):
    """The line gives the true cause for a path that leads to no file, and for a file that can't be read."""
    tried.says(["tabulate", "ballot.raire"], f'no such file: {table.causes()["no such file"]}. The closest match is "ballots.raire". {END}')
    os.symlink("nowhere", "dangling")
    tried.says(["tabulate", "dangling"], f'no such file: {table.causes()["no such file"]}. It is a link, and where it leads there is no file. {END}')
    tried.says(["tabulate", "dangling/x"], f'no such file: {table.causes()["no such file"]}. There is no folder "dangling". {END}')
    write("odd\\x01", "")
    tried.says(["tabulate", "odd\x01"], f'no such file: {table.causes()["no such file"]}. {END}')
    os.symlink("circle", "circle")
    faults = {
        ".": "It is a folder", "ballots.raire/x": '"ballots.raire" is a file, not a folder', "ballots.raire/x/y": '"ballots.raire" is a file, not a folder',
        "b" * 300: "Its name is longer than the system allows", "b/" * 3_000: "Its name is longer than the system allows",
        **dict.fromkeys(("circle", "circle/x"), "Its links form a loop, or there are too many"),
        "/proc/self/mem": f"The system says: {os.strerror(errno.EIO)}",
    }
    no_right = "You don't have permission to read it, or to go through a folder of its path"
    tried.see("a right that is missing is told", rules.why_unreadable("x", errno.EACCES) == no_right)
    write("closed.raire", BALLOTS)
    os.chmod("closed.raire", 0)
    for path, told in {**faults, **({"closed.raire": no_right} if os.geteuid() else {})}.items():
        tried.says(["tabulate", path], f'read fault: {table.causes()["read fault"]}. {told}. {END}')
    write("large.raire", "")
    os.truncate("large.raire", limits.MOST_FILE_BYTES + 1)
    tried.says(["tabulate", "large.raire"], f'too long: {table.causes()["too long"]}. It has {limits.MOST_FILE_BYTES + 1} bytes; the limit is {limits.MOST_FILE_BYTES}. {END}')
    os.remove("large.raire")


def budgets_are_told(tried):
    """After a budget that is too small, the line gives a budget that goes further, from the words alone."""
    most = f"--sets {limits.MOST_SETS}"
    further = f"spent: give it {most}; it counts sets of candidates, in place of --nodes, and up to 20 candidates it is never spent. {END}"
    row1, town = (os.path.join(TOP, "examples", name) for name in ("row1", "town"))
    for words in (["search", f"{row1}.raire", "--nodes=1"], ["search", f"{row1}.raire", "--sets=1"], ["trial", "--number=7", "--nodes=1"]):
        tried.says(words, further)
    files = [f"{town}/{name}" for name in ("ballots.raire", "manifest.csv", "assertions.json")]
    for words in (["check", files[0], files[2]], ["trim", files[0], files[2]], ["open", *files, "--seed=1"]):
        tried.says([*words, "--nodes=1"], further)
        tried.says([*words, "--sets=1"], further)
    nothing = os.path.join(TOP, "acceptance", "cases", "check_spent", "assertions.json")
    tried.says(["poll", "manifest.csv", nothing, "seen.csv", "--seed=10", "--draws=1", "--nodes=1"],
               f"spent: give it --nodes {limits.MOST_NODES}; it is the maximum. {END}")


def answers_are_left(tried):
    """If nothing is refused, nothing is added and nothing is started."""
    path = os.path.join(os.getcwd(), "bin")
    os.mkdir(path)
    write("bin/python3", "#!/bin/sh\ntouch started\nexit 1\n")
    os.chmod("bin/python3", 0o755)
    given = {**os.environ, "PATH": f"{path}:{os.environ['PATH']}"}
    write("tie.raire", HEAD + "9,b_1,Ann\n9,b_2,Ben\n")
    for words in (["tabulate", "ballots.raire"], ["search", "ballots.raire"], ["search", "tie.raire"], ["search", "--floor=9", "ballots.raire"]):
        tried.see(f"{words} is answered", tried.ran(words, env=given) == tried.ran(words, tried.program) and not os.path.exists("started"))
    for words, more in ((["tabulate", "broken.raire"], ""), (["tabulate"], f"raire: {POINTER}\n"), (["tabulate", "none"], "")):
        status, out, err = tried.ran(words, tried.program)
        tried.see(f"{words} without python", tried.ran(words, env=given) == (status, out, err + more))
    tried.see("python was started", os.path.exists("started"))
    for words in (["tabulate", "broken.raire"], ["tabulate"]):
        status = subprocess.run(["bash", "-c", '"$0" "$@" 2>&-', tried.script, *words], stdout=subprocess.DEVNULL).returncode
        was = subprocess.run(["bash", "-c", '"$0" "$@" 2>&-', tried.program, *words], stdout=subprocess.DEVNULL).returncode
        tried.see(f"{words} with standard error closed", status == was, (status, was))
    os.mkfifo("pipe")
    with subprocess.Popen(["sh", "-c", "exec cat broken.raire > pipe"]):
        status, out, err = tried.ran(["tabulate", "pipe"], timeout=60)
    tried.see("a pipe isn't read again", status == 2 and err.count("\n") == 1, err)


def cards_are_counted(tried):
    """./raire boxes counts cards and records, and points at batches that no record names."""
    given = {**os.environ, "RAIRE": tried.program}

    def boxes(*words):
        return tried.ran(words, os.path.join(TOP, "tools", "boxes"), env=given)

    write("total.csv", MANIFEST + "c,2\nTotal,6\n")
    write("batches.csv", MANIFEST)
    wanted = "contest 9\ncards 4\nrecords 3\ncards without a record 1: b_4\n"
    tried.see("a card without a record is counted", boxes("ballots.raire", "batches.csv") == (0, wanted.encode(), ""), boxes("ballots.raire", "batches.csv"))
    status, out, err = boxes("ballots.raire", "total.csv")
    wanted = "batch c: 2 cards, and no record names one\nbatch Total: 6 cards, and no record names one; ALL OTHERS TOGETHER HAVE AS MANY: a total that was left in the manifest?\n"
    tried.see("a batch that no record names is pointed at", (status, err) == (0, "") and out.decode().endswith(wanted), (out, err))
    tried.see("and is counted", b"\ncards 12\n" in out and b"\ncards without a record 9: b_4, c_1, c_2, Total_1" in out, out)
    write("broken.csv", "batch,cards\nb,x\n")
    tried.see("what the program refuses is refused", boxes("ballots.raire", "broken.csv") == (2, b"", "raire: broken.csv: M3 at 2\n"))
    write("far.raire", HEAD + "9,c_1,Ann\n")
    got = boxes("far.raire", "batches.csv")
    tried.see("a record without a card is refused", (got[0], got[1]) == (2, b"") and got[2].startswith("raire: far.raire: M7 at 3\n"), got)
    told = "boxes: the following arguments are required: manifest; ./raire help boxes lists its words\n"
    tried.see("two files are wanted", boxes("ballots.raire") == (1, b"", told), boxes("ballots.raire"))
    with open(os.path.join(TOP, "docs", "help", "boxes.txt"), "rb") as file:
        tried.see("help is the page", boxes("--help") == (0, file.read(), ""))
    got = tried.ran(["ballots.raire", "batches.csv"], os.path.join(TOP, "tools", "boxes"), env={**os.environ, "RAIRE": "/none"})
    tried.see("a program is needed", got == (1, b"", "boxes: RAIRE names no program: /none. What to do: unset RAIRE\n"), got)
    got = tried.ran(["ballots.raire", "batches.csv"], os.path.join(TOP, "tools", "boxes"), env={**os.environ, "RAIRE": "/bin/true"})
    tried.see("and one that answers", got == (1, b"", "boxes: /bin/true gave no answer. What to do: unset RAIRE\n"), got)
    got = tried.ran(["ballots.raire", "batches.csv", "--contest=x"], os.path.join(TOP, "tools", "boxes"), env={**os.environ, "RAIRE": tried.script})
    told = f'raire: ballots.raire: B5 at 1\nraire: B5: {table.causes()["B5"]}. The file has the contests "9". "x" is none of them. {END}\n'
    tried.see("the line that ./raire adds is passed on", got == (2, b"", told), got)
    for to in (">/dev/full", ">&-"):
        line = ["bash", "-c", f'"$0" "$@" {to}', os.path.join(TOP, "tools", "boxes"), "ballots.raire", "batches.csv"]
        ran = subprocess.run(line, capture_output=True, text=True, env=given)
        tried.see(f"boxes {to}", (ran.returncode, ran.stderr) == (8, "boxes: the output could not be written. What to do: free the disk\n"), ran)


def main():
    program = os.path.abspath(sys.argv[1])
    folder = tempfile.mkdtemp()
    os.chdir(folder)
    tried = Tried(program, folder)
    for cases in (rules_are_told, files_are_told, audits_are_told, contests_are_told, pluralities_are_told, words_are_told, budgets_are_told, answers_are_left, cards_are_counted):
        cases(tried)
    os.chdir("/")
    shutil.rmtree(folder)
    print(f"{tried.count - tried.failed} refusals and counts are told as they should be, {tried.failed} aren't")
    sys.exit(1 if tried.failed else 0)


if __name__ == "__main__":
    main()
