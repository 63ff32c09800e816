"""Calls of the office's tools that are refused. Each case makes files in a folder, and gives the tool, its words, the status, and how its line begins.

The exports that can't be read are in bad_exports.py. acceptance/refusals.py makes the calls, in that folder.
"""
import json
import os
import re
import zipfile

import bad_exports
from limits import MOST_CONTESTS, MOST_FILE_BYTES, MOST_LISTED

CASES = {}
BALLOTS = "1\nContest,m,3,Ann,Ben,Cy\nm,b_1,Ann,Ben\nm,b_2,Ben\nm,b_3,Ann\n"
TWO_CONTESTS = "2\nContest,m,2,Ann,Ben\nContest,s,2,Fox,Guy\nm,b_1,Ann\ns,b_1,Fox\n"
PAIRS = "1\nContest,Board: Ann over Cy,2,Ann,Cy\nBoard: Ann over Cy,b_1,Ann\n"
TIE = "1\nContest,m,2,Ann,Ben\nm,b_1,Ann\nm,b_2,Ben\n"
MANIFEST = "batch,cards\nb,9\n"
NAMES = "contest,id,name\nm,Ann,A\ns,Fox,F\n"
DRAWN = ["m.csv", "--seed=1", "--draws=2"]
TOO_LONG = MOST_FILE_BYTES + 1  # the size of a file of nothing but zeros


def put(folder, name, content):
    path = os.path.join(folder, name)
    with open(path, "wb") as file:
        if isinstance(content, int):
            file.truncate(content)
        else:
            file.write(content if isinstance(content, bytes) else content.encode())
    if name.startswith("program"):
        os.chmod(path, 0o755)


def case(name, call, told, status=2, **files):
    """A call, with its files by name; an underscore in a name stands for a dot."""
    def make(folder):
        for each, content in files.items():
            put(folder, each.replace("_", "."), content)
        tool, *words = call
        return tool, words, status, told
    assert name not in CASES, name
    CASES[name] = make


# ---- words and outputs that all tools share

case("a file that isn't there", ["agree", "a.csv", "none.csv"], "none.csv: no such file", 12, a_csv="b_1,ballot\n")
case("a folder", ["agree", "a.csv", "."], ".: read fault", 7, a_csv="b_1,ballot\n")
case("a file that is too long", ["agree", "a.csv", "long.csv"], "long.csv: too long", 11, a_csv="b_1,ballot\n", long_csv=TOO_LONG)
case("a word that isn't known", ["agree", "a.csv", "b.csv", "--more"], "unrecognized arguments: --more", 1)
case("an option twice", ["cards", *DRAWN, "--seed=2"], "--seed is given twice", 1)
case("an output that is a file of the call", ["agree", "a.csv", "b.csv", "> a.csv"], "a.csv would be written over", 1, a_csv="b_1,ballot\n",
     b_csv="b_1,ballot\n")
case("an output that is full", ["agree", "a.csv", "b.csv", "> /dev/full"], "the output could not be written", 8, a_csv="b_1,ballot\n", b_csv="b_1,ballot\n")
case("a program that isn't there", ["cards", *DRAWN, "RAIRE=/none"], "RAIRE names no program: /none", 1, m_csv=MANIFEST)
case("a program that doesn't run", ["cards", *DRAWN, "RAIRE=./program"], "./program doesn't run: ", 1, m_csv=MANIFEST, program=b"\x7fELF")
case("a program that doesn't answer", ["cards", *DRAWN, "RAIRE=/bin/true"], "/bin/true gave no answer", 1, m_csv=MANIFEST)
case("what the program refuses", ["cards", *DRAWN], "raire: m.csv: M1 at 1", m_csv="b,9\n")

# ---- agree

case("a card without a reading", ["agree", "a.csv", "b.csv"], "b.csv: V1 at 1: the card b_1 has no reading", a_csv="b_1,ballot\n", b_csv="b_1,\n")
case("another word", ["agree", "a.csv", "b.csv"], "b.csv: V1 at 1: the card b_1 has neither ballot nor missing after it", a_csv="b_1,ballot\n",
     b_csv="b_1,balot\n")
case("missing, and something more", ["agree", "a.csv", "b.csv"], "b.csv: V1 at 1: the card b_1 is missing, and", a_csv="b_1,ballot\n",
     b_csv="b_1,missing,Ann\n")
case("a card twice", ["agree", "a.csv", "b.csv"], "b.csv: V3 at 2: the card b_1 is already in record 1", a_csv="b_1,ballot\n", b_csv="b_1,ballot\nb_1,ballot\n")
case("marks without ranks", ["agree", "a.csv", "b.csv"], "b.csv: V1 at 1: the card b_1 has marks, and", a_csv="b_1,ballot\n", b_csv="b_1,marks,Ann\n")
case("a quote that isn't closed", ["agree", "a.csv", "b.csv"], "b.csv: V1 at 1: a quote isn't closed", a_csv="b_1,ballot\n",
     b_csv='b_1,ballot,"Ann\nb_2,ballot\n')
case("marks and rankings", ["agree", "a.csv", "b.csv"], "b.csv has marks, and the other file has rankings", a_csv="b_1,ballot,Ann\nb_2,missing\n",
     b_csv="b_1,marks,1,Ann\nb_2,missing\n")
case("one file twice", ["agree", "a.csv", "./a.csv"], "a.csv and ./a.csv are one file", 1, a_csv="b_1,ballot\n")
case("two readings", ["agree", "a.csv", "b.csv"], "b_1: Ann in a.csv; nobody ranked in b.csv", 6, a_csv="b_1,ballot,Ann\n", b_csv="b_1,ballot\n")
case("a card that one has read", ["agree", "a.csv", "b.csv"], "b_2: only in a.csv: nobody ranked", 6, a_csv="b_1,ballot\nb_2,ballot\n", b_csv="b_1,ballot\n")
case("a contest without names", ["agree", "a.csv", "b.csv", "--contest=m"], "--contest is for --names", 1)
AGREE = {"a_csv": "b_1,ballot\n", "b_csv": "b_1,ballot\n"}
case("names of two contests", ["agree", "a.csv", "b.csv", "--names=n.csv"], "n.csv has several contests", n_csv=NAMES, **AGREE)
case("names of another contest", ["agree", "a.csv", "b.csv", "--names=n.csv", "--contest=x"], "n.csv has no candidates of contest x", n_csv=NAMES, **AGREE)
case("names with a record that is none", ["agree", "a.csv", "b.csv", "--names=n.csv"], "n.csv: record 2 isn't contest,id,name",
     n_csv="contest,id,name\nm,Ann\n", **AGREE)
case("a name twice", ["agree", "a.csv", "b.csv", "--names=n.csv"], "n.csv: record 3 repeats Ann", n_csv="id,name\nAnn,A\nAnn,B\n", **AGREE)
case("names that look alike", ["agree", "a.csv", "b.csv", "--names=n.csv"], "n.csv: record 2 calls Ann A, and record 3 calls Ben a; these names look alike",
     n_csv="id,name\nAnn,A\nBen,a\n", **AGREE)
case("names without a head that is one", ["rounds", "b.raire", "--names=n.csv"], "n.csv: record 1 isn't id,name", b_raire=BALLOTS,
     n_csv="candidate,called,as\nAnn,A,x\n")
case("names that aren't text", ["agree", "a.csv", "b.csv", "--names=n.csv"], "n.csv isn't comma-separated text", n_csv=b"id,name\nAnn,\xff\n", **AGREE)

# ---- names for ids

NAMED = ["tabulate", "b.raire", "--names", "n.csv"]
case("names twice", ["names", *NAMED, "--names=n.csv"], "--names is given twice", 1)
case("names without a file", ["names", "tabulate", "b.raire", "--names"], "--names needs a file", 1)
case("a contest's name twice", ["names", *NAMED], "n.csv: record 3 repeats m", b_raire=BALLOTS, n_csv="contest,id,name\nm,,M\nm,,N\n")
case("a name that looks like an id", ["names", *NAMED], "n.csv calls Ann ben, and has no name for Ben; both look alike", b_raire=BALLOTS, n_csv="id,name\nAnn,ben\n")
case("lines over the names", ["names", *NAMED, "> n.csv"], "n.csv would be written over", 1, b_raire=BALLOTS, n_csv=NAMES)
case("names for rounds", ["rounds", "b.raire", "--names=n.csv"], "n.csv: record 1 isn't id,name", b_raire=BALLOTS, n_csv="Ann\n")

# ---- boxes, batches, rounds, export

case("a program that takes everything", ["boxes", "b.raire", "m.csv", "RAIRE=/bin/echo"], "the program takes an empty file for assertions", 1, b_raire=BALLOTS,
     m_csv=MANIFEST)
case("a ballot without a card", ["boxes", "b.raire", "m.csv"], "raire: b.raire: M7 at 5", b_raire=BALLOTS, m_csv="batch,cards\nb,2\n")
case("one file for batches", ["batches", "b.raire"], "give a ballot file, a manifest", 1)
case("a batch that isn't there", ["batches", "b.raire", "m.csv", "--also=x"], "--also names x, and m.csv has no such batch", b_raire=BALLOTS, m_csv=MANIFEST)
case("a tie without an order", ["rounds", "b.raire"], "Ann,Ben tie; --ties gives the order", 3, b_raire=TIE)
case("an order of others", ["rounds", "b.raire", "--ties=Cy"], "--ties names Cy, who isn't a candidate; there are: Ann; Ben", b_raire=TIE)
case("an order with one twice", ["rounds", "b.raire", "--ties=Ann,Ann"], "--ties names a candidate twice", b_raire=TIE)
case("assertions that don't hold", ["export", "shangrla", "b.raire", "a.json"], "raire: a.json: F1 at 0", b_raire=BALLOTS, a_json="")

# ---- import

SERVICE = {"metadata": {"candidates": ["Ann", "Ben", "Cy"], "contest": "m"}, "solution": {"Ok": {"winner": 0, "num_candidates": 3}}}
NEB = {"type": "NEB", "winner": 0, "loser": 1}
NEN = {"type": "NEN", "winner": 0, "loser": 1, "continuing": [0, 1]}
ONLY = {"winner": "Ann", "loser": "Ben", "already_eliminated": "", "assertion_type": "WINNER_ONLY"}
NEXT = {"winner": "Ann", "loser": "Ben", "already_eliminated": ["Cy"], "assertion_type": "IRV_ELIMINATION"}
AUDIT = {"contest": "m", "winner": "Ann", "candidates": ["Ann", "Ben", "Cy"]}
CALLED = "contest,id,name\nm,,Mayor\nm,1,Ann\nm,2,Ben\nm,3,Cy\n"


def solution(*claims, metadata=(), result=()):
    """The text of a solution with these claims, and with other members in its metadata and its result."""
    found = {"assertions": [{"assertion": claim, "margin": 1} for claim in claims], **SERVICE["solution"]["Ok"], **dict(result)}
    return json.dumps({"metadata": {**SERVICE["metadata"], **dict(metadata)}, "solution": {"Ok": found}})


def audits(*claims, **others):
    return json.dumps({"audits": [{**AUDIT, "assertions": claims, **others}]})


def imported(name, told, text, *words, form="raire-java", status=2, **files):
    case(f"import: {name}", ["import", form, "s.json", *words], told if status != 2 else f"s.json: {told}", status, s_json=text, **files)


imported("another form", "argument form: invalid choice: 'rcv'", "{}", form="rcv", status=1)
imported("a contest that has no id", "--contest is the id of a contest", "{}", "--contest=Zoë", status=1)
imported("a file that is cut off", "isn't JSON that can be read: ", solution(NEB)[:-1])
imported("a member twice", "isn't JSON that can be read: an object has the member winner twice", '{"winner": 0, "winner": 1}')
imported("lists in lists", "isn't JSON that can be read: it is nested too deeply", "[" * 200_000)
imported("an error", 'has an error in place of assertions: "InvalidCandidateNumber"', '{"solution": {"Err": "InvalidCandidateNumber"}}')
imported("no assertions", "0 of these files have assertions", '{"metadata": {}}')
imported("a list", "isn't an object", "[]")
imported("an assertion that is none", "assertion 2: isn't an object", json.dumps({**SERVICE["metadata"], "winner": 0, "assertions": [NEB, 3]}))
imported("assertions that are no list", "has the wrong type for assertions; expected a list", solution(result={"assertions": 3}))
imported("candidates that are no texts", "candidates has 3; expected a text", solution(NEB, metadata={"candidates": ["Ann", 3, "Cy"]}))
imported("another number of candidates", "num_candidates is 4, and candidates has 3", solution(NEB, result={"num_candidates": 4}))
imported("a name for a number", 'assertion 1: winner: "Ann" isn\'t a candidate: expected a number', solution({**NEB, "winner": "Ann"}), form="raire-rs")
imported("nobody", "assertion 1: loser: null isn't a candidate: expected a number or a name", solution({**NEB, "loser": None}))
imported("numbers of nobody", "assertion 1: winner: names candidate 0, and no metadata.candidates says who", '{"assertions": [{"type": "NEB", "winner": 0, "loser": 1}]}')
imported("a number that is too large", "assertion 1: loser: names candidate 3, and the 3 candidates are numbered from 0", solution({**NEB, "loser": 3}))
imported("another kind of assertion", "assertion 2: its type is NEQ; expected NEB or NEN", solution(NEB, {**NEB, "type": "NEQ"}))
imported("a kind that is missing", "assertion 1: has no type; expected a text", solution({"winner": 0, "loser": 1}))
imported("a NEN of nobody", "assertion 1: has no continuing", solution({**NEB, "type": "NEN"}))
imported("one twice", "assertion 1: continuing has Ben twice", solution({**NEN, "continuing": [0, 1, 1]}))
imported("a loser who is out", "assertion 1: its winner Ann or its loser Ben is no longer in", solution({**NEN, "continuing": [0, 2]}))
imported("a winner who is the loser", "assertion 1: its winner is its loser, Ann", solution({**NEB, "loser": 0}))
imported("a candidate who isn't listed", "assertion 1: Dee isn't among the candidates", solution({**NEB, "loser": "Dee"}))
imported("a name that isn't an id", "'Zoë' can't be the id of a candidate", solution(NEB, metadata={"candidates": ["Ann", "Zoë", "Cy"]}))
imported("one candidate twice", "candidates has Ann twice", solution(NEB, metadata={"candidates": ["Ann", "Ben", "Ann"]}))
imported("one candidate", "has 1 candidates; 2 to ", solution(metadata={"candidates": ["Ann"]}, result={"num_candidates": 1}))
imported("nobody listed", "doesn't list the candidates", '{"assertions": [], "contest": "m", "winner": "Ann"}')
imported("no winner", "doesn't say who won", solution(NEB, result={"winner": None}))
imported("another winner", "says that Ann won, and --winner says Ben", solution(NEB), "--winner=Ben")
imported("no contest", "has no id of its contest", solution(NEB, metadata={"contest": "Zoë's"}))
imported("somebody without a name", "Ben isn't in n.csv", solution(NEB), "--names=n.csv", n_csv=CALLED.replace("Ben", "Bob"))
imported("a name that is an id", "2 is the name of 1, and the id of somebody else in n.csv", solution(NEB, metadata={"candidates": ["2", "Ben", "Cy"]}),
         "--names=n.csv", n_csv=CALLED.replace("Ann", "2"))
imported("audits that aren't there", "has no audits", "{}", form="raire")
imported("a kind of SHANGRLA's that isn't known", "audit 1: assertion 1: its assertion_type is LOSER_ONLY", audits({**ONLY, "assertion_type": "LOSER_ONLY"}), form="raire")
imported("eliminated twice", "audit 1: assertion 1: already_eliminated has Cy twice", audits({**NEXT, "already_eliminated": ["Cy", "Cy"]}), form="raire")
imported("a winner who is eliminated", "audit 1: assertion 1: its winner Ann or its loser Ben is no longer in", audits({**NEXT, "already_eliminated": ["Ann"]}),
         form="raire")
imported("eliminated by numbers", "audit 1: assertion 1: already_eliminated has 3; expected a text", audits({**NEXT, "already_eliminated": [3]}), form="raire")
imported("a contest without assertions", "no contest has assertion_json", '{"339": {"candidates": []}}', form="shangrla")
imported("audits as contests", "no contest has assertion_json; it has audits: its form is raire", audits(ONLY), form="shangrla")
imported("two winners", "its winner isn't one candidate", json.dumps({**AUDIT, "winner": ["Ann", "Ben"], "assertion_json": [ONLY]}), form="shangrla")
imported("one of two contests", "name the contest with --contest; there are: m; s",
         json.dumps({"audits": [{**AUDIT, "assertions": []}, {**AUDIT, "contest": "s", "assertions": []}]}), form="raire")
case("import: names of no contest", ["import", "raire-java", "s.json", "--names=n.csv", "--contest=x"], "n.csv has no candidates of contest x", s_json=solution(NEB),
     n_csv=CALLED)
case("import: names that aren't", ["import", "raire-java", "s.json", "--names=n.csv"], "n.csv: record 2 isn't id,name", s_json=solution(NEB), n_csv="id,name\nAnn\n")
case("import: other candidates", ["import", "raire-rs", "s.json", "p.json"], "p.json: has other candidates, or another order", s_json=solution(NEB),
     p_json='{"metadata": {"candidates": ["Ben", "Ann", "Cy"]}}')
case("import: two solutions", ["import", "raire-rs", "s.json", "p.json"], "s.json p.json: 2 of these files have assertions", s_json=solution(NEB), p_json=solution(NEB))
case("import: two files of one", ["import", "shangrla", "s.json", "p.json"], "s.json p.json: this form is one file", s_json="[]", p_json="[]")
case("import: over its file", ["import", "raire", "s.json", "> s.json"], "s.json would be written over", 1, s_json=audits(ONLY))
case("import: a file that is too long", ["import", "raire", "s.json"], "s.json: too long", 11, s_json=TOO_LONG)
case("import: a file that isn't there", ["import", "raire", "s.json"], "s.json: no such file", 12)

# ---- plan --poll

ONE = json.dumps({
    "assertions": [{"kind": "NEB", "loser": "Ben", "margin": 1, "winner": "Ann"}], "candidates": ["Ann", "Ben"], "contest": "m", "margin": 1,
    "order": ["Ann", "Ben"], "records": 3, "version": 1, "winner": "Ann",
})
POLL_PLAN = ["plan", "m.csv", "a.json", "--poll"]
case("a limit of more than all", [*POLL_PLAN, "--limit=1000000"], "--limit needs a number from 1 to 999999; ./raire help plan", 1, m_csv=MANIFEST, a_json=ONE)
case("a gamma of nothing", [*POLL_PLAN, "--gamma=0"], "--gamma needs a number from 1 to 1000000, or best; ./raire help plan", 1, m_csv=MANIFEST, a_json=ONE)
case("a plan of no assertions", POLL_PLAN, "raire: a.json: F1 at 0", m_csv=MANIFEST, a_json="")
case("a plan over its manifest", [*POLL_PLAN, "> m.csv"], "m.csv would be written over", 1, m_csv=MANIFEST, a_json=ONE)

# ---- cards

case("two forms", ["cards", *DRAWN, "--page", "--sheet"], "give only one of --page, --sheet and --entry", 1)
case("entry without candidates", ["cards", *DRAWN, "--entry"], "--entry needs the candidates", 1)
case("marks without entry", ["cards", *DRAWN, "--marks"], "--marks is for --entry", 1)
case("no rank", ["cards", *DRAWN, "--entry", "--ballots=b.raire", "--ranks=0"], "--ranks needs a number from 1 to", 1)
case("no draws", ["cards", "m.csv", "--seed=1"], "the following arguments are required: --draws", 1)
case("a batch of the drawn", ["cards", *DRAWN, "--batch=b"], "--batch is for --all", 1)
case("all cards of a seed", ["cards", "m.csv", "--all", "--seed=1"], "--all takes all cards: no --seed", 1)
case("more draws before", ["cards", *DRAWN, "--after=2"], "--after needs fewer draws than --draws", 1, m_csv=MANIFEST)
case("no card to read", ["cards", *DRAWN, "--after=1", "--entry", "--ballots=b.raire"], "there is no card to read", 1, m_csv="batch,cards\nb,1\n",
     b_raire=BALLOTS)
case("too many for a page", ["cards", "m.csv", "--all", "--entry", "--ballots=b.raire"], "6,000 cards are more than a page holds", 1,
     m_csv="batch,cards\nb,6000\n", b_raire=BALLOTS)
case("a batch of no manifest", ["cards", "m.csv", "--all", "--batch=x"], "--batch names x, and m.csv has no such batch", m_csv=MANIFEST)
case("no place", ["cards", *DRAWN, "--places=p.csv"], "p.csv: record 1 isn't a batch with its place", m_csv=MANIFEST, p_csv="b\n")
case("a place of no batch", ["cards", *DRAWN, "--places=p.csv"], "p.csv: record 1 is about x, and m.csv has no such batch", m_csv=MANIFEST, p_csv="x,left\n")
case("a place twice", ["cards", *DRAWN, "--places=p.csv"], "p.csv: record 2 repeats b", m_csv=MANIFEST, p_csv="b,left\nb,right\n")
case("a batch without a place", ["cards", *DRAWN, "--places=p.csv"], "p.csv: no place for batch b, which has a listed card", m_csv=MANIFEST, p_csv="")
ENTRY = ["cards", *DRAWN, "--entry", "--names=n.csv"]
case("entry with names that aren't", ENTRY, "n.csv: record 2 isn't id,name", m_csv=MANIFEST, n_csv="id,name\nAnn\n")
case("entry with names of two contests", ENTRY, "n.csv has several contests", m_csv=MANIFEST, n_csv=NAMES)
case("entry without names", ENTRY, "n.csv has no candidates", m_csv=MANIFEST, n_csv="id,name\n")

# ---- manifest

case("one end of the numbers", ["manifest", "plain", "l.csv", "--first=x"], "--first and --last are given together", 1)
case("a list that isn't there", ["manifest", "plain", "l.csv"], "l.csv: no such file", 12)
for number, (text, told) in enumerate([
    ("", "is empty"), ("batch\nb\n", "line 1: no column is called cards, count"), ("box number,cards\n1,2\n", "line 1: no column is called batch"),
    ("batch,cards\nb,x\n", "line 2: x isn't a number of cards"), ("batch,first,last\nb,1,y\n", "line 2: y isn't an imprinted number"),
    ("batch,cards,first,last\nb,2,1,3\n", "line 2: the numbers 1 to 3 are 3 cards, and the count is 2"),
    ("batch,cards\nTotal,2\n", "line 2: the row has no batch"),
    ("batch,cards\nÖl,2\n", "line 2: no manifest can have the batch Öl"), ("batch,cards\nb,2\nb,3\n", "line 3: the batch b is already at l.csv: line 2"),
    ("batch,first,last\nb,1,5\nc,5,6\n", "line 3: the numbers 5 to 6 of batch c overlap with those of batch b"),
]):
    case(f"list {number}", ["manifest", "plain", "l.csv"], f"l.csv: {told}", l_csv=text)
case("a list of too many cards", ["manifest", "plain", "l.csv"], "raire: the manifest of l.csv: M5 at 12",
     l_csv="batch,cards\n" + "".join(f"b{k},1000000\n" for k in range(11)))

# ---- convert: words

SHEET = "id,1,2\nb_1,Ann,Ben\n"
case("an empty word", ["convert", "plain", ""], "a word is empty", 1)
case("seats of a ranked contest", ["convert", "hart", "x", "--seats=2"], "--seats is for --as pairs", 1)
case("marks of pairs without seats", ["convert", "marks", "x", "--as=pairs", "--ballots=b"], "marks of pairs need --seats", 1)
case("counts of marks that were made", ["convert", "dominion", "x", "--marks=made", "--counts=compare"], "--counts doesn't apply with --marks made", 1)
case("account and names in one file", ["convert", "plain", "s.csv", "--names=x", "--account=./x"], "--account and --names are one file", 1, s_csv=SHEET)
case("names over the export", ["convert", "plain", "s.csv", "--names=s.csv"], "s.csv would be written over by --account or --names", 1, s_csv=SHEET)
case("names where the records go", ["convert", "plain", "s.csv", "--names=x", "> x"], "x is both standard output and the file", 1, s_csv=SHEET, x="")
case("names over a file of names", ["convert", "plain", "s.csv", "--names=x"], "x already exists, and has other content; it would be lost", 1, s_csv=SHEET,
     x="contest,id,name\ns,Ann,Ann Ash\n")
case("an account over records", ["convert", "plain", "s.csv", "--account=x"], "x already exists, and isn't an account; it would be lost", 1, s_csv=SHEET, x="1\n")
case("names to no folder", ["convert", "plain", "s.csv", "--names=none/x"], "none/x: ", 8, s_csv=SHEET)
case("a full disk", ["convert", "plain", "s.csv", "> /dev/full"], "the output could not be written", 8, s_csv=SHEET)
case("a sheet of a CSV", ["convert", "plain", "s.csv", "--sheet=x"], "--sheet is for workbooks", 1, s_csv=SHEET)
ESS = "Cast Vote Record,A Choice 1 of 1,B Choice 1 of 1\nb_1,Ann,Fox\n"
case("candidates of two contests", ["convert", "ess", "s.csv", "--candidates=c"], "--candidates is the list of one contest", 1, s_csv=ESS, c="Ann\n")
case("a candidate who withdrew from nowhere", ["convert", "plain", "s.csv", "--without=Cy"], "s.csv: --without names Cy, who isn't a candidate", s_csv=SHEET)

# ---- convert: sheets

case("a candidate listed twice", ["convert", "plain", "s.csv", "--candidates=c"], "c: line 2: Ann is repeated", s_csv=SHEET, c="Ann\nAnn\n")
case("semicolons", ["convert", "plain", "s.csv"], "s.csv: line 1: has no commas", s_csv="id;1;2\nb_1;Ann;Ben\n")
case("a rank twice", ["convert", "plain", "s.csv"], "s.csv: line 1: several columns are rank 1", s_csv="id,1,1st\nb_1,Ann,Ben\n")
case("a choice twice", ["convert", "ess", "s.csv"], "s.csv: line 1: several columns are rank 1 of A",
     s_csv="Cast Vote Record,A Choice 1 of 1,A 1st Choice\nb_1,Ann,Ben\n")
case("a column of no contest", ["convert", "ess", "s.csv", "--as=plurality", "--contest=C"], "s.csv: line 1: no column is called C; --contest names", s_csv=ESS)
MANY = ",".join(f"C{k} Choice 1 of 1" for k in range(MOST_CONTESTS + 1))
case("too many contests", ["convert", "ess", "s.csv"], f"s.csv: {MOST_CONTESTS + 1} contests have records",
     s_csv=f"Cast Vote Record,{MANY}\nb_1{',Ann' * (MOST_CONTESTS + 1)}\n")
case("too many candidates", ["convert", "plain", "s.csv"], f"s.csv: contest s has {MOST_LISTED + 1} candidates",
     s_csv="id,1\n" + "".join(f"b_{k},Candidate {k}\n" for k in range(1, MOST_LISTED + 2)))


def changed_workbook(old, new, told):
    """A workbook whose sheet has another text."""
    def make(folder):
        path = bad_exports.workbook(folder, bad_exports.ROWS)
        with zipfile.ZipFile(path) as archive:
            parts = {name: archive.read(name) for name in archive.namelist()}
        name = "xl/worksheets/sheet1.xml"
        parts[name], count = re.subn(old, new, parts[name])
        assert count == 1, parts[name]
        with zipfile.ZipFile(path, "w") as archive:
            for each, data in parts.items():
                archive.writestr(each, data)
        return "convert", ["plain", path], 2, told
    return make


CASES["a workbook with a sheet that is no XML"] = changed_workbook(rb"</sheetData>", b"", "cvr.xlsx: sheet1.xml: not a workbook: ")
CASES["a workbook with a number that is none"] = changed_workbook(rb'<c r="B2".*?</c>', b'<c r="B2" t="n"><v>x</v></c>', "cvr.xlsx: not a workbook: ")

# ---- convert: PrefLib

HEAD = "# DATA TYPE: soi\n# NUMBER ALTERNATIVES: 2\n# ALTERNATIVE NAME 1: Ann\n# ALTERNATIVE NAME 2: Ben\n"
for name, text, told in [
    ("no number of voters", f"{HEAD}1: 1,2\n", "a.soi: there is no number NUMBER VOTERS"),
    ("no ballots", f"{HEAD}# NUMBER VOTERS: 0\n# NUMBER UNIQUE ORDERS: 0\n", "a.soi: has no ballots"),
    ("a comma at the end", f"{HEAD}1: 1,\n", "a.soi: line 5: the order ends in a comma"),
    ("a heading twice", f"{HEAD}# DATA TYPE: soi\n", "a.soi: line 5: DATA TYPE is repeated"),
    ("one name for two", HEAD.replace("Ben", "Ann"), "a.soi: line 4: a second alternative is called Ann"),
    ("no name", HEAD.replace("Ben", ""), "a.soi: line 4: no name"),
    ("too many ballots", f"{HEAD}10000001: 1\n", "a.soi: line 5: there are more than 10000000 ballots"),
]:
    case(f"preflib: {name}", ["convert", "preflib", "a.soi"], told, a_soi=text)
case("preflib: two files", ["convert", "preflib", "a.soi", "a.soi"], "a.soi a.soi: one file of PrefLib at a time", a_soi=HEAD)
SEVEN = f"{HEAD}# NUMBER VOTERS: 7\n# NUMBER UNIQUE ORDERS: 1\n7: 1,2\n"
case("too many records", ["convert", "preflib", "a.soi", "MOST_RECORDS=6"], "a.soi: line 7: is record 7 of one contest, and no .raire file has more than 6",
     a_soi=SEVEN)
case("too many bytes", ["convert", "preflib", "a.soi", "MOST_FILE_BYTES=99"], "a.soi: the .raire file would have ", a_soi=SEVEN)

# ---- convert: seen files and marks

for name, text, told in [
    ("a card twice", "b_1,ballot\nb_1,ballot\n", "record 2: the card b_1 is listed twice"), ("no reading", "b_1\n", "record 1: the card b_1 has no reading"),
    ("missing, and something more", "b_1,missing,Ann\n", "record 1: the card b_1 is missing, and something comes after that"),
    ("another word", "b_1,balot,Ann\n", "record 1: balot is neither ballot, marks nor missing"),
    ("another candidate", "b_1,ballot,Fox\n", "record 1: Fox isn't a candidate of contest m"),
    ("a rank without a candidate", "b_1,marks,1\n", "record 1: after marks, expected pairs of a rank and a candidate"), ("no rank", "b_1,marks,x,Ann\n", "record 1: x isn't a rank"),
    ("a write-in", "b_1,marks,1,write-in\n", "record 1: a write-in is marked, and"),
    ("a quote", 'b_1,ballot,"Ann\nb_2,ballot\n', "record 1: has a quote that isn't closed"),
]:
    case(f"seen: {name}", ["convert", "seen", "s.csv", "--ballots=b.raire"], f"s.csv: {told}", s_csv=text, b_raire=BALLOTS)
case("seen: of two contests", ["convert", "seen", "s.csv", "--ballots=b.raire"], "s.csv: record 1: doesn't say which contest it is about", s_csv="b_1,ballot\n",
     b_raire=TWO_CONTESTS)
case("seen: ballots that are too long", ["convert", "seen", "s.csv", "--ballots=b.raire"], "b.raire: too long", 11, s_csv="b_1,ballot\n", b_raire=TOO_LONG)
case("seen: ballots that are none", ["convert", "seen", "s.csv", "--ballots=b.raire"], "raire: b.raire: B1 at 1", s_csv="b_1,ballot\n", b_raire="Ann\n")


# ---- convert: exports whose parts contradict each other

def lists(*contests, candidates=((1, 5), (2, 5))):
    return {
        "ContestManifest.json": {"Version": "5.10", "List": [{"Description": name, "Id": key, "VoteFor": 1, "NumOfRanks": 3} for name, key in contests]},
        "CandidateManifest.json": {
            "Version": "5.10", "List": [{"Description": f"c{key}", "Id": key, "ContestId": of, "Type": "Regular"} for key, of in candidates],
        },
    }


def dominion(name, told, *sessions, words=(), files=()):
    sessions = sessions or [bad_exports.session(1)]
    CASES[f"dominion: {name}"] = lambda folder: ("convert", [*bad_exports.dominion(folder, *sessions, files=files), *words], 2, told)


MAYOR = ("Mayor", 5)
dominion("a contest twice", "ContestManifest.json: List 2: a second contest with Id 5", files=lists(MAYOR, MAYOR))
dominion("a candidate of no contest", "CandidateManifest.json: List 2: ContestId 6 is in no", files=lists(MAYOR, candidates=((1, 5), (2, 6))))
dominion("a candidate twice", "CandidateManifest.json: List 2: a second candidate with Id 1", files=lists(MAYOR, candidates=((1, 5), (1, 5))))
dominion("two contests of one name", "in: several contests are called Mayor", files=lists(MAYOR, ("Mayor", 6)), words=["--contest=Mayor"])
dominion("no Original", "CvrExport.json: session 1: has no Original", {"TabulatorId": 1})
dominion("no card with a contest", "in: no card has any of the contests", {**bad_exports.session(1), "Original": {"IsCurrent": True, "Cards": []}})
PART = {"Version": "5.10", "Sessions": [bad_exports.session(1)]}
dominion("a part twice", "CvrExport_1.json: a second part 1", files={"CvrExport.json": None, "CvrExport_01.json": PART, "CvrExport_1.json": PART})
CASES["dominion: a list twice"] = lambda folder: (
    "convert", [*bad_exports.dominion(folder, bad_exports.session(1)), os.path.join(folder, "ContestManifest.json")], 2,
    "ContestManifest.json: a second ContestManifest.json; the first is",
)


def by_columns(name, told, *rows, words=(), **other):
    CASES[f"dominion-csv: {name}"] = lambda folder: ("convert", [*bad_exports.by_columns(folder, *rows, **other), *words], 2, told)


by_columns("no choice", "a.csv: the four lines at the head: column 6 of Mayor has no choice", bad_exports.ONE, title="Mayor (Vote For=1)",
           choices=["", "B", "C", "D"])
by_columns("a letter in an id", "a.csv: line 5: no id can be made of", ["1", "x", "1", "1", "", "1", "0", "0", "1"])
by_columns("no records", "a.csv: has no records after its head")
case("dominion-csv: a shorter line", ["convert", "dominion-csv", "a.csv"], "a.csv: the four lines at the head: the second has 2 fields",
     a_csv="T,5.10\nx,y\nx,y\nTabulatorNum,BatchId,RecordId\n")
case("dominion-csv: a quote", ["convert", "dominion-csv", "a.csv"], "a.csv: line 1: not comma-separated, or truncated", a_csv='"T,5.10\n')
SEATS = 8
by_columns("too many pairs", "a.csv: 64 records of pairs would be written", ["1", "1", "1", "1", "", *["1", "0"] * SEATS],
           title=f"Board (Vote For={SEATS})", choices=[f"c{n}" for n in range(2 * SEATS)], words=["--as=pairs", "MOST_RECORDS=63"])
by_columns("pairs of one id", "a.csv: two pairs have one id", ["1", "1", "1", "1", "", "1", "1", "0", "0"], title="B (Vote For=2)",
           choices=["a", "a over b", "c", "b over c"], words=["--as=pairs"])


def nist(name, told, *reports):
    CASES[f"nist: {name}"] = lambda folder: ("convert", bad_exports.nist(folder, *reports), 2, told)


OTHER = [{"@id": "s1", "CandidateIds": ["p2"]}, {"@id": "s2", "CandidateIds": ["p1"]}]
nist("other candidates", "report2.json: Election 1: contest c has different candidates", bad_exports.report(),
     bad_exports.report(contest={"ContestSelection": OTHER}))
nist("a candidate who isn't there", "report1.json: Election 1: contest c, ContestSelection 1: CandidateIds names nobody",
     bad_exports.report(contest={"ContestSelection": [{"@id": "s1", "CandidateIds": ["p9"]}]}))
VOTES = bad_exports.votes_of()
nist("a contest of no election", "report1.json: CVR 1: ContestId x is in no Election", bad_exports.report(json.loads(json.dumps(VOTES).replace('"c"', '"x"'))))
TWICE = {"CVRSnapshot": [{"@id": "now", "CVRContest": VOTES["CVRSnapshot"][0]["CVRContest"] * 2}]}
nist("a contest twice", "report1.json: CVR 1: contest c: is on the card twice", bad_exports.report(TWICE))


def zip_without_its_beginning(folder):
    """Makes a zip whose final list gives places that lie before the start of the file."""
    bad_exports.dominion(folder, bad_exports.session(1))
    path = os.path.join(folder, "x.zip")
    with zipfile.ZipFile(path, "w") as archive:
        for name in ("CandidateManifest.json", "ContestManifest.json", "CvrExport.json"):
            archive.write(os.path.join(folder, name), name)
    with open(path, "rb") as file:
        data = file.read()
    put(folder, "x.zip", data[10:])
    return "convert", ["dominion", "x.zip"], 2, "x.zip/CandidateManifest.json: not a zip, or truncated"


CASES["a zip without its beginning"] = zip_without_its_beginning
