"""Exports that can't be read. Each case makes files in a folder, and returns the words, the status, and the message after `convert: `."""
import json
import os
import zipfile

CASES = {}


def case(make):
    CASES[make.__name__] = make
    return make


# ---- Dominion

def session(number, *marks, **other):
    votes = [{"Id": 5, "Marks": [{"CandidateId": c, "Rank": rank, "IsVote": True, "IsAmbiguous": False} for c, rank in marks]}]
    return {"TabulatorId": 1, "BatchId": 2, "RecordId": number, "Original": {"IsCurrent": True, "Cards": [{"Id": 1, "Contests": votes}]}, **other}


def dominion(folder, *sessions, version="5.10.50.85", files=()):
    """A folder with an export of these sessions. `files` replaces some of its files."""
    made = {
        "ContestManifest.json": {"Version": version, "List": [{"Description": "Mayor", "Id": 5, "VoteFor": 1, "NumOfRanks": 3}]},
        "CandidateManifest.json": {
            "Version": version,
            "List": [{"Description": name, "Id": number, "ContestId": 5, "Type": "Regular"} for number, name in enumerate(["Ash", "Birch"], 1)],
        },
        "CvrExport.json": {"Version": version, "Sessions": list(sessions)},
    } | dict(files)
    for name, value in made.items():
        if value is not None:
            put(folder, name, value if type(value) is str else json.dumps(value))
    return ["dominion", folder]


def put(folder, name, text):
    path = os.path.join(folder, name)
    with open(path, "w", encoding="utf-8", newline="") as file:
        file.write(text)
    return path


def empty(folder):
    path = os.path.join(folder, "empty")
    os.mkdir(path)
    return path


@case
def dominion_of_another_version(folder):
    words = dominion(folder, session(1), version="4.21.3")
    return words, 2, "CandidateManifest.json: Version is 4.21.3; expected a Version 5, such as 5.10.50.85"


@case
def dominion_without_version(folder):
    words = dominion(folder, session(1), files={"CvrExport.json": {"Sessions": [session(1)]}})
    return words, 2, "CvrExport.json: Version is missing; expected a Version 5, such as 5.10.50.85"


@case
def dominion_unknown_contest(folder):
    return [*dominion(folder, session(1)), "--contest", "Sheriff"], 2, "in: no contest has the name or id Sheriff; there are: 5 (Mayor)"


@case
def dominion_contest_on_no_card(folder):
    contests = {"Version": "5.10", "List": [{"Description": name, "Id": number, "VoteFor": 1, "NumOfRanks": 3} for number, name in ((5, "Mayor"), (6, "Clerk"))]}
    return [*dominion(folder, session(1), files={"ContestManifest.json": contests}), "--contest", "Clerk"], 2, "in: no card has the contest 6 (Clerk)"


@case
def dominion_contest_that_elects_two(folder):
    contests = {"Version": "5.10", "List": [{"Description": "Board", "Id": 5, "VoteFor": 2, "NumOfRanks": 0}]}
    words = dominion(folder, session(1), files={"ContestManifest.json": contests})
    return [*words, "--contest", "Board"], 2, "in: contest 5 (Board) elects 2, so it isn't an instant-runoff contest; --as pairs audits it by pairs of candidates"


@case
def dominion_no_ranked_contest(folder):
    contests = {"Version": "5.10", "List": [{"Description": "Sheriff", "Id": 5, "VoteFor": 1, "NumOfRanks": 0}]}
    words = dominion(folder, session(1), files={"ContestManifest.json": contests})
    return words, 2, "in: no contest to convert; name one with --contest: 5 (Sheriff): isn't ranked (NumOfRanks is 0)"


@case
def dominion_mark_above_the_candidates(folder):
    told = "CvrExport.json: session 2: contest 5: a mark has rank 3, and there are 2; --ranks says how many ranks a ballot has"
    return dominion(folder, session(1, (1, 1)), session(2, (1, 1), (2, 3))), 2, told


@case
def dominion_mark_of_rank_0(folder):
    told = "CvrExport.json: session 1: contest 5: a mark has rank 0, and there are 2; --ranks says how many ranks a ballot has"
    return dominion(folder, session(1, (1, 0))), 2, told


@case
def dominion_another_candidate(folder):
    return dominion(folder, session(1, (3, 1))), 2, "CvrExport.json: session 1: contest 5: CandidateId 3 isn't a candidate of the contest"


@case
def dominion_two_cards_of_one_id(folder):
    return dominion(folder, session(1), session(2), session(1)), 2, "CvrExport.json: session 3: a second card has the id 1_2_1"


@case
def dominion_id_that_cannot_be_had(folder):
    told = "CvrExport.json: session 1: no id can be made of TabulatorId 1, BatchId 2, RecordId Z9: expected three whole numbers"
    return dominion(folder, session("Z9")), 2, told


@case
def dominion_withheld_without_an_image(folder):
    return dominion(folder, session("X")), 2, "CvrExport.json: session 1: RecordId is X, and ImageMask doesn't end in 1_2_ and a number"


@case
def dominion_no_current_version(folder):
    other = session(1)
    other["Original"]["IsCurrent"] = False
    return dominion(folder, other), 2, "CvrExport.json: session 1: 0 of its versions (Original) have IsCurrent true; expected one"


@case
def dominion_contest_twice_on_a_card(folder):
    twice = session(1)
    twice["Original"]["Cards"] *= 2
    return dominion(folder, twice), 2, "CvrExport.json: session 1: contest 5: is on the card twice"


@case
def dominion_rank_that_is_a_text(folder):
    told = "CvrExport.json: session 1: contest 5: has the wrong type for Rank; expected a whole number"
    return dominion(folder, session(1, (1, "1"))), 2, told


@case
def dominion_export_without_sessions(folder):
    empty = {"CvrExport.json": None, "CvrExport_1.json": {"Version": "5.10", "Sessions": [session(1)]}, "CvrExport_2.json": {"Version": "5.10", "Sessions": []}}
    return dominion(folder, files=empty), 2, "CvrExport_2.json: has no sessions; expected a list Sessions, with one for each card"


@case
def dominion_without_a_manifest(folder):
    return dominion(folder, session(1), files={"CandidateManifest.json": None}), 2, "in: there is no CandidateManifest.json"


@case
def dominion_cut_off(folder):
    text = json.dumps({"Version": "5.10", "Sessions": [session(1), session(2)]})
    told = "CvrExport.json: not JSON, or truncated after Sessions 1: parse error: premature EOF"
    return dominion(folder, files={"CvrExport.json": text[:-30]}), 2, told


@case
def dominion_truncated_zip(folder):
    dominion(folder, session(1))
    path = os.path.join(folder, "export.zip")
    with zipfile.ZipFile(path, "w", zipfile.ZIP_DEFLATED) as archive:
        for name in ("ContestManifest.json", "CandidateManifest.json", "CvrExport.json"):
            archive.write(os.path.join(folder, name), name)
    with open(path, "r+b") as file:
        file.truncate(os.path.getsize(path) - 40)
    return ["dominion", path], 2, "export.zip: not a zip, or truncated: File is not a zip file"


@case
def dominion_zip_with_a_changed_byte(folder):
    dominion(folder, *(session(number, (1, 1)) for number in range(1, 40)))
    path = os.path.join(folder, "export.zip")
    with zipfile.ZipFile(path, "w", zipfile.ZIP_STORED) as archive:
        for name in ("ContestManifest.json", "CandidateManifest.json", "CvrExport.json"):
            archive.write(os.path.join(folder, name), name)
    with open(path, "r+b") as file:
        data = file.read()
        at = data.index(b'"RecordId": 7') + len('"RecordId": ')
        file.seek(at)
        file.write(b"8")
    return ["dominion", path], 2, "export.zip/CvrExport.json: not a zip, or truncated: Bad CRC-32 for file 'CvrExport.json'"


@case
def dominion_no_such_folder(folder):
    return ["dominion", os.path.join(folder, "none.zip")], 12, "none.zip: no such file"


@case
def dominion_missing_folder(folder):
    return ["dominion", os.path.join(folder, "none")], 12, "none: no such file"


@case
def dominion_missing_folder_beside_a_good_one(folder):
    return [*dominion(folder, session(1, (1, 1))), os.path.join(folder, "none")], 12, "none: no such file"


NOTHING_OF_DOMINION = "has no file of an export: CvrExport.json, ContestManifest.json, CandidateManifest.json"


@case
def dominion_empty_folder_beside_a_good_one(folder):
    return [*dominion(folder, session(1, (1, 1))), empty(folder)], 2, f"empty: {NOTHING_OF_DOMINION}"


@case
def dominion_empty_zip_beside_a_good_folder(folder):
    words, path = dominion(folder, session(1, (1, 1))), os.path.join(folder, "empty.zip")
    with zipfile.ZipFile(path, "w") as archive:
        archive.writestr("readme.txt", "nothing")
    return [*words, path], 2, f"empty.zip: {NOTHING_OF_DOMINION}"


@case
def dominion_path_through_a_file(folder):
    return [*dominion(folder, session(1, (1, 1))), os.path.join(folder, "CvrExport.json", "more")], 7, "CvrExport.json/more: Not a directory"


# ---- NIST SP 1500-103

def report(record=None, contest=None, **other):
    made = {
        "@type": "CVR.CastVoteRecordReport", "Version": "1.0.0",
        "Election": [{
            "@id": "e", "Candidate": [{"@id": "p1", "Name": "Ash"}, {"@id": "p2", "Name": "Birch"}],
            "Contest": [{
                "@id": "c", "@type": "CVR.CandidateContest", "Name": "Mayor", "VoteVariation": "rcv",
                "ContestSelection": [{"@id": "s1", "CandidateIds": ["p1"]}, {"@id": "s2", "CandidateIds": ["p2"]}], **(contest or {}),
            }],
        }],
        "CVR": [{
            "BatchId": "B", "BatchSequenceId": 1, "CurrentSnapshotId": "now", "CVRSnapshot": [{
                "@id": "now", "Type": "interpreted", "CVRContest": [{"ContestId": "c", "CVRContestSelection": [
                    {"ContestSelectionId": "s1", "SelectionPosition": [{"HasIndication": "yes", "NumberVotes": 1, "Rank": 1}]}]}]}],
            **(record or {}),
        }],
    }
    return {**made, **other}


def nist(folder, *reports):
    return ["nist", *(put(folder, f"report{number}.json", json.dumps(each)) for number, each in enumerate(reports, 1))]


def votes_of(*selections):
    return {"CVRSnapshot": [{"@id": "now", "CVRContest": [{"ContestId": "c", "CVRContestSelection": list(selections)}]}]}


@case
def nist_empty_folder_beside_a_report(folder):
    return [*nist(folder, report()), empty(folder)], 2, "empty: has no file"


@case
def nist_missing_folder_beside_a_report(folder):
    return [*nist(folder, report()), os.path.join(folder, "none")], 12, "none: no such file"


@case
def nist_of_another_version(folder):
    return nist(folder, report(Version="2.0")), 2, "report1.json: Version is 2.0; expected 1.0.0 (NIST SP 1500-103)"


@case
def nist_of_another_type(folder):
    told = "report1.json: @type is ENR.ElectionReport; expected CVR.CastVoteRecordReport (NIST SP 1500-103)"
    return nist(folder, report(**{"@type": "ENR.ElectionReport"})), 2, told


@case
def nist_unknown_contest(folder):
    return [*nist(folder, report()), "--contest", "Sheriff"], 2, "report1.json: no contest has the name or id Sheriff; there are: c (Mayor)"


@case
def nist_contest_of_three_winners(folder):
    words = [*nist(folder, report(contest={"NumberElected": 3})), "--contest", "Mayor"]
    return words, 2, "report1.json: contest c (Mayor) elects 3, so it isn't an instant-runoff contest; --as pairs audits it by pairs of candidates"


@case
def nist_mark_above_the_candidates(folder):
    vote = {"ContestSelectionId": "s1", "SelectionPosition": [{"HasIndication": "yes", "Rank": 3}]}
    told = "report1.json: CVR 1: contest c: a mark has rank 3, and there are 2; --ranks says how many ranks a ballot has"
    return nist(folder, report(votes_of(vote))), 2, told


@case
def nist_mark_without_a_rank(folder):
    vote = {"ContestSelectionId": "s1", "SelectionPosition": [{"HasIndication": "yes"}]}
    return nist(folder, report(votes_of(vote))), 2, "report1.json: CVR 1: contest c: a mark for s1 has no Rank"


@case
def nist_another_selection(folder):
    vote = {"ContestSelectionId": "s3", "SelectionPosition": []}
    return nist(folder, report(votes_of(vote))), 2, "report1.json: CVR 1: contest c: ContestSelectionId s3 is none of the contest"


@case
def nist_snapshot_that_is_not_there(folder):
    told = "report1.json: CVR 1: 0 snapshots have the id later of CurrentSnapshotId; expected one"
    return nist(folder, report({"CurrentSnapshotId": "later"})), 2, told


@case
def nist_without_an_id(folder):
    told = "report1.json: CVR 1: has no BatchId to make the card's id of; --id says what it is made of, such as --id UniqueId"
    return nist(folder, report({"BatchId": None})), 2, told


@case
def nist_id_that_cannot_be_had(folder):
    told = ("report1.json: CVR 1: no .raire file can have the card's id 'Präsidium_1': 1 to 64 characters from space to ~, no comma and no double "
            "quote, no blank at either end")
    return nist(folder, report({"BatchId": "Präsidium"})), 2, told


@case
def nist_two_cards_of_one_id(folder):
    return nist(folder, report(), report()), 2, "report2.json: CVR 1: a second card has the id B_1"


@case
def nist_one_report_empty(folder):
    return nist(folder, report(), report(CVR=[])), 2, "report2.json: has no records; expected a list CVR, with one for each card"


@case
def nist_cut_off(folder):
    put(folder, "report.json", json.dumps(report())[:-9])
    return ["nist", os.path.join(folder, "report.json")], 2, "report.json: not JSON, or truncated: parse error: premature EOF"


# ---- sheets

ESS = "Cast Vote Record,Precinct,Mayor Choice 1 of 2,Mayor Choice 2 of 2\n"


@case
def ess_of_another_form(folder):
    path = put(folder, "cvr.csv", "Cast Vote Record,Mayor\n1,Ash\n")
    return ["ess", path], 2, "cvr.csv: line 1: no column has 'Choice 1 of 5' or '1st Choice' in its name (ES&S's form)"


@case
def ess_without_the_id(folder):
    path = put(folder, "cvr.csv", "Number,Mayor Choice 1 of 1\n1,Ash\n")
    return ["ess", path], 2, "cvr.csv: line 1: no column is called cast vote record; --id says which the card's id is made of"


@case
def ess_a_rank_is_missing(folder):
    path = put(folder, "cvr.csv", "Cast Vote Record,Mayor Choice 1 of 3,Mayor Choice 3 of 3\n1,Ash,Birch\n")
    return ["ess", path], 2, "cvr.csv: line 1: the columns of Mayor have the ranks 1, 3; expected 1 to 2, each once"


@case
def ess_unknown_contest(folder):
    words = ["ess", put(folder, "cvr.csv", ESS + "1,P,Ash,undervote\n"), "--contest", "Clerk"]
    return words, 2, "cvr.csv: no contest has the name or id Clerk; there are: Mayor"


@case
def ess_two_cards_of_one_id(folder):
    return ["ess", put(folder, "cvr.csv", ESS + "1,P,Ash,Birch\n1,P,Birch,Ash\n")], 2, "cvr.csv: line 3: a second card has the id 1"


@case
def ess_id_that_cannot_be_had(folder):
    told = ("cvr.csv: line 2: no .raire file can have the card's id 'A,1': 1 to 64 characters from space to ~, no comma and no double quote, no "
            "blank at either end")
    return ["ess", put(folder, "cvr.csv", ESS + '"A,1",P,Ash,Birch\n')], 2, told


@case
def ess_nobody_is_ranked(folder):
    return ["ess", put(folder, "cvr.csv", ESS + "1,P,undervote,undervote\n")], 2, "cvr.csv: contest Mayor has no candidates: no card ranks anybody"


@case
def ess_empty(folder):
    return ["ess", put(folder, "cvr.csv", "")], 2, "cvr.csv: is empty"


@case
def ess_one_file_without_records(folder):
    words = ["ess", put(folder, "a.csv", ESS + "1,P,Ash,Birch\n"), put(folder, "b.csv", ESS)]
    return words, 2, "b.csv: has no records below its head"


@case
def ess_another_head(folder):
    words = ["ess", put(folder, "a.csv", ESS + "1,P,Ash,Birch\n"), put(folder, "b.csv", "Cast Vote Record\n2\n")]
    return words, 2, "b.csv: line 1: has a different header from the first file"


@case
def ess_line_cut_off(folder):
    return ["ess", put(folder, "cvr.csv", ESS + "1,P,Ash,Birch\n2,P\n")], 2, "cvr.csv: line 3: has 2 fields, and the first line has 4"


@case
def ess_quote_that_is_never_closed(folder):
    return ["ess", put(folder, "cvr.csv", ESS + '1,P,"Ash,Birch\n')], 2, "cvr.csv: line 2: not comma-separated, or truncated: unexpected end of data"


@case
def ess_not_utf_8(folder):
    path = put(folder, "cvr.csv", ESS)
    with open(path, "ab") as file:
        file.write(b"1,P,Pe\xf1a,Birch\n")
    return ["ess", path], 2, "cvr.csv: line 2: isn't UTF-8"


def workbook(folder, rows, change=None):
    import openpyxl
    book = openpyxl.Workbook()
    for row in rows:
        book.active.append(row)
    if change:
        change(book)
    path = os.path.join(folder, "cvr.xlsx")
    book.save(path)
    return path


ROWS = [["id", "1st", "2nd"], ["b_1", "Ash", "Birch"], ["b_2", "Birch", "Ash"]]


@case
def workbook_with_merged_cells(folder):
    told = "cvr.xlsx: sheet1.xml: cells B2:C2 are merged; split them, or save the sheet of the records as CSV (UTF-8)"
    return ["plain", workbook(folder, ROWS, lambda book: book.active.merge_cells("B2:C2"))], 2, told


@case
def workbook_with_several_sheets(folder):
    words = ["plain", workbook(folder, ROWS, lambda book: book.create_sheet("Notes"))]
    return words, 2, "cvr.xlsx: has several sheets; name one with --sheet: Sheet; Notes"


@case
def workbook_with_a_formula(folder):
    path = workbook(folder, [*ROWS, ["b_3", "=B2", "Ash"]])
    return ["plain", path], 2, "cvr.xlsx: sheet Sheet, row 4: cell B4: is =B2; expected a text or a number"


@case
def workbook_with_a_part_of_a_number(folder):
    path = workbook(folder, [*ROWS, [1.5, "Birch", "Ash"]])
    return ["plain", path], 2, "cvr.xlsx: sheet Sheet, row 4: cell A4: is 1.5; expected a whole number or a text"


@case
def workbook_cut_off(folder):
    path = workbook(folder, ROWS)
    with open(path, "r+b") as file:
        file.truncate(os.path.getsize(path) // 2)
    return ["plain", path], 2, "cvr.xlsx: not a zip, or truncated: File is not a zip file"


@case
def workbook_that_is_none(folder):
    path = os.path.join(folder, "cvr.xlsx")
    with zipfile.ZipFile(path, "w") as archive:
        archive.writestr("a.txt", "a")
    return ["plain", path], 2, "cvr.xlsx: not a workbook: \"There is no item named '[Content_Types].xml' in the archive\""


@case
def plain_of_another_form(folder):
    path = put(folder, "a.csv", "id,first,second\nb_1,Ash,Birch\n")
    return ["plain", path], 2, "a.csv: line 1: no column is called 1st or 1, 2nd or 2, .. (the plain form: id, 1st, 2nd, ..)"


@case
def plain_mark_above_the_candidates(folder):
    path = put(folder, "a.csv", "id,1,2,3\nb_1,Ash,Birch,\nb_2,Ash,,Birch\n")
    return ["plain", path], 2, "a.csv: line 3: contest a: a mark has rank 3, and there are 2 candidates; --ranks says how many ranks a ballot has"


@case
def plain_candidate_that_is_not_listed(folder):
    words = ["plain", put(folder, "a.csv", "id,1,2\nb_1,Ash,Brich\n"), "--candidates", put(folder, "names.txt", "Ash\nBirch\n")]
    return [*words], 2, "a.csv: line 2: rank 2: Brich isn't in names.txt"


@case
def plain_column_twice(folder):
    return ["plain", put(folder, "a.csv", "id,1,2,id\nb_1,Ash,Birch,b_1\n")], 2, "a.csv: line 1: several columns are called id"


@case
def plain_no_such_file(folder):
    return ["plain", os.path.join(folder, "none.csv")], 12, "none.csv: no such file"


@case
def plain_a_folder(folder):
    return ["plain", folder], 7, "in: Is a directory"


# ---- PrefLib

PREFLIB = [
    "# TITLE: Mayor", "# DATA TYPE: soi", "# NUMBER ALTERNATIVES: 2", "# NUMBER VOTERS: 3", "# NUMBER UNIQUE ORDERS: 2", "# ALTERNATIVE NAME 1: Ash",
    "# ALTERNATIVE NAME 2: Birch", "2: 1,2", "1: 2",
]


def preflib(folder, *changes):
    text = "\n".join(PREFLIB) + "\n"
    for old, new in changes:
        assert old in text
        text = text.replace(old, new)
    return ["preflib", put(folder, "a.soi", text)]


@case
def preflib_of_before_2022(folder):
    told = ("a.soi: line 1: expected '# DATA TYPE: soi' or another of soc, soi, toc, toi in the header lines (PrefLib's form since 2022; files of "
            "before begin with a number)")
    return ["preflib", put(folder, "a.soi", "2\n1,Ash\n2,Birch\n1,1,1\n1,1,2\n")], 2, told


@case
def preflib_of_another_type(folder):
    return preflib(folder, ("TYPE: soi", "TYPE: cat")), 2, "a.soi: line 2: the data type is cat; expected one of soc, soi, toc, toi"


@case
def preflib_unknown_contest(folder):
    return [*preflib(folder), "--contest", "Clerk"], 2, "a.soi: no contest has the name or id Clerk; there are: Mayor"


@case
def preflib_names_that_look_alike(folder):
    return preflib(folder, ("NAME 2: Birch", "NAME 2: A sh")), 2, "a.soi: line 7: A sh and Ash look alike (case, blanks and letter forms don't count); add what tells them apart"


@case
def preflib_another_alternative(folder):
    return preflib(folder, ("2: 1,2", "2: 1,3")), 2, "a.soi: line 8: 3 isn't an alternative"


@case
def preflib_mark_above_the_candidates(folder):
    told = "a.soi: line 8: contest Mayor: a mark has rank 3, and there are 2; --ranks says how many ranks a ballot has"
    return preflib(folder, ("2: 1,2", "2: 1,2,1")), 2, told


@case
def preflib_cut_off(folder):
    return preflib(folder, ("1: 2\n", "")), 2, "a.soi: NUMBER VOTERS is 3, and there are 2: the file may be cut off"


@case
def preflib_brace_that_is_not_closed(folder):
    return preflib(folder, ("2: 1,2", "2: 1,{2")), 2, "a.soi: line 8: place 2 of the order is neither a number nor numbers in braces"


@case
def preflib_no_order(folder):
    return preflib(folder, ("1: 2", "Ash")), 2, "a.soi: line 9: isn't a number of ballots, a colon and an order"


@case
def preflib_a_name_is_missing(folder):
    told = "a.soi: NUMBER ALTERNATIVES is 2, and there are names of 1"
    return preflib(folder, ("# ALTERNATIVE NAME 2: Birch\n", "")), 2, told


# ---- parts and counts of Dominion's export

BY_OTHER = "--marks made takes the marks that aren't counted too, and --counts ignore doesn't look at these numbers"
PARTS = {"CvrExport.json": None, **{f"CvrExport_{part}.json": {"Version": "5.10", "Sessions": [session(part)]} for part in (1, 3)}}


def told(number, over, under, *marks, is_vote=True):
    """A session whose contest states its overvotes and undervotes."""
    made = session(number, *marks)
    vote = made["Original"]["Cards"][0]["Contests"][0]
    vote |= {"Overvotes": over, "Undervotes": under}
    for mark in vote["Marks"]:
        mark["IsVote"] = is_vote
    return made


@case
def dominion_part_that_is_missing(folder):
    return dominion(folder, files=PARTS), 2, "in: there is no CvrExport_2.json, and CvrExport_3.json is there: a part of the export is missing"


@case
def dominion_first_parts_that_are_missing(folder):
    files = {**PARTS, "CvrExport_1.json": None}
    return dominion(folder, files=files), 2, "in: there is no CvrExport_1.json, no CvrExport_2.json, and CvrExport_3.json is there: a part of the export is missing"


@case
def dominion_part_beside_a_whole(folder):
    files = {"CvrExport_1.json": PARTS["CvrExport_1.json"]}
    return dominion(folder, session(2), files=files), 2, "CvrExport.json: is an export of its own, and CvrExport_1.json is a part of another one; give one export at a time"


@case
def dominion_cards_that_are_missing(folder):
    words = [*dominion(folder, session(1), session(2)), "--cards", "3"]
    return words, 2, "in: 2 cards were read, and --cards says 3: see whether a file is missing, or given twice"


@case
def dominion_overvote_without_marks(folder):
    words = dominion(folder, told(1, 1, 1, (1, 1)))
    return words, 2, f"CvrExport.json: session 1: contest 5: Overvotes is 1, and no rank has too many marks; {BY_OTHER}"


@case
def dominion_overvote_that_is_not_told(folder):
    words = dominion(folder, told(1, 0, 0, (1, 1), (2, 1)))
    return words, 2, f"CvrExport.json: session 1: contest 5: Overvotes is 0, and 1 rank has too many marks; {BY_OTHER}"


@case
def dominion_more_overvotes_than_marks(folder):
    words = dominion(folder, told(1, 4, 0, (1, 1), (2, 1)))
    return words, 2, f"CvrExport.json: session 1: contest 5: Overvotes is 4, and 1 rank has too many marks; {BY_OTHER}"


@case
def dominion_more_overvotes_than_uncounted_marks(folder):
    words = dominion(folder, told(1, 3, 0, (1, 1), (2, 1), is_vote=False))
    return words, 2, f"CvrExport.json: session 1: contest 5: Overvotes is 3, and 1 rank has too many marks; {BY_OTHER}"


@case
def dominion_no_undervote_and_no_mark(folder):
    return dominion(folder, told(1, 0, 0)), 2, f"CvrExport.json: session 1: contest 5: Undervotes is 0, and by the marks it is 1 to 3; {BY_OTHER}"


@case
def dominion_more_undervotes_than_ranks(folder):
    words = dominion(folder, told(1, 0, 3, (1, 1)))
    return words, 2, f"CvrExport.json: session 1: contest 5: Undervotes is 3, and by the marks it is 0 to 2; {BY_OTHER}"


@case
def dominion_uncounted_mark_and_no_undervote(folder):
    words = dominion(folder, told(1, 0, 0, (1, 1), is_vote=False))
    return words, 2, f"CvrExport.json: session 1: contest 5: Undervotes is 0, and by the marks it is 1 to 3; {BY_OTHER}"


def unranked(folder, seats, *sessions):
    contests = {"Version": "5.10", "List": [{"Description": "Board", "Id": 5, "VoteFor": seats, "NumOfRanks": 0}]}
    return dominion(folder, *sessions, files={"ContestManifest.json": contests})


@case
def dominion_contest_that_is_not_ranked(folder):
    words = [*unranked(folder, 1, session(1)), "--contest", "5"]
    return words, 2, "in: contest 5 (Board) isn't ranked (NumOfRanks is 0), so it has no order of candidates; --as plurality takes the one who is marked"


@case
def dominion_plurality_of_two_seats(folder):
    words = [*unranked(folder, 2, session(1)), "--contest", "5", "--as", "plurality"]
    return words, 2, "in: contest 5 (Board) elects 2; --as pairs audits it by pairs of candidates"


@case
def dominion_plurality_of_a_ranked_contest(folder):
    return [*dominion(folder, session(1)), "--contest", "Mayor", "--as", "plurality"], 2, "in: contest 5 (Mayor) is ranked: leave --as plurality away"


@case
def dominion_pairs_that_tie(folder):
    words = [*unranked(folder, 1, session(1, (1, 1)), session(2, (2, 1))), "--as", "pairs"]
    return words, 2, "in: contest 5 (Board) elects 1, and these share the last seat with 1 votes: Ash; Birch"


@case
def dominion_pairs_without_a_loser(folder):
    words = [*unranked(folder, 2, session(1, (1, 1))), "--as", "pairs"]
    return words, 2, "in: contest 5 (Board) elects 2, and has 2 candidates: there is no loser, so no pair"


@case
def dominion_too_few_undervotes_of_two_seats(folder):
    words = [*unranked(folder, 2, told(1, 0, 0, (1, 1))), "--as", "pairs"]
    return words, 2, f"CvrExport.json: session 1: contest 5: Undervotes is 0, and by the marks it is 1 to 1; {BY_OTHER}"


@case
def dominion_overvote_of_one_seat_that_is_not_there(folder):
    words = [*unranked(folder, 1, told(1, 1, 0, (1, 1))), "--as", "plurality"]
    return words, 2, f"CvrExport.json: session 1: contest 5: Overvotes is 1, and no contest has too many marks; {BY_OTHER}"


# ---- Dominion as CSV

def by_columns(folder, *rows, ranks=2, version="5.10.50.85", **other):
    title = other.get("title", f"Mayor (Number of positions=1, Number of ranks={ranks})")
    choices = other.get("choices", [f"{name}({rank})" for rank in (1, 2) for name in ("Ash", "Birch")])
    names = other.get("names", ["CvrNumber", "TabulatorNum", "BatchId", "RecordId", "ImprintedId"])
    blank = [""] * len(names)
    head = [["Town", version], [*blank, *[title] * len(choices)], [*blank, *choices], [*names, *[""] * len(choices)]]
    text = "".join(",".join(f'"{cell}"' for cell in row) + "\n" for row in [*head, *rows])
    return ["dominion-csv", put(folder, "a.csv", text)]


ONE, TWO = ["1", "4", "1", "1", "4-1-1", "1", "0", "0", "1"], ["2", "4", "1", "2", "4-1-2", "1", "0", "0", "1"]


@case
def dominion_csv_of_another_version(folder):
    return by_columns(folder, ONE, version="4.1"), 2, "a.csv: line 1: the version, the second field, is 4.1; expected a Version 5, such as 5.10.50.85 (Dominion's CSV)"


@case
def dominion_csv_cut_off_at_its_head(folder):
    return ["dominion-csv", put(folder, "a.csv", "Town,5.10.50.85\n")], 2, "a.csv: has 1 of the 4 lines at its head"


@case
def dominion_csv_without_batch(folder):
    words = by_columns(folder, ONE, names=["CvrNumber", "TabulatorNum", "Batch", "RecordId", "ImprintedId"])
    return words, 2, "a.csv: the four lines at the head: no column is called BatchId in the fourth (Dominion's CSV)"


@case
def dominion_csv_title_without_seats(folder):
    told = "a.csv: the four lines at the head: column 6: Mayor doesn't end in (Vote For=1) or (Number of positions=1, Number of ranks=4)"
    return by_columns(folder, ONE, title="Mayor"), 2, told


@case
def dominion_csv_choice_without_a_rank(folder):
    told = "a.csv: the four lines at the head: column 7: Birch doesn't end in a rank from 1 to 2 in brackets, as in Ash(1)"
    return by_columns(folder, ONE, choices=["Ash(1)", "Birch", "Ash(2)", "Birch(2)"]), 2, told


@case
def dominion_csv_choice_twice(folder):
    told = "a.csv: the four lines at the head: column 7: a second column is Ash, rank 1 of Mayor"
    return by_columns(folder, ONE, choices=["Ash(1)", "Ash(1)", "Ash(2)", "Birch(2)"]), 2, told


@case
def dominion_csv_short_line(folder):
    return by_columns(folder, ONE, TWO[:-1]), 2, "a.csv: line 6: has 8 fields, and its head has 9"


@case
def dominion_csv_two_in_a_cell(folder):
    told = "a.csv: line 5: contest Mayor, column 6: is 2; expected 1, 0, or nothing if the card doesn't have the contest"
    return by_columns(folder, [*ONE[:5], "2", "0", "0", "1"]), 2, told


@case
def dominion_csv_cards_that_are_missing(folder):
    told = "a.csv: CvrNumber goes from 1 to 3 on 2 cards: cards are missing or duplicated; --counts ignore takes what is there"
    return by_columns(folder, ONE, ["3", *TWO[1:]]), 2, told


@case
def dominion_csv_that_begins_later(folder):
    told = "a.csv: CvrNumber goes from 2 to 2 on 1 cards: cards are missing or duplicated; --counts ignore takes what is there"
    return by_columns(folder, TWO), 2, told


@case
def dominion_csv_withheld_without_an_imprint(folder):
    return by_columns(folder, ["1", "4", "1", "X", "4-2-1", *ONE[5:]]), 2, "a.csv: line 5: RecordId is X, and ImprintedId isn't 4-1- and a number"


@case
def dominion_csv_two_cards_of_one_id(folder):
    return by_columns(folder, ONE, ["2", *ONE[1:]]), 2, "a.csv: line 6: a second card has the id 4_1_1"


@case
def dominion_csv_of_two_winners(folder):
    words = [*by_columns(folder, ONE, title="Mayor (Number of positions=2, Number of ranks=2)"), "--contest", "Mayor"]
    return words, 2, "a.csv: contest Mayor elects 2, so it isn't an instant-runoff contest; --as pairs audits it by pairs of candidates"


@case
def dominion_csv_another_head(folder):
    words = by_columns(folder, ONE)
    other = put(folder, "b.csv", open(os.path.join(folder, "a.csv")).read().replace("Birch", "Cedar"))
    return [*words, other], 2, "b.csv: has a different header from the first file"


# ---- Hart

def hart(folder, *cards):
    for number, card in enumerate(cards, 1):
        put(folder, f"{number}.xml", card)
    return ["hart", folder]


def card_of(number, options, batch=1, contest="<Name>Mayor</Name><Id>m</Id>", root="Cvr"):
    contests = f"<Contests><Contest>{contest}<Options>{options}</Options></Contest></Contests>"
    return f"<{root}>{contests}<BatchSequence>{number}</BatchSequence><BatchNumber>{batch}</BatchNumber></{root}>"


def option_of(name, value):
    return f"<Option><Name>{name}</Name><Id>{name}</Id><Value>{value}</Value></Option>"


BOTH = option_of("Ash", "10") + option_of("Birch", "01")


@case
def hart_without_files(folder):
    put(folder, "a.txt", "")
    return ["hart", folder], 2, "in: has no .xml file; expected a file for each card (Hart's CVR folders)"


@case
def hart_missing_folder(folder):
    return ["hart", os.path.join(folder, "none")], 12, "none: no such file"


@case
def hart_missing_folder_beside_a_good_one(folder):
    return [*hart(folder, card_of(1, BOTH)), os.path.join(folder, "none")], 12, "none: no such file"


@case
def hart_empty_folder_beside_a_good_one(folder):
    return [*hart(folder, card_of(1, BOTH)), empty(folder)], 2, "empty: has no .xml file; expected a file for each card (Hart's CVR folders)"


@case
def hart_candidate_of_two_names(folder):
    words = hart(folder, card_of(1, BOTH), card_of(2, BOTH.replace("<Name>Ash", "<Name>Elm")))
    return words, 2, "2.xml: contest m: the candidate Ash is called Elm, and Ash on an earlier card"


@case
def hart_of_another_root(folder):
    return hart(folder, card_of(1, BOTH, root="Ballot")), 2, "1.xml: is a Ballot; expected a Cvr (Hart's form)"


@case
def hart_cut_off(folder):
    return hart(folder, card_of(1, BOTH), card_of(2, BOTH)[:-4]), 2, "2.xml: not XML, or truncated: unclosed token: line 1, column 280"


@case
def hart_value_that_is_none(folder):
    return hart(folder, card_of(1, option_of("Ash", "12"))), 2, "1.xml: contest m: the Value of Ash is 12; expected a 0 or 1 for each rank"


@case
def hart_option_without_an_id(folder):
    return hart(folder, card_of(1, "<Option><Name>Ash</Name><Value>10</Value></Option>")), 2, "1.xml: contest m: Option has no Id"


@case
def hart_without_a_batch(folder):
    return hart(folder, card_of(1, BOTH, batch="")), 2, "1.xml: Cvr has no BatchNumber"


@case
def hart_contest_of_two_names(folder):
    words = hart(folder, card_of(1, BOTH), card_of(2, BOTH, contest="<Name>Mayer</Name><Id>m</Id>"))
    return words, 2, "2.xml: contest m: is called Mayer, and Mayor on an earlier card"


@case
def hart_contest_twice_on_a_card(folder):
    twice = card_of(1, BOTH).replace("<Contests>", "<Contests><Contest><Name>Mayor</Name><Id>m</Id><Options/></Contest>")
    return hart(folder, twice), 2, "1.xml: contest m: is on the card twice"


@case
def hart_two_cards_of_one_id(folder):
    return hart(folder, card_of(1, BOTH), card_of(1, BOTH)), 2, "2.xml: a second card has the id 1_1"


@case
def hart_no_ranked_contest(folder):
    words = hart(folder, card_of(1, option_of("Ash", "1")))
    return words, 2, "in: no contest to convert; name one with --contest: m (Mayor): isn't ranked (each Value is one digit)"


@case
def hart_pairs_without_seats(folder):
    words = [*hart(folder, card_of(1, option_of("Ash", "1"))), "--as", "pairs"]
    return words, 2, "1.xml: contest m: the export doesn't say how many the contest elects: --seats says it"


# ---- Clear Ballot

CLEAR = "RowNumber,BoxID,BoxPosition,BallotID,Status,Remade,Choice_1_1:Mayor:Vote For 1:Ash:NON,Choice_2_1:Mayor:Vote For 1:Birch:NON\n"


def clear_ballot(folder, *rows, head=CLEAR):
    return ["clear-ballot", put(folder, "a.csv", head + "".join(row + "\n" for row in rows)), "--contest", "Mayor"]


@case
def clear_ballot_without_a_contest(folder):
    words = clear_ballot(folder, "1,b,1,1,,,1,2")[:2]
    return words, 2, "a.csv: no contest to convert; name one with --contest: Mayor: isn't said to be ranked (Clear Ballot's form doesn't say it of any)"


@case
def clear_ballot_names_that_look_alike(folder):
    words = clear_ballot(folder, "1,b,1,1,,,1,2", head=CLEAR.replace(":Birch:", ":ASH:"))
    return words, 2, "a.csv: line 1: column 8: ASH and Ash of Mayor look alike (case, blanks and letter forms don't count); write one of them for both in the head, or add what tells them apart"


@case
def clear_ballot_of_another_form(folder):
    return clear_ballot(folder, head="id,1st\n"), 2, "a.csv: line 1: no column begins with Choice_ (Clear Ballot's form)"


@case
def clear_ballot_choice_without_a_party(folder):
    told = ("a.csv: line 1: column 7: Choice_1_1:Mayor:Vote For 1:Ash isn't Choice_, contest, Vote For and a number, choice and party with colons between "
            "(Clear Ballot's form)")
    return clear_ballot(folder, head=CLEAR.replace(":Ash:NON", ":Ash")), 2, told


@case
def clear_ballot_row_that_is_missing(folder):
    told = "a.csv: line 3: RowNumber is 3 after 1: rows are missing or duplicated; --counts ignore takes what is there"
    return clear_ballot(folder, "1,b,1,1,,,1,2", "3,b,3,3,,,1,2"), 2, told


@case
def clear_ballot_cell_that_is_no_rank(folder):
    told = "a.csv: line 2: contest Mayor, column 7: is 1;2; expected a number from 0 up, or nothing if the card doesn't have the contest"
    return clear_ballot(folder, "1,b,1,1,,,1;2,2"), 2, told


@case
def clear_ballot_plurality_of_ranks(folder):
    told = "a.csv: line 2: contest Mayor, column 8: is 2, a rank: the contest is ranked, so leave --as plurality away"
    return [*clear_ballot(folder, "1,b,1,1,,,1,2"), "--as", "plurality"], 2, told


@case
def clear_ballot_plurality_without_a_contest(folder):
    words = [*clear_ballot(folder, "1,b,1,1,,,1,0")[:2], "--as", "plurality"]
    return words, 2, "a.csv: no contest to convert; name one with --contest: Mayor: isn't said to be ranked (Clear Ballot's form doesn't say it of any)"


@case
def clear_ballot_without_boxes(folder):
    told = "a.csv: line 1: no column is called BoxID; --id says which the card's id is made of"
    return clear_ballot(folder, head=CLEAR.replace("BoxID", "Box")), 2, told


# ---- NIST SP 1500-103 as XML

def xml(folder, body, root="CastVoteRecordReport"):
    return ["nist", put(folder, "a.xml", f"<{root}>{body}</{root}>")]


@case
def nist_xml_of_another_root(folder):
    return xml(folder, "<Version>1.0.0</Version>", "Report"), 2, "a.xml: the root is Report; expected CastVoteRecordReport (NIST SP 1500-103)"


@case
def nist_xml_without_version(folder):
    return xml(folder, ""), 2, "a.xml: Version is missing; expected 1.0.0 (NIST SP 1500-103)"


@case
def nist_xml_cut_off(folder):
    return ["nist", put(folder, "a.xml", "<CastVoteRecordReport><Version>1.0")], 2, "a.xml: not XML, or truncated: no element found: line 1, column 34"


@case
def nist_xml_entity_of_another_file(folder):
    text = '<!DOCTYPE x [<!ENTITY a SYSTEM "/etc/hostname">]><CastVoteRecordReport><Version>&a;</Version></CastVoteRecordReport>'
    return ["nist", put(folder, "a.xml", text)], 2, "a.xml: not XML, or truncated: undefined entity &a;: line 1, column 80"


@case
def nist_xml_entities_that_grow(folder):
    entities = "".join(f'<!ENTITY e{k} "{f"&e{k - 1};" * 10 if k else "x" * 100}">' for k in range(9))
    text = f"<!DOCTYPE x [{entities}]><CastVoteRecordReport><Version>&e8;</Version></CastVoteRecordReport>"
    told = "a.xml: not XML, or truncated: limit on input amplification factor (from DTD and entities) breached: line 1, column "
    return ["nist", put(folder, "a.xml", text)], 2, told + str(text.index("&e8;"))


@case
def nist_xml_without_elections(folder):
    return xml(folder, "<Version>1.0.0</Version>"), 2, "a.xml: has no list Election"


# ---- words in cells

@case
def ess_word_that_is_not_known(folder):
    text = "Cast Vote Record,Mayor Choice 1 of 2,Mayor Choice 2 of 2\n1,Ash,Birch\n2,over vote,Birch\n"
    told = ("a.csv: line 3: rank 1: over vote looks like a word for an overvote, an undervote or a write-in, but isn't a known one; --word "
            "'over vote=overvote' says what it is: overvote, undervote, write-in or candidate")
    return ["ess", put(folder, "a.csv", text)], 2, told


@case
def plain_blank_that_is_not_known(folder):
    told = ("a.csv: line 2: rank 2: Blank looks like a word for an overvote, an undervote or a write-in, but isn't a known one; --word 'Blank=overvote' "
            "says what it is: overvote, undervote, write-in or candidate")
    return ["plain", put(folder, "a.csv", "id,1,2\nb_1,Ash,Blank\n")], 2, told


@case
def plain_write_in_with_a_name(folder):
    told = ("a.csv: line 2: rank 1: Write-in: Jo looks like a word for an overvote, an undervote or a write-in, but isn't a known one; --word "
            "'Write-in: Jo=overvote' says what it is: overvote, undervote, write-in or candidate")
    return ["plain", put(folder, "a.csv", "id,1,2\nb_1,Write-in: Jo,Ash\n")], 2, told


@case
def plain_name_in_capitals(folder):
    told = ("a.csv: line 3: rank 1: ASH and Ash look alike (case, blanks and letter forms don't count); --word 'ASH=Ash' says that they are one, 'ASH=candidate' that they are two")
    return ["plain", put(folder, "a.csv", "id,1,2\nb_1,Ash,Birch\nb_2,ASH,Birch\n")], 2, told


@case
def plain_name_with_another_blank(folder):
    told = ("a.csv: line 3: rank 2: Ann  Lee and Ann Lee look alike (case, blanks and letter forms don't count); "
            "--word 'Ann  Lee=Ann Lee' says that they are one, 'Ann  Lee=candidate' that they are two")
    return ["plain", put(folder, "a.csv", "id,1,2\nb_1,Ann Lee,Birch\nb_2,Birch,Ann  Lee\n")], 2, told


@case
def plain_name_with_other_letter_forms(folder):
    told = ("a.csv: line 3: rank 1: Zoe\u0308 and Zo\u00eb look alike (case, blanks and letter forms don't count); --word 'Zoe\u0308=Zo\u00eb' says that they are "
            "one, 'Zoe\u0308=candidate' that they are two")
    return ["plain", put(folder, "a.csv", "id,1,2\nb_1,Zo\u00eb,Birch\nb_2,Zoe\u0308,Birch\n")], 2, told


@case
def listed_names_that_look_alike(folder):
    listed = put(folder, "listed.txt", "Ash\nBirch\nash\n")
    told = "listed.txt: line 3: ash and Ash look alike (case, blanks and letter forms don't count); --word 'ash=candidate' says that they are two"
    return ["plain", put(folder, "a.csv", "id,1,2\nb_1,Ash,Birch\n"), f"--candidates={listed}"], 2, told


@case
def a_word_without_a_meaning(folder):
    told = "--word needs a cell, = and what it means, such as 'over vote=overvote'; it has Ash"
    return ["plain", put(folder, "a.csv", "id,1\nb_1,Ash\n"), "--word", "Ash"], 1, told


@case
def preflib_alternative_like_a_word(folder):
    told = ("a.soi: line 7: over vote looks like a word for an overvote, an undervote or a write-in, but isn't a known one; --word 'over vote=overvote' "
            "says what it is: overvote, undervote, write-in or candidate")
    return preflib(folder, ("ALTERNATIVE NAME 2: Birch", "ALTERNATIVE NAME 2: over vote")), 2, told


@case
def preflib_order_that_is_not_complete(folder):
    told = "a.soi: line 9: has 1 of the 2 alternatives, and orders of this data type have all"
    return preflib(folder, ("TYPE: soi", "TYPE: soc")), 2, told


# ---- RCTab, seen files

@case
def rctab_of_another_form(folder):
    return ["rctab", put(folder, "a.csv", "id,first\n1,Ash\n")], 2, "a.csv: line 1: no column is called Rank 1 or rank1 (RCTab's form, and the unified one)"


@case
def rctab_without_ids(folder):
    told = ("a.csv: line 1: no column is called Tabulator Id, Batch Id, Record Id or ballotid, ballot_id, ballot id, cast vote record, cvr id, id; --id says "
            "which the card's id is made of")
    return ["rctab", put(folder, "a.csv", "precinct,Rank 1\nP,Ash\n")], 2, told


def seen(folder, text, *more, form="seen"):
    ballots = put(folder, "b.raire", "1\nContest,Mayor,2,Ash,Birch\nMayor,b_1,Ash\n")
    return [form, put(folder, "seen.csv", text), "--ballots", ballots, *more]


@case
def seen_card_twice(folder):
    return seen(folder, "b_1,ballot,Ash\nb_1,ballot,Ash\n"), 2, "seen.csv: record 2: the card b_1 is listed twice"


@case
def seen_nobody_who_is_a_candidate(folder):
    return seen(folder, "b_1,ballot,ash\n"), 2, "seen.csv: record 1: ash isn't a candidate of contest Mayor in b.raire"


@case
def seen_without_a_reading(folder):
    return seen(folder, "b_1,\n"), 2, "seen.csv: record 1: the card b_1 has no reading"


@case
def seen_of_a_contest_without_a_reading(folder):
    return seen(folder, "b_1,Mayor,\n"), 2, "seen.csv: record 1: the card b_1 has no reading: neither ballot, marks nor missing comes after it"


@case
def seen_quote_that_is_not_closed(folder):
    return seen(folder, 'b_1,ballot,"Ash\nb_2,ballot,Ash\n'), 2, "seen.csv: record 1: has a quote that isn't closed in its line"


@case
def marks_without_a_candidate(folder):
    told = "seen.csv: record 1: after marks, expected pairs of a rank and a candidate; there are 3 fields"
    return seen(folder, "b_1,marks,1,Ash,2\n", form="marks"), 2, told


@case
def marks_of_no_rank(folder):
    return seen(folder, "b_1,marks,0,Ash\n", form="marks"), 2, "seen.csv: record 1: 0 isn't a rank"


@case
def marks_of_a_write_in_who_is_no_candidate(folder):
    told = "seen.csv: record 1: a write-in is marked, and contest Mayor of b.raire has no candidate for write-ins; --write-ins drop passes over them"
    return seen(folder, "b_1,marks,1,write-in\n", form="marks"), 2, told


@case
def marks_without_ballots(folder):
    return seen(folder, "b_1,marks\n", form="marks")[:2], 1, "marks needs the candidates: --ballots; ./raire help convert lists its words"


@case
def without_somebody_else(folder):
    return seen(folder, "b_1,ballot,Ash\n", "--without", "Cedar"), 2, "seen.csv: --without names Cedar, who isn't a candidate; there are: Ash; Birch"


@case
def skips_of_plurality(folder):
    words = [*dominion(folder, session(1)), "--as", "plurality", "--skips", "one"]
    return words, 1, "--skips doesn't apply with --as plurality; ./raire help convert lists its words"


# ---- words

@case
def an_option_of_another_form(folder):
    words = [*preflib(folder), "--sheet", "Sheet1"]
    return words, 1, "--sheet doesn't apply to preflib; ./raire help convert lists its words"


@case
def an_option_twice(folder):
    return [*preflib(folder), "--title", "a", "--title", "b"], 1, "--title is given twice; ./raire help convert lists its words"


@case
def ranks_that_are_no_number(folder):
    return [*preflib(folder), "--ranks", "0"], 1, "--ranks needs a number from 1 to 1000; ./raire help convert lists its words"
