"""Counts exports of cast vote records plainly, independently of office/. Each file is read whole, and each ballot by the rules of docs/help/convert.txt.

`counted` gives for each contest, by its key, the names of its candidates and who is ranked on each card; write-ins that are merged are called WRITE_IN.
"""
import csv
import io
import json
import os
import re
import xml.dom.minidom
import zipfile

WRITE_IN, OVERVOTE, NOBODY = "write-ins, merged", "overvote", ""
DEFAULTS = {"overvotes": "end", "skips": "pass", "repeats": "pass", "write_ins": "merge", "marks": "counted"}


def ranked(places, rules):
    """Who is ranked, by what is marked at each rank: a set of names; a write-in is a pair of WRITE_IN and its field."""
    words = [OVERVOTE if len(place) > 1 else next(iter(place), NOBODY) for place in places]
    while words and words[-1] == NOBODY:
        words.pop()
    words = [word[0] if isinstance(word, tuple) else word for word in words]
    is_out = [word in (OVERVOTE, NOBODY) or (word == WRITE_IN and rules["write_ins"] == "drop") for word in words]
    ends = [len(words)]
    if rules["overvotes"] == "end":
        ends += [place for place, word in enumerate(words) if word == OVERVOTE]
    row = {"one": 1, "two": 2}.get(rules["skips"])
    if row:
        ends += [place for place in range(len(words)) if words[place:place + row] == [NOBODY] * row]
    if rules["repeats"] == "end":
        ends += [place for place, word in enumerate(words) if not is_out[place] and word in words[:place]]
    return tuple(dict.fromkeys(word for place, word in enumerate(words[:min(ends)]) if not is_out[place]))


class Counted:
    def __init__(self, names):
        self.names, self.cards = names, {}


def put(marks, rank, name):
    while len(marks) < rank:
        marks.append(set())
    marks[rank - 1].add(name)


def whole(paths):
    """The name and the bytes of each file that is named, or that is in a folder or a zip that is named."""
    for path in paths:
        if os.path.isdir(path):
            yield from whole(os.path.join(path, name) for name in os.listdir(path))
        elif path.endswith(".zip"):
            with zipfile.ZipFile(path) as archive:
                yield from ((os.path.basename(name), archive.read(name)) for name in archive.namelist() if not name.endswith("/"))
        else:
            with open(path, "rb") as file:
                yield os.path.basename(path), file.read()


def dominion(paths, rules, _):
    files = {name: json.loads(data.decode("utf-8-sig")) for name, data in whole(paths) if name.endswith(".json")}
    people = {(each["ContestId"], each["Id"]): each for each in files["CandidateManifest.json"]["List"]}
    contests = {}
    for each in files["ContestManifest.json"]["List"]:
        names = {str(c): WRITE_IN if person["Type"] == "WriteIn" else person["Description"] for (contest, c), person in people.items() if contest == each["Id"]}
        contests[str(each["Id"])] = Counted(names)
    for name, file in files.items():
        for session in file["Sessions"] if name.startswith("CvrExport") else []:
            record = session["RecordId"]
            if record == "X":
                record = int(re.search(r"_0*(\d+)\*", session["ImageMask"])[1])
            version = session["Original"] if session["Original"]["IsCurrent"] else session["Modified"]
            for contest in version.get("Contests") or sum((card["Contests"] for card in version.get("Cards", [])), []):
                marks, clear = [], []
                for mark in contest["Marks"]:
                    is_write_in = people[contest["Id"], mark["CandidateId"]]["Type"] == "WriteIn"
                    name = (WRITE_IN, mark["CandidateId"], mark.get("WriteinIndex")) if is_write_in else str(mark["CandidateId"])
                    if mark["IsVote"] if rules["marks"] == "counted" else not mark["IsAmbiguous"]:
                        put(marks, mark["Rank"], name)
                    if mark["IsVote"] or not mark["IsAmbiguous"]:
                        put(clear, mark["Rank"], name)
                if contest.get("Overvotes") and rules["marks"] == "counted" and max(map(len, marks), default=0) < 2:
                    for rank in (rank for rank, place in enumerate(clear, 1) if len(place) > 1):
                        for name in clear[rank - 1]:
                            put(marks, rank, name)
                contests[str(contest["Id"])].cards[f"{session['TabulatorId']}_{session['BatchId']}_{record}"] = ranked(marks, rules)
    return contests


def nist(paths, rules, made_of):
    contests = {}
    for _, data in whole(paths):
        report = json.loads(data.decode("utf-8-sig")) if not data.lstrip().startswith(b"<") else of_xml(xml.dom.minidom.parseString(data).documentElement)
        for election in report["Election"]:
            people = {each["@id"]: each["Name"] for each in election.get("Candidate", [])}
            for contest in election["Contest"]:
                names = {}
                for each in contest["ContestSelection"]:
                    names[each["@id"]] = WRITE_IN if each.get("IsWriteIn") else " / ".join(people[c] for c in each.get("CandidateIds", []))
                contests.setdefault(contest["@id"], Counted(names))
        for record in report["CVR"]:
            card = "_".join(str(record[name]) for name in made_of or ("BatchId", "BatchSequenceId"))
            snapshot = {each["@id"]: each for each in record["CVRSnapshot"]}[record["CurrentSnapshotId"]]
            for contest in snapshot.get("CVRContest", []):
                marks, names = [], contests[contest["ContestId"]].names
                for selection in contest.get("CVRContestSelection", []):
                    for place, position in enumerate(selection["SelectionPosition"]):
                        if position["HasIndication"] == "yes" and (rules["marks"] == "made" or position.get("IsAllocable") != "no"):
                            chosen = selection["ContestSelectionId"]
                            name = (WRITE_IN, chosen, position.get("Position", place)) if names[chosen] == WRITE_IN else chosen
                            put(marks, position.get("Rank", selection.get("Rank", 1)), name)
                contests[contest["ContestId"]].cards[card] = ranked(marks, rules)
    return contests


def of_xml(node):
    """A report in XML, in the form that its JSON has."""
    below = [each for each in node.childNodes if each.nodeType == each.ELEMENT_NODE]
    if not below and not node.hasAttribute("ObjectId"):
        text = "".join(each.data for each in node.childNodes)
        return {"CandidateIds": str.split, "Rank": int, "Position": int, "IsWriteIn": "true".__eq__}.get(node.localName, str)(text)
    value = {"@id": node.getAttribute("ObjectId")}
    for each in below:
        if each.localName in ("Election", "Candidate", "Contest", "ContestSelection", "CVR", "CVRSnapshot", "CVRContest", "CVRContestSelection", "SelectionPosition"):
            value.setdefault(each.localName, []).append(of_xml(each))
        else:
            value[each.localName] = of_xml(each)
    if node.localName == "Contest":
        value.setdefault("ContestSelection", [])
    return value


def table(path):
    with open(path, encoding="utf-8-sig", newline="") as file:
        return list(csv.reader(file))


def dominion_csv(paths, rules, _):
    contests = {}
    for path in paths:
        _, titles, choices, head, *rows = table(path)
        for title in titles:
            if "Number of ranks" in title:
                contests.setdefault(title.rsplit(" (", 1)[0], Counted({}))
        for row in rows:
            given = dict(zip(head, row))
            card = given["ImprintedId"].strip('="').replace("-", "_")
            marks = {}
            for column, (title, choice) in enumerate(zip(titles, choices)):
                if "Number of ranks" in title and row[column]:
                    name, rank = choice[:-1].rsplit("(", 1)
                    title = title.rsplit(" (", 1)[0]
                    ranks = marks.setdefault(title, [])
                    name = WRITE_IN if name == "Write-in" else name
                    contests[title].names[name] = name
                    if row[column] == "1":
                        put(ranks, int(rank), (WRITE_IN, column) if name == WRITE_IN else name)
            for title, ranks in marks.items():
                contests[title].cards[card] = ranked(ranks, rules)
    return contests


def hart(paths, rules, _):
    contests, found = {}, []
    for path in paths:
        if os.path.isdir(path):
            found += [open(os.path.join(where, name), "rb").read() for where, _, names in os.walk(path) for name in sorted(names)]
        else:
            with zipfile.ZipFile(path) as archive:
                found += [archive.read(name) for name in sorted(archive.namelist()) if name.endswith(".xml")]

    def text(node, name):
        return next(each.firstChild.data for each in node.childNodes if each.localName == name)

    for data in found:
        root = xml.dom.minidom.parseString(data).documentElement
        card = f"{text(root, 'BatchNumber')}_{text(root, 'BatchSequence')}"
        for contest in root.getElementsByTagName("Contest"):
            key, marks = text(contest, "Id"), []
            if key == "_other":
                continue
            counted = contests.setdefault(key, Counted({}))
            for place, option in enumerate(contest.getElementsByTagName("Option")):
                is_write_in = bool(option.getElementsByTagName("WriteInData"))
                name = WRITE_IN if is_write_in else text(option, "Id")
                counted.names[name] = WRITE_IN if is_write_in else text(option, "Name")
                for rank, digit in enumerate(text(option, "Value"), 1):
                    if digit == "1":
                        put(marks, rank, (WRITE_IN, place) if is_write_in else name)
            counted.cards[card] = ranked(marks, rules)
    return contests


def clear_ballot(paths, rules, made_of):
    contests = {}
    for path in paths:
        head, *rows = table(path)
        for row in rows:
            given, marks = dict(zip(head, row)), {}
            card = "_".join(given[name] for name in made_of or ("BoxID", "BoxPosition"))
            for column, (name, value) in enumerate(given.items()):
                if name.startswith("Choice_") and value and ":Sheriff:" not in name:
                    _, title, _, choice, _ = name.split(":")
                    choice = WRITE_IN if choice == "Write-in" else choice
                    contests.setdefault(title, Counted({})).names[choice] = choice
                    ranks = marks.setdefault(title, [])
                    if value != "0":
                        put(ranks, int(value), (WRITE_IN, column) if choice == WRITE_IN else choice)
            for title, ranks in marks.items():
                contests[title].cards[card] = ranked(ranks, rules)
    return contests


def rctab(paths, rules, made_of):
    def columns_of(path, head):
        found = [(int(re.search(r"\d+", name)[0]), column) for column, name in enumerate(head) if re.fullmatch(r"rank ?\d+", name, re.IGNORECASE)]
        return {os.path.splitext(os.path.basename(paths[0]))[0]: [column for _, column in sorted(found)]}
    head = next(row for _, row in sheets(paths))
    own = ["ballotID"] if "ballotID" in head else ["Tabulator Id", "Batch Id", "Record Id"]
    return sheet(paths, rules, made_of or own, columns_of, True)


def chosen(paths, write_ins):
    """For each contest of Dominion's JSON that isn't ranked: its seats, the names of its candidates, and who is chosen on each card."""
    files = {name: json.loads(data.decode("utf-8-sig")) for name, data in whole(paths)}
    contests = {}
    for each in files["ContestManifest.json"]["List"]:
        people = [person for person in files["CandidateManifest.json"]["List"] if person["ContestId"] == each["Id"]]
        names = {person["Id"]: WRITE_IN if person["Type"] == "WriteIn" else str(person["Id"]) for person in people}
        if each["NumOfRanks"] == 0:
            contests[each["Id"]] = each["VoteFor"], names, {}
    for session in files["CvrExport.json"]["Sessions"]:
        for vote in session["Original"]["Cards"][0]["Contests"]:
            if vote["Id"] in contests:
                seats, names, cards = contests[vote["Id"]]
                marked = {names[mark["CandidateId"]] for mark in vote["Marks"]}
                out = {WRITE_IN} if write_ins == "drop" else set()
                cards[f"1_1_{session['RecordId']}"] = set() if len(vote["Marks"]) > seats else marked - out
    return contests


def sheets(paths):
    for path in paths:
        if path.endswith(".xlsx"):
            import openpyxl
            for row in openpyxl.load_workbook(path).worksheets[0].iter_rows(values_only=True):
                yield path, ["" if value is None else str(value).strip() for value in row]
        else:
            with open(path, encoding="utf-8-sig", newline="") as file:
                for row in csv.reader(io.StringIO(file.read())):
                    yield path, [value.strip() for value in row]


def meant(cell, rank):
    """What a cell means."""
    if cell.lower() in ("", "undervote", "skipped"):
        return set()
    if cell.lower() == "overvote":
        return {"one", "another"}
    return {(WRITE_IN, rank)} if cell.lower() in ("write-in", "writein", "uwi", "undeclared write-ins") else {cell}


def sheet(paths, rules, made_of, columns_of, is_everywhere):
    contests, heads = {}, {}
    for path, row in sheets(paths):
        if path not in heads:
            heads[path] = row
            continue
        head = [name.lower() for name in heads[path]]
        card = "_".join(row[head.index(name.lower())] for name in made_of)
        for contest, columns in columns_of(path, heads[path]).items():
            cells = [row[column] for column in columns]
            if any(row) and (is_everywhere or any(cells)):
                places = [meant(cell, rank) for rank, cell in enumerate(cells)]
                contests.setdefault(contest, Counted({})).cards[card] = ranked(places, rules)
                for name in (next(iter(place)) for place in places if len(place) == 1):
                    name = name[0] if isinstance(name, tuple) else name
                    contests[contest].names[name] = name
    return contests


def ess(paths, rules, made_of):
    def columns_of(_, head):
        columns = {}
        for column, name in enumerate(head):
            found = re.search(r"choice \d+ of \d+|\d+(st|nd|rd|th) choice", name, re.IGNORECASE)
            if found:
                contest = " ".join((name[:found.start()] + name[found.end():]).split())
                columns.setdefault(contest, []).append((int(re.search(r"\d+", found[0])[0]), column))
        return {contest: [column for _, column in sorted(places)] for contest, places in columns.items()}
    return sheet(paths, rules, made_of or ["Cast Vote Record"], columns_of, False)


def plain(paths, rules, made_of):
    def columns_of(path, head):
        found = [(int(re.search(r"\d+", name)[0]), column) for column, name in enumerate(head) if re.fullmatch(r"(rank |choice )?\d+(st|nd|rd|th)?", name, re.IGNORECASE)]
        return {os.path.splitext(os.path.basename(paths[0]))[0]: [column for _, column in sorted(found)]}
    return sheet(paths, rules, made_of or ["id"], columns_of, True)


def preflib(paths, rules, made_of):
    with open(paths[0], encoding="utf-8-sig") as file:
        text = file.read()
    names = dict(re.findall(r"^# ALTERNATIVE NAME (\d+): *(.*?) *$", text, re.MULTILINE))
    called = {number: WRITE_IN if name.lower() == "write-in" else name for number, name in names.items()}
    title = re.search(r"^# TITLE: *(.*?) *$", text, re.MULTILINE)[1] or os.path.splitext(os.path.basename(paths[0]))[0]
    contest = Counted({name: name for name in called.values()})
    for count, order in re.findall(r"^(\d+):(.*)$", text, re.MULTILINE):
        places = [set(re.findall(r"\d+", place)) for place in re.findall(r"\{[^}]*\}|\d+", order)]
        places = [{(WRITE_IN, number) if called[number] == WRITE_IN else called[number] for number in place} for place in places]
        for _ in range(int(count)):
            contest.cards[f"{(made_of or ['ballots'])[0]}_{len(contest.cards) + 1}"] = ranked(places, rules)
    return {title: contest}


READERS = {
    "dominion": dominion, "dominion-csv": dominion_csv, "hart": hart, "clear-ballot": clear_ballot, "nist": nist, "ess": ess, "plain": plain, "rctab": rctab,
    "preflib": preflib,
}


def counted(form, paths, rules, made_of=None):
    return READERS[form](paths, {**DEFAULTS, **rules}, made_of)
