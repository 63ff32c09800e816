"""Random exports, in every form that ./raire convert reads, with every rule in them."""
import csv
import functools
import json
import os
import zipfile
from xml.sax.saxutils import escape

NAMES = [
    "Ash", "Birch", "Cedar", "Elm", "Fir", "Peña, Ana", "O\u2019Neil \u201cBud\u201d", 'Jo "Jo" Li', "\u6797", "Rep. Smith, J. (54)", "Żółw", "Pena Ana", "x" * 70, "A/B",
    "x" * 64, "candidate 3",
]
CONTESTS = ["Mayor", "Council, seat 1", "Señor de la Colina", "Board"]
WRITE_IN = "Write-in"


class Drawn:
    """Contests with their candidates, and the marks on each card by rank."""

    def __init__(self, chance, most_contests=3, most_at_a_rank=3, skips=True):
        self.chance = chance
        self.contests = {}
        for name in chance.sample(CONTESTS, chance.randint(1, most_contests)):
            self.contests[name] = chance.sample(NAMES, chance.randint(2, 5)) + [WRITE_IN] * (chance.random() < 0.6)
        self.cards, self.most_at_a_rank, self.skips = [], most_at_a_rank, skips
        for number in range(chance.randint(3, 25)):
            on = [name for name in self.contests if len(self.contests) == 1 or chance.random() < 0.8]
            self.cards.append({name: self.marks(self.contests[name]) for name in on})
        self.cards[0] = {name: self.marks(names) for name, names in self.contests.items()}

    def marks(self, names):
        ranks = []
        for _ in range(self.chance.randint(0, len(names))):
            size = self.chance.choices(range(self.most_at_a_rank + 1), [1.5 * self.skips, 8, 1, 0.3][:self.most_at_a_rank + 1])[0]
            ranks.append(self.chance.sample(names, min(size, len(names))) if size else [])
        return ranks


def maybe(chance, share):
    return chance.random() < share


def dump(path, value, chance):
    with open(path, "w", encoding=chance.choice(["utf-8", "utf-8-sig"])) as file:
        json.dump(value, file, indent=chance.choice([None, 1]), ensure_ascii=maybe(chance, 0.5))


# ---- Dominion

def told(marks, ranks, chance):
    """The overvotes and undervotes of these marks, in one of the meanings that these numbers may have. The marks of an overvote needn't be counted as
    votes."""
    by_rank = {}
    for made in marks:
        if made["IsVote"]:
            by_rank.setdefault(made["Rank"], set()).add((made["CandidateId"], made.get("WriteinIndex")))
    over = {rank for rank, made in by_rank.items() if len(made) > 1}
    if over and maybe(chance, 0.4):
        for made in marks:
            made["IsAmbiguous"] = not made["IsVote"]
            made["IsVote"] = made["IsVote"] and made["Rank"] not in over
    number = chance.choice([1, len(over), sum(len(by_rank[rank]) for rank in over)]) if over else 0
    blank = ranks - len(by_rank)
    return chance.choice([{}, {"Overvotes": number}]) if not over else {"Overvotes": number}, chance.choice([{}, {"Undervotes": blank}, {"Undervotes": int(not by_rank)}])


def dominion(folder, chance):
    drawn = Drawn(chance)
    is_old = maybe(chance, 0.3)
    version = "5.2.18.2" if is_old else chance.choice(["5.10.50.85", "5.17.17.1"])
    numbers = {name: 10 * place + 7 for place, name in enumerate(drawn.contests, 1)}
    people = {(name, each): 100 * numbers[name] + place for name, names in drawn.contests.items() for place, each in enumerate(names)}
    contests = [{"Description": name, "Id": numbers[name], "VoteFor": 1, "NumOfRanks": len(names)} for name, names in drawn.contests.items()]
    contests.append({"Description": "Sheriff", "Id": 900, "VoteFor": 1, "NumOfRanks": 0})
    listed = [
        {"Description": each, "Id": people[name, each], "ContestId": numbers[name], "Type": "WriteIn" if each == WRITE_IN else "Regular", "Disabled": 0}
        for name, each in people
    ]
    listed.append({"Description": "Ida", "Id": 901, "ContestId": 900, "Type": "Regular", "Disabled": 0})

    def mark(name, each, rank, is_vote=True):
        made = {"CandidateId": people[name, each], "Rank": rank, "IsAmbiguous": not is_vote and maybe(chance, 0.7), "IsVote": is_vote, "MarkDensity": 90}
        return {**made, "WriteinIndex": rank} if each == WRITE_IN else made

    def version_of(card, is_current):
        votes = []
        for name, ranks in card.items():
            marks = [mark(name, each, rank) for rank, names in enumerate(ranks, 1) for each in names]
            for _ in range(maybe(chance, 0.2)):
                marks.append(mark(name, chance.choice(drawn.contests[name]), chance.randint(1, len(drawn.contests[name])), False))
            over, under = told(marks, len(drawn.contests[name]), chance)
            chance.shuffle(marks)
            votes.append({"Id": numbers[name], "ManifestationId": 1, **under, **over, "Marks": marks})
        votes.append({"Id": 900, "Marks": [{"CandidateId": 901, "Rank": 1, "IsAmbiguous": False, "IsVote": True}]})
        return {"PrecinctPortionId": 1, "BallotTypeId": 2, "IsCurrent": is_current, **({"Contests": votes} if is_old else {"Cards": [{"Id": 4, "Contests": votes}]})}

    sessions = []
    for place, card in enumerate(drawn.cards):
        tabulator, batch, record = 1 + place % 2, 1 + place // 7, 1 + place
        is_withheld = maybe(chance, 0.3)
        session = {
            "TabulatorId": tabulator, "BatchId": batch, "RecordId": "X" if is_withheld else record, "CountingGroupId": 2,
            "ImageMask": f"D:\\NAS\\Images\\{tabulator:05}_{batch:05}_{record:06}*.*", "SessionType": "ScannedVote",
        }
        if maybe(chance, 0.2):
            session |= {"Original": version_of({name: drawn.marks(drawn.contests[name]) for name in card}, False), "Modified": version_of(card, True)}
        else:
            session |= {"Original": version_of(card, True)}
        sessions.append(session)
    files = {"ContestManifest.json": {"Version": version, "List": contests}, "CandidateManifest.json": {"Version": version, "List": listed}}
    part = chance.randint(1, len(sessions))
    parts = [sessions[at:at + part] for at in range(0, len(sessions), part)]
    for number, some in enumerate(parts, 1):
        name = "CvrExport.json" if len(parts) == 1 else f"CvrExport_{number}.json"
        files[name] = {"Version": version, "ElectionId": "made", "Sessions": some}
        if maybe(chance, 0.2):
            files[name] = {"Sessions": some, "Version": version}
    made = os.path.join(folder, "export")
    os.mkdir(made)
    for name, value in files.items():
        dump(os.path.join(made, name), value, chance)
    if maybe(chance, 0.5):
        with zipfile.ZipFile(made + ".zip", "w", zipfile.ZIP_DEFLATED) as archive:
            for name in files:
                archive.write(os.path.join(made, name), name)
        return [made + ".zip"], []
    return [made], []


# ---- NIST SP 1500-103

def nist(folder, chance):
    drawn = Drawn(chance)
    keys = {name: f"_contest{place}" for place, name in enumerate(drawn.contests)}
    people, selections = {}, {}
    for name, names in drawn.contests.items():
        for place, each in enumerate(names):
            people[name, each] = f"_{keys[name]}_person{place}"
            selections[name, each] = f"_{keys[name]}_selection{place}"

    def selection(name, each):
        made = {"@id": selections[name, each], "@type": "CVR.CandidateSelection"}
        return {**made, "IsWriteIn": True} if each == WRITE_IN else {**made, "CandidateIds": [people[name, each]]}

    election = {
        "@id": "_election", "@type": "CVR.Election", "ElectionScopeId": "_unit", "Name": "made",
        "Candidate": [{"@id": people[pair], "@type": "CVR.Candidate", "Name": pair[1]} for pair in people if pair[1] != WRITE_IN],
        "Contest": [
            {
                "@id": keys[name], "@type": "CVR.CandidateContest", "Name": name, "NumberElected": 1, "VoteVariation": "rcv",
                "ContestSelection": [selection(name, each) for each in names],
            }
            for name, names in drawn.contests.items()
        ] + [{"@id": "_other", "@type": "CVR.CandidateContest", "Name": "Sheriff", "VoteVariation": "plurality", "ContestSelection": []}],
    }

    def votes(card):
        made = []
        for name, ranks in card.items():
            chosen = {}
            for rank, names in enumerate(ranks, 1):
                for each in names:
                    position = {"@type": "CVR.SelectionPosition", "HasIndication": "yes", "NumberVotes": 1, "Position": rank, "Rank": rank}
                    chosen.setdefault(each, []).append({**position, "IsAllocable": "yes"} if maybe(chance, 0.5) else position)
            for each in drawn.contests[name]:
                if maybe(chance, 0.2):
                    position = {"HasIndication": chance.choice(["no", "unknown", "yes"]), "NumberVotes": 0, "IsAllocable": "no"}
                    chosen.setdefault(each, []).append({**position, "Rank": chance.randint(1, len(drawn.contests[name]))})
            listed = []
            for each, positions in chosen.items():
                one = {"@type": "CVR.CVRContestSelection", "ContestSelectionId": selections[name, each], "SelectionPosition": positions}
                if len(positions) == 1 and maybe(chance, 0.3):
                    one["Rank"] = positions[0].pop("Rank")
                listed.append(one)
            made.append({"@type": "CVR.CVRContest", "ContestId": keys[name], "CVRContestSelection": listed})
        return made + [{"@type": "CVR.CVRContest", "ContestId": "_other"}]

    records = []
    for place, card in enumerate(drawn.cards, 1):
        snapshots = [{"@id": f"_s{place}", "@type": "CVR.CVRSnapshot", "Type": "interpreted", "CVRContest": votes(card)}]
        if maybe(chance, 0.2):
            snapshots[0]["Type"] = "modified"
            before = {name: drawn.marks(drawn.contests[name]) for name in card}
            snapshots.insert(0, {"@id": f"_s{place}o", "Type": "original", "CVRContest": votes(before)})
        records.append({
            "@type": "CVR.CVR", "UniqueId": f"u_{place}", "BatchId": f"B{place % 3}", "BatchSequenceId": place, "ElectionId": "_election",
            "CurrentSnapshotId": f"_s{place}", "CVRSnapshot": snapshots,
        })
    paths, parts = [], chance.randint(1, 2)
    for part in range(parts):
        some = records[part::parts]
        report = {"@type": "CVR.CastVoteRecordReport", "Version": "1.0.0", "GeneratedDate": "2026-11-03T20:00:00Z", "Election": [election], "CVR": some}
        names = list(report)
        if maybe(chance, 0.4):
            chance.shuffle(names)
        paths.append(os.path.join(folder, f"report{part}.json"))
        dump(paths[-1], {name: report[name] for name in names}, chance)
    return paths, ["--id", "UniqueId"] * maybe(chance, 0.3)


# ---- sheets

def cell(names):
    return "undervote" if not names else names[0] if len(names) == 1 else "overvote"


def save(path, rows, chance):
    if not maybe(chance, 0.3):
        path += ".csv"
        with open(path, "w", newline="", encoding=chance.choice(["utf-8", "utf-8-sig"])) as file:
            csv.writer(file).writerows(rows)
        return path
    import openpyxl
    book = openpyxl.Workbook()
    for row in rows:
        book.active.append([int(value) if value.isdigit() else value or None for value in row])
    book.save(path + ".xlsx")
    return path + ".xlsx"


def ess(folder, chance):
    drawn = Drawn(chance)
    is_of = maybe(chance, 0.5)
    heads = ["Cast Vote Record", "Precinct", "Ballot Style"]
    for name, names in drawn.contests.items():
        for rank in range(1, len(names) + 1):
            nth = f"{rank}{ {1: 'st', 2: 'nd', 3: 'rd'}.get(rank, 'th')}"
            heads.append(f"{name} Choice {rank} of {len(names)} Citywide" if is_of else f"{name} {nth} Choice")
    rows = [heads]
    for place, card in enumerate(drawn.cards, 1):
        row = [str(place), "P1", "S"]
        for name, names in drawn.contests.items():
            ranks = [[] for _ in names] if name not in card else card[name] + [[]] * (len(names) - len(card[name]))
            row += [cell(each) if name in card else "" for each in ranks]
        rows.append(row)
    made_of = ["--id", "Precinct,Cast Vote Record"] * maybe(chance, 0.3)
    return [save(os.path.join(folder, "cvr"), rows, chance)], made_of + ["--ranks", "9"]


def plain(folder, chance):
    drawn = Drawn(chance, most_contests=1)
    ((contest, names),) = drawn.contests.items()
    nth = chance.choice([["1st", "2nd", "3rd", "4th", "5th", "6th"], ["1", "2", "3", "4", "5", "6"], [f"rank {rank}" for rank in range(1, 7)]])
    rows = [["id", *nth[:len(names)]]]
    for place, card in enumerate(drawn.cards, 1):
        ranks = card[contest] + [[]] * (len(names) - len(card[contest]))
        rows.append([f"b_{place}", *(cell(each).replace("undervote", "") for each in ranks)])
    return [save(os.path.join(folder, "plain ballots"), rows, chance)], ["--ranks", "9"]


# ---- PrefLib

def complete(chance, names, kind):
    """An order of all names, some of which share a place if the kind has ties."""
    left, places = chance.sample(names, len(names)), []
    while left:
        size = chance.choice([1, 1, 2]) if kind == "toc" else 1
        places.append([left.pop() for _ in range(min(size, len(left)))])
    return places


def preflib(folder, chance, kind=None):
    kind = kind or chance.choice(["soi", "toi"])
    drawn = Drawn(chance, most_contests=1, most_at_a_rank=1 if kind[0] == "s" else 3, skips=False)
    ((contest, names),) = drawn.contests.items()
    if kind[-1] == "c":
        drawn.cards = [{contest: complete(chance, names, kind)} for _ in drawn.cards]
    orders = {}
    for card in drawn.cards:
        ranks = [[str(names.index(each) + 1) for each in places] for places in card[contest]]
        order = ",".join(places[0] if len(places) == 1 else "{" + ",".join(places) + "}" for places in ranks)
        orders[order] = orders.get(order, 0) + chance.randint(1, 3)
    title = chance.choice([contest, ""])
    lines = [
        f"# FILE NAME: made.{kind}", f"# TITLE: {title}", "# DESCRIPTION: ", f"# DATA TYPE: {kind}", "# MODIFICATION TYPE: synthetic", "# RELATES TO: ",
        "# RELATED FILES: ", "# PUBLICATION DATE: 2026-11-03", "# MODIFICATION DATE: 2026-11-03", f"# NUMBER ALTERNATIVES: {len(names)}",
        f"# NUMBER VOTERS: {sum(orders.values())}", f"# NUMBER UNIQUE ORDERS: {len(orders)}",
        *(f"# ALTERNATIVE NAME {place}: {name}" for place, name in enumerate(names, 1)), *(f"{count}: {order}" for order, count in orders.items()),
    ]
    path = os.path.join(folder, f"made.{kind}")
    with open(path, "w", encoding="utf-8") as file:
        file.write("\n".join(lines) + "\n")
    return [path], []


# ---- Dominion as CSV

def dominion_csv(folder, chance):
    drawn = Drawn(chance)
    columns = []
    for name, names in drawn.contests.items():
        title = f"{name} (Number of positions=1, Number of ranks={len(names)})"
        columns += [(title, f"{each}({rank})", name, each, rank) for rank in range(1, len(names) + 1) for each in names]
    columns += [("Sheriff (Vote For=1)", "Ida", "Sheriff", "Ida", 1)]
    fixed = ["CvrNumber", "TabulatorNum", "BatchId", "RecordId", "ImprintedId", "CountingGroup", "PrecinctPortion", "BallotType"]
    blank = [""] * len(fixed)
    head = [["made", "5.10.50.85", *blank[2:], *[""] * len(columns)], [*blank, *(each[0] for each in columns)], [*blank, *(each[1] for each in columns)]]
    head.append([*fixed, *("NON" for _ in columns)])
    rows = []
    for place, card in enumerate(drawn.cards, 1):
        tabulator, batch = 1 + place % 2, 1 + place // 7
        record = "X" if maybe(chance, 0.3) else str(place)
        row = [str(place), str(tabulator), str(batch), record, f'="{tabulator}-{batch}-{place}"', "Mail", "P1", "T"]
        for _, _, name, each, rank in columns:
            if name == "Sheriff":
                row.append(chance.choice(["0", "1"]))
            elif name not in card:
                row.append("")
            else:
                row.append("1" if rank <= len(card[name]) and each in card[name][rank - 1] else "0")
        rows.append(row)
    if maybe(chance, 0.5):
        chance.shuffle(rows)
    path = os.path.join(folder, "CVR_Export.csv")
    with open(path, "w", newline="", encoding=chance.choice(["utf-8", "utf-8-sig"])) as file:
        csv.writer(file, quoting=chance.choice([csv.QUOTE_ALL, csv.QUOTE_MINIMAL])).writerows(head + rows)
    return [path], []


# ---- Hart

def hart(folder, chance):
    drawn = Drawn(chance)
    made = os.path.join(folder, "cvrs")
    os.makedirs(os.path.join(made, "batch two"))
    ids = {name: f"c{place}" for place, name in enumerate(drawn.contests)}
    space = chance.choice([' xmlns="http://tempuri.org/CVRDesign.xsd"', ""])
    for place, card in enumerate(drawn.cards, 1):
        batch, contests = 1 + place // 7, []
        for name, ranks in card.items():
            options = []
            for number, each in enumerate(drawn.contests[name]):
                value = "".join("1" if rank < len(ranks) and each in ranks[rank] else "0" for rank in range(len(drawn.contests[name])))
                if place > 1 and "1" not in value and maybe(chance, 0.7):
                    continue
                named = "<WriteInData><Text>Jo</Text></WriteInData>" if each == WRITE_IN else f"<Name>{escape(each)}</Name><Id>{ids[name]}-{number}</Id>"
                options.append(f"<Option>{named}<Value>{value}</Value></Option>")
            chance.shuffle(options)
            undervotes = "<Undervotes>1</Undervotes>" * maybe(chance, 0.3)
            contests.append(f"<Contest><Name>{escape(name)}</Name><Id>{ids[name]}</Id><Options>{''.join(options)}</Options>{undervotes}</Contest>")
        contests.append("<Contest><Name>Sheriff</Name><Id>_other</Id><Options><Option><Name>Ida</Name><Id>i</Id><Value>1</Value></Option></Options></Contest>")
        text = (
            f'<?xml version="1.0" encoding="utf-8"?>\n<Cvr{space}><Contests>{"".join(contests)}</Contests><BatchSequence>{place}</BatchSequence>'
            f"<SheetNumber>1</SheetNumber><BatchNumber>{batch}</BatchNumber><CvrGuid>g{place}</CvrGuid></Cvr>"
        )
        with open(os.path.join(made, *["batch two"] * (batch == 2), f"1_{place:05}.xml"), "w", encoding="utf-8") as file:
            file.write(text)
    if maybe(chance, 0.5):
        with zipfile.ZipFile(made + ".zip", "w", zipfile.ZIP_DEFLATED) as archive:
            for where, _, names in os.walk(made):
                for name in names:
                    archive.write(os.path.join(where, name), os.path.relpath(os.path.join(where, name), made))
        return [made + ".zip"], []
    return [made], []


# ---- Clear Ballot

def clear_ballot(folder, chance):
    drawn = Drawn(chance, most_at_a_rank=3)
    columns = [(name, each) for name, names in drawn.contests.items() for each in names] + [("Sheriff", "Ida")]
    fixed = ["RowNumber", "BoxID", "BoxPosition", "BallotID", "PrecinctID", "BallotStyleID", "PrecinctStyleName", "ScanComputerName", "Status", "Remade"]
    head = fixed + [f"Choice_{place}_1:{name.replace(':', '')}:Vote For 1:{each}:NON" for place, (name, each) in enumerate(columns, 1)]
    rows = []
    for place, card in enumerate(drawn.cards, 1):
        row = [str(place), f"Box {1 + place // 7}", str(place), f"b{place}", "1", "1", "P", "scanner", "Counted", "0"]
        for name, each in columns:
            if name == "Sheriff":
                row.append("1")
            elif name not in card:
                row.append("")
            else:
                row.append(str(next((rank for rank, names in enumerate(card[name], 1) if each in names), 0)))
        rows.append(row)
    path = os.path.join(folder, "cvr.csv")
    with open(path, "w", newline="", encoding="utf-8") as file:
        csv.writer(file).writerows([head, *rows])
    named = [word for name in drawn.contests for word in ("--contest", name)]
    return [path], named + ["--id", "BallotID"] * maybe(chance, 0.3)


# ---- NIST SP 1500-103 as XML

def nist_xml(folder, chance):
    paths, words = nist(folder, chance)
    for path in paths:
        with open(path, encoding="utf-8-sig") as file:
            report = json.load(file)
        space = chance.choice([' xmlns="http://itl.nist.gov/ns/voting/1500-103/v1"', ""])
        names = sorted(name for name in report if not name.startswith("@"))
        text = "".join(element(name, report[name]) for name in names)
        with open(path.replace(".json", ".xml"), "w", encoding="utf-8") as file:
            file.write(f'<?xml version="1.0" encoding="UTF-8"?>\n<CastVoteRecordReport{space} xmlns:xsi="http://www.w3.org/2001/XMLSchema-instance">{text}</CastVoteRecordReport>\n')
        os.remove(path)
    return [path.replace(".json", ".xml") for path in paths], words


def element(name, value):
    if isinstance(value, list) and name == "CandidateIds":
        return f"<{name}>{' '.join(value)}</{name}>"
    if isinstance(value, list):
        return "".join(element(name, each) for each in value)
    if not isinstance(value, dict):
        return f"<{name}>{escape(str(value).lower() if isinstance(value, bool) else str(value))}</{name}>"
    given = f' ObjectId="{value["@id"]}"' if "@id" in value else ""
    given += f' xsi:type="{value["@type"].removeprefix("CVR.")}"' if "@type" in value else ""
    return f"<{name}{given}>{''.join(element(key, each) for key, each in sorted(value.items()) if not key.startswith('@'))}</{name}>"


# ---- RCTab, and the unified form

def rctab(folder, chance, is_unified=False):
    drawn = Drawn(chance, most_contests=1)
    ((contest, names),) = drawn.contests.items()
    ranks = [f"rank{rank}" if is_unified else f"Rank {rank}" for rank in range(1, len(names) + 1)]
    rows = [["ballotID", "precinct", *ranks] if is_unified else ["CVR Provider", "Tabulator Id", "Batch Id", "Record Id", "Precinct", "Precinct Portion", *ranks]]
    for place, card in enumerate(drawn.cards, 1):
        cells = [cell(each) for each in card[contest] + [[]] * (len(names) - len(card[contest]))]
        cells = [each.replace("undervote", "skipped").replace("Write-in", "writein") for each in cells] if is_unified else cells
        rows.append([f"b_{place}", "P", *cells] if is_unified else ["made", "7", str(1 + place // 7), str(place), "P", "", *cells])
    return [save(os.path.join(folder, "rctab cvr"), rows, chance)], ["--ranks", "9"]


# ---- contests whose candidates aren't ranked

def unranked(folder, chance):
    """Dominion's JSON with contests of one seat and of several, and overvotes as it may write them."""
    version, contests, listed, sessions = "5.10.50.85", [], [], []
    for number in range(1, 1 + chance.randint(1, 3)):
        seats, names = chance.randint(1, 3), chance.sample(NAMES, chance.randint(4, 6)) + [WRITE_IN] * maybe(chance, 0.5)
        contests.append({"Description": f"Board {number}", "Id": number, "VoteFor": seats, "NumOfRanks": 0})
        listed += [
            {"Description": each, "Id": 100 * number + place, "ContestId": number, "Type": "WriteIn" if each == WRITE_IN else "Regular", "Disabled": 0}
            for place, each in enumerate(names)
        ]
    contests.append({"Description": "Ranked", "Id": 900, "VoteFor": 1, "NumOfRanks": 3})
    listed.append({"Description": "Ida", "Id": 901, "ContestId": 900, "Type": "Regular", "Disabled": 0})
    for place in range(1, chance.randint(20, 60)):
        votes = []
        for contest in contests[:-1]:
            people = [each["Id"] for each in listed if each["ContestId"] == contest["Id"]]
            if place > 1 and maybe(chance, 0.2):
                continue
            weights = [1 / (1 + at) for at in range(len(people))]
            chosen = sorted(set(chance.choices(people, weights, k=chance.randint(0, contest["VoteFor"] + 1))))
            over = max(0, len(chosen) - contest["VoteFor"])
            counted = not over or maybe(chance, 0.5)
            marks = [{"CandidateId": each, "Rank": 1, "IsAmbiguous": False, "IsVote": counted} for each in chosen]
            votes.append({"Id": contest["Id"], "Undervotes": max(0, contest["VoteFor"] - len(chosen)), "Overvotes": chance.choice([1, len(chosen)]) if over else 0, "Marks": marks})
        votes.append({"Id": 900, "Undervotes": 3, "Overvotes": 0, "Marks": []})
        sessions.append({"TabulatorId": 1, "BatchId": 1, "RecordId": place, "Original": {"IsCurrent": True, "Cards": [{"Id": 1, "Contests": votes}]}})
    made = os.path.join(folder, "export")
    os.mkdir(made)
    for name, value in (("ContestManifest", {"List": contests}), ("CandidateManifest", {"List": listed}), ("CvrExport", {"Sessions": sessions})):
        dump(os.path.join(made, f"{name}.json"), {"Version": version, **value}, chance)
    return [made], ["--as", chance.choice(["plurality", "pairs"])]


MAKERS = {
    "dominion": dominion, "dominion-csv": dominion_csv, "hart": hart, "clear-ballot": clear_ballot, "nist": nist, "nist as XML": nist_xml, "ess": ess,
    "plain": plain, "rctab": rctab, "rctab in the unified form": functools.partial(rctab, is_unified=True), "preflib": preflib,
    "preflib as .soc": functools.partial(preflib, kind="soc"), "preflib as .toc": functools.partial(preflib, kind="toc"),
}
