#!/usr/bin/python3
"""How much memory and time ./raire convert takes for large exports: bench/convert.py [MEGABYTES] [FORM..]

For each form (default: all of FORMS), in order, makes an export of this size (default: 1000 megabytes, which is 1 GB), converts it, deletes it, and prints
a line: the form, its bytes, its cards, the peak of resident memory in megabytes and the processor seconds. The status is 1 if some form takes more than
MOST_MEMORY. The exports are made in the folder that BENCH_FOLDER names in the environment, or in /tmp.
"""
import itertools
import json
import os
import random
import re
import subprocess
import sys
import tempfile
import zipfile

TOP = os.path.dirname(os.path.dirname(os.path.abspath(__file__)))
CANDIDATES = range(1, 10)  # the last one is the write-in
POOL = 400  # different ballots
MEGABYTE = 1_000_000
MOST_MEMORY = 150  # megabytes


def rankings():
    chance = random.Random(1)
    return [chance.sample(CANDIDATES, chance.randint(0, 5)) for _ in range(POOL)]


def filled(path, size, head, between, tail, cards):
    """Writes cards until the file has this many bytes."""
    written = 0
    with open(path, "w") as file:
        file.write(head)
        for number, card in enumerate(cards):
            written += file.write(between * (number > 0) + card)
            if written >= size:
                break
        file.write(tail)


def numbered(texts):
    """The texts over and over, each with the number of its card, 50 to a batch."""
    number = 0
    while True:
        yield texts[number % POOL].replace("77777", str(number // 50 + 1)).replace("88888", str(number % 50 + 1))
        number += 1


def dominion(folder, size):
    people = [{"Description": f"Candidate {c}", "Id": c, "ContestId": 5, "Type": "WriteIn" if c == 9 else "Regular", "Disabled": 0} for c in CANDIDATES]
    contests = [{"Description": "Mayor", "Id": 5, "VoteFor": 1, "NumOfRanks": 9}, {"Description": "Sheriff", "Id": 6, "VoteFor": 1, "NumOfRanks": 0}]
    for name, listed in (("CandidateManifest", people), ("ContestManifest", contests)):
        with open(os.path.join(folder, f"{name}.json"), "w") as file:
            json.dump({"Version": "5.10.50.85", "List": listed}, file)
    mark = {"ManifestationId": 1, "PartyId": 0, "MarkDensity": 90, "WriteinIndex": 0, "IsAmbiguous": False, "IsVote": True, "OutstackConditionIds": []}
    sessions = []
    for ranking in rankings():
        marks = [{"CandidateId": c, "Rank": rank, **mark} for rank, c in enumerate(ranking, 1)]
        votes = [{"Id": each, "ManifestationId": each, "Undervotes": 9 - len(marks), "Overvotes": 0, "OutstackConditionIds": [], "Marks": marks * (each == 5)} for each in (6, 5)]
        version = {"PrecinctPortionId": 1, "BallotTypeId": 1, "IsCurrent": True, "Cards": [{"Id": 4, "KeyInId": 4, "PaperIndex": 0, "Contests": votes}]}
        sessions.append(json.dumps({
            "TabulatorId": 1, "BatchId": 77777, "RecordId": 88888, "CountingGroupId": 2, "ImageMask": "D:\\NAS\\Results\\Images\\00001_77777_88888*.*",
            "SessionType": "ScannedVote", "VotingSessionIdentifier": "", "UniqueVotingIdentifier": "", "Original": version,
        }))
    filled(os.path.join(folder, "CvrExport.json"), size, '{"Version":"5.10.50.85","ElectionId":"made","Sessions":[', ",", "]}", numbered(sessions))
    return [folder]


def nist(folder, size):
    """A report whose head comes after its records, so that it is read several times."""
    election = {
        "@id": "_e", "Candidate": [{"@id": f"_p{c}", "Name": f"Candidate {c}"} for c in CANDIDATES],
        "Contest": [{
            "@id": "_c", "Name": "Mayor", "VoteVariation": "rcv",
            "ContestSelection": [{"@id": f"_s{c}", "IsWriteIn": True} if c == 9 else {"@id": f"_s{c}", "CandidateIds": [f"_p{c}"]} for c in CANDIDATES],
        }],
    }
    records = []
    for ranking in rankings():
        chosen = [
            {"@type": "CVR.CVRContestSelection", "ContestSelectionId": f"_s{c}", "SelectionPosition": [
                {"@type": "CVR.SelectionPosition", "HasIndication": "yes", "IsAllocable": "yes", "NumberVotes": 1, "Rank": rank}]}
            for rank, c in enumerate(ranking, 1)
        ]
        snapshot = {"@id": "_n", "@type": "CVR.CVRSnapshot", "Type": "interpreted", "CVRContest": [{"ContestId": "_c", "CVRContestSelection": chosen}]}
        records.append(json.dumps({
            "@type": "CVR.CVR", "BallotImage": [{"Location": "i" * 300}], "BatchId": "77777", "BatchSequenceId": 88888, "CurrentSnapshotId": "_n",
            "CVRSnapshot": [snapshot],
        }))
    tail = "]," + json.dumps({"Election": [election], "Version": "1.0.0", "@type": "CVR.CastVoteRecordReport"})[1:]
    path = os.path.join(folder, "report.json")
    filled(path, size, '{"CVR":[', ",", tail, numbered(records))
    return [path]


def plain(folder, size):
    rows = [",".join(["b77777_88888", *(f"Candidate {c}" for c in ranking), *[""] * (9 - len(ranking)), "x" * 1000]) + "\n" for ranking in rankings()]
    path = os.path.join(folder, "sheet.csv")
    filled(path, size, ",".join(["id", *map(str, CANDIDATES), "Notes"]) + "\n", "", "", numbered(rows))
    return [path]


def dominion_csv(folder, size):
    fixed = ["CvrNumber", "TabulatorNum", "BatchId", "RecordId", "ImprintedId", "CountingGroup", "PrecinctPortion", "BallotType"]
    columns = [(c, rank) for rank in CANDIDATES for c in CANDIDATES]
    title, blank = '"Mayor (Number of positions=1, Number of ranks=9)"', [""] * len(fixed)
    head = [["made", "5.10.50.85"], [*blank, *[title] * 81], [*blank, *(f"{'Write-in' if c == 9 else f'Candidate {c}'}({rank})" for c, rank in columns)], [*fixed, *[""] * 81]]
    marks = [",".join("1" if rank <= len(ranking) and ranking[rank - 1] == c else "0" for c, rank in columns) for ranking in rankings()]
    rows = (f"{n + 1},1,{n // 50 + 1},{n % 50 + 1},1-{n // 50 + 1}-{n % 50 + 1},Mail,{'x' * 900},T,{marks[n % POOL]}\n" for n in itertools.count())
    path = os.path.join(folder, "export.csv")
    filled(path, size, "".join(",".join(row) + "\n" for row in head), "", "", rows)
    return [path]


def clear_ballot(folder, size):
    fixed = "RowNumber,BoxID,BoxPosition,BallotID,PrecinctID,BallotStyleID,PrecinctStyleName,ScanComputerName,Status,Remade"
    head = fixed + "".join(f",Choice_{c}_1:Mayor:Vote For 1:{'Write-in' if c == 9 else f'Candidate {c}'}:NON" for c in CANDIDATES) + "\n"
    cells = [",".join(str(ranking.index(c) + 1 if c in ranking else 0) for c in CANDIDATES) for ranking in rankings()]
    rows = (f"{n + 1},B{n // 50 + 1},{n % 50 + 1},{n},1,1,{'x' * 1000},s,,0,{cells[n % POOL]}\n" for n in itertools.count())
    path = os.path.join(folder, "export.csv")
    filled(path, size, head, "", "", rows)
    return [path, "--contest", "Mayor"]


def nist_xml(folder, size):
    """A report in the order of the schema: the records come before the election."""
    election = '<Election ObjectId="_e">' + "".join(f'<Candidate ObjectId="_p{c}"><Name>Candidate {c}</Name></Candidate>' for c in CANDIDATES)
    chosen = "".join(
        f'<ContestSelection ObjectId="_s{c}">' + ("<IsWriteIn>true</IsWriteIn>" if c == 9 else f"<CandidateIds>_p{c}</CandidateIds>") + "</ContestSelection>" for c in CANDIDATES
    )
    election += f'<Contest ObjectId="_c">{chosen}<Name>Mayor</Name><VoteVariation>rcv</VoteVariation></Contest></Election>'
    records = []
    for ranking in rankings():
        marks = "".join(
            f"<CVRContestSelection><ContestSelectionId>_s{c}</ContestSelectionId><SelectionPosition><HasIndication>yes</HasIndication>"
            f"<IsAllocable>yes</IsAllocable><NumberVotes>1</NumberVotes><Rank>{rank}</Rank></SelectionPosition></CVRContestSelection>" for rank, c in enumerate(ranking, 1)
        )
        snapshot = f'<CVRSnapshot ObjectId="_n"><CVRContest><ContestId>_c</ContestId>{marks}</CVRContest><Type>interpreted</Type></CVRSnapshot>'
        image = f"<BallotImage><Location>{'i' * 300}</Location></BallotImage>"
        card = "<BatchId>77777</BatchId><BatchSequenceId>88888</BatchSequenceId>"
        records.append(f"<CVR>{image}{card}{snapshot}<CurrentSnapshotId>_n</CurrentSnapshotId></CVR>\n")
    path = os.path.join(folder, "report.xml")
    filled(path, size, '<CastVoteRecordReport xmlns="http://itl.nist.gov/ns/voting/1500-103/v1">\n', "", f"{election}<Version>1.0.0</Version></CastVoteRecordReport>\n", numbered(records))
    return [path]


def card_of_hart(ranking, contests):
    """A card as a county has it, with many contests of five options each; the first contest is the ranked one."""
    def contest(name, key, options):
        return f"<Contest><Name>{name}</Name><Id>{key}</Id><Options>{options}</Options></Contest>"

    ranked = "".join(
        f"<Option><Name>Candidate {c}</Name><Id>c{c}</Id><Value>{''.join('01'[ranking[rank:rank + 1] == [c]] for rank in range(9))}</Value></Option>"
        for c in CANDIDATES
    )
    listed = [contest("Mayor", "m", ranked)]
    for number in range(1, contests):
        options = "".join(f"<Option><Name>Candidate {c}</Name><Id>{number}-{c}</Id><Value>{int(c == 3)}</Value></Option>" for c in range(1, 6))
        listed.append(contest(f"Judge of district {number}", f"j{number}", options))
    return (
        f'<?xml version="1.0"?><Cvr xmlns="http://tempuri.org/CVRDesign.xsd"><Contests>{"".join(listed)}</Contests>'
        "<BatchSequence>88888</BatchSequence><BatchNumber>77777</BatchNumber></Cvr>"
    )


def cards_of_hart(size, contests):
    """The name and the text of each card, until there are this many bytes."""
    written = 0
    for number, card in enumerate(numbered([card_of_hart(ranking, contests) for ranking in rankings()])):
        yield f"{number // 1000}/{number}.xml", card
        written += len(card)
        if written >= size:
            return


def hart(folder, size, contests=20):
    """Folders with a file for each card."""
    for name, card in cards_of_hart(size, contests):
        path = os.path.join(folder, "cvrs", name)
        os.makedirs(os.path.dirname(path), exist_ok=True)
        with open(path, "w") as file:
            file.write(card)
    return [os.path.join(folder, "cvrs"), "--contest", "Mayor"]


def hart_zip(folder, size, contests=20):
    """A zip with a file for each card."""
    path = os.path.join(folder, "cvrs.zip")
    with zipfile.ZipFile(path, "w", zipfile.ZIP_DEFLATED, compresslevel=1) as archive:
        for name, card in cards_of_hart(size, contests):
            archive.writestr(name, card)
    return [path, "--contest", "Mayor"]


def rows_of(card, nobody):
    """The rows of a sheet: the card, a column that isn't read, and a column for each rank."""
    ranked = ([*(f"Candidate {c}" for c in ranking), *[nobody] * (9 - len(ranking))] for ranking in rankings())
    return [",".join([card, "x" * 1000, *cells]) + "\n" for cells in ranked]


def ess(folder, size):
    rows = rows_of("b77777_88888", "undervote")
    path = os.path.join(folder, "cvr.csv")
    filled(path, size, ",".join(["Cast Vote Record", "Precinct", *(f"Mayor Choice {rank} of 9" for rank in CANDIDATES)]) + "\n", "", "", numbered(rows))
    return [path]


def rctab(folder, size):
    rows = rows_of("4,77777,88888", "undervote")
    path = os.path.join(folder, "mayor.csv")
    filled(path, size, ",".join(["Tabulator Id,Batch Id,Record Id,Precinct", *(f"Rank {rank}" for rank in CANDIDATES)]) + "\n", "", "", numbered(rows))
    return [path]


def unified(folder, size):
    rows = rows_of("b77777_88888", "skipped")
    path = os.path.join(folder, "mayor.csv")
    filled(path, size, ",".join(["BallotID,precinct", *(f"rank{rank}" for rank in CANDIDATES)]) + "\n", "", "", numbered(rows))
    return [path]


def preflib(folder, size, kind, order):
    """Orders with blanks between the candidates, so that a ballot has as many bytes as in other forms, and with short names, so that the ballot file isn't
    too long."""
    chance, length = random.Random(2), 1100
    texts = [order(chance.sample(CANDIDATES, len(CANDIDATES))) for _ in range(POOL)]
    lines = [f"1: {text.replace(',', ',' + ' ' * ((length - len(text)) // text.count(',')))}\n" for text in texts]
    count, written = 0, 0
    while written < size:
        written += len(lines[count % POOL])
        count += 1
    path = os.path.join(folder, f"mayor.{kind}")
    names = "".join(f"# ALTERNATIVE NAME {c}: C{c}\n" for c in CANDIDATES)
    with open(path, "w") as file:
        file.write(f"# TITLE: Mayor\n# DATA TYPE: {kind}\n# NUMBER ALTERNATIVES: {len(CANDIDATES)}\n")
        file.write(f"# NUMBER VOTERS: {count}\n# NUMBER UNIQUE ORDERS: {count}\n{names}")
        file.writelines(lines[number % POOL] for number in range(count))
    return [path]


def soc(folder, size):
    return preflib(folder, size, "soc", lambda order: ",".join(map(str, order)))


def toc(folder, size):
    return preflib(folder, size, "toc", lambda order: ",".join([*map(str, order[:5]), "{" + ",".join(map(str, order[5:])) + "}"]))


FORMS = {
    "dominion": dominion, "dominion-csv": dominion_csv, "hart": hart, "hart as a zip": hart_zip, "clear-ballot": clear_ballot, "nist": nist,
    "nist as XML": nist_xml, "ess": ess, "plain": plain, "rctab": rctab, "rctab in the unified form": unified, "preflib as .soc": soc, "preflib as .toc": toc,
}


def measured(form, size, folder):
    """The cards that were read, the peak of memory in bytes, the processor seconds and the status of a call."""
    paths = FORMS[form](folder, size)
    account, out = os.path.join(folder, "account.txt"), os.path.join(folder, "out.raire")
    with open(out, "wb") as file:
        words = [os.path.join(TOP, "tools", "convert"), form.partition(" ")[0], *paths, "--account", account]
        child = subprocess.Popen(words, stdout=file, stderr=subprocess.DEVNULL)
    _, status, used = os.wait4(child.pid, 0)
    cards = 0
    if status == 0:
        with open(account) as file:
            cards = sum(int(found[1]) for found in re.finditer("(?m)^read: .*: ([0-9]+) cards$", file.read()))
    return cards, used.ru_maxrss * 1024, used.ru_utime + used.ru_stime, os.waitstatus_to_exitcode(status)


def main():
    size, forms = int(sys.argv[1]) if len(sys.argv) > 1 else 1000, sys.argv[2:] or list(FORMS)
    above = 0
    for form in forms:
        with tempfile.TemporaryDirectory(dir=os.environ.get("BENCH_FOLDER")) as folder:
            cards, memory, seconds, status = measured(form, size * MEGABYTE, folder)
        above += memory > MOST_MEMORY * MEGABYTE or status != 0
        print(f"{form}: {size} MB, {cards} cards: {memory / MEGABYTE:.0f} MB, {seconds:.0f} s, status {status}", flush=True)
    print(f"{len(forms) - above} forms within {MOST_MEMORY} MB, {above} not")
    sys.exit(1 if above else 0)


if __name__ == "__main__":
    main()
