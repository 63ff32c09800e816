"""Reads Dominion's export of cast vote records as JSON (Democracy Suite 5): CvrExport*.json, ContestManifest.json, CandidateManifest.json."""
import re

import convert_files
from convert_export import add_mark, Candidate, Card, Contest, member, option, OVERVOTED, Place, RANKED, refused, Vote

VERSION = re.compile(r"5(\.\w+)+")
EXPORT = re.compile(r"CvrExport(?:_(\d+))?\.json", re.IGNORECASE)
IMAGE = re.compile(r"(?:.*[/\\])?0*(\d+)_0*(\d+)_0*(\d+)[^/\\]*")  # 99813_00001_000001*.*
LISTS = {"contestmanifest.json": "ContestManifest.json", "candidatemanifest.json": "CandidateManifest.json"}
WITHHELD = "X"
WRITE_IN = "WriteIn"
BY_OTHER_WORDS = "--marks made takes the marks that aren't counted too, and --counts ignore doesn't look at these numbers"


def is_of_export(name):
    return EXPORT.fullmatch(name) is not None or name.lower() in LISTS


class Export:
    made_of = "TabulatorId_BatchId_RecordId of the session"

    def __init__(self, paths, options):
        self.paths, self.marks, self.made = paths, options.marks, options.made
        self.compares = options.counts == "compare" and options.marks == "counted"
        self.notes = {}
        self.exports, lists = [], {}
        for source in convert_files.sources_of(paths, is_of_export, "file of an export: CvrExport.json, ContestManifest.json, CandidateManifest.json"):
            name = source.name.lower()
            if EXPORT.fullmatch(source.name):
                self.exports.append(source)
            elif name in lists:
                raise refused(source, f"a second {LISTS[name]}; the first is {lists[name]}")
            elif name in LISTS:
                lists[name] = source
        self.exports.sort(key=lambda source: (int(EXPORT.fullmatch(source.name)[1] or 0), source.path))
        self.see_all_there(lists)
        self.contests = {}
        self.read_contests(lists["contestmanifest.json"])
        self.read_candidates(lists["candidatemanifest.json"])

    def see_all_there(self, lists):
        missing = [LISTS[name] for name in LISTS if name not in lists] + ["CvrExport.json or CvrExport_1.json .."] * (not self.exports)
        if missing:
            raise refused(" ".join(self.paths), f"there is no {', no '.join(missing)}")
        self.see_parts()
        for source in (*lists.values(), *self.exports):
            found = convert_files.first(source, "Version")
            if type(found) is not str or not VERSION.fullmatch(found):
                raise refused(source, f"Version is {found if found else 'missing'}; expected a Version 5, such as 5.10.50.85")

    def see_parts(self):
        """Checks that the parts of an export are numbered from 0 or 1 without a gap. A file without a number is the whole export."""
        parts = {}
        for source in self.exports:
            number = EXPORT.fullmatch(source.name)[1]
            if number is None and len(self.exports) > 1:
                raise refused(source, f"is an export of its own, and {self.exports[1].name} is a part of another one; give one export at a time")
            if number is not None and int(number) in parts:
                raise refused(source, f"a second part {int(number)}; the first is {parts[int(number)]}")
            parts[None if number is None else int(number)] = source
        if None in parts:
            return
        missing = [f"CvrExport_{number}.json" for number in range(min(1, *parts), max(parts)) if number not in parts]
        if missing:
            more = f" and {len(missing) - 10} more" if len(missing) > 10 else ""
            there = f"{parts[max(parts)].name} is there: a part of the export is missing"
            raise refused(" ".join(self.paths), f"there is no {', no '.join(missing[:10])}{more}, and {there}")

    def read_contests(self, source):
        for number, each in enumerate(convert_files.items(source, "List.item"), 1):
            place = Place(source, "List", number)
            key, name = str(member(each, "Id", int, place)), member(each, "Description", str, place)
            ranks, votes = member(each, "NumOfRanks", int, place), member(each, "VoteFor", int, place)
            if key in self.contests:
                raise refused(place, f"a second contest with Id {key}")
            why_not = f"isn't ranked (NumOfRanks is {ranks})" if ranks < 2 else f"elects {votes} (VoteFor)" if votes != 1 else None
            self.contests[key] = Contest(key, name, most_rank=ranks, why_not=why_not, seats=votes)
            self.contests[key].is_ranked = ranks > 1

    def read_candidates(self, source):
        for number, each in enumerate(convert_files.items(source, "List.item"), 1):
            place = Place(source, "List", number)
            contest = self.contests.get(str(member(each, "ContestId", int, place)))
            if contest is None:
                raise refused(place, f"ContestId {each['ContestId']} is in no ContestManifest.json")
            key, is_write_in = str(member(each, "Id", int, place)), member(each, "Type", str, place) == WRITE_IN
            if key in contest.numbers:
                raise refused(place, f"a second candidate with Id {key} in contest {contest.key}")
            contest.add(Candidate(key, member(each, "Description", str, place), is_write_in, bool(each.get("Disabled"))))

    def see_chosen(self, contests):
        pass

    def cards(self, contests):
        taken = {contest.key: contest for contest in contests}
        for source in self.exports:
            number = 0
            for number, session in enumerate(convert_files.items(source, "Sessions.item"), 1):
                yield self.card(session, Place(source, "session", number), taken)
            if number == 0:
                raise refused(source, "has no sessions; expected a list Sessions, with one for each card")

    def card(self, session, place, taken):
        votes, stood = [], set()
        for vote in self.contests_on(session, place):
            contest = taken.get(str(member(vote, "Id", int, place)))
            if contest is None:
                continue
            here = place.at(f"contest {contest.key}")
            if contest.key in stood:
                raise refused(here, "is on the card twice")
            stood.add(contest.key)
            votes.append(self.vote(vote, contest, here))
        return Card(place, self.id_of(session, place) if votes else None, votes)

    def contests_on(self, session, place):
        """The contests of the current version of a card."""
        versions = [name for name in ("Original", "Modified") if type(session) is dict and session.get(name) is not None]
        if "Original" not in versions:
            raise refused(place, "has no Original")
        current = [name for name in versions if member(session[name], "IsCurrent", bool, place.at(name))]
        if len(current) != 1:
            raise refused(place, f"{len(current)} of its versions ({', '.join(versions)}) have IsCurrent true; expected one")
        self.count("cards that were adjudicated: Modified was taken", current == ["Modified"])
        return contests_of(session[current[0]], place.at(current[0]))

    def count(self, note, number):
        if number:
            self.notes[note] = self.notes.get(note, 0) + number

    def id_of(self, session, place):
        """The id of a card: tabulator, batch and record. A record number that is withheld is taken from the name of the image."""
        tabulator, batch, record = (session.get(name) for name in ("TabulatorId", "BatchId", "RecordId"))
        if record == WITHHELD:
            found = IMAGE.fullmatch(option(session, "ImageMask", str, place, ""))
            if not found or found.group(1, 2) != (str(tabulator), str(batch)):
                raise refused(place, f"RecordId is {WITHHELD}, and ImageMask doesn't end in {tabulator}_{batch}_ and a number")
            record = int(found[3])
            self.count("ids whose RecordId is X: taken from ImageMask", 1)
        if not all(type(part) is int and part >= 0 for part in (tabulator, batch, record)):
            had = f"TabulatorId {tabulator}, BatchId {batch}, RecordId {record}"
            raise refused(place, f"no id can be made of {had}: expected three whole numbers")
        return f"{tabulator}_{batch}_{record}"

    def vote(self, vote, contest, place):
        marks, others, uncounted = {}, {}, 0
        for mark in member(vote, "Marks", list, place):
            key, rank = str(member(mark, "CandidateId", int, place)), member(mark, "Rank", int, place)
            if key not in contest.numbers:
                raise refused(place, f"CandidateId {key} isn't a candidate of the contest")
            is_clear, is_vote = not member(mark, "IsAmbiguous", bool, place), member(mark, "IsVote", bool, place)
            is_taken = is_clear if self.marks == "made" else is_vote
            if is_taken or is_clear:
                choice = contest.mark(contest.numbers[key], option(mark, "WriteinIndex", int, place))
                add_mark(marks if is_taken else others, rank, choice)
            uncounted += not is_taken
        if self.compares:
            found = Told(option(vote, "Overvotes", int, place), option(vote, "Undervotes", int, place))
            see = found.see_ranked if self.made == RANKED else found.see_unranked
            self.count("overvotes whose marks have IsVote false: told by Overvotes", see(contest, marks, others, place))
        return Vote(contest, marks, uncounted)


class Told:
    """The numbers of overvotes and undervotes that the export gives for a contest. Either may be missing.

    No description says which of several meanings a version gives them: an overvoted rank may be counted as one overvote or as its number of marks, and
    all overvoted ranks of a contest may be counted as one. So only numbers that no meaning allows are refused.
    """

    def __init__(self, overvotes, undervotes):
        self.overvotes, self.undervotes = overvotes, undervotes

    def see_ranked(self, contest, marks, others, place):
        """Adds the overvotes that the export reports although it doesn't count their marks as votes, and returns how many there are."""
        over = {rank: choices for rank, choices in marks.items() if len(choices) > 1}
        hidden = {}
        if self.overvotes and not over:
            made = {rank: marks.get(rank, set()) | others.get(rank, set()) for rank in marks.keys() | others.keys()}
            over = hidden = {rank: choices for rank, choices in made.items() if len(choices) > 1}
        self.see_overvotes(len(over), sum(map(len, over.values())), "rank", place)
        for rank in hidden:
            marks[rank] = {OVERVOTED}
        most = max(contest.most_rank, *marks, 0) - sum(len(choices) == 1 and choices != {OVERVOTED} for choices in marks.values())
        self.see_undervotes(not marks, most, place)
        return len(hidden)

    def see_unranked(self, contest, marks, others, place):
        """The same for a contest whose candidates aren't ranked."""
        counted = set().union(*marks.values())
        made = counted.union(*others.values())
        is_hidden = bool(self.overvotes) and len(counted) <= contest.seats < len(made)
        over = made if is_hidden else counted
        self.see_overvotes(int(len(over) > contest.seats), len(over), "contest", place)
        if is_hidden:
            marks[1] = {OVERVOTED}
        elif len(counted) <= contest.seats:
            self.see_undervotes(len(counted) < contest.seats, contest.seats - len(counted), place)
        return int(is_hidden)

    def see_overvotes(self, found, marks, what, place):
        if self.overvotes is None:
            return
        if not found and self.overvotes:
            raise refused(place, f"Overvotes is {self.overvotes}, and no {what} has too many marks; {BY_OTHER_WORDS}")
        if found and not (self.overvotes == 1 or found <= self.overvotes <= marks):
            had = f"{found} {what}{'s have' if found > 1 else ' has'} too many marks"
            raise refused(place, f"Overvotes is {self.overvotes}, and {had}; {BY_OTHER_WORDS}")

    def see_undervotes(self, has_some, most, place):
        """Checks that there are some undervotes if `has_some`, and at most `most`."""
        if self.undervotes is not None and not has_some <= self.undervotes <= most:
            raise refused(place, f"Undervotes is {self.undervotes}, and by the marks it is {int(has_some)} to {most}; {BY_OTHER_WORDS}")


def contests_of(version, place):
    """The contests of all cards, or of the only card if a version doesn't distinguish cards (before 5.10)."""
    if "Cards" not in version:
        return member(version, "Contests", list, place)
    return [contest for card in member(version, "Cards", list, place) for contest in member(card, "Contests", list, place)]
