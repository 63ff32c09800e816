"""Reads the common data format for cast vote records, NIST SP 1500-103, version 1.0.0, as JSON or XML."""
import convert_files
import convert_nist_xml
from convert_export import add_mark, Candidate, Card, Contest, member, option, Place, RANKED, refused, Vote

TYPE, VERSION = "CVR.CastVoteRecordReport", "1.0.0"
VARIATION = "rcv"
MODIFIED = "cards that were adjudicated: the current snapshot is a modified one"


class Export:
    def __init__(self, paths, options):
        self.paths, self.marks, self.made, self.notes = paths, options.marks, options.made, {}
        self.id_members = options.id or ["BatchId", "BatchSequenceId"]
        self.made_of = "_".join(self.id_members)
        self.sources = convert_files.sources_of(paths)
        self.contests = {}
        self.are_xml = {source: convert_nist_xml.is_xml(source) for source in self.sources}
        for source in self.sources:
            if self.are_xml[source]:
                report = convert_nist_xml.Report(source)
                report.see(source, TYPE.removeprefix("CVR."), VERSION)
                self.read_elections(source, report.elections)
            else:
                self.see_version(source)
                self.read_elections(source, convert_files.first(source, "Election"))

    def see_version(self, source):
        for name, wanted in (("@type", TYPE), ("Version", VERSION)):
            found = convert_files.first(source, name)
            if found != wanted:
                raise refused(source, f"{name} is {'missing' if found is None else found}; expected {wanted} (NIST SP 1500-103)")

    def read_elections(self, source, elections):
        """Reads the contests of a report. Contests of several reports with the same @id are the same contest, and the lists of the first report apply."""
        if type(elections) is not list or not elections:
            raise refused(source, "has no list Election")
        for number, election in enumerate(elections, 1):
            place = Place(source, "Election", number)
            listed = member(election, "Contest", list, place)
            people = {member(each, "@id", str, place): option(each, "Name", str, place) for each in option(election, "Candidate", list, place, [])}
            for each in listed:
                self.add_contest(each, people, place)

    def add_contest(self, each, people, place):
        key = member(each, "@id", str, place)
        contest = Contest(key, member(each, "Name", str, place), why_not=why_not(each), seats=option(each, "NumberElected", int, place, 1))
        contest.is_ranked = each.get("VoteVariation") == VARIATION
        for number, selection in enumerate(member(each, "ContestSelection", list, place.at(f"contest {key}")), 1):
            here = place.at(f"contest {key}, ContestSelection {number}")
            contest.add(self.candidate(selection, people, here))
        known = self.contests.setdefault(key, contest)
        if known.candidates != contest.candidates:
            raise refused(place, f"contest {key} has different candidates than in an earlier report")

    def candidate(self, selection, people, place):
        key, is_write_in = member(selection, "@id", str, place), selection.get("IsWriteIn") is True
        ids = option(selection, "CandidateIds", list, place, [])
        if not all(type(each) is str and each in people for each in ids):
            raise refused(place, "CandidateIds names nobody of Candidate")
        names = [people[each] for each in ids if people[each]]
        return Candidate(key, " / ".join(names) or ("Write-in" if is_write_in else key), is_write_in)

    def see_chosen(self, contests):
        pass

    def cards(self, contests):
        taken = {contest.key: contest for contest in contests}
        for source in self.sources:
            number = 0
            records = convert_nist_xml.records(source) if self.are_xml[source] else convert_files.items(source, "CVR.item")
            for number, record in enumerate(records, 1):
                yield self.card(record, Place(source, "CVR", number), taken)
            if number == 0:
                raise refused(source, "has no records; expected a list CVR, with one for each card")

    def card(self, record, place, taken):
        votes, stood = [], set()
        for vote in option(self.snapshot(record, place), "CVRContest", list, place, []):
            key = member(vote, "ContestId", str, place)
            if key not in self.contests:
                raise refused(place, f"ContestId {key} is in no Election")
            if key in taken:
                here = place.at(f"contest {key}")
                if key in stood:
                    raise refused(here, "is on the card twice")
                stood.add(key)
                votes.append(self.vote(vote, taken[key], here))
        return Card(place, self.id_of(record, place) if votes else None, votes)

    def snapshot(self, record, place):
        current = member(record, "CurrentSnapshotId", str, place)
        found = [each for each in member(record, "CVRSnapshot", list, place) if type(each) is dict and each.get("@id") == current]
        if len(found) != 1:
            raise refused(place, f"{len(found)} snapshots have the id {current} of CurrentSnapshotId; expected one")
        if found[0].get("Type") == "modified":
            self.notes[MODIFIED] = self.notes.get(MODIFIED, 0) + 1
        return found[0]

    def id_of(self, record, place):
        parts = [record.get(name) for name in self.id_members]
        for name, part in zip(self.id_members, parts):
            if type(part) not in (str, int) or part == "":
                raise refused(place, f"has no {name} to make the card's id of; --id says what it is made of, such as --id UniqueId")
        return "_".join(map(str, parts))

    def vote(self, vote, contest, place):
        marks, uncounted = {}, 0
        for selection in option(vote, "CVRContestSelection", list, place, []):
            key = member(selection, "ContestSelectionId", str, place)
            if key not in contest.numbers:
                raise refused(place, f"ContestSelectionId {key} is none of the contest")
            for index, position in enumerate(member(selection, "SelectionPosition", list, place)):
                if self.counts(position, place):
                    rank = position.get("Rank", selection.get("Rank"))
                    if rank is None and self.made != RANKED:
                        rank = 1
                    if type(rank) is not int:
                        raise refused(place, f"a mark for {key} has no Rank")
                    add_mark(marks, rank, contest.mark(contest.numbers[key], option(position, "Position", int, place, index)))
                elif position.get("HasIndication") != "no":
                    uncounted += 1
        return Vote(contest, marks, uncounted)

    def counts(self, position, place):
        is_made = member(position, "HasIndication", str, place) == "yes"
        return is_made and (self.marks == "made" or position.get("IsAllocable") != "no")


def why_not(contest):
    """Why a contest isn't converted if no contest is named."""
    if contest.get("VoteVariation") != VARIATION:
        return f"isn't said to be ranked (VoteVariation is {contest.get('VoteVariation', 'missing')}; expected {VARIATION})"
    return f"elects {contest['NumberElected']} (NumberElected)" if contest.get("NumberElected") not in (None, 1) else None
