"""Reads Hart Verity's export of cast vote records as XML: a file for each card, in folders or zips."""
import re

import convert_files
import convert_xml
from convert_export import add_mark, Candidate, Card, Contest, Place, refused, Vote

ROOT = "Cvr"
WANTED = ".xml file; expected a file for each card (Hart's CVR folders)"
VALUE = re.compile("[01]+")
WRITE_IN = "write-in"
ID_MEMBERS = ("BatchNumber", "BatchSequence")


class Export:
    """The export. Its contests and candidates are those that are on some card, since the export has no list of them."""

    made_of = "BatchNumber_BatchSequence"

    def __init__(self, paths, options):
        self.paths, self.notes, self.contests, self.longest = paths, {}, {}, {}
        for source in self.sources():
            for contest in convert_xml.children(self.contests_of(self.root(source)), "Contest"):
                self.add_contest(contest, source)
        for key, contest in self.contests.items():
            contest.most_rank = self.longest[key]
            contest.is_ranked = self.longest[key] > 1
            contest.why_not = None if contest.is_ranked else "isn't ranked (each Value is one digit)"

    def sources(self):
        """The files of all cards, found anew each time, so that no list of them is held."""
        return convert_files.walked(self.paths, lambda name: name.lower().endswith(".xml"), WANTED, is_deep=True)

    def root(self, source):
        root = convert_xml.whole(source)
        if convert_xml.local(root) != ROOT:
            raise refused(source, f"is a {convert_xml.local(root)}; expected a {ROOT} (Hart's form)")
        return root

    @staticmethod
    def contests_of(root):
        found = convert_xml.child(root, "Contests")
        return () if found is None else found

    def add_contest(self, element, source):
        key, name = self.wanted(element, "Id", source), self.wanted(element, "Name", source)
        contest = self.contests.setdefault(key, Contest(key, name, seats=None))
        here = Place(source).at(f"contest {key}")
        if contest.name != name:
            raise refused(here, f"is called {name}, and {contest.name} on an earlier card")
        options = convert_xml.child(element, "Options")
        for option in convert_xml.children(() if options is None else options, "Option"):
            self.add_option(contest, option, here)

    def add_option(self, contest, option, here):
        value, key = convert_xml.text_of(option, "Value") or "", self.key_of(option, here)
        if not VALUE.fullmatch(value):
            raise refused(here, f"the Value of {key} is {value or 'missing'}; expected a 0 or 1 for each rank")
        self.longest[contest.key] = max(self.longest.get(contest.key, 0), len(value))
        is_write_in = key == WRITE_IN
        name = "Write-in" if is_write_in else self.wanted(option, "Name", here)
        known = contest.candidates[contest.add(Candidate(key, name, is_write_in))].name
        if known != name:
            raise refused(here, f"the candidate {key} is called {name}, and {known} on an earlier card")

    def key_of(self, option, here):
        """The id of an option. All write-ins are one candidate."""
        return WRITE_IN if convert_xml.child(option, "WriteInData") is not None else self.wanted(option, "Id", here)

    @staticmethod
    def wanted(element, name, place):
        found = convert_xml.text_of(element, name)
        if not found:
            raise refused(place, f"{convert_xml.local(element)} has no {name}")
        return found

    def see_chosen(self, contests):
        pass

    def cards(self, contests):
        taken = {contest.key: contest for contest in contests}
        for source in self.sources():
            yield self.card(self.root(source), Place(source), taken)

    def card(self, root, place, taken):
        votes, stood = [], set()
        for element in convert_xml.children(self.contests_of(root), "Contest"):
            contest = taken.get(self.wanted(element, "Id", place))
            if contest is None:
                continue
            if contest.key in stood:
                raise refused(place.at(f"contest {contest.key}"), "is on the card twice")
            stood.add(contest.key)
            votes.append(self.vote(element, contest, place.at(f"contest {contest.key}")))
        return Card(place, "_".join(self.wanted(root, name, place) for name in ID_MEMBERS) if votes else None, votes)

    def vote(self, element, contest, place):
        """The vote in a contest. The digits of a Value are ranks, from the left, and a 1 is a mark at that rank."""
        marks, options = {}, convert_xml.child(element, "Options")
        for index, option in enumerate(convert_xml.children(() if options is None else options, "Option")):
            for rank, digit in enumerate(convert_xml.text_of(option, "Value"), 1):
                if digit == "1":
                    add_mark(marks, rank, contest.mark(contest.numbers[self.key_of(option, place)], index))
        return Vote(contest, marks)
