"""Reads reports of NIST SP 1500-103 as XML, and gives them the form that they have as JSON."""
import re

import convert_xml
from convert_export import refused

LISTS = ("CVRSnapshot", "CVRContest", "CVRContestSelection", "SelectionPosition", "Contest", "Candidate", "ContestSelection")
NUMBERS = ("Rank", "Position", "NumberElected", "NumberVotes")
REFERENCES = ("CandidateIds",)  # several in one text, with blanks between
MAY_BE_EMPTY = {"Contest": "ContestSelection", "CVRContestSelection": "SelectionPosition"}  # lists that JSON must have
TRUTHS = {"true": True, "1": True, "false": False, "0": False}
TYPE = "{http://www.w3.org/2001/XMLSchema-instance}type"


def is_xml(source):
    with source.opened() as stream:
        return stream.peek(64).lstrip()[:1] == b"<"


def value_of(element):
    """An element as a JSON object with its id, its type and its children. An element with none of these is its text."""
    name, text = convert_xml.local(element), (element.text or "").strip()
    if len(element) or element.get("ObjectId") is not None:
        found = {"@id": element.get("ObjectId"), "@type": element.get(TYPE)}
        for each in element:
            add(found, convert_xml.local(each), value_of(each))
        if name in MAY_BE_EMPTY:
            found.setdefault(MAY_BE_EMPTY[name], [])
        return {key: value for key, value in found.items() if value is not None}
    if name in NUMBERS:
        return int(text) if re.fullmatch("[0-9]{1,18}", text) else text
    if name in REFERENCES:
        return text.split()
    return TRUTHS.get(text, text) if name.startswith("Is") and name != "IsAllocable" else text


def add(found, name, value):
    if name in LISTS:
        found.setdefault(name, []).append(value if isinstance(value, dict) else {})
    elif name in REFERENCES:
        found.setdefault(name, []).extend(value if isinstance(value, list) else [])
    else:
        found.setdefault(name, value)


class Report:
    """The head of a report, wherever its parts are in the file."""

    def __init__(self, source):
        self.type, self.version, self.elections = None, None, []
        pieces = convert_xml.pieces(source, ("Version", "Election"))
        for number, element in enumerate(pieces):
            if number == 0:
                self.type = convert_xml.local(element)
            elif convert_xml.local(element) == "Version":
                self.version = (element.text or "").strip()
            else:
                self.elections.append(value_of(element))

    def see(self, source, type_, version):
        for name, found, wanted in (("the root", self.type, type_), ("Version", self.version, version)):
            if found != wanted:
                raise refused(source, f"{name} is {found or 'missing'}; expected {wanted} (NIST SP 1500-103)")


def records(source):
    """The value of each CVR."""
    pieces = convert_xml.pieces(source, ("CVR",))
    next(pieces)
    return map(value_of, pieces)
