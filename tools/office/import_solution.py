"""Reads assertions as raire-java, Colorado's service and raire-rs write them: a solution, with the problem if only that lists the candidates."""
import json

from convert_export import member, option, Place, refused
from import_form import Claim, document, names_in, see_object, Source, texts
from records import short

KINDS = ("NEB", "NEN")
WRAPPED_IN = ("solution", "Ok")


def of_java(paths):
    return [Solution(paths, has_names=True).source()]


def of_rs(paths):
    return [Solution(paths, has_names=False).source()]


class Solution:
    """A file with assertions, and at most one file without, which is their problem."""

    def __init__(self, paths, has_names):
        self.has_names = has_names  # candidates may be given as texts, not only as numbers
        objects = {path: see_object(document(path), path) for path in paths}
        results = {path: result_of(each, path) for path, each in objects.items()}
        solved = [path for path, result in results.items() if result is not None]
        if len(solved) != 1 or len(paths) > 2:
            raise refused(" ".join(paths), f"{len(solved)} of these files have assertions; give a solution, or a problem and its solution")
        self.path, = solved
        self.result, self.objects = results[self.path], objects
        self.candidates = self.listed()

    def metadata(self):
        """What each file says about its contest."""
        return {path: option(each, "metadata", dict, path, {}) for path, each in self.objects.items()}

    def listed(self):
        """The candidates, in the order of their numbers."""
        found = None
        for path, metadata in self.metadata().items():
            listed = option(metadata, "candidates", list, path) or option(self.objects[path], "candidates", list, path)
            listed = listed and texts(listed, "candidates", path)
            if None not in (found, listed) and found != listed:
                raise refused(path, "has other candidates, or another order of them, than the other file")
            found = listed or found
        for path, each in [*self.objects.items(), (self.path, self.result)]:
            count = option(each, "num_candidates", int, path)
            if None not in (count, found) and count != len(found):
                raise refused(path, f"num_candidates is {count}, and candidates has {len(found)}")
        return found

    def who(self, value, place):
        """The candidate that a number or a text stands for."""
        if type(value) is str and self.has_names:
            return value
        if type(value) is not int:
            looked_for = "a number or a name" if self.has_names else "a number"
            raise refused(place, f"{short(json.dumps(value))} isn't a candidate: expected {looked_for}")
        if self.candidates is None:
            raise refused(place, f"names candidate {short(str(value))}, and no metadata.candidates says who that is")
        if not 0 <= value < len(self.candidates):
            raise refused(place, f"names candidate {short(str(value))}, and the {len(self.candidates)} candidates are numbered from 0")
        return self.candidates[value]

    def claim(self, entry, place):
        see_object(entry, place)
        claim = option(entry, "assertion", dict, place, entry)
        kind = member(claim, "type", str, place)
        if kind not in KINDS:
            raise refused(place, f"its type is {short(kind)}; expected NEB or NEN")
        winner, loser = (self.who(claim.get(name), place.at(name)) for name in ("winner", "loser"))
        if kind == "NEB":
            return Claim(place, kind, winner, loser)
        at_rest = place.at("continuing")
        return Claim(place, kind, winner, loser, [self.who(each, at_rest) for each in member(claim, "continuing", list, place)])

    def source(self):
        names = names_in([each.get("contest") for each in (*self.metadata().values(), self.objects[self.path])])
        winner = self.result.get("winner")
        winner = None if winner is None else self.who(winner, Place(self.path, "the", "winner"))
        entries = member(self.result, "assertions", list, self.path)
        claims = [self.claim(entry, Place(self.path, "assertion", number)) for number, entry in enumerate(entries, 1)]
        return Source(self.path, names, self.candidates, winner, claims)


def result_of(found, path):
    """The object that has the assertions, whatever it is wrapped in; None if the file has none."""
    for name in WRAPPED_IN:
        found = option(found, name, dict, path, found)
        if "Err" in found:
            raise refused(path, f"has an error in place of assertions: {short(json.dumps(found['Err']))}")
    return found if "assertions" in found else None
