"""Reads PrefLib's orders: strict or with ties, complete or not (.soc, .soi, .toc, .toi), in the form since 2022 (lines that begin with # and a name)."""
import re

import convert_files
from alike import folded, HOW
from convert_export import add_mark, Candidate, Card, Contest, Place, refused, Vote
from convert_sheet import Meanings, title_of, WORDS

TYPES = ("soc", "soi", "toc", "toi")
COMPLETE = ("soc", "toc")  # each order has all alternatives
HEADING = re.compile(r"# ([A-Z][A-Z0-9 ]*):(.*)")
ALTERNATIVE = re.compile(r"ALTERNATIVE NAME (\d+)")
ORDER = re.compile(r"\s*(\d+)\s*:(.*)")
PLACE = re.compile(r"\s*(?:\d+|\{\s*\d+(?:\s*,\s*\d+)*\s*\})\s*")
MOST_VOTERS = 10_000_000


class Export:
    def __init__(self, paths, options):
        if len(paths) != 1:
            raise refused(" ".join(paths), "one file of PrefLib at a time: each is a separate contest")
        self.notes, self.meanings = {}, Meanings(options.word)
        self.source = convert_files.Source(paths[0])
        self.read_heading()
        name = options.title or self.heading["TITLE"][1].strip() or title_of(self.source, options)
        self.contest = Contest(name, name, self.candidates())
        self.contests = {name: self.contest}
        self.batch = options.batch or "ballots"
        self.made_of = f"{self.batch}_ and the number of the ballot, since PrefLib's ballots have no ids"

    def __getitem__(self, name):
        place, value = self.heading.get(name) or (self.source, None)
        if value is None or not value.strip().isdecimal():
            raise refused(place, f"there is no number {name}")
        return int(value)

    def read_heading(self):
        self.heading = {}
        for number, line in self.source.lines():
            place, found = Place(self.source, "line", number), HEADING.fullmatch(line)
            if not found:
                break
            if found[1] in self.heading:
                raise refused(place, f"{found[1]} is repeated")
            self.heading[found[1]] = place, found[2]
        if "DATA TYPE" not in self.heading:
            wanted = f"expected '# DATA TYPE: soi' or another of {', '.join(TYPES)} in the header lines"
            raise refused(f"{self.source}: line 1", f"{wanted} (PrefLib's form since 2022; files of before begin with a number)")
        place, kind = self.heading["DATA TYPE"]
        if kind.strip() not in TYPES:
            raise refused(place, f"the data type is {kind.strip()}; expected one of {', '.join(TYPES)}")
        self.is_complete = kind.strip() in COMPLETE
        self.heading.setdefault("TITLE", (place, ""))

    def candidates(self):
        names = {}
        for name, (place, value) in self.heading.items():
            found = ALTERNATIVE.fullmatch(name)
            if found:
                names[int(found[1])] = place, value.strip()
        count = self["NUMBER ALTERNATIVES"]
        if sorted(names) != list(range(1, count + 1)):
            raise refused(self.source, f"NUMBER ALTERNATIVES is {count}, and there are names of {', '.join(map(str, sorted(names))) or 'none'}")
        self.keys, looks = {}, {}
        for number, (place, name) in sorted(names.items()):
            if not name or name in self.keys.values():
                raise refused(place, f"{'no name' if not name else f'a second alternative is called {name}'}")
            other = looks.setdefault(folded(name), name)
            if other != name:
                raise refused(place, f"{name} and {other} {HOW}; add what tells them apart")
            self.keys[number] = name
            self.see_name(place, name)
        return [Candidate(name, name, self.meanings.of(name) == "write-in") for _, name in sorted(self.keys.items())]

    def see_name(self, place, name):
        """Checks that an alternative is a candidate or the write-ins, not an overvote or an undervote."""
        meaning = self.meanings.of(name)
        if meaning in (None, "overvote", "undervote") and WORDS.get(name.lower()) != "write-in":
            raise refused(place, self.meanings.why(name))

    def see_chosen(self, contests):
        pass

    def cards(self, contests):
        ballots = orders = 0
        for number, line in self.source.lines():
            if line.startswith("#") or not line.strip():
                continue
            place, found = Place(self.source, "line", number), ORDER.fullmatch(line)
            if not found:
                raise refused(place, "isn't a number of ballots, a colon and an order")
            vote, orders = self.vote(found[2], place), orders + 1
            if ballots + int(found[1]) > MOST_VOTERS:
                raise refused(place, f"there are more than {MOST_VOTERS} ballots")
            for ballots in range(ballots + 1, ballots + int(found[1]) + 1):
                yield Card(place, f"{self.batch}_{ballots}", [vote])
        for name, found in (("NUMBER VOTERS", ballots), ("NUMBER UNIQUE ORDERS", orders)):
            if self[name] != found:
                raise refused(self.source, f"{name} is {self[name]}, and there are {found}: the file may be cut off")
        if not ballots:
            raise refused(self.source, "has no ballots")

    def vote(self, text, place):
        marks, position, rank = {}, 0, 0
        while text.strip() and position < len(text):
            found = PLACE.match(text, position)
            if not found or text[found.end():found.end() + 1] not in ("", ","):
                raise refused(place, f"place {rank + 1} of the order is neither a number nor numbers in braces")
            rank, position = rank + 1, found.end() + 1
            for number in re.findall(r"\d+", found[0]):
                if int(number) not in self.keys:
                    raise refused(place, f"{number} isn't an alternative")
                add_mark(marks, rank, self.contest.mark(self.contest.numbers[self.keys[int(number)]], rank))
        had = sum(map(len, marks.values()))
        if self.is_complete and had != len(self.keys):
            raise refused(place, f"has {had} of the {len(self.keys)} alternatives, and orders of this data type have all")
        if text.rstrip().endswith(","):
            raise refused(place, "the order ends in a comma")
        return Vote(self.contest, marks)
