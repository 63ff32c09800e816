"""The folder of a state: its counties, their contests and files, and what is made from them."""
import hashlib
import itertools
import json
import os
import re
import urllib.parse
from typing import NamedTuple

import plain_audit
import terms as table
from ask import Refusal
from limits import MOST_CONTESTS
from terms import Terms

HEAD_BYTES = 65_536  # the part of a ballot file that is read first; if its contests take more, all of it is read
MADE = "made"
PLAN = "plan.json"


def name_of(contest):
    """The name of a contest's folder: its id, in which characters that no file name should have are escaped as in a URL."""
    name = urllib.parse.quote_plus(contest)
    return "%2E" + name[1:] if name.startswith(".") else name


class Look(NamedTuple):
    """A look of an audit after a number of draws, and the file of the cards that were read for it, if it is there."""
    draws: int
    seen: str


class Contest(NamedTuple):
    county: str
    id: str
    candidates: int
    terms: Terms

    def name(self):
        return f"{self.county}, contest {self.id}"

    def given(self, *names):
        return os.path.join("counties", self.county, *names)

    def made(self, *names):
        return os.path.join(MADE, "contests", self.county, name_of(self.id), *names)

    def record(self):
        return os.path.join(MADE, "runs", "contests", self.county, name_of(self.id) + ".json")

    def ballots(self):
        return self.given("ballots.raire")

    def manifest(self, top):
        """The manifest of the contest's own batches, if there is one; otherwise the county's. With one sample for all contests it is always the county's."""
        own = self.given(name_of(self.id), "manifest.csv")
        return own if self.terms.audit != "contests" and os.path.exists(os.path.join(top, own)) else self.given("manifest.csv")

    def looks(self, top):
        return looks_of(top, self.given(name_of(self.id)), self.terms.draws)


class County(NamedTuple):
    name: str
    terms: Terms
    contests: list
    is_read: bool  # whether its contests could be read

    def given(self, *names):
        return os.path.join("counties", self.name, *names)

    def made(self, *names):
        return os.path.join(MADE, "counties", self.name, *names)

    def record(self):
        return os.path.join(MADE, "runs", "counties", self.name + ".json")

    def looks(self, top):
        return looks_of(top, self.given(), self.terms.draws)

    def one_call(self):
        """Whether all contests are audited on one sample, with one call for each look."""
        return self.is_read and self.terms.audit == "contests"


def looks_of(top, folder, draws):
    """The looks at these numbers of draws. `seen_40.csv` has the cards of the first 40 draws, and `seen.csv` stands for the file of the last look."""
    looks = []
    for number in draws:
        names = [f"seen_{number}.csv", *["seen.csv"] * (number == draws[-1])]
        there = [os.path.join(folder, name) for name in names if os.path.exists(os.path.join(top, folder, name))]
        looks.append(Look(number, there[0] if there else ""))
    return looks


def seen_in(top, folder):
    """The files in a folder whose names say that they have cards that were read."""
    full = os.path.join(top, folder)
    names = sorted(os.listdir(full)) if os.path.isdir(full) else []
    return [os.path.join(folder, name) for name in names if re.fullmatch(r"seen.*\.csv", name, re.ASCII | re.IGNORECASE)]


def contests_of(path):
    """The number of candidates of each contest by its id, or None if the program will refuse the head of the file."""
    try:
        with open(path, "rb") as file:
            for size in (HEAD_BYTES, -1):
                file.seek(0)
                try:
                    head = list(itertools.islice(plain_audit.numbered(file.read(size)), MOST_CONTESTS + 1))
                    if size > 0 and len(head) <= MOST_CONTESTS:
                        head.pop()  # it may be cut off
                    return {name: len(ids) for name, (ids, _) in plain_audit.contest_records(head).items()}
                except plain_audit.Broken:
                    continue
    except OSError:
        pass
    return None


def read(top):
    """The counties of a state's folder, each with its terms and contests."""
    try:
        names = sorted(each.name for each in os.scandir(os.path.join(top, "counties")) if each.is_dir() and not each.name.startswith("."))
    except OSError as fault:
        raise Refusal(1, f"state: {os.path.join(top, 'counties')}: {fault.strerror}\n") from None
    bad = [name for name in names if not re.fullmatch(r"[^\x00-\x1f\\\udc80-\udcff]+", name)]
    if bad or not names:
        told = f"the name {ascii(bad[0])} has a character that no county may have" if bad else "there is no county"
        raise Refusal(1, f"state: {os.path.join(top, 'counties')}: {told}\n")
    rows = table.read(top)
    found = {name: contests_of(os.path.join(top, "counties", name, "ballots.raire")) for name in names}
    rows.see_named(found)
    counties = [county_in(rows, name, contests) for name, contests in found.items()]
    return [county for county in counties if county.terms.audit != "skip"]


def county_in(rows, name, contests):
    """A county with the terms of the table's rows. `contests` has the numbers of their candidates, or is None if the county's file can't be read."""
    each = [Contest(name, id, size, rows.of(name, id)) for id, size in (contests or {}).items()]
    return County(name, rows.of(name), [contest for contest in each if contest.terms.audit != "skip"], contests is not None)


def batches_of(counties, size):
    """The counties in order, in batches of this many contests or a few more."""
    batches, count = [[]], 0
    for county in counties:
        if count >= size:
            batches.append([])
            count = 0
        batches[-1].append(county)
        count += max(len(county.contests), 1)
    return {f"{at:04d}": batch for at, batch in enumerate(batches, 1)}


class Plan(NamedTuple):
    """What a job needs to know, so that all nodes know the same."""
    top: str
    program: str
    digest: str  # of the program
    version: str  # what a page says about the program, or an empty text for another one than ./raire
    seconds: int  # after which a run is stopped
    pages: bool
    batches: dict

    def write(self, path):
        write_whole(path, json.dumps(self, indent=1).encode())

    @staticmethod
    def read(path):
        with open(path, "rb") as file:
            plan = Plan(*json.load(file))
        return plan._replace(batches={name: [county_of(*each) for each in batch] for name, batch in plan.batches.items()})

    def counties(self):
        return [county for batch in self.batches.values() for county in batch]


def terms_of(cells):
    terms = Terms(*cells)
    return terms._replace(draws=tuple(terms.draws))


def county_of(name, terms, contests, is_read):
    return County(name, terms_of(terms), [Contest(county, id, size, terms_of(cells)) for county, id, size, cells in contests], is_read)


def write_whole(path, data):
    """Writes a file that gets its name only when it is whole."""
    os.makedirs(os.path.dirname(path), exist_ok=True)
    part = f"{path}.{os.uname().nodename}.{os.getpid()}.part"  # two nodes may have processes with the same number
    with open(part, "wb") as file:
        file.write(data)
    os.replace(part, path)


def digest_of(data):
    return hashlib.sha256(data).hexdigest()
