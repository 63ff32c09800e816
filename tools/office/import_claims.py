"""Turns the assertions of another tool into a file of claims: it names candidates by their ids, and says for each NEN who is still in."""
import json

import called
import import_shangrla
import import_solution
from alike import folded
from ask import read, Refusal
from convert_export import refused
from import_form import NAME
from limits import FEWEST_CANDIDATES, MOST_CANDIDATES
from plain import is_id
from records import short
from words import see_output, Words

MOST_TOLD = 20  # the contests of a file that a refusal lists at most
FORMS = {
    "raire-java": import_solution.of_java, "raire-rs": import_solution.of_rs, "shangrla": import_shangrla.of_contests, "raire": import_shangrla.of_audits,
}


def words_of(words):
    parser = Words(NAME)
    parser.add_argument("form", choices=FORMS)
    parser.add_argument("files", nargs="+")
    parser.option("--contest", "--names", "--winner")
    given = parser.parse_intermixed_args(words)
    if given.contest is not None and not is_id(given.contest):
        parser.error("--contest is the id of a contest")
    return given


class Ids:
    """The id of each candidate that a file names. Without a file of names, the name in the file must be the id."""

    def __init__(self, names, path, contest):
        self.path, self.names = path, names.of(contest) if path is not None else None
        self.by_look = {folded(name): key for key, name in (self.names or {}).items()}
        self.found = {}

    def of(self, who, place):
        if who not in self.found:
            self.found[who] = self.by_ids(who, place) if self.names is None else self.by_names(who, place)
        return self.found[who]

    def by_ids(self, who, place):
        if not is_id(who):
            raise refused(place, f"{short(who)!r} can't be the id of a candidate; --names says which id has this name")
        return who

    def by_names(self, who, place):
        """The id of a candidate. Names that look alike are the same. An id counts too, unless it is somebody else's name."""
        by_name, by_id = self.by_look.get(folded(who)), who if who in self.names else None
        if None not in (by_name, by_id) and by_name != by_id:
            raise refused(place, f"{who} is the name of {by_name}, and the id of somebody else in {self.path}")
        if (by_name or by_id) is None:
            raise refused(place, f"{short(who)} isn't in {self.path}")
        return by_name or by_id


class Contest:
    """One contest of the file, with the ids of the ballot file."""

    def __init__(self, source, contest, ids, winner):
        self.place, self.contest, self.ids = source.place, contest, ids
        self.candidates = self.listed(source.candidates)
        self.known = set(self.candidates)
        self.winner = self.who_won(source.winner, winner)
        self.assertions = [self.assertion(claim) for claim in source.claims]

    def listed(self, candidates):
        """The candidates. If there is a file of names, they are in its order, which is that of the ballot file."""
        if candidates is None and not self.ids.names:
            raise refused(self.place, "doesn't list the candidates; --names does")
        found = [self.ids.of(each, self.place) for each in candidates] if candidates is not None else list(self.ids.names)
        see_once(found, "candidates", self.place)
        if not FEWEST_CANDIDATES <= len(found) <= MOST_CANDIDATES:
            raise refused(self.place, f"has {len(found)} candidates; {FEWEST_CANDIDATES} to {MOST_CANDIDATES} can be audited")
        return [each for each in self.ids.names if each in found] if self.ids.names else found

    def who_won(self, said, given):
        if said is None and given is None:
            raise refused(self.place, "doesn't say who won; --winner does")
        winners = {self.candidate(each, self.place) for each in (said, given) if each is not None}
        if len(winners) > 1:
            raise refused(self.place, f"says that {said} won, and --winner says {given}")
        return winners.pop()

    def candidate(self, who, place):
        found = self.ids.of(who, place)
        if found not in self.known:
            raise refused(place, f"{found} isn't among the candidates")
        return found

    def assertion(self, claim):
        winner, loser = (self.candidate(each, claim.place) for each in (claim.winner, claim.loser))
        if winner == loser:
            raise refused(claim.place, f"its winner is its loser, {winner}")
        if claim.kind == "NEB":
            return {"kind": "NEB", "loser": loser, "winner": winner}
        named = [self.candidate(each, claim.place) for each in (claim.out if claim.rest is None else claim.rest)]
        see_once(named, "already_eliminated" if claim.rest is None else "continuing", claim.place)
        rest = [each for each in self.candidates if (each in named) != (claim.rest is None)]
        if not {winner, loser} <= set(rest):
            raise refused(claim.place, f"its winner {winner} or its loser {loser} is no longer in")
        return {"kind": "NEN", "loser": loser, "rest": rest, "winner": winner}

    def text(self):
        claims = {"assertions": self.assertions, "candidates": self.candidates, "contest": self.contest, "winner": self.winner}
        return json.dumps(claims, sort_keys=True, separators=(",", ":")) + "\n"


def see_once(ids, what, place):
    twice = next((each for each in ids if ids.count(each) > 1), None) if len(set(ids)) < len(ids) else None
    if twice is not None:
        raise refused(place, f"{what} has {twice} twice")


def names_of(path):
    if path is None:
        return called.Nobody()
    try:
        return called.Called(path, read(NAME, path))
    except called.BadNames as bad:
        raise Refusal(2, f"{NAME}: {bad}\n") from None


def looks_of(contest, names):
    """The forms of a contest's possible names: its id, and its name in the file of names."""
    return {folded(contest), folded(getattr(names, "contests", {}).get(contest, contest))}


def chosen(sources, contest, names, files):
    """The contest that is meant."""
    wanted = sources if contest is None or len(sources) == 1 else [each for each in sources if looks_of(contest, names) & set(map(folded, each.names))]
    if len(wanted) != 1:
        listed = "; ".join(" or ".join(map(short, each.names)) or "one without a name" for each in sources[:MOST_TOLD]) + "; .." * (len(sources) > MOST_TOLD)
        raise refused(" ".join(files), f"name the contest with --contest; there are: {listed or 'none'}")
    return wanted[0]


def contest_of(source, contest, names):
    """The id of the contest: the one that is given, or else the one by which the file names it."""
    if contest is not None:
        return contest
    by_look = {folded(name): key for key, name in getattr(names, "contests", {}).items()}
    found = next(filter(None, [by_look.get(folded(each)) for each in source.names]), None) or next(filter(is_id, source.names), None)
    if found is None:
        raise refused(source.place, "has no id of its contest; --contest gives it")
    return found


def made(given, names):
    source = chosen(FORMS[given.form](given.files), given.contest, names, given.files)
    contest = contest_of(source, given.contest, names)
    if names.has_contests and not names.of(contest):
        raise Refusal(2, f"{NAME}: {given.names} has no candidates of contest {contest}\n")
    return Contest(source, contest, Ids(names, given.names, contest), given.winner), source


def answer(words):
    given = words_of(words)
    see_output(NAME, filter(None, [*given.files, given.names]))
    names = names_of(given.names)
    try:
        claims, source = made(given, names)
    except Refusal as refusal:
        raise Refusal(refusal.status, refusal.text.replace("convert: ", f"{NAME}: ", 1)) from None
    count = sum(each["kind"] == "NEB" for each in claims.assertions)
    number = len(claims.assertions)
    told = f"{number} assertion{'s'[: number != 1]} of contest {claims.contest}, {count} NEB and {number - count} NEN; winner {claims.winner}"
    is_called_so = not source.names or looks_of(claims.contest, names) & set(map(folded, source.names))
    called_so = "" if is_called_so else f"; the file calls the contest {short(source.names[0])}"
    return claims.text(), f"{NAME}: {told}{called_so}. Nothing is proved about them yet\n"
