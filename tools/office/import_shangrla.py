"""Reads assertions in SHANGRLA's terms, which list who is eliminated already instead of who is still in."""
from convert_export import member, option, Place, refused
from import_form import Claim, document, names_in, see_object, Source, texts
from records import short

KINDS = {"WINNER_ONLY": "NEB", "IRV_ELIMINATION": "NEN"}
ASSERTIONS = "assertion_json"


def of_audits(paths):
    """The contests of a file with a list of audits, such as RAIRE and ./raire export shangrla write."""
    path = only(paths)
    return [of_audit(audit, Place(path, "audit", number)) for number, audit in enumerate(member(document(path), "audits", list, path), 1)]


def of_audit(audit, place):
    winner = member(audit, "winner", str, place)
    order = texts(option(audit, "eliminated", list, place, []), "eliminated", place)
    listed = option(audit, "candidates", list, place) or ([*order, winner] if order else None)
    claims = claims_of(member(audit, "assertions", list, place), place)
    return Source(place, names_in([audit.get("contest")]), listed and texts(listed, "candidates", place), winner, claims)


def of_contests(paths):
    """The contests of a SHANGRLA notebook that have assertions: one contest, several by their ids, or only a list of assertions."""
    path = only(paths)
    found = document(path)
    if type(found) is list:
        return [Source(path, [], None, None, claims_of(found, Place(path)))]
    contests = {"": found} if ASSERTIONS in see_object(found, path) else option(found, "contests", dict, path, found)
    with_claims = {key: each for key, each in contests.items() if type(each) is dict and each.get(ASSERTIONS) is not None}
    if not with_claims:
        raise refused(path, f"no contest has {ASSERTIONS}" + "; it has audits: its form is raire" * ("audits" in found))
    return [of_contest(each, key, Place(path, "contest", short(key)) if key else Place(path)) for key, each in with_claims.items()]


def of_contest(contest, key, place):
    listed = option(contest, "candidates", list, place)
    winner = contest.get("winner")
    if type(winner) is list and len(winner) == 1:
        winner, = winner
    if winner is not None and type(winner) is not str:
        raise refused(place, "its winner isn't one candidate")
    names = names_in([key, contest.get("id"), contest.get("name")])
    return Source(place, names, listed and texts(listed, "candidates", place), winner, claims_of(member(contest, ASSERTIONS, list, place), place))


def claims_of(entries, place):
    return [claim_of(entry, place.at(f"assertion {number}")) for number, entry in enumerate(entries, 1)]


def claim_of(entry, place):
    """A claim. Who is eliminated already only counts for a NEN: for a NEB, files have an empty text or an empty list there."""
    kind = member(entry, "assertion_type", str, place)
    if kind not in KINDS:
        raise refused(place, f"its assertion_type is {short(kind)}; expected WINNER_ONLY or IRV_ELIMINATION")
    winner, loser = (member(entry, name, str, place) for name in ("winner", "loser"))
    out = texts(member(entry, "already_eliminated", list, place), "already_eliminated", place) if KINDS[kind] == "NEN" else None
    return Claim(place, KINDS[kind], winner, loser, out=out)


def only(paths):
    if len(paths) > 1:
        raise refused(" ".join(paths), "this form is one file")
    return paths[0]
