"""Finds the details of a broken rule: the record and its line, the word that is wrong, and what is nearly right.

It judges no file: the program has already said that a rule is broken, and where. Each function returns some sentences, from the files that the call
names and the place that the program reported.
"""
import errno
import hashlib
import json
import os
import re
import sys

from near import is_id, meant, nearest, why_no_id
from records import has_line_end, listed, quoted, record_at, records, shown
from table import limits

MOST_UNREAD = 1_000
BLANK = "\u2423"
MOST_CONTESTS = 3  # contests whose cards are all listed


def data_of(path):
    with open(path, "rb") as file:
        return file.read()


def where(record):
    told = f"A quote in line {record.line} isn't closed in that line. " if any(map(has_line_end, record.fields)) else ""
    return told + f"Record {record.number}, line {record.line}: {shown(record.text)}"


def looks_like(data):
    """What a file seems to be, to say that it was given in place of another one."""
    first = record_at(data[:65_536], 1)
    if data.lstrip()[:1] in (b"{", b"["):
        members = json_members(data)
        return "a session" if {"rounds", "seed"} & set(members) else "an assertion file"
    if first is None:
        return None
    if first.fields == ["batch", "cards"]:
        return "a manifest"
    if {"ballot", "missing"} & set(first.fields[1:3]) and "_" in first.fields[0]:
        return "a file of seen cards"
    second = record_at(data[:65_536], 2)
    return "a ballot file" if second and second.fields[0] == "Contest" else None


def begins(data, wanted):
    """How a file begins that isn't of the kind that is needed."""
    if not data.strip():
        return "The file is empty; a > after the command empties its file first"
    kind = looks_like(data)
    first = record_at(data[:65_536], 1)
    told = f"It begins with {quoted(first.text if first else data[:60].decode('latin-1'))}"
    if kind and kind != wanted:
        return told + f", as {kind} does"
    return told + (semicolons(first) or no_header(first, wanted) or nearly_a_manifest(first, wanted))


def semicolons(record):
    """A note that a record has semicolons where commas must be, if it has semicolons and no comma."""
    return "; its semicolons have to be commas" if record and ";" in record.text and "," not in record.text else ""


def no_header(record, wanted):
    """B1 for a record that is the header of a table or of a contest."""
    is_header = wanted == "a ballot file" and record and is_id(record.fields[0]) and not re.search("[0-9]", record.fields[0])
    return "; a ballot file has no header: its first record is the number of contests" if is_header else ""


def nearly_a_manifest(record, wanted):
    """M1 for a record that begins with the two words."""
    words, more = (record.fields[:2], record.fields[2:]) if record else ([], [])
    if wanted != "a manifest" or [word.lower() for word in words] != ["batch", "cards"]:
        return ""
    told = "" if words == ["batch", "cards"] else "; it has to be in lowercase"
    if more and not any(more):
        return told + ("; there is an extra comma" if len(more) == 1 else f"; there are {len(more)} extra commas") + " after cards"
    return told + (f"; {quoted(','.join(more))} comes after them" if more else "")


def json_members(data):
    try:
        value = json.loads(data)
    except (ValueError, RecursionError):
        return {}
    return value if isinstance(value, dict) else {}


def plural(number, one):
    return f"{number} {one}{'s' * (number != 1)}"


def most_of(name):
    return int(limits()[name].replace(",", ""))


def is_number(text, low, most):
    return re.fullmatch("[0-9]{1,10}", text) is not None and low <= int(text) <= most


# ---- ballot files

def heads_of(data):
    """The candidates and the record of each contest at the head of a ballot file."""
    found, count = {}, None
    for record in records(data):
        fields = record.fields
        if count is None:
            if not is_number(fields[0], 1, 10**9):
                break
            count = int(fields[0])
        elif record.number > count + 1 or len(fields) < 3 or fields[0] != "Contest":
            break
        else:
            size = int(fields[2]) if is_number(fields[2], 1, 10**9) else 0
            found.setdefault(fields[1], (fields[3 : 3 + size], record))
    return found


def contest_record(data, at):
    """B2: what a contest's record must begin with."""
    record = record_at(data, at)
    if record is None:
        return [f"The file ends before record {at}"]
    fields = record.fields
    if fields[0] != "Contest":
        told = f'{quoted(fields[0])} is in place of "Contest"' + semicolons(record)
    elif len(fields) < 3:
        told = f"It has {len(fields)} fields; it needs at least 3"
    else:
        told = f"{quoted(fields[1])} is repeated"
    return [told, where(record)]


def number_of_candidates(data, at):
    """B3"""
    record = record_at(data, at)
    fields = record.fields
    if not is_number(fields[2], 1, 10**9):
        told = f"{quoted(fields[2])} isn't a number of candidates"
    elif len(fields) - 3 < int(fields[2]):
        told = f"It says {plural(int(fields[2]), 'candidate')}, and {plural(len(fields) - 3, 'id')} follow{'s' * (len(fields) == 4)}"
    else:
        told = f"It says {plural(int(fields[2]), 'candidate')}"
    return [told, where(record)]


def wrong_id(data, at):
    """B4: any of the ids in a contest's record, or the ballot's own id in a ballot."""
    record = record_at(data, at)
    fields = record.fields
    ids = fields[1:2]
    if fields[0] == "Contest" and at - 2 < int(record_at(data, 1).fields[0]):
        ids += fields[3 : 3 + int(fields[2])]
    wrong = next((text for text in ids if not is_id(text)), None)
    told = f"{quoted(next((text for text in ids[1:] if ids[1:].count(text) > 1), ''))} is repeated" if wrong is None else why_no_id(wrong)
    return [told, where(record)]


def contest_asked_for(data, asked):
    """B5"""
    heads = heads_of(data)
    told = f"The file has the contests {listed(list(heads))}"
    if asked is None:
        return [told, "Name one with --contest"]
    near = meant(asked, heads, "")
    return [told, f"{quoted(asked)} is none of them" + (f"; {near}" if near else "")]


def contest_of_session(data, name):
    """B5 if the contest is that of a session"""
    return [f"The session is of contest {quoted(name)}, and the file has {listed(list(heads_of(data)))}"]


def short_ballot(data, at):
    """B6"""
    return [where(record_at(data, at))]


def other_contest(data, at):
    """B7"""
    record, heads = record_at(data, at), heads_of(data)
    if record.fields[0] == "Contest":
        return [f"The number of contests in the first record, {len(heads)}, is too small", where(record)]
    return [is_none("contest", record.fields[0], heads, "the file has"), where(record)]


def is_none(what, text, names, who_has):
    near = nearest(text, names)
    return f"{quoted(text)} isn't a {what}; {who_has} " + (quoted(near) if near else listed(list(names)))


def no_candidate(record, preferences, ids):
    """B8 and V5: the first preference that isn't the id of a candidate."""
    wrong = next(text for text in preferences if text and text not in ids)
    return [is_none("candidate", wrong, ids, "the contest has"), where(record)]


def ranked_nobody(data, at):
    """B8"""
    record = record_at(data, at)
    return no_candidate(record, record.fields[2:], heads_of(data)[record.fields[0]][0])


def stood_before(data, at, fields):
    """B9 and V3: the first record that has these fields."""
    record = record_at(data, at)
    had = next(had for had in records(data) if had.fields[:fields] == record.fields[:fields] and had.number > number_of_heads(data, fields))
    return [f"{quoted(record.fields[fields - 1])} is also in record {had.number}, line {had.line}", where(record)]


def number_of_heads(data, fields):
    return 0 if fields == 1 else int(record_at(data, 1).fields[0]) + 1


def recorded_twice(data, at):
    """B9"""
    return stood_before(data, at, 2)


def too_many(data, at):
    """B10 and M5"""
    return [where(record_at(data, at))]


def more_ballots(data, contest, cards):
    """B11"""
    head = number_of_heads(data, 2)
    own = sum(record.number > head and (contest is None or record.fields[0] == contest) for record in records(data))
    return [f"The contest has {plural(own, 'ballot')}, and --cards says {cards}"]


# ---- manifests, and ids of cards

def batch_fields(data, at):
    """M2"""
    record = record_at(data, at)
    parts = record.fields[1:]
    grouped = len(parts) > 1 and all(map(str.isdigit, parts)) and len(set(map(len, parts[1:]))) == 1
    told = f"It has {plural(len(record.fields), 'field')}"
    return [told + (f"; without commas the number would be {''.join(parts)}" if grouped else semicolons(record)), where(record)]


def batch_cards(data, at):
    """M3"""
    record = record_at(data, at)
    plain = re.sub("[^0-9]", "", record.fields[1])
    near = plain and plain != record.fields[1] and is_number(plain, 1, 10**9)
    told = f"{quoted(record.fields[1])} isn't a number of cards" + (f"; {plain} would be one" if near else "")
    return [told, where(record)]


def batch_id(data, at):
    """M4"""
    record = record_at(data, at)
    name = record.fields[0]
    had = next(had for had in records(data) if had.fields[0] == name and had.number > 1)
    if had.number < at:
        return [f"{quoted(name)} is also in record {had.number}, line {had.line}", where(record)]
    return [why_no_id(name, most_of("MOST_BATCH_BYTES")), where(record)]


def batches_of(data):
    """The number of cards of each batch."""
    return {record.fields[0]: int(record.fields[1]) for record in records(data) if record.number > 1}


def no_card(name, batches):
    """M7 and V2: why no card of these batches has this id."""
    batch, _, number = name.rpartition("_")
    if not batch:
        return f"{quoted(name)} isn't an id of a card: that is batch, _ and number"
    if batch not in batches:
        return is_none("batch", batch, batches, "the manifest has")
    plain = number.lstrip("0")
    if plain != number and is_number(plain, 1, batches[batch]):
        return f"{quoted(name)} has a leading zero in its number; the card is {quoted(f'{batch}_{plain}')}"
    many = "s, and {} is none of their numbers" if batches[batch] > 1 else ", and {} isn't its number"
    return f"{quoted(batch)} has {batches[batch]} card" + many.format(quoted(number))


# ---- seen cards

WORDS = ("ballot", "missing")


def seen_record(data, at, has_contest):
    """V1"""
    record = record_at(data, at)
    fields = record.fields
    if at == 1 and looks_like(data) not in (None, "a file of seen cards"):
        return [begins(data, "a file of seen cards")]
    if has_contest and fields[1:2] and fields[1] in WORDS:
        told = f"The contest's id is missing between the card and {quoted(fields[1])}"
    elif not has_contest and fields[2:3] and fields[1] not in WORDS and fields[2] in WORDS:
        told = f"The contest's id is between the card and {quoted(fields[2])}: only ./raire contests reads such a file"
    elif len(fields) < 2 + has_contest:
        told = f"It has {plural(len(fields), 'field')}" + ("; it needs at least 3" if has_contest else "") + semicolons(record)
    elif fields[1 + has_contest] not in WORDS:
        word = fields[1 + has_contest]
        told = f"{quoted(word)} isn't a word of a seen card; {meant(word, WORDS, 'the words are ' + listed(WORDS))}"
    else:
        told = f"{quoted(next(text for text in fields[2 + has_contest:] if text))} comes after missing"
    return [told, where(record)]


def seen_twice(data, at):
    """V3 for a card in a contest: the first record that has both."""
    record = record_at(data, at)
    had = next(had for had in records(data) if had.fields[:2] == record.fields[:2])
    return [f"{quoted(record.fields[0])} is also with {quoted(record.fields[1])} in record {had.number}, line {had.line}", where(record)]


def other_contest_seen(record, ballots):
    """V6"""
    return [is_none("contest", record.fields[1], heads_of(ballots), "the ballot file has"), where(record)]


def drawn_cards(seed, manifest, draws):
    """The cards of these draws, in the order of their first draws, each with its first draw."""
    sys.path.append(os.path.join(os.path.dirname(os.path.dirname(os.path.dirname(os.path.abspath(__file__)))), "plain"))
    import plain_audit

    cards, found = plain_audit.Manifest(batches_of(manifest)), {}
    for k in range(1, draws + 1):
        found.setdefault(cards.card(plain_audit.drawn(seed, k, cards.cards)), k)
    return found


def unread(seed, manifest, seen, draws):
    """V4: all drawn cards that have no record, in the order of their first draws."""
    read, drawn = {record.fields[0] for record in records(seen)}, drawn_cards(seed, manifest, draws)
    return [*other_draws(seed, read, drawn), told_unread([card for card in drawn if card not in read], drawn, "")]


def other_draws(seed, read, drawn):
    """A note that the cards may have been read for other draws, if most of the drawn cards aren't read."""
    if 2 * len(drawn.keys() - read) <= len(drawn):
        return []
    shown = quoted(seed.replace(" ", BLANK)) + f", where each {BLANK} is a blank" * (" " in seed)
    return [f"Most drawn cards aren't read. If they should be, check the seed and the manifest. The seed is {shown}"]


def told_unread(left, drawn, of):
    more = f" and {len(left) - MOST_UNREAD} more" if len(left) > MOST_UNREAD else ""
    return f"Not read yet{of} ({len(left)} of the {len(drawn)} cards that are drawn): {', '.join(left[:MOST_UNREAD])}{more}"


def unread_in_contests(seed, manifest, seen, draws, ballots, k):
    """V4 for all contests: the same for the contests whose first card without a record is that of draw k. Tied contests may be among them."""
    read, drawn = {tuple(record.fields[:2]) for record in records(seen)}, drawn_cards(seed, manifest, draws)
    left = {name: [card for card in drawn if (card, name) not in read] for name in heads_of(ballots)}
    meant = [name for name, cards in left.items() if cards and drawn[cards[0]] == k]
    told = [told_unread(left[name], drawn, f" for {quoted(name)}") for name in meant[:MOST_CONTESTS]]
    return [
        *other_draws(seed, {card for card, _ in read}, drawn), *told, *[f"So it is for {listed(meant[MOST_CONTESTS:])}"] * bool(meant[MOST_CONTESTS:]),
        *["A tied contest needs none"] * (len(meant) > 1),
        *without_contest(left, meant, ballots),
    ]


def without_contest(left, meant, ballots):
    """How to write that a card doesn't have the contest, for the unread cards without a record of it. Most of these don't have it."""
    recorded = {tuple(record.fields[:2]) for record in records(ballots)}
    found = [f"{card},{name},ballot" for name in meant[:MOST_CONTESTS] for card in left[name] if (name, card) not in recorded]
    told = f"{len(found)} of these {'has' if len(found) == 1 else 'have'} no record in the ballot file"
    return [f"{told}: if the card doesn't have the contest, write {found[0]}"] if found else []


# ---- assertion files and sessions

MEMBERS = ("assertions", "candidates", "contest", "margin", "records", "version", "winner")
OF_ASSERTION = ("kind", "loser", "margin", "winner")
TERMS = ("cards", "gamma", "limit")  # members of a plan, like the draws of each assertion
COVER_VERSION = 3  # the version of a file without an order
NUMBERS = ("margin", "records", "version", *TERMS)
OF_SESSION = ("assertions", "ballots", "cards", "contest", "gamma", "limit", "manifest", "margins", "rounds", "seed", "signed_off", "version")


def no_json(data, wanted):
    """F1, and S1 for a file that isn't JSON."""
    if not data.strip() or looks_like(data) not in (None, "an assertion file", "a session"):
        return [begins(data, wanted)]
    try:
        json.loads(data.decode("utf-8"))
    except UnicodeDecodeError as fault:
        return [f"Byte {fault.start + 1} isn't UTF-8"]
    except json.JSONDecodeError as fault:
        cut = fault.pos >= len(data.decode("utf-8").rstrip())
        return ["The file ends before the object does" if cut else f"It isn't JSON: see line {fault.lineno}, character {fault.colno}"]
    except RecursionError:
        pass
    return []


def missing(value, members):
    lacks = [name for name in members if not isinstance(value, dict) or name not in value]
    return f"It lacks {listed(lacks)}" if lacks else None


def is_counted(value):
    """Whether a member may be a number of an assertion file."""
    return type(value) is int and 0 <= value <= most_of("MOST_NUMBER")


def is_text(value):
    return isinstance(value, str)


def are_texts(value):
    return isinstance(value, list) and all(map(is_text, value))


def kinds():
    """For each member, what it may be, in words, and whether a value is that. The draws of an assertion may also be null, and have words of their own."""
    return {
        "assertions": ("a list", lambda value: isinstance(value, list)), "kind": ('"NEB" or "NEN"', lambda value: value in ("NEB", "NEN")),
        **dict.fromkeys(("contest", "loser", "winner"), ("a text in quotes", is_text)),
        **dict.fromkeys(("candidates", "order", "rest"), ("a list of texts in quotes", are_texts)),
        **dict.fromkeys(NUMBERS, (f"0 to {most_of('MOST_NUMBER')}, in digits alone", is_counted)),
    }


def wrong_member(value, members):
    """F2: a member that is missing, or of another kind."""
    told = missing(value, members)
    if told:
        return told
    wrong = [(name, wanted) for name, (wanted, is_kind) in kinds().items() if name in members and not is_kind(value[name])]
    return next((f"Its {quoted(name)} is {shown(json.dumps(value[name]), 70)}; it has to be {wanted}" for name, wanted in wrong), None)


def wrong_kind(file):
    """F2 at 0"""
    if is_cover(file) and "order" in file:
        return f"It says version {COVER_VERSION}, which has no order"
    return wrong_member(file, MEMBERS + ("order",) * (not is_cover(file)) + TERMS * is_planned(file))


def assertion(data, rule, at):
    """F2 to F6: what is wrong with the file's own members, or with one assertion."""
    file = json_members(data)
    if at == 0:
        return [part for part in ["It is a session" if looks_like(data) == "a session" else OF_HEAD[rule](file)] if part]
    one = file["assertions"][at - 1]
    told = OF_ONE[rule](file, one)
    return [part for part in (told, f"Assertion {at}: {shown(json.dumps(one, separators=(',', ':')).encode().decode('latin-1'))}") if part]


def twice(names):
    return next((name for name in names if names.count(name) > 1), None)


def wrong_list(file):
    """F4 at 0"""
    ids = file["candidates"]
    wrong = next((name for name in [file["contest"], *ids] if not is_id(name)), None)
    if wrong is not None:
        return why_no_id(wrong)
    if not int(limits()["FEWEST_CANDIDATES"]) <= len(ids) <= int(limits()["MOST_CANDIDATES"]):
        return f"It has {plural(len(ids), 'candidate')}"
    if twice(ids) is not None:
        return f"{quoted(twice(ids))} is repeated among the candidates"
    return wrong_candidate(file, [file["winner"], *file.get("order", [])])


def wrong_order(names, wanted, what):
    """F5: who is in the order or the rest twice, or is missing there."""
    if twice(names) is not None:
        return f"{quoted(twice(names))} is repeated in the {what}"
    lacks = [name for name in wanted if name not in names]
    return f"The {what} lacks {listed(lacks)}" if lacks else None


def is_cover(file):
    return isinstance(file, dict) and file.get("version") == COVER_VERSION


def is_planned(file):
    """Whether the members of a plan are needed: in version 2, and in the version without an order if the file has any of them."""
    return isinstance(file, dict) and (file.get("version") == 2 or (is_cover(file) and not file.keys().isdisjoint(TERMS)))


def wrong_margin(file, margin):
    """F6"""
    if not 1 <= file["records"] <= most_of("MOST_RECORDS"):
        return f"It says {plural(file['records'], 'record')}"
    if margin > file["records"]:
        return f"Its margin {margin} is above the {plural(file['records'], 'record')}"
    return None if margin else "Its margin is 0"


def wrong_terms(file):
    """F6 for what a plan has at its head"""
    if not is_planned(file):
        return None
    if file["cards"] < file["records"]:
        return f"It says {plural(file['cards'], 'card')} for {plural(file['records'], 'record')}"
    if file["cards"] > most_of("MOST_CARDS"):
        return f"It says {plural(file['cards'], 'card')}"
    most = {"gamma": most_of("GREATEST_GAMMA"), "limit": most_of("GREATEST_LIMIT")}
    name = next((name for name in most if not 1 <= file[name] <= most[name]), None)
    return name and f"Its {name} is {file[name]}; it has to be 1 to {most[name]}"


def wrong_draws(file, one):
    """F2 and F6 for an assertion with draws: what these are."""
    if not is_planned(file) or not isinstance(one, dict) or one.get("draws") is None:
        return None
    if not is_counted(one["draws"]):
        return f"Its draws are {shown(json.dumps(one['draws']), 70)}; they have to be null or 1 to {most_of('MOST_DRAWS')}, in digits alone"
    return None if 1 <= one["draws"] <= most_of("MOST_DRAWS") else f"Its draws are {one['draws']}"


def wrong_part(file, one):
    """F2 for an assertion"""
    is_nen = isinstance(one, dict) and one.get("kind") == "NEN"
    told = wrong_member(one, OF_ASSERTION + ("rest",) * is_nen + ("draws",) * is_planned(file)) or wrong_draws(file, one)
    if told is None and is_cover(file) and not is_planned(file) and "draws" in one:
        return "It has draws, and the file has no cards, gamma and limit for them"
    return told


def wrong_name(file, one):
    """F4 for an assertion"""
    told = wrong_candidate(file, [one["winner"], one["loser"], *(one.get("rest") or [])])
    return told or f"{quoted(one['winner'])} is its winner and its loser"


OF_HEAD = {
    "F2": wrong_kind, "F3": lambda file: f"It says version {file['version']}", "F4": wrong_list,
    "F5": lambda file: wrong_order(file["order"], file["candidates"], "order"), "F6": lambda file: wrong_margin(file, file["margin"]) or wrong_terms(file),
}
OF_ONE = {
    "F2": wrong_part, "F4": wrong_name,
    "F5": lambda file, one: wrong_order(one["rest"], [one["winner"], one["loser"]], "rest"),
    "F6": lambda file, one: wrong_margin(file, one["margin"]) or wrong_draws(file, one),
}


def wrong_candidate(file, named, had="the file has"):
    ids = file["candidates"]
    wrong = next((name for name in named if name not in ids), None)
    return None if wrong is None else is_none("candidate", str(wrong), ids, had)


# ---- claims files

CLAIMS_MEMBERS = ("assertions", "candidates", "contest", "winner")
OF_CLAIM = ("kind", "loser", "winner")


def claims(data, rule, at, contest, ids):
    """C2 to C5: what is wrong with the file's own members, or with one assertion, for this contest with these candidates."""
    file = json_members(data)
    if at == 0:
        return [part for part in [wrong_claims(rule, file, contest, ids)] if part]
    one = file["assertions"][at - 1]
    told = wrong_claim(rule, one, ids)
    return [part for part in (told, f"Assertion {at}: {shown(json.dumps(one, separators=(',', ':')).encode().decode('latin-1'))}") if part]


def wrong_claims(rule, file, contest, ids):
    """C2 to C4 at 0"""
    if rule == "C2":
        return wrong_member(file, CLAIMS_MEMBERS)
    if rule == "C3":
        return f"It is about {quoted(file['contest'])}, and the ballots are about {quoted(contest)}"
    names = file["candidates"]
    lacks = [name for name in ids if name not in names]
    told = wrong_candidate({"candidates": ids}, [*names, file["winner"]], "the contest has")
    return told or (f"{quoted(twice(names))} is repeated among the candidates" if twice(names) else f"The candidates lack {listed(lacks)}")


def wrong_claim(rule, one, ids):
    """C2, C4 and C5 for an assertion"""
    is_nen = isinstance(one, dict) and one.get("kind") == "NEN"
    if rule == "C2":
        return wrong_member(one, OF_CLAIM + ("rest",) * is_nen)
    rest = one["rest"] if is_nen else []
    if rule == "C5":
        return wrong_order(rest, [one["winner"], one["loser"]], "rest")
    told = wrong_candidate({"candidates": ids}, [one["winner"], one["loser"], *rest], "the contest has")
    return told or f"{quoted(one['winner'])} is its winner and its loser"


def too_few_cards(data, manifest):
    """F7"""
    return [f"The assertions are about {json_members(data)['records']} ballots, and the manifest has {sum(batches_of(manifest).values())} cards"]


def no_session(data):
    """S1"""
    members = json_members(data)
    if not members:
        return no_json(data, "a session")
    if "rounds" not in members and "candidates" in members:
        return ["It is an assertion file"]
    told = missing(members, OF_SESSION)
    return [told] if told else []


def other_bytes(expected, paths):
    """S2: the file of the call that has the digest in the session."""
    named = [path for path in paths if hashlib.sha256(data_of(path)).hexdigest() == expected]
    return [f"{quoted(named[0])} has the first digest; see the order of the files"] if named else []


# The digest of no bytes: a plurality session has it instead of the digest of an assertion file.
NO_ASSERTIONS = hashlib.sha256(b"").hexdigest()


def other_audit(command):
    """S2 if a plurality session is given to `audit`, or the other way around."""
    if command == "plurality":
        return ["The session was opened with an assertion file; audit continues it"]
    return ["The session is one of plurality, which has no assertion file; plurality continues it"]


# ---- files that can't be read

def no_such_file(path):
    if os.path.islink(path):
        return ["It is a link, and where it leads there is no file"]
    folder = os.path.dirname(path) or "."
    if not os.path.isdir(folder):
        return [f"There is no folder {quoted(folder)}"]
    near = nearest(os.path.basename(path), sorted(os.listdir(folder)))
    return [f"The closest match is {quoted(os.path.join(os.path.dirname(path), near))}"] if near else []


def unreadable(path):
    """Why a file can't be read, by what the system says when it is read again."""
    try:
        with open(path, "rb") as file:
            file.read(most_of("MOST_FILE_BYTES") + 1)
    except OSError as fault:
        return [why_unreadable(path, fault.errno)]
    return []


def why_unreadable(path, fault):
    told = {
        errno.EISDIR: "It is a folder", errno.ENOTDIR: f"{quoted(file_before(path))} is a file, not a folder",
        errno.EACCES: "You don't have permission to read it, or to go through a folder of its path", errno.EPERM: "You don't have permission to read it",
        errno.ENAMETOOLONG: "Its name is longer than the system allows", errno.ELOOP: "Its links form a loop, or there are too many",
    }
    return told.get(fault, f"The system says: {os.strerror(fault)}")


def file_before(path):
    """The file that a path goes through as if it were a folder."""
    parent = os.path.dirname(path)
    while parent and not os.path.exists(parent):
        path, parent = parent, os.path.dirname(parent)
    return parent


def size(path):
    return [f"It has {os.path.getsize(path)} bytes; the limit is {most_of('MOST_FILE_BYTES')}"]
