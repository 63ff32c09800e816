#!/usr/bin/python3
"""The whole suite once more, written plainly and independently: every command from its words to its texts.

It follows docs/formats.md and docs/rules.md with only hashlib and whole numbers, and uses plain.py to search contests and judge assertion files. `run`
gives the status and the two texts for a line of words, as `raire` does, except that it never lacks memory and that no search by nodes is ever out of
budget. A check walks all orders, so it is for contests of up to about seven candidates; with sets, searches and checks are for up to sixteen.

    plain/plain_audit.py COMMAND FILES.. OPTIONS..
"""
import bisect
import hashlib
import json
import re
import sys

import plain
import plain_adopt
import plain_contests
import plain_plurality
import plain_poll
import plain_sets
import plain_trim
from plain_draws import clean_draws, UNIT  # noqa: F401
from plain_risk import discrepancy, drawn, MISSING, risk, risk_text, value
from limits import (
    DEFAULT_NODES, FEWEST_CANDIDATES, GREATEST_EACH_GAMMA, GREATEST_GAMMA, GREATEST_LIMIT, MOST_BATCH_BYTES, MOST_BATCH_CARDS, MOST_CANDIDATES, MOST_CARDS,
    MOST_CONTESTS, MOST_DRAWS, MOST_FILE_BYTES, MOST_FLOOR, MOST_LISTED, MOST_NODES, MOST_NUMBER, MOST_RECORDS, MOST_SEED_BYTES,
    MOST_SETS, MOST_WORKERS,
)

MARK = b"\xef\xbb\xbf"


class Broken(Exception):
    """A file breaks a rule at a place."""

    def __init__(self, rule, at):
        super().__init__(f"{rule} at {at}")


class End(Exception):
    """A call ends here, with its status and what it writes."""

    def __init__(self, status, out="", err=""):
        super().__init__(status)
        self.answer = status, out, err


def refused(path, text):
    return End(2, err=f"raire: {path}: {text}\n")


# ---- comma-separated files

def rows_of(text):
    """The records of a text: a quote opens a field, two quotes in it stand for one, and what follows the closing quote is plain."""
    row, field, state = [], "", "row"
    for c in text:
        if state == "row":
            if c in "\r\n":
                continue
            row, field, state = [], "", "field"
        if state == "field":
            field, state = "", "quoted" if c == '"' else "plain"
            if c == '"':
                continue
        if state == "quoted":
            field, state = (field, "quote") if c == '"' else (field + c, "quoted")
            continue
        if state == "quote" and c == '"':
            field, state = field + c, "quoted"
            continue
        state = "plain"
        if c == ",":
            row.append(field)
            field, state = "", "field"
        elif c in "\r\n":
            yield row + [field]
            state = "row"
        else:
            field += c
    if state != "row":
        yield row + [field]


def numbered(data):
    """The records of a file, in order, with the blanks around their fields removed."""
    for _ in range(2):
        data = data[len(MARK):] if data.startswith(MARK) else data
    for row in rows_of(data.decode("latin-1")):
        fields = [field.strip(" \t") for field in row]
        if fields != [""]:
            yield fields


def records_of(data):
    return list(numbered(data))


def number_in(text, low, high):
    """The number of 1 to 10 digits, if it is in this range."""
    if not re.fullmatch("[0-9]{1,10}", text) or not low <= int(text) <= high:
        return None
    return int(text)


# ---- ballot files

class Ballots(plain.Contest):
    """A contest, with the id and the record number of each ballot."""

    def __init__(self, name, ids, cast):
        super().__init__(name, ids, [ranking for _, _, ranking in cast])
        self.cast = cast


def contest_records(records):
    """The id, the candidates and the record number of each contest, in order."""
    count = number_in(records[0][0], 1, MOST_CONTESTS) if records else None
    if count is None:
        raise Broken("B1", 1)
    contests = {}
    for at in range(2, count + 2):
        row = records[at - 1] if at <= len(records) else []
        if len(row) < 3 or row[0] != "Contest" or row[1] in contests:
            raise Broken("B2", at)
        size = number_in(row[2], 1, MOST_LISTED)
        if size is None or len(row) < 3 + size:
            raise Broken("B3", at)
        ids = row[3:3 + size]
        if not all(map(plain.is_id, [row[1], *ids])) or len(set(ids)) < size:
            raise Broken("B4", at)
        contests[row[1]] = ids, at
    return contests


def ranking_of(fields, places):
    """Each candidate at its first place; None if a preference isn't a candidate."""
    ranked = [field for field in fields if field]
    return tuple(dict.fromkeys(places[field] for field in ranked)) if set(ranked) <= set(places) else None


def ballots_of(data, asked):
    """The contest that is asked for, or the file's only contest."""
    records = records_of(data)
    contests = contest_records(records)
    if asked not in contests and (asked is not None or len(contests) > 1):
        raise Broken("B5", 1)
    found, = kept_of(records, contests, [next(iter(contests)) if asked is None else asked])
    return found


def contests_of(data):
    """All contests of the file, in order."""
    records = records_of(data)
    contests = contest_records(records)
    return kept_of(records, contests, list(contests))


def kept_of(records, contests, asked):
    """The contests that are asked for, each with its own ballots; the ballots of all contests are judged."""
    for ids, at in map(contests.get, asked):
        if not FEWEST_CANDIDATES <= len(ids) <= MOST_CANDIDATES:
            raise Broken("B3", at)
    places = {name: {c: place for place, c in enumerate(ids)} for name, (ids, _) in contests.items()}
    stood, cast, first = set(), {name: [] for name in contests}, len(contests) + 2
    for at, row in enumerate(records[first - 1:], first):
        if at - first == MOST_RECORDS:
            raise Broken("B10", at)
        if len(row) < 2:
            raise Broken("B6", at)
        if not plain.is_id(row[1]):
            raise Broken("B4", at)
        if row[0] not in contests:
            raise Broken("B7", at)
        if (row[0], row[1]) in stood:
            raise Broken("B9", at)
        ranking = ranking_of(row[2:], places[row[0]])
        if ranking is None:
            raise Broken("B8", at)
        stood.add((row[0], row[1]))
        cast[row[0]].append((row[1], at, ranking))
    return [Ballots(name, contests[name][0], cast[name]) for name in asked]


# ---- manifests

class Manifest:
    def __init__(self, batches):
        self.batches, self.firsts, self.cards = batches, {}, 0
        for batch, size in batches.items():
            self.firsts[batch] = self.cards
            self.cards += size
        self.ids, self.starts = list(batches), list(self.firsts.values())

    def place(self, card):
        """The number of the card with this id, or None."""
        batch, _, number = card.rpartition("_")
        if not re.fullmatch("[1-9][0-9]*", number) or int(number) > self.batches.get(batch, 0):
            return None
        return self.firsts[batch] + int(number)

    def card(self, place):
        """The id of the card with this number, in the last batch that begins before it."""
        batch = self.ids[bisect.bisect_left(self.starts, place) - 1]
        return f"{batch}_{place - self.firsts[batch]}"


def manifest_of(data):
    records = records_of(data)
    if not records or records[0] != ["batch", "cards"]:
        raise Broken("M1", 1)
    batches, total = {}, 0
    for at, row in enumerate(records[1:], 2):
        if len(row) != 2:
            raise Broken("M2", at)
        batch, text = row
        if not plain.is_id(batch) or len(batch) > MOST_BATCH_BYTES or batch in batches:
            raise Broken("M4", at)
        size = number_in(text, 1, MOST_BATCH_CARDS)
        if size is None:
            raise Broken("M3", at)
        total += size
        if total > MOST_CARDS:
            raise Broken("M5", at)
        batches[batch] = size
    if not batches:
        raise Broken("M6", 1)
    return Manifest(batches)


def linked(ballots, manifest):
    """The recorded ranking of each card that has a ballot."""
    recorded = {}
    for card, at, ranking in ballots.cast:
        place = manifest.place(card)
        if place is None:
            raise Broken("M7", at)
        recorded[place] = ranking
    return recorded


# ---- seen files

def seen_of(data, manifest, ids):
    """What was seen of each card: its ranking, or that it is missing."""
    places, seen = {c: place for place, c in enumerate(ids)}, {}
    for at, row in enumerate(records_of(data), 1):
        see(seen, places, manifest, at, row)
    return seen


def see(seen, places, manifest, at, row):
    """Adds one more record: a card, a word and a ranking."""
    if not is_seen(row):
        raise Broken("V1", at)
    card = manifest.place(row[0])
    if card is None:
        raise Broken("V2", at)
    if card in seen:
        raise Broken("V3", at)
    ranking = ranking_of(row[2:], places)
    if ranking is None:
        raise Broken("V5", at)
    seen[card] = ranking if row[1] == "ballot" else MISSING


def is_seen(row):
    return len(row) >= 2 and row[1] in ("ballot", "missing") and not (row[1] == "missing" and any(row[2:]))


def seen_by(data, manifest, contests):
    """What was seen of each card, for each contest by its id; in a record, the contest's id comes after the card's."""
    places = {each.name: {c: place for place, c in enumerate(each.ids)} for each in contests}
    seen = {name: {} for name in places}
    for at, (card, *names, row) in enumerate(map(without_contest, records_of(data)), 1):
        if not names or not is_seen(row):
            raise Broken("V1", at)
        if manifest.place(card) is None:
            raise Broken("V2", at)
        if names[0] not in seen:
            raise Broken("V6", at)
        see(seen[names[0]], places[names[0]], manifest, at, row)
    return seen


def without_contest(row):
    """The card, the contest if there is one, and the record without it."""
    return row[0], *row[1:2], row[:1] + row[2:]


# ---- sessions

def is_seed(text):
    return 1 <= len(text) <= MOST_SEED_BYTES and all(" " <= c <= "~" for c in text)


def is_from(low, high):
    return lambda number: type(number) is int and low <= number <= high


def is_digest(text):
    return type(text) is str and re.fullmatch("[0-9a-fA-F]{64}", text)


SESSION = {
    "assertions": is_digest, "ballots": is_digest, "manifest": is_digest, "cards": is_from(1, MOST_CARDS),
    "contest": lambda text: plain.is_text(text) and plain.is_id(text), "gamma": is_from(1, GREATEST_GAMMA),
    "limit": is_from(1, GREATEST_LIMIT), "margins": plain.is_list, "rounds": plain.is_list,
    "seed": lambda text: plain.is_text(text) and is_seed(text), "signed_off": lambda value: type(value) is bool,
    "version": is_from(1, 1),
}
ROUND = {"counts": plain.is_list, "draws": is_from(1, MOST_DRAWS), "risks": plain.is_list}


def confirmed(session, claim, rounds):
    """Whether the claim's risk was within the limit at the end of one of these rounds."""
    return any(done["risks"][claim] <= session["limit"] * 10**12 for done in rounds)


def is_signed_off(session):
    claims = range(len(session["margins"]))
    return bool(session["rounds"]) and all(confirmed(session, claim, session["rounds"]) for claim in claims)


def is_round(session, done, had):
    """Whether the round has more draws than before, and has for each claim five counts that add up to them, with their risk."""
    if not plain.has(done, ROUND) or done["draws"] <= had:
        return False
    margins = session["margins"]
    if len(done["counts"]) != len(margins) or len(done["risks"]) != len(margins):
        return False
    for counts, margin, units in zip(done["counts"], margins, done["risks"]):
        if not plain.is_list(counts) or len(counts) != 5 or not all(map(is_from(0, MOST_DRAWS), counts)):
            return False
        if sum(counts) != done["draws"] or type(units) is not int:
            return False
        if units != risk(counts, session["cards"], margin, session["gamma"]):
            return False
    return True


def session_of(data):
    """The session, or None if it breaks S1."""
    try:
        session = plain.json_value(data)
    except (ValueError, RecursionError):
        return None
    if not plain.has(session, SESSION):
        return None
    margins, had = session["margins"], 0
    if not margins or not all(map(is_from(1, session["cards"]), margins)):
        return None
    for done in session["rounds"]:
        if not is_round(session, done, had):
            return None
        had = done["draws"]
    if session["signed_off"] != is_signed_off(session):
        return None
    rounds = [{name: done[name] for name in ROUND} for done in session["rounds"]]
    kept = {name: session[name] for name in SESSION} | {"rounds": rounds}
    return kept | {name: kept[name].lower() for name in ("assertions", "ballots", "manifest")}


def session_text(session):
    return json.dumps(session, sort_keys=True, separators=(",", ":")) + "\n"


# ---- the commands

def read(path):
    try:
        with open(path, "rb") as file:
            data = file.read(MOST_FILE_BYTES + 1)
    except FileNotFoundError:
        raise End(12, err=f"raire: {path}: no such file\n") from None
    except OSError:
        raise End(7, err=f"raire: {path}: read fault\n") from None
    if len(data) > MOST_FILE_BYTES:
        raise End(11, err=f"raire: {path}: too long\n")
    return data


def judged(path, judge, *given):
    """The result of `judge` for a file, or the file's refusal."""
    try:
        return judge(*given)
    except (Broken, plain.Refused) as broken:
        raise refused(path, str(broken)) from None


def tabulate(options, ballots):
    contest = judged(ballots, ballots_of, read(ballots), options.get("contest"))
    return 0, plain.tabulation(contest)


def certified(contest, floor, plan):
    """The status and the text of a search within its budget."""
    text = plain.certificate_by_bound(contest, plan)
    file = json.loads(text)
    if file["margin"] >= floor:
        return 0, text
    return 5, f"full count\norder {','.join(file['order'])}\nmargin {file['margin']}\nfloor {floor}\n"


def search(options, ballots):
    contest = judged(ballots, ballots_of, read(ballots), options.get("contest"))
    plan = plan_of(options) if "cards" in options else None
    if plan and contest.records > plan.cards:
        raise refused(ballots, "B11 at 0")
    if "sets" in options:
        return plain_sets.searched(contest, options["sets"], options.get("floor", 1), plan)
    return certified(contest, options.get("floor", 1), plan)


def plan_of(options):
    return plain.Plan(options["cards"], options.get("limit", 50_000), options.get("gamma", 100))


def budget_of(options):
    return plain.Sets(options["sets"]) if "sets" in options else options.get("nodes", DEFAULT_NODES)


def check(options, ballots, assertions):
    contest = judged(ballots, ballots_of, read(ballots), options.get("contest"))
    return judged(assertions, plain.judge, contest, read(assertions), budget_of(options))


def adopt(options, ballots, claims):
    contest = judged(ballots, ballots_of, read(ballots), options.get("contest"))
    return judged(claims, plain_adopt.adopted, contest, read(claims), budget_of(options))


def trim(options, ballots, assertions):
    contest = judged(ballots, ballots_of, read(ballots), options.get("contest"))
    data, budget = read(assertions), budget_of(options)
    accepted(contest, assertions, data, budget)
    return plain_trim.printed(data, budget)


def sample(options, path):
    manifest = judged(path, manifest_of, read(path))
    lines = []
    for k in range(1, options["draws"] + 1):
        card = drawn(options["seed"], k, manifest.cards)
        lines.append(f"{k},{card},{manifest.card(card)}\n")
    return 0, "".join(lines)


def plan(options, manifest_path, path):
    cards = judged(manifest_path, manifest_of, read(manifest_path)).cards
    file = judged(path, plain.read_assertions, read(path))
    if file["records"] > cards:
        raise refused(path, "F7 at 0")
    names, lines, most = plain.Contest(file["contest"], file["candidates"], []), [], 0
    for assertion, margin in file["assertions"]:
        draws = clean_draws(cards, margin, options.get("gamma", 100), options.get("limit", 50_000))
        lines.append(f"{plain.shown(names, assertion)} margin {margin}: " + ("full count\n" if draws is None else f"{draws} draws\n"))
        most = None if draws is None or most is None else max(most, draws)
    return 0, "".join(lines) + ("all: full count\n" if most is None else f"all: {most} draws\n")


def poll_files(options, manifest_path, path, seen_path):
    """The manifest, the assertion file, its contest and what is seen, or the end of the call: the assertions must prove their winner."""
    manifest = judged(manifest_path, manifest_of, read(manifest_path))
    file = judged(path, plain.read_assertions, read(path))
    contest = plain.Contest(file["contest"], file["candidates"], [])
    told = plain.unproved(contest, contest.ids.index(file["winner"]), file["assertions"], options.get("nodes", DEFAULT_NODES))
    if told:
        raise End(*told)
    return manifest, file, contest, judged(seen_path, seen_of, read(seen_path), manifest, contest.ids)


def poll(options, manifest_path, path, seen_path):
    manifest, file, contest, seen = poll_files(options, manifest_path, path, seen_path)
    see_all(seen_path, options["seed"], manifest.cards, seen, options["draws"])
    cards = [seen[drawn(options["seed"], k, manifest.cards)] for k in range(1, options["draws"] + 1)]
    values = [[0 if card == MISSING else value(assertion, card) for card in cards] for assertion, _ in file["assertions"]]
    names = [plain.shown(contest, assertion) for assertion, _ in file["assertions"]]
    return plain_poll.printed(names, values, manifest.cards, options["draws"], options.get("limit", 50_000), options.get("gamma", 100))


def poll_each(options, manifest_path, path, seen_path):
    """The same with a look after each draw. Cards without a record are reported only up to the draw that confirms the last assertion."""
    manifest, file, contest, seen = poll_files(options, manifest_path, path, seen_path)
    limit, gamma, seed = options.get("limit", 50_000), options.get("gamma", 100), options["seed"]
    gammas = [plain_poll.best_gamma(manifest.cards, margin) if gamma == "best" else gamma for _, margin in file["assertions"]]
    drawn_cards = [drawn(seed, k, manifest.cards) for k in range(1, options["draws"] + 1)]
    cards = [seen.get(card, MISSING) for card in drawn_cards]
    values = [[0 if card == MISSING else value(assertion, card) for card in cards] for assertion, _ in file["assertions"]]
    see_all(seen_path, seed, manifest.cards, seen, plain_poll.asked(values, limit, gammas))
    names = [plain.shown(contest, assertion) for assertion, _ in file["assertions"]]
    head = [
        f"contest {file['contest']}", f"winner {file['winner']}", f"cards {manifest.cards}", f"draws {options['draws']}", f"limit {limit}",
        f"gamma {gamma}", f"seed {seed}",
    ]
    return plain_poll.printed_each(head, names, values, limit, gammas)


def accepted(contest, path, data, budget):
    """The assertion file, or the end of the call with what a check finds first."""
    status, text = judged(path, plain.judge, contest, data, budget)
    if status:
        raise End(status, out=text)
    return plain.read_assertions(data)


def digest(data):
    return hashlib.sha256(data).hexdigest()


def opened(options, contest, cards, margins, ballots, manifest, assertions):
    """A session without rounds, for files with these bytes."""
    return {
        "assertions": digest(assertions), "ballots": digest(ballots), "cards": cards.cards, "contest": contest.name,
        "gamma": options.get("gamma", 100), "limit": options.get("limit", 50_000), "manifest": digest(manifest), "margins": margins,
        "rounds": [], "seed": options["seed"], "signed_off": False, "version": 1,
    }


def open_session(options, ballots, manifest, assertions):
    bytes_of_ballots = read(ballots)
    contest = judged(ballots, ballots_of, bytes_of_ballots, options.get("contest"))
    bytes_of_manifest = read(manifest)
    cards = judged(manifest, manifest_of, bytes_of_manifest)
    judged(ballots, linked, contest, cards)
    bytes_of_assertions = read(assertions)
    file = accepted(contest, assertions, bytes_of_assertions, budget_of(options))
    margins = [margin for _, margin in file["assertions"]]
    return 0, session_text(opened(options, contest, cards, margins, bytes_of_ballots, bytes_of_manifest, bytes_of_assertions))


def same(path, data, wanted):
    if digest(data) != wanted:
        raise refused(path, f"S2 expected {wanted} found {digest(data)}")
    return data


def counts_of(session, recorded, seen, assertion, draws):
    counts = [0] * 5
    for k in range(1, draws + 1):
        card = drawn(session["seed"], k, session["cards"])
        counts[discrepancy(assertion, recorded.get(card), seen[card])] += 1
    return counts


def see_all(path, seed, cards, seen, draws):
    """Raises V4 if the card of a draw has no record."""
    for k in range(1, draws + 1):
        card = drawn(seed, k, cards)
        if card not in seen:
            raise refused(path, f"V4 card {card} draw {k}")


def advance(session, session_path, seen_path, recorded, claims, seen, draws):
    """The session with one more round, or V4 or S3."""
    see_all(seen_path, session["seed"], session["cards"], seen, draws)
    for i, done in enumerate(session["rounds"], 1):
        for j, (assertion, _) in enumerate(claims, 1):
            had, found = done["counts"][j - 1], counts_of(session, recorded, seen, assertion, done["draws"])
            if had != found:
                numbers = f"expected {' '.join(map(str, had))} found {' '.join(map(str, found))}"
                raise refused(session_path, f"S3 round {i} claim {j} {numbers}")
    counts = [counts_of(session, recorded, seen, assertion, draws) for assertion, _ in claims]
    risks = [
        risk(counted, session["cards"], margin, session["gamma"])
        for counted, margin in zip(counts, session["margins"])
    ]
    further = {**session, "rounds": session["rounds"] + [{"counts": counts, "draws": draws, "risks": risks}]}
    return {**further, "signed_off": is_signed_off(further)}


def to_go_on(path, draws):
    """The session in a file, if its last round had fewer draws."""
    session = session_of(read(path))
    if session is None:
        raise refused(path, "S1")
    had = session["rounds"][-1]["draws"] if session["rounds"] else 0
    if draws <= had:
        raise refused(path, f"S4 had {had}")
    return session


def placed(session, ballots, manifest):
    """The contest and the cards of a session, and what is recorded for them."""
    contest = judged(ballots, ballots_of, same(ballots, read(ballots), session["ballots"]), session["contest"])
    cards = judged(manifest, manifest_of, same(manifest, read(manifest), session["manifest"]))
    return contest, cards, judged(ballots, linked, contest, cards)


def further_round(session, session_path, contest, cards, recorded, claims, seen, draws):
    """The session with one more round, if its facts are those of the other files."""
    if session["cards"] != cards.cards or session["margins"] != [margin for _, margin in claims]:
        raise refused(session_path, "S5")
    cards_seen = judged(seen, seen_of, read(seen), cards, contest.ids)
    further = advance(session, session_path, seen, recorded, claims, cards_seen, draws)
    return 0 if further["signed_off"] else 10, session_text(further)


def audit(options, session_path, ballots, manifest, assertions, seen):
    session = to_go_on(session_path, options["draws"])
    contest, cards, recorded = placed(session, ballots, manifest)
    data = same(assertions, read(assertions), session["assertions"])
    claims = accepted(contest, assertions, data, budget_of(options))["assertions"]
    return further_round(session, session_path, contest, cards, recorded, claims, seen, options["draws"])


def open_plurality(options, ballots, manifest):
    bytes_of_ballots = read(ballots)
    contest = judged(ballots, ballots_of, bytes_of_ballots, options.get("contest"))
    bytes_of_manifest = read(manifest)
    cards = judged(manifest, manifest_of, bytes_of_manifest)
    judged(ballots, linked, contest, cards)
    margins = [margin for _, margin in plain_plurality.claims(contest)]
    return 0, session_text(opened(options, contest, cards, margins, bytes_of_ballots, bytes_of_manifest, b""))


def audit_plurality(options, session_path, ballots, manifest, seen):
    session = to_go_on(session_path, options["draws"])
    same(session_path, b"", session["assertions"])
    contest, cards, recorded = placed(session, ballots, manifest)
    return further_round(session, session_path, contest, cards, recorded, plain_plurality.claims(contest), seen, options["draws"])


def report(options, path):
    session = session_of(read(path))
    if session is None:
        raise refused(path, "S1")
    lines = [f"{name} {session[name]}" for name in ("contest", "cards", "limit", "gamma", "seed")]
    for i, done in enumerate(session["rounds"], 1):
        lines.append(f"round {i} draws {done['draws']}")
        for j, margin in enumerate(session["margins"]):
            state = "confirmed" if confirmed(session, j, session["rounds"][:i]) else "unconfirmed"
            counts, units = " ".join(map(str, done["counts"][j])), risk_text(done["risks"][j])
            lines.append(f"assertion {j + 1} margin {margin} counts {counts} risk {units} {state}")
    return 0, "\n".join(lines + [f"signed off {'yes' if session['signed_off'] else 'no'}"]) + "\n"


def trial_rankings(number, n, ballots):
    """Rankings from a generator: a length, and for each place the smaller of two draws; a repeated candidate is dropped."""
    state, rankings = number, []

    def draw():
        nonlocal state
        state = (state * 6364136223846793005 + 1442695040888963407) % 2**64
        return state // 2**33

    for _ in range(ballots):
        length = 1 + draw() % n
        pairs = [(draw() % n, draw() % n) for _ in range(length)]
        rankings.append(tuple(dict.fromkeys(min(pair) for pair in pairs)))
    return rankings


def trial(options):
    n, number = options.get("candidates", 6), options["number"]
    contest = plain.Contest("trial", [str(c + 1) for c in range(n)], trial_rankings(number, n, options.get("ballots", 10_000)))
    status, text = plain_sets.searched(contest, options["sets"]) if "sets" in options else certified(contest, 1, None)
    if status:
        return status, text
    file = json.loads(text)
    lines = {
        "number": number, "candidates": n, "records": file["records"], "winner": file["winner"], "margin": file["margin"],
        "assertions": len(file["assertions"]), "order": ",".join(file["order"]),
    }
    return 0, "".join(f"{name} {value}\n" for name, value in lines.items())


def contests(options, path, manifest_path, seen_path):
    every = judged(path, contests_of, read(path))
    manifest = judged(manifest_path, manifest_of, read(manifest_path))
    seen = judged(seen_path, seen_by, read(seen_path), manifest, every)
    recorded = [judged(path, linked, contest, manifest) for contest in every]
    ends = [plain_contests.searched(contest) for contest in every]
    for contest, end in zip(every, ends):
        if end.claims:
            see_all(seen_path, options["seed"], manifest.cards, seen[contest.name], options["draws"])
    terms = {"cards": manifest.cards, "gamma": options.get("gamma", 100), "limit": options.get("limit", 50_000), "seed": options["seed"]}

    def told_by(contest, had, assertion, margin):
        counts = counts_of(terms, had, seen[contest.name], assertion, options["draws"])
        return counts, risk(counts, terms["cards"], margin, terms["gamma"])

    blocks = [
        plain_contests.block(contest, end, [told_by(contest, had, *claim) for claim in end.claims], terms["limit"])
        for contest, end, had in zip(every, ends, recorded)
    ]
    return plain_contests.printed(blocks)


# ---- words

def as_number(low, high):
    return lambda text: number_in(text, low, high)


KINDS = {
    "contest": lambda text: text if plain.is_id(text) else None, "seed": lambda text: text if is_seed(text) else None,
    "workers": as_number(1, MOST_WORKERS), "nodes": as_number(1, MOST_NODES), "sets": as_number(1, MOST_SETS), "floor": as_number(1, MOST_FLOOR),
    "limit": as_number(1, GREATEST_LIMIT), "gamma": as_number(1, GREATEST_GAMMA), "draws": as_number(1, MOST_DRAWS),
    "cards": as_number(1, MOST_CARDS), "number": as_number(0, MOST_NUMBER), "candidates": as_number(FEWEST_CANDIDATES, MOST_CANDIDATES),
    "ballots": as_number(1, MOST_RECORDS),
}

# with the flag, which has no value, gamma may be larger, or the one that fits
FLAG = "each"
EACH_KINDS = {**KINDS, "gamma": lambda text: text if text == "best" else number_in(text, 1, GREATEST_EACH_GAMMA)}

# the call, the number of its files, the options that must be given, and those that may be given
COMMANDS = {
    "tabulate": (tabulate, 1, "", "contest nodes"),
    "search": (search, 1, "", "contest workers nodes sets floor"),
    "check": (check, 2, "", "contest nodes sets"),
    "trim": (trim, 2, "", "contest nodes sets"),
    "adopt": (adopt, 2, "", "contest nodes sets"),
    "sample": (sample, 1, "seed draws", ""),
    "plan": (plan, 2, "", "limit gamma"),
    "open": (open_session, 3, "seed", "contest limit gamma nodes sets"),
    "audit": (audit, 5, "draws", "nodes sets"),
    "report": (report, 1, "", ""),
    "poll": (poll, 3, "seed draws", "limit gamma nodes"),
    "trial": (trial, 0, "number", "candidates ballots workers nodes sets"),
    "plurality": (open_plurality, 2, "seed", "contest limit gamma"),
    "contests": (contests, 3, "seed draws", "limit gamma workers nodes"),
}

# the second form of a command: with another number of files, or with an option that others need
SECOND = {
    "plurality": (audit_plurality, 4, "draws", ""), "search": (search, 1, "cards", "contest workers nodes sets floor limit gamma"),
    "poll": (poll_each, 3, "seed draws each", "limit gamma nodes"),
}


def line_of(words):
    """The call of a line with its files and the values of its options, or None if the words aren't a line."""
    forms = [table[words[0]] for table in (COMMANDS, SECOND) if words and words[0] in table]
    return next(filter(None, (line_in(form, words[1:]) for form in forms)), None)


def line_in(form, words):
    """The same for the words after a command's word, in one of its forms."""
    call, count, must, may = form
    files, options, rest = [], {}, list(words)
    kinds = EACH_KINDS if FLAG in must.split() else KINDS
    while rest:
        word = rest.pop(0)
        if word == "--":
            files, rest = files + rest, []
        elif not word.startswith("-"):
            files.append(word)
        else:
            name, has_value, text = word[2:].partition("=")
            if not word.startswith("--") or name not in (must + " " + may).split() or name in options:
                return None
            if name == FLAG:
                if has_value:
                    return None
                options[name] = True
                continue
            if not has_value:
                text = rest.pop(0) if rest and not rest[0].startswith("-") else ""
            options[name] = kinds[name](text) if text else None
            if options[name] is None:
                return None
    is_line = len(files) == count and all(files) and set(must.split()) <= set(options) and not {"nodes", "sets"} <= set(options)
    return (call, options, files) if is_line else None


def run(words):
    """The status, and what is written to standard output and standard error."""
    line = line_of(words)
    if line is None:
        return 1, "", "raire: bad words\n"
    call, options, files = line
    try:
        status, out = call(options, *files)
    except End as end:
        return end.answer
    except plain.Tie as tie:
        return 3, str(tie), ""
    return status, out, ""


def main():
    status, out, err = run(sys.argv[1:])
    sys.stdout.write(out)
    sys.stderr.write(err)
    sys.exit(status)


if __name__ == "__main__":
    main()
