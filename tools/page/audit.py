"""What a session, a manifest and the seen cards say, for a page."""
import bisect
import json
import math

import plain
import plain_audit
from files import told
from texts import superscript

UNIT = plain_audit.UNIT
NO_BYTES = plain_audit.digest(b"")  # a session of a plurality contest has this instead of the digest of an assertion file
WIDTH, HEIGHT, LEFT, RIGHT, TOP, BOTTOM = 640, 300, 60, 610, 16, 262


def risk_text(units):
    return plain_audit.risk_text(units)


def short(units):
    """A risk in a few digits, rounded up, since it must never look smaller than it is."""
    digits = 4 if units >= UNIT // 1000 else 6
    return f"{math.ceil(units * 10**digits / UNIT) / 10**digits:.{digits}f}"


def session_of(file):
    """A session that the program has read."""
    session = plain_audit.session_of(file.data)
    if session is None:
        raise told(f"{file.path} is a session to the program, but this page can't read it: {why_no_session(file.data)}")
    return session


def is_of_plurality(session):
    return session["assertions"] == NO_BYTES


def why_no_session(data):
    """The first thing that is wrong with a file that isn't a session."""
    try:
        session = plain.json_value(data)
    except (ValueError, RecursionError):
        return "it isn't JSON"
    for name, is_kind in plain_audit.SESSION.items():
        if not plain.has(session, {name: is_kind}):
            return f"the member {name} is missing, or has no such value"
    margins, had = session["margins"], 0
    if not margins or not all(map(plain_audit.is_from(1, session["cards"]), margins)):
        return "the margins aren't numbers from 1 to that of the cards"
    for number, done in enumerate(session["rounds"], 1):
        if not plain_audit.is_round(session, done, had):
            return f"round {number} doesn't have more draws than before, with five counts an assertion and the risk that they give"
        had = done["draws"]
    return "signed_off isn't what the risks of its rounds say"


def state(session):
    """For each claim, the counts and the risk of the last round, the round that first confirmed it, and whether the risk is above the limit."""
    claims = []
    for j, margin in enumerate(session["margins"]):
        within = [i for i, done in enumerate(session["rounds"], 1) if done["risks"][j] <= session["limit"] * 10**12]
        last = session["rounds"][-1] if session["rounds"] else None
        claims.append({
            "margin": margin, "confirmed": within[0] if within else None, "counts": last["counts"][j] if last else None,
            "risk": last["risks"][j] if last else None, "is_above": not last or last["risks"][j] > session["limit"] * 10**12,
        })
    return claims


def signed_round(session):
    """The round by which all claims were confirmed."""
    return max(claim["confirmed"] for claim in state(session)) if session["signed_off"] else None


def added(file):
    """The members of a session that the program doesn't print."""
    return sorted(set(json.loads(file.data)) - set(plain_audit.SESSION))


def nice_steps(most):
    """A few round numbers up to the maximum."""
    step = 10 ** max(0, len(str(most)) - 1)
    for finer in (step // 5, step // 2, step):
        if finer and most // finer <= 6:
            step = finer
            break
    return list(range(0, most + 1, max(step, 1)))


def chart(session, numbers):
    """The lines of these claims' risks over the draws, in the coordinates of a drawing: from 1 down to below the limit, by powers of ten."""
    if not session["rounds"]:
        return None
    limit, most = session["limit"] * 10**12, session["rounds"][-1]["draws"]
    least = min([limit] + [max(1, done["risks"][number - 1]) for done in session["rounds"] for number in numbers])
    decades = max(2, math.ceil(math.log10(UNIT / least)))

    def across(draws):
        return round(LEFT + (RIGHT - LEFT) * draws / most, 1)

    def down(units):
        return round(TOP + (BOTTOM - TOP) * math.log10(UNIT / max(1, units)) / decades, 1)

    lines = []
    for j in (number - 1 for number in numbers):
        points = [(0, UNIT)] + [(done["draws"], done["risks"][j]) for done in session["rounds"]]
        lines.append({
            "claim": j + 1, "points": [(across(draws), down(units)) for draws, units in points], "risk": points[-1][1],
        })
    worst = max(lines, key=lambda line: line["risk"])
    ticks = [(down(UNIT // 10**k), "1" if k == 0 else f"{10.0**-k:.{k}f}" if k < 4 else f"10\u207b{superscript(k)}") for k in range(decades + 1)]
    return {
        "lines": lines, "worst": worst, "limit": down(limit), "ticks": ticks[::max(1, len(ticks) // 6)],
        "draws": [(across(draws), draws) for draws in nice_steps(most)],
    }


def sizes(manifest):
    """The batches with their numbers of cards, and the numbers of their first and last cards."""
    return [
        {"id": batch, "cards": size, "first": manifest.firsts[batch] + 1, "last": manifest.firsts[batch] + size}
        for batch, size in manifest.batches.items()
    ]


def count_records(batches, recorded):
    """Adds to each batch the number of its cards that have a record."""
    places, had = sorted(recorded), 0
    for batch in batches:
        upto = bisect.bisect_right(places, batch["last"])
        batch["records"], had = upto - had, upto


def shown_ranking(ranking, ids):
    if ranking == plain_audit.MISSING:
        return "no card found"
    if ranking is None:
        return "no record"
    return " > ".join(ids[c] for c in ranking) or "nobody ranked"


def by_votes(values):
    """The numbers of the claims that have a discrepancy, by how many votes."""
    return [
        {"votes": votes, "shown": f"+{votes}" if votes > 0 else f"\u2212{-votes}", "claims": [j for j, v in enumerate(values, 1) if v == votes]}
        for votes in sorted(set(values) - {0})
    ]


def is_without_contest(was, found):
    """Whether a card has no record and ranks nobody: it doesn't have the contest. It isn't a discrepancy for any claim."""
    return was is None and found == ()


def without_contest(manifest, recorded, seen, draws_of):
    """The drawn cards that have no record and rank nobody."""
    return [manifest.card(card) for card in sorted(draws_of) if is_without_contest(recorded.get(card), seen[card])]


def differing(session, ids, manifest, recorded, claims, seen, draws_of):
    """The drawn cards that differ from their records, with the discrepancy of each claim. Cards without the contest aren't among them."""
    rows = []
    for card, draws in sorted(draws_of.items(), key=lambda item: item[1]):
        was, found = recorded.get(card), seen[card]
        if was != found and not is_without_contest(was, found):
            values = [plain_audit.discrepancy(assertion, was, found) - 2 for assertion, _ in claims]
            rows.append({
                "card": manifest.card(card), "draws": draws, "recorded": shown_ranking(was, ids),
                "seen": shown_ranking(found, ids), "discrepancies": by_votes(values),
            })
    return rows


def draws_by_card(session, draws):
    found = {}
    for k in range(1, draws + 1):
        found.setdefault(plain_audit.drawn(session["seed"], k, session["cards"]), []).append(k)
    return found


def counted(draws_of, recorded, claims, seen):
    """The counts of each claim over these draws."""
    counts = [[0] * 5 for _ in claims]
    for card, draws in draws_of.items():
        for count, (assertion, _) in zip(counts, claims):
            count[plain_audit.discrepancy(assertion, recorded.get(card), seen[card])] += len(draws)
    return counts


def members(file):
    """A file that the program has read as JSON."""
    return json.loads(file.data)
