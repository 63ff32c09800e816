"""What a card counts for an assertion, the printed risk of discrepancies, and the card of a draw, directly from the definitions."""
import hashlib

import plain_plurality
from plain_draws import UNIT

MISSING = "missing"


def value(assertion, ranking):
    """2 for the winner, 0 for the loser, 1 otherwise."""
    kind, w, l = assertion[:3]
    if kind == "FIRST":
        return plain_plurality.lead(w, l, ranking)
    if kind == "NEN":
        top = next((c for c in ranking if c in assertion[3]), None)
        return {w: 2, l: 0}.get(top, 1)
    if ranking[:1] == (w,):
        return 2
    behind = l in ranking and (w not in ranking or ranking.index(l) < ranking.index(w))
    return 0 if behind else 1


def discrepancy(assertion, recorded, seen):
    was = 1 if recorded is None else value(assertion, recorded)
    found = 0 if seen == MISSING else value(assertion, seen)
    return 2 - was + found


def risk(counts, cards, margin, gamma):
    """The printed risk of these numbers of draws of each discrepancy."""
    left, units = 2 * cards - margin, UNIT
    for d in (4, 3, 2, 1, 0):
        over, under = (500 + gamma) * left, 500 * d * cards + gamma * left
        for _ in range(counts[d]):
            units = -(-units * over // under)
            if d < 2:
                units = min(units, UNIT)
    return units


def drawn(seed, k, cards):
    return int.from_bytes(hashlib.sha256(f"{seed},{k}".encode()).digest(), "big") % cards + 1


def risk_text(units):
    return f"{units // UNIT}.{units % UNIT:018}"
