"""A ballot poll, directly from its definition: what the seen values of the drawn cards amount to for each assertion.

A draw with a seen value s multiplies the risk by (500 + gamma) / (500 s + gamma). Draws with a value of 2 are taken first, and those with 0 last. Each step
is rounded up to a unit of 10^-18, and the risk is never above one.

With a look after each draw, they are taken in the order of the draws. A risk that has risen above a million stays as it is, and an assertion is confirmed
by the first draw after which its risk is within the limit.
"""
from fractions import Fraction

from limits import GREATEST_EACH_GAMMA

UNIT = 10**18
CEILING = 10**6 * UNIT


def counts_of(values):
    return [values.count(s) for s in (0, 1, 2)]


def risk(counts, gamma):
    """The printed risk of these numbers of draws with the values 0, 1 and 2, in units."""
    units = UNIT
    for _ in range(counts[2]):
        units = -(-units * (500 + gamma) // (1000 + gamma))
    for _ in range(counts[0]):
        units = min(UNIT, -(-units * (500 + gamma) // gamma))
    return units


def exact_risk(counts, gamma):
    """The risk without any rounding."""
    return Fraction(500 + gamma, 1000 + gamma) ** counts[2] * Fraction(500 + gamma, gamma) ** counts[0]


def is_confirmed(counts, limit, gamma):
    """Whether the printed risk is within the limit. It isn't if the exact risk is above the limit, which is found sooner."""
    over = (500 + gamma) ** (counts[2] + counts[0]) * 10**6
    return over <= limit * (1000 + gamma) ** counts[2] * gamma ** counts[0] and risk(counts, gamma) <= limit * 10**12


def first_confirmed(values, limit, gamma):
    """The first number of draws after which all assertions are confirmed, from their values on each drawn card; None if there is none."""
    counts = [[0, 0, 0] for _ in values]
    for draws, card in enumerate(zip(*values), 1):
        for each, s in zip(counts, card):
            each[s] += 1
        if all(is_confirmed(each, limit, gamma) for each in counts):
            return draws
    return None


def printed(names, values, cards, draws, limit, gamma):
    """The status and the text of `raire poll`, for assertions that prove a winner and their values on each drawn card."""
    lines, all_confirmed = [f"cards {cards}", f"draws {draws}", f"limit {limit}", f"gamma {gamma}"], True
    for name, each in zip(names, values):
        counts = counts_of(each)
        units = risk(counts, gamma)
        confirmed = units <= limit * 10**12
        all_confirmed = all_confirmed and confirmed
        told = f"risk {units // UNIT}.{units % UNIT:018} {'confirmed' if confirmed else 'unconfirmed'}"
        lines.append(f"{name} counts {' '.join(map(str, counts))} {told}")
    lines.append(f"confirmed {'yes' if all_confirmed else 'no'}")
    return (0 if all_confirmed else 10), "".join(f"{line}\n" for line in lines)


# ---- with a look after each draw

def best_gamma(cards, margin):
    """The gamma that fits a margin: 500 (cards / margin - 1), rounded to the nearest whole number, at least 1 and at most the greatest."""
    return min(max((1000 * max(cards - margin, 0) + margin) // (2 * margin), 1), GREATEST_EACH_GAMMA)


def next_risk(units, s, gamma):
    """The risk after one more draw with this value."""
    return units if units > CEILING else -(-units * (500 + gamma) // (500 * s + gamma))


def end_of(values, limit, gamma):
    """The counts and the risk of an assertion at the draw that confirms it, and this draw; or after all draws, and None."""
    counts, units = [0, 0, 0], UNIT
    for k, s in enumerate(values, 1):
        counts[s] += 1
        units = next_risk(units, s, gamma)
        if units <= limit * 10**12:
            return counts, units, k
    return counts, units, None


def asked(values, limit, gammas):
    """How many draws are looked at: up to the one that confirms the last assertion, or all if one isn't confirmed."""
    ends = [end_of(each, limit, gamma)[2] or len(each) for each, gamma in zip(values, gammas)]
    return max(ends, default=0)


def printed_each(head, names, values, limit, gammas):
    """The status and the text of `raire poll --each`, from its first lines, and each assertion's values on each drawn card and its gamma."""
    lines, all_confirmed = list(head), True
    for name, each, gamma in zip(names, values, gammas):
        counts, units, confirmed = end_of(each, limit, gamma)
        all_confirmed = all_confirmed and confirmed is not None
        told = f"risk {units // UNIT}.{units % UNIT:018} {f'confirmed {confirmed}' if confirmed else 'unconfirmed'}"
        lines.append(f"{name} gamma {gamma} counts {' '.join(map(str, counts))} {told}")
    lines.append(f"confirmed {'yes' if all_confirmed else 'no'}")
    return (0 if all_confirmed else 10), "".join(f"{line}\n" for line in lines)
