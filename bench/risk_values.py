#!/usr/bin/env python3
"""Values of the printed risk and of clean draws, computed with exact fractions.

Prints the two tables of crates/audit_tests/src/km_risk_tests.rt: run it, and replace the tables there with its output. The factors are those of SHANGRLA
(section 3.2), taken as fractions, and not the whole numbers that the program multiplies. Each risk is also compared with its exact product from both sides,
unless that takes too long to compute.
"""
from fractions import Fraction

ONE = 10**18
MOST_DRAWS = 100_000


def factor(d, cards, margin, gamma):
    """(1/2 + g) / (B + g) for the overstatement assorter B."""
    g = Fraction(gamma, 1000)
    overstatement = Fraction(2 - d, 2)
    b = (1 - overstatement) / (2 - Fraction(margin, cards))
    return (Fraction(1, 2) + g) / (b + g)


def rounded_up(x):
    return -(-x.numerator // x.denominator)


def risk(counts, cards, margin, gamma):
    """The chain: d of 4 first, then 3, 2, 1 and 0; rounded up; at most one after a draw with d of 1 or 0."""
    now = ONE
    for d in (4, 3, 2, 1, 0):
        f = factor(d, cards, margin, gamma)
        for _ in range(counts[d]):
            now = rounded_up(now * f)
            if d <= 1:
                now = min(now, ONE)
    return now


def is_between(value, counts, cards, margin, gamma):
    """Whether the value is at least the smaller of one and the exact risk, and above it by at most a unit a draw, times the large factors."""
    exact = Fraction(1)
    large = Fraction(1)
    for d in range(5):
        power = factor(d, cards, margin, gamma) ** counts[d]
        exact *= power
        if d <= 1:
            large *= power
    least = ONE * min(1, exact)
    return least <= value <= least + sum(counts) * large


def clean_draws(cards, margin, gamma, limit):
    now = ONE
    f = factor(2, cards, margin, gamma)
    for n in range(min(cards, MOST_DRAWS) + 1):
        if now <= limit * 10**12:
            return n
        now = rounded_up(now * f)
    return None


def settings_at_the_limits():
    """Counts, cards, margin and gamma that a program may get wrong."""
    yield (0, 0, 0, 0, 0), 12, 1, 100
    for d in range(5):
        yield tuple(int(k == d) for k in range(5)), 12, 1, 100
        yield tuple(3 * int(k == d) for k in range(5)), 1, 1, 1
        yield tuple(2 * int(k == d) for k in range(5)), 10_000_000, 10_000_000, 500
        yield tuple(int(k == d) for k in range(5)), 10_000_000, 1, 500
    # one step from another order or another rounding
    yield (1, 0, 0, 0, 1), 12, 1, 100
    yield (0, 1, 0, 0, 1), 12, 1, 100
    yield (1, 1, 1, 1, 1), 1_000, 100, 100
    yield (1, 1, 9, 9, 9), 1_000, 100, 100
    yield (2, 0, 0, 0, 9), 1_000, 990, 1
    yield (3, 0, 0, 0, 40), 5_000, 1_200, 1
    yield (0, 7, 80, 3, 0), 40_000, 9_000, 100
    # the longest chains
    yield (0, 0, 100_000, 0, 0), 10_000_000, 1, 1
    yield (0, 0, 100_000, 0, 0), 10_000_000, 1_000, 100
    yield (0, 0, 100_000, 0, 0), 10_000_000, 2_500, 500
    yield (0, 0, 0, 0, 100_000), 10_000_000, 1, 500
    yield (0, 100_000, 0, 0, 0), 10_000_000, 10_000_000, 500
    yield (100_000, 0, 0, 0, 0), 10_000_000, 1, 1
    yield (20_000, 20_000, 20_000, 20_000, 20_000), 10_000_000, 5_000_000, 250
    yield (2, 1, 99_990, 3, 4), 10_000_000, 12_345, 100
    yield (0, 30, 99_950, 15, 5), 9_999_999, 7_654, 77
    yield (1, 0, 99_999, 0, 0), 10_000_000, 4_000, 100


def settings_between():
    """More settings, from a small generator of numbers: clean audits with some discrepancies."""
    state = 2024

    def below(n):
        nonlocal state
        state = (state * 6_364_136_223_846_793_005 + 1_442_695_040_888_963_407) % 2**64
        return (state >> 33) % n

    for _ in range(30):
        cards = 10 ** (2 + below(6)) - below(90)
        margin = 1 + cards // (2 + below(30))
        clean = 2 * cards // margin * (1 + below(9))
        counts = (below(3), below(4), clean, below(4), below(3))
        yield counts, cards, margin, 1 + below(500)


CLEAN = [
    (1_000, 100, 100, 50_000),
    (1_000, 1_000, 100, 50_000),
    (1, 1, 100, 50_000),
    (12, 1, 100, 50_000),
    (1, 1, 100, 600_000),
    (1, 1, 100, 545_454),
    (1, 1, 100, 545_455),
    (5, 5, 100, 48_282),
    (5, 5, 100, 48_283),
    (2_000, 1, 1, 999_999),
    (2_000, 1, 500, 999_499),
    (10_000_000, 10_000_000, 1, 1),
    (10_000_000, 10_000_000, 500, 1),
    (10_000_000, 1_000, 100, 50_000),
    (10_000_000, 718, 100, 50_000),
    (10_000_000, 719, 100, 50_000),
    (10_000_000, 1, 1, 999_999),
    (10_000_000, 1, 1, 990_000),
    (100_001, 72, 100, 50_000),
    (250_000, 3_125, 37, 10_000),
]


def main():
    print("// Counts of d from 0 to 4, cards, margin, gamma, and the printed risk.")
    print('const RISKS: &str = "\\')
    for counts, cards, margin, gamma in [*settings_at_the_limits(), *settings_between()]:
        value = risk(counts, cards, margin, gamma)
        if sum(counts) <= 5_000:
            assert is_between(value, counts, cards, margin, gamma), (counts, cards, margin, gamma)
        print(*counts, cards, margin, gamma, value)
    print('";')
    print()
    print("// Cards, margin, gamma, the limit in millionths, and the clean draws, or none.")
    print('const CLEAN_DRAWS: &str = "\\')
    for cards, margin, gamma, limit in CLEAN:
        n = clean_draws(cards, margin, gamma, limit)
        print(cards, margin, gamma, limit, "none" if n is None else n)
    print('";')


if __name__ == "__main__":
    main()
