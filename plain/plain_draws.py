"""The clean draws of a margin, directly from the definition: draw after draw, with each step of the risk rounded up to a unit of 10^-18."""
import functools

from limits import MOST_DRAWS

UNIT = 10**18


@functools.lru_cache(None)
def clean_draws(cards, margin, gamma, limit):
    """The smallest number of clean draws that is enough, or None if it is larger than the number of cards or the maximum number of draws."""
    left, units = 2 * cards - margin, UNIT
    over, under = (500 + gamma) * left, 1000 * cards + gamma * left
    for draws in range(1, min(cards, MOST_DRAWS) + 1):
        units = -(-units * over // under)
        if units <= limit * 10**12:
            return draws
    return None


def in_words(draws):
    return "a full count" if draws is None else f"{draws} draws"
