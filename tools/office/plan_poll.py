#!/usr/bin/python3
"""Plans a poll: the number of draws it takes if it is checked after each draw and its cards are as the margins of the assertion file say.

./raire runs this for ./raire plan MANIFEST ASSERTIONS --poll. The program judges both files and prints the assertions with their margins. The draws are
counted here, outside the proof.
"""
import functools
import json
import math
import os
import re
import sys

sys.dont_write_bytecode = True
sys.path.append(os.path.join(os.path.dirname(os.path.realpath(__file__)), "..", "..", "plain"))

import records  # noqa: E402
import term_notes  # noqa: E402
import words  # noqa: E402
from ask import ask, read, Refusal  # noqa: E402
from limits import GREATEST_EACH_GAMMA, GREATEST_LIMIT, MOST_DRAWS  # noqa: E402

NAME, BEST, DEFAULT_LIMIT = "plan", "best", 50_000
IN_ONE, CEILING = 10**6, 10**6  # the millionths in one, and the risk above which an assertion is never confirmed
HALF, NINE_IN_TEN = 0.5, 0.9
NEAR = 1e-9  # logarithms that differ by less are compared by whole numbers
NO_SHARE = 1e-18  # a smaller share of the polls isn't followed any further
FACTORS = (1, 1.4, 1.2, 1.7, 0.8, 0.6, 2.1)  # the single gammas that are tried, as multiples of the one that fits the smallest margin
POWERS = (0.25, 0.5, 1, 2, 4, 8, 16, 32)


# ---- the cards, and an assertion's path to its limit

def cards_for(margin, recorded):
    """The number of cards that speak for an assertion and against it, if each record does. A record is omitted if the margin can't be met otherwise."""
    return (recorded + margin) // 2, (recorded - margin) // 2


def best_gamma(cards, margin):
    """The gamma that `--gamma best` gives an assertion with this margin."""
    return min(max((1000 * (cards - margin) + margin) // (2 * margin), 1), GREATEST_EACH_GAMMA)


class Way:
    """The share of polls in which one assertion is confirmed within a number of speaking draws, counted draw by draw.

    A share of each draw speaks for the assertion, and the rest against it. `going` has the shares of the polls that continue, by the number of draws
    against: `least` in the first share, then one more in each. Whether a poll continues depends only on the numbers of draws for and against, except for
    the rounding of the printed risk, which is at most one unit of 10^-18 per draw.
    """

    def __init__(self, share, limit, gamma):
        self.share, self.limit, self.gamma = share, limit, gamma
        self.less = math.log((500 + gamma) / (1000 + gamma))  # what a draw for the assertion adds to the logarithm of the risk
        self.more = math.log((500 + gamma) / gamma)
        self.most = math.log(CEILING)
        self.going, self.least, self.confirmed = [1.0], 0, [0.0]

    def is_confirmed(self, those_for, against):
        far = those_for * self.less + against * self.more - math.log(self.limit / IN_ONE)
        if abs(far) > NEAR:
            return far < 0
        over = (500 + self.gamma) ** (those_for + against) * IN_ONE
        return over <= self.limit * (1000 + self.gamma) ** those_for * self.gamma**against

    def is_lost(self, those_for, against):
        return those_for * self.less + against * self.more > self.most

    def step(self):
        draws, ended, share, other = len(self.confirmed), 0.0, self.share, 1 - self.share
        going = [share * less + other * more for less, more in zip([*self.going, 0.0], [0.0, *self.going])]
        first, last = 0, len(going)
        while first < last and self.is_confirmed(draws - self.least - first, self.least + first):
            ended += going[first]
            first += 1
        while first < last and (going[last - 1] < NO_SHARE or self.is_lost(draws - self.least - last + 1, self.least + last - 1)):
            last -= 1
        while first < last and going[first] < NO_SHARE:
            first += 1
        self.going, self.least = going[first:last], self.least + first
        self.confirmed.append(self.confirmed[-1] + ended)

    def most_within(self, draws):
        """An upper bound on the share of polls confirmed within this many draws, found without counting: by Doob's inequality for powers of the risk."""
        means = ((power, self.share * math.exp(-power * self.less) + (1 - self.share) * math.exp(-power * self.more)) for power in POWERS)
        return math.exp(min(0, *(power * math.log(self.limit / IN_ONE) + draws * max(0, math.log(mean)) for power, mean in means)))

    def within(self, draws):
        """The share of polls in which the assertion is confirmed within this many draws that speak."""
        while len(self.confirmed) <= draws and self.going:
            self.step()
        return self.confirmed[min(draws, len(self.confirmed) - 1)]


def chances(draws, share):
    """The possible numbers of draws that speak, out of this many draws, with the chance of each. The omitted numbers have next to no chance."""
    if share == 1:
        return [(draws, 1.0)]
    far = 9 * math.sqrt(draws * share * (1 - share)) + 9
    first, last = max(0, math.floor(draws * share - far)), min(draws, math.ceil(draws * share + far))
    ways = math.lgamma(draws + 1) - math.lgamma(first + 1) - math.lgamma(draws - first + 1)
    chance, found = math.exp(ways + first * math.log(share) + (draws - first) * math.log1p(-share)), []
    for speaking in range(first, last + 1):
        found.append((speaking, chance))
        chance *= (draws - speaking) * share / ((speaking + 1) * (1 - share))
    return found


class Poll:
    """The cards and the limit of a poll."""

    def __init__(self, cards, recorded, limit):
        self.cards, self.recorded, self.limit = cards, recorded, limit
        self.most = min(cards, MOST_DRAWS)
        self.way = functools.lru_cache(None)(self.new_way)

    def new_way(self, margin, gamma):
        those_for, against = cards_for(margin, self.recorded)
        return Way(those_for / (those_for + against), self.limit, gamma)

    def within(self, margin, gamma, draws):
        """The share of polls that confirm an assertion within this many draws."""
        way, speaking = self.way(margin, gamma), sum(cards_for(margin, self.recorded))
        return sum(chance * way.within(k) for k, chance in chances(draws, speaking / self.cards))

    def draws(self, claims, share, most):
        """The fewest draws within which this share of the polls confirms all claims, whichever cards speak for which; None if more than `most` are needed.

        If one claim isn't confirmed in a share of the polls, and another claim in another share, then all claims are confirmed except in at most the sum of
        these shares.
        """
        def enough(draws):
            return sum(times * (1 - self.within(*claim, draws)) for claim, times in claims.items()) <= 1 - share

        if sum(times * (1 - self.way(*claim).most_within(most)) for claim, times in claims.items()) > 1 - share:
            return None
        high = 1
        while high < most and not enough(high):
            high *= 2
        low, high = high // 2, min(high, most)
        if not enough(high):
            return None
        while high - low > 1:
            middle = (low + high) // 2
            low, high = (low, middle) if enough(middle) else (middle, high)
        return high if claims else 0

    def both(self, claims, most=None):
        """The numbers of draws after which half of the polls, and nine in ten, confirm all claims."""
        most = self.most if most is None else most
        return tuple(self.draws(claims, share, most) for share in (HALF, NINE_IN_TEN))

    def single_gamma(self, margins):
        """The gamma, among those that are tried, with which nine in ten polls confirm all assertions soonest, and its draws."""
        fits, found = best_gamma(self.cards, min(margins)), None
        for gamma in dict.fromkeys(min(max(round(fits * factor), 1), GREATEST_EACH_GAMMA) for factor in FACTORS):
            claims = counted((margin, gamma) for margin in margins)
            nine = self.draws(claims, NINE_IN_TEN, found[0] - 1 if found else self.most)
            if nine is not None:
                found = nine, gamma, claims
            elif not found:  # the margin is too small for a poll
                return gamma, self.both(claims)
        return found[1], self.both(found[2])


def counted(claims):
    """The number of times each claim occurs."""
    found = {}
    for claim in claims:
        found[claim] = found.get(claim, 0) + 1
    return found


# ---- the words, and the lines

def words_of(given):
    parser = words.Words(NAME)
    parser.add_argument("--poll", action=words.Once, nargs=0)
    parser.add_argument("manifest")
    parser.add_argument("assertions")
    parser.option("--limit", "--gamma")
    return parser.parse_intermixed_args(given)


def number_of(name, text, greatest, others=""):
    if re.fullmatch("[0-9]{1,10}", text) is None or not 1 <= int(text) <= greatest:
        raise Refusal(1, f"{NAME}: --{name} needs a number from 1 to {greatest}{others}; ./raire help {NAME} lists its words\n")
    return int(text)


def lines_of(found, at_most=""):
    """The words for when half of the polls, and nine in ten, confirm."""
    half, nine = (f"after{at_most} {draws} draws" if draws is not None else "by a full count" for draws in found)
    return f"half {half}, nine in ten {nine}"


def answer(given):
    asked = words_of(given)
    words.see_output(NAME, [asked.manifest, asked.assertions])
    limit = number_of("limit", asked.limit, GREATEST_LIMIT) if asked.limit is not None else DEFAULT_LIMIT
    gamma = asked.gamma if asked.gamma in (None, BEST) else number_of("gamma", asked.gamma, GREATEST_EACH_GAMMA, f", or {BEST}")
    planned = ask(NAME, "plan", [asked.manifest, asked.assertions]).splitlines()[:-1]
    cards, file = sum(records.batches_of(read(NAME, asked.manifest)).values()), json.loads(read(NAME, asked.assertions).decode())
    named = [re.fullmatch("(.* margin ([0-9]+)): .*", line).groups() for line in planned]
    fitting = gamma in (None, BEST)
    claims = [(int(margin), best_gamma(cards, int(margin)) if fitting else gamma) for _, margin in named]
    poll = Poll(cards, file["records"], limit)
    head = [f"contest {file['contest']}", f"winner {file['winner']}", f"cards {cards}", f"limit {limit}", f"gamma {BEST if fitting else gamma}"]
    each = [f"{name} gamma {claim[1]}: {lines_of(poll.both({claim: 1}))}" for (name, _), claim in zip(named, claims)]
    last = f"all: {lines_of(poll.both(counted(claims)), ' at most')}"
    lines = [*head, *each, last, *single(poll, [margin for margin, _ in claims])]
    return "".join(f"{line}\n" for line in lines), note_of(asked.limit)


def note_of(limit):
    """What ./raire says about a limit that is given, unless it must be quiet."""
    return f"raire: {term_notes.limit_note(int(limit))}\n" if limit is not None and not os.environ.get("RAIRE_QUIET") else ""


def single(poll, margins):
    """The line about the single gamma that is best for the file, if it has assertions."""
    if margins:
        gamma, found = poll.single_gamma(margins)
        yield f"single gamma {gamma}: {lines_of(found, ' at most')}"


if __name__ == "__main__":
    sys.exit(words.main(NAME, answer, sys.argv[1:]))
