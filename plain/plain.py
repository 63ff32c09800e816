#!/usr/bin/python3
"""The rules of docs/rules.md once more, written plainly and independently of the suite, to compare the built program with.

Rankings are tuples of candidate numbers. Orders and suffixes are tuples with the first eliminated candidate first. A contest is searched by walking
all suffixes in full (`certificate`) or, for larger contests, from the end under a bound (`certificate_by_bound`). Both give the text that `raire search`
prints. `tabulation` gives the text of `raire tabulate`. `judge` reads an assertion file and walks all orders, or, if there are more than
`MOST_LISTED_WHOLE` candidates, those that nothing refutes. It gives the status and the text of `raire check`, or the rule that the file breaks and its
place. Its budget is one of nodes, or of `Sets`. A search with a `Plan` prints version 2 of the file, with the clean draws of each margin.

    plain/plain.py search BALLOTS      plain/plain.py tabulate BALLOTS
    plain/plain.py check BALLOTS ASSERTIONS
"""
import itertools
import json
import re
import sys
from collections import Counter
from typing import NamedTuple

from limits import (
    DEFAULT_NODES, FEWEST_CANDIDATES, GREATEST_GAMMA, GREATEST_LIMIT, MOST_CANDIDATES, MOST_CARDS, MOST_DEPTH, MOST_DRAWS, MOST_NAME_BYTES,
    MOST_NUMBER, MOST_RECORDS,
)
from plain_draws import clean_draws, in_words


MOST_LISTED_WHOLE = 7  # candidates; all orders of a contest with at most this many are listed


class Contest:
    def __init__(self, name, ids, rankings):
        self.name, self.ids, self.records = name, ids, len(rankings)
        self.rankings = Counter(rankings)
        self.n = len(ids)
        self.tallies = {}

    def tally(self, standing):
        """The votes of each candidate when exactly these are standing."""
        if standing not in self.tallies:
            votes = dict.fromkeys(standing, 0)
            for ranking, count in self.rankings.items():
                top = next((c for c in ranking if c in standing), None)
                if top is not None:
                    votes[top] += count
            self.tallies[standing] = votes
        return self.tallies[standing]

    def margin(self, assertion):
        kind, w, l = assertion[:3]
        if kind == "NEN":
            votes = self.tally(assertion[3])
            return votes[w] - votes[l]
        margin = 0
        for ranking, count in self.rankings.items():
            if ranking and ranking[0] == w:
                margin += count
            elif l in ranking and (w not in ranking or ranking.index(l) < ranking.index(w)):
                margin -= count
        return margin


class Tie(Exception):
    """Some ways of breaking the ties elect different candidates; the text reports the first tie."""


def least_of(contest, standing):
    """The smallest tally when exactly these are standing, and those who have it."""
    votes = contest.tally(standing)
    least = min(votes.values())
    return least, sorted(c for c in standing if votes[c] == least)


def tabulated(contest):
    """The order of elimination, with each round's tallies, exhausted ballots and those who share the smallest tally.

    If several have the smallest tally, the first of them in the file is eliminated.
    """
    standing, order, rounds = frozenset(range(contest.n)), [], []
    while len(standing) > 1:
        votes, (_, tied) = contest.tally(standing), least_of(contest, standing)
        rounds.append((votes, contest.records - sum(votes.values()), tied))
        order.append(tied[0])
        standing -= {tied[0]}
    return tuple(order) + tuple(standing), rounds


def possible_winners(contest):
    """The set of candidates who can win, over all ways of breaking each tie."""
    known = {}

    def from_here(standing):
        if standing not in known:
            tied = least_of(contest, standing)[1]
            known[standing] = standing if len(standing) == 1 else frozenset().union(*(from_here(standing - {c}) for c in tied))
        return known[standing]

    return from_here(frozenset(range(contest.n)))


def decided(contest):
    """The tabulated order and its rounds if each way of breaking the ties elects the same candidate; otherwise raises Tie with the first tie."""
    order, rounds = tabulated(contest)
    if len(possible_winners(contest)) > 1:
        number, (votes, _, tied) = next((number, told) for number, told in enumerate(rounds, 1) if len(told[2]) > 1)
        names = ",".join(contest.ids[c] for c in tied)
        raise Tie(f"tie\nround {number}\ntied {names}\ntally {votes[tied[0]]}\n")
    return order, rounds


def tabulation(contest):
    order, rounds = decided(contest)
    lines = [f"contest {contest.name}", f"records {contest.records}"]
    for number, (votes, exhausted, tied) in enumerate(rounds, 1):
        shown = " ".join(f"{contest.ids[c]}={votes[c]}" for c in sorted(votes))
        lines.append(f"round {number}: {shown} exhausted={exhausted}")
        if len(tied) > 1:
            lines.append("tied " + ",".join(contest.ids[c] for c in tied))
        lines.append(f"eliminated {contest.ids[order[number - 1]]}")
    return "\n".join(lines + [f"winner {contest.ids[order[-1]]}"]) + "\n"


def key(assertion):
    """The fixed order: NEB first, then winner, loser and the number of the set."""
    kind, w, l = assertion[:3]
    return (kind == "NEN", w, l, sum(2**c for c in assertion[3]) if kind == "NEN" else 0)


def refuters(contest, suffix):
    """All assertions that refute the suffix."""
    found = []
    for place, l in enumerate(suffix):
        behind = suffix[place + 1:]
        found += [("NEB", w, l) for w in range(contest.n) if w != l and w not in behind]
        rest = frozenset(suffix[place:])
        found += [("NEN", l, other, rest) for other in behind]
    return found


class Lows:
    """The low of a suffix and the first assertion that has it, from those of its parent."""

    def __init__(self, contest):
        self.contest = contest
        self.margins = {}

    def margin(self, assertion):
        if assertion not in self.margins:
            self.margins[assertion] = self.contest.margin(assertion)
        return self.margins[assertion]

    def low(self, suffix):
        best = (0, None)
        for assertion in refuters(self.contest, suffix):
            margin = self.margin(assertion)
            if margin > best[0] or (margin == best[0] and margin > 0 and key(assertion) < key(best[1])):
                best = (margin, assertion)
        return best

    def grown(self, parent, parent_low, c):
        """The same for the parent with c in front: what refutes in addition does so because of c."""
        suffix, best = (c,) + parent, parent_low
        new = [("NEB", w, c) for w in range(self.contest.n) if w not in suffix]
        new += [("NEN", c, l, frozenset(suffix)) for l in parent]
        for assertion in new:
            margin = self.margin(assertion)
            if margin > best[0] or (margin == best[0] and margin > 0 and key(assertion) < key(best[1])):
                best = (margin, assertion)
        return suffix, best


class Plan(NamedTuple):
    """The terms of the clean draws of version 2: cards, risk limit in millionths, gamma in thousandths."""

    cards: int
    limit: int
    gamma: int

    def draws(self, margin):
        return clean_draws(self.cards, margin, self.gamma, self.limit)


def text_of(contest, winner, best, order, claims, plan):
    ids = contest.ids
    shown = []
    for assertion, margin in sorted(claims.items(), key=lambda claim: key(claim[0])):
        kind, w, l = assertion[:3]
        claim = {"kind": kind, "loser": ids[l], "margin": margin, "winner": ids[w]}
        if kind == "NEN":
            claim["rest"] = [ids[c] for c in sorted(assertion[3])]
        if plan:
            claim["draws"] = plan.draws(margin)
        shown.append(claim)
    value = {
        "assertions": shown, "candidates": ids, "contest": contest.name, "margin": best,
        "records": contest.records, "version": 1, "winner": ids[winner],
    }
    if plan:
        value |= {**plan._asdict(), "version": 2}
    if order is None:
        value["version"] = 3
    else:
        value["order"] = [ids[c] for c in order]
    return json.dumps(value, sort_keys=True, separators=(",", ":")) + "\n"


def certificate(contest, plan=None):
    """The certificate directly from the definition: every order, every suffix, every assertion that refutes it."""
    tabulated_order, _ = decided(contest)
    winner, n, lows = tabulated_order[-1], contest.n, Lows(contest)
    orders = [order for order in itertools.permutations(range(n)) if order[-1] != winner]
    hardness = {order: lows.low(order)[0] for order in orders}
    best = min(hardness.values())
    order = min((order for order in orders if hardness[order] == best), key=lambda order: order[::-1])
    claims = {}
    suffixes = {order[start:] for order in orders for start in range(n)}
    known = {suffix: lows.low(suffix) for suffix in suffixes}
    for suffix in suffixes:
        margin, assertion = known[suffix]
        if margin >= best and (len(suffix) == 1 or known[suffix[1:]][0] < best):
            claims[assertion] = margin
    return text_of(contest, winner, best, order, claims, plan)


def certificate_by_bound(contest, plan=None):
    """The same from the end, under a bound, for contests with too many orders."""
    tabulated_order, _ = decided(contest)
    winner, n, lows = tabulated_order[-1], contest.n, Lows(contest)
    losers = [c for c in range(n) if c != winner]
    alone = {(c,): lows.grown((), (0, None), c)[1] for c in losers}

    def children(suffix, low):
        return [lows.grown(suffix, low, c) for c in range(n) if c not in suffix]

    best = lows.low(tabulated_order[:-2] + (winner, tabulated_order[-2]))[0]
    stack = list(alone.items())
    while stack:
        suffix, low = stack.pop()
        if low[0] < best:
            if len(suffix) == n:
                best = low[0]
            else:
                stack += sorted(children(suffix, low), key=lambda child: -child[1][0])

    claims, order = {}, None

    def walk(suffix, low):
        nonlocal order
        if low[0] >= best:
            claims[low[1]] = low[0]
        if low[0] > best or (low[0] == best and order):
            return
        if len(suffix) == n:
            order = order or suffix
            return
        for child, child_low in children(suffix, low):
            if low[0] < best:
                walk(child, child_low)
            elif not order:
                seek(child, child_low)

    def seek(suffix, low):
        nonlocal order
        if order or low[0] > best:
            return
        if len(suffix) == n:
            order = suffix
            return
        for child, child_low in children(suffix, low):
            seek(child, child_low)

    for suffix, low in alone.items():
        walk(suffix, low)
    return text_of(contest, winner, best, order, claims, plan)


# ---- assertion files


class Refused(Exception):
    """The rule that a file breaks first, and the assertion that breaks it, counted from 1, or 0 for the file's own members."""

    def __init__(self, rule, at):
        super().__init__(f"{rule} at {at}")


def whole(digits):
    """A whole number; or, if it has a sign or more than 64 bits, a float, which isn't a number in the file's form."""
    if digits.isdigit() and int(digits) < 2**64:
        return int(digits)
    return finite(digits)


def finite(digits):
    value = float(digits)
    if value in (float("inf"), float("-inf")):
        raise ValueError("a number out of range")
    return value


def no_constant(word):
    raise ValueError(f"{word} is no JSON")


def text_alone(value):
    """The value, if no text in it has half of a surrogate pair."""
    json.dumps(value, ensure_ascii=False).encode()
    return value


def depth(text):
    """The deepest nesting of brackets outside of texts."""
    deepest = level = 0
    for token in re.findall(r'"(?:[^"\\]|\\.)*"|[\[{]|[\]}]', text, re.DOTALL):
        level += {"[": 1, "{": 1, "]": -1, "}": -1}.get(token, 0)
        deepest = max(deepest, level)
    return deepest


def json_value(data):
    """The value of the bytes. If a name is repeated, the last member counts, but each must be JSON."""
    text = data.decode()
    if depth(text) > MOST_DEPTH:
        raise ValueError("nested too deep")
    return text_alone(json.loads(
        text, parse_int=whole, parse_float=finite, parse_constant=no_constant,
        object_pairs_hook=lambda pairs: dict(text_alone(pairs)),
    ))


def is_id(text):
    plain = all(" " <= c <= "~" and c not in ',"' for c in text)
    return 1 <= len(text) <= MOST_NAME_BYTES and plain and text == text.strip(" ")


def is_text(value):
    return type(value) is str


def is_number(value):
    return type(value) is int and value <= MOST_NUMBER


def is_list(value):
    return type(value) is list


def are_texts(value):
    return is_list(value) and all(is_text(element) for element in value)


def has(value, kinds):
    """Whether the value is an object that has each of these members, of its kind."""
    return type(value) is dict and all(name in value and kind(value[name]) for name, kind in kinds.items())


HEADING = {
    "assertions": is_list, "candidates": are_texts, "contest": is_text, "margin": is_number,
    "records": is_number, "version": is_number, "winner": is_text,
}
ENTRY = {"kind": lambda kind: kind in ("NEB", "NEN"), "winner": is_text, "loser": is_text, "margin": is_number}

# What belongs to a plan. In version 1 these are further members, which mean nothing; version 2 has them all, version 3 all or none.
PLAN_HEADING = {name: is_number for name in Plan._fields}
PLAN_ENTRY = {"draws": lambda draws: draws is None or is_number(draws)}

# A file of this version has no order; all others have one.
COVER_VERSION = 3


def is_planned(value):
    """Whether the file has a plan, or claims to have one by one of its members."""
    return value["version"] == 2 or (value["version"] == COVER_VERSION and not value.keys().isdisjoint(Plan._fields))


def has_order_by_version(value):
    return "order" not in value if value["version"] == COVER_VERSION else has(value, {"order": are_texts})


def judge_heading(value):
    if not has(value, HEADING) or not has_order_by_version(value) or (is_planned(value) and not has(value, PLAN_HEADING)):
        raise Refused("F2", 0)
    if value["version"] not in (1, 2, COVER_VERSION):
        raise Refused("F3", 0)
    ids = value["candidates"]
    if not (is_id(value["contest"]) and all(map(is_id, ids)) and FEWEST_CANDIDATES <= len(ids) <= MOST_CANDIDATES and len(set(ids)) == len(ids)):
        raise Refused("F4", 0)
    if not {value["winner"], *value.get("order", [])} <= set(ids):
        raise Refused("F4", 0)
    if sorted(value.get("order", ids)) != sorted(ids):
        raise Refused("F5", 0)
    if not (1 <= value["records"] <= MOST_RECORDS and 1 <= value["margin"] <= value["records"]):
        raise Refused("F6", 0)
    if is_planned(value) and not are_terms(value):
        raise Refused("F6", 0)


def are_terms(value):
    """Whether each record can have its own card, and limit and gamma are in range."""
    return value["records"] <= value["cards"] <= MOST_CARDS and 1 <= value["gamma"] <= GREATEST_GAMMA and 1 <= value["limit"] <= GREATEST_LIMIT


def claim_of(value, file, at):
    """The assertion, and the margin that is claimed for it."""
    ids, planned = file["candidates"], is_planned(file)
    if not has(value, {**ENTRY, **(PLAN_ENTRY if planned else {})}) or (value["kind"] == "NEN" and not has(value, {"rest": are_texts})):
        raise Refused("F2", at)
    if file["version"] == COVER_VERSION and not planned and "draws" in value:
        raise Refused("F2", at)
    winner, loser = value["winner"], value["loser"]
    rest = value["rest"] if value["kind"] == "NEN" else [winner, loser]
    if winner == loser or not {winner, loser, *rest} <= set(ids):
        raise Refused("F4", at)
    if len(set(rest)) < len(rest) or not {winner, loser} <= set(rest):
        raise Refused("F5", at)
    if not 1 <= value["margin"] <= file["records"] or (planned and value["draws"] is not None and not 1 <= value["draws"] <= MOST_DRAWS):
        raise Refused("F6", at)
    assertion = (value["kind"], ids.index(winner), ids.index(loser))
    if value["kind"] == "NEN":
        assertion += (frozenset(map(ids.index, rest)),)
    return assertion, value["margin"]


def read_assertions(data):
    """The members of an assertion file, with a list of assertions and claimed margins, and the `plan` and the claimed draws if it has them."""
    try:
        value = json_value(data)
    except (ValueError, RecursionError):
        raise Refused("F1", 0) from None
    judge_heading(value)
    claims = [claim_of(entry, value, at) for at, entry in enumerate(value["assertions"], 1)]
    planned = is_planned(value)
    plan, draws = (Plan(*map(value.get, Plan._fields)), [entry["draws"] for entry in value["assertions"]]) if planned else (None, None)
    order = None if value["version"] == COVER_VERSION else value["order"]
    return {**value, "assertions": claims, "order": order, "plan": plan, "draws": draws}


# ---- whether an assertion file holds

def refutes(assertion, suffix):
    kind, w, l = assertion[:3]
    if kind == "NEB":
        return l in suffix and w not in suffix[suffix.index(l):]
    return w in suffix and frozenset(suffix[suffix.index(w):]) == assertion[3]


def shown(contest, assertion):
    text = f"{assertion[0]} {contest.ids[assertion[1]]} {contest.ids[assertion[2]]}"
    if assertion[0] == "NEN":
        text += " {" + ",".join(contest.ids[c] for c in sorted(assertion[3])) + "}"
    return text


def least_standing(contest, winner, claims):
    """Among the orders that elect another candidate and that no claim refutes, the smallest when read backwards, or None."""
    standing = [
        order for order in itertools.permutations(range(contest.n))
        if order[-1] != winner and not any(refutes(assertion, order) for assertion, _ in claims)
    ]
    return min(standing, key=lambda order: order[::-1], default=None)


def standing_suffixes(contest, last, claims, before):
    """The suffixes that end in the candidate, aren't whole, and that no claim refutes; only those before this order."""
    others = [c for c in range(contest.n) if c != last]
    for size in range(contest.n - 1):
        for front in itertools.permutations(others, size):
            suffix = front + (last,)
            if (before is None or suffix[::-1] < before[::-1]) and not any(refutes(assertion, suffix) for assertion, _ in claims):
                yield suffix


class Sets(int):
    """A budget of this many sets of candidates for all orders together, instead of one of nodes for each candidate who didn't win."""


def unproved(contest, winner, claims, budget):
    """The status and the text if an order stands, or if the budget ends before that is known; None if the claims prove the winner."""
    is_listed = contest.n <= MOST_LISTED_WHOLE
    if isinstance(budget, Sets):
        return (unproved_by_list_of_sets if is_listed else unproved_by_walk_of_sets)(contest, winner, claims, budget)
    return (unproved_by_list if is_listed else unproved_by_walk)(contest, winner, claims, budget)


def stands(contest, order):
    return 6, f"no: order {','.join(contest.ids[c] for c in order)} stands\n"


def spent_sets(sets):
    return 4, f"spent\nsets {sets}\n"


def unproved_by_list(contest, winner, claims, nodes):
    """The same directly from the definition: every order, every suffix."""
    standing = least_standing(contest, winner, claims)
    for last in range(contest.n):
        if last != winner and sum(1 for _ in standing_suffixes(contest, last, claims, standing)) > nodes:
            return 4, f"spent\ncandidate {contest.ids[last]}\n"
    return stands(contest, standing) if standing else None


def unproved_by_walk(contest, winner, claims, nodes):
    """The same from the end, with candidates in number order, no further than a suffix that some claim refutes."""
    assertions = [assertion for assertion, _ in claims]
    for last in range(contest.n):
        stack, count = [(last,)] * (last != winner), 0
        while stack:
            suffix = stack.pop()
            if any(refutes(assertion, suffix) for assertion in assertions):
                continue
            if len(suffix) == contest.n:
                return stands(contest, suffix)
            count += 1
            if count > nodes:
                return 4, f"spent\ncandidate {contest.ids[last]}\n"
            stack += [(c,) + suffix for c in reversed(range(contest.n)) if c not in suffix]
    return None


def unproved_by_list_of_sets(contest, winner, claims, sets):
    """The same directly from the definition: every order, and the set of each suffix that counts."""
    standing = least_standing(contest, winner, claims)
    others = [last for last in range(contest.n) if last != winner]
    found = {frozenset(suffix) for last in others for suffix in standing_suffixes(contest, last, claims, standing)}
    if len(found) > sets:
        return spent_sets(sets)
    return stands(contest, standing) if standing else None


def unproved_by_walk_of_sets(contest, winner, claims, sets):
    """The same from the end, into each set once: what refutes because of one more candidate in front depends only on the set behind."""
    rivals, nexts = {}, set()
    for kind, w, l, *rest in (assertion for assertion, _ in claims):
        if kind == "NEB":
            rivals.setdefault(l, set()).add(w)
        else:
            nexts.add((w, rest[0]))
    seen, stack = set(), [(last,) for last in reversed(range(contest.n)) if last != winner]
    while stack:
        suffix = stack.pop()
        front, here = suffix[0], frozenset(suffix)
        if (front, here) in nexts or rivals.get(front, set()) - here:
            continue
        if len(suffix) == contest.n:
            return stands(contest, suffix)
        if here not in seen:
            seen.add(here)
            if len(seen) > sets:
                return spent_sets(sets)
            stack += [(c,) + suffix for c in reversed(range(contest.n)) if c not in here]
    return None


def difference(contest, file, budget):
    """The status and the text of the first difference, or None."""
    if (file["contest"], file["candidates"], file["records"]) != (contest.name, contest.ids, contest.records):
        return 6, "no: contest differs\n"
    winner = tabulated(contest)[0][-1]
    if file["winner"] != contest.ids[winner]:
        return 6, f"no: winner is {contest.ids[winner]}\n"
    claims = file["assertions"]
    for number, (assertion, claimed) in enumerate(claims, 1):
        if contest.margin(assertion) != claimed:
            return 6, f"no: assertion {number} has margin {contest.margin(assertion)}\n"
    told = unproved(contest, winner, claims, budget)
    if told:
        return told
    smallest = min(margin for _, margin in claims)
    if smallest != file["margin"]:
        return 6, f"no: smallest margin is {smallest}\n"
    return not_best(contest, winner, file) or other_draws(file)


def not_best(contest, winner, file):
    """Why the file's order doesn't show that its margin is the best, or None. Nothing is said of that without an order."""
    if file["order"] is None:
        return None
    order = tuple(map(contest.ids.index, file["order"]))
    if order[-1] == winner:
        return 6, "no: order elects the winner\n"
    low, refuter = Lows(contest).low(order)
    if low > file["margin"]:
        return 6, f"no: order is refuted by {shown(contest, refuter)} margin {low}\n"
    return None


def other_draws(file):
    """The answer for the first assertion of a plan whose draws aren't the clean draws of its margin, or None."""
    for number, ((_, margin), claimed) in enumerate(zip(file["assertions"], file["draws"] or []), 1):
        needed = file["plan"].draws(margin)
        if needed != claimed:
            return 6, f"no: assertion {number} needs {in_words(needed)}\n"
    return None


def judge(contest, data, budget=DEFAULT_NODES):
    """The status and the text of a check of the assertion file with these bytes. The file may be Refused."""
    file = read_assertions(data)
    lines = f"yes\nassertions {len(file['assertions'])}\nmargin {file['margin']}\n"
    if file["order"] is None:
        lines += "not said to be best\n"
    return difference(contest, file, budget) or (0, lines)


# ---- the command

def read(path):
    """Reads a file of one contest with plain fields."""
    with open(path) as file:
        rows = [line.split(",") for line in file.read().splitlines() if line.strip()]
    _, name, count, *rest = rows[1]
    ids = rest[: int(count)]
    return Contest(name, ids, [tuple(ids.index(field) for field in row[2:]) for row in rows[2:]])


def checked(contest, path):
    with open(path, "rb") as file:
        try:
            return judge(contest, file.read())
        except Refused as refused:
            return 2, f"{refused}\n"


def answer(command, contest, *paths):
    if command == "check":
        return checked(contest, *paths)
    try:
        return 0, {"search": certificate_by_bound, "tabulate": tabulation}[command](contest)
    except Tie as tie:
        return 3, str(tie)


def main():
    command, ballots, *paths = sys.argv[1:]
    status, text = answer(command, read(ballots), *paths)
    print(text, end="")
    sys.exit(status)


if __name__ == "__main__":
    main()
