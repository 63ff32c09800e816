#!/usr/bin/python3
"""What claims are adopted as, directly from docs/formats.md and docs/rules.md: every claim by itself, every order.

A claims file names assertions for a contest. Only `candidates`, `contest`, `winner` and the `kind`, `winner`, `loser` and `rest` of each assertion are
read from it. `adopted` gives the status and the text of `raire adopt`, or the rule that the file breaks and its place.

    plain/plain_adopt.py BALLOTS CLAIMS
"""
import json
import sys

import plain
from limits import DEFAULT_NODES

HEADING = {"assertions": plain.is_list, "candidates": plain.are_texts, "contest": plain.is_text, "winner": plain.is_text}
ENTRY = {"kind": lambda kind: kind in ("NEB", "NEN"), "winner": plain.is_text, "loser": plain.is_text}


def judge_heading(value, contest):
    if not plain.has(value, HEADING):
        raise plain.Refused("C2", 0)
    if value["contest"] != contest.name:
        raise plain.Refused("C3", 0)
    if sorted(value["candidates"]) != sorted(contest.ids) or value["winner"] not in contest.ids:
        raise plain.Refused("C4", 0)


def claim_of(value, ids, at):
    """The assertion that is claimed, in the form that `plain` uses."""
    if not plain.has(value, ENTRY) or (value["kind"] == "NEN" and not plain.has(value, {"rest": plain.are_texts})):
        raise plain.Refused("C2", at)
    kind, winner, loser = value["kind"], value["winner"], value["loser"]
    rest = value["rest"] if kind == "NEN" else [winner, loser]
    if winner == loser or not {winner, loser, *rest} <= set(ids):
        raise plain.Refused("C4", at)
    if len(set(rest)) < len(rest) or not {winner, loser} <= set(rest):
        raise plain.Refused("C5", at)
    assertion = (kind, ids.index(winner), ids.index(loser))
    return assertion if kind == "NEB" else assertion + (frozenset(map(ids.index, rest)),)


def read_claims(contest, data):
    """The winner and the list of assertions of a claims file with these bytes, for this contest."""
    try:
        value = plain.json_value(data)
    except (ValueError, RecursionError):
        raise plain.Refused("C1", 0) from None
    judge_heading(value, contest)
    claims = [claim_of(entry, contest.ids, at) for at, entry in enumerate(value["assertions"], 1)]
    return contest.ids.index(value["winner"]), claims


def entry_of(contest, assertion):
    kind, winner, loser, *rest = assertion
    members = {"kind": kind, "loser": contest.ids[loser], "margin": contest.margin(assertion), "winner": contest.ids[winner]}
    return members | ({"rest": [contest.ids[c] for c in sorted(rest[0])]} if rest else {})


def file_of(contest, winner, assertions):
    """The assertion file of version 3 with these assertions."""
    entries = [entry_of(contest, assertion) for assertion in assertions]
    value = {
        "assertions": entries, "candidates": contest.ids, "contest": contest.name, "margin": min(entry["margin"] for entry in entries),
        "records": contest.records, "version": 3, "winner": contest.ids[winner],
    }
    return json.dumps(value, sort_keys=True, separators=(",", ":")) + "\n"


def adopted(contest, data, budget=DEFAULT_NODES):
    """The status and the text of `raire adopt`. The file may be Refused."""
    winner, claims = read_claims(contest, data)
    won = plain.tabulated(contest)[0][-1]
    if winner != won:
        return 6, f"no: winner is {contest.ids[won]}\n"
    for assertion in claims:
        if contest.margin(assertion) <= 0:
            return 6, f"no: assertion {plain.shown(contest, assertion)} isn't true\n"
    told = plain.unproved(contest, winner, [(assertion, None) for assertion in claims], budget)
    return told or (0, file_of(contest, winner, sorted(set(claims), key=plain.key)))


def main():
    contest = plain.read(sys.argv[1])
    with open(sys.argv[2], "rb") as file:
        try:
            status, text = adopted(contest, file.read())
        except plain.Refused as refused:
            status, text = 2, f"{refused}\n"
    print(text, end="")
    sys.exit(status)


if __name__ == "__main__":
    main()
