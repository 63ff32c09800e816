"""All contests of a file on one sample, directly from the definition: how each ends, and the lines of its block.

Each contest is searched as if by itself, with a floor of one vote. The block of a contest that isn't decided has the lines of its first tie. Any other
block has the contest's claims, each with the counts and the risk of the drawn cards; the contest is signed off if all are confirmed.
"""
import json
from typing import NamedTuple

import plain
from plain_risk import risk_text


class End(NamedTuple):
    """The lines of a contest whose search finds no assertions; or winner and margin, and the claims with their margins."""

    lines: list
    claims: list


def searched(contest):
    try:
        file = json.loads(plain.certificate_by_bound(contest))
    except plain.Tie as tie:
        return End(str(tie).splitlines(), [])
    claims = [plain.claim_of(entry, file, at) for at, entry in enumerate(file["assertions"], 1)]
    return End([f"records {contest.records}", f"winner {file['winner']}", f"margin {file['margin']}"], claims)


def block(contest, end, told, limit):
    """The lines of a contest, whose claims have these counts and risks, and whether it is signed off."""
    lines, confirmed = [f"contest {contest.name}", *end.lines], []
    for (assertion, margin), (counts, units) in zip(end.claims, told, strict=True):
        confirmed.append(units <= limit * 10**12)
        state = "confirmed" if confirmed[-1] else "unconfirmed"
        lines.append(f"{plain.shown(contest, assertion)} margin {margin} counts {' '.join(map(str, counts))} risk {risk_text(units)} {state}")
    is_signed_off = bool(confirmed) and all(confirmed)
    return [*lines, f"signed off {'yes' if is_signed_off else 'no'}"], is_signed_off


def printed(blocks):
    """The status and the text of all blocks."""
    is_all = all(is_signed_off for _, is_signed_off in blocks)
    lines = [line for told, _ in blocks for line in told] + [f"all {'yes' if is_all else 'no'}"]
    return 0 if is_all else 10, "".join(f"{line}\n" for line in lines)
