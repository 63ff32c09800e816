"""A poll, from the program's answer."""
import math

import plain_audit

COUNTED = (0, 10)  # the statuses of a poll whose draws were counted


def poll_of(status, text):
    """The poll's terms, and the counts and the risk of each assertion; or the lines that say why nothing was polled."""
    lines = text.splitlines()
    if status not in COUNTED:
        return {"status": status, "lines": lines}
    is_each = lines[0].startswith("contest ")  # this answer says more, since it is published by itself
    head, claims = (lines[2:6], lines[7:-1]) if is_each else (lines[:4], lines[4:-1])
    terms = {name: value if value == "best" else int(value) for name, value in map(str.split, head)}
    return {**terms, "is_each": is_each, "status": status, "claims": [claim_of(line, terms["limit"]) for line in claims]}


def claim_of(line, limit):
    """The numbers of a line. They are read from its end, since ids may have blanks. A poll that looks after each draw also says the gamma and the
    confirming draw."""
    head, _, numbers = line.rpartition(" counts ")
    against, neither, speaking, _, risk, state, *by_draw = numbers.split(" ")
    counts, units = {"against": int(against), "neither": int(neither), "speaking": int(speaking)}, int(risk.replace(".", ""))
    each = {"gamma": head.rpartition(" gamma ")[2], "by_draw": int(by_draw[0]) if by_draw else None}
    return {**counts, **each, "risk": units, "width": width_of(units, limit), "is_confirmed": state == "confirmed"}


def last_draw(poll):
    """The draw that confirms the last assertion of a poll that looks after each draw."""
    return max(claim["by_draw"] for claim in poll["claims"])


def width_of(units, limit):
    """The length of a risk's bar, in percent, by powers of ten: 100 for a risk of 1 or more, 75 for the limit, 0 from the limit's fourth power down."""
    return round(min(100, 100 * max(0, 1 - math.log(plain_audit.UNIT / units) / (4 * math.log(10**6 / limit)))), 3)


def in_words(claim):
    """Which cards speak for an assertion, and which speak against it, in words."""
    w, l = claim["winner"], claim["loser"]
    if claim["kind"] == "NEN":
        return f"for it: {w} is ranked highest of them; against it: {l} is"
    return f"for it: {w} is first; against it: {l} is ranked, and not below {w}"
