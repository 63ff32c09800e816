"""Makes the page of terms: what is fixed and published before anybody knows the seed."""
import textwrap

from audit import BALLOTS, BEST, BOXES, COMPARISON, CONTESTS, MANIFEST, PLURALITY, POLL

RULES = {
    COMPARISON: "instant runoff; each card that is drawn is compared with its record",
    PLURALITY: "most first preferences; each card that is drawn is compared with its record",
    POLL: "instant runoff; a poll only by the drawn cards, without records",
    CONTESTS: "instant runoff; all contests on one sample, each card compared with its records",
}
UNDECIDED = {"tie": "it is tied", "spent": "the budget ran out"}  # by the first word of what a search prints
DEFAULT_BUDGET = "--nodes=100000, the default"
INDENT, WIDTH = 11, 100


def published(audit):
    """The files that the audit is bound to."""
    records = [BALLOTS] if audit.kind != POLL else []
    assertions = [audit.assertions] if audit.kind in (COMPARISON, POLL) else []
    return [*records, MANIFEST, *assertions]


def number_of_percent(millionths):
    whole, rest = divmod(millionths, 10_000)
    return f"{whole}.{rest:04}".rstrip("0").rstrip(".")


def percent(millionths):
    """A limit as people say it."""
    return f"{number_of_percent(millionths)} percent"


def gamma_in_words(audit):
    return "the one that fits the margin of each assertion" if audit.gamma == BEST else f"{audit.gamma} thousandths"


def text_of_terms(audit, rounds, how):
    subject = "all contests of ballots.raire" if audit.kind == CONTESTS else audit.contest.id
    budget = audit.choices.get("budget") or DEFAULT_BUDGET * (audit.kind == CONTESTS)
    rows = [
        *contest_rows(audit, subject), ("Rule", RULES[audit.kind] + "; the risk is computed after each draw" * audit.is_each), ("Counted", counted(audit)),
        ("Limit", f"{audit.limit} millionths, which is {percent(audit.limit)}"), ("Gamma", gamma_in_words(audit)),
        *[("Budget", budget)] * bool(budget), ("Seed", how), ("Rounds", rounds_in_words(rounds)),
        ("Then", "a full count, whatever the rounds said. No other seed is drawn"),
        ("Cards", "are read by two people who don't see the records; a card that can't be found is missing"),
    ]
    digests = "".join(f"{audit.files[name]}  {name}\n" for name in published(audit))
    return f"Audit of {subject}: what is fixed before the seed is drawn\n\nFiles, by sha256sum\n{digests}\n" + "".join(map(row_of, rows))


def contest_rows(audit, subject):
    """The rows about what is audited. If it is all contests of a file: each contest that is audited, when its audit ends, and each that isn't."""
    if audit.kind != CONTESTS:
        return [("Contest", subject)]
    left = [f"{each.id} ({UNDECIDED[audit.text(f'undecided_{each.number}.txt').split()[0]]})" for each in audit.undecided()]
    return [
        ("Contests", "; ".join(each.id for each in audit.audited())),
        *[("Left out", "; ".join(left) + ". Each of them is decided by other means")] * bool(left),
        ("End", "a contest's audit ends with its first \"signed off yes\", whatever later draws say"),
    ]


def counted(audit):
    """The number of ballots cast and of cards in the manifest. For one contest whose records name cards, also the number of these records."""
    told = f"{int(audit.choices['cast'])} ballots cast, {audit.cards} cards in the manifest"
    if audit.kind not in (COMPARISON, PLURALITY):
        return told
    _, records = audit.text(BOXES).splitlines()[2].split(" ")
    return f"{told}, {records} records"


def row_of(row):
    """A row, with further lines aligned below the beginning of its text."""
    name, text = row
    return textwrap.fill(text, WIDTH, initial_indent=f"{name:{INDENT}}", subsequent_indent=" " * INDENT, break_long_words=False, break_on_hyphens=False) + "\n"


def rounds_in_words(rounds):
    first, *later = rounds
    return ", then ".join([f"{first} draws first", *[f"{draws} in all" for draws in later]]) + (", unless the audit is signed off before" if later else "")
