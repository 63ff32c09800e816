"""The words that are typed at each step, for each kind of audit."""
import record
from audit import BALLOTS, BOXES, COMPARISON, CONFIRMED, CONTESTS, COUNTED, MANIFEST, NAMES, PLURALITY, POLL, SEEN, UNCONFIRMED
from running import call, Call

TIED, SPENT = 3, 4
ANSWERS_OF_ROUND = (CONFIRMED, UNCONFIRMED)


def contest_words(audit):
    """The words that name the contest: none if the ballot file has only one, as in README."""
    return [f"--contest={audit.contest.id}"] if len(audit.contests) > 1 else []


def budget_words(audit):
    return [audit.choices["budget"]] if audit.choices.get("budget") else []


def terms_words(audit):
    return [f"--limit={audit.limit}", f"--gamma={audit.gamma}", *["--each"] * audit.is_each]


def draws_words(audit, round):
    return [f"--seed={audit.seed}", f"--draws={round.draws}"]


# ---- records and cards

def judge(contests):
    """A tabulation that isn't kept: it refuses a file that isn't a ballot file."""
    words = [f"--contest={contests[0].id}"] if len(contests) > 1 else []
    return call("tabulate", BALLOTS, *words, otherwise={TIED: None, SPENT: None})


def tabulate(audit, contest, out):
    words = [f"--contest={contest.id}"] if len(audit.contests) > 1 else []
    return call("tabulate", BALLOTS, *words, out=out, otherwise={TIED: out, SPENT: out})


def convert(form, files, options):
    return call("convert", form, *files, *options, "--account=account.txt", "--names=names.csv", out=BALLOTS, also=("account.txt", "names.csv"))


def boxes(audit):
    """Compares the cards of the manifest with the records. Records that name no card aren't asked for.

    A plurality contest is opened with a seed that isn't used later, so that a tie is reported before the terms are fixed.
    """
    if audit.kind == POLL:
        return [call("sample", MANIFEST, "--seed=none", "--draws=1")]
    words = contest_words(audit) if audit.kind != CONTESTS else []
    opened = [call("plurality", BALLOTS, MANIFEST, *words, "--seed=none")] * (audit.kind == PLURALITY)
    return [call("boxes", BALLOTS, MANIFEST, *words, out=BOXES), *opened]


# ---- assertions and plan

def search(audit, budget):
    if audit.kind == CONTESTS:
        return [search_one(each, budget) for each in audit.contests]
    return [call("search", BALLOTS, *contest_words(audit), *budget, out="assertions.json"), check(audit, "assertions.json", budget, "check.txt")]


def search_one(contest, budget):
    undecided = f"undecided_{contest.number}.txt"
    return call("search", BALLOTS, f"--contest={contest.id}", *budget, out=f"assertions_{contest.number}.json", otherwise={TIED: undecided, SPENT: undecided})


def check(audit, assertions, budget, out):
    return call("check", BALLOTS, assertions, *contest_words(audit), *budget, out=out)


def trim(audit, budget):
    return [
        call("trim", BALLOTS, "assertions.json", *contest_words(audit), *budget, out="trimmed.json"),
        check(audit, "trimmed.json", budget, "trimmed_check.txt"),
    ]


def plans(audit, limit, gamma):
    words = [f"--limit={limit}", f"--gamma={gamma}"]
    if audit.kind == CONTESTS:
        return [call("plan", MANIFEST, f"assertions_{each.number}.json", *words, out=f"plan_{each.number}.txt") for each in audit.audited()]
    return [call("plan", MANIFEST, audit.assertions, *words, out="plan.txt")] if audit.kind == COMPARISON else []


# ---- from the seed on

def opening(audit, seed):
    words = [f"--seed={seed}", *terms_words(audit)]
    if audit.kind == COMPARISON:
        return [call("open", BALLOTS, MANIFEST, audit.assertions, *contest_words(audit), *words, *budget_words(audit), out="open.json")]
    return [call("plurality", BALLOTS, MANIFEST, *contest_words(audit), *words, out="open.json")] if audit.kind == PLURALITY else []


def cards(audit, round):
    words = ["cards", MANIFEST, *draws_words(audit, round), *[f"--after={round.before}"] * (round.before > 0)]
    return [
        call(*words, out=f"cards{round.number}.csv"),
        call(*words, "--page", out=f"cards{round.number}.html"),
        call(*words, "--sheet", out=f"sheet{round.number}.csv"),
    ]


def agree(audit, number):
    """Compares the two readings of each contest. The readings of several contests are then put together."""
    if audit.kind != CONTESTS:
        return [call("agree", f"seen{number}_A.csv", f"seen{number}_B.csv", out=f"seen{number}.csv")]
    names = {each.id: f"{number}_{each.number}" for each in audit.audited()}
    compared = [call("agree", f"seen{name}_A.csv", f"seen{name}_B.csv", out=f"seen{name}.csv") for name in names.values()]
    pairs = [word for contest, name in names.items() for word in (contest, f"seen{name}.csv")]
    return [*compared, Call(("joined", *pairs), {0: f"seen{number}.csv"})]


def round_of(audit, round):
    """Counts a round, with what was seen in all rounds so far."""
    parts = [f"seen{number}.csv" for number in range(1, round.number + 1)]
    together = Call(("cat", *parts), {0: SEEN})
    out = audit.answer_of(round)
    counted = Call((record.PROGRAM, *counting_words(audit, round)), dict.fromkeys(ANSWERS_OF_ROUND, out))
    return [together, counted, *[call("report", out, out=f"report{round.number}.txt")] * audit.has_report()]


def counting_words(audit, round):
    draws = f"--draws={round.draws}"
    if audit.kind == POLL:
        return ["poll", MANIFEST, audit.assertions, SEEN, *draws_words(audit, round), *terms_words(audit)]
    if audit.kind == CONTESTS:
        return ["contests", BALLOTS, MANIFEST, SEEN, *draws_words(audit, round), *terms_words(audit), *budget_words(audit)]
    session = f"round{round.number - 1}.json" if round.number > 1 else "open.json"
    if audit.kind == PLURALITY:
        return ["plurality", session, BALLOTS, MANIFEST, SEEN, draws]
    return ["audit", session, BALLOTS, MANIFEST, audit.assertions, SEEN, draws, *budget_words(audit)]


def count(audit):
    """Tabulates a full count of the contest that is audited.

    For a plurality contest the tabulation only judges the file: an instant runoff may elect somebody else, or be tied.
    """
    out = None if audit.kind == PLURALITY else "counted.txt"
    return call("tabulate", COUNTED, f"--contest={audit.contest.id}", out=out, otherwise={TIED: out, SPENT: out})


def show(audit):
    """Makes the page of the audit from all its files."""
    last = audit.rounds()[-1]
    counted = [COUNTED] if COUNTED in audit.files else []
    terms = [*draws_words(audit, last), *terms_words(audit)]
    if audit.kind == POLL:
        words = [MANIFEST, audit.assertions, SEEN, *terms]
    elif audit.kind == CONTESTS:
        words = [BALLOTS, MANIFEST, SEEN, *terms, *budget_words(audit)]
    else:
        assertions = [audit.assertions] if audit.kind == COMPARISON else []
        names = [NAMES] if audit.names and len(audit.contests) == 1 else []
        words = [BALLOTS, MANIFEST, *assertions, audit.answer_of(last), SEEN, *counted, *names, *budget_words(audit)]
    return call("show", *words, out="page.html")
