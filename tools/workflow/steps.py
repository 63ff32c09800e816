"""The steps from a ballot file to an audit, contest by contest: what the program is asked, and which file keeps its answer."""
import os
from typing import NamedTuple

import runs as running
from limits import DEFAULT_NODES, MOST_NODES, MOST_SETS
from runs import Failed

TIE, SPENT, FULL_COUNT, REFUTED, UNCONFIRMED = 3, 4, 5, 6, 10
SEARCHED = (0, TIE, SPENT, FULL_COUNT)
NODES, SETS, MORE_NODES = f"--nodes={DEFAULT_NODES}", f"--sets={MOST_SETS}", f"--nodes={MOST_NODES}"
NEVER_SPENT = 20  # up to this many candidates, a budget of sets never runs out


class Found(NamedTuple):
    """An assertion file, and the budget with which it was found or accepted."""
    file: str
    budget: str


def budgets(contest):
    """The budgets of a search. When one runs out, the next is used."""
    terms = contest.terms
    own = [f"--{name}={value}" for name, value in (("nodes", terms.nodes), ("sets", terms.sets)) if value]
    return own or [NODES, SETS, *[MORE_NODES] * (contest.candidates > NEVER_SPENT)]


def is_by_sets(budget):
    return budget.startswith("--sets")


def of(contest):
    return f"--contest={contest.id}"


def tried(run, budgets):
    """The first answer that isn't `spent`, with its budget; otherwise the answer for sets, which doesn't depend on timing."""
    spent = {}
    for budget in budgets:
        ran = run(budget)
        if ran.status != SPENT:
            return ran, budget
        spent[budget] = ran
    last = next((budget for budget in spent if is_by_sets(budget)), budgets[-1])
    return spent[last], last


def searched(contest, runs):
    """What the search prints: an assertion file, or the lines of a tie, of a budget that ran out, or of a full count."""
    floor = [f"--floor={contest.terms.floor}"] if contest.terms.floor else []
    text = contest.made("search.txt")

    def run(budget):
        words = ["search", "--workers=1", budget, of(contest), *floor]
        return runs.run(f"search {budget}", words, [contest.ballots()], {0: contest.made("assertions.json"), TIE: text, FULL_COUNT: text}, [SPENT])

    ran, budget = tried(run, budgets(contest))
    return (runs.put_last(text, ran) if ran.status == SPENT else ran), budget


def found(contest, runs):
    ran, budget = searched(contest, runs)
    return Found(ran.file, budget) if ran.status == 0 else None


def checked(contest, runs, file, budget, name="check"):
    """A check with the other kind of budget than the search had, or with the search's own budget if that one runs out."""
    text = contest.made(f"{name}.txt")

    def run(budget):
        return runs.run(f"{name} {budget}", ["check", budget, of(contest)], [contest.ballots(), file], {0: text, REFUTED: text}, [SPENT])

    other = [MORE_NODES] if is_by_sets(budget) else [SETS]
    ran, by = tried(run, [*other, budget])
    return (runs.put_last(text, ran) if ran.status == SPENT else ran), by


def published(contest, runs):
    """The assertion file that the audit is about, trimmed if the terms say so and the budget is enough. None if there is none, or no check accepts it."""
    search = found(contest, runs)
    if not search:
        return None
    ran, budget = checked(contest, runs, search.file, search.budget)
    if ran.status:
        return None
    if contest.terms.trim != "yes":
        return Found(search.file, budget)
    trim = runs.run(f"trim {budget}", ["trim", budget, of(contest)], [contest.ballots(), search.file], {0: contest.made("trimmed.json")}, [SPENT, REFUTED])
    if trim.status == SPENT:
        return Found(search.file, budget)
    again, by = checked(contest, runs, trim.file, search.budget, "check_of_trimmed") if trim.status == 0 else (trim, budget)
    if again.status == SPENT:
        return Found(search.file, budget)
    return Found(trim.file, by) if again.status == 0 else None


def refuted(contest, runs):
    """The check or trim that says no to what was found, and its answer; None if there is none."""
    published(contest, runs)
    said = ((name, entry) for name, entry in runs.used.items() if entry.get("status") == REFUTED)
    return next(((name, running.Ran(REFUTED, entry["file"], entry["text"])) for name, entry in said), None)


def limits(terms):
    return [f"--{name}={value}" for name, value in (("limit", terms.limit), ("gamma", terms.gamma)) if value]


def planned(contest, runs):
    file = published(contest, runs)
    if not file:
        return None
    return runs.run("plan", ["plan", *limits(contest.terms)], [contest.manifest(runs.plan.top), file.file], {0: contest.made("plan.txt")})


def sampled(runs, who, manifest, terms):
    """Draws the cards of each look, if there is a seed."""
    if terms.seed:
        for draws in terms.draws:
            runs.run(f"sample {draws}", ["sample", f"--seed={terms.seed}", f"--draws={draws}"], [manifest], {0: who.made(f"sample_{draws}.csv")})


def seen_looks(runs, who):
    """The looks whose cards were read, in order. The file of an earlier look must not be missing."""
    looks = who.looks(runs.plan.top)
    for at, look in enumerate(looks):
        if look.seen:
            yield look
        elif later := [other for other in looks[at:] if other.seen]:
            raise Failed(f"{runs.what}: audit: {later[-1].seen} is there, but seen_{look.draws}.csv of the look before it isn't")


def opened(contest, runs):
    """The session without a round, if the contest has a session and a seed; or what the program says instead, which no file keeps."""
    terms, file = contest.terms, published(contest, runs)
    if terms.audit != "session" or not terms.seed or not file:
        return None
    words = ["open", file.budget, of(contest), f"--seed={terms.seed}", *limits(terms)]
    return runs.run("open", words, [contest.ballots(), contest.manifest(runs.plan.top), file.file], {0: contest.made("session.json")}, [SPENT, REFUTED])


def rounds(contest, runs):
    """A round for each look, up to the one that signs the contest off or after which the session doesn't continue."""
    session, made = opened(contest, runs), []
    for look in seen_looks(runs, contest) if session and session.file else []:
        file, path = published(contest, runs), contest.made(f"session_{look.draws}.json")
        files = [session.file, contest.ballots(), contest.manifest(runs.plan.top), file.file, look.seen]
        session = runs.run(f"audit {look.draws}", ["audit", file.budget, f"--draws={look.draws}"], files, {0: path, UNCONFIRMED: path}, [SPENT, REFUTED])
        made.append((look, session))
        if session.status != UNCONFIRMED:
            break
    return made


def halted(contest, runs):
    """The command of a session whose answer isn't a session, and this answer; None if there is none."""
    asked = [("open", opened(contest, runs)), *((f"audit {look.draws}", ran) for look, ran in rounds(contest, runs))]
    return next(((name, ran) for name, ran in asked if ran and not ran.file), None)


def audited(contest, runs):
    if contest.terms.audit == "session" and published(contest, runs):
        sampled(runs, contest, contest.manifest(runs.plan.top), contest.terms)
    return rounds(contest, runs)


def called(county, runs):
    """Audits all contests of a county on one sample, with a call for each look whose cards were read, in order."""
    terms = county.terms
    if not county.one_call():
        return
    sampled(runs, county, county.given("manifest.csv"), terms)
    for look in seen_looks(runs, county) if terms.seed else []:
        path = county.made(f"contests_{look.draws}.txt")
        words = ["contests", "--workers=1", f"--seed={terms.seed}", f"--draws={look.draws}", *limits(terms)]
        files = [county.given("ballots.raire"), county.given("manifest.csv"), look.seen]
        yield look, runs.run(f"contests {look.draws}", words, files, {0: path, UNCONFIRMED: path})


def see_head(county, runs):
    """Fails if the head of a county's ballot file can't be read. The program says why."""
    if not county.is_read:
        runs.asked("search", ["search", "--", county.given("ballots.raire")], SEARCHED)
        raise Failed(f"{runs.what}: the contests of {county.given('ballots.raire')} can't be read")


class Step(NamedTuple):
    of_contest: object
    of_county: object = lambda county, runs: None


STEPS = {
    "search": Step(searched, see_head),
    "check": Step(published),
    "plan": Step(planned),
    "audit": Step(audited, lambda county, runs: list(called(county, runs))),
}


def page_step():
    import pages  # pages need the templates

    return Step(pages.of_contest, pages.of_county)


def names(plan):
    return [*STEPS, *["page"] * plan.pages]


def later(plan, step):
    return names(plan)[names(plan).index(step) + 1:]


def each(plan, step, batch, may_run=True, digests=None):
    """Yields what a step does, county by county and contest by contest."""
    does = STEPS.get(step) or page_step()
    digests = digests or running.Digests(plan.top)
    for county in plan.batches[batch]:
        yield does.of_county, county, running.of_county(plan, digests, county, may_run)
        for contest in county.contests:
            yield does.of_contest, contest, running.of_contest(plan, digests, contest, may_run)


def done(plan, step, batch):
    return os.path.join(plan.top, "made", "runs", "done", f"{step}.{batch}")


def failures(plan, step, batch):
    return os.path.join(plan.top, "made", "runs", "failed", f"{step}.{batch}")
