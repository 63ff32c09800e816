"""The summary of a state: a row for each contest, with those that need attention first, and the digests of all files."""
import collections
import contextlib
import csv
import io
import json
import os
import urllib.parse
from typing import NamedTuple

import steps
from counties import contests_of, MADE
from county import blocks_of
from runs import Digests, Failed, Missing, of_contest, of_county
from terms import NAME as TERMS

FAILED, SIGNED_OFF = "failed", "signed off"
STATES = {  # the states that need attention come first
    FAILED: "a step failed; the line says why",
    "refuted": "a check says no to what the search printed: report it",
    "tie": "ties leave open who won",
    "spent": "no budget was enough",
    "full count": "count in full",
    "not signed off": "the last look doesn't confirm every assertion",
    "open": "cards of a look aren't read yet",
    "planned": "no seed or draws are given yet, or nothing is audited",
    SIGNED_OFF: "",
}
FIELDS = "county contest state candidates records winner margin assertions planned search check audit draws signed_off why page".split()
TO_BE_COUNTED = "full count"
NOT_MADE = "not made: its job was ended; run it again"
SPENT_IN_CALL = "contests ran out of nodes: give this contest its own session"


class Row(NamedTuple):
    county: str
    contest: str
    state: str
    candidates: int = ""
    records: int = ""
    winner: str = ""
    margin: int = ""
    assertions: int = ""
    planned: str = ""  # draws, or a full count
    search: str = ""  # the budget with which the assertions were found
    check: str = ""
    audit: str = ""
    draws: str = ""  # the draws of the last look
    signed_off: str = ""  # the draws of the first look that signs it off
    why: str = ""
    page: str = ""


class Blocks:
    """What the looks of a county say about each of its contests, up to the look that failed, if one did."""

    def __init__(self, county, runs):
        ids = contests_of(os.path.join(runs.plan.top, county.given("ballots.raire"))) or {}  # including those that the table skips
        self.looks, self.fault = [], None
        try:
            for look, ran in steps.called(county, runs):
                self.looks.append((look.draws, dict(zip(ids, blocks_of(runs.text(ran))))))
        except (Missing, Failed) as fault:
            self.fault = fault

    def of(self, contest):
        return [(draws, blocks[contest]) for draws, blocks in self.looks if contest in blocks]


def audit_of(contest, county, blocks, runs):
    """The draws of the last look, those of the first look that signs the contest off, and what else is said about it."""
    looks, why = [], ""
    if contest.terms.audit == "session":
        looks = [(look.draws, ran.status == 0) for look, ran in steps.rounds(contest, runs)]
    elif county.one_call():
        looks = [(draws, block[-1] == "signed off yes") for draws, block in blocks.of(contest.id)]
        why = SPENT_IN_CALL if any(block[1] == "spent" for _, block in blocks.of(contest.id)) else ""
    last, first = str(looks[-1][0]) if looks else "", next((str(draws) for draws, signed in looks if signed), "")
    return last, first, "the last look says no: publish that too" if first and not looks[-1][1] else why


def row_of(contest, county, blocks, runs, has_page):
    """The row of a contest for which every step is done."""
    ran, budget = steps.searched(contest, runs)
    row = Row(contest.county, contest.id, "planned", contest.candidates, search=budget, audit=contest.terms.audit)
    row = row._replace(page=contest.made("page.html").removeprefix(MADE + os.sep) if has_page else "")
    lines = runs.text(ran).splitlines()
    if ran.status:
        state = {steps.TIE: "tie", steps.SPENT: "spent", steps.FULL_COUNT: TO_BE_COUNTED}[ran.status]
        margin = next((line.removeprefix("margin ") for line in lines if line.startswith("margin ")), "")
        return row._replace(state=state, margin=margin, why=", ".join(lines))
    file = json.loads(lines[0])
    row = row._replace(records=file["records"], winner=file["winner"], margin=file["margin"], assertions=len(file["assertions"]))
    check, by = steps.checked(contest, runs, ran.file, budget)
    row = row._replace(check=by)
    file, refuted = steps.published(contest, runs), steps.refuted(contest, runs)
    if not file:
        name, said = refuted or ("check", check)
        return stopped(row, name, said, runs)
    row = row._replace(assertions=len(json.loads(runs.read_file(file.file))["assertions"]))
    return judged(row, contest, county, blocks, runs)


def stopped(row, name, ran, runs):
    """The row of a contest that can't be audited, because of the answer of the command with this name."""
    return row._replace(state="spent" if ran.status == steps.SPENT else "refuted", why=f"{name}: " + ", ".join(runs.text(ran).splitlines()))


def judged(row, contest, county, blocks, runs):
    """The row of a contest that can be audited, from its plan and its looks."""
    planned = runs.text(steps.planned(contest, runs)).splitlines()[-1].removeprefix("all: ").removesuffix(" draws")
    draws, signed, why = audit_of(contest, county, blocks, runs)
    row = row._replace(planned=planned, draws=draws, signed_off=signed, why=why)
    halted = steps.halted(contest, runs)
    if halted:
        return stopped(row, *halted, runs)
    if signed:
        return row._replace(state=SIGNED_OFF)
    if planned == TO_BE_COUNTED:
        return row._replace(state=TO_BE_COUNTED, why="by the plan as many draws as there are cards, or 100,000, aren't enough")
    asked = contest.terms.draws
    if contest.terms.audit in ("contests", "session") and contest.terms.seed and asked:
        return row._replace(state="open" if str(asked[-1]) != draws else "not signed off")
    return row


def failed(row, without):
    """The row of a contest for which something failed. A contest that was signed off before stays so, since draws that were made can't be undone."""
    if row is None or row.state != SIGNED_OFF:
        return without
    return row._replace(page="", why=f"signed off by {row.signed_off} draws; then failed: {without.why}")


class Summary:
    """All rows, the files that were read, and the files that were made."""

    def __init__(self, plan, failures):
        self.plan, self.rows, self.inputs, self.outputs, self.has_failed = plan, [], {}, {}, False
        digests = Digests(plan.top)
        self.inputs[TERMS] = digests.of(TERMS)
        for county in plan.counties():
            self.add_county(county, digests, failures)
        order = list(STATES)
        self.rows.sort(key=lambda row: (order.index(row.state), row.county, row.contest))

    def add_county(self, county, digests, failures):
        runs = of_county(self.plan, digests, county, False)
        blocks = Blocks(county, runs)
        if not blocks.fault:
            with contextlib.suppress(Missing, Failed):
                self.add_page(county, runs)
        self.add_files(runs)
        for contest in county.contests:
            self.add_contest(contest, county, blocks, digests, failures)
        if not county.is_read:
            self.rows.append(Row(county.name, "", FAILED, why=failures.get((county.name, ""), "")))

    def add_page(self, who, runs):
        if self.plan.pages:
            does = steps.page_step()
            (does.of_county if hasattr(who, "contests") else does.of_contest)(who, runs)

    def add_contest(self, contest, county, blocks, digests, failures):
        runs, row, fault = of_contest(self.plan, digests, contest, False), None, blocks.fault
        try:
            steps.audited(contest, runs)
            row = row_of(contest, county, blocks, runs, self.plan.pages and not fault)
            if not fault:
                self.add_page(contest, runs)
        except (Missing, Failed) as found:
            fault = found
        if fault:
            why = failures.get((county.name, contest.id)) or failures.get((county.name, "")) or (str(fault) if isinstance(fault, Failed) else NOT_MADE)
            row = failed(row, Row(county.name, contest.id, FAILED, contest.candidates, why=why))
            self.has_failed = True
        self.rows.append(row)
        self.add_files(runs)

    def add_files(self, runs):
        self.inputs.update({path: digest for path, digest in runs.inputs.items() if not path.startswith(MADE + os.sep)})
        self.outputs.update(runs.outputs())

    def counts(self):
        counts = collections.Counter(row.state for row in self.rows)
        return {state: counts[state] for state in STATES if counts[state]}

    def is_done(self):
        return not self.has_failed and not any(row.state == FAILED for row in self.rows)

    def table(self):
        out = io.StringIO()
        writer = csv.writer(out, lineterminator="\n")
        writer.writerows([FIELDS, *self.rows])
        return out.getvalue().encode()

    def page(self):
        import jinja2

        folder = jinja2.FileSystemLoader(os.path.dirname(os.path.abspath(__file__)))
        made = jinja2.Environment(loader=folder, autoescape=True, trim_blocks=True, lstrip_blocks=True)
        made.filters["link"] = urllib.parse.quote
        pages = [(county.name, county.made("page.html")) for county in self.plan.counties()]
        counties = [(name, path.removeprefix(MADE + os.sep)) for name, path in pages if path in self.outputs]
        return (made.get_template("summary.html.j2").render(rows=self.rows, counts=self.counts(), counties=counties, states=STATES) + "\n").encode()

    def digests(self):
        """The digests as sha256sum prints them, sorted by name."""
        files = {path: digest for path, digest in {**self.inputs, **self.outputs}.items() if digest}
        return "".join(f"{files[path]}  {path}\n" for path in sorted(files)).encode()

    def left_over(self):
        """The files that an earlier run made from other contests or terms."""
        for part in ("contests", "counties"):
            for folder, _, names in os.walk(os.path.join(self.plan.top, MADE, part)):
                for name in names:
                    path = os.path.relpath(os.path.join(folder, name), self.plan.top)
                    if path not in self.outputs:
                        yield path
