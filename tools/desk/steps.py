"""The steps of an audit up to the seed: what each does with what is typed in. A step is a deed of the record."""
import io

import calls
import exports
import plain_audit
from audit import BALLOTS, BEST, COMPARISON, CONTESTS, contests_of, EACH, HEAD_BYTES, KINDS, MANIFEST, PLURALITY, POLL
from forms import Wrong
from limits import GREATEST_EACH_GAMMA, GREATEST_GAMMA, MOST_DRAWS, MOST_NODES, MOST_SEED_BYTES, MOST_SETS
from record import Choice
from running import Upload
from terms import text_of_terms

BUDGETS = {"": "100,000 nodes, the default", f"--sets={MOST_SETS}": f"{MOST_SETS:,} sets", f"--nodes={MOST_NODES}": f"{MOST_NODES:,} nodes"}
MOST_WITHOUT_SETS = 9  # up to this many candidates, the default budget never runs out
MOST_BALLOTS, MOST_MINUTES, MOST_TEAMS = 1_000_000_000, 1_000, 1_000


class Step:
    """A step: its key in addresses and in commands.txt, and its title."""
    key = title = ""
    may_be_replaced = False  # whether it can be done again right away, as long as nothing is done after it

    def __init__(self, audit, number=0):
        self.audit, self.number = audit, number

    @property
    def name(self):
        return f"{self.key}{self.number or ''}"

    @property
    def is_done(self):
        return self.name in self.audit.deeds

    @property
    def heading(self):
        return self.title.format(number=self.number)

    def lines(self, form):
        """What is chosen, given and typed, from what was filled in."""
        raise NotImplementedError

    def finish(self):
        """Cleans up what was there before the step was done."""


class Records(Step):
    key, title = "records", "Records of the ballots"
    exports = exports

    def lines(self, form):
        return self.converted(form) if form.chosen("way", "how the records come", ("raire", "export")) == "export" else self.given(form)

    def given(self, form):
        stream = form.file("ballots", "a ballot file")
        return [Upload(BALLOTS, stream), calls.judge(heads_of(stream))]

    def converted(self, form):
        key = form.chosen("format", "a form of export", exports.FORMATS)
        vendor, streams = exports.FORMATS[key], form.all_files("exports", "the files of the export")
        if len(streams) > vendor.most_files:
            raise Wrong(f"This form takes up to {vendor.most_files} file{'s' * (vendor.most_files > 1)}.")
        names = [exports.name_of(number, vendor, stream) for number, stream in enumerate(streams, 1)]
        options = exports.options_of(form, key)
        return [*map(Upload, names, streams), calls.convert(key, names, options)]


def heads_of(stream):
    """The contests of a ballot file that was given; none if it can't be read. Then the program says what is wrong with it."""
    head = stream.read(HEAD_BYTES)
    stream.seek(0)
    try:
        return contests_of(head)
    except plain_audit.Broken:
        return []


class Account(Step):
    key, title = "account", "Account of the export"

    def account(self):
        return self.audit.text("account.txt").splitlines()

    def lines(self, form):
        lines, ticked = self.account(), set(form.ticked("line"))
        left = [line for number, line in enumerate(lines, 1) if str(number) not in ticked]
        if left:
            told = f"{len(left)} of {len(lines)} lines aren’t checked off, such as “{left[0].strip()}”."
            raise Wrong(f"{told} Compare each line with the vendor’s system.")
        return [Choice("account", "confirmed")]


class Contest(Step):
    key, title = "contest", "What is audited"

    def advised(self):
        """The kind of audit that the records suggest: by what was converted, or by the number of contests."""
        converted = [word for line in self.audit.commands("records") for word in line.words]
        if "--as=plurality" in converted:
            return PLURALITY
        return COMPARISON if len(self.audit.contests) == 1 else CONTESTS

    def lines(self, form):
        kind = form.chosen("audit", "how the contest is audited", KINDS)
        if kind == CONTESTS:
            return [Choice("audit", kind), *[calls.tabulate(self.audit, each, f"rounds_{each.number}.txt") for each in self.audit.contests]]
        ids = {str(each.number): each for each in self.audit.contests}
        contest = ids[form.chosen("contest", "the contest", ids)] if len(ids) > 1 else self.audit.contests[0]
        tabulation = [calls.tabulate(self.audit, contest, "rounds.txt")] * (kind != PLURALITY)
        return [Choice("audit", kind), Choice("contest", contest.id), *tabulation]


class Cards(Step):
    key, title = "cards", "Cards and boxes"

    def lines(self, form):
        stream = form.file("manifest", "a manifest")
        cast = form.number("cast", "The number of ballots that were cast", 1, MOST_BALLOTS)
        return [Upload(MANIFEST, stream), Choice("cast", str(cast)), *calls.boxes(self.audit)]


class Assertions(Step):
    key, title = "assertions", "Assertions"

    def lines(self, form):
        budget = form.chosen("budget", "a budget", self.budgets())
        words = [budget] * bool(budget)
        trimmed = calls.trim(self.audit, words) if form.values.get("trim") else []
        return [Choice("budget", budget), *calls.search(self.audit, words), *trimmed]

    def budgets(self):
        """The budgets to choose from. If one call audits all contests, only nodes can be given."""
        return {words: told for words, told in BUDGETS.items() if self.audit.kind != CONTESTS or not words.startswith("--sets")}

    def advised(self):
        """The budget that suits the number of candidates."""
        most = max(len(each.candidates) for each in self.audit.contests) if self.audit.kind == CONTESTS else len(self.audit.contest.candidates)
        return f"--sets={MOST_SETS}" if most > MOST_WITHOUT_SETS and self.audit.kind != CONTESTS else ""


class Plan(Step):
    key, title = "plan", "Plan: limit and gamma"
    may_be_replaced = True
    LIMITS, GAMMAS = (10_000, 50_000, 100_000), (50, 100, 150, 200)

    def lines(self, form):
        limit = form.millionths("limit", "The risk limit")
        is_each = self.audit.kind == POLL and form.option("looks", "When the poll looks") == EACH
        is_best = is_each and form.option("gamma", "Gamma") in ("", BEST)
        gamma = BEST if is_best else form.number("gamma", "Gamma", 1, GREATEST_EACH_GAMMA if is_each else GREATEST_GAMMA)
        return [Choice("limit", str(limit)), Choice("gamma", str(gamma)), *[Choice("looks", EACH)] * is_each, *calls.plans(self.audit, limit, gamma)]

    def usual_gamma(self):
        return BEST if self.audit.kind == POLL else 100

    def planned_draws(self):
        """The draws that are enough for all assertions of the contests that don't need a full count; None if there are none."""
        files = [f"plan_{each.number}.txt" for each in self.audit.audited()] if self.audit.kind == CONTESTS else ["plan.txt"]
        told = [self.audit.text(name).rsplit("all: ", 1)[-1].split(" ")[0] for name in files]
        return max((int(draws) for draws in told if draws.isdigit()), default=None)

    def hours(self, figures):
        """The number of different cards and the hours for a number of draws, by an office's own figures; None if the figures can't be used."""
        try:
            draws, minutes, teams = int(figures["draws"]), float(figures["minutes"]), int(figures["teams"])
        except (KeyError, ValueError):
            return None
        is_some = 0 < draws <= MOST_DRAWS and 0 < minutes <= MOST_MINUTES and 0 < teams <= MOST_TEAMS
        return hours_of(draws, self.audit.cards, minutes, teams) if is_some else None

    def trials(self):
        """Plans to look at, with other limits and gammas."""
        for limit in self.LIMITS:
            for gamma in self.GAMMAS:
                for number, each in enumerate(calls.plans(self.audit, limit, gamma), 1):
                    yield each._replace(outs={0: f"trial_{limit}_{gamma}_{number}.txt"})


class Terms(Step):
    key, title = "terms", "Terms to publish"

    def lines(self, form):
        rounds = self.rounds(form)
        return [Upload("terms.txt", io.BytesIO(self.preview(form).encode())), Choice("rounds", " ".join(map(str, rounds)))]

    def rounds(self, form):
        return rounds_of(form.text("rounds", "The list of the numbers of draws"))

    def preview(self, form):
        """The page of terms."""
        return text_of_terms(self.audit, self.rounds(form), form.text("how", "The text about how the seed is made"))

    def advised_rounds(self):
        """The draws of the plan, and twice as many."""
        draws = Plan(self.audit).planned_draws()
        return f"{draws} {2 * draws}" if draws and 2 * draws <= MOST_DRAWS else ""


def hours_of(draws, cards, minutes, teams):
    """The number of different cards that a number of draws is likely to take, and the hours it takes to fetch and read them."""
    different = cards * (1 - (1 - 1 / cards) ** draws)
    return round(different), round(different * minutes / 60 / teams, 1)


def rounds_of(text):
    parts = text.replace(", ", " ").split()
    if not parts or not all(part.isascii() and part.isdigit() and 0 < int(part) <= MOST_DRAWS for part in parts):
        raise Wrong(f"The numbers of draws are whole numbers from 1 to {MOST_DRAWS:,}, with blanks between and without commas in them.")
    rounds = list(map(int, parts))
    if any(later <= earlier for earlier, later in zip(rounds, rounds[1:])):
        raise Wrong("Each number counts all draws so far, so each is larger than the one before.")
    return rounds


class Seed(Step):
    key, title = "seed", "Seed"

    def preview(self, form):
        return seed_of(form)

    def lines(self, form):
        seed = seed_of(form)
        return [Choice("seed", seed), *calls.opening(self.audit, seed)]


def seed_of(form):
    """The seed, if both fields have the same text."""
    seed, again = form.values.get("seed", ""), form.values.get("again", "")
    if not 1 <= len(seed) <= MOST_SEED_BYTES or not all(" " <= c <= "~" for c in seed):
        raise Wrong(f"A seed has 1 to {MOST_SEED_BYTES} characters: letters without accents, digits, punctuation and blanks.")
    if seed != again:
        raise Wrong("The two seeds aren’t the same. Type both again, each from what was written down.")
    return seed
