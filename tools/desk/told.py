"""The answers of the commands in words and numbers, for the pages. They are read only from the files that the commands made."""
import functools
import re
from typing import NamedTuple

from audit import BOXES, CONTESTS, PLURALITY, POLL
from ballots import first_preferences
from steps_of_rounds import likely_draws
from terms import number_of_percent, percent

MILLION = 1_000_000
RISK = re.compile(
    r"(?P<what>.*?) (?:margin (?P<margin>\d+) )?(?:gamma (?P<gamma>\d+) )?counts (?P<counts>[\d ]+) risk (?P<risk>[\d.]+) "
    r"(?P<state>confirmed|unconfirmed)(?: (?P<draw>\d+))?"
)
LINE_OF_PLAN = re.compile(r"(?P<what>.*) margin (?P<margin>\d+): (?P<draws>.*)")


class Risk(NamedTuple):
    """An assertion after a round, as a row of the page."""
    what: str
    margin: str
    counts: str
    risk: str
    share: float  # of the limit
    is_confirmed: bool
    by_draw: str  # for a poll that looks after each draw: the draw that confirms it
    likely: int  # draws that are likely to be enough; None if no number of draws is


class Counted(NamedTuple):
    """A contest after a round: its assertions, whether it is signed off, and its lines if it has no assertions."""
    title: str
    risks: list
    is_signed_off: bool
    lines: list

    def likely(self):
        """The draws that are likely to confirm what isn't confirmed yet; None if no number of draws is."""
        open_ones = [each.likely for each in self.risks if not each.is_confirmed]
        return None if not open_ones or None in open_ones else max(open_ones)


def in_words(claim, called):
    """An assertion of an assertion file as people say it."""
    winner, loser = called(claim["winner"]), called(claim["loser"])
    if claim["kind"] == "NEB":
        return f"{winner} isn’t eliminated before {loser}"
    return f"{winner} has more votes than {loser} once only {', '.join(map(called, claim['rest']))} are left"


def printed(claim):
    """An assertion as the commands print it."""
    rest = f" {{{','.join(claim['rest'])}}}" if "rest" in claim else ""
    return f"{claim['kind']} {claim['winner']} {claim['loser']}{rest}"


def assertions(audit, name):
    """The assertions of a file in words, with their margins, and who wins."""
    file = audit.members(name)
    called = called_in(audit, file)
    return [(in_words(claim, called), claim["margin"]) for claim in file["assertions"]], called(file["winner"]), file["margin"]


def called_in(audit, file):
    """The names of the candidates of an assertion file's contest."""
    return functools.partial(audit.called, next(each for each in audit.contests if each.id == file["contest"]))


def words_of_claims(audit, name):
    """The assertions of a file in words, by the text that the commands print for them, and by their numbers in a report."""
    file = audit.members(name)
    words = [(printed(claim), in_words(claim, called_in(audit, file))) for claim in file["assertions"]]
    return {**dict(words), **{f"assertion {at}": said for at, (_, said) in enumerate(words, 1)}}


def words_of_plurality(audit):
    """The claims of a plurality contest in words, by their numbers in a report: one for each candidate except the leader, in the ballot file's order."""
    leader = first_preferences(audit)[0].candidate
    others = [each for each in audit.contest.candidates if each != leader]
    called = functools.partial(audit.called, audit.contest)
    return {f"assertion {at}": f"{called(leader)} has more first preferences than {called(each)}" for at, each in enumerate(others, 1)}


def plan(text, words):
    """The rows of a plan, with its assertions in words, and what it says about all assertions."""
    *rows, last = text.splitlines()
    found = [match.groupdict() for match in map(LINE_OF_PLAN.fullmatch, rows) if match]
    return [{**row, "what": words.get(row["what"], row["what"])} for row in found], last.removeprefix("all: ")


def rounds(audit, number):
    """The result of a round, contest by contest."""
    round = audit.rounds()[number - 1]
    text = audit.text(audit.answer_of(round))
    if audit.kind == CONTESTS:
        return [of_block(audit, block, round) for block in blocks_of(text)]
    words = words_of_claims(audit, audit.assertions) if audit.kind != PLURALITY else words_of_plurality(audit)
    if audit.kind == POLL:
        lines = text.splitlines()
        return [Counted(audit.title(audit.contest), risks_of(audit, lines, round, words), lines[-1] == "confirmed yes", [])]
    lines = audit.text(f"report{number}.txt").splitlines()
    at = lines.index(f"round {round.number} draws {round.draws}")
    return [Counted(audit.title(audit.contest), risks_of(audit, lines[at + 1:], round, words), lines[-1] == "signed off yes", [])]


def risks_of(audit, lines, round, words):
    matches = filter(None, map(RISK.fullmatch, lines))
    return [risk_of(audit, match, words.get(match["what"], match["what"]), round) for match in matches]


def risk_of(audit, match, what, round):
    limit, risk = audit.limit / MILLION, float(match["risk"])
    likely = likely_draws(risk, round.draws, limit, audit.cards)
    what = f"{what} (gamma {match['gamma']})" if match["gamma"] else what
    return Risk(what, match["margin"], match["counts"], match["risk"], risk / limit, match["state"] == "confirmed", match["draw"], likely)


def blocks_of(text):
    """The lines of each contest, from its id to whether it is signed off."""
    block = []
    for line in text.splitlines()[:-1]:
        block.append(line)
        if line.startswith("signed off "):
            yield block
            block = []


def of_block(audit, block, round):
    contest = next(each for each in audit.contests if each.id == block[0].removeprefix("contest "))
    words = words_of_claims(audit, f"assertions_{contest.number}.json") if contest in audit.audited() else {}
    risks = risks_of(audit, block, round, words)
    return Counted(audit.title(contest), risks, block[-1] == "signed off yes", [] if risks else block[1:-1])


def counts_of_boxes(text):
    """The numbers that ./raire boxes prints, and its lines about batches that no record names."""
    lines = text.splitlines()
    numbers = {name: int(value) for name, value in (line.rsplit(" ", 1) for line in lines[1:3])}
    return {**numbers, "lines": lines[3:]}


def boxes_of_contests(audit):
    """What ./raire boxes prints about each contest, and its lines about batches that no record names."""
    lines = audit.text(BOXES).splitlines()[1:]
    of_contests = [(each, line.removeprefix(f"contest {each.id}: ")) for each, line in zip(audit.contests, lines)]
    return of_contests, lines[len(of_contests):]


def table_of_trials(answers, audit):
    """What plans with other limits and gammas say about all assertions, contest by contest."""
    found = {}
    for line, text in answers:
        options = dict(word.removeprefix("--").split("=") for word in line.words if word.startswith("--"))
        found.setdefault((int(options["limit"]), int(options["gamma"])), []).append(plan(text, {})[1])
    return found


def visible(text):
    """A text with every blank visible."""
    return text.replace(" ", "␣")


FILTERS = {"percent": percent, "number_of_percent": number_of_percent, "visible": visible}
