"""The steps from the first drawn card to the end: cards are fetched, read by two people and counted, until the audit is signed off."""
import io
import math
from typing import NamedTuple

import ballots
import calls
import plain_risk
import readings
from audit import COUNTED, READERS, Round
from forms import Wrong
from limits import MOST_DRAWS
from record import Choice
from running import Upload
from steps import heads_of, Step


class Drawn(NamedTuple):
    """A number of draws before it is confirmed: the cards that it takes, how many of them are new, and the number that the terms have."""
    draws: int
    before: int
    cards: int
    new: int
    advised: int


class Fetch(Step):
    key, title = "fetch", "Round {number}: cards to fetch"

    def before(self):
        """The number of draws of the rounds before this one."""
        earlier = [each.draws for each in self.audit.rounds() if each.number < self.number]
        return earlier[-1] if earlier else 0

    def cards(self):
        return readings.cards_of(self.audit, self.number)

    def draws(self):
        """The number of draws of this round and those before it, when the round is done."""
        return self.audit.rounds()[self.number - 1].draws

    def advised(self):
        """The number of draws that the terms say comes next."""
        return next((draws for draws in self.audit.planned_rounds() if draws > self.before()), None)

    def typed(self, form):
        return form.number("draws", "The number of draws, which counts all so far,", self.before() + 1, MOST_DRAWS)

    def preview(self, form):
        """The result of the draws, to look at before they are made."""
        draws, seed, cards, before = self.typed(form), self.audit.seed, self.audit.cards, self.before()
        places = [plain_risk.drawn(seed, k, cards) for k in range(1, draws + 1)]
        return Drawn(draws, before, len(set(places)), len(set(places) - set(places[:before])), self.advised())

    def lines(self, form):
        draws = self.typed(form)
        return [Choice("draws", str(draws)), *calls.cards(self.audit, Round(self.number, draws, self.before()))]


class Read(Step):
    key, title = "read", "Round {number}: two readings"

    def cards(self):
        return readings.cards_of(self.audit, self.number)

    def drafts(self):
        return [readings.Draft(self.audit, self.number, reader) for reader in READERS]

    def lines(self, form):
        drafts = self.drafts()
        for reader, draft in zip(READERS, drafts):
            if draft.left():
                raise Wrong(f"Reader {reader} has {len(draft.left())} cards to read.")
        texts = readings.seen_files(self.audit, self.number, drafts)
        uploads = [Upload(name, io.BytesIO(text.encode())) for name, text in texts]
        people = [Choice(f"reader_{reader.lower()}", draft.person) for reader, draft in zip(READERS, drafts) if draft.person]
        return [*uploads, *people, *calls.agree(self.audit, self.number)]

    def different(self, drafts):
        return readings.differences(drafts)

    def finish(self):
        """Drops the drafts, which are files of the record now."""
        for reader in READERS:
            self.audit.folder.drop_draft(readings.name_of(self.number, reader))


def end_drafts(audit):
    """Drops the drafts that a desk left behind if it was killed after they were taken."""
    for round in audit.rounds():
        step = Read(audit, round.number)
        if step.is_done:
            step.finish()


class Count(Step):
    key, title = "round", "Round {number}: the count"

    def round(self):
        return self.audit.rounds()[self.number - 1]

    def advised(self):
        """The number of draws that the terms have after this round; None if they have no more."""
        return next((draws for draws in self.audit.planned_rounds() if draws > self.round().draws), None)

    def lines(self, form):
        return calls.round_of(self.audit, self.round())


class FullCount(Step):
    key, title = "count", "Full count"

    def lines(self, form):
        stream, contest = form.file("counted", "the ballot file of the full count"), self.audit.contest
        counted = next((each for each in heads_of(stream) if each.id == contest.id), contest)  # without it the program refuses the file
        if counted.candidates != contest.candidates:
            told = f"In this file, {contest.id} has the candidates {', '.join(counted.candidates)}. In the audit, it has {', '.join(contest.candidates)}."
            raise Wrong(f"{told} Give the ballot file of the same contest, with the same candidates in the same order.")
        return [Upload(COUNTED, stream), calls.count(self.audit)]

    def left_out(self):
        return ballots.left_out(self.audit)


class End(Step):
    key, title = "end", "End"
    may_be_replaced = True

    def lines(self, form):
        return [calls.show(self.audit)]

    def left_out(self):
        return ballots.left_out(self.audit)


def likely_draws(risk, draws, limit, cards):
    """The number of draws likely to be enough if the next cards are like those so far; None if a full count is less work."""
    if not 0 < risk < 1:
        return None
    needed = math.ceil(draws * math.log(limit) / math.log(risk))
    return needed if needed <= min(cards, MOST_DRAWS) else None
