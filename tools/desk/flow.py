"""The steps of an audit in order, which of them are done, and which can be done now."""
from audit import COMPARISON, PLURALITY
from steps import Account, Assertions, Cards, Contest, Plan, Records, Seed, Terms
from steps_of_rounds import Count, End, Fetch, FullCount, Read

FIRST = (Records, Account, Contest, Cards, Assertions, Plan, Terms, Seed)
OF_ROUND = (Fetch, Read, Count)
LAST = (FullCount, End)
WITHOUT_ASSERTIONS = (PLURALITY,)
WITH_FULL_COUNT = (COMPARISON, PLURALITY)


class Flow:
    def __init__(self, audit):
        self.audit = audit
        self.steps = list(self.first()) + self.of_rounds() + self.last()

    def first(self):
        for step in FIRST:
            if step is Account and "account.txt" not in self.audit.files:
                continue
            if step is Assertions and self.audit.kind in WITHOUT_ASSERTIONS:
                continue
            yield step(self.audit)

    def of_rounds(self):
        """The steps of the rounds that have begun, and of one more if none is open."""
        begun = len(self.audit.rounds())
        is_open = begun > 0 and f"round{begun}" not in self.audit.deeds
        is_over = self.audit.is_signed_off() or any(step.key in self.audit.deeds for step in LAST)
        more = 0 if is_open or is_over else 1
        return [step(self.audit, number) for number in range(1, begun + more + 1) for step in OF_ROUND]

    def last(self):
        is_counted = self.audit.kind in WITH_FULL_COUNT and self.audit.rounds() and "round1" in self.audit.deeds and not self.audit.is_signed_off()
        return [step(self.audit) for step in LAST if step is End or is_counted]

    def find(self, name):
        return next((step for step in self.steps if step.name == name), None)

    def open(self):
        """The steps that can be done now: the first that isn't done and, after a round that leaves something open, the last ones too."""
        undone = [step for step in self.steps if not step.is_done]
        if not undone:
            return []
        first = undone[0]
        is_choice = isinstance(first, (Fetch, FullCount)) and self.audit.rounds()
        return [step for step in undone if step is first or (is_choice and step.key in ("count", "end"))]

    def may_do(self, step):
        return step in self.open() or (step.may_be_replaced and self.is_last(step))

    def is_last(self, step):
        """Whether nothing was done after this step."""
        return bool(self.audit.record) and self.audit.record[-1].step == step.name

    def may_take_back(self, step):
        """Whether a step can be taken back: the last step can until the terms are fixed. After that, it only can if it published nothing."""
        return self.is_last(step) and ("terms" not in self.audit.deeds or step.key in ("count", "end"))

    def now(self):
        """The step to look at: the first that can be done, or the last one."""
        return (self.open() or self.steps[-1:])[0]
