"""README's audits as a person goes through them at the desk: what is filled in at each step."""
import csv
import html
import os
import re

from desk_visit import read, TOP

EXAMPLES = os.path.join(TOP, "examples")
HOW = (
    "eight dice, thrown one after the other on 3 November 2026, at ten, in the town hall, once and before everybody. "
    "The seed is the text \"2026-11-03 dice\" and the eight numbers, each with a blank before it"
)


class Walk:
    """An audit: its files, what is chosen, its seed, and the draws of its rounds."""

    def __init__(self, place, kind, seed, rounds, cast, counted=None, gamma="100", seen=None, further=(), plan=()):
        self.place, self.kind, self.seed, self.rounds, self.cast, self.counted = os.path.join(EXAMPLES, place), kind, seed, rounds, cast, counted
        self.plan = {"limit": "5", "gamma": gamma, **dict(plan)}
        self.further = further  # numbers of draws that the terms have, and that aren't needed
        self.seen = readings_of(seen if seen is not None else read(self.file("seen.csv"), "r"), kind == "contests")

    def file(self, name):
        return os.path.join(self.place, name)

    def data(self, name):
        return read(self.file(name))

    def steps(self):
        """Each step with what is filled in, and the files that are given."""
        yield "records", {"way": "raire"}, [("ballots", self.data("ballots.raire"))]
        yield "contest", {"audit": self.kind}, []
        yield "cards", {"cast": self.cast}, [("manifest", self.data("manifest.csv"))]
        if self.kind != "plurality":
            yield "assertions", {"budget": ""}, []
        yield "plan", self.plan, []
        yield "terms", {"rounds": " ".join(map(str, [*self.rounds, *self.further])), "how": HOW}, []
        yield "seed", {"seed": self.seed, "again": self.seed}, []
        for number, draws in enumerate(self.rounds, 1):
            yield f"fetch{number}", {"draws": draws}, []
            yield f"read{number}", {}, []
            yield f"round{number}", {}, []
        if self.counted:
            yield "count", {}, [("counted", self.data(self.counted))]
        yield "end", {}, []


def readings_of(text, has_contests):
    """What was read on each card: missing, or who is ranked in each contest."""
    found = {}
    for row in csv.reader(text.splitlines()):
        card, contest, word, ranked = (row[0], row[1], row[2], row[3:]) if has_contests else (row[0], None, row[1], row[2:])
        of_card = found.setdefault(card, {})
        of_card[contest] = None if word == "missing" else ranked
    return found


def polled(place):
    """Cards that are seen as they are recorded, as docs/polls.md has them."""
    rows = (line.split(",", 1) for line in read(os.path.join(EXAMPLES, place, "ballots.raire"), "r").splitlines()[2:])
    return "".join(re.sub(r"^([^,]*)", r"\1,ballot", rest) + "\n" for _, rest in rows)


WALKS = {
    "town": lambda: Walk("town", "comparison", "2026-11-03 dice 2 6 1 4 5 5 3 1", (40, 90), 480, further=(200,)),
    "village": lambda: Walk("village", "comparison", "2026-11-03 dice 4 6 6 1 2 4 3 4", (38,), 60, counted="counted.raire"),
    "library": lambda: Walk("library", "plurality", "2026-11-03 dice 6 2 3 3 5 1 4 2", (16, 24), 90),
    "county": lambda: Walk("county", "contests", "2026-11-03 dice 5 1 4 4 2 6 3 1", (40, 80), 360),
    "harbor": lambda: Walk("harbor", "poll", "2026-11-03 dice 3 1 6 2 5 4 4 6", (100, 150), 142, gamma="500", seen=polled("harbor") + "H3_42,ballot\n"),
}
READERS = {"A": "MK", "B": "JL"}


def go_through(visitor, walk, until=None):
    """Continues an audit from the state of its folder, step by step, to its end or up to a step."""
    for step, fields, files in walk.steps():
        page = visitor.go("/step/" + step) if visitor.ask("GET", "/step/" + step).status == 200 else None
        if page is None or 'class="typed"' in page.text:
            continue  # done before
        if step == until:
            return
        if step.startswith("read"):
            read_cards(visitor, walk, int(step[4:]))
        page = visitor.do(step, fields, files)
        if 'class="typed"' not in page.text:
            raise AssertionError(f"{step}: {page.status} {page.words()[:2000]}")


def read_cards(visitor, walk, number, readers="AB"):
    """Readers type in every card that isn't read yet, each reader independently."""
    for reader in readers:
        person = READERS[reader]
        page = visitor.go(f"/read/{number}/{reader}")  # this leads back to the step if no card is new
        if "Who reads?" in page.text:
            page = visitor.post(f"/read/{number}/{reader}/begin", {"person": person})
        while 'class="entry"' in page.text and len(re.findall("not read yet", page.text)) > 0:
            page = take(visitor, walk, number, reader, page)


def take(visitor, walk, number, reader, page):
    """Types in the card that the page shows."""
    card = page.hidden("card")
    reading = walk.seen[card]
    fields = {"card": card, "was": page.hidden("was"), **({"missing": "yes"} if None in reading.values() else fields_of(page, reading))}
    return visitor.post(f"/read/{number}/{reader}/take", fields)


def fields_of(page, reading):
    """The marks of a card, as the form of its page has them."""
    fields = {}
    for number, title, candidates in contests_of(page):
        ranked = reading[title] if title in reading else reading[None]
        fields[f"way_{number}"] = "ranked" if ranked else "nobody"
        fields.update({f"rank_{number}_{rank}": candidates.index(name) + 1 for rank, name in enumerate(ranked, 1)})
    return fields


def contests_of(page):
    """The contests of a card's page: number, id, and the candidates in order."""
    for number, body in re.findall(r'data-contest="(\d+)">(.*?)</fieldset>', page.text, re.DOTALL):
        title = html.unescape(re.search("<legend>(.*?)</legend>", body)[1])
        yield number, title, [html.unescape(name) for name in re.findall(r'aria-label="(?!no mark)(.*?), rank 1"', body)]
