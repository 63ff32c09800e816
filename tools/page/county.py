"""All contests of a ballot file on one sample, from the program's answers."""
import json

import audit
import plain
import plain_audit
import polled
import rounds
from files import told
from limits import MOST_DRAWS
from texts import millionths, plural

KINDS = ("ballots", "manifest", "seen")
TERMS = ("--seed", "--draws", "--limit", "--gamma")
DEFAULTS = {"limit": 50_000, "gamma": 100}


def blocks_of(text):
    """The lines of each contest, from its id to whether it is signed off."""
    blocks, block = [], []
    for line in text.splitlines()[:-1]:
        block.append(line)
        if line.startswith("signed off "):
            blocks.append(block)
            block = []
    return blocks


class County:
    """What the program says about all contests, and about each contest by itself."""

    def __init__(self, page):
        self.page, self.options = page, page.options
        self.paths = [page.path(kind) for kind in KINDS]
        self.nodes = [f"--nodes={self.options['--nodes']}"] if "--nodes" in self.options else []
        words = [f"{name}={self.options[name]}" for name in TERMS if name in self.options]
        self.status, text = page.program.must_run("contests", self.paths, *words, *self.nodes)
        page.judged.add("seen")
        given = {name: int(self.options.get(f"--{name}", left_out)) for name, left_out in DEFAULTS.items()}
        self.terms = {"seed": self.options["--seed"], "draws": int(self.options["--draws"]), **given}
        try:
            self.read(blocks_of(text))
        except plain_audit.Broken as broken:
            raise told(f"{self.paths[0]} is a ballot file to the program, but this page can't read these files: {broken}") from None

    def read(self, blocks):
        """Reads the files by this page's own rules, for the cards that differ from their records."""
        ballots, manifest, seen = (self.page.files[kind].data for kind in KINDS)
        self.manifest = plain_audit.manifest_of(manifest)
        self.terms["cards"] = self.manifest.cards
        self.draws_of = audit.draws_by_card(self.terms, self.terms["draws"])
        contests = plain_audit.contests_of(ballots)
        self.seen = plain_audit.seen_by(seen, self.manifest, contests)
        if [block[0] for block in blocks] != [f"contest {contest.name}" for contest in contests]:
            raise self.page.program.is_another("contests")
        self.contests = [self.contest(contest, block) for contest, block in zip(contests, blocks)]

    def contest(self, ballots, block):
        """A row of the page, and what it opens."""
        name, words = ballots.name, [f"--contest={ballots.name}"]
        self.page.shown_of(ballots)
        status, text = self.page.program.must_run("tabulate", self.paths[:1], *words)
        found = {
            "name": self.page.names.contest(name), "ids": ballots.ids, "records": ballots.records,
            "tabulation": self.page.tabulation(status, text, ballots.ids),
            "without": self.manifest.cards - ballots.records,
        }
        if block[1] == "tie":
            return {**found, "kind": "tied", "tabulation": {"tie": rounds.tie_of("\n".join(block[1:-1]), self.page.names)}}
        if block[1] == "spent":
            return {**found, "kind": "spent", "lines": block[1:-1]}
        return {**found, **self.audited(ballots, block, words), "kind": "signed" if block[-1] == "signed off yes" else "unsigned"}

    def audited(self, ballots, block, words):
        """The winner, margin and claims of a decided contest. The lines of the claims are compared with those of a search, since ids may have blanks."""
        status, text = self.page.program.must_run("search", self.paths[:1], *words, "--workers=1", *self.nodes)
        if status != 0:
            raise self.page.program.is_another("contests")
        file, recorded = json.loads(text), plain_audit.linked(ballots, self.manifest)
        pairs = plain.read_assertions(text.encode())["assertions"]
        shown = [f"{plain.shown(ballots, assertion)} margin {margin} counts " for assertion, margin in pairs]
        if len(shown) != len(block[4:-1]) or not all(map(str.startswith, block[4:-1], shown)):
            raise self.page.program.is_another("contests")
        states = [state_of(line, self.terms["limit"]) for line in block[4:-1]]
        seen = self.seen[ballots.name]
        if audit.counted(self.draws_of, recorded, pairs, seen) != [state["counts"] for state in states]:
            raise told(f"{self.paths[2]} doesn't give the counts that {self.page.program.name} prints for contest {ballots.name}")
        claims = [
            {"claim": self.page.named(claim), "margin": claim["margin"], "state": state, "number": j}
            for j, (claim, state) in enumerate(zip(file["assertions"], states), 1)
        ]
        return {
            "winner": self.page.names.of(file["winner"]), "margin": file["margin"], "claims": claims, "worst": max(states, key=lambda state: state["risk"]),
            "open": sum(not state["is_confirmed"] for state in states),
            "differing": audit.differing(self.terms, self.page.shown(ballots.ids), self.manifest, recorded, pairs, seen, self.draws_of),
            "without_contest": audit.without_contest(self.manifest, recorded, seen, self.draws_of),
        }


def state_of(line, limit):
    """The numbers of a claim's line, read from its end."""
    *counts, _, risk, state = line.rpartition(" counts ")[2].split(" ")
    units = int(risk.replace(".", ""))
    return {"counts": [int(count) for count in counts], "risk": units, "width": polled.width_of(units, limit), "is_confirmed": state == "confirmed"}


def state_in_words(county):
    """The kind, the head and the text of what is at the top of the page."""
    contests, draws = county.contests, county.terms["draws"]
    signed = sum(contest["kind"] == "signed" for contest in contests)
    each = f"each assertion of {'it' if signed == 1 else 'these'} has a risk of at most {millionths(county.terms['limit'])}"
    after = f"after {plural(draws, 'draw')}"
    if county.status == 0:
        return "signed", f"ALL SIGNED OFF {after}: {plural(len(contests), 'contest')}.", f"{each[0].upper()}{each[1:]}."
    head = f"{signed} OF {plural(len(contests), 'CONTEST', 'CONTESTS')} SIGNED OFF {after}:"
    others = [told_of(contests, kind, words) for kind, words in (("unsigned", "not signed off"), ("tied", "tied"), ("spent", "not searched to the end"))]
    text = f"{each}; " * bool(signed) + ", ".join(filter(None, others)) + "."
    unsigned = any(contest["kind"] == "unsigned" for contest in contests)
    if unsigned and (draws >= MOST_DRAWS or len(county.draws_of) == county.terms["cards"]):
        return "unsigned", head, f"{text} No cards are left to draw: count in full what isn’t signed off."
    return ("open", head, f"{text} Draw further cards with the same seed, or count in full.") if unsigned else ("unsigned", head, text)


def told_of(contests, kind, words):
    count = sum(contest["kind"] == kind for contest in contests)
    return f"{count} {'is' if count == 1 else 'are'} {words}" if count else ""


def see_files(page):
    """Checks the files and options of all contests on one sample: they have a seed and draws, and nothing that is about one contest."""
    if "--contest" in page.options:
        raise told("--contest is for one contest, but these files and options are for all: omit it, or give a session or an assertion file")
    if "--sets" in page.options:
        raise told("all contests on one sample have no --sets: give --nodes")
    if "--each" in page.options:
        raise told("--each is for a poll, but these files and options are for all contests: omit it, or give an assertion file in place of the ballot file")
    if page.has("names") and not page.names.all.has_contests:
        raise told(f"{page.path('names')} names the candidates of one contest, but these files and options are for all: begin it with contest,id,name")
    if page.has("counted"):
        raise told(f"{page.path('counted')} is a full count of one contest, but these files and options are for all")
