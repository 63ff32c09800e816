"""Makes the page: asks the program about each file, and fills page.html."""
import os
import re
import sys

try:
    import jinja2
except ImportError:  # the help needs no templates
    jinja2 = None

import apart
import audit
import county
import files
import firsts
import orders
import plain
import plain_audit
import planned
import polled
import rounds
import share
import state
import tallies
import term_notes
import what_to_do
from files import broken_to_page, Refusal, told
from limits import GREATEST_EACH_GAMMA, GREATEST_GAMMA, GREATEST_LIMIT, MOST_DRAWS, MOST_NODES, MOST_SETS
from names import Names
from program import TOP, Program
from texts import listed, millionths, ordinal, plural, shown

HELP = os.path.join(TOP, "docs", "help", "show.txt")
BUDGETS = {"--nodes": MOST_NODES, "--sets": MOST_SETS}
NUMBERS = {**BUDGETS, "--draws": MOST_DRAWS, "--limit": GREATEST_LIMIT, "--gamma": GREATEST_GAMMA}
POLL = ("--seed", "--draws", "--limit", "--gamma")
EACH, BEST = "--each", "--gamma=best"  # for a poll that looks after each draw, in which gamma may be fitted to each margin
OPTIONS = ("--contest", *BUDGETS, *POLL, EACH)
UNWRITTEN = Refusal(8, "show: the page could not be written\n")
MOST_LISTED = 100
BEFORE = "SESSION"  # stands for the session so far in the words with which the page says the program was asked
POLLED = ("manifest", "assertions", "seen")
UNCOUNTED = re.compile("no: contest differs|no: winner is |no: assertion [0-9]+ has |tie")  # the margins may be others


def words_of(words):
    """The paths and the options of a call, as ./raire takes them: a word that begins with - is an option until a word --."""
    paths, options, rest = [], {}, list(words)
    while rest:
        word = rest.pop(0)
        if word == "--":
            paths, rest = paths + rest, []
        elif not word.startswith("-"):
            paths.append(word)
        else:
            name, has_value, value = word.partition("=")
            if name not in OPTIONS:
                raise told(f"no such option: {name}; see ./raire help show")
            if name in options:
                raise told(f"{name} is given twice")
            if name == EACH and has_value:
                raise told(f"{EACH} has no value")
            if name != EACH and not has_value and rest and not rest[0].startswith("-"):
                value = rest.pop(0)
            options[name] = name if name == EACH else value
    if not paths:
        raise told("no files; ./raire help show lists what they may be")
    if not all(paths):
        raise told("a file has no name")
    see_values(options)
    return paths, options


def see_values(options):
    for name, value in options.items():
        if not value:
            raise told(f"{name} needs a value")
    if not plain.is_id(options.get("--contest", "1")):
        raise told("--contest needs the id of a contest")
    if not plain_audit.is_seed(options.get("--seed", "1")):
        raise told("--seed needs 1 to 64 characters from space to ~")
    greatest = {**NUMBERS, "--gamma": GREATEST_EACH_GAMMA} if EACH in options else NUMBERS
    for name, most in greatest.items():
        if EACH in options and f"{name}={options.get(name)}" == BEST:
            continue
        if plain_audit.number_in(options.get(name, "1"), 1, most) is None:
            raise told(f"{name} needs a number from 1 to {most}")
    if BUDGETS.keys() <= options.keys():
        raise told("--sets takes the place of --nodes: give one of them")


def see_output(paths):
    """Refuses to write the page over a file that it is made from, or to a terminal."""
    if sys.stdout is None:
        raise UNWRITTEN
    if sys.stdout.isatty():
        raise told("the page goes to standard output: ./raire show FILES.. > page.html")
    for path in paths:
        if os.path.exists(path) and os.path.samestat(os.stat(path), os.fstat(1)):
            raise told(f"the page would be written over {path}")


class Page:
    """What is known about the files, part by part."""

    def __init__(self, given, options, program):
        self.files, self.options, self.program, self.notes = given, options, program, []
        self.parts = dict.fromkeys((
            "session", "contest", "tabulation", "firsts", "counted", "assertions", "verdict", "tree", "plan", "draws", "manifest", "claims", "seen_file",
            "other_form", "is_plurality", "is_opened", "is_replayed", "poll", "county", "apart",
        ))
        self.names = Names(given.get("names"))
        self.judged = set(files.KINDS) - files.NOT_THE_PROGRAMS  # the kinds that the program judges; seen cards are added when it has run the audit again
        self.manifest = self.ballots = None  # as this page reads them

    def path(self, kind):
        return self.files[kind].path

    def has(self, *kinds):
        return all(kind in self.files for kind in kinds)

    def read_session(self):
        if not self.has("session"):
            return
        file = self.files["session"]
        try:
            self.program.must_run("report", [file.path])
        except Refusal as refusal:
            line, end, added = refusal.text.partition("\n")  # ./raire adds a line of its own
            why = f"show: {file.path}: {audit.why_no_session(file.data)}\n" if line.endswith(": S1") else ""
            raise Refusal(refusal.status, line + end + why + added) from None
        session = audit.session_of(file)
        for kind in ("ballots", "manifest", "assertions"):
            if self.has(kind) and self.files[kind].digest != session[kind]:
                raise told(f"{self.path(kind)} isn't the {files.KINDS[kind]} of {file.path}: its digest is another one")
        if self.options.get("--contest", session["contest"]) != session["contest"]:
            raise told(f"{file.path} is about contest {session['contest']}, and not {self.options['--contest']}")
        self.options["--contest"] = session["contest"]
        self.parts.update(session=session, is_plurality=audit.is_of_plurality(session))
        if plain_audit.session_text(session).encode() != file.data:
            self.parts["other_form"] = {"added": audit.added(file)}

    def read_assertions(self):
        """The members of the assertion file. If no contest is named, the file's own is meant."""
        if not self.has("assertions"):
            return
        self.program.judge_assertions(self.path("assertions"))
        file = audit.members(self.files["assertions"])
        session = self.parts["session"]
        if session and session["contest"] != file["contest"]:
            raise told(f"{self.path('assertions')} is about contest {file['contest']}, and {self.path('session')} about {session['contest']}")
        if self.options.get("--contest", file["contest"]) != file["contest"]:
            raise told(f"{self.path('assertions')} is about contest {file['contest']}, and not {self.options['--contest']}")
        if session and session["margins"] != [claim["margin"] for claim in file["assertions"]]:
            raise told(f"{self.path('assertions')} doesn't have the margins of {self.path('session')}")
        if self.has("ballots") and file["contest"] in self.contests():
            self.options.setdefault("--contest", file["contest"])
        self.names.see(file["candidates"], file["contest"])
        self.parts["assertions"] = file

    def contests(self, kind="ballots"):
        try:
            return files.contests_of(self.files[kind].data)
        except plain_audit.Broken:
            return {}

    def contest_words(self):
        contest = self.options.get("--contest")
        return [f"--contest={contest}"] if contest else []

    def read_ballots(self):
        if not self.has("ballots"):
            return
        is_plurality = self.parts["is_plurality"]
        status, text = self.program.must_run("tabulate", [self.path("ballots")], *self.contest_words(), is_shown=not is_plurality)
        contests = self.contests()
        name = self.options.get("--contest") or next(iter(contests))
        self.names.see(contests[name], name)
        self.parts["contest"], self.parts["ids"] = name, contests[name]
        if is_plurality:
            self.read_firsts()
        else:
            self.parts["tabulation"] = self.tabulation(status, text, contests[name])

    def read_firsts(self):
        """Counts the ballots on which each candidate is first. The differences must be the session's margins."""
        contest = self.read_contest()
        if [margin for _, margin in firsts.claims_of(contest)] != self.parts["session"]["margins"]:
            raise told(f"{self.path('ballots')} doesn't have the margins of {self.path('session')}")
        self.parts["firsts"] = firsts.count_of(contest, self.shown(contest.ids))

    def tabulation(self, status, text, ids):
        """The rounds; or the tie that leaves the winner open; or that the budget ran out before it was known whether the ties do."""
        if status == 0:
            return rounds.rounds_of(text, ids, self.names)
        return {"tie": rounds.tie_of(text, self.names)} if status == 3 else {"spent": text.splitlines()}

    def read_count(self):
        """Reads the full count: the ballots of the same contest, in a ballot file."""
        if not self.has("counted"):
            return
        path, name, is_plurality = self.path("counted"), self.parts["contest"], self.parts["is_plurality"]
        status, text = self.program.must_run("tabulate", [path], f"--contest={name}", is_shown=not is_plurality)
        if self.contests("counted")[name] != self.parts["ids"]:
            raise told(f"{path} has different candidates than {self.path('ballots')}")
        count = {} if is_plurality else self.tabulation(status, text, self.parts["ids"])
        if "rounds" not in count:
            contest = plain_audit.ballots_of(self.files["counted"].data, name)
            count = firsts.count_of(contest, self.shown(contest.ids)) if is_plurality else {**count, "records": contest.records}
        self.parts["counted"] = {**count, "file": self.files["counted"].name}

    def check(self):
        """Whether the assertion file holds for the ballots, in the program's words."""
        if not self.has("ballots", "assertions"):
            return
        words = [*self.contest_words(), *self.budget_words()]
        status, text = self.program.must_run("check", [self.path("ballots"), self.path("assertions")], *words)
        if text.startswith("no: contest differs"):
            raise told(f"{self.path('assertions')} isn't about the contest of {self.path('ballots')}: {text.strip()}")
        lines = text.splitlines()
        self.parts["verdict"] = {"status": status, "lines": lines, "shown": [self.names.in_line(line, self.parts["ids"]) for line in lines]}

    def rankings(self):
        """The number of ballots with each ranking; None if counting them would take long."""
        data = self.files["ballots"].data
        if self.ballots:
            return self.ballots.rankings
        return None if b'"' in data else tallies.rankings_of(data, len(self.contests()), self.parts["contest"], self.parts["ids"])

    def find_apart(self):
        """Finds orders that show that no NEN of the assertion file can be spared, if the file holds for the ballots."""
        file, verdict = self.parts["assertions"], self.parts["verdict"]
        if verdict and verdict["status"] == 0 and apart.may_be_found(file) and (rankings := self.rankings()):
            orders = apart.found(self.parts["ids"], rankings, file)
            self.parts["apart"] = orders and {number: self.shown(self.parts["ids"][c] for c in order) for number, order in orders.items()}

    def read_manifest(self):
        if not self.has("manifest"):
            return
        path = self.path("manifest")
        self.program.must_run("sample", [path], "--seed=1", "--draws=1", is_shown=False)
        try:
            self.manifest = plain_audit.manifest_of(self.files["manifest"].data)
        except plain_audit.Broken as broken:
            raise told(f"{path} is a manifest to the program, but this page can't read it: {broken}") from None
        self.see_cards(self.manifest.cards)
        self.parts["manifest"] = {"cards": self.manifest.cards, "batches": audit.sizes(self.manifest)}
        if self.has("ballots"):
            self.link()
        if self.has("assertions") and not self.is_poll():
            self.read_plan(path)

    def see_cards(self, cards):
        """Checks that the other files fit the manifest's number of cards."""
        session, file, path = self.parts["session"], self.parts["assertions"], self.path("manifest")
        if session and session["cards"] != cards:
            raise told(f"{self.path('session')} is about {plural(session['cards'], 'card')}, and {path} has {cards:,}")
        if file and not self.has("ballots") and not self.is_poll() and file["records"] > cards:
            raise told(f"{self.path('assertions')} is about {plural(file['records'], 'ballot')}, and {path} has {plural(cards, 'card')}")

    def read_contest(self):
        """The ballots of the contest, as this page reads them."""
        if not self.ballots:
            try:
                self.ballots = plain_audit.ballots_of(self.files["ballots"].data, self.parts["contest"])
            except plain_audit.Broken as broken:
                raise told(f"{self.path('ballots')} is a ballot file to the program, but this page can't read it: {broken}") from None
        return self.ballots

    def link(self):
        """The record of each card that has a ballot. Each ballot must name a card."""
        try:
            recorded = plain_audit.linked(self.read_contest(), self.manifest)
        except plain_audit.Broken as broken:
            at = int(str(broken).rpartition(" ")[2])
            ballot = next(ballot for ballot, place, _ in self.ballots.cast if place == at)
            ballots, manifest = self.path("ballots"), self.path("manifest")
            raise told(f"{ballots} doesn't belong to {manifest}: {broken} of {ballots}: the ballot {ballot} names no card of {manifest}") from None
        batches = self.parts["manifest"]["batches"]
        audit.count_records(batches, recorded)
        self.parts["manifest"].update(linked=len(recorded), unnamed=[batch for batch in batches if not batch["records"]])
        self.recorded = recorded

    def read_plan(self, path):
        """Makes a plan with the terms of the session, or with those of the assertion file if it has some."""
        given = self.parts["session"] or planned.said_by(self.parts["assertions"])
        limits = [f"--limit={given['limit']}", f"--gamma={given['gamma']}"] if given else []
        _, text = self.program.must_run("plan", [path, self.path("assertions")], *limits)
        terms = {name: (given or planned.DEFAULTS)[name] for name in planned.DEFAULTS}
        self.parts["plan"] = planned.planned(text, {**terms, "cards": self.manifest.cards})

    def make_draws(self):
        """The clean draws by the file and by the plan, and the terms of the file that differ from those of the session or the manifest."""
        file, session, manifest = (self.parts[name] for name in ("assertions", "session", "manifest"))
        if not file or self.is_poll():
            return
        known = session or (manifest and {"cards": manifest["cards"]}) or {}
        whose = "the session" if session else "the manifest"
        self.parts["draws"] = planned.shown(planned.said_by(file), self.parts["plan"], known, whose)

    def is_of_sample(self):
        """Whether the options are those of a sample: a poll's, or those for all contests of a ballot file."""
        return not self.options.keys().isdisjoint((*POLL, EACH))

    def is_county(self):
        return self.has_terms() and self.has(*county.KINDS) and not {"assertions", "session"} & set(self.files)

    def is_poll(self):
        return self.is_of_sample() and not self.is_county()

    def read_poll(self):
        """Has the program poll, with all draws made anew."""
        if not self.is_poll():
            return
        words = [f"{name}={self.options[name]}" for name in POLL if name in self.options] + [EACH] * (EACH in self.options)
        status, text = self.program.must_run("poll", [self.path(kind) for kind in POLLED], *words, *self.budget_words())
        poll = {**polled.poll_of(status, text), "seed": self.options["--seed"]}
        if status in polled.COUNTED:
            self.judged.add("seen")
        else:
            poll["shown"] = [self.names.in_line(line, self.candidates()) for line in poll["lines"]]
        self.parts["poll"] = poll

    def budget_words(self):
        return [f"{name}={self.options[name]}" for name in BUDGETS if name in self.options]

    def audit_kinds(self):
        """The kinds of files with which an audit is opened."""
        return ("ballots", "manifest") if self.parts["is_plurality"] else ("ballots", "manifest", "assertions")

    def audit_commands(self):
        """The commands that open an audit and continue it."""
        return ("plurality", "plurality") if self.parts["is_plurality"] else ("open", "audit")

    def replay(self):
        """Has the program run the whole audit again. It must end with the bytes of the session."""
        session, kinds = self.parts["session"], self.audit_kinds()
        if not session or not self.has(*kinds):
            return
        if self.parts["verdict"] and self.parts["verdict"]["status"]:
            raise told(f"{self.path('session')} isn't an audit of {self.path('assertions')}: a check says {', '.join(self.parts['verdict']['lines'])}")
        paths = [self.path(kind) for kind in kinds]
        terms = [f"--{name}={session[name]}" for name in ("limit", "gamma", "seed")]
        _, text = self.program.must_run(self.audit_commands()[0], paths, *terms, *self.contest_words(), *self.budget_words())
        if text != plain_audit.session_text({**session, "rounds": [], "signed_off": False}):
            raise told(f"{self.path('session')} isn't the session that these files open")
        self.parts["is_opened"] = True
        if self.has("seen"):
            self.replay_rounds(text, paths)

    def replay_rounds(self, text, paths):
        session = self.parts["session"]
        with files.Scratch("session.json") as scratch:
            for number, done in enumerate(session["rounds"], 1):
                scratch.write(text)
                command, files_after, options = self.audit_commands()[1], [*paths, self.path("seen")], [f"--draws={done['draws']}", *self.budget_words()]
                status, text = self.program.must_run(command, [scratch.path, *files_after], *options, is_shown=False)
                self.program.tell(status, command, [BEFORE, *files_after], *options)
                self.see_round(number, done, plain_audit.session_of(text.encode()))
        if text != plain_audit.session_text(session):
            raise told(f"{self.path('seen')} doesn't give the rounds of {self.path('session')}")
        if session["rounds"]:
            self.judged.add("seen")
            self.parts["is_replayed"] = text.encode() == self.files["session"].data

    def see_round(self, number, done, made):
        """Checks that a round has the same counts in the session as when the program makes it now."""
        counts = made["rounds"][-1]["counts"] if made and made["rounds"] else done["counts"]
        for j, (mine, had) in enumerate(zip(counts, done["counts"]), 1):
            if mine != had:
                both = f"assertion {j} has the counts {shown_counts(mine)}, and the session has {shown_counts(had)}"
                raise told(f"{self.path('seen')} doesn't give round {number} of {self.path('session')}: {both}")

    def candidates(self):
        """The candidates that a seen file may name, if another file lists them."""
        return self.parts.get("ids") or (self.parts["assertions"] and self.parts["assertions"]["candidates"])

    def read_seen(self):
        """What the seen file says, judged by as many of its rules as the other files allow."""
        if not self.has("seen"):
            return
        ids = self.candidates()
        try:
            seen = files.seen_of(self.files["seen"].data, self.manifest, ids)
        except plain_audit.Broken as broken:
            raise broken_to_page(self.path("seen"), broken) from None
        missing = sum(found == plain_audit.MISSING for found in seen.values())
        self.parts["seen_file"] = {"cards": len(seen), "missing": missing, "has_manifest": self.manifest is not None, "has_candidates": bool(ids)}
        if self.parts["session"] and self.has(*self.audit_kinds()):
            self.compare_seen(seen)

    def compare_seen(self, seen):
        """The drawn cards that differ from their records."""
        session = self.parts["session"]
        claims = firsts.claims_of(self.ballots) if self.parts["is_plurality"] else plain.read_assertions(self.files["assertions"].data)["assertions"]
        last = session["rounds"][-1] if session["rounds"] else {"draws": 0, "counts": [[0] * 5] * len(claims)}
        draws_of = audit.draws_by_card(session, last["draws"])
        unseen = [card for card in draws_of if card not in seen]
        if unseen or audit.counted(draws_of, self.recorded, claims, seen) != last["counts"]:
            raise told(f"{self.path('seen')} doesn't give the counts of {self.path('session')}")
        self.parts["seen"] = {
            "cards": len(draws_of), "draws": last["draws"],
            "differing": audit.differing(session, self.shown(self.ballots.ids), self.manifest, self.recorded, claims, seen, draws_of),
            "without": audit.without_contest(self.manifest, self.recorded, seen, draws_of),
        }

    def note_unjudged(self):
        """Notes how this page has judged seen cards that the program hasn't judged."""
        if self.has("seen") and "seen" not in self.judged:
            seen, why = self.parts["seen_file"], "nothing was polled" if self.is_poll() else "it does that in an audit, of a session and all its files"
            judged = ["V1", *["V2"] * seen["has_manifest"], "V3", *["V5"] * seen["has_candidates"]]
            self.notes.append(
                f"The program didn’t judge the seen file {self.path('seen')}: {why}. By this page’s own reading "
                f"{', '.join(judged[:-1])} and {judged[-1]} of docs/faults.md are kept."
            )

    def shown(self, ids):
        return [self.names.of(c) for c in ids]

    def shown_of(self, ballots):
        """The candidates of a contest by their names. From here on, names are those of this contest."""
        self.names.see(ballots.ids, ballots.name)
        return self.shown(ballots.ids)

    def named(self, claim):
        """An assertion with names instead of ids."""
        rest = {"rest": self.shown(claim["rest"])} if "rest" in claim else {}
        return {**claim, "winner": self.names.of(claim["winner"]), "loser": self.names.of(claim["loser"]), **rest}

    def named_assertions(self):
        """The assertion file with names instead of ids, as the page shows it. Its assertions get names when they are shown."""
        file = self.parts["assertions"]
        if file:
            file = {**file, "winner": self.names.of(file["winner"]), "candidates": self.shown(file["candidates"])}
            self.parts["assertions"] = file
        return file

    def make_claims(self):
        """Makes a row for each assertion: its words, its margin, what it cuts, its draws and its risk. Only rows that are shown have words."""
        given, file, tabulation, verdict = self.parts["assertions"], self.named_assertions(), self.parts["tabulation"], self.parts["verdict"]
        states = audit.state(self.parts["session"]) if self.parts["session"] else (self.parts["poll"] or {}).get("claims")
        if not file:
            words = self.words_of_claims(states)
            self.list_claims([{"margin": state["margin"], "state": state, "words": each} for state, each in zip(states or [], words)])
            return
        tree = orders.Tree(given["candidates"], given["winner"], given["assertions"], file["candidates"])
        counted = verdict and "rounds" in tabulation and not UNCOUNTED.match(verdict["lines"][0])
        first = tabulation["rounds"][0]["votes"] if counted else None
        draws = self.parts["draws"] or {}
        self.parts["tree"] = tree
        rows = [
            {
                "claim": claim, "margin": claim["margin"], "cuts": tree.cuts_of[j], "state": states[j] if states else None,
                "draws": [draws[name][j] for name in ("first", "second") if draws.get(name)],
            }
            for j, claim in enumerate(file["assertions"])
        ]
        self.list_claims(rows)
        for j in {row["number"] - 1 for row in self.parts["listed"]} | tree.cutting():
            rows[j]["words"] = in_words(self.named(file["assertions"][j]), first, self.is_poll())

    def words_of_claims(self, states):
        """The words for the claims of a session without an assertion file: those of a plurality contest, if its ballots are given."""
        count = self.parts["firsts"]
        return [firsts.in_words(count, c) for c in count["behind"]] if count else [None] * len(states or [])

    def list_claims(self, claims):
        """Keeps all claims, and lists those that the page has room for: the highest risks, or else the smallest margins."""
        for j, row in enumerate(claims):
            row["number"] = j + 1
        first = sorted(claims, key=lambda row: (-(row["state"] and row["state"]["risk"] or 0), row["margin"]))
        self.parts["claims"] = claims
        self.parts["listed"] = sorted(first[:MOST_LISTED], key=lambda row: row["number"])

    def see_options(self):
        """Checks that each option has a meaning for the files that are given."""
        if self.is_county():
            county.see_files(self)
        elif self.is_poll():
            self.see_poll()
        elif self.budget_words() and not self.has("ballots", "assertions"):
            name = next(name for name in BUDGETS if name in self.options)
            raise told(f"{name} is the budget of a check: give a ballot file and an assertion file")
        if "--contest" in self.options and not {"ballots", "assertions", "session"} & set(self.files):
            raise told("--contest needs a file that is about a contest")
        is_of_session = self.has("session") and self.names.all.has_contests
        if self.has("names") and not is_of_session and not {"ballots", "assertions"} & set(self.files):
            raise told(f"{self.path('names')} names candidates: give a ballot file or an assertion file too")

    def see_poll(self):
        """Checks that a poll has its seed, its draws and its three files, and no file that only a comparison has."""
        is_whole = self.has_terms() and self.has(*POLLED)
        if not is_whole or {"ballots", "session"} & set(self.files):
            raise told(
                f"{listed(POLL)} are for a poll or for all contests on one sample: give --seed, --draws, a manifest, a seen file, either an assertion file "
                "or a ballot file, and no session"
            )
        if "--sets" in self.options:
            raise told("a poll has no --sets: give it --nodes")

    def has_terms(self):
        return {"--seed", "--draws"} <= set(self.options)

    def read(self):
        self.see_options()
        if self.is_county():
            self.parts["county"] = county.County(self)
            return
        self.read_session()
        self.read_assertions()
        self.read_ballots()
        self.read_count()
        self.check()
        self.read_manifest()
        self.find_apart()
        self.read_poll()
        self.replay()
        self.read_seen()
        self.note_unjudged()
        self.make_draws()
        self.make_claims()


def shown_counts(counts):
    return " ".join(map(str, counts))


def in_words(claim, first, is_polled):
    """An assertion in words, in two parts: the claim, and the votes it rests on or, for a poll, the cards that speak for it and against it."""
    w, l, margin = claim["winner"], claim["loser"], claim["margin"]
    if claim["kind"] == "NEN":
        left = [c for c in claim["rest"] if c not in (w, l)]
        standing = f"only {w} and {l} are" if not left else f"just {', '.join(sorted(claim['rest'], key=claim['rest'].index))} are"
        votes = polled.in_words(claim) if is_polled else f"{w} then has {plural(margin, 'vote')} more than {l}"
        return f"{w} can't be eliminated while {standing} left", votes
    if is_polled:
        return f"{w} can't be eliminated before {l}", polled.in_words(claim)
    if first is None:
        return f"{w} can't be eliminated before {l}", f"it has {plural(margin, 'vote')} more than {l} can get while {w} stands"
    votes = f"{w} has {plural(first[w], 'first vote')}, {l} at most {first[w] - margin:,} while {w} stands"
    return f"{w} can't be eliminated before {l}", votes


def filled(page):
    loader = jinja2.FileSystemLoader(os.path.join(TOP, "tools", "page"))
    made = jinja2.Environment(
        loader=loader, autoescape=True, trim_blocks=True, lstrip_blocks=True, undefined=jinja2.ChainableUndefined,
    )
    made.filters.update(with_blanks=term_notes.with_blanks, blanks_in=term_notes.blanks_in)
    made.filters.update(plural=plural, ordinal=ordinal, risk=audit.risk_text, short=audit.short, millionths=millionths, number=shown, listed=listed)
    if page.parts["county"]:
        return filled_county(page, made)
    session = page.parts["session"]
    drawn = rounds_drawn(page.parts)
    return made.get_template("page.html").render(
        page.parts, files=page.files, judged=page.judged, notes=page.notes, asked=page.program.asked, program=page.program.told(),
        chart=audit.chart(session, [row["number"] for row in page.parts["listed"]]) if session else None, title=title(page),
        most_counted=orders.MOST_COUNTED, most_draws=MOST_DRAWS, most_sets=MOST_SETS,
        states=state.states(page.parts), scale=rounds.scale_of(drawn) if drawn else None, names=page.names.by_id,
    )


def filled_county(page, made):
    """A page of all contests, with a row for each that opens its contest."""
    all_of = page.parts["county"]
    for contest in all_of.contests:
        drawn = contest["tabulation"].get("rounds")
        contest["scale"] = rounds.scale_of(drawn) if drawn else None
        claims = contest.get("claims", [])
        for row in claims:
            row["words"] = in_words(row["claim"], drawn[0]["votes"] if drawn else None, False)
        highest = sorted(claims, key=lambda row: (-row["state"]["risk"], row["margin"]))[:MOST_LISTED]
        contest["listed"] = sorted(highest, key=lambda row: row["number"])
    return made.get_template("county.html").render(
        county=all_of, states=state.of_county(all_of), files=page.files, judged=page.judged, asked=page.program.asked, program=page.program.told(),
        title=f"{plural(len(all_of.contests), 'contest')} on one sample",
    )


def rounds_drawn(parts):
    """Everything that has bars: the rounds of the records and of the full count, or their first preferences."""
    counts = [each for each in (parts["tabulation"], parts["firsts"], parts["counted"]) if each]
    return [each for count in counts for each in count.get("rounds", [count] if "votes" in count else [])]


def title(page):
    parts = page.parts
    file, session = parts["assertions"], parts["session"]
    name = parts.get("contest") or (file and file["contest"]) or (session and session["contest"])
    return f"Contest {page.names.contest(name)}" if name else " and ".join(f"a {file.what}" for file in page.files.values()).capitalize()


def put(text):
    """Writes all of a text to standard output, which may be closed or full."""
    try:
        sys.stdout.buffer.write(text.encode())
        sys.stdout.flush()
    except (AttributeError, OSError):
        if sys.stdout is not None:
            os.dup2(os.open(os.devnull, os.O_WRONLY), sys.stdout.fileno())  # the rest goes nowhere when Python ends
        raise UNWRITTEN from None


def page_of(words):
    if words[:1] in (["--help"], ["-h"], ["help"]):
        with open(HELP) as file:
            return file.read()
    if jinja2 is None:
        raise told("templates are missing: apt-get install python3-jinja2")
    paths, options = words_of(words)
    see_output(paths)
    note = term_notes.seed_note(options.get("--seed", ""))
    sys.stderr.write(f"show: {note}\n" if note else "")
    page = Page(files.given(paths), options, Program())
    page.read()
    return filled(page)


def main(words):
    try:
        with share.shown(["show", *words]):
            page = page_of(words)
        put(page)
    except Refusal as refusal:
        sys.stderr.write(what_to_do.said("show", refusal.status, refusal.text))
        return refusal.status
    return 0
