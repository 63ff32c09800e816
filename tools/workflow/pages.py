"""The pages of contests and counties: the same as those of ./raire show, made by its code in the job's process."""
import os

import files as page_files
import steps
import write
from program import Program
from runs import Failed


class Asked(Program):
    """The program that is asked: ./raire, whose program was found to be built when the plan was made, or another one that RAIRE names."""

    def __init__(self, plan):
        self.name, self.path = ("./raire" if plan.version else plan.program), plan.program
        self.is_own, self.said = bool(plan.version), plan.version
        self.asked, self.was_asked = [], False

    def version(self):
        return self.said


def page_of(plan, words, what):
    """The page of ./raire show with these words, typed in the state's folder."""
    here = os.getcwd()
    os.chdir(plan.top)
    try:
        paths, options = write.words_of(words)
        page = write.Page(page_files.given(paths), options, Asked(plan))
        page.read()
        return write.filled(page).encode()
    except (page_files.Refusal, write.Refusal) as refusal:
        raise Failed(f"{what}: page: status {refusal.status}: {refusal.text.strip()}") from None
    finally:
        os.chdir(here)


def made(runs, words, files, path):
    words = ["show", *words, "--", *files]
    return runs.make("page", words, files, path, lambda: page_of(runs.plan, words[1:], runs.what))


def of_contest(contest, runs):
    """The page of a contest: from the ballot file, what was published, and the last round of the contest's own session."""
    terms, file = contest.terms, steps.published(contest, runs)
    files, budget = [contest.ballots()], []
    if file:
        files.append(file.file)
        budget = [file.budget] if file.budget != steps.NODES else []  # it is also the default of a page
        files += [contest.manifest(runs.plan.top)] if terms.audit in ("contests", "session") else []
    session, rounds = file and steps.opened(contest, runs), [(look, ran) for look, ran in steps.rounds(contest, runs) if ran.file]
    if session and session.file:
        files += [rounds[-1][1].file, rounds[-1][0].seen] if rounds else [session.file]
    return made(runs, [steps.of(contest), *budget], files, contest.made("page.html"))


def of_county(county, runs):
    """The page of a county whose contests are audited by one call: its last look."""
    terms, looks = county.terms, list(steps.called(county, runs))
    if not looks:
        return None
    look = looks[-1][0]
    words = [f"--seed={terms.seed}", f"--draws={look.draws}", *steps.limits(terms)]
    return made(runs, words, [county.given("ballots.raire"), county.given("manifest.csv"), look.seen], county.made("page.html"))
