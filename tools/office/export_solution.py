"""Writes assertions as raire-java and raire-rs do: a solution, with candidates numbered from 0; for raire-rs also the problem, with the votes."""
import collections

from ask import read
from records import ballots_of

UNTIMED = {"seconds": 0.0, "work": 0}
TIMES = ("time_to_determine_winners", "time_to_find_assertions", "time_to_trim_assertions")


def numbers_of(file):
    return {candidate: number for number, candidate in enumerate(file["candidates"])}


def entry(assertion, numbers, records):
    """An assertion and its margin. The difficulty is one over the diluted margin."""
    claim = {"type": assertion["kind"], "winner": numbers[assertion["winner"]], "loser": numbers[assertion["loser"]]}
    if assertion["kind"] == "NEN":
        claim["continuing"] = sorted(numbers[each] for each in assertion["rest"])
    return {"assertion": claim, "difficulty": records / assertion["margin"], "margin": assertion["margin"]}


def solution(file):
    """What raire-java says about a contest. The times are 0, since there was no search to measure."""
    numbers = numbers_of(file)
    least = min(assertion["margin"] for assertion in file["assertions"])
    found = {
        "assertions": [entry(assertion, numbers, file["records"]) for assertion in file["assertions"]], "difficulty": file["records"] / least, "margin": least,
        "winner": numbers[file["winner"]], "num_candidates": len(numbers), **{name: UNTIMED for name in TIMES}, "warning_trim_timed_out": False,
    }
    return {"metadata": {"candidates": file["candidates"], "contest": file["contest"]}, "solution": {"Ok": found}}


def problem_and_solution(file, ballots, name):
    """One object that raire-rs reads both as the problem and as its solution. Equal rankings are counted together."""
    numbers = numbers_of(file)
    counts = collections.Counter(ranking for _, ranking in ballots_of(read(name, ballots), file["contest"]))
    votes = [{"n": count, "prefs": [numbers[each] for each in ranking]} for ranking, count in counts.items()]
    problem = {
        "num_candidates": len(numbers), "votes": votes, "winner": numbers[file["winner"]],
        "audit": {"type": "OneOnMargin", "total_auditable_ballots": file["records"]},
    }
    return {**solution(file), **problem}
