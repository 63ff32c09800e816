"""Prints the assertions of a contest in the JSON that SHANGRLA's notebooks, raire-java or raire-rs read."""
import json

import export_solution
from ask import ask, read, Refusal
from words import see_output, Words

NAME = "export"
FORMS = ("shangrla", "raire-java", "raire-rs")


def words_of(words):
    parser = Words(NAME)
    parser.add_argument("form", choices=FORMS)
    parser.add_argument("ballots")
    parser.add_argument("assertions")
    parser.option("--contest", "--nodes", "--sets")
    return parser.parse_args(words)


def accepted(given):
    """The assertion file, after the program has said that it holds for the ballots."""
    options = [f"--{name}={value}" for name, value in (("contest", given.contest), ("nodes", given.nodes), ("sets", given.sets)) if value is not None]
    ask(NAME, "check", [given.ballots, given.assertions], *options)
    return json.loads(read(NAME, given.assertions))


def eliminated(given, contest):
    """The candidates in the order of elimination that the program's tabulation gives."""
    lines = ask(NAME, "tabulate", [given.ballots], f"--contest={contest}").splitlines()
    return [line.removeprefix("eliminated ") for line in lines if line.startswith("eliminated ")]


def see_kinds(file, form):
    """Refuses other kinds than NEB and NEN: no other tool has more than these two."""
    for kind in {assertion["kind"] for assertion in file["assertions"]} - {"NEB", "NEN"}:
        raise Refusal(1, f"{NAME}: the form {form} has no assertion of kind {kind}\n")


def entry(assertion, candidates):
    """An assertion in SHANGRLA's form, where NEB is called WINNER_ONLY and a NEN lists who is out instead of who is left."""
    winner, loser = assertion["winner"], assertion["loser"]
    if assertion["kind"] == "NEB":
        told = f"Rules out that {winner} is eliminated before {loser}"
        return {"winner": winner, "loser": loser, "already_eliminated": [], "assertion_type": "WINNER_ONLY", "explanation": told}
    rest = set(assertion["rest"])
    out = [each for each in candidates if each not in rest]
    left = ", ".join(each for each in candidates if each in rest)
    told = f"Rules out that {winner} is eliminated next where just {left} are left"
    return {"winner": winner, "loser": loser, "already_eliminated": out, "assertion_type": "IRV_ELIMINATION", "explanation": told}


def shangrla(file, order):
    audit = {
        "contest": file["contest"], "winner": file["winner"], "eliminated": order, "candidates": file["candidates"],
        "assertions": [entry(assertion, file["candidates"]) for assertion in file["assertions"]],
    }
    return {"Ballots involved in audit (#)": str(file["records"]), "audits": [audit]}


def made(given, file):
    if given.form == "shangrla":
        return shangrla(file, eliminated(given, file["contest"]))
    return export_solution.solution(file) if given.form == "raire-java" else export_solution.problem_and_solution(file, given.ballots, NAME)


def answer(words):
    given = words_of(words)
    see_output(NAME, [given.ballots, given.assertions])
    file = accepted(given)
    see_kinds(file, given.form)
    told = f"{len(file['assertions'])} assertion{'s'[: len(file['assertions']) != 1]} of contest {file['contest']}, which ./raire check accepts"
    return json.dumps(made(given, file), indent=1) + "\n", f"{NAME}: {told}\n"
