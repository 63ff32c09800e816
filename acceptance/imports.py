#!/usr/bin/python3
"""Tries ./raire import: what ./raire export writes in each form comes back with the same claims, as do files made by hand, and damaged ones are refused.

acceptance/imports.py PROGRAM [COUNT] has PROGRAM search COUNT random contests. It exports each in each form, imports the result, and compares the claims
with those of the assertion file as sets. PROGRAM adopts what was imported, with the same claims and margins. The script also puts names in place of ids,
and reads what is exported for raire-rs as a plain problem. It imports the files of examples/imports, damages each of their values and members, and cuts the
files off. The last line says how many came out as they should.
"""
import contextlib
import csv
import io
import json
import os
import random
import subprocess
import sys
import tempfile
import time

TOP = os.path.dirname(os.path.dirname(os.path.abspath(__file__)))
sys.dont_write_bytecode = True
sys.path.insert(0, os.path.join(TOP, "tools", "office"))

import places  # noqa: E402, F401
import bad_calls  # noqa: E402
import export  # noqa: E402
import exported  # noqa: E402
import import_claims  # noqa: E402
import plain_audit  # noqa: E402
import words as office_words  # noqa: E402

EXAMPLES = os.path.join(TOP, "examples", "imports")
FORMS = {"shangrla": ("raire",), "raire-java": ("raire-java", "raire-rs"), "raire-rs": ("raire-rs", "raire-java")}  # the readers of each form of export
MANY, SECONDS = 14_000, 10.0  # a file with this many assertions is made and imported within this much processor time
GONE = object()  # stands for a value that is removed
ODD = [None, True, -1, 0, 2.5, 10**20, "", "Ash", "\ud800", "x" * 5_000, [], ["Ash"], [[]], {}, {"Ok": {}}]


def called(tool, given):
    """The status and both outputs of a call, made in this process."""
    out, err = io.TextIOWrapper(io.BytesIO(), newline=""), io.StringIO()
    with contextlib.redirect_stdout(out), contextlib.redirect_stderr(err):
        status = office_words.main(tool.NAME, tool.answer, given)
        out.flush()
    return status, out.buffer.getvalue().decode(), err.getvalue()


def claims_in(file):
    """The assertions of a file as a set, and the rest of what it claims."""
    claims = {(each["kind"], each["winner"], each["loser"], frozenset(each.get("rest", ()))) for each in file["assertions"]}
    return claims, file["candidates"], file["contest"], file["winner"]


def margins_in(text):
    """Each assertion of an assertion file with its margin, and what else the file says of the contest, except the order and the version."""
    file = json.loads(text)
    claims = sorted((each["kind"], each["winner"], each["loser"], sorted(each.get("rest", ())), each["margin"]) for each in file["assertions"])
    return claims, *(file[name] for name in ("candidates", "contest", "margin", "records", "winner"))


def wrong_in(text, wanted):
    """What is wrong with the text of a claims file, or None."""
    file = json.loads(text)
    if text != json.dumps(file, sort_keys=True, separators=(",", ":")) + "\n" or set(file) != {"assertions", "candidates", "contest", "winner"}:
        return f"isn't canonical: {text}"
    for each in file["assertions"]:
        members = {"kind", "winner", "loser"} | ({"rest"} if each["kind"] == "NEN" else set())
        if set(each) != members or each.get("rest", []) != [c for c in file["candidates"] if c in each.get("rest", [])]:
            return f"has the assertion {each}"
    return None if claims_in(file) == wanted else f"claims {claims_in(file)}, not {wanted}"


def write(path, data):
    with open(path, "w" if isinstance(data, str) else "wb") as file:
        file.write(data)


# ---- what is exported is imported again

def with_names(value, names):
    """A value of JSON with each id replaced by a name."""
    if isinstance(value, dict):
        return {key: with_names(each, names) for key, each in value.items()}
    return [with_names(each, names) for each in value] if isinstance(value, list) else names.get(value, value) if isinstance(value, str) else value


def problem_of(text, contest):
    """Whether what is exported for raire-rs has the votes of the contest, as a plain reader counts them."""
    found = json.loads(text)
    counted = {tuple(vote["prefs"]): vote["n"] for vote in found["votes"]}
    counts = (found["num_candidates"], found["audit"]["total_auditable_ballots"], sum(counted.values()))
    return counted == dict(contest.rankings) and len(counted) == len(found["votes"]) and counts == (len(contest.ids), contest.records, contest.records)


def round_trips(program, folder, count):
    """Each contest in each form, and once more with names in place of ids."""
    os.environ["RAIRE"] = program
    for ballots in exported.ballot_files(folder, count):
        status, text, _ = ran(program, "search", "--nodes", exported.NODES, ballots)
        if status:
            continue
        path, out, claims, names = (os.path.join(folder, name) for name in ("assertions.json", "out.json", "claims.json", "names.csv"))
        write(path, text)
        wanted, chance = claims_in(json.loads(text)), random.Random(ballots)
        for form, readers in FORMS.items():
            status, made, err = called(export, [form, ballots, path])
            yield f"{ballots} as {form}: {err}", status == 0
            if form == "raire-rs":
                yield f"{ballots}: the votes for raire-rs", problem_of(made, plain_audit.ballots_of(exported.read(ballots), None))
            write(out, made)
            for reader in readers:
                status, got, err = called(import_claims, [reader, out])
                yield f"{ballots} as {form} by {reader}: {err}", status == 0 and wrong_in(got, wanted) is None
                write(claims, got)
                adopted = ran(program, "adopt", "--nodes", exported.NODES, ballots, claims)
                yield f"{ballots} as {form} by {reader}, adopted: {adopted}", adopted[0] == 0 and margins_in(adopted[1]) == margins_in(text)
            if wanted[2] not in wanted[1]:  # a contest with the same id as a candidate would get the same name
                yield f"{ballots} as {form}, named", is_read_by_names(chance, made, readers[0], wanted, out, names)


def is_read_by_names(chance, made, reader, wanted, out, path):
    """Names in other letter forms still count, and candidates come in the order of the file of names."""
    _, ids, contest, _ = wanted
    names = {each: f"Zoë  {number} of {each}" for number, each in enumerate(ids)}
    with open(path, "w", newline="") as file:
        csv.writer(file).writerows([["contest", "id", "name"], [contest, "", "Mäyor"], *([contest, each, name] for each, name in names.items())])
    shown = {each: name.upper().replace("  ", " ") if chance.random() < 0.5 else name for each, name in names.items()}
    write(out, json.dumps(with_names(json.loads(made), {**shown, contest: "MÄYOR"})))
    status, got, err = called(import_claims, [reader, out, f"--names={path}"])
    return status == 0 and wrong_in(got, wanted) is None and f"of contest {contest}, " in err


def ran(program, *given):
    done = subprocess.run([program, *given], capture_output=True, text=True)
    return done.returncode, done.stdout, done.stderr


# ---- files that were made by hand, whole and damaged

def examples():
    for name in sorted(os.listdir(EXAMPLES)):
        with open(os.path.join(EXAMPLES, name, "words")) as file:
            yield name, os.path.join(EXAMPLES, name), file.read().splitlines()


def by_hand():
    claims, _, contest, winner = claims_in(json.loads(exported.read(os.path.join(EXAMPLES, "shangrla_contests", "out"))))
    for name, folder, given in examples():
        os.chdir(folder)
        status, text, err = called(import_claims, given)
        yield f"examples/imports/{name}: {err}", (status, text.encode()) == (0, exported.read("out"))
        file = claims_in(json.loads(text))
        yield f"examples/imports/{name} has the claims of all", (file[0], set(file[1]), *file[2:]) == (claims, {"15", "16", "17", "18"}, contest, winner)


def places_in(value, path=()):
    """The path to each value in a value of JSON."""
    yield path
    for key, each in value.items() if isinstance(value, dict) else enumerate(value) if isinstance(value, list) else ():
        yield from places_in(each, (*path, key))


def changed(document, path, how):
    """The same JSON, with the value at one place changed or removed."""
    if not path:
        return {} if how is GONE else how
    copy = json.loads(json.dumps(document))
    at = copy
    for key in path[:-1]:
        at = at[key]
    if how is GONE:
        del at[path[-1]]
    else:
        at[path[-1]] = how
    return copy


def damaged(folder):
    """However a file is damaged, the call ends with claims, or with a line that names the file and nothing on standard output."""
    chance = random.Random("damaged imports")
    for name, source, given in examples():
        os.chdir(source)
        for at, path in [(at, word) for at, word in enumerate(given) if word.endswith(".json")]:
            data, out = exported.read(path), os.path.join(folder, "damaged.json")
            document = json.loads(data)
            texts = [data[:chance.randrange(len(data) - 2)] for _ in range(5)]
            texts += [json.dumps(changed(document, place, how)) for place in places_in(document) for how in (GONE, *ODD)]
            for text in texts:
                write(out, text)
                status, got, err = called(import_claims, [*given[:at], out, *given[at + 1:]])
                names_file = any(f"import: {each}" in err for each in (out, *(word.rpartition("=")[2] for word in given[1:])))
                is_refused = status == 2 and got == "" and names_file and err.count("\n") == 1 and "What to do: " in err and "docs/faults.md" not in err
                is_read = status == 0 and set(json.loads(got)) == {"assertions", "candidates", "contest", "winner"}
                yield f"{name}, damaged: {status} {err} of {text[:2000]}", is_refused or is_read


def refused():
    """The calls of bad_calls.py, whose lines acceptance/refusals.py compares in full."""
    for name, make in bad_calls.CASES.items():
        if name.startswith("import: "):
            with tempfile.TemporaryDirectory() as folder:
                _, given, status, told = make(folder)
                os.chdir(folder)
                if not any(word.startswith(">") for word in given):
                    got = called(import_claims, given)
                    yield f"{name}: {got}", got[:2] == (status, "") and got[2].startswith(f"import: {told}")
                os.chdir(TOP)


def many(folder):
    """A file of many assertions, with as many candidates as there may be."""
    chance, names = random.Random("many"), [f"Candidate number {number}" for number in range(32)]
    claims = []
    for number in range(MANY):
        rest = chance.sample(range(len(names)), 20)
        claims.append({"assertion": {"type": "NEN", "winner": rest[0], "loser": rest[1], "continuing": rest}, "difficulty": 3.5, "margin": 9})
    path, start = os.path.join(folder, "many.json"), time.process_time()
    write(path, json.dumps({"metadata": {"candidates": names, "contest": "c"}, "solution": {"Ok": {"assertions": claims, "winner": 0}}}))
    status, text, err = called(import_claims, ["raire-rs", path])
    yield f"{MANY} assertions: {status} {err}", status == 0 and len(json.loads(text)["assertions"]) == MANY
    taken = time.process_time() - start
    yield f"{MANY} assertions took {taken:.1f} s", taken < SECONDS


def main():
    program, count = os.path.abspath(sys.argv[1]), int(sys.argv[2]) if len(sys.argv) > 2 else 200
    tried = failed = 0
    with tempfile.TemporaryDirectory() as folder:
        for part in (round_trips(program, folder, count), by_hand(), damaged(folder), refused(), many(folder)):
            for shows, holds in part:
                tried += 1
                if not holds:
                    failed += 1
                    print(f"{shows}: not so")
        os.chdir(TOP)
    print(f"{tried - failed} imports as they should be, {failed} not")
    sys.exit(1 if failed or not tried else 0)


if __name__ == "__main__":
    main()
