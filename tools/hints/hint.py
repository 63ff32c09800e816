#!/usr/bin/python3
"""Says in one line what a refusal of the program means, which record it is about, and what is nearly right.

./raire runs tools/hints/hint.py PROGRAM STATUS WORDS.. after a refusal, and after a budget that ran out, for which the words are enough to say what
budget goes further. It runs the program again to get the line of the refusal, and looks into the files that the words name. It prints nothing if the
program now answers differently, or if a file can't be read twice. docs/faults.md says what each rule means.
"""
import os
import stat
import subprocess
import sys

sys.dont_write_bytecode = True

import rules  # noqa: E402
import table  # noqa: E402
import words  # noqa: E402

POINTER = "./raire help lists the commands, ./raire help COMMAND the files and options of one"
OF_BALLOTS = {
    "B2": rules.contest_record, "B3": rules.number_of_candidates, "B4": rules.wrong_id, "B6": rules.short_ballot, "B7": rules.other_contest,
    "B8": rules.ranked_nobody, "B9": rules.recorded_twice, "B10": rules.too_many,
}
OF_MANIFEST = {"M2": rules.batch_fields, "M3": rules.batch_cards, "M4": rules.batch_id, "M5": rules.too_many}


def is_read_again(path):
    """Whether a path can be read again: it is a file, a folder, or nothing, not a pipe, which has been read to its end."""
    try:
        mode = os.stat(path).st_mode
    except OSError:
        return True
    return stat.S_ISREG(mode) or stat.S_ISDIR(mode)


def told_by(program, line, status):
    """What the program says about these words now, if it refuses them with the same status as before."""
    ran = subprocess.run([program, *line], stdin=subprocess.DEVNULL, stdout=subprocess.DEVNULL, stderr=subprocess.PIPE)
    return ran.stderr.decode() if ran.returncode == status else None


def refusal_in(text, call):
    """The file that a line names, and what the line says about it."""
    for path in sorted(set(call.files.values()), key=len, reverse=True):
        if text.startswith(f"raire: {path}: "):
            return path, text[len(f"raire: {path}: ") :].rstrip("\n")
    return None, ""


def found(call, path, said):
    """The sentences about the place that the refusal reported."""
    rule, *rest = said.split()
    at = int(rest[-1]) if rest and rest[-1].isdigit() else 0
    data = rules.data_of(path)
    files = call.files
    if rule in OF_BALLOTS:
        return OF_BALLOTS[rule](data, at)
    if rule in OF_MANIFEST:
        return OF_MANIFEST[rule](data, at)
    if rule in ("B1", "M1"):
        return [rules.begins(data, "a ballot file" if rule == "B1" else "a manifest")]
    if rule == "B5":
        return rules.contest_of_session(data, contest_of(call)) if "SESSION" in files else rules.contest_asked_for(data, contest_of(call))
    if rule == "B11":
        return rules.more_ballots(data, contest_of(call), call.options["cards"])
    if rule == "M7":
        record = rules.record_at(data, at)
        return [rules.no_card(record.fields[1], rules.batches_of(rules.data_of(files["MANIFEST"]))), rules.where(record)]
    if rule[0] == "V":
        return found_of_seen(call, data, rule, at)
    if rule[0] == "F":
        return rules.no_json(data, "an assertion file") if rule == "F1" else found_of_assertions(call, data, rule, at)
    if rule == "C1":
        return rules.no_json(data, "a claims file")
    if rule[0] == "C":
        return rules.claims(data, rule, at, *contest_at_hand(call))
    if rule == "S1":
        return rules.no_session(data)
    if rule == "S2" and rules.NO_ASSERTIONS in rest:
        return rules.other_audit(call.command)
    if rule == "S2":
        return rules.other_bytes(rest[1], [files[name] for name in files if name != "SESSION"])
    return []


def found_of_assertions(call, data, rule, at):
    return rules.too_few_cards(data, rules.data_of(call.files["MANIFEST"])) if rule == "F7" else rules.assertion(data, rule, at)


def found_of_seen(call, data, rule, at):
    files, is_of_all = call.files, call.command == "contests"
    if rule == "V1":
        return rules.seen_record(data, at, is_of_all)
    if rule == "V3":
        return rules.seen_twice(data, at) if is_of_all else rules.stood_before(data, at, 1)
    if rule == "V4":
        given = seed_of(call), rules.data_of(files["MANIFEST"]), data, int(call.options["draws"])
        return rules.unread_in_contests(*given, rules.data_of(files["BALLOTS"]), at) if is_of_all else rules.unread(*given)
    record = rules.record_at(data, at)
    if rule == "V2":
        return [rules.no_card(record.fields[0], rules.batches_of(rules.data_of(files["MANIFEST"]))), rules.where(record)]
    if rule == "V6":
        return rules.other_contest_seen(record, rules.data_of(files["BALLOTS"]))
    if is_of_all:
        return rules.no_candidate(record, record.fields[3:], rules.heads_of(rules.data_of(files["BALLOTS"]))[record.fields[1]][0])
    return rules.no_candidate(record, record.fields[2:], candidates_of(call))


def contest_of(call):
    """The contest that is meant: for an audit, that of its session."""
    return rules.json_members(rules.data_of(call.files["SESSION"]))["contest"] if "SESSION" in call.files else call.options.get("contest")


def contest_at_hand(call):
    """The contest that is given, or the only one of the ballot file, and its candidates."""
    heads = rules.heads_of(rules.data_of(call.files["BALLOTS"]))
    contest = call.options.get("contest") or next(iter(heads))
    return contest, heads[contest][0]


def seed_of(call):
    return rules.json_members(rules.data_of(call.files["SESSION"]))["seed"] if "SESSION" in call.files else call.options["seed"]


def candidates_of(call):
    """The candidates of the ballot file, or of the assertion file if there are no ballots."""
    if "BALLOTS" not in call.files:
        return rules.json_members(rules.data_of(call.files["ASSERTIONS"]))["candidates"]
    return rules.heads_of(rules.data_of(call.files["BALLOTS"]))[contest_of(call)][0]


FOUND = {"no such file": rules.no_such_file, "too long": rules.size, "read fault": rules.unreadable}


def spent(call):
    """The budget that goes further, from the words only: that of sets, if the command has it."""
    options = next(form.options for form in words.forms()[call.command] if "nodes" in form.options)
    name = "sets" if "sets" in options else "nodes"
    most = options[name].high
    if int(call.options.get(name, "0")) == most:
        return [f"spent: --{name} {most} is the maximum", "What to do: docs/faults.md"]
    told = "it counts sets of candidates, in place of --nodes, and up to 20 candidates it is never spent" if name == "sets" else "it is the maximum"
    return [f"spent: give it --{name} {most}; {told}", "What to do: docs/faults.md"]


def sentences(program, status, line):
    """The sentences about a refusal or a budget that ran out; none if nothing can be said."""
    if status == 1:
        try:
            words.call_of(line)
        except words.Wrong as wrong:
            return [str(wrong), POINTER]
        return [POINTER]
    call = words.call_of(line)
    if status == 4:
        return spent(call)
    if not all(map(is_read_again, call.files.values())):
        return []
    path, said = refusal_in(told_by(program, line, status) or "", call)
    if path is None:
        return []
    key, causes = said if said in FOUND else said.split()[0], table.causes()
    about = table.OF_CONTESTS if call.command == "contests" else table.OF_A_SESSION * ("SESSION" in call.files)
    head = f"{key}: {causes.get(key + about, causes[key])}"
    try:
        return [head, *(FOUND[key](path) if key in FOUND else found(call, path, said)), "What to do: docs/faults.md"]
    except (LookupError, TypeError, ValueError, AttributeError, StopIteration, OSError):
        return [head, "What to do: docs/faults.md"]


def main():
    sys.stdout.reconfigure(errors="backslashreplace")
    told = ". ".join(sentences(sys.argv[1], int(sys.argv[2]), sys.argv[3:]))
    if told:
        print(told)


if __name__ == "__main__":
    main()
