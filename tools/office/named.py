#!/usr/bin/python3
"""Prints the lines of ./raire tabulate, plan, report, check, poll and contests with names instead of ids: ./raire COMMAND .. --names NAMES."""
import csv
import json
import os
import re
import subprocess
import sys

sys.dont_write_bytecode = True

import called
import records
import term_notes
from ask import path_of_program, read, Refusal
from words import ended, put, see_output

NAME = "names"
PLAN_POLL = os.path.join(os.path.dirname(os.path.realpath(__file__)), "plan_poll.py")


def parted(words):
    """The path of the names, and the other words."""
    rest, path, words = [], None, list(words)
    while words:
        word = words.pop(0)
        if word == "--":
            return path, [*rest, word, *words]
        if word == "--names" or word.startswith("--names="):
            if path is not None:
                raise Refusal(1, f"{NAME}: --names is given twice\n")
            path = word.partition("=")[2] if "=" in word else (words.pop(0) if words and not words[0].startswith("-") else "")
            if not path:
                raise Refusal(1, f"{NAME}: --names needs a file, such as --names names.csv\n")
        else:
            rest.append(word)
    return path, rest


def only_contest(path):
    """The contest of a ballot file with only one. Any other file raises ValueError, or gives None."""
    with open(path, "rb") as file:
        contests = [*records.contests_of(file.read())]
    return contests[0] if len(contests) == 1 else None


def contest_of(words):
    """The contest that the words are about: that of --contest, that of an assertion file or a session among the files, or the only one of a ballot file."""
    given = term_notes.value_of("contest", words)
    for path in [] if given is not None else [word for word in words[1:] if not word.startswith("-") and os.path.isfile(word)]:
        try:
            with open(path, encoding="utf-8") as file:
                is_object = file.read(1) == "{" and file.seek(0) == 0
                found = json.load(file).get("contest") if is_object else only_contest(path)
            given = given or found
        except (OSError, ValueError, RecursionError, StopIteration, csv.Error):
            continue
    return given


class Lines:
    """Replaces ids with names, line by line. A line `contest ID` says which contest the next lines are about."""

    def __init__(self, names, contest):
        self.names = names
        self.see(contest)

    def see(self, contest):
        self.contest = contest
        self.of = self.names.of(contest)
        self.one = "|".join(map(re.escape, sorted(self.of, key=len, reverse=True))) or "(?!)"

    def listed(self, text):
        return "; ".join(map(self.name, text.split(",")))

    def name(self, c):
        return self.names.of(self.contest, [c]).get(c, c)

    def shown(self, line):
        if line.startswith("contest "):
            self.see(line.removeprefix("contest "))
            return f"contest {self.names.contest(line.removeprefix('contest '))}"
        if re.match("round [0-9]+: ", line):
            parted_line = re.sub("(=[0-9]+) ", r"\1; ", line)  # names may have blanks
            return re.sub(rf" ({self.one})=(?=[0-9]+(;|$))", lambda found: f" {self.of[found[1]]}=", parted_line)
        claim = re.fullmatch(rf"((?:no: assertion )?NE[BN]|.*? NE[BN]) ({self.one}) ({self.one})(?: \{{([^}}]*)\}})?(.*)", line)
        if claim:
            rest = f" {{{self.listed(claim[4])}}}" if claim[4] is not None else ""
            return f"{claim[1]} {self.listed(f'{claim[2]},{claim[3]}')}{rest}{claim[5]}"
        told = re.fullmatch("(tied |eliminated |winner |candidate |order |no: winner is |no: order )(.*?)( stands)?", line)
        return f"{told[1]}{self.listed(told[2])}{told[3] or ''}" if told else line


def answer(words):
    path, rest = parted(words)
    see_output(NAME, [path])
    names = called.Called(path, read(NAME, path))
    is_poll_plan = rest[:1] == ["plan"] and "--poll" in rest
    called_with = [PLAN_POLL, *rest[1:]] if is_poll_plan else [path_of_program(NAME), *rest]
    ran = subprocess.run(called_with, stdin=subprocess.DEVNULL, stdout=subprocess.PIPE)
    lines = Lines(names, contest_of(rest))
    return ran.returncode, "".join(f"{lines.shown(line)}\n" for line in ran.stdout.decode(errors="replace").splitlines())


def main():
    try:
        status, text = answer(sys.argv[1:])
        put(NAME, text)
    except called.BadNames as bad:
        return ended(NAME, Refusal(2, f"{NAME}: {bad}\n"))
    except Refusal as refusal:
        return ended(NAME, refusal)
    return status


if __name__ == "__main__":
    sys.exit(main())
