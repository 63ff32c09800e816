#!/usr/bin/python3
"""Notes the terms of an audit that are easily misread: a risk limit, which counts millionths, and the blanks of a seed.

./raire runs tools/office/term_notes.py [--refused] WORDS.. after an answer if --limit or --seed is among its words, or if its command is report. It
also runs it after a refusal, where only the blanks of a seed may be the cause.
"""
import json
import re
import sys

BLANK = "\u2423"
LEAST_USUAL_LIMIT, MOST_USUAL_LIMIT = 1_000, 200_000  # 0.1 and 20 percent
MOST_SESSION_BYTES = 67_108_864
REFUSED = "--refused"
LEAST_SEED = 12  # characters; a date with two dice has more, so this only finds seeds for which nobody threw dice


def percent(limit):
    """A limit in millionths as a percentage."""
    return f"{limit / 10_000:.4f}".rstrip("0").rstrip(".")


def is_usual(limit):
    return LEAST_USUAL_LIMIT <= limit <= MOST_USUAL_LIMIT


def limit_note(limit):
    usual = "" if is_usual(limit) else "; that is unusual: --limit counts millionths, so 5 percent is --limit 50000"
    return f"the risk limit {limit} is {percent(limit)} percent{usual}"


def blanks_in(seed):
    """The blanks of a seed that are easily overlooked, in words; an empty text if there are none."""
    found = ["begins with a blank"] * seed.startswith(" ") + ["has two blanks in a row"] * ("  " in seed) + ["ends with a blank"] * seed.endswith(" ")
    return " and ".join(filter(None, [", ".join(found[:-1]), *found[-1:]]))


def with_blanks(seed):
    """A seed for a page that shows each blank. It is still copied as a blank."""
    import markupsafe

    return markupsafe.Markup('<span class="blank"> </span>').join(seed.split(" "))


def seed_note(seed):
    """A line about a seed whose blanks are easily overlooked, or an empty text."""
    found = blanks_in(seed)
    return f'the seed {found}: "{seed.replace(" ", BLANK)}", where each {BLANK} is a blank' if found else ""


def short_note(seed):
    """A line about a seed that is too short to be random, or an empty text."""
    if len(seed) >= LEAST_SEED:
        return ""
    return f"the seed has {len(seed)} character{'s'[: len(seed) != 1]}, too few to be made by chance: use at least 20 throws of a ten-sided die"


def value_of(name, words):
    """The value of an option, as ./raire reads the words; None if the option isn't among them."""
    for word, following in zip(words, [*words[1:], ""]):
        if word == "--":
            return None
        if word.startswith(f"--{name}="):
            return word.partition("=")[2]
        if word == f"--{name}":
            return following
    return None


def seed_of_session(path):
    """The seed of a session that the program has read."""
    try:
        with open(path, encoding="utf-8") as file:
            seed = json.loads(file.read(MOST_SESSION_BYTES)).get("seed")
    except (OSError, ValueError, AttributeError, RecursionError):
        return ""
    return seed if isinstance(seed, str) else ""


def notes(words):
    if words[0] == REFUSED:
        return [seed_note(value_of("seed", words[1:]) or "")]
    return notes_of_answer(words)


def notes_of_answer(words):
    command, limit, seed = words[0], value_of("limit", words), value_of("seed", words)
    if command == "report" and len(words) > 1:
        seed = seed_of_session(words[-1])
    if limit is not None and re.fullmatch("[0-9]{1,10}", limit):
        yield limit_note(int(limit))
    if seed and seed_note(seed):
        yield seed_note(seed)
    if seed and short_note(seed):
        yield short_note(seed)


def main():
    sys.stderr.reconfigure(errors="backslashreplace")
    for note in filter(None, notes(sys.argv[1:])):
        sys.stderr.write(f"raire: {note}\n")


if __name__ == "__main__":
    main()
