"""Converts a vendor's export of cast vote records to a .raire file: the words of the call, and what is written where."""
import contextlib
import os
import shlex
import shutil
import sys

import convert_clear_ballot
import convert_dominion
import convert_dominion_csv
import convert_files
import convert_hart
import convert_nist
import convert_preflib
import convert_seen
import convert_sheet
import share
from ask import MOST_FILE_BYTES, Refusal
from convert_account import account
from convert_book import Book
from convert_export import chosen, NAME, PAIRS, PLURALITY, RANKED, refused, told
from convert_rules import OF_RANKS, OF_SOME, Rules, RULES
from limits import MOST_LISTED
from plain_audit import number_in
from words import ended, see_output, Words

# For each form: the class that reads it, then the options that it has in addition to those of all forms. They include the rules of OF_SOME that have a
# meaning for the form.
FORMATS = {
    "dominion": (convert_dominion.Export, ["marks", "counts", "as"]),
    "dominion-csv": (convert_dominion_csv.Export, ["counts", "as"]),
    "hart": (convert_hart.Export, ["as", "seats"]),
    "clear-ballot": (convert_clear_ballot.Export, ["id", "counts", "as"]),
    "nist": (convert_nist.Export, ["marks", "id", "as"]),
    "ess": (convert_sheet.Ess, ["id", "sheet", "candidates", "word", "as"]),
    "plain": (convert_sheet.Plain, ["id", "sheet", "candidates", "title", "word"]),
    "rctab": (convert_sheet.RcTab, ["id", "sheet", "candidates", "title", "word"]),
    "preflib": (convert_preflib.Export, ["title", "batch", "word"]),
    "seen": (convert_seen.Export, ["ballots"]),
    "marks": (convert_seen.Export, ["ballots", "as", "seats"]),
}
SOME = ["marks", "counts", "id", "sheet", "candidates", "title", "batch", "ballots", "word", "as", "seats"]
VALUES = ["id", "sheet", "candidates", "title", "batch", "ballots", "account", "names"]
AS = (RANKED, PLURALITY, PAIRS)
MOST_CARDS = 10_000_000
ACCOUNT = f"./raire {NAME} "  # each account begins with this


def words_of(words):
    parser = Words(NAME)
    parser.add_argument("format", choices=FORMATS)
    parser.add_argument("files", nargs="+")
    for name in ("contest", "word", "without"):
        parser.add_argument(f"--{name}", action="append", default=[])
    parser.option(*(f"--{name}" for name in VALUES), "--ranks", "--seats", "--cards")
    parser.option("--as", choices=AS)
    for rule, meanings in RULES.items():
        parser.option(f"--{rule.replace('_', '-')}", choices=meanings)
    given = parser.parse_intermixed_args(words)
    for name in SOME:
        if getattr(given, name) not in (None, []) and name not in FORMATS[given.format][1]:
            parser.error(f"--{name} doesn't apply to {given.format}")
    if "" in [*given.files, *given.contest, *given.word, *given.without, *(getattr(given, name) for name in VALUES)]:
        parser.error("a word is empty")
    given.made = getattr(given, "as") or RANKED
    see_rules(parser, given)
    for name, low, high in (("ranks", 1, MOST_LISTED), ("seats", 1, MOST_LISTED), ("cards", 1, MOST_CARDS)):
        if getattr(given, name) is not None:
            setattr(given, name, number_in(getattr(given, name), low, high) or parser.error(f"--{name} needs a number from {low} to {high}"))
    for rule, meanings in RULES.items():
        setattr(given, rule, getattr(given, rule) or next(iter(meanings)))
    given.id = given.id and [part.strip() for part in given.id.split(",")]
    return given


def see_rules(parser, given):
    """Refuses rules that don't fit: rules about ranks are for contests whose candidates are ranked, and --seats is for contests of several seats."""
    for name in (*OF_RANKS, "ranks"):
        if given.made != RANKED and getattr(given, name) is not None:
            parser.error(f"--{name} doesn't apply with --as {given.made}")
    if given.seats is not None and given.made != PAIRS:
        parser.error("--seats is for --as pairs")
    if given.format == "marks" and given.made == PAIRS and given.seats is None:
        parser.error("marks of pairs need --seats: how many the contest elects")
    if given.marks == "made" and given.counts is not None:
        parser.error("--counts doesn't apply with --marks made, which takes marks whatever the export counts")
    if given.format in ("seen", "marks") and given.ballots is None:
        parser.error(f"{given.format} needs the candidates: --ballots")


def rules_of(given):
    """The rules that have a meaning in this call."""
    some = [name for name in FORMATS[given.format][1] if name != "counts" or "marks" not in FORMATS[given.format][1] or given.marks == "counted"]
    return [rule for rule in RULES if (rule not in OF_SOME or rule in some) and (given.made == RANKED or rule not in OF_RANKS)]


def converted(given):
    """The export, the book of all records, and the account of how they were read. May raise Refused."""
    reader, path = FORMATS[given.format][0], " ".join(given.files)
    convert_files.see_there(given.files)
    export = reader(given.files, given)
    contests = chosen(export.contests.values(), given.contest, given.made, path)
    export.see_chosen(contests)
    made = PLURALITY if given.format == "marks" and given.made == PAIRS else given.made  # the pairs are those of the ballot file
    book = Book(contests, Rules(*(getattr(given, rule) for rule in RULES)), given.ranks, made, given.without, given.seats)
    for card in export.cards(contests):
        book.add(card)
    see_all_read(given, book, path)
    book.close(given.contest, path)
    return export, book, account(call_of(given), export, book, given.contest, rules_of(given))


def see_all_read(given, book, path):
    """If the office says how many cards there are, that many must have been read."""
    if given.cards not in (None, book.cards):
        raise refused(path, f"{book.cards} cards were read, and --cards says {given.cards}: see whether a file is missing, or given twice")


def call_of(given):
    """The words that say what is read and how. The account lists the rules separately."""
    words = [f"--{name}={value}" for name in ("contest", "word", "without") for value in getattr(given, name)]
    names = ("as", "seats", "sheet", "candidates", "title", "batch", "ballots", "ranks", "cards")
    words += [f"--{name}={getattr(given, name)}" for name in names if getattr(given, name) is not None]
    words += [f"--id={','.join(given.id)}"] if given.id else []
    return shlex.join(["./raire", NAME, given.format, *given.files, *words])


def see_beside(given):
    """Checks that the account and the names go to files of their own."""
    written = [path for path in (given.account, given.names) if path is not None]
    read = [path for path in [*given.files, given.candidates, given.ballots] if path is not None and os.path.exists(path)]
    if len({os.path.realpath(path) for path in written}) < len(written):
        raise told("--account and --names are one file")
    for path in filter(os.path.exists, written):
        if any(os.path.samefile(path, each) for each in read):
            raise told(f"{path} would be written over by --account or --names")
        if sys.stdout is not None and os.path.samestat(os.stat(path), os.fstat(1)):
            raise told(f"{path} is both standard output and the file of --account or --names")


def see_kept(path, text, begins):
    """Refuses to write over what somebody has written: an existing file must be one that this tool makes anew, or have the same text."""
    if path is None or not os.path.exists(path):
        return
    with open(path, "rb") as file:
        data = file.read(MOST_FILE_BYTES)
    if data and data != text.encode(errors="surrogateescape") and not (begins and data.startswith(begins.encode())):
        what = "isn't an account" if begins else "has other content"
        raise told(f"{path} already exists, and {what}; it would be lost")


@contextlib.contextmanager
def beside(path, text, begins=""):
    """Writes a file that gets its name only when all of it is written, so that a call that fails leaves none."""
    if path is None:
        yield
        return
    part = f"{path}.{os.getpid()}.part"
    try:
        see_kept(path, text, begins)
        with open(part, "x", newline="") as file:
            file.write(text)
        yield
        os.replace(part, path)
    except OSError as fault:
        raise Refusal(8, f"{NAME}: {path}: {fault.strerror}\n") from None
    finally:
        with contextlib.suppress(OSError):
            os.remove(part)


def put(file):
    """Writes a file to standard output, which may be closed or full."""
    try:
        shutil.copyfileobj(file, sys.stdout.buffer)
        sys.stdout.flush()
    except (AttributeError, OSError):
        if sys.stdout is not None:
            os.dup2(os.open(os.devnull, os.O_WRONLY), sys.stdout.fileno())  # the rest goes nowhere when Python ends
        raise Refusal(8, f"{NAME}: the output could not be written\n") from None


def answer(words):
    given = words_of(words)
    see_output(NAME, filter(None, [*given.files, given.ballots, given.candidates]))
    see_beside(given)
    with share.shown([NAME, *words]):
        export, book, told_of_it = converted(given)
        made = text_of(given, export, book)
    with made as text, beside(given.account, told_of_it, ACCOUNT), beside(given.names, book.names()):
        put(text)
    sys.stderr.write(told_of_it)


def text_of(given, export, book):
    """The ballot file, or the seen file if the export has the form `marks`."""
    path = " ".join(given.files)
    if given.format != "marks":
        return book.ballots(path)
    return book.seen_of_pairs(export.missing, export.pairs) if given.made == PAIRS else book.seen(export.missing, export.has_contests)


def main(words):
    try:
        answer(words)
    except Refusal as refusal:
        return ended(NAME, refusal)
    return 0
