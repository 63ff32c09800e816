"""Vendors' exports: the forms that ./raire convert reads, the names of their files in the folder, and the rules and options of a conversion."""
from typing import NamedTuple

from forms import Wrong

ZIP, XML, TEXT = "a zip", "XML", "text"  # the type of a file, by its first bytes
ZIP_HEAD, XML_HEAD, MARK_OF_UTF8 = b"PK\x03\x04", b"<", b"\xef\xbb\xbf"
HEAD_BYTES = 256
MOST_FILES = 9


class Vendor(NamedTuple):
    title: str
    endings: dict  # the ending of a file, by its type
    takes: tuple = ()  # the options that this form has besides those of all forms
    most_files: int = MOST_FILES


class Option(NamedTuple):
    label: str
    hint: str
    is_list: bool = False  # one value per line


FORMATS = {
    "dominion": Vendor("Dominion Democracy Suite 5: the zip of the JSON export", {ZIP: "zip"}, ("as", "marks", "counts"), most_files=1),
    "dominion-csv": Vendor("Dominion Democracy Suite 5: the CSV export", {TEXT: "csv"}, ("as", "counts")),
    "hart": Vendor("Hart Verity: CVR folders, each as a zip", {ZIP: "zip", XML: "xml"}, ("as", "seats")),
    "clear-ballot": Vendor("Clear Ballot: the CSV export (name the contests)", {TEXT: "csv"}, ("as", "id", "counts")),
    "nist": Vendor("NIST SP 1500-103, version 1.0.0: reports as JSON or XML", {TEXT: "json", XML: "xml"}, ("as", "id", "marks")),
    "ess": Vendor("ES&S: sheets with a column “Cast Vote Record”", {ZIP: "xlsx", TEXT: "csv"}, ("as", "id", "sheet", "word")),
    "rctab": Vendor("RCTab: sheets of records, or the unified form", {ZIP: "xlsx", TEXT: "csv"}, ("id", "sheet", "title", "word")),
    "plain": Vendor("Sheets with the columns id, 1st, 2nd, ..", {ZIP: "xlsx", TEXT: "csv"}, ("id", "sheet", "title", "word")),
    "preflib": Vendor("PrefLib: one file, .soc, .soi, .toc or .toi", {TEXT: "txt"}, ("title", "batch", "word"), most_files=1),
}
UNTITLED = ("rctab", "plain")  # forms that don't say what the contest is called
RANKED = "ranked"
MADE = {
    RANKED: "rankings, for an instant runoff",
    "plurality": "one choice a ballot, for a contest that elects one by most first preferences",
    "pairs": "a contest for each winner and each loser, for one that elects several",
}
RULES = {
    "overvotes": ("A rank with several candidates", {"end": "ends the ballot", "pass": "is passed over"}),
    "skips": ("Skipped ranks", {"pass": "are passed over", "one": "end the ballot", "two": "end the ballot if two are in a row"}),
    "repeats": ("A candidate who is ranked again", {"pass": "is passed over", "end": "ends the ballot"}),
    "write-ins": ("Write-ins", {"merge": "are one candidate together", "drop": "are passed over"}),
    "marks": ("Marks that are taken (Dominion JSON, NIST)", {"counted": "that the export counts", "made": "that were made"}),
    "counts": (
        "The export’s own numbers (Dominion, Clear Ballot)",
        {"compare": "have to agree: overvotes and undervotes, or the numbers of cards", "ignore": "aren’t looked at"},
    ),
}
OF_RANKS = ("overvotes", "skips", "repeats", "ranks")  # these only have a meaning if candidates are ranked
OF_SOME = ("marks", "counts", "id", "sheet", "title", "batch", "word", "seats")  # these have no meaning for some forms
OPTIONS = {
    "contest": Option("Contests, by name or id", "One in each line. Default: all that the export says are ranked. Clear Ballot needs them.", True),
    "id": Option(
        "What the id of a card is made of",
        "Clear Ballot, NIST, ES&S, RCTab and plain sheets: columns with commas between, such as Batch,Card. The manifest has to have these ids.",
    ),
    "cards": Option("Number of cards that the vendor’s system reports", "If another number is read, the export is refused."),
    "ranks": Option("Highest rank of a ballot", "Default: what a Dominion export says, and no more than the contest has candidates."),
    "seats": Option("Seats", "Hart, if a contest for each winner and each loser is made: how many the contest elects."),
    "without": Option("Candidates who withdrew", "One in each line, by name or id. They are passed over on each ballot.", True),
    "word": Option(
        "What cells mean",
        "ES&S, RCTab, plain sheets and PrefLib, one in each line, such as over vote=overvote. A refusal says which ones are needed.", True,
    ),
    "sheet": Option("Sheet of a workbook", "ES&S, RCTab and plain sheets. Default: the only one."),
    "title": Option("What the contest is called", "RCTab and plain sheets, which don’t say it; PrefLib."),
    "batch": Option("Batch of the ballots", "PrefLib, whose ballots have no ids."),
}
USUAL = ("title", "contest", "id", "cards")  # the options that are shown right away


def name_of(number, vendor, stream):
    """The name of an export in the folder, by its type."""
    kind = kind_of(stream.read(HEAD_BYTES))
    stream.seek(0)
    if kind not in vendor.endings:
        raise Wrong(f"This isn’t a file of the form that was chosen: it is {kind}, and {' or '.join(vendor.endings)} is needed.")
    return f"export{number}.{vendor.endings[kind]}"


def kind_of(head):
    if head.startswith(ZIP_HEAD):
        return ZIP
    return XML if head.removeprefix(MARK_OF_UTF8).lstrip().startswith(XML_HEAD) else TEXT


def options_of(form, key):
    """The options of ./raire convert: what is made, the rules, and what was typed in. Options that have no meaning for the form are omitted."""
    takes = FORMATS[key].takes
    if key in UNTITLED:
        form.text("title", "What the contest is called")
    made = form.chosen("as", "what is made of a contest", MADE) if "as" in takes else RANKED
    meant = [name for name in (*RULES, *OPTIONS) if (name not in OF_SOME or name in takes) and (made == RANKED or name not in OF_RANKS)]
    if made != "pairs" and "seats" in meant:
        meant.remove("seats")
    return [
        *[f"--as={made}"] * (made != RANKED),
        *[f"--{name}={value}" for name in meant for value in values_of(form, name)],
    ]


def values_of(form, name):
    """What was chosen for a rule, or the values of an option."""
    if name in RULES:
        title, ways = RULES[name]
        value = form.chosen(name, title, ways)
        return [] if name == "counts" and (value == "compare" or form.values.get("marks") == "made") else [value]
    option = OPTIONS[name]
    if option.is_list:
        return form.all_lines(name, option.label)
    value = form.option(name, option.label)
    return [value] if value else []
