"""Reads a sheet with a row for each record and a column for each rank: ES&S's form, RCTab's, and the plain one (id, 1st, 2nd, ..); CSV or .xlsx."""
import csv
import datetime
import difflib
import os
import re
import xml.etree.ElementTree as tree
import zipfile

import convert_files
from alike import folded, HOW
from convert_export import add_mark, Candidate, Card, Contest, OVERVOTED, Place, RANKED, refused, told, Vote

ESS_CHOICE = re.compile(r"(.*?)\s*\b(?:choice\s+(\d+)\s+of\s+\d+|(\d+)(?:st|nd|rd|th)\s+choice)\b\s*(.*)", re.IGNORECASE)
RCTAB_RANK = re.compile(r"rank[ _]?0*(\d+)", re.IGNORECASE)
UNIFIED_IDS = ("ballotid", "ballot_id", "ballot id", "cast vote record", "cvr id", "id")
PLAIN_CHOICE = re.compile(r"(?:rank|choice)?\s*0*(\d+)(?:st|nd|rd|th)?(?:\s+(?:rank|choice))?", re.IGNORECASE)
ESS_ID, PLAIN_ID = "cast vote record", "id"
WORDS = {
    "overvote": "overvote", "undervote": "undervote", "skipped": "undervote", "write-in": "write-in", "writein": "write-in", "write in": "write-in",
    "uwi": "write-in", "undeclared write-ins": "write-in",
}
WRITE_IN = Candidate("Write-in", "Write-in", True)
WORKBOOKS = (".xlsx", ".xlsm")
KINDS = ("overvote", "undervote", "write-in", "candidate")
LIKE_WORDS = ("overvote", "undervote", "writein", "blank", "skipped", "novote")
LIKENESS = 0.85  # 1 means the same; a word of eight letters with one letter added, missing or changed is above this


# ---- what cells mean

class Meanings:
    """What the text of a cell means: a word, or somebody's name. --word says it for texts that are like a word or like another name."""

    def __init__(self, given):
        self.given = {}
        for word in given:
            cell, _, meaning = map(str.strip, word.rpartition("="))
            if not cell or not meaning:
                raise told(f"--word needs a cell, = and what it means, such as 'over vote=overvote'; it has {word}")
            self.given[cell] = meaning

    def of(self, cell):
        """One of KINDS; None if the user must say which."""
        if cell in self.given:
            return self.given[cell] if self.given[cell] in KINDS else "candidate"
        if not cell:
            return "undervote"
        return WORDS.get(cell.lower()) or (None if is_like_a_word(cell) else "candidate")

    def name(self, cell):
        """The name of the candidate in a cell."""
        given = self.given.get(cell, "candidate")
        return cell if given == "candidate" else given

    def is_told(self, cell):
        return cell in self.given

    @staticmethod
    def why(cell):
        kinds = ", ".join(KINDS[:-1]) + f" or {KINDS[-1]}"
        told = f"{cell} looks like a word for an overvote, an undervote or a write-in, but isn't a known one"
        return f"{told}; --word '{cell}={KINDS[0]}' says what it is: {kinds}"


def is_like_a_word(cell):
    letters = re.sub("[^a-z]", "", cell.casefold())
    return letters.startswith(LIKE_WORDS[:3]) or bool(difflib.get_close_matches(letters, LIKE_WORDS, 1, LIKENESS))


# ---- rows

def rows_of(source, options):
    """The rows of a sheet that aren't blank, numbered as a reader of the sheet sees them."""
    if source.name.lower().endswith(WORKBOOKS):
        return rows_of_workbook(source, options.sheet)
    if options.sheet is not None:
        raise told("--sheet is for workbooks")
    return rows_of_csv(source)


def rows_of_csv(source):
    reader = csv.reader((line + "\n" for _, line in source.lines()), strict=True)
    width = None
    try:
        for row in reader:
            place = Place(source, "line", reader.line_num)
            width = len(row) if width is None else width
            if len(row) not in (0, width):
                raise refused(place, f"has {len(row)} fields, and the first line has {width}")
            if any(map(str.strip, row)):
                yield place, [cell.strip() for cell in row]
    except csv.Error as fault:
        raise refused(Place(source, "line", reader.line_num), f"not comma-separated, or truncated: {fault}") from None


def rows_of_workbook(source, sheet):
    try:
        import openpyxl
    except ImportError:
        raise told("workbooks need openpyxl: apt-get install python3-openpyxl; or save the sheet as CSV (UTF-8)") from None
    with convert_files.faults(source):
        see_unmerged(source)
        try:
            book = openpyxl.load_workbook(source.outer, read_only=True)
        except (KeyError, ValueError, TypeError, SyntaxError) as fault:
            raise refused(source, f"not a workbook: {convert_files.first_line(fault)}") from None
        names = [each.title for each in book.worksheets]
        if sheet is None and len(names) != 1 or sheet is not None and sheet not in names:
            why = "has several sheets" if sheet is None else f"no sheet is called {sheet}"
            raise refused(source, f"{why}; name one with --sheet: {'; '.join(names)}")
        page = book[sheet or names[0]]
        page.reset_dimensions()
        yield from texts_of(source, page)


def texts_of(source, page):
    try:
        for number, row in enumerate(page.iter_rows(), 1):
            place = Place(source, f"sheet {page.title}, row", number)
            cells = [text_of(cell, place) for cell in row]
            if any(cells):
                yield place, cells
    except (KeyError, ValueError, TypeError, IndexError, SyntaxError) as fault:
        raise refused(source, f"not a workbook: {convert_files.first_line(fault)}") from None


def text_of(cell, place):
    value = cell.value
    if value is None:
        return ""
    here = place.at(f"cell {cell.coordinate}")
    if cell.data_type in ("f", "e") or isinstance(value, (bool, datetime.date, datetime.time, datetime.timedelta)):
        raise refused(here, f"is {value}; expected a text or a number")
    if isinstance(value, float):
        if not value.is_integer():
            raise refused(here, f"is {value}; expected a whole number or a text")
        value = int(value)
    return str(value).strip()


def see_unmerged(source):
    """Refuses a workbook with merged cells: they have one value for several cells, so the rows can't be known."""
    archive = zipfile.ZipFile(source.outer)
    for name in archive.namelist():
        if re.fullmatch(r"xl/worksheets/[^/]+\.xml", name):
            with archive.open(name) as file:
                see_part(source, os.path.basename(name), file)


def see_part(source, part, file):
    try:
        for _, element in tree.iterparse(file):
            if element.tag.endswith("}mergeCell"):
                cells = element.get("ref")
                raise refused(f"{source}: {part}", f"cells {cells} are merged; split them, or save the sheet of the records as CSV (UTF-8)")
            if element.tag.endswith("}row"):
                element.clear()
    except tree.ParseError as fault:
        raise refused(f"{source}: {part}", f"not a workbook: {fault}") from None


# ---- what the columns are

class Export:
    """The export. The head of the first sheet gives the contests, and further sheets must have the same head."""

    def __init__(self, paths, options):
        self.paths, self.options, self.notes = paths, options, {}
        self.meanings, self.known = Meanings(options.word), {}
        self.sources = [convert_files.Source(path) for path in paths]
        self.head = None
        for source in self.sources:
            place, head = next(rows_of(source, options), (Place(source), None))
            if head is None:
                raise refused(source, "is empty")
            if self.head is None:
                self.read_head(place, head)
            elif head != self.head:
                raise refused(place, "has a different header from the first file")

    def read_head(self, place, head):
        self.head = head
        lower = [cell.lower() for cell in head]
        repeated = {cell for cell in lower if cell and lower.count(cell) > 1}
        if repeated:
            raise refused(place, f"several columns are called {sorted(repeated)[0]}")
        if any("\t" in cell or ";" in cell for cell in head) and len(head) == 1:
            raise refused(place, "has no commas; expected a comma-separated file")
        self.read_ranks(place, head)
        wanted = self.options.id or [self.own_id]
        missing = [name for name in wanted if name.lower() not in lower]
        if missing:
            raise refused(place, f"no column is called {missing[0]}; --id says which the card's id is made of")
        self.id_columns = [lower.index(name.lower()) for name in wanted]
        self.made_of = "_".join(head[column] for column in self.id_columns)
        read = {*self.id_columns, *(column for ranks in self.columns.values() for column in ranks)}
        unread = [cell for column, cell in enumerate(head) if column not in read and cell]
        if unread:
            self.notes[f"columns that aren't read: {', '.join(unread)}"] = None

    def add_columns(self, place, columns):
        """Adds the contests with the columns of their ranks."""
        self.columns, self.contests = {}, {}
        for name, ranks in columns.items():
            if sorted(ranks) != list(range(1, len(ranks) + 1)):
                had = ", ".join(map(str, sorted(ranks)))
                raise refused(place, f"the columns of {name} have the ranks {had}; expected 1 to {len(ranks)}, each once")
            self.columns[name] = [ranks[rank] for rank in sorted(ranks)]
            self.contests[name] = Contest(name, name)
            self.contests[name].is_open = True

    def see_chosen(self, contests):
        if self.options.candidates is None:
            return
        if len(contests) != 1:
            raise told("--candidates is the list of one contest: name it with --contest")
        contests[0].is_open = False
        for number, line in convert_files.Source(self.options.candidates).lines():
            name = line.strip()
            if name in contests[0].numbers:
                raise refused(f"{self.options.candidates}: line {number}", f"{name} is repeated")
            if contests[0].alike(name) is not None and not self.meanings.is_told(name):
                both = f"{name} and {contests[0].alike(name)} {HOW}"
                raise refused(f"{self.options.candidates}: line {number}", f"{both}; --word '{name}=candidate' says that they are two")
            if name:
                contests[0].add(WRITE_IN if WORDS.get(name.lower()) == "write-in" else Candidate(name, name))
                self.known[contests[0].key, folded(name)] = name

    def cards(self, contests):
        for source in self.sources:
            rows, number = rows_of(source, self.options), 0
            next(rows)
            for number, (place, cells) in enumerate(rows, 1):
                cells += [""] * (len(self.head) - len(cells))
                votes = [vote for vote in (self.vote(contest, cells, place) for contest in contests) if vote is not None]
                yield Card(place, "_".join(cells[column] for column in self.id_columns) if votes else None, votes)
            if number == 0:
                raise refused(source, "has no records below its head")

    def vote(self, contest, cells, place):
        cells = [cells[column] for column in self.columns[contest.key]]
        if self.is_blank_elsewhere and not any(cells):
            return None
        marks = {}
        for rank, cell in enumerate(cells, 1):
            choice = self.choice(contest, cell, rank, place)
            if choice is not None:
                add_mark(marks, rank, choice)
        return Vote(contest, marks)

    def choice(self, contest, cell, rank, place):
        """The mark in a cell, or None."""
        if cell in contest.numbers and not contest.candidates[contest.numbers[cell]].is_write_in:
            return contest.numbers[cell]
        meaning = self.meanings.of(cell)
        if meaning in ("overvote", "write-in"):
            return OVERVOTED if meaning == "overvote" else contest.mark(contest.add(WRITE_IN), rank)
        if meaning == "undervote":
            return None
        if meaning is None:
            raise refused(place.at(f"rank {rank}"), self.meanings.why(cell))
        return self.candidate(contest, cell, place.at(f"rank {rank}"))

    def candidate(self, contest, cell, place):
        """The mark for a candidate by name. A new name is refused if it looks like another one."""
        name = self.meanings.name(cell)
        known = self.known.setdefault((contest.key, folded(name)), name)
        if known != name and not self.meanings.is_told(cell):
            raise refused(place, f"{name} and {known} {HOW}; --word '{name}={known}' says that they are one, '{name}=candidate' that they are two")
        if not contest.is_open and name not in contest.numbers:
            raise refused(place, f"{name} isn't in {self.options.candidates}")
        return contest.add(Candidate(name, name))


class Ess(Export):
    """ES&S's export: a column for each choice of each contest. If all columns of a contest are blank, the card doesn't have the contest."""

    own_id, is_blank_elsewhere = ESS_ID, True

    def read_ranks(self, place, head):
        columns = {}
        for column, cell in enumerate(head):
            found = ESS_CHOICE.fullmatch(cell)
            if found:
                name = " ".join(f"{found[1]} {found[4]}".split()) or "contest"
                ranks, rank = columns.setdefault(name, {}), int(found[2] or found[3])
                if rank in ranks:
                    raise refused(place, f"several columns are rank {rank} of {name}")
                ranks[rank] = column
        if not columns and self.options.made == RANKED:
            raise refused(place, "no column has 'Choice 1 of 5' or '1st Choice' in its name (ES&S's form)")
        self.add_columns(place, columns)
        if self.options.made != RANKED:
            self.add_unranked(place, head)

    def add_unranked(self, place, head):
        """Adds the contests that aren't ranked. Each is a column with the contest's name; the form doesn't distinguish these columns from others."""
        for name in self.options.contest:
            if name not in head:
                raise refused(place, f"no column is called {name}; --contest names the column of a contest that isn't ranked")
            if name not in self.contests:
                self.columns[name] = [head.index(name)]
                self.contests[name] = Contest(name, name, most_rank=1, why_not="isn't ranked (one column)")
                self.contests[name].is_open = True


class RcTab(Export):
    """RCTab's sheet of the records that it tabulates, and the unified form: columns Rank 1, Rank 2, .. or rank1, rank2, .."""

    own_id, is_blank_elsewhere = None, False
    PARTS = ("Tabulator Id", "Batch Id", "Record Id")

    def read_ranks(self, place, head):
        ranks = {int(found[1]): column for column, cell in enumerate(head) if (found := RCTAB_RANK.fullmatch(cell))}
        if not ranks:
            raise refused(place, "no column is called Rank 1 or rank1 (RCTab's form, and the unified one)")
        self.add_columns(place, {title_of(self.sources[0], self.options): ranks})
        if self.options.id is None:
            lower = [cell.lower() for cell in head]
            self.options.id = [name for name in self.PARTS if name.lower() in lower] or [name for name in head if name.lower() in UNIFIED_IDS][:1]
        if not self.options.id:
            raise refused(place, f"no column is called {', '.join(self.PARTS)} or {', '.join(UNIFIED_IDS)}; --id says which the card's id is made of")


class Plain(Export):
    """The plain form: an id and a column for each rank, for one contest, which each card has."""

    own_id, is_blank_elsewhere = PLAIN_ID, False

    def read_ranks(self, place, head):
        ranks = {}
        for column, cell in enumerate(head):
            found = PLAIN_CHOICE.fullmatch(cell)
            if found:
                if int(found[1]) in ranks:
                    raise refused(place, f"several columns are rank {found[1]}")
                ranks[int(found[1])] = column
        if not ranks:
            raise refused(place, "no column is called 1st or 1, 2nd or 2, .. (the plain form: id, 1st, 2nd, ..)")
        self.add_columns(place, {title_of(self.sources[0], self.options): ranks})


def title_of(source, options):
    """The name of a contest if its file doesn't say it: --title, or the file's name."""
    return options.title or os.path.splitext(source.name)[0]
