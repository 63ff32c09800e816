"""The names of contests and candidates: a file with records contest,id,name, or id,name if it is about one contest."""
import csv
import io

from alike import folded, HOW

HEADS = (["id", "name"], ["contest", "id", "name"])


class BadNames(Exception):
    """The file isn't a file of names. The text begins with its path."""


class Called:
    """The names in a file, no two of which look alike within a contest. A record contest,,name without a candidate names the contest."""

    def __init__(self, path, data, must_have_head=False):
        self.path, self.contests, self.candidates, self.looks = path, {}, {}, {}
        rows = list(numbered(path, data))
        head = next((row for _, row in rows[:1] if row in HEADS), None)
        if must_have_head and head is None:
            raise BadNames(f"{path} doesn't begin with a line id,name or contest,id,name")
        self.has_contests = head == HEADS[1]
        for at, row in rows[head is not None:]:
            self.add(at, row, head or HEADS[0])

    def add(self, at, row, head):
        is_of_contest = len(row) == len(HEADS[1]) == len(head) and row[0] and not row[1]
        if len(row) != len(head) or not row[-1].isprintable() or not (is_of_contest and row[2] or all(row)):
            raise BadNames(f"{self.path}: record {at} isn't {','.join(head)} of a candidate, with a name that can be shown")
        *of, key, name = row
        names = self.contests if is_of_contest else self.candidates.setdefault(of[0] if of else None, {})
        key = of[0] if is_of_contest else key
        if key in names:
            raise BadNames(f"{self.path}: record {at} repeats {key}")
        names[key] = name
        if not is_of_contest:
            self.see_looks(at, of[0] if of else None, key, name)

    def see_looks(self, at, contest, key, name):
        """Refuses a name that looks like an earlier one."""
        before, other = self.looks.setdefault((contest, folded(name)), (at, key))
        if other != key:
            pair = f"record {before} calls {other} {self.candidates[contest][other]}, and record {at} calls {key} {name}"
            raise BadNames(f"{self.path}: {pair}; these names {HOW}: give each another one, such as {name} ({key})")

    def of(self, contest, ids=()):
        """The names of the candidates of a contest, by their ids. A candidate of `ids` without a name is shown by the id, which must not look like a name."""
        key = contest if self.has_contests else None
        names = self.candidates.get(key, {})
        for c in ids:
            _, other = self.looks.get((key, folded(c)), (None, c))
            if c not in names and other != c:
                told = f"{self.path} calls {other} {names[other]}, and has no name for {c}; both {HOW}"
                raise BadNames(f"{told}: give each another name, such as {names[other]} ({other})")
        return names

    def contest(self, contest):
        """The name by which people know a contest, with its id."""
        name = self.contests.get(contest, contest)
        return name if name == contest else f"{name} ({contest})"


def numbered(path, data):
    """The records that aren't blank, numbered. A text with a quote that isn't closed isn't comma-separated text."""
    try:
        rows = list(csv.reader(io.StringIO(data.decode("utf-8-sig"), newline=""), strict=True))
    except (UnicodeDecodeError, csv.Error):
        raise BadNames(f"{path} isn't comma-separated text in UTF-8") from None
    return enumerate((fields for fields in ([field.strip(" \t") for field in row] for row in rows) if any(fields)), 1)


class Nobody:
    """Stands in for the names if no file of names is given: ids are shown."""

    has_contests = False

    def of(self, contest, ids=()):
        return {}

    def contest(self, contest):
        return contest
