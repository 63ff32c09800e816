"""The records of a comma-separated file, by their numbers, with the lines where they are."""
import csv
import io
from typing import NamedTuple

MARK = b"\xef\xbb\xbf"
csv.field_size_limit(2**31 - 1)


class Record(NamedTuple):
    number: int  # as refusals count records
    line: int  # the line of the file
    fields: list
    text: str


class Lines:
    """The lines of a text in order. The lines of the current record are kept."""

    def __init__(self, text):
        self.lines, self.count, self.taken = io.StringIO(text, newline=""), 0, []

    def __iter__(self):
        return self

    def __next__(self):
        line = next(self.lines)
        self.count += 1
        self.taken.append(line)
        return line


def records(data):
    for _ in range(2):
        data = data.removeprefix(MARK)
    lines, number = Lines(data.decode("latin-1")), 0
    rows, first = csv.reader(lines), 1
    for row in rows:
        fields = [field.strip(" \t") for field in row]
        if fields not in ([], [""]):
            number += 1
            yield Record(number, first, fields, "".join(lines.taken))
        first = lines.count + 1
        lines.taken.clear()


def record_at(data, number):
    """The record with this number, or None if the file ends before it."""
    return next((record for record in records(data) if record.number == number), None)


def has_line_end(text):
    """Whether a field continues after the end of a line, so that its quote isn't closed in that line."""
    return "\n" in text or "\r" in text


def decoded(text):
    """A text from a file as UTF-8, if it is that."""
    try:
        return text.encode("latin-1").decode("utf-8")
    except UnicodeError:
        return text


def shown(text, most=120):
    """A text from a file on one line, without anything that a terminal obeys, and no longer than `most`."""
    text = "".join(c if c.isprintable() else c.encode("unicode_escape").decode() for c in decoded(text).rstrip("\r\n"))
    return text if len(text) <= most else text[: most - 2] + ".."


def quoted(text):
    return f'"{shown(text, 70)}"'


def listed(texts, most=12):
    """Some of these texts, each in quotes, and the number of the others."""
    told = ", ".join(map(quoted, texts[:most]))
    return told if len(texts) <= most else f"{told} and {len(texts) - most} more"
