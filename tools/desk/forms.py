"""Judges what comes in from a form, and takes only values of the kind that was asked for."""
import re
from decimal import Decimal, InvalidOperation

MOST_TEXT, MOST_LINES = 2_000, 100
PERCENT_IN_MILLIONTHS = 10_000
WHOLE = re.compile("[0-9]{1,10}|[0-9]{1,3}(,[0-9]{3}){1,3}")  # with or without commas between thousands
DECIMAL_COMMA = re.compile("[0-9]+,[0-9]+")


class Wrong(Exception):
    """What was typed in can't be taken. The text says why, for the person who typed it."""


class Form:
    def __init__(self, values, files):
        self.values, self.files = values, files

    def text(self, name, what, most=MOST_TEXT):
        """A text of one line that isn't empty. Its blanks are left as they were typed."""
        text = self.values.get(name, "")
        if not text.strip():
            raise Wrong(f"{what} is missing.")
        if len(text) > most or not text.isprintable():
            raise Wrong(f"{what} has 1 to {most} characters, in one line, without tabs.")
        return text

    def option(self, name, what, most=MOST_TEXT):
        return self.text(name, what, most) if self.values.get(name, "").strip() else ""

    def all_lines(self, name, what):
        """The lines of a text that aren't empty."""
        lines = [line for line in self.values.get(name, "").replace("\r", "").split("\n") if line.strip()]
        if len(lines) > MOST_LINES or not all(len(line) <= MOST_TEXT and line.isprintable() for line in lines):
            raise Wrong(f"{what}: up to {MOST_LINES} lines, each of up to {MOST_TEXT} characters, without tabs.")
        return lines

    def number(self, name, what, low, high):
        text = self.values.get(name, "").strip()
        if not WHOLE.fullmatch(text):
            advice = " Use commas only between thousands, as in 1,200." if "," in text else ""
            raise Wrong(f"{what} is a whole number from {low:,} to {high:,}.{advice}")
        number = int(text.replace(",", ""))
        if not low <= number <= high:
            raise Wrong(f"{what} is a whole number from {low:,} to {high:,}.")
        return number

    def millionths(self, name, what):
        """A percentage as it is typed, in millionths."""
        text = self.values.get(name, "").strip().rstrip("%").strip()
        if DECIMAL_COMMA.fullmatch(text):
            raise Wrong(f"{what} has a comma. Write {text.replace(',', '.')}, with a point.")
        try:
            value = Decimal(text) * PERCENT_IN_MILLIONTHS
        except InvalidOperation:
            value = Decimal(0)
        if not value.is_finite() or value != value.to_integral_value() or not 0 < value < 1_000_000:
            raise Wrong(f"{what} is a percentage above 0 and below 100, with up to four decimals, such as 5 or 2.5.")
        return int(value)

    def chosen(self, name, what, among):
        value = self.values.get(name, "")
        if value not in among:
            raise Wrong(f"Choose {what}.")
        return value

    def ticked(self, name):
        return self.values.getlist(name)

    def file(self, name, what):
        """A file that was given. Its name is ignored."""
        found = self.files.get(name)
        if found is None or not found.filename:
            raise Wrong(f"Choose {what}.")
        return found.stream

    def all_files(self, name, what):
        found = [each.stream for each in self.files.getlist(name) if each.filename]
        if not found:
            raise Wrong(f"Choose {what}.")
        return found
