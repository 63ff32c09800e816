"""Finds what is nearly right: the name that was meant, or an id that could replace a text that isn't one."""
import difflib
import unicodedata

from records import decoded, quoted, shown

MOST_NAME_BYTES = 64
MOST_LOOKED_AT = 5_000
ALIKE = 0.7


def is_id(text):
    plain = 1 <= len(text) <= MOST_NAME_BYTES and all(" " <= c <= "~" for c in text)
    return plain and text == text.strip(" ") and not set(text) & set(',"')


def letters(text):
    """A text without accents, case and punctuation."""
    plain = unicodedata.normalize("NFKD", shown(text, 1_000)).casefold()
    return "".join(c for c in plain if c.isalnum() and c.isascii())


def nearest(text, names):
    """The name among these that was probably meant, or None. It is never a name that looks the same as the text."""
    names = [name for name in list(names)[:MOST_LOOKED_AT] if quoted(name) != quoted(text)]
    alike = [name for name in names if letters(name) == letters(text) != ""]
    return next(iter(alike or difflib.get_close_matches(text, names, 1, ALIKE)), None)


def meant(text, names, else_told, dashes=""):
    """Words about the closest match, or the other text if there is none."""
    near = nearest(text, names)
    return f"the closest match is {quoted(dashes + near)}" if near else else_told


def in_plain_letters(text):
    """An id that could be written for this text, or None. If a text can't be shown on a line, nobody knows what it was meant to be."""
    if not decoded(text).isprintable():
        return None
    plain = unicodedata.normalize("NFKD", shown(text, 1_000)).encode("ascii", "ignore").decode()
    plain = " ".join("".join(" " if c in ',"' else c for c in plain).split())
    return plain if is_id(plain) else None


def why_no_id(text, most=MOST_NAME_BYTES):
    """Why this text isn't an id of at most this many bytes."""
    if text == "":
        return "The id is empty"
    if len(text) > most:
        return f"{quoted(text)} has {len(text)} bytes; the limit is {most}"
    plain = in_plain_letters(text)
    return f"{quoted(text)} isn't an id" + (f'; "{plain}" would be one' if plain else "")
