"""Ids that a .raire file can have. An export's own name for a candidate or a contest is kept if it can be an id. Otherwise an id is made from it."""
import re
import unicodedata

from convert_export import refused
from limits import MOST_BATCH_BYTES, MOST_BATCH_CARDS, MOST_NAME_BYTES
from plain import is_id  # noqa: F401 (also for convert_book)

WHAT = f"1 to {MOST_NAME_BYTES} characters from space to ~, no comma and no double quote, no blank at either end"
CARD = re.compile(r"(.+)_([1-9][0-9]{0,9})")


def ids_of(names, kind):
    """An id for each name, in the order of the names; no two are the same."""
    ids = {name: name for name in names if is_id(name)}
    taken = set(ids)
    for number, name in enumerate(names, 1):
        if name not in ids:
            ids[name] = free(near(name) or f"{kind} {number}", taken)
            taken.add(ids[name])
    return [ids[name] for name in names]


def near(name):
    """The name without the marks on its letters, and without characters that no id has."""
    folded = unicodedata.normalize("NFKD", name)
    kept = "".join(c for c in folded if (" " <= c <= "~" or c.isspace()) and c not in ',"')
    return " ".join(kept.split())[:MOST_NAME_BYTES].strip()


def free(wanted, taken):
    number, found = 1, wanted
    while found in taken:
        number += 1
        found = f"{wanted[:MOST_NAME_BYTES - len(str(number)) - 1].strip()} {number}"
    return found


def see_card(card):
    """Checks that a .raire file can have a card's id. A card keeps its own id, since the id says where the card is."""
    if not is_id(card.id):
        raise refused(card.place, f"no .raire file can have the card's id {card.id!r}: {WHAT}")


def is_in_a_batch(card):
    """Whether a manifest can have a card with this id: a batch, an underscore, and a number."""
    found = CARD.fullmatch(card)
    return bool(found) and len(found[1]) <= MOST_BATCH_BYTES and is_id(found[1]) and int(found[2]) <= MOST_BATCH_CARDS
