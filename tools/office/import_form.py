"""What every form of another tool's assertions is turned into: contests, their candidates, and the claims, with the names that the file uses."""
import collections
import json

from ask import read
from convert_export import refused
from records import short

NAME = "import"

# A NEN has `rest`, the candidates who are still in, or `out`, those who no longer are. A NEB has neither.
Claim = collections.namedtuple("Claim", "place kind winner loser rest out", defaults=(None, None))
# One contest of a file. `names` are what the file calls it. The candidates or the winner are None if the file doesn't say them.
Source = collections.namedtuple("Source", "place names candidates winner claims")


def document(path):
    """The JSON of a file."""
    try:
        return json.loads(read(NAME, path).decode("utf-8-sig"), object_pairs_hook=members)
    except RecursionError:
        raise refused(path, "isn't JSON that can be read: it is nested too deeply") from None
    except ValueError as fault:
        raise refused(path, f"isn't JSON that can be read: {fault}") from None


def members(pairs):
    """A JSON object, each of whose members must be there once."""
    found = dict(pairs)
    if len(found) < len(pairs):
        name = next(name for number, (name, _) in enumerate(pairs) if name in dict(pairs[:number]))
        raise ValueError(f"an object has the member {short(name)} twice")
    return found


def texts(listed, name, place):
    """A list that must have only texts, such as names."""
    for each in listed:
        if type(each) is not str:
            raise refused(place, f"{name} has {short(json.dumps(each))}; expected a text")
    return listed


def names_in(values):
    """The names of a contest, from members that a file may lack."""
    return [str(each) for each in values if type(each) in (str, int) and each != ""]


def see_object(value, place):
    if type(value) is not dict:
        raise refused(place, "isn't an object of JSON")
    return value
