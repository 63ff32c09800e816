"""The files that a page is made from: what each is, its bytes and its digest."""
import hashlib
import itertools
import json
import os
import re
import tempfile

import plain
import plain_audit
import what_to_do
from limits import MOST_BATCH_BYTES, MOST_BATCH_CARDS, MOST_CONTESTS

KINDS = {
    "ballots": "ballot file", "manifest": "manifest", "assertions": "assertion file", "session": "session", "seen": "seen file",
    "counted": "full count", "names": "names",
}
NOT_THE_PROGRAMS = {"seen", "names"}  # no command judges these by themselves


class Refusal(Exception):
    """No page is made: the status, and what to print."""

    def __init__(self, status, text):
        super().__init__(text)
        self.status, self.text = status, text


def told(text):
    return Refusal(1, f"show: {text}\n")


def broken_to_page(path, broken):
    """A refusal for a broken rule that this page has judged, since no command has."""
    return Refusal(2, f"show: {path}: {broken} (judged by this page, and not by the program)\n")


class File:
    def __init__(self, path):
        self.path, self.name = path, os.path.basename(path)
        self.data = plain_audit.read(path)
        self.digest = hashlib.sha256(self.data).hexdigest()
        self.kind = kind_of(path, self.data)
        self.what = KINDS[self.kind]


def kind_of(path, data):
    """The kind of file that this seems to be. Whether it is that kind is judged later."""
    if data.lstrip()[:1] in (b"{", b"[") or path.endswith(".json"):
        return "session" if is_like_session(path, data) else "assertions"
    if path.endswith(".raire"):
        return "ballots"
    return kind_of_rows(list(itertools.islice(plain_audit.numbered(data[:65_536]), 20))) or kind_of_name(path)


def is_like_session(path, data):
    try:
        members = set(json.loads(data))
    except (ValueError, TypeError, RecursionError):
        return "session" in os.path.basename(path)
    return bool(members & {"rounds", "seed", "signed_off"})


def kind_of_rows(rows):
    """The kind that the first records show. A ballot file begins with a number, and a contest follows."""
    if not rows:
        return None
    seconds = [row[1] if len(row) > 1 else "" for row in rows]
    words = {word for row in rows for word in row[1:3]}  # the word of a seen card follows its id or a contest's id
    if [field.lower() for field in rows[0]] in (["id", "name"], ["contest", "id", "name"]):
        return "names"
    if rows[0][0] == "batch":
        return "manifest"
    if any(row[0] == "Contest" for row in rows[:2]):
        return "ballots"
    if {"ballot", "missing"} & words:
        return "seen"
    if rows[0][0].lower().startswith("batch") or {"batch", "cards"} & {field.lower() for field in rows[0]}:
        return "manifest"
    return "manifest" if all(len(row) == 2 for row in rows) and all(map(str.isdigit, seconds[1:] or seconds)) else None


def kind_of_name(path):
    name = os.path.basename(path)
    return next((kind for kind in ("manifest", "seen", "names") if kind in name), "ballots")


def given(paths):
    """The files by their kinds, each kind once. If there are two ballot files, one is a full count."""
    files = {kind: [] for kind in KINDS}
    for path in paths:
        try:
            file = File(path)
        except plain_audit.End as end:
            raise Refusal(end.answer[0], end.answer[2] + cause_of(end.answer[2])) from None
        files[file.kind].append(file)
    if len(files["ballots"]) == 2:
        files["ballots"], files["counted"] = told_apart(files["ballots"], files["session"])
    for kind, same in files.items():
        if len(same) > 1:
            raise told(f"{same[0].path} and {same[1].path} are both of one kind ({KINDS[kind]}); give one of them{OR_COUNTED * (kind == 'ballots')}")
    return {kind: same[0] for kind, same in files.items() if same}


def cause_of(line):
    """The line that ./raire adds for a file that can't be read."""
    key = line.rstrip("\n").rpartition(": ")[2]
    cause = what_to_do.table.causes().get(key)
    return f"raire: {key}: {cause}. What to do: {what_to_do.PAGE}\n" if cause else ""


OR_COUNTED = ", or call the one that was counted in full “counted”"


def told_apart(two, sessions):
    """The records and the full count: a session has the digest of the records, or else the name of the full count says what it is."""
    recorded = [digest_in(file.data) for file in sessions]
    for counted in ([file for file in two if recorded and file.digest not in recorded], [file for file in two if "counted" in file.name]):
        if len(counted) == 1:
            counted[0].kind, counted[0].what = "counted", KINDS["counted"]
            return [file for file in two if file not in counted], counted
    return two, []


def digest_in(data):
    """The digest of the records in a session."""
    try:
        return json.loads(data)["ballots"].lower()
    except (ValueError, TypeError, KeyError, AttributeError, RecursionError):
        return None


def contests_of(data):
    """The candidates of each contest, from the head of a ballot file that the program has read."""
    head = itertools.islice(plain_audit.numbered(data), MOST_CONTESTS + 1)
    return {name: ids for name, (ids, _) in plain_audit.contest_records(list(head)).items()}


class Cards:
    """The cards of a manifest, or everything that can be the id of a card if no manifest is given."""

    def __init__(self, manifest):
        self.manifest = manifest

    def place(self, card):
        batch, _, number = card.rpartition("_")
        if not re.fullmatch("[1-9][0-9]{0,9}", number) or int(number) > MOST_BATCH_CARDS:
            return None
        if self.manifest:
            return self.manifest.place(card)
        return card if plain.is_id(batch) and len(batch) <= MOST_BATCH_BYTES else None


def seen_of(data, manifest, ids):
    """What was seen on each card, by as many of the rules as can be judged. Without a list of candidates, each id may be one."""
    if ids is None:
        ids = {field for row in plain_audit.numbered(data) for field in row[2:] if plain.is_id(field)}
    return plain_audit.seen_of(data, Cards(manifest), sorted(ids) if isinstance(ids, set) else ids)


class Scratch:
    """A file for the page's own use, which is removed at the end of a `with`."""

    def __init__(self, name):
        self.folder = tempfile.TemporaryDirectory()
        self.path = os.path.join(self.folder.name, name)

    def __enter__(self):
        return self

    def write(self, text):
        with open(self.path, "w") as file:
            file.write(text)

    def __exit__(self, *_):
        self.folder.cleanup()
