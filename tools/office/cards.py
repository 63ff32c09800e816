"""Lists the cards to fetch for the draws of a seed, or all cards: as a table, a page with slips, a sheet to fill in, or a page to type readings into."""
import collections
import hashlib
import json
import os
import re
import shlex

import called
import records
import term_notes
from ask import ask, read, Refusal, TOP
from words import see_output, Words

NAME = "cards"
FORMS = ("page", "sheet", "entry")
PAGES = os.path.join(TOP, "tools", "office")
MOST_ON_A_PAGE = 5_000
MOST_RANKS = 1_000
WRITE_IN = "write-in"  # in a file of marks: a write-in who isn't a candidate

Card = collections.namedtuple("Card", "id batch number draws place")


def told(text):
    return Refusal(1, f"{NAME}: {text}\n")


def words_of(words):
    parser = Words(NAME)
    parser.add_argument("manifest")
    parser.option("--seed", "--draws", "--after", "--batch", "--places", "--ballots", "--contest", "--names", "--ranks")
    for form in (*FORMS, "all", "marks"):
        parser.add_argument(f"--{form}", action="store_true")
    given = parser.parse_args(words)
    see_draws(parser, given)
    if sum(getattr(given, form) for form in FORMS) > 1:
        parser.error("give only one of --page, --sheet and --entry")
    if given.entry != (given.ballots is not None or given.names is not None):
        parser.error("--entry needs the candidates: --ballots or --names" if given.entry else "--ballots and --names are for --entry")
    for name in ("contest", "ranks", "marks"):
        if getattr(given, name) and not given.entry:
            parser.error(f"--{name} is for --entry")
    if given.ranks is not None and not (re.fullmatch("[0-9]{1,4}", given.ranks) and 1 <= int(given.ranks) <= MOST_RANKS):
        parser.error(f"--ranks needs a number from 1 to {MOST_RANKS}")
    return given


def see_draws(parser, given):
    """Checks that the words ask either for the cards of a seed's draws or for all cards."""
    if given.all:
        for name in ("seed", "draws", "after"):
            if getattr(given, name) is not None:
                parser.error(f"--all takes all cards: no --{name}")
        return
    missing = [f"--{name}" for name in ("seed", "draws") if getattr(given, name) is None]
    if missing:
        parser.error(f"the following arguments are required: {', '.join(missing)} (or --all)")
    if given.batch is not None:
        parser.error("--batch is for --all")


# ---- what is drawn

def drawn(given):
    """The draws of each card, by the card's number, as the program prints them."""
    lines = ask(NAME, "sample", [given.manifest], f"--seed={given.seed}", f"--draws={given.draws}")
    draws = {}
    for _, (draw, number, card) in records.rows_of(lines.encode()):
        draws.setdefault((int(number), card), []).append(int(draw))
    return draws


def before(given):
    """The number of draws whose cards were fetched before."""
    if given.all:
        return 0
    draws, text = int(given.draws), "0" if given.after is None else given.after
    if not (text.isascii() and text.isdigit() and int(text) < draws):
        raise told(f"--after needs fewer draws than --draws, which are {draws}")
    return int(text)


def fetched(given):
    """The cards that no earlier draw took, by batch and then by number, and those that are drawn again."""
    if given.all:
        return all_cards(given), []
    draws = drawn(given)
    after, places = before(given), places_of(given)
    cards, again = [], []
    for (_, card), of_card in sorted(draws.items()):
        batch, number = records.batch_of(card)
        if of_card[0] > after:
            cards.append(Card(card, batch, number, of_card, place_of(places, batch, given)))
        elif of_card[-1] > after:
            again.append(card)
    return cards, again


def all_cards(given):
    """All cards of the manifest, or of the batches that are named, in any order."""
    ask(NAME, "sample", [given.manifest], "--seed=1", "--draws=1")
    sizes, places = records.batches_of(read(NAME, given.manifest)), places_of(given)
    named = sizes if given.batch is None else dict.fromkeys(batch.strip() for batch in given.batch.split(","))
    for batch in named:
        if batch not in sizes:
            raise Refusal(2, f"{NAME}: --batch names {batch or 'nothing'}, and {given.manifest} has no such batch\n")
    place = {batch: place_of(places, batch, given) for batch in named}
    return [Card(f"{batch}_{k}", batch, k, [], place[batch]) for batch in sizes if batch in named for k in range(1, sizes[batch] + 1)]


def places_of(given):
    """Where each batch is kept, from a file with a record for each batch."""
    if given.places is None:
        return None
    batches = records.batches_of(read(NAME, given.manifest))
    places = {}
    for at, row in records.rows_of(read(NAME, given.places)):
        if at == 1 and row == ["batch", "place"]:
            continue
        if len(row) != 2 or not all(row):
            raise broken(given.places, at, "isn't a batch with its place")
        if row[0] not in batches:
            raise broken(given.places, at, f"is about {row[0]}, and {given.manifest} has no such batch")
        if row[0] in places:
            raise broken(given.places, at, f"repeats {row[0]}")
        places[row[0]] = row[1]
    return places


def place_of(places, batch, given):
    if places is not None and batch not in places:
        raise Refusal(2, f"{NAME}: {given.places}: no place for batch {batch}, which has a listed card\n")
    return None if places is None else places[batch]


def broken(path, at, what):
    return Refusal(2, f"{NAME}: {path}: record {at} {what}\n")


# ---- candidates

def names_of(given, contest, ids):
    """The names of candidates by their ids, and the name of the contest, from a file with a record each. A file with several contests gives those of the
    one that is meant. `ids` are those of the ballot file's candidates.
    """
    if given.names is None:
        return {}, contest
    try:
        found = called.Called(given.names, read(NAME, given.names))
        if found.has_contests and contest is None:
            if len(found.candidates) > 1:
                raise Refusal(2, f"{NAME}: {given.names} has several contests; name one with --contest\n")
            contest = next(iter(found.candidates), None)
        return found.of(contest, ids), contest and found.contest(contest)
    except called.BadNames as bad:
        raise Refusal(2, f"{NAME}: {bad}\n") from None


def candidates_of(given):
    """The name of the contest, if the file says it, and the ids of its candidates with their names."""
    contest = given.contest if given.ballots is None else contest_of(given)
    ids = None if given.ballots is None else records.contests_of(read(NAME, given.ballots))[contest]
    names, known_as = names_of(given, contest, ids or ())
    ids = names if ids is None else ids
    if not ids:
        raise Refusal(2, f"{NAME}: {given.names} has no candidates{'' if contest is None else f' of contest {contest}'}\n")
    shown = [{"id": each, "name": names.get(each, each)} for each in ids]
    if given.marks and WRITE_IN not in {each["name"].lower() for each in shown}:
        shown.append({"id": WRITE_IN, "name": "Write-in (no candidate)"})
    return known_as, shown


def contest_of(given):
    """The id of the contest that is meant. The program judges the file; a tie isn't a fault of the file."""
    options = [] if given.contest is None else [f"--contest={given.contest}"]
    try:
        ask(NAME, "tabulate", [given.ballots], *options)
    except Refusal as refusal:
        if refusal.status != 3:
            raise
    return given.contest or next(iter(records.contests_of(read(NAME, given.ballots))))


# ---- the forms

def table(given, cards):
    has_place = given.places is not None
    head = ["batch", "number", "card", "draws"] + ["place"] * has_place
    rows = [[card.batch, card.number, card.id, " ".join(map(str, card.draws))] + [card.place] * has_place for card in cards]
    return records.text_of([head, *rows])


def sheet(cards):
    return records.text_of([card.id, ""] for card in cards)


def by_batch(cards):
    """The cards of each batch."""
    found = {}
    for card in cards:
        found.setdefault(card.batch, []).append(card)
    return found


def filled(template, **parts):
    try:
        import jinja2
    except ImportError:
        raise told("templates are missing: apt-get install python3-jinja2") from None
    made = jinja2.Environment(loader=jinja2.FileSystemLoader(PAGES), autoescape=True, trim_blocks=True, lstrip_blocks=True)
    made.filters.update(plural=plural, with_blanks=term_notes.with_blanks, blanks_in=term_notes.blanks_in)
    return made.get_template(template).render(parts)


def plural(number, one, more=None):
    return f"{number:,} {one if number == 1 else more or one + 's'}"


def was(cards):
    return "was" if len(cards) == 1 else "were"


def page(given, cards, again):
    asked = None if given.all else shlex.join(["./raire", "sample", given.manifest, f"--seed={given.seed}", f"--draws={given.draws}"])
    digest = hashlib.sha256(read(NAME, given.manifest)).hexdigest()
    return filled(
        "cards.html.j2", given=given, after=before(given), cards=cards, batches=by_batch(cards), again=again, asked=asked, digest=digest,
    )


def entry(given, cards):
    if not cards:
        raise told(f"there is no card to read: {plural(before(given), 'draw')} took all of them")
    if len(cards) > MOST_ON_A_PAGE:
        raise told(f"{plural(len(cards), 'card')} are more than a page holds, which is {MOST_ON_A_PAGE:,}")
    contest, candidates = candidates_of(given)
    ranks = len(candidates) if given.ranks is None else int(given.ranks)
    data = {
        "contest": contest, "candidates": candidates, "cards": [card._asdict() for card in cards], "ranks": ranks, "has_marks": given.marks,
        "part": re.sub("[^A-Za-z0-9.-]", "_", given.batch or "") or f"after_{before(given)}" * bool(before(given)),
    }
    key = hashlib.sha256(json.dumps([data, given.seed, before(given)], sort_keys=True).encode()).hexdigest()  # each round is kept separate
    return filled("entry.html.j2", data={**data, "key": key}, called=contest, contest=contest, count=len(cards))


def account(given, cards, again):
    """The notes on standard error that go with the answer."""
    notes = [] if given.all or os.environ.get("RAIRE_QUIET") else [term_notes.seed_note(given.seed), term_notes.short_note(given.seed)]
    about_seed = "".join(f"{NAME}: {note}\n" for note in notes if note)
    if not before(given):
        return about_seed
    lines = [f"{plural(len(cards), 'card')} of draws {before(given) + 1} to {int(given.draws)} {was(cards)} not drawn before"]
    if again:
        as_seen = "counts again as it was seen" if len(again) == 1 else "count again as they were seen"
        lines.append(f"{plural(len(again), 'card')} {was(again)}, and {as_seen}: {', '.join(again)}")
    return about_seed + "".join(f"{NAME}: {line}\n" for line in lines)


def answer(words):
    given = words_of(words)
    see_output(NAME, filter(None, [given.manifest, given.places, given.ballots, given.names]))
    cards, again = fetched(given)
    forms = {"page": lambda: page(given, cards, again), "sheet": lambda: sheet(cards), "entry": lambda: entry(given, cards)}
    form = next((form for form in FORMS if getattr(given, form)), None)
    return forms[form]() if form else table(given, cards), account(given, cards, again)
