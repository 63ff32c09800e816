"""A state for tests: counties whose contests, cards and readings are the same at every run."""
import os

import places  # noqa: F401
import plain_audit
from draws import Draws

SEED = "2026-11-03 dice 5 1 4 4 2 6 3 1 2 2 6 5"
LOOKS = (30, 60)
AUDITS = ("contests", "contests", "session", "none")
MOST, BATCH = 20, 100  # candidates; cards


def contest_of(draws, name, cards):
    """A contest's name, its candidates, and the ranking on each card that has it. One contest in eight is a landslide over many small candidates; some tie."""
    n = 2 + draws.below(MOST - 1)
    ids = [f"{11 + c}" for c in range(n)]
    kind = draws.below(8)
    ranked = {}
    for card in cards:
        if kind == 0:
            first = 0 if draws.below(10) < 7 else 1 + draws.below(n - 1)
            rest = [draws.below(n) for _ in range(draws.below(3))]
        else:
            first = draws.below(n) * draws.below(n) // n
            rest = [draws.below(n) * (1 + draws.below(n)) // n for _ in range(draws.below(4))]
        ranked[card] = [ids[c] for c in dict.fromkeys([first, *rest])]
    if draws.below(40) == 0:
        ranked = {card: ids[at % 2:at % 2 + 1] for at, card in enumerate(cards[:len(cards) // 2 * 2])}
    return name, ids, ranked


def write(folder, name, lines):
    os.makedirs(folder, exist_ok=True)
    with open(os.path.join(folder, name), "w") as file:
        file.writelines(f"{line}\n" for line in lines)


def seen_of(draws, cards, ids, ranked, drawn):
    """What was read on the first cards that were drawn: now and then one is missing or read otherwise."""
    for card in dict.fromkeys(cards[at - 1] for at in drawn):
        chance = draws.below(200)
        if chance == 0:
            yield card, ["missing"]
        else:
            yield card, ["ballot", *(ids[:1] if chance == 1 and card in ranked else ranked.get(card, []))]


def write_county(folder, draws, count, audit):
    cards = [f"P{1 + at // BATCH}_{1 + at % BATCH}" for at in range(150 + draws.below(450))]
    names = [f"Council ward {at}" if at % 3 == 2 else f"{100 + at}" for at in range(count)]
    contests = [contest_of(draws, name, cards[draws.below(40):]) for name in names]
    heads = [f"Contest,{name},{len(ids)},{','.join(ids)}" for name, ids, _ in contests]
    write(folder, "ballots.raire", [len(contests), *heads, *(",".join([name, card, *ranked[card]]) for name, _, ranked in contests for card in ranked)])
    sizes = [min(BATCH, len(cards) - at) for at in range(0, len(cards), BATCH)]
    write(folder, "manifest.csv", ["batch,cards", *(f"P{at},{size}" for at, size in enumerate(sizes, 1))])
    drawn = [plain_audit.drawn(SEED, draw, len(cards)) for draw in range(1, LOOKS[-1] + 1)]
    seen = {name: dict(seen_of(draws, cards, ids, ranked, drawn)) for name, ids, ranked in contests}
    for look, file in zip(LOOKS, (f"seen_{LOOKS[0]}.csv", "seen.csv")):
        first = dict.fromkeys(cards[at - 1] for at in drawn[:look])
        if audit == "contests":
            write(folder, file, [",".join([card, name, *seen[name][card]]) for card in first for name in names])
        for name in names if audit == "session" else []:
            write(os.path.join(folder, name.replace(" ", "+")), file, [",".join([card, *seen[name][card]]) for card in first])


def write_state(folder, contests, counties, first=0, audits=AUDITS):
    """Writes contests in counties, with a table of terms. `first` is the number of the first county."""
    rows = ["county,contest,audit,limit,gamma,seed,draws,trim", f"*,,none,,,{SEED},{' '.join(map(str, LOOKS))},"]
    for at in range(counties):
        name, audit = f"county {at + 1:03d}", audits[at % len(audits)]
        write_county(os.path.join(folder, "counties", name), Draws(7_000 + first + at), contests * (at + 1) // counties - contests * at // counties, audit)
        rows.append(f"{name},,{audit},,,,,{'yes' if at % 3 == 0 else ''}")
    write(folder, "terms.csv", rows)
