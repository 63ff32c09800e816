"""The rounds of a tabulation, from the program's answer."""

LONGEST_BESIDE = 12  # letters of a name that fits next to its bar; if one is longer, all names are put above their bars


def parsed(line, label, remaining):
    """The votes of the remaining candidates and the exhausted ballots in a line. Ids may have blanks and equals signs."""
    rest, votes = line[len(label):], {}
    for c in remaining:
        number, _, rest = rest[len(f" {c}="):].partition(" ")
        votes[c] = int(number)
        rest = " " + rest
    return votes, int(rest[len(" exhausted="):])


def tie_of(text, names):
    """The first of the ties that leave the winner open: its round, who shares the fewest votes, and the number of these votes."""
    _, number, tied, tally = text.splitlines()
    return {
        "number": int(number[len("round "):]), "tied": [names.of(c) for c in tied[len("tied "):].split(",")], "votes": int(tally[len("tally "):]),
    }


def rounds_of(text, ids, names):
    """Each round with everyone's votes, how many of them are new, who shares the fewest, and where the votes of the eliminated candidate go next."""
    lines = text.splitlines()
    records, lines, remaining, rounds = int(lines[1][len("records "):]), lines[2:], list(ids), []
    for number in range(1, len(ids)):
        votes, exhausted = parsed(lines.pop(0), f"round {number}:", remaining)
        tied = lines.pop(0)[len("tied "):].split(",") if lines[0].startswith("tied ") else []
        gone = lines.pop(0)[len("eliminated "):]
        rounds.append({
            "number": number, "votes": {names.of(c): n for c, n in votes.items()}, "exhausted": exhausted, "gone": names.of(gone),
            "tied": [names.of(c) for c in tied],
        })
        remaining.remove(gone)
    for earlier, later in zip(rounds, rounds[1:]):
        later["gained"] = {c: later["votes"][c] - earlier["votes"][c] for c in later["votes"]}
        earlier["passed"] = {c: n for c, n in later["gained"].items() if n}
        earlier["spent"] = later["exhausted"] - earlier["exhausted"]
        later["from"] = earlier["gone"]
    rounds[0]["gained"] = dict.fromkeys(rounds[0]["votes"], 0)
    return {"records": records, "rounds": rounds, "winner": names.of(remaining[0])}


def scale_of(rounds):
    """One scale for all bars of a page: the largest number of votes, the length of the longest numbers next to the bars, and whether names are long."""
    shown = [
        (votes, f"{votes:,}", f" +{each['gained'][c]:,}" if each["gained"][c] else "")
        for each in rounds for c, votes in each["votes"].items()
    ]
    return {
        "most": max(1, *(votes for votes, _, _ in shown)), "votes": 1 + max(len(number + plus) for _, number, plus in shown),
        "number": 1 + max(max(len(number), len(plus)) for _, number, plus in shown),
        "is_long": any(len(c) > LONGEST_BESIDE for each in rounds for c in each["votes"]),
    }
