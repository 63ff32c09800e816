"""The state of an audit, for the top of a page. A mark and a frame show it too, for those who don't see colors or don't read words."""
import audit
import county
import polled
import term_notes
from limits import GREATEST_GAMMA, MOST_DRAWS
from texts import millionths, plural

MARKS = {"unaudited": "○", "open": "◐", "unsigned": "✗", "said": "?", "signed": "✓", "against": "▲", "counted": "■", "part": "◪", "unusual": "!"}
USUAL_GAMMAS = range(50, 201)
ANY_GAMMA = range(1, GREATEST_GAMMA + 1)  # for a poll: the best one depends on how close its assertions are


def told(kind, head, text):
    return {"kind": kind, "mark": MARKS[kind], "head": head, "text": text}


def states(parts):
    """What is at the top: whether there is an audit and how far it is, what speaks against it, and what is unusual about its terms."""
    session, counted = parts["session"], parts["counted"]
    if parts["poll"]:
        return of_poll(parts["poll"], parts["assertions"]["winner"])
    found = [of_count(counted, parts["tabulation"] or parts["firsts"], parts["manifest"])] if counted else []
    if not session:
        return found or [of_no_session(parts)]
    found.append(of_session(parts, session, counted))
    above = sum(claim["is_above"] for claim in audit.state(session))
    if session["signed_off"] and above:
        text = f"the risk of {plural(above, 'assertion')} is now above the limit of {millionths(session['limit'])}."
        found.append(told("against", "LATER DRAWS SPEAK AGAINST IT:", text))
    return found + unusual(session)


def of_no_session(parts):
    if not (parts["assertions"] or parts["contest"]):
        return told("unaudited", "NOT AUDITED:", "no session is given.")
    if parts["seen_file"]:
        return told("unaudited", "NOT AUDITED:", "no session is given, so what was read from paper counts in no audit here.")
    return told("unaudited", "NOT AUDITED: records only.", "No paper has been looked at for this page.")


def of_count(counted, recorded, manifest):
    """What a full count says, whether the records say the same, and whether each card has a ballot in the count."""
    kind, head, more = wholeness(counted["records"], manifest["cards"] if manifest else None, recorded.get("records"))
    if "winner" not in counted:
        return told(kind, head, f"{counted['file']} leaves open who wins.")
    text = f"{counted['winner']} wins by {plural(counted['records'], 'ballot')} of {counted['file']}."
    if "winner" in recorded and recorded["winner"] != counted["winner"]:
        text += f" The records elect {recorded['winner']}: they are wrong, or the count is."
    return told(kind, head, f"{text} {more}")


def wholeness(ballots, cards, records):
    """Whether a count has a ballot for each card of the manifest, or for each record if there is no manifest."""
    all_of, what = (cards, "CARDS") if cards is not None else (ballots if records is None else records, "RECORDS")
    if ballots < all_of:
        more = "This isn’t a full count until each of them is accounted for: a card that doesn’t have the contest, or one that can’t be found."
        have = "HAS" if all_of - ballots == 1 else "HAVE"
        return "part", f"COUNTED, BUT {all_of - ballots:,} OF {all_of:,} {what} {have} NO BALLOT IN IT:", more
    if ballots > all_of:
        return "part", f"COUNTED, WITH {ballots:,} BALLOTS FOR {all_of:,} {what}:", "Some ballots belong to no card: find out which."
    return "counted", "COUNTED IN FULL:", "Only those who watched the count can say whether these are all ballots."


def of_poll(poll, winner):
    """Whether a poll confirms the winner. A poll that doesn't says nothing about who won."""
    if "claims" not in poll:
        return [not_polled(poll)]
    limit, draws, claims = millionths(poll["limit"]), plural(poll["draws"], "draw"), poll["claims"]
    above = sum(not claim["is_confirmed"] for claim in claims)
    missing = f"{above} of {plural(len(claims), 'assertion')} {'is' if above == 1 else 'are'} above the limit of {limit}. This says nothing about who won."
    if poll["status"] == 0 and poll["is_each"]:
        each = f"each assertion had a risk of at most {limit} after one of the draws, which were looked at one by one"
        text = f"The poll confirms {winner} as the winner: {each}."
        state = told("signed", f"CONFIRMED BY A POLL by draw {polled.last_draw(poll):,}.", text)
    elif poll["status"] == 0:
        text = f"The poll confirms {winner} as the winner: each assertion has a risk of at most {limit} by the drawn cards."
        state = told("signed", f"CONFIRMED BY A POLL after {draws}.", text)
    elif poll["draws"] >= MOST_DRAWS or len(audit.draws_by_card(poll, poll["draws"])) == poll["cards"]:
        state = told("unsigned", "NOT CONFIRMED BY A POLL, and no cards left:", f"{missing} Count in full.")
    else:
        state = told("open", f"OPEN: not confirmed by a poll after {draws}:", f"{missing} Draw further cards with the same seed, or count in full.")
    return [state, *unusual(poll, [poll["gamma"]] if poll["is_each"] else ANY_GAMMA)]


def of_county(all_of):
    """How many contests are signed off, and what is unusual about their terms."""
    return [told(*county.state_in_words(all_of)), *unusual(all_of.terms)]


def not_polled(poll):
    """Why nothing was polled. The program first finds out whether the assertions prove the winner."""
    shown = ", ".join(poll["shown"])
    if poll["status"] == 6:
        return told("unsigned", "NOT POLLED:", f"the assertions don’t prove the winner of their file ({shown}).")
    return told("unaudited", "NOT POLLED:", f"the budget ended before it was known whether the assertions prove the winner of their file ({shown}).")


def of_session(parts, session, counted):
    limit, claims = millionths(session["limit"]), audit.state(session)
    open_claims = sum(claim["confirmed"] is None for claim in claims)
    above = f"{open_claims} of {plural(len(claims), 'assertion')} {'is' if open_claims == 1 else 'are'}"
    if session["signed_off"]:
        number = audit.signed_round(session)
        head = f"SIGNED OFF in round {number}, after {plural(session['rounds'][number - 1]['draws'], 'draw')}"
        text = f"Each assertion had a risk of at most {limit} at the end of a round. "
        if parts["is_replayed"]:
            return told("signed", f"{head}.", f"{text}The program ran the whole audit again, and ended with the same bytes. {TERMS_FIRST}")
        return told("said", f"{head}, so the session says.", f"{text}{WANTED if parts['is_replayed'] is None else OTHERWISE} {TERMS_FIRST}")
    if not session["rounds"]:
        return told("open", "OPEN: no card was drawn yet.", f"{above} to be confirmed, at a risk of at most {limit} each.")
    draws, rounds = session["rounds"][-1]["draws"], plural(len(session["rounds"]), "round")
    missing = f"{above} still above the limit of {limit}."
    by_whom = "" if parts["is_replayed"] else f" So the session says. {WANTED if parts['is_replayed'] is None else OTHERWISE}"
    if counted:
        return told("unsigned", f"NOT SIGNED OFF after {plural(draws, 'draw')} in {rounds}:", f"{missing}{by_whom}")
    if draws >= MOST_DRAWS or len(audit.draws_by_card(session, draws)) == session["cards"]:
        return told("unsigned", "NOT SIGNED OFF, and no cards left:", f"{missing} Count in full.{by_whom}")
    return told("open", f"OPEN: not signed off after {plural(draws, 'draw')} in {rounds}:", f"{missing} Draw further cards, or count in full.{by_whom}")


TERMS_FIRST = "This holds only if the terms were published before the seed was drawn, and if there was one seed."
WANTED = "Give all its files, and what was read from the cards, to have the program run the audit again."
OTHERWISE = "The program ran the whole audit again, and ended with other bytes."


def unusual(session, gammas=USUAL_GAMMAS):
    """Terms that few audits have. People who see them should ask for the reason."""
    found = []
    if not term_notes.is_usual(session["limit"]):
        side, bound = ("above", term_notes.MOST_USUAL_LIMIT) if session["limit"] > term_notes.MOST_USUAL_LIMIT else ("below", term_notes.LEAST_USUAL_LIMIT)
        found.append(f"a risk limit of {term_notes.percent(session['limit'])} percent, which is {side} {term_notes.percent(bound)}")
    if session["gamma"] not in gammas:
        found.append(f"a gamma of {session['gamma']} thousandths, which is outside {gammas[0]} to {gammas[-1]}")
    return [told("unusual", "UNUSUAL TERMS:", ", and ".join(found) + ".")] if found else []
