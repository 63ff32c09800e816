"""Clean draws: those that an assertion file gives if it has a plan, and those that a plan works out for the cards of a manifest."""
from texts import listed, millionths, plural

TERMS = ("cards", "limit", "gamma")
DEFAULTS = {"limit": 50_000, "gamma": 100}  # of a plan without options


def said_by(file):
    """The draws that an assertion file gives, with the terms that they are for; None if it has no plan. In version 1, these members are ignored."""
    if file["version"] == 1 or "cards" not in file:
        return None
    return {**{name: file[name] for name in TERMS}, "draws": [claim["draws"] for claim in file["assertions"]]}


def planned(text, terms):
    """The draws in the lines of a plan, without the last line, which is about all assertions."""
    told = [line.rpartition(": ")[2] for line in text.splitlines()[:-1]]
    return {**terms, "draws": [None if each == "full count" else int(each.removesuffix(" draws")) for each in told]}


def in_words(draws):
    return "a full count" if draws is None else plural(draws, "draw")


def of_all(draws):
    """The number of draws that is enough for all of them, in words."""
    return in_words(None if None in draws else max(draws, default=0))


def terms_in_words(terms):
    return f"{plural(terms['cards'], 'card')}, a risk limit of {millionths(terms['limit'])} and a gamma of {terms['gamma']} thousandths"


def other_terms(said, terms, whose):
    """A sentence about the terms of the file that differ from the known terms; None if no term differs."""
    names = [name for name in TERMS if name in terms and said[name] != terms[name]]
    words = {"cards": lambda each: plural(each["cards"], "card"), "limit": lambda each: f"a risk limit of {millionths(each['limit'])}",
             "gamma": lambda each: f"a gamma of {each['gamma']} thousandths"}
    if not names:
        return None
    return f"for {listed([words[name](said) for name in names])}; {whose} has {listed([words[name](terms) for name in names])}"


def first_difference(said, plan):
    """The first assertion whose draws aren't those of a plan with the same terms, in words."""
    pairs = zip(said["draws"], plan["draws"])
    return next((f"assertion {j} has {in_words(had)}, and needs {in_words(needed)}" for j, (had, needed) in enumerate(pairs, 1) if had != needed), None)


def shown(said, plan, known, whose):
    """The numbers next to the assertions: those of the plan if there is one, and also those of the file if they differ."""
    if not (said or plan):
        return None
    other = said and other_terms(said, known, whose)
    differs = said and plan and not other and first_difference(said, plan)
    first = plan or said
    return {
        "is_said": not plan, "has_none": None in first["draws"], "all": of_all(first["draws"]), "terms": terms_in_words(first),
        "first": [in_words(each) for each in first["draws"]], "other": other, "differs": differs, "is_same": bool(said and plan and not other and not differs),
        "second": [in_words(each) for each in said["draws"]] if plan and (other or differs) else None, "second_terms": terms_in_words(said) if said else None,
    }
