"""Numbers in words."""
DIGITS = str.maketrans("0123456789", "⁰¹²³⁴⁵⁶⁷⁸⁹")
MOST_IN_FULL = 10**12


def superscript(number):
    return str(number).translate(DIGITS)


def shown(number):
    """A number with commas; a very large one by its power of ten."""
    if number < MOST_IN_FULL:
        return f"{number:,}"
    power = len(str(number)) - 1
    return f"about {number / 10**power:.1f} · 10{superscript(power)}"


def plural(number, one, more=None):
    return f"{shown(number)} {one if number == 1 else more or one + 's'}"


def ordinal(place):
    ending = "th" if place % 100 in (11, 12, 13) else {1: "st", 2: "nd", 3: "rd"}.get(place % 10, "th")
    return f"{place}{ending}"


def millionths(number):
    return f"{number / 10**6:.6f}".rstrip("0").rstrip(".")


def listed(words):
    """Words with commas, and "and" before the last."""
    return " and ".join(filter(None, [", ".join(words[:-1]), *words[-1:]]))
