"""Names that look alike to people: they differ only in case, in blanks, and in the form of their letters."""
import unicodedata

HOW = "look alike (case, blanks and letter forms don't count)"


def folded(name):
    """The form of a name that is the same for all names that look like it."""
    return "".join(unicodedata.normalize("NFKC", unicodedata.normalize("NFKC", name).casefold()).split())


def told_apart(named):
    """The names from pairs of an id and a name. A name that looks like another one is followed by its id, or by its number if the ids look alike too."""
    names = [name for _, name in named]
    for behind in ([each for each, _ in named], [f"candidate {number}" for number in range(1, len(named) + 1)]):
        looks = [folded(name) for name in names]
        names = [f"{name} ({more})" if looks.count(look) > 1 else name for name, look, more in zip(names, looks, behind)]
    return names
