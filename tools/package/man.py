"""Makes man pages from the pages that ./raire help prints."""
import re

SUITE = "RAIRE audit suite"


def in_roff(text):
    """A line in which every character is shown as it is."""
    text = text.replace("\\", "\\e").replace("-", "\\-").replace("'", "\\(aq").replace("`", "\\(ga").replace("^", "\\(ha").replace("~", "\\(ti")
    return f"\\&{text}" if text.startswith((".", "\\(aq")) else text


def as_it_stands(text):
    return [".nf", *map(in_roff, text.splitlines()), ".fi"]


def listed(pages):
    """What each command is about, from the list of commands on the first page. Commands that share a line or refer to the line above are omitted."""
    found, name = {}, ""
    for line in pages["raire"].partition("\n\n")[2].partition("\n\n")[0].splitlines():
        words, about = re.fullmatch(r"  (\S+(?: \S+)*)? *(.*)", line).groups()
        name = words.split()[0] if words else name
        if about and "," not in name and "such " not in about:
            found.setdefault(name, about.partition(": ./raire")[0])
    return found


def first_sentence(text):
    return re.split(r"(?<=[a-z)])[.:](?:\s|$)", " ".join(text.split()))[0]


def page(name, pages, version, date):
    """The man page `raire` or `raire-NAME`, from the help page with that name. In it, the command is typed without a folder."""
    text = pages[name].replace("./raire", "raire")
    head, _, body = text.partition("\n\n")
    title = "raire" if name == "raire" else f"raire-{name}"
    about = "audits contests of instant-runoff voting" if name == "raire" else listed(pages).get(name) or first_sentence(body)
    see = ".BR raire (1)" if name != "raire" else "Each command has a page of its own, such as\n.BR raire\\-search (1)."
    lines = [
        f'.TH {title.upper()} 1 "{date}" "raire {version}" "{SUITE}"', ".SH NAME", f"{in_roff(title)} \\- {in_roff(about)}",
        ".SH SYNOPSIS", *as_it_stands(head), ".SH DESCRIPTION", *as_it_stands(body), ".SH SEE ALSO", see,
    ]
    return "\n".join(lines) + "\n"
