"""Reads the words of a command line by the first lines of each page of docs/help: what they ask for, or which of them is wrong."""
import os
import re
from typing import NamedTuple

from near import is_id, meant
from records import quoted
from table import DOCS

TOOLS = os.path.join(os.path.dirname(DOCS), "tools")


class Wrong(Exception):
    """The words aren't a command line. The text says which of them is wrong."""


class Option(NamedTuple):
    has_to_be_given: bool
    low: int
    high: int
    stands_with: str  # the option without which this one can't be given, or an empty text
    in_place_of: str  # the option together with which it can't be given, or an empty text
    words: tuple = ()  # the words that it takes instead of a number
    is_flag: bool = False  # it has no value


class Form(NamedTuple):
    files: list
    options: dict


class Call(NamedTuple):
    command: str
    files: dict  # the names of the files by what the help calls them, such as BALLOTS
    options: dict


def pages():
    """The name, the first lines and the text of each page, except the one about all commands."""
    for page in sorted(os.listdir(os.path.join(DOCS, "help"))):
        if page != "raire.txt":
            with open(os.path.join(DOCS, "help", page), encoding="utf-8") as file:
                text = file.read()
            yield page.removesuffix(".txt"), text.partition("\n\n")[0].splitlines(), text


def forms():
    """The forms of each command's lines, usually one: the files and options."""
    found = {}
    for name, heads, text in pages():
        for head in heads:
            if head.startswith("./raire ") and name not in tools():
                files = re.findall("[A-Z]+", re.sub(r"--\w+ [A-Z]+", "", head))
                found.setdefault(name, []).append(Form(files, dict(options_of(head, text))))
    return found


def tools():
    """The names that have a page but aren't commands of the program: ./raire runs them from tools/."""
    return [name for name, _, _ in pages() if os.path.exists(os.path.join(TOOLS, name))]


def options_of(head, text):
    for may_be, name, value in re.findall(r"(\[|\| )?--(\w+)((?: [A-Z]+(?:\|[a-z]+)*)?)", head):
        found = re.search(rf"^  --{name} .*\n(?: {{8,}}.*\n)*", text, re.MULTILINE)
        told = found[0] if found else ""
        span = re.search("([0-9]+) to ([0-9]+)", told)
        low, high = map(int, span.groups()) if span else (1, 64)
        wider = re.search(r"with --(\w+) to ([0-9]+)", told)
        if wider and f"--{wider[1]} " in head:
            high = int(wider[2])
        others = [re.search(rf"{words} --(\w+)", told) for words in ("only with", "in place of")]
        yield name, Option(not may_be, low, high, *(other[1] if other else "" for other in others), tuple(value.split("|")[1:]), not value)


def is_value(name, option, text):
    if text in option.words:
        return True
    if name == "contest":
        return is_id(text)
    if name == "seed":
        return option.low <= len(text) <= option.high and all(" " <= c <= "~" for c in text)
    return re.fullmatch("[0-9]{1,10}", text) is not None and option.low <= int(text) <= option.high


def call_of(words):
    """What the words ask for. The first word that is wrong is reported."""
    commands = forms()
    if not words or words[0] not in commands:
        told = quoted(words[0]) if words else "nothing"
        raise Wrong(f"{told} isn't a command; " + meant(words[0] if words else "", [*commands, *tools()], "the commands are " + ", ".join(commands)))
    wrong = []
    for form in sorted(commands[words[0]], key=lambda form: likeness(form, words[1:]), reverse=True):
        try:
            return call_by(form, words[0], words[1:])
        except Wrong as told:
            wrong.append(told)
    for flag, found in flags(commands[words[0]]):
        if is_line(found, words[0], [*words[1:], f"--{flag}"]):
            others = [form for form in commands[words[0]] if flag not in form.options]
            only = [name for name in given(words) if name in found.options and not any(name in form.options for form in others)]
            raise Wrong(f"--{only[0]} is an option of {words[0]} only with --{flag}" if only else f"{wrong[0]}; a line with --{flag} may have it")
    raise wrong[0]


def given(words):
    """The names of the options among the words."""
    return [word[2:].partition("=")[0] for word in words if word.startswith("--")]


def flags(forms_of_command):
    """The options without a value, each with the form that has it."""
    return [(name, form) for form in forms_of_command for name, option in form.options.items() if option.is_flag]


def is_line(form, command, words):
    try:
        return bool(call_by(form, command, words))
    except Wrong:
        return False


def likeness(form, words):
    """How similar the words are to a line of this form: whether they have its flag, how many of its options they name, then how close they come to its
    number of files."""
    named = [word[2:].partition("=") for word in words if word.startswith("--")]
    files = sum(not word.startswith("-") for word in words) - sum(not equals for _, equals, _ in named)
    flagged = any(name in form.options and form.options[name].is_flag for name, _, _ in named)
    return flagged, sum(name in form.options for name, _, _ in named), -abs(files - len(form.files))


def call_by(form, command, words):
    """What the words ask for, if they have this form of the command's line."""
    files, options = [], {}
    rest = list(words)
    while rest:
        word = rest.pop(0)
        if word == "--":
            files, rest = files + rest, []
        elif word.startswith("-"):
            name, text = option_in(word, rest, command, form)
            if name in options:
                raise Wrong(f"--{name} is given twice")
            options[name] = text
        else:
            files.append(word)
    judge_files(files, command, form, options)
    for name, option in form.options.items():
        if option.has_to_be_given and name not in options:
            raise Wrong(f"{command} needs --{name}")
        if name in options and option.stands_with not in ("", *options):
            raise Wrong(f"{command} takes --{name} only together with --{option.stands_with}")
        if name in options and option.in_place_of in options:
            raise Wrong(f"--{name} takes the place of --{option.in_place_of}, and both are given")
    return Call(command, dict(zip(form.files, files)), options)


def option_in(word, rest, command, form):
    """The option in this word and its value, which may be the next word."""
    name, has_value, text = word[2:].partition("=")
    if word in ("--help", "-h"):
        raise Wrong(f"{quoted(word)} isn't an option of {command}; its page: ./raire help {command}")
    if word == "-":
        raise Wrong('"-" isn\'t a file; standard input is the file /dev/stdin')
    if not word.startswith("--") or name not in form.options:
        for flag in (other for other, option in form.options.items() if option.is_flag):
            if word.startswith("--") and any(name in other.options for other in forms()[command]):
                raise Wrong(f"--{name} isn't an option of a line with --{flag}")
        if word.startswith("--") and (other := next((one for one in forms()[command] if name in one.options), None)):
            raise Wrong(f"--{name} is an option of {command} only with {told_flags(other) or told_files(other)}")
        bare = name.strip("-")
        every = list(dict.fromkeys([*form.options, *(other for one in forms()[command] for other in one.options)]))
        all_told = "its options are " + ", ".join(f"--{other}" for other in every) if every else "it has no options"
        told = f'the closest match is "--{bare}"' if bare in form.options else meant(bare, every, all_told, "--")
        file = f"; the file of this name is {quoted(f'./{word}')}" if os.path.exists(word) else ""
        raise Wrong(f"{quoted(word)} isn't an option of {command}; {told}{file}")
    option = form.options[name]
    if option.is_flag:
        if has_value:
            raise Wrong(f"--{name} takes no value")
        return name, ""
    if not has_value:
        if not rest or rest[0].startswith("-"):
            raise Wrong(f"--{name} has no value" + (f"; {quoted(rest[0])} begins with -, so write it after --{name}=" if rest else ""))
        text = rest.pop(0)
    if not is_value(name, option, text):
        span = {"contest": "an id", "seed": f"{option.low} to {option.high} characters from space to ~",
                "limit": f"{option.low} to {option.high} millionths, such as 50000 for 5 percent", "gamma": f"{option.low} to {option.high} thousandths"}
        told = " or ".join([span.get(name, f"{option.low} to {option.high}"), *option.words])
        raise Wrong(f"{quoted(text)} isn't a value of --{name}, which is {told}")
    return name, text


def judge_files(files, command, form, options):
    if "" in files:
        raise Wrong("a file has no name")
    if len(files) > len(form.files):
        more = files[len(form.files)]
        quotes = '; a seed of several words needs quotes, as in --seed "2 6 1 4"' if "seed" in options else ""
        quotes += "".join(f"; a name with blanks needs quotes: {quoted(name)}" for name in split_names(files)[:1])
        raise Wrong(f"{quoted(more)} is one word too many: {command} takes {told_files(form)}{quotes}")
    if len(files) < len(form.files):
        few = f"{len(files)} of these {'is' if len(files) == 1 else 'are'}" if files else "none of these is"
        raise Wrong(f"{command} takes {told_files(form)}, and {few} here")


def split_names(files):
    """The files whose names are two consecutive words with a blank between them."""
    return [name for name in map(" ".join, zip(files, files[1:])) if os.path.exists(name)]


def told_files(form):
    return " ".join(form.files) or "no file"


def told_flags(form):
    """The options of the form that have no value."""
    return " ".join(f"--{name}" for name, option in form.options.items() if option.is_flag)
