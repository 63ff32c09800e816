"""The words of an office command, and its two outputs."""
import argparse
import os
import sys

import share
import what_to_do
from ask import Refusal, TOP


class Once(argparse.Action):
    """An option that has a value and may be given once."""

    def __call__(self, parser, namespace, value, option=None):
        if getattr(namespace, self.dest) is not None:
            parser.error(f"{option} is given twice")
        setattr(namespace, self.dest, value)


class Words(argparse.ArgumentParser):
    """Takes words as ./raire does: options anywhere, each once and in full, and only files after a word --."""

    def __init__(self, name):
        super().__init__(prog=name, add_help=False, allow_abbrev=False)

    def option(self, *names, **given):
        for name in names:
            self.add_argument(name, action=Once, **given)

    def error(self, message):
        raise Refusal(1, f"{self.prog}: {message}; ./raire help {self.prog} lists its words\n")


def ask_for_help(words):
    return words[:1] in (["--help"], ["-h"], ["help"])


def help_of(name):
    with open(os.path.join(TOP, "docs", "help", f"{name}.txt")) as file:
        return file.read()


def see_output(name, paths):
    """Refuses to write the output over a file that it is made from."""
    for path in paths:
        if sys.stdout is not None and os.path.exists(path) and os.path.samestat(os.stat(path), os.fstat(1)):
            raise Refusal(1, f"{name}: {path} would be written over\n")


def put(name, text):
    """Writes all of a text to standard output, which may be closed or full."""
    try:
        sys.stdout.buffer.write(text.encode(errors="surrogateescape"))
        sys.stdout.flush()
    except (AttributeError, OSError):
        if sys.stdout is not None:
            os.dup2(os.open(os.devnull, os.O_WRONLY), sys.stdout.fileno())  # the rest goes nowhere when Python ends
        raise Refusal(8, f"{name}: the output could not be written\n") from None


def main(name, answer, words):
    """Runs a command and returns its status. `answer` gives its text and the notes that go with it."""
    try:
        with share.shown([name, *words]):
            text, account = (help_of(name), "") if ask_for_help(words) else answer(words)
        put(name, text)
        sys.stderr.write(account)
    except Refusal as refusal:
        return ended(name, refusal)
    return 0


def ended(name, refusal):
    """Prints why a call is refused or can't continue, and returns its status."""
    try:
        if refusal.out:
            put(name, refusal.out)
    except Refusal as full:
        refusal = full
    sys.stderr.write(what_to_do.said(name, refusal.status, refusal.text))
    return refusal.status
