"""The words of ./raire desk, and the server at 127.0.0.1.

The parts of the desk, lowest first; each uses only those above it:
    record.py                      commands.txt: the record of what was typed, as a text and read back
    folder.py                      the folder on the disk: its lock, an action that is done at one instant, what is found after a kill
    running.py                     commands run in order, in a folder, which can be stopped at any time
    desk.py                        one action at a time, and the result of the last one
    audit.py, calls.py, terms.py   what a folder says about its audit; which words are typed at each step; the page of terms
    ballots.py                     first preferences; cards without a ballot in a full count
    forms.py, exports.py, readings.py
                                   judge what is typed in: forms, vendors' exports, readings of cards
    steps.py, steps_of_rounds.py, flow.py
                                   the steps, and which of them can be done now
    told.py, pages.py, pages/, bundle.py
                                   the answers in words, the pages, what is published
    safety.py, replies.py, server.py
                                   who may send requests, what a refusal says, the server
    again.py, main.py              the observer's form; the words of the command

A new step is a class in steps.py or steps_of_rounds.py, its place in flow.py, its words in calls.py and its page in pages/steps/.
"""
import argparse
import importlib.util
import os
import signal
import sys

from running import TOP

NAME, HOST, PORT = "desk", "127.0.0.1", 8020
PACKAGES = ("flask", "jinja2", "waitress")
BAD_WORDS, UNUSABLE = 1, 7


class Words(argparse.ArgumentParser):
    def error(self, message):
        sys.stderr.write(f"{NAME}: {message}; see ./raire help {NAME}\n")
        sys.exit(BAD_WORDS)


def words_of(words):
    parser = Words(prog=NAME, add_help=False, allow_abbrev=False)
    parser.add_argument("folder")
    parser.add_argument("--port", type=int)
    parser.add_argument("--read", action="store_true")
    given = parser.parse_args(words)
    if given.read and given.port is not None:
        parser.error("--read serves nothing, so it takes no --port")
    given.port = PORT if given.port is None else given.port
    if not 1 <= given.port <= 65_535:
        parser.error("--port is a number from 1 to 65535")
    return given


def ask_for_help(words):
    return words[:1] in (["--help"], ["-h"], ["help"])


def put_help():
    with open(os.path.join(TOP, "docs", "help", f"{NAME}.txt")) as file:
        sys.stdout.write(file.read())
    return 0


def main(words):
    if ask_for_help(words):
        return put_help()
    given = words_of(words)
    if not all(map(importlib.util.find_spec, PACKAGES)):
        sys.stderr.write(f"{NAME}: packages are missing: apt-get install {' '.join(f'python3-{name}' for name in PACKAGES)}\n")
        return BAD_WORDS
    import folder
    try:
        return read(given) if given.read else serve(given, folder.Folder(os.path.abspath(given.folder)))
    except folder.Unusable as fault:
        sys.stderr.write(f"{NAME}: {fault}\n")
        return UNUSABLE


def read(given):
    import again
    return again.told(given.folder, sys.stdout)


def serve(given, place):
    """Serves the folder until somebody stops it."""
    import server
    from audit import Audit
    from desk import Desk
    from pages import Pages
    from running import is_built
    from steps_of_rounds import end_drafts
    place.open()
    end_drafts(Audit(place))
    if not is_built():
        place.drop_new()
        sys.stderr.write(f"{NAME}: there is no program to run\n")
        return BAD_WORDS
    desk = Desk(place)
    pages = Pages(desk, HOST, given.port)
    try:
        serving = server.made(pages.app, pages.guard, HOST, given.port, pages.most_body_bytes(), place.path)
    except OSError as fault:
        place.drop_new()
        sys.stderr.write(f"{NAME}: {HOST}:{given.port}: {fault.strerror}; --port gives another port\n")
        return UNUSABLE
    signal.signal(signal.SIGTERM, lambda *_: sys.exit(0))
    print(f"The desk of {place.path}: open this address once, in a browser on this machine\n    {pages.guard.address()}\nEnd it with Ctrl-C.", flush=True)
    serving.run()
    desk.stop()
    return 0
