"""A state's folder in a test: what is put there, what ./raire state makes of it, and how many checks passed."""
import contextlib
import csv
import os
import shutil
import subprocess

import walk

TOP = walk.TOP
EXAMPLES = os.path.join(TOP, "examples")
CALL = os.path.join(TOP, "tools", "state")
PATIENCE = 3600


class Tried:
    def __init__(self, program):
        self.program, self.count, self.failed = program, 0, 0

    def see(self, shows, holds, told=""):
        self.count += 1
        if not holds:
            self.failed += 1
            print(f"state: {shows}: not so {str(told)[-2000:]}")

    def words(self, folder, *more):
        return [CALL, folder, *more]

    def given(self, more=()):
        """The environment; the program in it is the one that is tried, unless `more` gives another."""
        return {**os.environ, "RAIRE": self.program, **dict(more)}

    def run(self, folder, *more, given=()):
        """The status and both texts."""
        done = subprocess.run(self.words(folder, *more), capture_output=True, text=True, stdin=subprocess.DEVNULL, env=self.given(given), timeout=PATIENCE)
        return done.returncode, done.stdout, done.stderr


def put(folder, *parts, text=None, of=None):
    path = os.path.join(folder, *parts)
    os.makedirs(os.path.dirname(path), exist_ok=True)
    if of:
        shutil.copy(os.path.join(EXAMPLES, of), path)
    else:
        with open(path, "w") as file:
            file.write(text)


def read(*parts):
    with open(os.path.join(*parts), "rb") as file:
        return file.read()


def rows(folder):
    with open(os.path.join(folder, "made", "summary.csv"), newline="") as file:
        return {(row["county"], row["contest"]): row for row in csv.DictReader(file)}


def times(folder):
    """The time of each output of contests and counties."""
    found = {}
    for part in ("contests", "counties"):
        for place, _, names in os.walk(os.path.join(folder, "made", part)):
            for path in (os.path.join(place, name) for name in names):
                with contextlib.suppress(FileNotFoundError):  # while a run goes on
                    found[path] = os.stat(path).st_mtime_ns
    return found


def copy_of(folder, to):
    os.mkdir(to)
    for name in ("terms.csv", "counties"):
        os.symlink(os.path.join(folder, name), os.path.join(to, name))
    return to


def whole(folder):
    """The outputs that are there under their own names."""
    return {path: time for path, time in times(folder).items() if not path.endswith(".part")}
