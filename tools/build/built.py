#!/usr/bin/env python3
"""Keeps the record of this clone's program, which is written when it is built, and says whether the program and the sources are still those of the record.

built.py see      status 0: it was built here, from these sources; 1: there is none, or a source has changed; 2: it was not built here
built.py record   records the program that `rt ci` has just proved and built in place, as the gate does
"""
import hashlib
import os
import subprocess
import sys
import time

sys.dont_write_bytecode = True
sys.path.insert(0, os.path.dirname(os.path.abspath(__file__)))

import build  # noqa: E402

OUT = os.path.join("crates", build.PROGRAM, "out", build.PROGRAM)
APART = ("out", "must-fail", "more-must-fail")
HERE, CHANGED, ELSEWHERE = 0, 1, 2  # the exit status of `see`


def digest_of(path):
    with open(path, "rb") as file:
        return hashlib.file_digest(file, "sha256").hexdigest()


def sources_of(top):
    """The files that the program is proved and built from, by name."""
    named = build.named_in(os.path.join(top, "crates.txt"))
    paths = ["HANDLES"]
    for crate in {build.PROGRAM} | build.below(build.PROGRAM, named):
        for folder, parts, names in os.walk(os.path.join(top, "crates", crate)):
            parts[:] = [name for name in parts if name not in APART]
            paths += [os.path.relpath(os.path.join(folder, name), top) for name in names]
    return sorted(paths)


def digest_of_sources(top):
    """One digest of all sources, and of which crates depend on which."""
    named = build.named_in(os.path.join(top, "crates.txt"))
    crates = sorted({build.PROGRAM} | build.below(build.PROGRAM, named))
    lines = [f"{crate}: {' '.join(named[crate])}\n" for crate in crates]
    lines += [f"{digest_of(os.path.join(top, path))}  {path}\n" for path in sources_of(top)]
    return hashlib.sha256("".join(lines).encode()).hexdigest()


def kit():
    """What the kit on the path says about itself."""
    try:
        ran = subprocess.run(["rt", "version"], stdin=subprocess.DEVNULL, capture_output=True, text=True)
    except OSError:
        return "no kit on the path"
    return ran.stdout.strip() or "no kit on the path"


class Record:
    def __init__(self, top=build.TOP):
        self.top, self.program = top, os.path.join(top, OUT)
        self.path = f"{self.program}.built"

    def read(self):
        """The record's lines by their first word; empty if there is no record."""
        try:
            with open(self.path) as file:
                return dict(line.rstrip("\n").split(" ", 1) for line in file)
        except (OSError, ValueError):
            return {}

    def write(self, sources, by):
        """Writes the record. Must be called when the program is in place. If a source was changed since, the digests show it."""
        seen = time.time_ns()
        text = f"program {digest_of(self.program)}\nsources {sources}\nkit {kit()}\nby {by}\n"
        with open(f"{self.path}.new", "w") as file:
            file.write(text)
        is_same = digest_of_sources(self.top) == sources
        os.utime(f"{self.path}.new", ns=(seen, seen) if is_same else (0, 0))  # anything newer than the record makes ./raire compare digests
        os.replace(f"{self.path}.new", self.path)

    def see(self):
        """Compares digests. If all are as they were, the next use of ./raire only compares times."""
        seen, said = time.time_ns(), self.read()
        if not os.path.exists(self.program):
            return CHANGED
        if said.get("program") != digest_of(self.program):
            return ELSEWHERE if not self.is_older_than_a_source() else CHANGED
        if said.get("sources") != digest_of_sources(self.top):
            return CHANGED
        try:
            os.utime(self.path, ns=(seen, seen))
        except OSError:  # not ours
            pass
        return HERE

    def is_older_than_a_source(self):
        made = os.stat(self.program).st_mtime_ns
        return any(os.stat(os.path.join(self.top, path)).st_mtime_ns > made for path in ["crates.txt", *sources_of(self.top)])


def main(words):
    record = Record()
    if words == ["see"]:
        return record.see()
    if words == ["record"]:
        if record.see() == CHANGED and (not os.path.exists(record.program) or record.is_older_than_a_source()):
            sys.stderr.write("built.py: there is no program, or a source is newer than it\n")
            return CHANGED
        record.write(digest_of_sources(record.top), "rt ci")
        return HERE
    sys.stderr.write(__doc__)
    return CHANGED


if __name__ == "__main__":
    sys.exit(main(sys.argv[1:]))
