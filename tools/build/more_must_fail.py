#!/usr/bin/env python3
"""Tries the wrong bodies that the gate skips: those in the crates' more-must-fail/.

    tools/build/more_must_fail.py [NAME..]    tries those of these crates, or of all crates: the prover must refuse each
    tools/build/more_must_fail.py --look      checks that each wrong body, including must-fail/, can be applied: what it changes is in its file once

`rt ci` tries them in a copy of the crates, where they replace those in must-fail/. What an earlier run proved on this machine isn't proved again, if the
kit can keep it.
"""
import glob
import os
import shutil
import subprocess
import sys
import tempfile

from build import TOP, below, copied, named_in

MORE = "more-must-fail"
BAD = 1  # the exit status if one isn't refused or can't be applied


def wrong_bodies(crate, folder):
    return sorted(glob.glob(os.path.join(TOP, "crates", crate, folder, "*.edit")))


def pairs(path):
    """Each text that a wrong body changes, with its file in the crate."""
    file = None
    with open(path) as lines:
        for line in lines:
            if line.startswith("file: "):
                file = line.removeprefix("file: ").strip()
            elif line.startswith("old: "):
                yield file, line.removeprefix("old: ").rstrip("\n")


def faults(path):
    """What is wrong with a wrong body: it changes nothing, or a text that isn't in its file exactly once."""
    crate = os.path.dirname(os.path.dirname(path))
    changes = list(pairs(path))
    if not changes:
        yield "it changes nothing"
    for file, text in changes:
        try:
            with open(os.path.join(crate, file)) as source:
                times = source.read().count(text)
        except (OSError, TypeError) as error:
            yield f"{file}: {error}"
        else:
            if times != 1:
                yield f"{file} has it {times} times: {text}"


def look(crates):
    """Checks that all wrong bodies can be applied."""
    count = bad = 0
    for crate in crates:
        for path in wrong_bodies(crate, "must-fail") + wrong_bodies(crate, MORE):
            count += 1
            for why in faults(path):
                bad += 1
                print(f"{os.path.relpath(path, TOP)}: {why}")
    print(f"{count} wrong bodies, {bad} that can't be applied")
    return BAD if bad else 0


def try_all(named, crates):
    """Tries the wrong bodies of these crates."""
    wanted = {it for crate in crates for it in (crate, *below(crate, named))}
    with tempfile.TemporaryDirectory(prefix="raire-", ignore_cleanup_errors=True) as folder:
        copied(named, wanted, folder)
        for crate in crates:
            shutil.copytree(os.path.join(TOP, "crates", crate, MORE), os.path.join(folder, "crates", crate, "must-fail"))
        streams = {"stdin": subprocess.DEVNULL, "stdout": subprocess.PIPE, "stderr": subprocess.STDOUT}
        with subprocess.Popen(["rt", "ci", *crates], cwd=folder, **streams, text=True, errors="replace") as ran:
            bad = 0
            for line in ran.stdout:
                bad += "BAD EDIT" in line
                print(line.replace(os.path.realpath(folder), TOP), end="", flush=True)
    return BAD if bad or ran.returncode else 0


def main(words):
    named = named_in(os.path.join(TOP, "crates.txt"))
    if words == ["--look"]:
        return look(named)
    crates = [it for it in named if wrong_bodies(it, MORE) and (it in words or not words)]
    lacking = [it for it in words if it not in crates]
    if lacking:
        print(f"no crate with a folder {MORE}: {' '.join(lacking)}", file=sys.stderr)
        return BAD
    return try_all(named, crates)


if __name__ == "__main__":
    sys.exit(main(sys.argv[1:]))
