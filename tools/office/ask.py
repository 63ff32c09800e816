"""Asks the program, and passes on its refusals."""
import os
import shutil
import subprocess

import share

TOP = os.path.dirname(os.path.dirname(os.path.dirname(os.path.abspath(__file__))))
MOST_FILE_BYTES = 67_108_864  # of a file that the program reads


class Refusal(Exception):
    """There is no answer: the status, and what to print on standard error. `out` goes to standard output all the same."""

    def __init__(self, status, text, out=""):
        super().__init__(text)
        self.status, self.text, self.out = status, text, out


def path_of_program(name):
    """./raire of this clone, or the program that RAIRE names in the environment. `name` is the command that asks."""
    given, own = os.environ.get("RAIRE"), os.path.join(TOP, "raire")
    if not given:
        build(name, own)
        return own
    path = shutil.which(given)
    if path is None:
        raise Refusal(1, f"{name}: RAIRE names no program: {given}\n")
    return path


def build(name, own):
    """Builds the program if there is none yet. ./raire reports its progress on standard error."""
    with share.away():
        built = subprocess.run([own, "--build"], stdin=subprocess.DEVNULL, stdout=subprocess.DEVNULL)
    if built.returncode:
        raise Refusal(built.returncode, f"{name}: there is no program to ask\n")


def ask(name, command, files, *options):
    """The text of an answer with status 0. Any other status is a refusal with the program's own lines."""
    words = [path_of_program(name), command, *options, "--", *files]
    try:
        ran = subprocess.run(words, stdin=subprocess.DEVNULL, capture_output=True, env={**os.environ, "RAIRE_QUIET": "1"})
    except OSError as fault:
        raise Refusal(1, f"{name}: {words[0]} doesn't run: {fault.strerror}\n") from None
    if ran.returncode:
        told = (ran.stdout + ran.stderr).decode(errors="replace")
        raise Refusal(max(ran.returncode, 1), told or f"{name}: {words[0]} ended with status {ran.returncode}\n")
    if not ran.stdout:
        raise Refusal(1, f"{name}: {words[0]} gave no answer\n")
    return ran.stdout.decode()


def read(name, path):
    """The bytes of a file. A file that can't be read is refused with the program's own status for it."""
    try:
        with open(path, "rb") as file:
            data = file.read(MOST_FILE_BYTES + 1)
    except FileNotFoundError:
        raise Refusal(12, f"{name}: {path}: no such file\n") from None
    except OSError:
        raise Refusal(7, f"{name}: {path}: read fault\n") from None
    if len(data) > MOST_FILE_BYTES:
        raise Refusal(11, f"{name}: {path}: too long\n")
    return data
