#!/usr/bin/python3
"""Checks that flake8 finds nothing in any Python file, by the rules in .flake8. acceptance/style.py needs no program."""
import os
import subprocess
import sys

TOP = os.path.dirname(os.path.dirname(os.path.abspath(__file__)))
MADE = {"out", "made", "__pycache__"}


def files():
    """The Python files in the repository, including those without an extension."""
    for folder, below, names in os.walk(TOP):
        below[:] = sorted(name for name in below if name not in MADE and not name.startswith("."))
        for name in sorted(names):
            path = os.path.join(folder, name)
            if name.endswith(".py") or "." not in name and is_python(path):
                yield os.path.relpath(path, TOP)


def is_python(path):
    with open(path, "rb") as file:
        first = file.readline()
    return first.startswith(b"#!") and b"python3" in first


def main():
    named = [*files()]
    ran = subprocess.run([sys.executable, "-m", "flake8", *named], cwd=TOP, capture_output=True, text=True)
    if ran.returncode and not ran.stdout:
        print(f"acceptance/style.py: NOT TRIED: {ran.stderr.strip()}; apt-get install python3-flake8")
        return 1
    print(ran.stdout, end="")
    print(f"{len(named)} files of Python, {len(ran.stdout.splitlines())} lines not as they should be")
    return int(bool(ran.stdout))


if __name__ == "__main__":
    sys.exit(main())
