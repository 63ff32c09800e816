#!/usr/bin/env python3
"""Runs the commands that README and docs/ show together with what they print, and compares.

acceptance/walk.py PROGRAM [PAGES] takes from each page the blocks of lines that begin with `$ `. One bash runs the commands of a section, which begins with
`## `, in order, in a folder that has only the repository's examples at first; so each section works by itself. Each command must print the lines below it.
In these lines `...` stands for what the page omits: whole lines, if it is a line of its own. The last line says how many commands did.
"""
import os
import re
import shlex
import subprocess
import sys
import tempfile

TOP = os.path.dirname(os.path.dirname(os.path.abspath(__file__)))
OWN = os.path.join(TOP, "crates", "raire", "out", "raire")

sys.path.append(os.path.join(TOP, "tools", "build"))
import built  # noqa: E402

MARK = "that was printed by the line above"
UNTRIED = ("the engine is missing", "templates are missing", "a library is missing", "bc: command not found")  # what isn't installed can't be tried


def blocks_of(text):
    """The blocks of a page: lines between two fences, and paragraphs of lines that begin with four blanks."""
    for part in re.findall(r"^```\w*\n(.*?)^```$", text, re.MULTILINE | re.DOTALL):
        yield part
    for part in re.findall(r"(?:^    .*\n|^\n(?=    ))+", text, re.MULTILINE):
        yield re.sub("^    ", "", part, flags=re.MULTILINE)


def shown(text):
    """Each command of a page, with the lines that continue it after a backslash, and what it is said to print."""
    for block in blocks_of(text):
        for part in re.split(r"^\$ ", block, flags=re.MULTILINE)[1:]:
            lines = part.rstrip("\n").split("\n")
            size = next(at for at, line in enumerate(lines, 1) if not line.endswith("\\"))
            yield "\n".join(lines[:size]), "".join(line + "\n" for line in lines[size:])


def is_as_shown(printed, wanted):
    pattern = "".join(
        "(?:.*\n)*" if line == "...\n" else ".*".join(map(re.escape, line.split("..."))) for line in wanted.splitlines(keepends=True)
    )
    return re.fullmatch(pattern, printed) is not None


def printed_by(commands, folder, given, root=""):
    """What each command prints on standard output and error. One bash runs them all, so statuses and variables carry over from one to the next; it runs in
    the folder of another root, if one is given."""
    lines = ["exec 2>&1"] + [f"{command}\nlast=$?; echo; echo '{MARK}'; (exit $last)" for command in commands]
    words = ["chroot", root, "bash", "-c", "\n".join([f"cd {shlex.quote(folder)}", *lines])] if root else ["bash", "-c", "\n".join(lines)]
    ran = subprocess.run(words, stdout=subprocess.PIPE, stdin=subprocess.DEVNULL, cwd="/" if root else folder, env=given)
    return ran.stdout.decode(errors="replace").split(f"\n{MARK}\n")


def write_stand_in(program, script):
    """Writes a ./raire for another program than the clone's own, which is never built."""
    with open(os.path.join(TOP, "raire")) as file:
        text = file.read()
    text = re.sub("(?m)^top=.*$", lambda _: f"top={shlex.quote(TOP)}", text)
    text = re.sub("(?m)^program=.*$", lambda _: f"program={shlex.quote(program)}", text)
    text = text.replace("is_built() {\n", "is_built() {\n    return\n")
    with open(script, "w") as file:
        file.write(text)
    os.chmod(script, 0o755)


def put_repository(program, folder):
    """Makes the names that a page uses. Another program than the clone's own replaces ./raire, and ./raire show asks it."""
    for name in ("examples", "acceptance", "docs", "plain", "tools"):
        os.symlink(os.path.join(TOP, name), os.path.join(folder, name))
    script = os.path.join(folder, "raire")
    if os.path.exists(OWN) and os.path.samefile(program, OWN) and built.Record().see() == built.HERE:
        os.symlink(os.path.join(TOP, "raire"), script)
        return dict(os.environ)
    write_stand_in(program, script)
    return {**os.environ, "RAIRE": script}


def sections_of(text):
    """The sections of a page, each from its heading to the next."""
    return re.split("(?m)^(?=## )", text)


def tried(program, page):
    """How many commands the page shows, and what differs from what it says."""
    with open(os.path.join(TOP, page)) as file:
        sections = [list(shown(section)) for section in sections_of(file.read())]
    wrong = []
    for walk in filter(None, sections):
        with tempfile.TemporaryDirectory() as folder:
            given = put_repository(program, folder)
            printed = printed_by([command for command, _ in walk], folder, given)
        for (command, wanted), got in zip(walk, printed):
            if not is_as_shown(got, wanted) and not any(told in got for told in UNTRIED):
                wrong.append(f"{page}: {command}\nwanted {wanted}got {got}")
        if len(printed) < len(walk):
            wrong.append(f"{page}: {len(printed)} of {len(walk)} commands of a section were run")
    return sum(map(len, sections)), wrong


def main():
    program = os.path.abspath(sys.argv[1])
    pages = sys.argv[2:] or ["README.md"] + [os.path.join("docs", name) for name in sorted(os.listdir(os.path.join(TOP, "docs"))) if name.endswith(".md")]
    count, wrong = 0, []
    for page in pages:
        commands, told = tried(program, page)
        count += commands
        wrong += told
    print(*wrong, sep="\n", end="\n" if wrong else "")
    print(f"{count - len(wrong)} commands print what the pages show, {len(wrong)} don't")
    sys.exit(1 if wrong else 0)


if __name__ == "__main__":
    main()
