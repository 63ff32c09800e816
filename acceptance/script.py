#!/usr/bin/env python3
"""Tries the script ./raire: its help and that of the scripts next to it, what it says of bad words, and how it builds, with a stand-in for `rt`.

acceptance/script.py PROGRAM copies the script with crates.txt and docs/help to a folder of its own. There a stand-in records what it is asked for, so that
nothing is proved. The commands and links of README and docs/ are tried too. The last line says how many came out as they should.
"""
import os
import re
import shutil
import subprocess
import sys
import tempfile
import time

TOP = os.path.dirname(os.path.dirname(os.path.abspath(__file__)))
TOOLS = [name for name in sorted(os.listdir(os.path.join(TOP, "tools"))) if os.path.exists(os.path.join(TOP, "docs", "help", f"{name}.txt"))]
TAKE_OTHER_FILES = set(TOOLS) - {"boxes", "show"}  # lines with these on the pages may name the reader's own files

# Records what it is asked for, reports crates as `rt ci` does, refuses one of them, and makes a program that refuses one word.
STAND_IN = """#!/usr/bin/env bash
[ "$1" != version ] || { echo "a kit"; exit 0; }
echo "$* over $(ls crates | wc -l), $(find . -name must-fail | wc -l) with wrong bodies" >>"$NOTES"
for below in $CRATES; do
    if [ "$below" = "$KEPT" ]; then echo "rt: $below is kept: an earlier run proved it"; continue; fi
    echo "== $below"
    if [ "$below" = "$REFUSES" ]; then
        printf '%s\\n' "the goal of $below" "rt: $below NOT PROVED" "rt: raire NOT PROVED: its library $below failed" "0 passed, 2 failed"
        exit 1
    fi
    printf '%s\\n' "$below has all its proofs" "rt: $below proved"
done
if [ "$REFUSES" = run ]; then echo "rt: raire wrote something else"; exit 1; fi
[ -z "$CHANGES" ] || echo "// meanwhile" >>"$CHANGES"
mkdir -p crates/raire/out
printf '#!/usr/bin/env bash\\necho "$@"\\n[ "$1" != bad ] || exit 1\\n' >crates/raire/out/raire
chmod +x crates/raire/out/raire
[ "$REFUSES" != signal ] || kill -9 $$
"""


def crates():
    """Each crate, with the crates of the repository that it depends on."""
    with open(os.path.join(TOP, "crates.txt")) as file:
        lines = [line.split(":") for line in file if ":" in line and not line.startswith("#")]
    names = {line[0].split()[0] for line in lines}
    return {line[0].split()[0]: [word for word in line[1].split() if word in names] for line in lines}


def needed(deps, name):
    found = {name}
    for below in deps[name]:
        found |= needed(deps, below)
    return found


class Copy:
    """A repository of its own, with nothing built."""

    def __init__(self, folder):
        self.folder, self.notes, self.room = folder, os.path.join(folder, "notes"), os.path.join(folder, "room")
        os.mkdir(self.room)
        for name in ("raire", "VERSION"):
            shutil.copy(os.path.join(TOP, name), folder)
        shutil.copy(os.path.join(TOP, "crates.txt"), folder)
        shutil.copytree(os.path.join(TOP, "docs", "help"), os.path.join(folder, "docs", "help"))
        shutil.copytree(os.path.join(TOP, "tools", "build"), os.path.join(folder, "tools", "build"))
        for crate in crates():
            for part in ("src", "specs", "proofs", "must-fail"):
                os.makedirs(os.path.join(folder, "crates", crate, part))
        shutil.copy(os.path.join(TOP, "HANDLES"), folder)
        os.mkdir(os.path.join(folder, "bin"))
        stand_in = os.path.join(folder, "bin", "rt")
        with open(stand_in, "w") as file:
            file.write(STAND_IN)
        os.chmod(stand_in, 0o755)

    def run(self, *words, refuses="", kept="", changes=""):
        path = os.path.join(self.folder, "bin") + ":" + os.environ["PATH"]
        given = {**os.environ, "PATH": path, "NOTES": self.notes, "REFUSES": refuses, "KEPT": kept, "CHANGES": changes, "TMPDIR": self.room}
        given["CRATES"] = " ".join(sorted(needed(crates(), "raire")))
        ran = subprocess.run([os.path.join(self.folder, "raire"), *words], capture_output=True, text=True, env=given)
        return ran.returncode, ran.stdout, ran.stderr

    def noted(self):
        with open(self.notes) as file:
            lines = file.read().splitlines()
        os.remove(self.notes)
        return lines


def helps(copy):
    """Help is the page of docs/help, and needs no program."""
    pages = os.path.join(TOP, "docs", "help")
    for page in sorted(os.listdir(pages)):
        with open(os.path.join(pages, page)) as file:
            wanted = (0, file.read(), "")
        name = page[: -len(".txt")]
        for words in [(), ("help",), ("--help",), ("-h",)] if name == "raire" else [("help", name)]:
            yield f"help {words}", copy.run(*words) == wanted
    told = "raire: there is no command ../formats; ./raire help lists them\n"
    yield "help of no command", copy.run("help", "../formats") == (1, "", told)
    told = "raire: there is no command ; ./raire help lists them\n"
    yield "help of a word without letters", copy.run("help", "") == (1, "", told)
    for word in ("--help", "-h", "--version", "--build"):
        yield f"words behind {word}", copy.run(word, "search") == (1, "", f"raire: no words may follow {word}\n")
    told = "raire: help takes the name of one command, as in ./raire help check\n"
    yield "help of two words", copy.run("help", "check", "search") == (1, "", told)
    with open(os.path.join(TOP, "VERSION")) as file:
        wanted = (0, f"raire {file.read().strip()}, without a commit, not built; a kit\n", "")
    for word in ("version", "--version"):
        yield word, copy.run(word) == wanted
    yield "help builds nothing", not os.path.exists(copy.notes)


def builds(copy):
    wanted = needed(crates(), "raire")
    status, out, err = copy.run("tabulate", "a file", refuses="irv_base")
    yield "a refused crate ends the build", status == 70 and out == "" and "the goal of irv_base\nrt: irv_base NOT PROVED\n" in err
    yield "what wasn't tried is told", "rt: raire NOT PROVED: its library irv_base failed\n" in err and err.endswith("raire: the program was not built\n")
    yield "of other crates nothing is told", "has all its proofs" not in err
    status, out, err = copy.run("tabulate", refuses="run")
    yield "a refused program isn't taken", status == 70 and out == "" and "raire wrote something else" in err and bool(copy.noted())
    status, out, err = copy.run("tabulate", refuses="signal")
    yield "nor is one whose gate was ended", status == 70 and out == "" and err.endswith("rt ci ended with status -9\nraire: the program was not built\n") and bool(copy.noted())
    status, out, err = copy.run("tabulate", "a file", kept="irv_base")
    yield "the program runs once it is built", (status, out) == (0, "tabulate a file\n")
    yield "the gate runs over its crates alone, without wrong bodies", copy.noted() == [f"ci{names} over {len(wanted)}, 0 with wrong bodies" for names in (" irv_base", " raire_cli", "")]
    yield "progress is told", all(re.search(f" of {len(wanted)}: {crate}(; about .* left)?\n", err) for crate in wanted)
    yield "no copy is left", os.listdir(copy.room) == []
    yield "nothing is built again", copy.run("--build") == (0, "", "") and not os.path.exists(copy.notes)
    status, out, err = copy.run("bad")
    yield "bad words are followed by a pointer", (status, out) == (1, "bad\n") and err.startswith("raire: ./raire help")
    source = os.path.join(copy.folder, "crates", "desk", "src", "lib.rt")
    with open(source, "w") as file:
        file.write("// newer\n")
    yield "a newer source builds again", copy.run("--build", changes=source)[:2] == (0, "") and bool(copy.noted())
    yield "so does one that was changed meanwhile", copy.run("--build")[:2] == (0, "") and os.path.exists(copy.notes)
    os.remove(os.path.join(copy.folder, "bin", "rt"))
    time.sleep(0.1)
    os.utime(source)
    yield "a source that is only touched builds nothing", copy.run("--build") == (0, "", "")
    os.remove(copy.notes)
    with open(source, "a") as file:
        file.write("// newer still\n")
    os.environ["PATH"], path = "/usr/bin:/bin", os.environ["PATH"]
    status, out, err = copy.run("--build")
    os.environ["PATH"] = path
    yield "without the kit it says so", (status, out) == (70, "") and err.endswith("raire: there is no `rt` on the path: the kit isn't set up\n")


def minutes_left():
    """The time that is left, by the test's own clock: it is reported at the pace of what is done, and not for a crate that was kept."""
    sys.path.insert(0, os.path.join(TOP, "tools", "build"))
    import build as builder

    named = {"low": [], "side": ["low", "std"], "other": ["low"], "raire": ["side", "low"], "above": ["raire"]}
    seconds = {"low": 60.0, "side": 120.0, "other": 1.0, "raire": 240.0}
    build = builder.Build(named, seconds, 2)
    yield "what the program doesn't stand on isn't built", list(build.below) == ["low", "side", "raire"]
    yield "a whole build is a chain, each crate proved by one", build.ends() == {"low": 60.0, "side": 180.0, "raire": 420.0}
    yield "half as fast", build.tell("low", False, 120.0) == "2:00  1 of 3: low; about 12 minutes left"
    yield "at the same pace", build.tell("side", False, 360.0) == "6:00  2 of 3: side; about 8 minutes left"
    yield "the last one", build.tell("raire", False, 840.0) == "14:00  3 of 3: raire"
    build = builder.Build(named, seconds, 2)
    yield "what is kept takes no time", build.tell("low", True, 0.1) == "0:00  1 of 3: low"
    yield "and the pace is that of the others", build.tell("side", False, 120.0) == "2:00  2 of 3: side; about 4 minutes left"
    named = {"low": [], "left": ["low"], "right": ["low"], "raire": ["left", "right"]}
    build = builder.Build(named, {"low": 8.0, "left": 4.0, "right": 8.0, "raire": 4.0}, 4)
    yield "crates side by side have a processor each", build.ends() == {"low": 8.0, "left": 12.0, "right": 16.0, "raire": 20.0}
    build = builder.Build(named, {"low": 8.0, "left": 4.0, "right": 8.0, "raire": 4.0}, 1)
    yield "one processor takes the longest chain first", build.ends() == {"low": 8.0, "right": 16.0, "left": 20.0, "raire": 24.0}


def places_of(path):
    """The places of a page that a link can lead to, by its headings."""
    with open(path) as file:
        headings = re.findall("^#+ (.*)$", file.read(), re.MULTILINE)
    return {re.sub(r"[^\w -]", "", heading.lower()).replace(" ", "-") for heading in headings}


def is_ignored(name):
    """Whether a file of this name in the folder leaves `git status` as it was, so that `--version` doesn't say `changed`."""
    return not os.path.exists(os.path.join(TOP, ".git")) or subprocess.run(["git", "check-ignore", "-q", name], cwd=TOP).returncode == 0


def pictures_are_drawn():
    """What a script of docs/ writes into a page is what the page has."""
    for name in sorted(os.listdir(os.path.join(TOP, "docs"))):
        if name.endswith(".py"):
            ran = subprocess.run([os.path.join(TOP, "docs", name), "--check"], capture_output=True, text=True)
            yield f"docs/{name}: {ran.stderr}", ran.returncode == 0


def pages_are_true():
    """Each command that README and docs/ show works where it is typed, and each link leads somewhere. Paths that no longer exist are reported."""
    pages = ["README.md", "CONTRIBUTING.md"] + [os.path.join("docs", name) for name in sorted(os.listdir(os.path.join(TOP, "docs")))]
    for page in pages:
        if not page.endswith(".md"):
            continue
        with open(os.path.join(TOP, page)) as file:
            text = file.read()
        for link, _, place in re.findall(r"\]\(([^)#:]*)(#([^)]+))?\)", text):
            path = os.path.join(TOP, os.path.dirname(page), link) if link else os.path.join(TOP, page)
            yield f"{page}: {link} is there", os.path.exists(path)
            yield f"{page}: {link} has {place}", not place or place in places_of(path)
        for made in sorted(set(re.findall(r'(?m)^    .*? >{1,2} ?"?([\w./]+)', text)) - {"/dev/null"}):
            yield f"{page}: {made} isn't tracked", is_ignored(made)
        for path in sorted(set(re.findall(r"`((?:crates/)?[a-z_]+/(?:src|specs|proofs)/[\w/]+\.\w+)`", text))):
            if not os.path.exists(os.path.join(TOP, "crates", path.removeprefix("crates/"))):
                print(f"{page} names {path}, which isn't there")
        with tempfile.TemporaryDirectory() as folder:
            for name in ("raire", "tools", "plain", "examples", "acceptance"):
                os.symlink(os.path.join(TOP, name), os.path.join(folder, name))
            os.mkdir(os.path.join(folder, "made"))
            for line in re.findall(r"^    (\./(?:raire|acceptance)\S* .*)$", text, re.MULTILINE):
                if line.split()[1] in TAKE_OTHER_FILES:
                    continue
                ran = subprocess.run(["bash", "-c", line], capture_output=True, cwd=folder)
                told = b"templates are missing" in ran.stderr
                yield f"{page}: {line}: {ran.stderr}", ran.returncode in (0, 3, 4, 5, 6, 10) or told


def scripts_tell_their_help(folder):
    """Each tool prints its page, even if Python has none of the libraries; a tool that needs one says so."""
    for library in ("ijson", "jinja2", "openpyxl"):
        with open(os.path.join(folder, f"{library}.py"), "w") as file:
            file.write("raise ImportError\n")
    given = {**os.environ, "PYTHONPATH": folder, "PYTHONDONTWRITEBYTECODE": "1"}
    for page in sorted(os.listdir(os.path.join(TOP, "docs", "help"))):
        script = os.path.join(TOP, "tools", page.removesuffix(".txt"))
        if os.path.isfile(script) and page != "raire.txt":
            with open(os.path.join(TOP, "docs", "help", page)) as file:
                wanted = (0, file.read(), "")
            for word in ("--help", "-h", "help"):
                ran = subprocess.run([script, word], capture_output=True, text=True, env=given)
                yield f"{page} behind {word}: {ran}", (ran.returncode, ran.stdout, ran.stderr) == wanted
    for name, words, told in (("show", ["x"], "show: templates are missing"), ("convert", ["plain", "x"], "convert: a library is missing")):
        ran = subprocess.run([os.path.join(TOP, "tools", name), *words], capture_output=True, text=True, env=given)
        yield f"{name} without its library: {ran}", (ran.returncode, ran.stdout) == (1, "") and ran.stderr.startswith(told)


def options_are_told(program):
    """Each command has a page, and each option of a page is an option of the command."""
    pages = os.path.join(TOP, "docs", "help")
    for page in sorted(os.listdir(pages)):
        command = page[: -len(".txt")]
        with open(os.path.join(pages, page)) as file:
            heads = [line.replace("[", "").replace("]", "").split() for line in file.read().split("\n\n")[0].splitlines()]
        for _, *head in heads:
            if command in ("raire", *TOOLS) or (command, "--poll" in head) == ("plan", True):  # the script runs a tool for it
                continue
            values = {"ID": "1", "N": "2", "N|best": "best", "SEED": "1"}
            words = [values.get(word, word if word == command or word.startswith("-") else "no_such_file") for word in head if word != "|"]
            lines = [words]
            if {"--sets", "--nodes"} <= set(head):  # one takes the place of the other
                ran = subprocess.run([program, *words], capture_output=True, text=True)
                yield f"the line {' '.join(words)} isn't one: it has both budgets", ran.returncode == 1
                lines = [words[:at] + words[at + 2:] for at in map(words.index, ("--nodes", "--sets"))]
            for line in lines:
                ran = subprocess.run([program, *line], capture_output=True, text=True)
                yield f"the line {' '.join(line)} of {page} is one", ran.returncode != 1
            for option in {"--floor"} - set(head):
                ran = subprocess.run([program, *lines[-1], option, "1"], capture_output=True, text=True)
                yield f"{command} has no {option}", ran.returncode == 1


def main():
    failed = tried = 0
    with tempfile.TemporaryDirectory() as folder, tempfile.TemporaryDirectory() as without:
        copy = Copy(folder)
        for cases in (helps(copy), builds(copy), minutes_left(), scripts_tell_their_help(without), options_are_told(sys.argv[1]), pictures_are_drawn(), pages_are_true()):
            for shows, holds in cases:
                tried += 1
                if not holds:
                    failed += 1
                    print(f"./raire: {shows}: not so")
    print(f"{tried - failed} uses of the script as they should be, {failed} not")
    sys.exit(1 if failed else 0)


if __name__ == "__main__":
    main()
