#!/usr/bin/env python3
"""Tries ./raire release: made twice it has the same bytes, and the walks of README and docs/office.md run in what it unpacks to, on a path without `rt`.

acceptance/release.py PROGRAM makes a release of this clone's commit with PROGRAM in it. The last line says how many checks passed.
"""
import hashlib
import os
import shutil
import stat
import subprocess
import sys
import tarfile
import tempfile

import walk

TOP = os.path.dirname(os.path.dirname(os.path.abspath(__file__)))
sys.dont_write_bytecode = True
sys.path.insert(0, os.path.join(TOP, "tools", "office"))

import release  # noqa: E402 (the one in office/)
from ask import Refusal  # noqa: E402

PATH = "/usr/bin:/bin"
KIT = "a kit of that time"


def ran(folder, *words):
    given = {name: value for name, value in os.environ.items() if name != "RAIRE"}
    done = subprocess.run(words, cwd=folder, capture_output=True, text=True, env={**given, "PATH": PATH})
    return done.returncode, done.stdout, done.stderr


def made(program):
    with open(program, "rb") as file:
        return release.made(release.Commit(), file.read(), KIT)[0]  # package.py tries its package


def version():
    with open(os.path.join(TOP, "VERSION")) as file:
        return file.read().strip()


def as_packed(name, data):
    """Names, times and modes in the archive depend only on the commit."""
    commit, folder = release.Commit(), name.removesuffix(".tar.gz")
    yield "its name has the commit", name == f"raire-{version()}-{commit.name[:12]}-x86_64.tar.gz"
    with tempfile.NamedTemporaryFile(suffix=".tar.gz") as file:
        file.write(data)
        file.flush()
        with tarfile.open(file.name) as tar:
            entries = tar.getmembers()
    yield "everything lies in one folder", all(each.name.startswith(f"{folder}/") for each in entries)
    yield "names are sorted, and none stands twice", [each.name for each in entries] == sorted({each.name for each in entries})
    yield "times are the commit's", {each.mtime for each in entries} == {int(commit.time)}
    yield "nobody owns a file", {(each.uid, each.gid, each.uname, each.gname) for each in entries} == {(0, 0, "", "")}
    yield "files are files", all(each.isfile() and stat.S_IMODE(each.mode) in (0o644, 0o755) for each in entries)


def as_unpacked(folder, program):
    yield "the digests are those of the files", ran(folder, "sha256sum", "--check", "--quiet", "SHA256SUMS") == (0, "", "")
    with open(os.path.join(folder, "SHA256SUMS")) as file:
        listed = {line.split("  ")[1].rstrip("\n") for line in file}
    there = {os.path.relpath(os.path.join(place, name), folder) for place, _, names in os.walk(folder) for name in names}
    yield "each file has its digest", listed == there - {"SHA256SUMS"}
    with open(program, "rb") as file:
        digest = hashlib.sha256(file.read()).hexdigest()
    with open(os.path.join(folder, "RELEASE.md")) as file:
        page = file.read()
    yield "the page has commit, kit and digest", all(word in page for word in (release.Commit().name, KIT, digest))
    yield "there is no rt on the path", shutil.which("rt", path=PATH) is None
    status, out, err = ran(folder, "./raire", "--version")
    yield "the version is the release's", (status, out, err) == (0, f"raire {version()}, commit {release.Commit().short}, released; {KIT}\n", "")
    yield "so is ./raire version", ran(folder, "./raire", "version") == (status, out, err)
    path = os.path.join(folder, release.PROGRAM)
    with open(path, "ab") as file:
        file.write(b"\n")
    yield "another program than the release's is told", "; the program is not the one that was released\n" in ran(folder, "./raire", "version")[1]
    os.truncate(path, os.path.getsize(path) - 1)
    yield "nothing is built", ran(folder, "./raire", "--build") == (0, "", "")
    for name in sorted(os.listdir(os.path.join(folder, "docs", "help"))):
        status, out, err = ran(folder, "./raire", "help", name.removesuffix(".txt"))
        yield f"help: {name}", status == 0 and bool(out) and err == ""


def walks(folder):
    """The commands of README and of the office's page, in the folder that was unpacked."""
    given = {name: value for name, value in os.environ.items() if name != "RAIRE"}
    for page in ("README.md", os.path.join("docs", "office.md")):
        with open(os.path.join(folder, page)) as file:
            shown = list(walk.shown(file.read()))
        printed = walk.printed_by([command for command, _ in shown], folder, {**given, "PATH": PATH})
        for (command, wanted), got in zip(shown, printed):
            is_untried = any(told in got for told in walk.UNTRIED)
            yield f"{page}: {command}\nwanted {wanted}got {got}", is_untried or walk.is_as_shown(got, wanted)
        yield f"{page}: all were run", 0 < len(shown) <= len(printed)


def scripts(folder):
    """Each tool of the release prints its help, the same as ./raire help."""
    for name in sorted(os.listdir(os.path.join(folder, "tools"))):
        if os.path.isfile(os.path.join(folder, "tools", name)):
            status, out, err = ran(folder, "./raire", name, "--help")
            yield f"./raire {name} --help: {err}", (status, out) == (0, ran(folder, "./raire", "help", name)[1])
    yield "the desk tells its help", ran(folder, "./raire", "desk", "--help")[:2] == (0, ran(folder, "./raire", "help", "desk")[1])


def by_the_script(folder):
    """Tries ./raire release of a clone: what it refuses without a kit on the path, and what it refuses about a changed folder."""
    clone = os.path.join(folder, "clone")
    yield "the clone is there", ran(folder, "git", "clone", "-q", TOP, clone)[0] == 0
    status, out, err = ran(clone, "./raire", "release")
    yield "without a program nothing is released", (status, out) == (70, "") and err.endswith("release: there is no program to release\n")
    with open(os.path.join(clone, "another"), "w") as file:
        file.write("1\n")
    told = "release: a file of the folder is new or differs from the commit: git status shows which\n"
    yield "a folder that was changed isn't released", ran(clone, "./raire", "release") == (1, "", told)
    status, out, err = ran(clone, "./raire", "release", "a", "b")
    yield "two folders are no words", (status, out) == (1, "") and err.startswith("release: ")
    told = "release: there is no folder no_such: make it first\n"
    yield "a folder that isn't there is told", ran(clone, "./raire", "release", "no_such") == (1, "", told)
    yield "nothing was written", not [name for name in os.listdir(clone) if name.endswith(".gz")]


def not_built_here(program, folder):
    """If something else put a program in place, it is used with a warning, ./raire version says so, and it isn't released."""
    clone, bin = os.path.join(folder, "clone"), os.path.join(folder, "bin")
    os.remove(os.path.join(clone, "another"))
    os.makedirs(os.path.dirname(os.path.join(clone, release.PROGRAM)))
    os.mkdir(bin)
    with open(os.path.join(bin, "rt"), "w") as file:
        file.write(f"#!/bin/sh\n[ \"$1\" != version ] || echo {KIT}\n")
    os.chmod(os.path.join(bin, "rt"), 0o755)
    with open(os.path.join(clone, release.PROGRAM), "w") as file:
        file.write("#!/bin/sh\necho 3\n")
    os.chmod(os.path.join(clone, release.PROGRAM), 0o755)
    given = {**os.environ, "PATH": f"{bin}:{PATH}"}

    def run(*words):
        done = subprocess.run(["./raire", *words], cwd=clone, capture_output=True, text=True, env=given)
        return done.returncode, done.stdout, done.stderr

    status, out, err = run("release")
    yield f"it isn't released: {err}", (status, out) == (1, "") and f"{release.PROGRAM} was not built here" in err
    yield "./raire version says so", run("version")[1].endswith(f", not built here; {KIT}\n")
    status, out, err = run("search")
    yield f"a use of it says so: {err}", (status, out) == (0, "3\n") and "was not built here" in err
    shutil.copy(program, os.path.join(clone, release.PROGRAM))
    ran_record = subprocess.run([os.path.join(clone, "tools", "build", "built.py"), "record"], env=given)
    yield "once it is recorded it is", ran_record.returncode == 0 and run("version")[1].endswith(f", built here; {KIT}\n")
    for file in (os.path.join(clone, release.PROGRAM), os.path.join(clone, "crates", "desk", "src", "lib.rt")):
        os.utime(file)
        yield "times alone change nothing", run("version")[1].endswith(f", built here; {KIT}\n") and run("--build") == (0, "", "")
    texts = []
    for name in ("one", "two"):
        os.mkdir(os.path.join(folder, name))
        status, out, err = run("release", os.path.join(folder, name))
        yield f"it is released: {err}", status == 0
        files = sorted(os.listdir(os.path.join(folder, name)))
        data = [open(os.path.join(folder, name, file), "rb").read() for file in files]
        texts.append((files, data))
        wanted = {f"{hashlib.sha256(each).hexdigest()}  {os.path.join(folder, name, file)}" for file, each in zip(files, data)}
        yield "the digests are printed", set(out.splitlines()) == wanted
    yield "twice the same bytes, of each file", texts[0] == texts[1] and len(texts[0][0]) == 1 + bool(shutil.which("dpkg-deb"))
    with open(os.path.join(clone, "crates", "desk", "src", "lib.rt"), "a") as file:
        file.write("\n")
    yield "a source that has changed is told", ", changed, not built; " in run("version")[1]


def cases(program, folder):
    name, data = made(program)
    yield "made twice it has the same bytes", (name, data) == made(program)
    yield from as_packed(name, data)
    with open(os.path.join(folder, name), "wb") as file:
        file.write(data)
    yield "it is unpacked", ran(folder, "tar", "-xzf", name)[0] == 0
    os.remove(os.path.join(folder, name))
    there = os.path.join(folder, name.removesuffix(".tar.gz"))
    yield from as_unpacked(there, program)
    yield from walks(there)
    yield from scripts(there)
    yield from by_the_script(folder)
    yield from not_built_here(program, folder)


def main():
    program = os.path.abspath(sys.argv[1])
    try:
        release.Commit()
    except Refusal as refusal:
        print(f"acceptance/release.py: NOT TRIED: {refusal.text}", end="")
        return
    tried = failed = 0
    with tempfile.TemporaryDirectory() as folder:
        for shows, holds in cases(program, folder):
            tried += 1
            if not holds:
                failed += 1
                print(f"./raire release: {shows}: not so")
    print(f"{tried - failed} things of a release as they should be, {failed} not")
    sys.exit(1 if failed else 0)


if __name__ == "__main__":
    main()
