"""Makes a release: one file with the program that was proved and built, and everything else that an office needs."""
import collections
import gzip
import hashlib
import io
import os
import subprocess
import sys
import tarfile

sys.path[:0] = [os.path.join(os.path.dirname(os.path.dirname(os.path.abspath(__file__))), name) for name in ("build", "package")]

import built
import debian
from ask import Refusal, TOP
from words import ask_for_help, help_of, put, Words

NAME = "release"
PROGRAM = "crates/raire/out/raire"
PARTS = ["CHANGELOG.md", "CITATION.cff", "LICENSE", "README.md", "VERSION", "docs", "examples", "plain", "raire", "tools"]
APART = ("tools/build/", "tools/package/", f"tools/{NAME}", f"docs/help/{NAME}.txt")  # omitted: what proves, builds and releases needs the sources
MACHINE = "x86_64"

File = collections.namedtuple("File", "data mode")

PAGE = """\
# Release {version} of the RAIRE audit suite

| | |
|---|---|
| commit | {commit} |
| kit with which it was proved and built | {kit} |
| SHA-256 of the program, `{program}` | {digest} |
| runs on | x86-64 Linux with glibc; the prover isn't needed |

Unpack it anywhere, and begin with README.md, in this folder: `./raire help`. What needs Python says so, and names the missing package.
README's first step, which proves and builds, isn't needed here: the program is the one that was built then. Links of the pages to `crates/`
and CONTRIBUTING.md lead to the repository, since the sources aren't in this file.

## Is it what was released?

    sha256sum --check --quiet SHA256SUMS      # each file is the one that was put in
    ./raire --version                         # the commit and the kit

The publisher of this file has to publish its own SHA-256 too, in another way: `SHA256SUMS` only shows that nothing was damaged. The Debian package has the
list that `dpkg --verify raire` compares, which shows no more: compare the package's own SHA-256 with the one that was published.

## Proving it anew

With the kit named above, on any machine:

    git clone <the repository> raire && cd raire
    git checkout {commit}
    rt version          # {kit}
    rt ci               # every proof from nothing, wrong bodies refused, every test
    ./raire --build
    sha256sum {program}

docs/trust.md says what each step shows, and what has to be believed. The kit's compiler makes the program of the proved code. Nobody has
proved the compiler, and nobody claims that another machine gets the same bytes: if that matters, run what you built yourself. The rest of this
file is text that can be compared with the commit: `./raire release` takes it from there. From one commit and one program `./raire release`
makes the same bytes each time.
"""


def told(text):
    return Refusal(1, f"{NAME}: {text}\n")


def git(*words, top=TOP):
    try:
        ran = subprocess.run(["git", "-C", top, *words], capture_output=True)
    except OSError as fault:
        raise told(f"git doesn't run: {fault.strerror}") from None
    if ran.returncode:
        raise told(f"git {words[0]} ended with status {ran.returncode}: {ran.stderr.decode(errors='replace').strip()}")
    return ran.stdout


class Commit:
    def __init__(self, top=TOP):
        self.top = top
        self.name, self.time = git("log", "-1", "--format=%H %ct", top=top).decode().split()
        self.short = self.name[:12]

    def is_changed(self):
        return bool(git("status", "--porcelain", top=self.top))

    def files(self):
        """The files of a release that are in the commit."""
        archive = io.BytesIO(git("archive", "--format=tar", "HEAD", *PARTS, top=self.top))
        with tarfile.open(fileobj=archive) as tar:
            listed = [each for each in tar if each.isfile() and not each.name.startswith(APART)]
            return {each.name: File(tar.extractfile(each).read(), 0o755 if each.mode & 0o100 else 0o644) for each in listed}


def contents(commit, program, kit):
    """The files of a release, and its version."""
    files = commit.files()
    version, digest = files["VERSION"].data.decode().strip(), hashlib.sha256(program).hexdigest()
    files[PROGRAM] = File(program, 0o755)
    files["RELEASE.md"] = File(PAGE.format(version=version, commit=commit.name, kit=kit, digest=digest, program=PROGRAM).encode(), 0o644)
    files["RELEASE"] = File(f"raire {version}, commit {commit.short}, released; {kit}\nprogram {digest}\n".encode(), 0o644)
    return files, version


def made(commit, program, kit):
    """The name and the bytes of a release, and those of its Debian package if dpkg-deb is available."""
    files, version = contents(commit, program, kit)
    package = debian.made(files, version, commit.short, int(commit.time))
    sums = "".join(f"{hashlib.sha256(files[name].data).hexdigest()}  {name}\n" for name in sorted(files))
    files["SHA256SUMS"] = File(sums.encode(), 0o644)
    folder = f"raire-{version}-{commit.short}-{MACHINE}"
    return [(f"{folder}.tar.gz", packed(folder, files, int(commit.time))), *([package] if package else [])]


def packed(folder, files, time):
    """An archive whose bytes depend only on these arguments."""
    out = io.BytesIO()
    with gzip.GzipFile(filename="", mode="wb", fileobj=out, compresslevel=9, mtime=0) as zipped:
        with tarfile.open(fileobj=zipped, mode="w", format=tarfile.USTAR_FORMAT) as tar:
            for name in sorted(files):
                entry = tarfile.TarInfo(f"{folder}/{name}")
                entry.size, entry.mode, entry.mtime = len(files[name].data), files[name].mode, time
                tar.addfile(entry, io.BytesIO(files[name].data))
    return out.getvalue()


def proved():
    """The program of this clone, and the kit with which it was proved and built here. Both the program and the sources must be those of the record."""
    script = os.path.join(TOP, "raire")
    if subprocess.run([script, "--build"], stdout=subprocess.DEVNULL).returncode:
        raise Refusal(70, f"{NAME}: there is no program to release\n")
    record = built.Record(TOP)
    if record.see() != built.HERE:
        raise told(f"{PROGRAM} was not built here: remove it and run ./raire --build")
    with open(record.program, "rb") as file:
        program, said = file.read(), record.read()
    if hashlib.sha256(program).hexdigest() != said["program"]:
        raise told("the program has just changed")
    return program, said["kit"]


def write(folder, name, data):
    path = os.path.join(folder, name)
    try:
        with open(path, "wb") as file:
            file.write(data)
    except OSError as fault:
        raise Refusal(8, f"{NAME}: {path}: {fault.strerror}\n") from None
    put(NAME, f"{hashlib.sha256(data).hexdigest()}  {path}\n")


def main(words):
    try:
        if ask_for_help(words):
            put(NAME, help_of(NAME))
            return 0
        parser = Words(NAME)
        parser.add_argument("folder", nargs="?", default=".")
        folder = parser.parse_args(words).folder
        if not os.path.isdir(folder):
            raise told(f"there is no folder {folder}: make it first")
        commit = Commit()
        if commit.is_changed():
            raise told("a file of the folder is new or differs from the commit: git status shows which")
        parts = made(commit, *proved())
        for name, data in parts:
            write(folder, name, data)
        if len(parts) < 2:
            sys.stderr.write(f"{NAME}: there is no Debian package: dpkg-deb is missing\n")
    except Refusal as refusal:
        sys.stderr.write(refusal.text)
        return refusal.status
    return 0
