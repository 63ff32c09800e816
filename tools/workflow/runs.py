"""Runs the program and keeps what it prints. Uses what an earlier run kept if words, files and program are the same and every byte is still there."""
import hashlib
import json
import os
import signal
import subprocess
import sys
from typing import NamedTuple

from counties import digest_of, MADE, write_whole

TOOLS = os.path.dirname(os.path.dirname(os.path.abspath(__file__)))
HINT_SECONDS = 30
SILENT = {8: "an output could not be written", -signal.SIGKILL: "something killed it"}  # the program prints no line for these


class Failed(Exception):
    """A step of a contest has no result. The text has the program's line and what it was asked."""


class Missing(Exception):
    """A result isn't kept, or isn't whole."""


class Ran(NamedTuple):
    status: int
    file: str  # the file that keeps the output, or an empty text
    text: str  # the output, if no file keeps it


class Digests:
    """The SHA-256 of files. Each file is read once as long as its time and size stay the same."""

    def __init__(self, top):
        self.top, self.known = top, {}

    def of(self, path):
        """The digest of a file; None if it can't be read."""
        full = os.path.join(self.top, path)
        try:
            stat = os.stat(full)
            key = stat.st_mtime_ns, stat.st_ctime_ns, stat.st_size, stat.st_ino
            if self.known.get(path, (None,))[0] != key:
                with open(full, "rb") as file:
                    self.known[path] = key, hashlib.file_digest(file, "sha256").hexdigest()
            return self.known[path][1]
        except OSError:
            return None


class Runs:
    """The runs for one contest or one county. If `may_run` is false, nothing is run, and what isn't kept is missing."""

    def __init__(self, plan, digests, record, what, may_run=True):
        self.plan, self.digests, self.what, self.may_run = plan, digests, what, may_run
        self.path = os.path.join(plan.top, record)
        self.kept, self.used, self.inputs = self.read(), {}, {}

    def read(self):
        try:
            with open(self.path) as file:
                return json.load(file)
        except (OSError, ValueError):  # there is no record yet, or it isn't one
            return {}

    def run(self, name, words, files, kept, further=()):
        """The result of a command. `kept` says for each status which file keeps the output. Outputs with a status in `further` are kept in the record. Every
        other status is a failure."""
        words = [*words, "--", *files]
        return self.take(name, words, files) or self.keep(name, words, files, self.asked(name, words, {*kept, *further}), kept)

    def make(self, name, words, files, path, made):
        """Makes a file with the bytes that `made` returns."""
        return self.take(name, words, files) or self.keep(name, words, files, (0, made()), {0: path})

    def key(self, words, files):
        given = {file: self.digests.of(file) for file in files}
        self.inputs.update(given)
        said = self.plan.version if words[0] == "show" else ""  # a page says which program was asked
        return digest_of(json.dumps([words, given, self.plan.digest, said]).encode())

    def take(self, name, words, files):
        entry, key = self.kept.get(name), self.key(words, files)  # files that are read get their digests even if nothing is kept
        if entry and entry["key"] == key and (not entry["file"] or self.digests.of(entry["file"]) == entry["digest"]):
            self.used[name] = entry
            return Ran(entry["status"], entry["file"], entry["text"])
        if not self.may_run:
            raise Missing(name)
        return None

    def keep(self, name, words, files, answer, kept):
        status, data = answer
        file = kept.get(status, "")
        text = "" if file else data.decode(errors="replace")
        if file:
            write_whole(os.path.join(self.plan.top, file), data)
        self.kept[name] = self.used[name] = {
            "words": words, "key": self.key(words, files), "status": status, "file": file, "digest": digest_of(data), "text": text,
        }
        write_whole(self.path, json.dumps(self.kept, indent=1).encode())
        return Ran(status, file, text)

    def asked(self, name, words, results):
        """The status and the output of a command. The status must be one of `results`."""
        try:
            ran = subprocess.run([self.plan.program, *words], cwd=self.plan.top, stdin=subprocess.DEVNULL, capture_output=True, timeout=self.plan.seconds)
        except subprocess.TimeoutExpired:
            raise Failed(f"{self.what}: {name}: stopped after {self.plan.seconds} seconds; give it other nodes or sets, or more --seconds") from None
        except OSError as fault:
            raise Failed(f"{self.what}: {name}: {self.plan.program} doesn't run: {fault.strerror}") from None
        if ran.returncode not in results:
            raise Failed(f"{self.what}: {name}: status {ran.returncode}: {self.lines(ran, words)}")
        return ran.returncode, ran.stdout

    def lines(self, ran, words):
        """The program's line, and the line that ./raire adds."""
        told = [ran.stderr.decode(errors="replace").strip() or SILENT.get(ran.returncode, "no line")]
        hint = [sys.executable, "-B", os.path.join(TOOLS, "hints", "hint.py"), self.plan.program, str(ran.returncode), *words]
        try:
            said = subprocess.run(hint, cwd=self.plan.top, stdin=subprocess.DEVNULL, capture_output=True, timeout=HINT_SECONDS)
            told.append(said.stdout.decode(errors="replace").strip())
        except (OSError, subprocess.TimeoutExpired):
            pass
        return "; ".join(line for line in told if line)

    def put_last(self, path, ran):
        """Keeps a text from the record in a file too."""
        full, data = os.path.join(self.plan.top, path), ran.text.encode()
        if self.digests.of(path) != digest_of(data):
            if not self.may_run:
                raise Missing(path)
            write_whole(full, data)
        self.used[path] = {"file": path, "digest": digest_of(data)}
        return Ran(ran.status, path, ran.text)

    def read_file(self, path):
        with open(os.path.join(self.plan.top, path), "rb") as file:
            return file.read()

    def text(self, ran):
        return self.read_file(ran.file).decode(errors="replace") if ran.file else ran.text

    def outputs(self):
        return {entry["file"]: entry["digest"] for entry in self.used.values() if entry["file"]}


def of_contest(plan, digests, contest, may_run=True):
    return Runs(plan, digests, contest.record(), contest.name(), may_run)


def of_county(plan, digests, county, may_run=True):
    return Runs(plan, digests, county.record(), county.name, may_run)


def parts_of(top):
    """The partial files that a run left when it was cut off."""
    for folder, _, names in os.walk(os.path.join(top, MADE)):
        for name in names:
            if name.endswith(".part"):
                yield os.path.join(folder, name)
