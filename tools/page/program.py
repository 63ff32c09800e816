"""The program's answers. A page shows the program's numbers, and refuses what the program refuses."""
import hashlib
import os
import shlex
import shutil
import subprocess
import tempfile

import share
from files import Refusal, told

TOP = os.path.dirname(os.path.dirname(os.path.dirname(os.path.abspath(__file__))))
STANDS_IN = b"1\nContest,none of these,2,1,2\n"


def words_of(command, paths, options):
    if any(path.startswith("-") for path in paths):
        return [command, *options, "--", *paths]
    return [command, *paths, *options]


class Program:
    """Runs the program, and keeps what it was asked. RAIRE may name another program than ./raire."""

    def __init__(self):
        own = os.path.join(TOP, "raire")
        self.name = os.environ.get("RAIRE") or "./raire"
        self.path = own if self.name == "./raire" and not os.environ.get("RAIRE") else shutil.which(self.name)
        if self.path is None:
            raise told(f"RAIRE names no program: {self.name}")
        self.is_own = os.path.samefile(self.path, own)
        self.asked, self.was_asked = [], False
        if self.is_own:
            self.build()

    def build(self):
        """Builds the program if there is none yet. ./raire reports its progress on standard error."""
        with share.away():
            built = subprocess.run([self.path, "--build"], stdout=subprocess.DEVNULL)
        if built.returncode:
            raise Refusal(built.returncode, "show: there is no program to ask\n")

    def answer(self, words):
        try:
            return subprocess.run([self.path, *words], stdout=subprocess.PIPE, stderr=subprocess.PIPE, env={**os.environ, "RAIRE_QUIET": "1"})
        except OSError as fault:
            raise told(f"{self.name} doesn't run: {fault.strerror}") from None

    def run(self, command, paths, *options, is_shown=True):
        """The status and the text of an answer; None if the program doesn't have the command."""
        ran = self.answer(words_of(command, paths, options))
        if ran.returncode == 1:
            return None
        self.was_asked = True
        out, err = ran.stdout.decode(errors="replace"), ran.stderr.decode(errors="replace")
        if ran.returncode not in (0, 3, 4, 5, 6, 10) or (err and ran.returncode != 4):  # ./raire adds its own line if the budget runs out
            raise Refusal(ran.returncode or 1, err or f"show: {self.name} ended with status {ran.returncode}\n")
        if not out:
            raise self.is_another(command)
        if is_shown:
            self.tell(ran.returncode, command, paths, *options)
        return ran.returncode, out

    def tell(self, status, command, paths, *options):
        """Records that this was asked, for the page to say."""
        self.asked.append({"words": shlex.join([self.name, *words_of(command, paths, options)]), "status": status})

    def must_run(self, command, paths, *options, is_shown=True):
        answer = self.run(command, paths, *options, is_shown=is_shown)
        if answer is None:
            raise self.is_another(command)
        return answer

    def is_another(self, command):
        return told(f"{self.name} doesn't answer “{command}” as ./raire does")

    def judge_assertions(self, path):
        """Refuses what isn't an assertion file, by a check against a contest that isn't its own."""
        with tempfile.TemporaryDirectory() as folder:
            ballots = os.path.join(folder, "ballots.raire")
            with open(ballots, "wb") as file:
                file.write(STANDS_IN)
            self.must_run("check", [ballots, path], is_shown=False)

    def version(self):
        """The commit and the kit of this clone's own program."""
        ran = subprocess.run([self.path, "--version"], stdout=subprocess.PIPE, stderr=subprocess.DEVNULL)
        return ran.stdout.decode().strip()

    def told(self):
        """Which program was asked: this clone's own, or another one with its digest."""
        if self.is_own:
            return {"name": self.name, "is_own": True, "version": self.version(), "was_asked": self.was_asked}
        with open(self.path, "rb") as file:
            digest = hashlib.sha256(file.read()).hexdigest()
        return {"name": self.name, "is_own": False, "digest": digest, "was_asked": self.was_asked}
