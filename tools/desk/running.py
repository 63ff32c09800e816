"""Runs what is typed: the commands in order, in the scratch folder. They can be stopped at any time."""
import itertools
import os
import signal
import subprocess
import threading
import time
from typing import NamedTuple

import record
from folder import digest_of_file, sync

TOP = os.path.dirname(os.path.dirname(os.path.dirname(os.path.abspath(__file__))))
RAIRE = os.path.join(TOP, "raire")
MOST_TOLD = 65_536  # bytes of an answer that is shown but not kept
PIECE = 1 << 20


class Call(NamedTuple):
    """A command to type: its words and, for each status that is an answer, the file that takes its standard output."""
    words: tuple
    outs: dict
    also: tuple = ()  # the other files that it makes

    def line(self):
        """The command as it is typed."""
        return record.typed(self.words, next(iter(self.outs.values())))


class Upload(NamedTuple):
    """A file that was given, as an open stream."""
    name: str
    stream: object


class Refused(Exception):
    """A command that gave no answer, or that was stopped: what was typed, its status, and what it printed."""

    def __init__(self, line, status, told, is_stopped=False):
        super().__init__(told)
        self.line, self.status, self.told, self.is_stopped = line, status, told, is_stopped


def call(command, *words, out=None, otherwise=None, also=()):
    """A command of the program with status 0 as its usual answer. `otherwise` has the files of other answers."""
    return Call((record.PROGRAM, command, *words), {0: out, **(otherwise or {})}, also)


def is_built():
    """Whether there is a program to run. If there is none yet, ./raire builds it and reports its progress."""
    return subprocess.run([RAIRE, "--build"], stdin=subprocess.DEVNULL, stdout=subprocess.DEVNULL).returncode == 0


class Runner:
    """Runs commands in a folder. Another thread can see what is running and stop it."""

    def __init__(self, folder):
        self.folder, self.line, self.process = folder, None, None
        self.started, self.is_stopped, self.lock = time.monotonic(), False, threading.Lock()

    def done(self, each):
        """Does a choice, an upload or a command, and returns its line of the record."""
        if isinstance(each, record.Choice):
            return each
        return self.taken(each) if isinstance(each, Upload) else self.ran(each)

    def taken(self, upload):
        path = self.fresh(upload.name)
        with open(path, "xb") as file:
            while piece := upload.stream.read(PIECE):
                file.write(piece)
        return record.Given(upload.name, digest_of_file(path))

    def fresh(self, name):
        """The path of a file that is about to be made, with nothing in its way."""
        path = os.path.join(self.folder, name)
        if os.path.lexists(path):
            os.unlink(path)
        return path

    def ran(self, call):
        path = self.fresh("output")
        status, told = self.put_together(call, path) if call.words[0] in record.PUT_TOGETHER else self.typed(call, path)
        if status not in call.outs or self.is_stopped:
            raise Refused(call.line(), status, self.beginning(path) + told, self.is_stopped)
        out = call.outs[status]
        names = [*[out] * (out is not None), *call.also]
        if out is not None:
            os.rename(path, self.fresh(out))
        made = {name: digest_of_file(os.path.join(self.folder, name)) for name in names}
        return record.Command(call.words, out, status, made)

    def typed(self, call, path):
        """Runs a command of the program, and returns its status and what it printed on standard error."""
        for name in call.also:
            self.fresh(name)
        with open(path, "xb") as out:
            with self.lock:
                if self.is_stopped:
                    return -signal.SIGKILL, ""
                self.line = call.line()
                words = [RAIRE, *call.words[1:]]
                self.process = subprocess.Popen(
                    words, cwd=self.folder, stdin=subprocess.DEVNULL, stdout=out, stderr=subprocess.PIPE, start_new_session=True,
                )
            _, told = self.process.communicate()
        sync(path)
        return self.process.returncode, told.decode(errors="backslashreplace")

    def put_together(self, call, path):
        """Does what `cat` and `joined` do in commands.txt."""
        self.line = call.line()
        with open(path, "x", encoding="utf-8", newline="") as out:
            if call.words[0] == "cat":
                out.writelines(line for name in call.words[1:] for line in self.lines_of(name))
            else:
                columns = [[with_contest(line, contest) for line in self.lines_of(name)] for contest, name in zip(call.words[1::2], call.words[2::2])]
                out.writelines(line for of_card in itertools.zip_longest(*columns, fillvalue="") for line in of_card)
        return 0, ""

    def lines_of(self, name):
        with open(os.path.join(self.folder, name), encoding="utf-8", newline="") as file:
            return list(file)

    def beginning(self, path):
        """The beginning of the answer of a command that isn't kept."""
        if not os.path.exists(path):
            return ""
        with open(path, "rb") as file:
            return file.read(MOST_TOLD).decode(errors="backslashreplace")

    def stop(self):
        """Ends the process of the running command, and the processes that it started itself."""
        with self.lock:
            self.is_stopped = True
            if self.process is not None and self.process.poll() is None:
                os.killpg(self.process.pid, signal.SIGKILL)

    def work(self):
        """The processor time and the memory that the running command uses."""
        with self.lock:
            return work_of(self.process.pid) if self.process is not None and self.process.poll() is None else ""

    def elapsed(self):
        return time.monotonic() - self.started


def work_of(group):
    """The processor seconds and the MiB of memory of the processes of a group, by the system's own account."""
    ticks = pages = 0
    for name in filter(str.isdigit, os.listdir("/proc")):
        try:
            with open(f"/proc/{name}/stat") as file:
                fields = file.read().rpartition(")")[2].split()
        except OSError:
            continue
        if int(fields[2]) == group:
            ticks, pages = ticks + int(fields[11]) + int(fields[12]), pages + int(fields[21])
    seconds, memory = ticks / os.sysconf("SC_CLK_TCK"), pages * os.sysconf("SC_PAGE_SIZE") >> 20
    return f"{seconds:.0f} seconds of processors, {memory:,} MiB of memory"


def with_contest(line, contest):
    """A record of a seen file with the contest's id after the card's."""
    card, _, reading = line.partition(",")
    return f"{card},{contest},{reading}"
