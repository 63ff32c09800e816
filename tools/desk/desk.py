"""The desk: one folder, one deed at a time, and the result of the last one."""
import os
import threading
from typing import NamedTuple

import record
from replies import REPLIES
from running import Refused, Runner

PATIENCE = 1.5  # seconds that a request waits for its deed before it shows the deed's progress


class Busy(Exception):
    """A deed is being done."""


class Outdated(Exception):
    """The folder has changed since the page that asks for a deed was made."""


class Notice(NamedTuple):
    """The result of a deed that changed nothing: a command that was refused, or a disk fault."""
    step: str
    line: str
    status: int
    told: str
    is_stopped: bool = False


class Desk:
    def __init__(self, folder):
        self.folder, self.lock = folder, threading.Lock()
        self.drafting = threading.Lock()  # one reading at a time goes into a draft
        self.runner = self.thread = self.notice = self.step = None  # of the last deed
        self.filled_in = {}  # the fields of its form
        self.shown = {}  # answers that are only looked at and belong to no file, by step

    def is_busy(self):
        return self.lock.locked()

    def begin(self, step, version, lines, replaces=False, then=None, is_kept=True, filled_in=None):
        """Does a deed: takes its uploads, then runs its commands in a thread. `replaces` says that it replaces the last deed."""
        if not self.lock.acquire(blocking=False):
            raise Busy
        try:
            if version != self.folder.version:
                raise Outdated
            self.notice, self.step, self.filled_in = None, step, filled_in or {}
            base = self.folder.record[:-1] if replaces else self.folder.record
            deed = Deed(self, step, base, lines, then, is_kept)
            self.runner = deed.runner
            deed.take_uploads()
            self.thread = threading.Thread(target=deed.finish, daemon=True)
            self.thread.start()
        except BaseException:
            self.drop()
            raise
        self.thread.join(PATIENCE)

    def drop_notice(self, step):
        """Drops what was said about a step."""
        if self.notice and self.notice.step == step:
            self.notice = None

    def drop(self):
        """Ends a deed that never began to run."""
        try:
            self.folder.clear()
        finally:
            self.lock.release()

    def take_back(self, version):
        """Restores the folder to what it was before its last deed."""
        if not self.lock.acquire(blocking=False):
            raise Busy
        try:
            if version != self.folder.version:
                raise Outdated
            self.notice = self.step = None
            self.shown.clear()
            self.folder.prepare([])
            self.folder.commit(self.folder.record[:-1])
        finally:
            self.lock.release()

    def stop(self):
        if self.is_busy() and self.runner is not None:
            self.runner.stop()


class Deed:
    """What a single press of a button does."""

    def __init__(self, desk, step, base, lines, then, is_kept):
        self.desk, self.folder, self.step, self.base, self.lines = desk, desk.folder, step, base, list(lines)
        self.then, self.is_kept = then, is_kept
        self.runner, self.done = Runner(desk.folder.scratch), []
        self.folder.prepare(base)

    def take_uploads(self):
        """Takes the files that were given. They come first, since their streams end with the request."""
        while self.lines and hasattr(self.lines[0], "stream"):
            self.done.append(self.runner.done(self.lines.pop(0)))

    def finish(self):
        try:
            for each in self.lines:
                self.done.append(self.runner.done(each))
            if self.is_kept:
                self.folder.commit([*self.base, record.Deed(self.step, tuple(self.done))])
            if self.then:
                self.then(self)
        except Refused as refused:
            self.desk.notice = Notice(self.step, refused.line, refused.status, refused.told, refused.is_stopped)
        except OSError as fault:
            self.desk.notice = Notice(self.step, self.runner.line, 0, f"{fault.strerror}: nothing was changed.")
        except Exception:
            self.desk.notice = Notice(self.step, self.runner.line, 0, REPLIES[500])
            raise
        finally:
            self.put_away()

    def put_away(self):
        try:
            self.folder.clear()
        except OSError:
            pass  # the next deed or the next start clears it
        self.desk.lock.release()

    def answers(self):
        """The words and the answer of each command that was run only for its answer, which isn't kept."""
        for line in self.done:
            with open(os.path.join(self.folder.scratch, line.out), encoding="utf-8", errors="backslashreplace") as file:
                yield line, file.read()
