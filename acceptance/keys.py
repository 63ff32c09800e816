"""Types at a shell as a person does, and checks what a TAB makes of a line."""
import os
import pty
import re
import select
import signal
import time

SECONDS = 30
READY = "ready for keys "
HOME, END, TAB, ENTER = "\x01", "\x05", "\t", "\r"


class Shell:
    """A shell at a terminal of its own, for use in a `with`. `lines` are typed first."""

    def __init__(self, words, lines, folder):
        self.words, self.lines, self.folder = words, lines, folder

    def __enter__(self):
        self.process, self.terminal = pty.fork()
        if self.process == 0:
            os.chdir(self.folder)
            given = {"PATH": os.environ["PATH"], "HOME": self.folder, "TERM": "dumb", "LANG": "C.UTF-8", "PS1": READY}
            os.execvpe(self.words[0], self.words, given)
        self.shown(READY)
        for line in self.lines:
            self.printed(f"{line}; printf '<%s>\\n' ''")
        return self

    def __exit__(self, *_):
        os.kill(self.process, signal.SIGKILL)
        os.waitpid(self.process, 0)
        os.close(self.terminal)

    def completed(self, line):
        """The line after a TAB, as the shell itself prints it."""
        return self.printed(f"{line}{TAB}{HOME}printf '<%s>\\n' '{END}'")

    def printed(self, keys):
        """What a line prints between < and >, or everything that is shown if it prints no such thing."""
        os.write(self.terminal, (keys + ENTER).encode())
        shown = self.shown(rf"\n<[^\n]*>\r*\n(?s:.*){READY}")
        return (re.findall(r"^<(.*)>\r*$", shown, re.MULTILINE) or [shown])[-1]

    def shown(self, end):
        """What is shown until this end appears, or until time runs out."""
        shown, last = "", time.monotonic() + SECONDS
        while not re.search(end, shown) and time.monotonic() < last:
            if select.select([self.terminal], [], [], 1)[0]:
                shown += os.read(self.terminal, 65_536).decode(errors="replace")
        return shown
