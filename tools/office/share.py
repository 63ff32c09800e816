"""Shows on a terminal what is running and how much of a file is read, in one line on standard error that goes away, as ./raire does for the program."""
import contextlib
import io
import os
import signal
import threading
import time

FIRST, EACH = 2, 1  # seconds until the line is shown, and until it is updated
LINE = "\r\033[?7lraire: {what}: {seconds} s{memory}{share}; Ctrl-C stops it\033[K\033[?7h"
GONE = "\r\033[K"


class Share:
    """How much of a file of `size` bytes is read. `done` returns the number of bytes read."""

    def __init__(self, size, done, name):
        self.size, self.done, self.name = size, done, name

    def __str__(self):
        try:
            percent = min(100 * self.done() // self.size, 100)
        except (ValueError, ZeroDivisionError):  # the file is closed, or its size isn't known
            return ""
        return f", {percent} percent of {self.name} read"


class Counted(io.RawIOBase):
    """A stream that counts its bytes as they are read."""

    def __init__(self, stream):
        self.stream, self.count = stream, 0

    def readable(self):
        return True

    def readinto(self, buffer):
        read = self.stream.readinto(buffer)
        self.count += read or 0
        return read


now = None  # the Share of the file that is being read
has_line = False  # whether the line is on the terminal
terminal = threading.Lock()  # held by the thread that writes to it


def reading(size, done, name="the file"):
    """Sets the file that is being read from here on."""
    global now
    now = Share(size, done, name)


def counted(stream, size, name):
    """The same stream, with its share shown."""
    found = Counted(stream)
    reading(size, lambda: found.count, name)
    return found


def is_wanted():
    """Whether to show the line, by the rule of ./raire: on a terminal that can move back in a line, without RAIRE_QUIET, and with no other terminal for
    standard output."""
    if os.environ.get("RAIRE_QUIET") or os.environ.get("TERM", "dumb") == "dumb" or not os.isatty(2):
        return False
    return not os.isatty(1) or os.path.samestat(os.fstat(1), os.fstat(2))


def memory():
    """The memory that this process uses, in words; nothing if the system doesn't say."""
    with contextlib.suppress(OSError), open("/proc/self/status") as file:
        for line in file:
            name, _, value = line.partition(":")
            if name == "VmRSS":
                return f", {int(value.split()[0]) // 1024} MB"
    return ""


def put(text):
    with contextlib.suppress(OSError):
        os.write(2, text.encode(errors="replace"))


def show(words, ended):
    """Shows the line until the call has ended."""
    global has_line
    what = "".join(c if c.isprintable() else "?" for c in " ".join(words))
    start = time.monotonic()
    while not ended.wait(EACH if has_line else FIRST):
        with terminal:
            put(LINE.format(what=what, seconds=int(time.monotonic() - start), memory=memory(), share=now or ""))
            has_line = True
    with away():
        pass


@contextlib.contextmanager
def away():
    """Removes the line while this lasts, so that others may write to the terminal."""
    global has_line
    with terminal:
        if has_line:
            put(GONE)
            has_line = False
        yield


@contextlib.contextmanager
def shown(words):
    """Shows the line while this lasts. Anything else that writes to the terminal removes it first. Ctrl-C ends the process by its signal."""
    if not is_wanted():
        yield
        return
    ended, stopped = threading.Event(), False
    line = threading.Thread(target=show, args=(words, ended), daemon=True)
    line.start()
    try:
        yield
    except KeyboardInterrupt:
        stopped = True
    finally:
        ended.set()
        line.join()
    if stopped:
        signal.signal(signal.SIGINT, signal.SIG_DFL)
        os.kill(os.getpid(), signal.SIGINT)
