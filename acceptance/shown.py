#!/usr/bin/env python3
"""Tries what ./raire shows on a terminal while the program or a tool of the office runs, with pseudo terminals.

acceptance/shown.py PROGRAM has a stand-in sleep and print. It looks at every byte that the terminal and the files get, at the status and at what is left on
the terminal's last line, and also tries Ctrl-C. Closed pipes and full disks are tried with PROGRAM. The last line says how many came out as they should.
"""
import contextlib
import fcntl
import os
import re
import select
import signal
import subprocess
import sys
import tempfile
import termios
import time

import places  # noqa: F401
import walk

SLOW = 3.3  # seconds; the line is there for about the last one
PATIENCE = 600
STAND_IN = """#!/bin/bash
[ "$1" != slow ] || sleep {seconds}
printf 'one\\ntwo\\n'
[ "$2" = none ] || printf 'raire: a refusal\\n' >&2
exit 3
"""
OF_TOOLS = rb"\r\x1b\[\?7lraire: (?:convert|agree|boxes) [^\r\n]*: [0-9]+ s, [0-9]+ MB(?:, ([0-9]+) percent of [^\r\n]* read)?; Ctrl-C stops it\x1b\[K\x1b\[\?7h"
EXPORTED = 500_000  # cards of an export that takes a few seconds
LINE = rb"\r\x1b\[\?7lraire: slow[^\r\n]*: [0-9]+ s, [0-9]+ MB; Ctrl-C stops it\x1b\[K\x1b\[\?7h"
GONE = b"\r\x1b[K"
OUT, ERR, STATUS = b"one\ntwo\n", b"raire: a refusal\n", 3


@contextlib.contextmanager
def terminal():
    """Both ends of a pseudo terminal that passes bytes on unchanged, and knows Ctrl-C."""
    own, other = os.openpty()
    modes = termios.tcgetattr(other)
    modes[1] &= ~termios.OPOST
    modes[3] &= ~termios.ECHO
    termios.tcsetattr(other, termios.TCSANOW, modes)
    try:
        yield own, other
    finally:
        os.close(own)


def take_terminal():
    os.setsid()
    for end in (2, 1):
        with contextlib.suppress(OSError):
            fcntl.ioctl(end, termios.TIOCSCTTY, 0)
            return


def ran(words, out=None, err=None, press=None, line=LINE, **given):
    """The status, everything that the terminal got, and the seconds. `out` and `err` are files that replace the terminal; Ctrl-C is pressed once the line
    is there."""
    with terminal() as (own, other):
        env = {**{name: value for name, value in os.environ.items() if name not in ("RAIRE_QUIET", "RAIRE")}, "TERM": "xterm", **given}
        start = time.monotonic()
        begun = subprocess.Popen(words, stdin=subprocess.DEVNULL, stdout=out or other, stderr=err or other, env=env, preexec_fn=take_terminal)
        os.close(other)
        got = b""
        while time.monotonic() < start + PATIENCE:
            if select.select([own], [], [], 0.1)[0]:
                try:
                    data = os.read(own, 65536)
                except OSError:  # all have closed the other end
                    break
                got += data
                if press and re.search(line, got):
                    os.write(own, press)
                    press = None
            elif begun.poll() is not None and (out and err):
                break
        return begun.wait(PATIENCE), got, time.monotonic() - start


class Tried:
    def __init__(self):
        self.count = self.failed = 0

    def see(self, shows, holds, told=""):
        self.count += 1
        if not holds:
            self.failed += 1
            print(f"shown: {shows}: not so {told}")


def is_shown(got, then, line=LINE):
    """Whether the terminal got the line, once or more, then nothing of it, then these bytes."""
    return re.fullmatch(b"(?:" + line + b")+" + re.escape(GONE + then), got) is not None


def shown(tried, script, folder):
    got = ran([script, "quick"])
    tried.see("a short run shows nothing", got[:2] == (STATUS, OUT + ERR), got)
    got = ran([script, "slow", "a b"])
    tried.see("a long run shows a line, which goes away", got[0] == STATUS and is_shown(got[1], OUT + ERR), got)
    for words, given, why in ((["slow"], {"RAIRE_QUIET": "1"}, "RAIRE_QUIET"), (["slow"], {"TERM": "dumb"}, "a terminal that can't")):
        got = ran([script, *words], **given)
        tried.see(f"{why}: nothing is shown", got[:2] == (STATUS, OUT + ERR), got)
    path = os.path.join(folder, "out")
    for word, then in (("slow", ERR), ("quick", ERR)):
        with open(path, "wb") as file:
            got = ran([script, word], out=file)
        with open(path, "rb") as file:
            tried.see(f"{word}: a file has the program's bytes", file.read() == OUT)
        holds = is_shown(got[1], then) if word == "slow" else got[1] == then
        tried.see(f"{word}: the line is on the terminal alone", got[0] == STATUS and holds, got)
    with open(path, "wb") as file:
        got = ran([script, "slow", "none"], out=file)
    tried.see("where nothing is printed, nothing is left of the line", got[0] == STATUS and is_shown(got[1], b""), got)
    with open(path, "wb") as file:
        got = ran([script, "slow"], err=file)
    with open(path, "rb") as file:
        tried.see("where standard error is a file, nothing is shown", got[:2] == (STATUS, OUT) and file.read() == ERR, got)
    done = subprocess.run([script, "slow"], capture_output=True)
    tried.see("without a terminal nothing is shown", (done.returncode, done.stdout, done.stderr) == (STATUS, OUT, ERR))


def tools(tried, folder):
    """A tool of the office shows how much of an export it has read, and what it waits for."""
    export, out = os.path.join(folder, "export.csv"), os.path.join(folder, "out")
    with open(export, "w") as file:
        file.write("id,1,2\n")
        file.writelines(f"b{number // 1000}_{number % 1000 + 1},Ash,Birch\n" for number in range(EXPORTED))
    words = [os.path.join(walk.TOP, "tools", "convert"), "plain", export]
    with open(out, "wb") as file:
        status, got, _ = ran(words, out=file, RAIRE_QUIET="1")
    tried.see("a tool shows nothing where RAIRE_QUIET is set", status == 0 and got.startswith(b"./raire convert plain ") and b"\r" not in got, (status, got[:200]))
    account = got
    with open(out, "wb") as file:
        status, got, _ = ran(words, out=file)
    tried.see("a tool shows a line, which goes away", status == 0 and is_shown(got, account, OF_TOOLS), (status, got[-500:]))
    shares = [int(share) for share in re.findall(OF_TOOLS, got) if share]
    tried.see("the share of the file that is read rises", shares == sorted(shares) and shares and 0 < shares[0] <= shares[-1] <= 100, shares)
    with open(out, "wb") as file:
        status, got, _ = ran(words, out=file, press=b"\x03", line=OF_TOOLS)
    tried.see("Ctrl-C ends a tool as its signal does", status == -2 and is_shown(got, b"", OF_TOOLS) and os.path.getsize(out) == 0, (status, got))
    done = subprocess.run([os.path.join(walk.TOP, "tools", "convert"), "plain", export], capture_output=True)
    tried.see("without a terminal a tool shows nothing", (done.returncode, done.stderr) == (0, account), done.stderr[:200])
    slow, ballots = os.path.join(folder, "slow"), os.path.join(folder, "b.raire")
    with open(slow, "w") as file:
        file.write(f"#!/bin/bash\nsleep {SLOW}\nprintf 'raire: a refusal\\n' >&2\nexit 2\n")
    os.chmod(slow, 0o755)
    with open(ballots, "w") as file:
        file.write("1\nContest,1,2,a,b\n1,b_1,a\n")
    status, got, _ = ran([os.path.join(walk.TOP, "tools", "boxes"), ballots, ballots], RAIRE=slow)
    tried.see("a tool that asks the program shows a line", status == 2 and is_shown(got, ERR, OF_TOOLS), (status, got))


def stopped(tried, script, folder):
    """Ctrl-C ends the script at once, as its signal does, and ends the program with it."""
    path = os.path.join(folder, "out")
    for is_file in (False, True):
        with open(path, "wb") as file:
            status, got, seconds = ran([script, "slow"], out=file if is_file else None, press=b"\x03")
        tried.see("Ctrl-C ends the run as its signal does", status == -2 and seconds < SLOW + 1, (status, got, seconds))
        tried.see("Ctrl-C: nothing is left of the line", is_shown(got, b""), got)
    status, got, _ = ran(["bash", "-c", f"{script} slow; echo on"], press=b"\x03")
    tried.see("Ctrl-C ends the script that called it", b"on" not in got and status != 0, (status, got))


def failing_outputs(tried, script, program):
    """With a terminal for its standard error, the script ends as the program does, and says the same."""
    words = ["search", os.path.join(walk.TOP, "examples", "five_ballots.raire")]
    for name in ("full", "closed"):
        results = []
        for first in (script, program):
            if name == "full":
                with open("/dev/full", "wb") as file:
                    results.append(ran([first, *words], out=file)[:2])
            else:
                other, end = os.pipe()
                os.close(other)
                with open(end, "wb") as file:
                    results.append(ran([first, *words], out=file)[:2])
        tried.see(f"a {name} output: as the program", results[0] == results[1] and results[0][0] != 0, results)
    got, own = ran([script, *words]), subprocess.run([program, *words], capture_output=True)
    tried.see("a terminal gets the program's bytes", got[:2] == (own.returncode, own.stdout), got)


def main():
    signal.signal(signal.SIGINT, signal.default_int_handler)  # a shell that runs this in the background has it ignored
    program, tried = os.path.abspath(sys.argv[1]), Tried()
    with tempfile.TemporaryDirectory() as folder:
        stand_in, script, own = (os.path.join(folder, name) for name in ("stand_in", "raire", "raire_of_program"))
        with open(stand_in, "w") as file:
            file.write(STAND_IN.format(seconds=SLOW))
        os.chmod(stand_in, 0o755)
        walk.write_stand_in(stand_in, script)
        walk.write_stand_in(program, own)
        shown(tried, script, folder)
        stopped(tried, script, folder)
        failing_outputs(tried, own, program)
        tools(tried, folder)
    print(f"{tried.count - tried.failed} things that ./raire shows while the program or a tool runs as they should be, {tried.failed} not")
    sys.exit(1 if tried.failed else 0)


if __name__ == "__main__":
    main()
