#!/usr/bin/env python3
"""Proves the crates that the program depends on, builds the program, and puts it into crates/raire/out. Prints its progress, and what is refused.

It copies the crates to a separate folder, where `rt ci` proves them as the gate does, in three steps. The lowest crate comes first, with all processors.
Then come the crates up to the top call, as many at a time as there are processors, starting with those that the longest chain of others waits for. The
program itself comes last, again with all processors. If the kit can keep what was proved on this machine before, it isn't proved again. If the kit can't,
everything is one step.
"""
import os
import re
import shutil
import signal
import subprocess
import sys
import tempfile
import time

TOP = os.path.dirname(os.path.dirname(os.path.dirname(os.path.abspath(__file__))))
PROGRAM = "raire"
PARTS = ("src", "specs", "proofs")
LOWEST, TOP_CALL = "irv_base", "raire_cli"
SECONDS_A_LINE = 0.05  # for a crate that has no time yet
A_PROOF = 3_000_000_000  # bytes; most proofs take a third of this, the largest a little more
REFUSED = 70  # the exit status


def named_in(path):
    """Each crate of the list, lowest first, with the crates that it names."""
    with open(path) as file:
        rows = [line.split(":") for line in file if ":" in line and not line.startswith("#")]
    return {row[0].split()[0]: row[1].split() for row in rows}


def below(crate, named):
    """The crates of the list that this one depends on."""
    found = {it for it in named[crate] if it in named}
    for it in [*found]:
        found |= below(it, named)
    return found


def lines_of(crate):
    """The number of lines of the crate."""
    count = 0
    for part in PARTS:
        for folder, _, files in os.walk(os.path.join(TOP, "crates", crate, part)):
            for name in files:
                with open(os.path.join(folder, name), "rb") as file:
                    count += file.read().count(b"\n")
    return count


def measured():
    """The processor seconds of each crate that was measured."""
    with open(os.path.join(TOP, "tools", "build", "seconds.txt")) as file:
        rows = [line.split() for line in file if not line.startswith("#")]
    return {crate: float(it) for crate, it in rows}


class Build:
    """The crates that the program depends on, and what is known about their times."""

    def __init__(self, named, seconds, processors):
        self.named, self.processors = named, processors
        self.below = {it: below(it, named) for it in named if it == PROGRAM or it in below(PROGRAM, named)}
        self.seconds = {it: seconds.get(it) or SECONDS_A_LINE * lines_of(it) for it in self.below}
        self.told, self.chains = [], {}

    def ends(self):
        """When each crate is done, in seconds from the start, with a processor for each crate and the longest chain first."""
        left, running, done, now = sorted(self.below, key=lambda it: -self.chain(it)), {}, {}, 0.0
        while left or running:
            ready = [it for it in left if not self.below[it] - done.keys()]
            for it in ready[: self.processors - len(running)]:
                left.remove(it)
                running[it] = now + self.seconds[it]
            first = min(running, key=running.get)
            done[first] = now = running.pop(first)
        return done

    def above(self, crate):
        """The crates that depend on this one directly."""
        return [it for it in self.below if crate in self.named[it]]

    def chain(self, crate):
        """The seconds of the longest chain of crates from this one up, where each waits for the one before."""
        if crate not in self.chains:
            self.chains[crate] = self.seconds[crate] + max(map(self.chain, self.above(crate)), default=0.0)
        return self.chains[crate]

    def tell(self, crate, is_kept, passed):
        """The line for a crate that is done after this many seconds."""
        if is_kept:
            self.seconds[crate], self.chains = 0.0, {}
        self.told.append(crate)
        clock = f"{int(passed) // 60}:{int(passed) % 60:02d}"
        return f"{clock}  {len(self.told)} of {len(self.below)}: {crate}{self.left(passed)}"

    def left(self, passed):
        """About how long the rest takes, at the pace of what is done."""
        done = self.ends()
        reached = max(done[crate] for crate in self.told)
        rest = max(done.values()) - reached
        if not reached or not rest:
            return ""
        minutes = round(rest * passed / reached / 60)
        return f"; about {minutes} minutes left" if minutes > 1 else "; about a minute left"


def copied(named, crates, to):
    """Copies these crates and what belongs to them, so that the copy is a repository."""
    os.makedirs(os.path.join(to, ".git"))
    with open(os.path.join(to, "crates.txt"), "w") as file:
        file.writelines(f"{it}: {' '.join(named[it])}\n" for it in named if it in crates)
    shutil.copy(os.path.join(TOP, "HANDLES"), to)
    apart = shutil.ignore_patterns("out", "must-fail", "more-must-fail")
    for it in crates:
        shutil.copytree(os.path.join(TOP, "crates", it), os.path.join(to, "crates", it), ignore=apart)


def say(text):
    print(f"raire: {text}", file=sys.stderr, flush=True)


def free_memory():
    """The bytes of memory that are free, or 0 if the system doesn't say."""
    try:
        with open("/proc/meminfo") as file:
            return 1024 * int(re.search(r"MemAvailable:\s+(\d+)", file.read())[1])
    except (OSError, TypeError):
        return 0


def can_keep():
    """Whether the kit keeps what it proves: it can write next to its own folder, and that disk has 5 GB free."""
    kit = os.path.dirname(os.path.dirname(os.path.realpath(shutil.which("rt"))))
    store = os.path.join(os.path.dirname(kit), "rattle-kept")
    place = store if os.path.isdir(store) else os.path.dirname(kit)
    return os.access(place, os.W_OK) and shutil.disk_usage(place).free > 5_000_000_000


def steps(processors):
    """The calls of `rt ci` in order: the crates that each names, and how many proofs it runs at a time, or None if the kit chooses."""
    if not can_keep():
        return [([], None)]
    at_once = min(processors, free_memory() // A_PROOF)
    return [([LOWEST], None), ([TOP_CALL], at_once or None), ([], None)]


def refusals(build, folder):
    """Runs each step in the folder and reports each crate that is done. If a step fails, returns what it said about what it refused, or else its last lines."""
    start = time.monotonic()
    for names, at_once in steps(build.processors):
        refused = refusals_of(build, folder, names, at_once, start)
        if refused:
            return refused
    return []


def refusals_of(build, folder, names, at_once, start):
    """The same for one call of `rt ci`."""
    said, refused = [], []
    given = {**os.environ, **({"RT_JOBS": str(at_once)} if at_once else {})}
    words = ["rt", "ci", *names]
    streams = {"stdin": subprocess.DEVNULL, "stdout": subprocess.PIPE, "stderr": subprocess.STDOUT}
    with subprocess.Popen(words, cwd=folder, env=given, **streams, text=True, errors="replace") as ran:
        try:
            for line in ran.stdout:
                line = line.replace(folder, TOP)  # the copy is gone when this is read
                done = re.match(r"rt: (\w+)(: its tests are)? (proved|is kept|NOT PROVED)", line)
                said = [line] if line.startswith("== ") else [*said, line]
                if line.startswith("rt: note: "):
                    say(line.removeprefix("rt: note: ").rstrip())
                if not done or done[1] not in build.below:
                    continue
                if done[3] == "NOT PROVED":
                    refused += said
                elif not done[2] and done[1] not in build.told:
                    say(build.tell(done[1], done[3] == "is kept", time.monotonic() - start))
                said = []
        except BaseException:
            ran.kill()  # the checks that it started end with it
            raise
    return (refused or said or [f"rt ci ended with status {ran.returncode}\n"]) if ran.returncode else []


def see_kit():
    """Prints a note if this kit isn't one of those with which everything was proved."""
    kit = subprocess.run(["rt", "version"], capture_output=True, text=True).stdout.strip()
    with open(os.path.join(TOP, "tools", "build", "kits.txt")) as file:
        tried = [line.strip() for line in file if not line.startswith("#")]
    if not any(kit == it or kit.startswith(f"{it} ") for it in tried):
        say(f"this kit ({kit}) isn't one of those that were tried: {', '.join(it.split()[0] for it in tried)}; the build continues")


def stopped(*_):
    say("stopped; the program was not built")
    sys.exit(REFUSED)


def main():
    import built  # it depends on this module

    for it in (signal.SIGINT, signal.SIGTERM, signal.SIGHUP):
        signal.signal(it, stopped)
    named = named_in(os.path.join(TOP, "crates.txt"))
    build = Build(named, measured(), len(os.sched_getaffinity(0)))
    minutes = round(max(build.ends().values()) / 60)
    say(f"proving and building {len(build.below)} crates; from nothing this takes some {minutes} minutes or more")
    made = os.path.join("crates", PROGRAM, "out", PROGRAM)
    if not shutil.which("rt"):
        say("there is no `rt` on the path: the kit isn't set up")
        return REFUSED
    see_kit()
    with tempfile.TemporaryDirectory(prefix="raire-", ignore_cleanup_errors=True) as folder:
        begun = os.stat(folder).st_mtime_ns
        try:
            copied(named, build.below, folder)
            sources = built.digest_of_sources(folder)
            refused = refusals(build, os.path.realpath(folder))
            if refused:
                sys.stderr.writelines(refused)
                say("the program was not built")
                return REFUSED
            new = os.path.join(TOP, f"{made}.new")
            os.makedirs(os.path.dirname(new), exist_ok=True)
            shutil.copy(os.path.join(folder, made), new)
            os.utime(new, ns=(begun, begun))  # so that a source that was changed since the copy is newer
            os.replace(new, os.path.join(TOP, made))
            built.Record().write(sources, "./raire --build")
        except OSError as error:
            why = error.args[0][0][2] if isinstance(error, shutil.Error) else error
            say(f"the program was not built: {why}")
            return REFUSED
    return 0


if __name__ == "__main__":
    sys.exit(main())
