"""./raire state: plans the jobs of a state, has Snakemake run them, and reports the results."""
import contextlib
import fcntl
import os
import shutil
import signal
import subprocess
import sys
import time

import counties
import runs
import steps
from ask import Refusal, TOP
from counties import MADE, Plan, write_whole
from terms import NAME as TERMS
from words import ask_for_help, help_of, put, Words

NAME = "state"
SNAKEMAKE = "snakemake"
OWN = os.path.join(TOP, "crates", "raire", "out", "raire")
HERE = os.path.dirname(os.path.abspath(__file__))
CONTESTS_A_JOB, SECONDS_A_RUN = 50, 600
LAST_LINES = 20  # of Snakemake's output, if no step says why it failed
FAILED = 1


def told(text):
    return Refusal(1, f"{NAME}: {text}\n")


def say(text):
    sys.stderr.write(f"{NAME}: {text}\n")
    sys.stderr.flush()


def number_of(count, one, more=""):
    return f"{count} {one if count == 1 else more or one + 's'}"


def words_of(words):
    """The words of ./raire state and, after a word --, those for Snakemake."""
    own, further = (words[:words.index("--")], words[words.index("--") + 1:]) if "--" in words else (words, [])
    parser = Words(NAME)
    parser.add_argument("folder")
    for name in ("--jobs", "--group", "--seconds"):
        parser.option(name)
    parser.option("--profile")
    parser.add_argument("--without-pages", action="store_true")
    given = parser.parse_args(own)
    for name in ("jobs", "group", "seconds"):
        text = getattr(given, name)
        if text is not None and not (text.isascii() and text.isdigit() and 1 <= int(text) <= 100_000):
            raise told(f"--{name} is a number from 1 to 100000, and not {text}")
    return given, further


def program():
    """The path of the program, and its version if it is this clone's own."""
    given = os.environ.get("RAIRE")
    if given:
        path = shutil.which(given)
        if path is None:
            raise told(f"RAIRE names no program: {given}")
        return os.path.abspath(path), ""
    script = os.path.join(TOP, "raire")
    if subprocess.run([script, "--build"], stdin=subprocess.DEVNULL, stdout=subprocess.DEVNULL).returncode:
        raise Refusal(70, f"{NAME}: there is no program to run\n")
    return OWN, subprocess.run([script, "--version"], capture_output=True, text=True).stdout.strip()


def see_engine(with_pages):
    if not shutil.which(SNAKEMAKE):
        raise told("the engine is missing: apt-get install snakemake")
    if with_pages:
        try:
            import jinja2  # noqa: F401
        except ImportError:
            raise told("templates are missing: apt-get install python3-jinja2; or give --without-pages") from None


@contextlib.contextmanager
def alone(top):
    """Allows one run at a time in a folder. Snakemake gets the lock too, so the lock ends when neither of them runs, however they end."""
    os.makedirs(os.path.join(top, MADE), exist_ok=True)
    with open(os.path.join(top, MADE, ".lock"), "w") as file:
        try:
            fcntl.flock(file, fcntl.LOCK_EX | fcntl.LOCK_NB)
        except BlockingIOError:
            raise told(f"another run works in {top}; wait until it and its Snakemake have ended") from None
        except OSError as fault:
            say(f"{top}: this file system has no locks ({fault.strerror}): see that no other run works here")
        yield file.fileno()


def plan_of(given):
    top = os.path.abspath(given.folder)
    path, version = program()
    with open(path, "rb") as file:
        digest = counties.digest_of(file.read())
    found = counties.read(top)
    batches = counties.batches_of(found, int(given.group or CONTESTS_A_JOB))
    return Plan(top, path, digest, version, int(given.seconds or SECONDS_A_RUN), not given.without_pages, batches)


def not_read(plan):
    """Lines about files of readings that no look asks for: their names or places, or the table's draws or audits, may be wrong."""
    asked = []
    for county in plan.counties():
        asked += [(county.terms, county.given(), county.looks(plan.top) if county.one_call() else [])]
        for contest in county.contests:
            asked += [(contest.terms, contest.given(counties.name_of(contest.id)), contest.looks(plan.top) if contest.terms.audit == "session" else [])]
    for terms, folder, looks in asked:
        if terms.audit in ("contests", "session"):
            read = [look.seen for look in looks]
            yield from (f"{path} isn't read: no look of {TERMS} asks for it" for path in counties.seen_in(plan.top, folder) if path not in read)


def prepare(plan):
    """Removes the marks of finished steps whose outputs are missing, cut off, or from other files. Returns the number of jobs that are left."""
    for part in list(runs.parts_of(plan.top)):
        with contextlib.suppress(OSError):
            os.remove(part)
    shutil.rmtree(os.path.join(plan.top, MADE, "runs", "failed"), ignore_errors=True)
    digests, left = runs.Digests(plan.top), 0
    for batch in plan.batches:
        is_whole = True
        for step in steps.names(plan):
            is_whole = is_whole and os.path.exists(steps.done(plan, step, batch)) and is_kept(plan, step, batch, digests)
            if not is_whole:
                left += 1
                with contextlib.suppress(FileNotFoundError):
                    os.remove(steps.done(plan, step, batch))
    drop_other_batches(plan)
    return left


def is_kept(plan, step, batch, digests):
    try:
        for does, who, of in steps.each(plan, step, batch, False, digests):
            does(who, of)
    except (runs.Missing, runs.Failed):
        return False
    return True


def drop_other_batches(plan):
    folder = os.path.join(plan.top, MADE, "runs", "done")
    for name in os.listdir(folder) if os.path.isdir(folder) else []:
        step, _, batch = name.partition(".")
        if batch not in plan.batches or step not in steps.names(plan):
            os.remove(os.path.join(folder, name))


def command(plan, given, further):
    words = [SNAKEMAKE, "--snakefile", os.path.join(HERE, "Snakefile"), "--directory", os.path.join(plan.top, MADE), "--nolock", "--rerun-incomplete"]
    words += ["--rerun-triggers", "mtime", "--keep-going", "--quiet", "rules"]
    profile = given.profile
    if profile:
        own = os.path.join(HERE, profile)
        words += ["--profile", own if os.path.isdir(own) else profile]
        words += ["--jobs", given.jobs] if given.jobs else []
    else:
        words += ["--cores", given.jobs or str(len(os.sched_getaffinity(0)))]
    return words + further


def count_done(plan):
    return sum(os.path.exists(steps.done(plan, step, batch)) for batch in plan.batches for step in steps.names(plan))


def send(group, number):
    with contextlib.suppress(ProcessLookupError):
        os.killpg(group, number)


def run_jobs(plan, words, left, lock):
    """Has Snakemake run the jobs, and reports after each tenth how many are done. Leaves no process of a job on this machine."""
    log = os.path.join(plan.top, MADE, "snakemake.log")
    start, before, shown = time.monotonic(), count_done(plan), 0
    with open(log, "w") as file, subprocess.Popen(words, stdin=subprocess.DEVNULL, stdout=file, stderr=file, pass_fds=[lock], process_group=0) as ran:
        try:
            while ran.poll() is None:
                with contextlib.suppress(subprocess.TimeoutExpired):
                    ran.wait(1)
                made = count_done(plan) - before
                if made * 10 // left > shown:
                    shown = made * 10 // left
                    say(f"{made} of {number_of(left, 'job')} done after {number_of(round(time.monotonic() - start), 'second')}")
        except KeyboardInterrupt:
            send(ran.pid, signal.SIGINT)  # it stops its jobs, including those on a cluster
            ran.wait()
            raise
        finally:
            send(ran.pid, signal.SIGKILL)
    return ran.returncode, log


def failures(plan):
    """The lines about what failed, each with its county and contest."""
    lines = []
    for step in steps.names(plan):
        for batch in plan.batches:
            with contextlib.suppress(FileNotFoundError):
                with open(steps.failures(plan, step, batch), errors="replace") as file:
                    lines += file.read().splitlines()
    return lines


def by_contest(plan, lines):
    """The line of each county and contest. One name may be the beginning of another: the longest is meant."""
    names = {county.name: (county.name, "") for county in plan.counties()}
    names.update({contest.name(): (county.name, contest.id) for county in plan.counties() for contest in county.contests})
    found = {}
    for line in lines:
        fitting = [line[:at] for at in range(len(line)) if line[at : at + 2] == ": " and line[:at] in names]
        found.update({names[name]: line for name in fitting[-1:]})
    return found


def sum_up(plan, lines):
    """Writes the summary. If every step is done, also removes what an earlier run made from other contests."""
    from summary import Summary

    summary = Summary(plan, by_contest(plan, lines))
    made = {"summary.csv": summary.table(), **({"index.html": summary.page()} if plan.pages else {})}
    for name, data in made.items():
        write_whole(os.path.join(plan.top, MADE, name), data)
        summary.outputs[os.path.join(MADE, name)] = counties.digest_of(data)
    if summary.is_done():
        for path in list(summary.left_over()):
            os.remove(os.path.join(plan.top, path))
    write_whole(os.path.join(plan.top, MADE, "digests"), summary.digests())
    return summary


def run(given, further):
    see_engine(not given.without_pages)
    if not os.path.isdir(os.path.join(given.folder, "counties")):
        raise told(f"{given.folder} has no folder counties")
    try:
        return run_in(os.path.abspath(given.folder), given, further)
    except OSError as fault:
        raise Refusal(8, f"{NAME}: {fault.filename or os.path.join(given.folder, MADE)}: {fault.strerror}\n") from None


def run_in(top, given, further):
    with alone(top) as lock:
        plan = plan_of(given)
        plan.write(os.path.join(top, MADE, counties.PLAN))  # this stops any job of an earlier plan that still runs somewhere
        left = prepare(plan)
        for line in not_read(plan):
            say(line)
        contests = sum(len(county.contests) for county in plan.counties())
        say(f"{number_of(contests, 'contest')} of {number_of(len(plan.counties()), 'county', 'counties')}; {number_of(left, 'job')} to do")
        status, log = run_jobs(plan, command(plan, given, further), left, lock) if left else (0, "")
        lines = failures(plan)
        summary = sum_up(plan, lines)
        for line in lines:
            say(line)
        if status and not lines:
            with open(log, errors="replace") as file:
                sys.stderr.writelines(file.readlines()[-LAST_LINES:])
            say(f"{SNAKEMAKE} ended with status {status}; its output is in {log}")
        counts = ", ".join(f"{count} {state}" for state, count in summary.counts().items())
        put(NAME, f"{counts}\n{os.path.join(given.folder, MADE, 'summary.csv')}\n")
        return 0 if summary.is_done() and not status else FAILED


def main(words):
    for number in (signal.SIGTERM, signal.SIGHUP):
        if signal.getsignal(number) == signal.SIG_DFL:
            signal.signal(number, signal.default_int_handler)
    try:
        if ask_for_help(words):
            put(NAME, help_of(NAME))
            return 0
        return run(*words_of(words))
    except Refusal as refusal:
        sys.stderr.write(refusal.text)
        return refusal.status
    except KeyboardInterrupt:
        say("stopped; run it again, and it makes what is missing")
        return FAILED
