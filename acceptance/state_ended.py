"""A state whose processes, jobs and nodes are ended in the middle, and whose outputs are cut off."""
import contextlib
import hashlib
import os
import re
import signal
import subprocess
import time

import slurm
from state_folder import PATIENCE, read, times, whole

PAUSE = 0.02


def processes(session):
    """The words with which each process of a session was called, by its number."""
    found = {}
    for name in filter(str.isdigit, os.listdir("/proc")):
        with contextlib.suppress(OSError):
            _, _, _, its, *_ = read("/proc", name, "stat").rpartition(b") ")[2].split()
            if int(its) == session:
                found[int(name)] = read("/proc", name, "cmdline")
    return found


def kill(session, word=b"", most=None):
    """Kills the processes of a session whose words contain this one, and returns how many were killed."""
    numbers = [number for number, words in processes(session).items() if word in words][:most]
    for number in numbers:
        with contextlib.suppress(ProcessLookupError):
            os.kill(number, signal.SIGKILL)
    return len(numbers)


def kill_everything(tried, folder, session):
    return kill(session)


def kill_snakemake(tried, folder, session):
    """Kills Snakemake; ./raire state then ends its jobs."""
    return kill(session, b"--snakefile")


def kill_job(tried, folder, session):
    """Kills a job, and a little later all others."""
    count = kill(session, b"job.py", 1)
    time.sleep(0.3)
    return count and kill(session)


def kill_caller(tried, folder, session):
    """First kills only ./raire state, whose Snakemake continues and keeps the folder; then Snakemake, so that the next run begins while its jobs still run."""
    os.kill(session, signal.SIGKILL)
    if any(b"--snakefile" in words for words in processes(session).values()):
        status, out, err = tried.run(folder, "--without-pages")
        tried.see("what goes on keeps others out", (status, out) == (1, "") and "another run works in" in err, err)
    return 1 + kill(session, b"--snakefile")


WAYS = (kill_everything, kill_snakemake, kill_job, kill_caller)


class Killed:
    """A run that is killed again and again. `wanted` has the SHA-256 of each output."""

    def __init__(self, tried, folder, words, wanted):
        self.tried, self.folder, self.words, self.wanted = tried, folder, words, wanted
        self.kept, self.killed, self.amid, self.cut, self.anew = {}, 0, 0, 0, 0
        self.count = sum(path.startswith(("made/contests/", "made/counties/")) for path in wanted)

    def once(self, way, count):
        """Starts the run, and kills it once `count` outputs are there; then each of them must be whole."""
        with subprocess.Popen(self.words, stdout=subprocess.DEVNULL, stderr=subprocess.DEVNULL, env=self.tried.given(), start_new_session=True) as begun:
            killed = False
            while begun.poll() is None and not killed:  # what is to be killed may not have started yet
                time.sleep(PAUSE)
                killed = len(whole(self.folder)) >= count and way(self.tried, self.folder, begun.pid)
            self.killed += bool(killed)
        self.see_whole()
        self.amid += bool(killed) and len(self.kept) < self.count

    def see_whole(self):
        there = whole(self.folder)
        broken = [path for path in there if self.digest(path) != self.wanted.get(os.path.relpath(path, self.folder))]
        self.tried.see("what has its name is whole", not broken, broken)
        self.anew += sum(there.get(path) != time for path, time in self.kept.items())
        self.kept = there

    @staticmethod
    def digest(path):
        with open(path, "rb") as file:
            return hashlib.file_digest(file, "sha256").hexdigest()

    def cut_some(self):
        """Cuts outputs off by hand."""
        for path in sorted(self.kept)[self.cut % 4::4]:
            os.truncate(path, os.path.getsize(path) // 2)
            del self.kept[path]
            self.cut += 1


def cut_off(tried, folder, digests, group, instants):
    """Kills a run at some instants, each time in another way; then cuts outputs off by hand, and starts it again."""
    wanted = {path: digest for digest, _, path in (line.partition("  ") for line in digests.decode().splitlines())}
    words = tried.words(folder, "--group", group, "--without-pages")
    run = Killed(tried, folder, words, wanted)
    for at in range(instants):
        run.once(WAYS[at % len(WAYS)], run.count * (at + 1) // (instants + 4))
    # A busy machine may have made everything before the kill is done, but not every time.
    tried.see("it was killed at each instant, in the middle", run.killed == instants and run.kept and run.amid > instants // 2, (run.killed, run.amid, len(run.kept)))
    time.sleep(1)  # a job of the last run ends
    run.kept = whole(folder)
    run.cut_some()
    status, out, err = tried.run(folder, "--group", group, "--without-pages")
    run.see_whole()
    tried.see("begun again it ends", status == 0, (out, err))
    tried.see("with the same digests", read(folder, "made", "digests") == digests)
    tried.see("what was whole isn't made anew, apart from what was just being recorded", run.anew <= instants * os.cpu_count(), run.anew)
    tried.see("no part of a file is left", whole(folder) == times(folder))
    print(f"state: killed at {run.killed} instants, {run.cut} of {run.count} outputs cut off by hand, {run.anew} whole ones made anew")


# ---- on Slurm

def on_slurm(tried, folder, digests, group, place):
    missing = slurm.missing()
    if missing or os.geteuid() != 0:
        print(f"acceptance/state.py: NOT TRIED: Slurm: {', '.join(missing) + ' missing' if missing else 'this needs root'}")
        return
    with contextlib.ExitStack() as stack:
        try:
            cluster = stack.enter_context(slurm.Slurm(place))
        except (OSError, TimeoutError, subprocess.SubprocessError) as fault:
            print(f"acceptance/state.py: NOT TRIED: Slurm doesn't begin here: {fault}")
            return
        harmed(tried, folder, digests, group, cluster)


def running(cluster, begun, count):
    """`count` jobs that run, or fewer if the run ends."""
    jobs, end = [], time.monotonic() + PATIENCE / 4
    while begun.poll() is None and len(jobs) < count and time.monotonic() < end:
        time.sleep(PAUSE)
        jobs = cluster.jobs()
    return jobs


def harmed(tried, folder, digests, group, cluster):
    """A job is cancelled, another is killed, and a node is lost with everything that runs there. These jobs are started again, and no others."""
    words, node = tried.words(folder, "--profile", "slurm", "--group", group, "--without-pages"), slurm.NODES[-1]
    start = time.monotonic()
    given = tried.given(cluster.given.items())
    with open(os.path.join(cluster.folder, "told"), "w+") as told, subprocess.Popen(words, stdout=told, stderr=told, env=given) as begun:
        jobs = running(cluster, begun, 2)[:2]
        if len(jobs) > 1:
            cluster.said("scancel", jobs[0])
            killed = cluster.kill(jobs[1])
            lost = running(cluster, begun, 1) and cluster.lose(node)
        status = begun.wait(PATIENCE)
        told.seek(0)
        text = told.read()
    log = read(folder, "made", "snakemake.log").decode(errors="replace")
    tried.see("two jobs were running, and were ended", len(jobs) > 1 and killed, (jobs, text))
    tried.see("on Slurm it ends all the same", status == 0, text + log)
    tried.see("with the same digests as on this machine", status == 0 and read(folder, "made", "digests") == digests)
    ended = {job: cluster.end_of(job) for job in re.findall("with external jobid '([0-9]+)'", log)}
    again = {job: end for job, end in ended.items() if end[0] != "COMPLETED"}
    batches = len({name.rpartition(".")[2] for name in os.listdir(os.path.join(folder, "made", "runs", "done"))})
    tried.see("each of them was begun again", len(ended) == batches + len(again), (ended, batches))
    tried.see("and none that wasn't ended", set(jobs) <= set(again) and all(job in jobs or where == node for job, (_, where) in again.items()), again)
    seconds = round(time.monotonic() - start)
    print(f"state: on Slurm {len(ended)} jobs in {seconds} seconds; one was cancelled, one killed, and a node lost with {len(lost)}")
