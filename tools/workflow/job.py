"""Runs a job, which is one step for all contests of a batch: job.py PLAN STEP BATCH. Failures are reported after all others are done."""
import os
import sys

sys.dont_write_bytecode = True
sys.path[:0] = [os.path.join(os.path.dirname(os.path.realpath(__file__)), name) for name in (".", "../office", "../page", "../../plain")]

import steps  # noqa: E402
from counties import Plan, write_whole  # noqa: E402
from runs import Failed  # noqa: E402


def identity(path):
    stat = os.stat(path)
    return stat.st_ino, stat.st_mtime_ns


class Job:
    def __init__(self, path):
        self.path, self.identity = path, identity(path)
        self.plan, self.failed, self.lines = Plan.read(path), set(), []

    def do(self, step, batch):
        """Does the step for each county and contest for which no earlier step failed."""
        for does, who, runs in steps.each(self.plan, step, batch):
            if identity(self.path) != self.identity:
                sys.exit("job.py: a later run has another plan")
            if runs.what not in self.failed:
                self.attempt(does, who, runs)

    def attempt(self, does, who, runs):
        try:
            does(who, runs)
        except Failed as failed:
            self.failed.add(runs.what)
            self.lines.append(f"{failed}\n")


def main(path, step, batch):
    job = Job(path)
    job.do(step, batch)
    if not job.failed:
        write_whole(steps.done(job.plan, step, batch), b"")
        return 0
    for later in steps.later(job.plan, step):  # Snakemake doesn't start these jobs, and the other contests of the batch need nothing from what failed
        job.do(later, batch)
    write_whole(steps.failures(job.plan, step, batch), "".join(job.lines).encode(errors="replace"))
    sys.stderr.writelines(job.lines)
    return 1


if __name__ == "__main__":
    sys.exit(main(*sys.argv[1:]))
