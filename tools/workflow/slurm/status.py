#!/usr/bin/python3
"""Prints whether a Slurm job is running, has succeeded or has failed, in the word that Snakemake expects: status.py JOB."""
import re
import subprocess
import sys

RUN = ("PENDING", "CONFIGURING", "RUNNING", "COMPLETING", "SUSPENDED", "REQUEUED", "RESIZING", "STAGE_OUT", "SIGNALING", "STOPPED")


def said(*words):
    try:
        ran = subprocess.run(words, capture_output=True, text=True, timeout=60)
    except (OSError, subprocess.TimeoutExpired):
        return None, ""
    return ran.returncode, ran.stdout + ran.stderr


def state_of(job):
    """Slurm's word for the job's state; None if Slurm doesn't answer, and an empty text if it doesn't know the job."""
    status, text = said("scontrol", "--oneliner", "show", "job", job)
    found = re.search("JobState=([A-Z_]+)", text)
    if found:
        return found[1]
    if status is None or "Invalid job id" not in text:
        return None
    _, text = said("sacct", "--jobs", job, "--format=State", "--noheader", "--parsable2", "--allocations")
    return (re.match("[A-Z_]+", text) or [""])[0]


state = state_of(sys.argv[1])
print("running" if state is None or state in RUN else "success" if state == "COMPLETED" else "failed")
