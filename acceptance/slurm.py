"""A Slurm cluster of two nodes on this machine's loopback, which a test starts and ends: the distribution's munged, slurmctld and two slurmd."""
import contextlib
import os
import re
import secrets
import shutil
import signal
import socket
import subprocess
import time

PROGRAMS = ("munged", "slurmctld", "slurmd", "sbatch", "scancel", "scontrol", "sinfo", "squeue")
NODES = ("raire1", "raire2")
SECONDS = 60  # until the nodes are there

CONF = """\
ClusterName=raire
SlurmctldHost={host}(127.0.0.1)
SlurmctldPort={port}
SlurmUser=root
SlurmdUser=root
AuthType=auth/munge
AuthInfo=socket={folder}/munge.socket
CredType=cred/munge
CommunicationParameters=NoAddrCache
StateSaveLocation={folder}/state
SlurmdSpoolDir={folder}/spool.%n
SlurmctldPidFile={folder}/slurmctld.pid
SlurmdPidFile={folder}/slurmd.%n.pid
ProctrackType=proctrack/linuxproc
TaskPlugin=task/none
SelectType=select/cons_tres
SelectTypeParameters=CR_CPU
SchedulerParameters=sched_min_interval=100000,batch_sched_delay=0
ReturnToService=2
MinJobAge=100000
KillWait=5
InactiveLimit=0
SlurmdTimeout=30
JobAcctGatherType=jobacct_gather/none
AccountingStorageType=accounting_storage/none
SlurmctldDebug=info
SlurmdDebug=info
{nodes}
PartitionName=all Nodes={names} Default=YES MaxTime=INFINITE State=UP
"""


def missing():
    """The programs that aren't installed."""
    path = os.environ.get("PATH", "") + ":/usr/sbin:/sbin"
    return [name for name in PROGRAMS if not shutil.which(name, path=path)]


def free_ports(count):
    with contextlib.ExitStack() as stack:
        ends = [stack.enter_context(socket.socket()) for _ in range(count)]
        for end in ends:
            end.bind(("127.0.0.1", 0))
        return [end.getsockname()[1] for end in ends]


def kill_all(numbers):
    for number in numbers:
        with contextlib.suppress(ProcessLookupError):
            os.kill(number, signal.SIGKILL)


def parent_that_keeps_jobs(number):
    """The slurmstepd of a job's process, if that is its parent."""
    with contextlib.suppress(OSError):
        with open(f"/proc/{number}/stat") as file:
            parent = file.read().rpartition(") ")[2].split()[1]
        with open(f"/proc/{parent}/comm") as file:
            return int(parent) if file.read().startswith("slurmstepd") else None


class Slurm:
    """A cluster, for use in a `with`; `given` is the environment in which sbatch finds it."""

    def __init__(self, folder):
        self.folder, self.ran = folder, []
        self.given = {**os.environ, "SLURM_CONF": os.path.join(folder, "slurm.conf"), "PATH": os.environ["PATH"] + ":/usr/sbin:/sbin"}

    def write_files(self):
        control, *ports = free_ports(1 + len(NODES))
        host = socket.gethostname().partition(".")[0]
        nodes = "\n".join(
            f"NodeName={name} NodeHostname={host} NodeAddr=127.0.0.1 Port={port} CPUs={os.cpu_count()} State=UNKNOWN" for name, port in zip(NODES, ports)
        )
        with open(self.given["SLURM_CONF"], "w") as file:
            file.write(CONF.format(host=host, port=control, folder=self.folder, nodes=nodes, names=",".join(NODES)))
        with open(os.path.join(self.folder, "cgroup.conf"), "w") as file:
            file.write("CgroupPlugin=cgroup/v1\nIgnoreSystemd=yes\n")
        with open(os.open(self.path("munge.key"), os.O_WRONLY | os.O_CREAT, 0o600), "wb") as file:
            file.write(secrets.token_bytes(128))
        os.makedirs(self.path("state"))

    def path(self, name):
        return os.path.join(self.folder, name)

    def start(self, name, *words):
        log = open(self.path(f"{name}.log"), "wb")
        self.ran.append(subprocess.Popen(words, stdin=subprocess.DEVNULL, stdout=log, stderr=log, env=self.given, start_new_session=True))
        log.close()
        return self.ran[-1]

    def __enter__(self):
        os.chmod(self.folder, 0o755)
        self.write_files()
        files = {"socket": "munge.socket", "pid-file": "munge.pid", "log-file": "munged.own", "seed-file": "munge.seed", "key-file": "munge.key"}
        try:
            self.start("munged", "munged", "--foreground", "--force", *(f"--{name}={self.path(file)}" for name, file in files.items()))
            self.wait(lambda: os.path.exists(self.path("munge.socket")), "munged")
            self.start("slurmctld", "slurmctld", "-D", "-i")
            self.nodes = {name: self.start(name, "slurmd", "-D", "-N", name) for name in NODES}
            self.wait(lambda: self.said("sinfo", "--noheader", "--format=%t %D").split() == ["idle", str(len(NODES))], "the nodes")
        except BaseException:
            self.__exit__()
            raise
        return self

    def wait(self, holds, what):
        end = time.monotonic() + SECONDS
        while not holds():
            if time.monotonic() > end:
                raise TimeoutError(f"{what} of Slurm didn't begin: {self.told()}")
            time.sleep(0.2)

    def said(self, *words):
        return subprocess.run(words, capture_output=True, text=True, env=self.given, timeout=SECONDS).stdout

    def jobs(self, *more):
        """The numbers of the jobs that run."""
        return self.said("squeue", "--noheader", "--states=R", "--format=%A", *more).split()

    def end_of(self, job):
        """How a job ended, and on which node."""
        text = self.said("scontrol", "--oneliner", "show", "job", job)
        return tuple((re.search(rf" {name}=(\S+)", text) or ["", ""])[1] for name in ("JobState", "NodeList"))

    def processes(self, name, value):
        """The numbers of the processes of a job, or of all jobs of a node, by a variable that Slurm gives them."""
        for number in filter(str.isdigit, os.listdir("/proc")):
            with contextlib.suppress(OSError):
                with open(f"/proc/{number}/environ", "rb") as file:
                    given = file.read().split(b"\0")
                if f"{name}={value}".encode() in given and f"SLURM_CONF={self.given['SLURM_CONF']}".encode() in given:
                    yield int(number)

    def kill(self, job):
        """Kills all processes of a job once it has some, and returns whether it had any."""
        numbers, end = [], time.monotonic() + SECONDS
        while not numbers and self.end_of(job)[0] == "RUNNING" and time.monotonic() < end:
            numbers = list(self.processes("SLURM_JOB_ID", job))
        kill_all(numbers)
        return bool(numbers)

    def lose(self, node):
        """Kills a node's slurmd and everything that runs there, as if the machine went down, and returns the jobs that it had."""
        jobs = self.jobs(f"--nodelist={node}")
        self.nodes[node].kill()
        numbers = list(self.processes("SLURMD_NODENAME", node))
        kill_all({*map(parent_that_keeps_jobs, numbers)} - {None})
        kill_all(numbers)
        return jobs

    def told(self):
        """The last lines of each log."""
        lines = []
        for name in os.listdir(self.folder):
            if name.endswith(".log"):
                with open(self.path(name), errors="replace") as file:
                    lines += [f"{name}: {line.strip()}" for line in file.readlines()[-2:]]
        return "; ".join(lines)

    def __exit__(self, *_):
        """Ends the jobs, then what was started, in reverse order."""
        with contextlib.suppress(OSError, subprocess.TimeoutExpired):
            subprocess.run(["scancel", "--signal=KILL", "--full", "--user=root"], env=self.given, capture_output=True, timeout=10)
        for ran in reversed(self.ran):
            with contextlib.suppress(OSError):
                ran.terminate()
            try:
                ran.wait(10)
            except subprocess.TimeoutExpired:
                os.killpg(ran.pid, signal.SIGKILL)
                ran.wait()
