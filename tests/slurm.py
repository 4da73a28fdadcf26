"""A cluster of Slurm with one machine, this one, in a folder of its own: its daemons, its key and its state. It runs 16
tasks at once, however many processors there are."""
import getpass
import os
import shutil
import socket
import subprocess
import tempfile
import time

from support import need

# The daemons of Debian's packages slurm-wlm and munge are where only root's path leads.
PATH = os.environ["PATH"] + ":/usr/sbin:/sbin"

CONFIGURATION = """ClusterName=btcheck
SlurmctldHost={host}(127.0.0.1)
SlurmUser={user}
SlurmdUser={user}
AuthInfo=socket={place}/munge.socket
ProctrackType=proctrack/linuxproc
TaskPlugin=task/none
SwitchType=switch/none
MpiDefault=none
JobAcctGatherType=jobacct_gather/none
SelectType=select/cons_tres
SelectTypeParameters=CR_CPU
SchedulerParameters=sched_min_interval=0
SlurmdParameters=config_overrides
SlurmctldPort={ports[0]}
SlurmdPort={ports[1]}
StateSaveLocation={place}/state
SlurmdSpoolDir={place}/spool
SlurmctldPidFile={place}/slurmctld.pid
SlurmdPidFile={place}/slurmd.pid
NodeName={host} NodeAddr=127.0.0.1 CPUs=16 RealMemory=2000 State=UNKNOWN
PartitionName=main Nodes=ALL Default=YES MaxTime=INFINITE State=UP
"""


def free_ports():
    """Two ports that nothing listens on."""
    held = [socket.create_server(("127.0.0.1", 0)) for _ in range(2)]
    ports = [it.getsockname()[1] for it in held]
    for it in held:
        it.close()
    return ports


class Cluster:
    """The cluster, for a `with`: `environment` is that of its commands. What it prints is in its folder."""

    def __enter__(self):
        need("sbatch")
        if not all(shutil.which(daemon, path=PATH) for daemon in ("munged", "slurmctld", "slurmd")):
            need("slurmctld")
        self.place = tempfile.mkdtemp(prefix="btcheck-slurm-")
        self.daemons = []
        try:
            self.start()
        except BaseException:
            self.__exit__()
            raise
        return self

    def start(self):
        os.chmod(self.place, 0o755)
        for name in ("state", "spool"):
            os.mkdir(f"{self.place}/{name}")
        with open(os.open(f"{self.place}/key", os.O_CREAT | os.O_WRONLY, 0o600), "wb") as key:
            key.write(os.urandom(1024))
        self.host = socket.gethostname().split(".")[0]
        text = CONFIGURATION.format(host=self.host, user=getpass.getuser(), place=self.place,
                                    ports=free_ports())
        with open(f"{self.place}/slurm.conf", "w", encoding="utf-8") as configuration:
            configuration.write(text)
        self.environment = {"SLURM_CONF": f"{self.place}/slurm.conf", "PATH": PATH}
        own = {"key-file": "key", "socket": "munge.socket", "pid-file": "munge.pid", "log-file": "munge.log",
               "seed-file": "munge.seed"}
        self.daemon("munged", "--foreground", "--force", *[f"--{of}={self.place}/{name}" for of, name in own.items()])
        self.wait_for("the key's daemon", lambda: os.path.exists(f"{self.place}/munge.socket"))
        self.daemon("slurmctld", "-D", "-c")
        self.daemon("slurmd", "-D", "-c", "-N", self.host)
        self.wait_for("the machine", lambda: self.command("sinfo", "-h", "-o", "%t") == "idle")

    def daemon(self, *words):
        with open(f"{self.place}/{words[0]}.out", "wb") as out:
            self.daemons.append(subprocess.Popen(words, env={**os.environ, **self.environment}, stdin=subprocess.DEVNULL,
                                                 stdout=out, stderr=out, cwd=self.place))

    def command(self, *words):
        """What a command of Slurm prints."""
        done = subprocess.run(words, env={**os.environ, **self.environment}, stdout=subprocess.PIPE,
                              stderr=subprocess.DEVNULL, timeout=60, text=True, check=False)
        return done.stdout.strip()

    def wait_for(self, what, holds, seconds=60):
        end = time.monotonic() + seconds
        while not holds():
            assert time.monotonic() < end, f"Slurm: {what} after {seconds} s: {self.said()}"
            time.sleep(0.05)

    def wait_for_jobs(self, seconds=120):
        """Until no job is left."""
        self.wait_for("jobs are left", lambda: self.command("squeue", "-h", "-o", "%i") == "", seconds)

    def said(self):
        """The last that each daemon printed."""
        last = []
        for daemon in ("munged", "slurmctld", "slurmd"):
            if os.path.exists(f"{self.place}/{daemon}.out"):
                with open(f"{self.place}/{daemon}.out", encoding="utf-8", errors="replace") as out:
                    last += out.read().splitlines()[-3:]
        return last

    def __exit__(self, *_):
        for daemon in reversed(self.daemons):
            daemon.terminate()
        for daemon in self.daemons:
            try:
                daemon.wait(timeout=10)
            except subprocess.TimeoutExpired:
                daemon.kill()
                daemon.wait()
        shutil.rmtree(self.place, ignore_errors=True)
