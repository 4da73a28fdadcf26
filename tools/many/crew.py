"""The processes of a run: how many run at once, what they print, and how a signal ends them."""
import collections
import contextlib
import os
import select
import shutil
import signal
import subprocess
import threading

from many.ends import Fault, Stopped
from many.looks import write
from many.screen import Screen
from many.texts import raw

# A run of btcheck: its words, and the paths in the folder of the run that get its report, its reasons and its error.
Task = collections.namedtuple("Task", "report reasons error words")


def processors():
    """How many processes run at once if nobody says."""
    return len(os.sched_getaffinity(0))


def bytes_read(process):
    """How many bytes a process has read so far, or 0 where the system does not tell."""
    with contextlib.suppress(OSError, ValueError), open(f"/proc/{process}/io", "rb") as file:
        return int(file.readline().split()[1])
    return 0


class Crew:
    """Threads that run processes. A signal ends the processes, and then the run."""

    def __init__(self):
        program = shutil.which("btcheck")
        if not program:
            raise Fault("there is no btcheck on the path")
        self.btcheck, self.place, self.locks = os.path.abspath(program), ".", []
        self.children, self.turn, self.screen = {}, threading.Lock(), Screen()
        self.signal, self.is_at_work = 0, False
        self.ear, self.mouth = os.pipe()
        os.set_blocking(self.mouth, False)
        signal.set_wakeup_fd(self.mouth)
        for number in (signal.SIGINT, signal.SIGTERM, signal.SIGHUP):
            if signal.getsignal(number) != signal.SIG_IGN:
                signal.signal(number, self.note)

    def note(self, number, _):
        """A signal came: what is at work is ended first."""
        self.signal = number
        if not self.is_at_work:
            raise Stopped

    def work(self, items, do, jobs=1, progress=None):
        """Does each of these items, at most `jobs` at once. The first fault ends it, and so does a signal."""
        items, faults = iter(items), []

        def serve():
            try:
                while not self.signal and not faults:
                    with self.turn:
                        item = next(items, None)
                    if item is None:
                        break
                    do(item)
            except Exception as why:
                faults.append(why)
            os.write(self.mouth, b".")

        threads = [threading.Thread(target=serve) for _ in range(jobs)]
        self.is_at_work = True
        for thread in threads:
            thread.start()
        self.wait(len(threads), lambda: self.signal or faults, progress if self.screen.is_on else None)
        for thread in threads:
            thread.join()
        self.is_at_work = False
        self.screen.erase()
        if self.signal:
            raise Stopped
        if faults:
            raise faults[0]

    def wait(self, count, is_over, progress):
        """Waits until `count` threads have ended. Where it is over they are told each second: GNU parallel wants that twice."""
        while count:
            if is_over():
                self.end_children()
            elif progress:
                self.screen.draw(progress())
            pause = 1 if is_over() else 0.2 if progress else None
            if select.select([self.ear], [], [], pause)[0]:
                count -= os.read(self.ear, 4096).count(b".")

    def end_children(self):
        """Asks each process, and what it started, to end."""
        for child in list(self.children.values()):
            with contextlib.suppress(ProcessLookupError):
                if child.poll() is None:
                    os.killpg(child.pid, signal.SIGTERM)

    def spawn(self, words, out=subprocess.DEVNULL, error=subprocess.DEVNULL, source=subprocess.DEVNULL):
        """Runs a program to its end, in a session of its own, with the lock of the run as long as it lives. Gives its status, and
        what it printed to pipes."""
        child = subprocess.Popen(words, stdin=source, stdout=out, stderr=error, cwd=self.place, pass_fds=self.locks,
                                 start_new_session=True)
        self.children[threading.get_ident()] = child
        printed = child.communicate()
        del self.children[threading.get_ident()]
        if self.signal:
            raise Stopped
        return child.returncode if child.returncode >= 0 else 128 - child.returncode, *printed

    def call(self, words, **streams):
        """Runs one program, as `spawn` does, while nothing else is at work."""
        ended = []
        self.work([words], lambda words: ended.append(self.spawn(words, **streams)))
        return ended[0]

    def ask(self, *words, **streams):
        """Runs btcheck so."""
        return self.call([self.btcheck, *words], **streams)

    def keep(self, task, begun):
        """Runs a task. What it printed gets its name when it is whole. Tells whether there was no fault."""
        with open(begun, "wb") as out, open(f"{begun}.error", "wb") as error:
            status, *_ = self.spawn([self.btcheck, *task.words], out, error)
        is_said = os.path.getsize(f"{begun}.error") > 0
        if status > 1:
            if not is_said:
                write(f"{begun}.error", f"fault: btcheck ended with status {status}\n".encode())
            os.replace(f"{begun}.error", f"{self.place}/{task.error}")
            return False
        if is_said:
            os.replace(f"{begun}.error", f"{self.place}/{task.reasons}")
        os.replace(begun, f"{self.place}/{task.report}")
        return True

    def keep_afar(self, tasks, words, progress):
        """Runs tasks, all of as many words, on the machines that --hosts names, by `./run`."""
        if not tasks:
            return
        write(f"{self.place}/list", b"".join(raw(word) + b"\0" for task in tasks for word in [*task[:3], *task.words]))
        jobs = ["--jobs", words["jobs"]] if "jobs" in words else []
        self.work([["parallel", "--plain", "--will-cite", "--null", "--retries", "3", "--sshloginfile", words["hosts"], *jobs,
                    "--workdir", self.place, "--max-args", str(3 + len(tasks[0].words)), "--arg-file", "list", "./run"]],
                  self.spawn, progress=progress)

    def read_now(self):
        """How many bytes the process of each thread has read so far."""
        return {thread: bytes_read(child.pid) for thread, child in list(self.children.items())}
