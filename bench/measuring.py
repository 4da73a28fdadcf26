"""What the parts of the measurement share: the programs to measure with, and how commands are measured."""
import math
import os
import shutil
import statistics
import subprocess
import sys
import tempfile
import time

TOP = os.path.dirname(os.path.dirname(os.path.abspath(__file__)))
# The kind of processor to build for: as CPU says, or what `make` takes; and the program for it.
CPU = os.environ.get("CPU") or subprocess.check_output([os.path.join(TOP, "tools", "processor")], text=True).strip()
BTCHECK = os.path.join(TOP, "build", CPU, "alone", "btcheck")
BARE = os.path.join(TOP, "build", CPU, "bare")
READERS = os.path.join(TOP, "build", CPU, "readers")
SESSIONS = os.path.join(TOP, "build", CPU, "sessions")
BLOCK = 16384


def sources(text, crates):
    """The files that a program of this folder is built of: its text and those of the repository's crates."""
    yield text
    for crate in crates:
        for folder, inner, names in os.walk(os.path.join(TOP, "crates", crate)):
            inner[:] = [name for name in inner if name != "out"]
            yield from (os.path.join(folder, name) for name in names)


def crates_below(uses):
    """The lines of crates.txt of these crates and of all of the repository's that they stand on, by name."""
    with open(os.path.join(TOP, "crates.txt"), encoding="ascii") as file:
        lines = [line.split("#")[0].strip() for line in file]
    lines = {line.partition(":")[0].split()[0]: line for line in lines if ":" in line}
    below, left = {}, list(uses)
    while left:
        name = left.pop()
        if name in lines and name not in below:
            below[name] = lines[name]
            left += lines[name].partition(":")[2].split()
    return below


def build(program, uses, words=("read", "/dev/null", "1")):
    """Builds a program of this folder over these crates, where it is not there or older than what it is made of, for
    the kind of processor that is named, and runs it once on these words. It takes along what is already proved of the repository's
    crates."""
    name, crates = os.path.basename(program), crates_below(uses)
    text = os.path.join(TOP, "bench", f"{name}.txt")
    if os.path.exists(program) and os.path.getmtime(program) > max(map(os.path.getmtime, sources(text, crates))):
        return
    with tempfile.TemporaryDirectory(prefix=f"btcheck-{name}-") as folder:
        for crate in crates:
            shutil.copytree(os.path.join(TOP, "crates", crate), os.path.join(folder, "crates", crate),
                            ignore=shutil.ignore_patterns("incremental", "must-fail"))
        own = os.path.join(folder, "crates", name)
        os.makedirs(os.path.join(own, "src"))
        shutil.copyfile(text, os.path.join(own, "src", "main.rt"))
        with open(os.path.join(folder, "crates.txt"), "w", encoding="ascii") as file:
            file.write("".join(f"{line}\n" for line in [*crates.values(), f"{name}: {' '.join(uses)}"]))
        subprocess.run([os.environ.get("RT", "rt"), "run", f"--cpu={CPU}", "--", *words], cwd=own, check=True,
                       stdout=subprocess.DEVNULL)
        os.makedirs(os.path.dirname(program), exist_ok=True)
        shutil.copy(os.path.join(own, "out", name), program)


def build_bare():
    build(BARE, ["sha1", "sha2"])


def build_readers():
    build(READERS, ["benc", "wire"])


def build_sessions():
    build(SESSIONS, ["hashtree", "metainfo", "node_maps", "session", "wire"], ("/dev/null", "/dev/null", "1", "1"))


def resident_peak(pid):
    """The largest resident set in KiB so far; what wait4 gives has this script's own before the exec in it."""
    try:
        with open(f"/proc/{pid}/status", encoding="ascii", errors="replace") as status:
            return next((int(line.split()[1]) for line in status if line.startswith("VmHWM:")), 0)
    except OSError:
        return 0


def measure(command, statuses=(0,)):
    """Wall seconds, processor seconds and the largest resident set in KiB of one run, which ends with such a status."""
    start = time.monotonic()
    child = subprocess.Popen(command, stdout=subprocess.DEVNULL)
    peak = resident_peak(child.pid)
    while True:
        pid, status, usage = os.wait4(child.pid, os.WNOHANG)
        if pid:
            break
        time.sleep(0.01)
        peak = resident_peak(child.pid) or peak
    child.returncode = os.waitstatus_to_exitcode(status)
    if child.returncode not in statuses:
        sys.exit(f"{command[0]} ended with status {child.returncode}")
    return time.monotonic() - start, usage.ru_utime + usage.ru_stime, peak


def see_answer(command, answer):
    """Ends where a command does not print this answer: then it did not do what is to be measured."""
    printed = subprocess.run(command, check=True, stdout=subprocess.PIPE, text=True).stdout.strip()
    if printed != str(answer):
        sys.exit(f"{' '.join(command)} printed {printed} and not {answer}")


class Rounds:
    """What was measured of one command: seconds and KiB of each round, in order."""

    def __init__(self):
        self.walls, self.processors, self.peaks = [], [], []

    def note(self, wall, processor, peak):
        self.walls.append(wall)
        self.processors.append(processor)
        self.peaks.append(peak)

    @property
    def wall(self):
        return min(self.walls)

    @property
    def processor(self):
        return min(self.processors)

    @property
    def peak(self):
        return max(self.peaks)

    def takes(self, other):
        """How often the other's processor time goes into this one's: the median of the rounds. In a round both run one
        after the other, so that a machine that is slower for a while is slower for both."""
        pairs = zip(self.processors, other.processors)
        return statistics.median(mine / theirs if theirs > 0 else math.inf for mine, theirs in pairs)


def measured(commands, rounds):
    """Each command's rounds, by its name: the commands run in turn, and one round before them warms the cache."""
    found = {name: Rounds() for name in commands}
    for count in range(rounds + 1):
        for name, command in commands.items():
            run = measure(command)
            if count > 0:
                found[name].note(*run)
    return found


def report(found, mib, first):
    """One line a command with its best times, and how often the processor time of each goes into that of the first."""
    print(f"{mib} MiB, interleaved rounds: the best of each command, and the median of the rounds' ratios")
    print(f"{'':14} {'wall s':>8} {'processor s':>12} {'MiB/s':>7} {'peak KiB':>9} {first + ' takes':>19}")
    for name, rounds in found.items():
        ratio = f"{found[first].takes(rounds):.3f} x"
        speed = mib / max(rounds.processor, 0.001)
        print(f"{name:14} {rounds.wall:8.2f} {rounds.processor:12.3f} {speed:7.0f} {rounds.peak:9} {ratio:>19}")


def write_random(path, mib):
    with open(path, "wb") as out:
        for _ in range(mib):
            out.write(os.urandom(1 << 20))


def need_program():
    if not os.path.exists(BTCHECK):
        sys.exit(f"build/{CPU}/btcheck is missing: run make CPU={CPU} first")


def lacks(command):
    """Says on standard output if the program does not have this command yet."""
    need_program()
    printed = subprocess.run([BTCHECK, command, "--help"], stdout=subprocess.DEVNULL, stderr=subprocess.DEVNULL)
    if printed.returncode != 0:
        print(f"btcheck {command} is skipped: the program does not have it")
    return printed.returncode != 0


def missed_marks(found, first, marks):
    """The marks that a command misses, in words: (of what, ratio of processor time at most) each."""
    return [f"{first} takes more than {mark} x the processor time of {name}"
            for name, mark in marks if name in found and found[first].takes(found[name]) > mark]
