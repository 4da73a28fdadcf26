"""The recipes of docs/MANY.md, run on a real archive by xargs and GNU parallel."""
import configparser
import fcntl
import getpass
import os
import re
import signal
import subprocess
import time

import torrents
from slurm import Cluster
from support import BTCHECK, TOP, folder, need, write, written

# How many torrents of the archive have which state.
GOOD = 17
NOT_GOOD = {
    "changed": ["bad 0 changed", "no"],
    "barred": ["unreadable barred", "no"],
    "lost": ["missing lost", "no"],
    "short": ["wrong length short", "no"],
    "version 1": ["refused 3 Missing meta version"],
}
FAULTS = {"gone": ["fault: cannot read torrents/gone.torrent", "reason: no such file or folder"]}
REASONS = {"barred": ["reason: content/barred/barred: it is no regular file"],
           "short": ["reason: content/short/short: it has 2 bytes, not 3"],
           "version 1": ["hint: of version 1 alone: only version 2 and hybrids are read"]}

# In the place of ssh: runs the command here, in an environment that has no more than a login needs. The machine `beta`
# never answers.
SSH = """#!/bin/sh
host=$1
shift
[ "$1" = -- ] && shift
[ "$host" = beta ] && exit 255
exec env -i HOME="$HOME" PATH="$PATH" sh -c "$*"
"""

# In the place of the program: takes a while, and notes each torrent that it is run for. While there is a file `halt`, no
# run goes on once six have ended, so that what is stopped then is in the middle of its work however slow the machine is. A
# look at a torrent goes on even then: another run at the same place has to come as far as the lock.
SLOW = """#!/bin/sh
echo "$2" >> {place}/checked
while [ "$1" != show ] && [ -e {place}/halt ] && [ "$(wc -l < {place}/ended)" -ge 6 ]; do sleep 0.05; done
sleep 0.05
{program} "$@"
status=$?
echo >> {place}/ended
exit $status
"""


PAGE = written(f"{TOP}/docs/MANY.md").decode()


def blocks():
    return re.findall(r"^```(\w*)\n(.*?)^```$", PAGE, re.M | re.S)


def block(text, kind="sh"):
    """The one block of code of the page that has this text."""
    found = [code for of, code in blocks() if of == kind and text in code]
    assert len(found) == 1, (text, len(found))
    return found[0]


class Archive:
    """An archive as the page wants it, in a temporary folder, with its scripts and a path that finds the program."""

    def __init__(self, place, slow=False):
        need("parallel")
        self.place = place
        for name in ["bin", "user/.parallel", "torrents", "content"]:
            os.makedirs(f"{place}/{name}")
        write(f"{place}/user/.parallel/will-cite", b"")
        self.script("bin/btcheck", SLOW.format(program=BTCHECK, place=place) if slow else f'#!/bin/sh\nexec {BTCHECK} "$@"\n')
        write(f"{place}/ended", b"")
        self.script("bin/ssh", SSH)
        for name in ["check-one", "check-all", "create-one"]:
            self.script(name, block(f"\n# {name}"))
        for name in [f"good {number}" for number in range(GOOD)] + list(NOT_GOOD):
            self.torrent(name)
        os.symlink("nothing", f"{place}/torrents/gone.torrent")
        self.environment = {**os.environ, "HOME": f"{place}/user", "PATH": f"{place}/bin:{os.environ['PATH']}",
                            "PARALLEL_SSH": f"{place}/bin/ssh", "LC_ALL": "C"}

    def script(self, name, text):
        write(f"{self.place}/{name}", text.encode())
        os.chmod(f"{self.place}/{name}", 0o755)

    def torrent(self, name):
        value = torrents.info({name: torrents.file(b"abc")})
        old = {"info": {"length": 3, "name": name, "piece length": 16384, "pieces": bytes(20)}}
        whole = torrents.bencoded(old) if name == "version 1" else torrents.torrent(value)
        write(f"{self.place}/torrents/{name}.torrent", whole)
        os.mkdir(f"{self.place}/content/{name}")
        if name == "barred":
            os.mkdir(f"{self.place}/content/{name}/{name}")
        elif name != "lost":
            write(f"{self.place}/content/{name}/{name}", {"changed": b"abd", "short": b"ab"}.get(name, b"abc"))

    def start(self, code):
        """Begins a run, as from a terminal. A shell that runs the tests in the background has them ignore interrupts."""
        return subprocess.Popen(["sh", "-c", code], cwd=self.place, env=self.environment, stdout=subprocess.PIPE,
                                stderr=subprocess.PIPE, text=True, start_new_session=True,
                                preexec_fn=lambda: signal.signal(signal.SIGINT, signal.SIG_DFL))

    def run(self, code):
        """The status, and the lines of standard output in order."""
        program = self.start(code)
        out, _ = program.communicate(timeout=60)
        return program.returncode, sorted(out.splitlines())

    def reports(self):
        """What was kept of each torrent."""
        kept = {}
        for name in os.listdir(f"{self.place}/reports"):
            if name.startswith("."):
                continue
            with open(f"{self.place}/reports/{name}", encoding="utf-8") as report:
                kept[name] = report.read().splitlines()
        return kept

    def forget(self):
        subprocess.run(["rm", "-rf", "reports", "log", "checked", "list"], cwd=self.place, check=True)

    def checked(self):
        """The torrents that the slow program was run on, in order."""
        with open(f"{self.place}/checked", encoding="utf-8") as file:
            return file.read().splitlines()

    def halt(self):
        """From now on no more than some runs of the slow program end."""
        write(f"{self.place}/ended", b"")
        write(f"{self.place}/halt", b"")

    def go_on(self):
        os.remove(f"{self.place}/halt")

    def logged(self):
        """The log's lines: number, machine and status of each torrent."""
        with open(f"{self.place}/log", encoding="utf-8") as log:
            return [(int(line.split("\t")[0]), line.split("\t")[1], line.split("\t")[6]) for line in log.readlines()[1:]]


def whole_reports():
    """What is to be kept of each torrent of the archive."""
    good = {f"good {number}.report": [f"good good {number}", "yes"] for number in range(GOOD)}
    return good | {f"{name}.report": lines for name, lines in NOT_GOOD.items()} | {
        f"{name}.error": lines for name, lines in FAULTS.items()} | {f"{name}.reasons": lines for name, lines in REASONS.items()}


# What the recipes print that find what is not good.
LISTED = sorted(f"reports/{name}.report" for name in NOT_GOOD)
LINES = sorted(f"reports/{name}.report:{line}" for name, lines in NOT_GOOD.items() for line in lines)
ERRORS = sorted(f"reports/{name}.{kind}:{line}" for kind, of in (("error", FAULTS), ("reasons", REASONS)) for name, lines in of.items()
                for line in lines)
EVERY = GOOD + len(NOT_GOOD) + len(FAULTS)

BY_XARGS, BY_PARALLEL = block("xargs -0"), block("| sort > list\nparallel")
LAST_LINE = BY_PARALLEL.splitlines()[-1]


def test_one_after_the_other_and_what_is_not_good():
    with folder() as place:
        archive = Archive(place)
        assert archive.run(BY_XARGS)[0] == 123
        assert archive.reports() == whole_reports()
        assert archive.run(block("grep -rLx")) == (0, LISTED)
        for recipe, wanted in [("grep -rvxE 'good .*|v1 good|yes' --include='[!.]*.report' reports\n", LINES),
                               ("grep -r . --include='[!.]*.error' --include='[!.]*.reasons' reports\n", ERRORS)]:
            assert ("sh", recipe) in blocks(), recipe
            assert archive.run(recipe) == (0, wanted)


def test_by_parallel_and_again():
    with folder() as place:
        archive = Archive(place, slow=True)
        assert archive.run(BY_PARALLEL)[0] == len(FAULTS)
        assert archive.reports() == whole_reports()
        assert sorted(number for number, _, _ in archive.logged()) == list(range(1, EVERY + 1))
        first = archive.checked()
        assert len(first) == EVERY
        # again: only what had a fault
        assert archive.run(LAST_LINE)[0] == len(FAULTS)
        assert archive.checked() == first + [f"torrents/{name}.torrent" for name in FAULTS]
        assert archive.reports() == whole_reports()


def stopped(archive, code, how):
    """Starts a recipe that becomes its last command, stops it when some torrents are done, and gives how many the log
    names then. A request to end goes to that command alone, as from `kill`, all else to what it started too."""
    archive.halt()
    program, end = archive.start(code), time.monotonic() + 60
    while not (os.path.exists(f"{archive.place}/log") and len(archive.logged()) >= 4):
        assert time.monotonic() < end, "nothing is logged"
        time.sleep(0.01)
    (os.kill if how == signal.SIGTERM else os.killpg)(program.pid, how)
    archive.go_on()
    program.communicate(timeout=60)
    return archive.logged()


def test_a_run_that_is_stopped_goes_on():
    """Whatever stops it: no torrent is lost, none that the log names is checked again, and each has one whole
    report."""
    for how in [signal.SIGKILL, signal.SIGINT, signal.SIGTERM]:
        with folder() as place:
            archive = Archive(place, slow=True)
            done = stopped(archive, BY_PARALLEL.replace("parallel ", "exec parallel --jobs 2 "), how)
            assert 4 <= len(done) < EVERY, (how, done)
            assert archive.reports().items() <= whole_reports().items(), how
            before = len(archive.checked())
            missing = archive.run(block("while read"))[1]
            assert archive.run(LAST_LINE)[0] == len(FAULTS)
            again = archive.checked()[before:]
            with open(f"{place}/list", encoding="utf-8") as file:
                names = file.read().splitlines()
            answered = {names[number - 1] for number, _, status in done if status == "0"}
            assert not answered & set(again), (how, answered & set(again))
            assert set(missing) <= set(again), how
            assert archive.reports() == whole_reports(), how
            assert archive.run(block("while read"))[1] == []
            last = {number: status for number, _, status in archive.logged()}
            assert len(last) == EVERY and sum(status != "0" for status in last.values()) == len(FAULTS), how


def test_several_machines():
    """One of three machines does not answer: the others do its work."""
    with folder() as place:
        archive = Archive(place)
        hosts = block("4/:", "")
        write(f"{place}/hosts", hosts.replace("archive@beta", "beta").replace("4/:", "2/:").encode())
        several = block("--sshloginfile hosts --retries 3 --workdir /srv/archive \\\n    --joblog log").replace("/srv/archive", place)
        status, _ = archive.run(BY_PARALLEL.split("parallel ")[0] + several)
        assert status == len(FAULTS), status
        assert archive.reports() == whole_reports()
        machines = [machine for _, machine, status in archive.logged() if status == "0"]
        assert set(machines) == {":", "alpha"} and len(machines) == EVERY - len(FAULTS), machines
        # each machine its own round
        archive.forget()
        for machine in [":", "alpha"]:
            write(f"{place}/hosts", f"1/{machine}\n".encode())
            status, lines = archive.run(block("--nonall").replace("/srv/archive", place))
            wanted = sorted(f"{machine}\t{line}" for line in LINES + ERRORS)
            assert (status, lines) == (1, wanted), (status, lines)


def test_every_week():
    with folder() as place:
        archive = Archive(place, slow=True)
        for _ in range(2):
            assert archive.run("./check-all") == (1, sorted(LINES + ERRORS))
            assert archive.reports() == whole_reports()
        assert len(archive.checked()) == 2 * EVERY
        # stopped, and gone on with
        os.remove(f"{place}/checked")
        stopped(archive, "exec ./check-all", signal.SIGKILL)
        assert archive.run("./check-all") == (1, sorted(LINES + ERRORS))
        assert len(set(archive.checked())) == EVERY and len(archive.checked()) < 2 * EVERY
        # all good
        for name in [*NOT_GOOD, *FAULTS]:
            os.remove(f"{place}/torrents/{name}.torrent")
        assert archive.run("./check-all") == (0, [])


def test_content_in_one_folder():
    """The lines that find a torrent's content by its own name, which may lie."""
    with folder() as place:
        archive = Archive(place)
        text = block("\n# check-one")
        line = next(line for line in text.splitlines(True) if line.startswith("btcheck check"))
        archive.script("check-one", text.replace(line, block("folder=$(")))
        os.mkdir(f"{place}/reports")
        for name in ["..", "/", "", "x", "single"]:
            tree = {"file": torrents.file(b"abc")}
            write(f"{place}/torrents/t.torrent", torrents.torrent(torrents.info(tree, name=name)))
            os.makedirs(f"{place}/content/x", exist_ok=True)
            write(f"{place}/content/x/file", b"abc")
            write(f"{place}/content/file", b"abc" if name == "single" else b"other")
            write(f"{place}/file", b"abc")
            assert archive.run("./check-one torrents/t.torrent")[0] == 0
            good = name in ["x", "single"]
            assert archive.reports()["t.report"] == (["good file", "yes"] if good else ["wrong length file", "no"]), name


def test_torrents_for_folders():
    """Only what has no torrent gets one, and what is refused has none."""
    with folder() as place:
        archive = Archive(place)
        recipe = block("./create-one\n", "sh")
        before = os.listdir(f"{place}/torrents")
        for name in ["new", "it's new, too", "empty"]:
            os.mkdir(f"{place}/content/{name}")
        os.mkdir(f"{place}/content/new/below")
        write(f"{place}/content/new/below/file", b"abc")
        write(f"{place}/content/it's new, too/a b", b"abc")
        assert archive.run(recipe) == (1, ["content/empty\trefused 13 NoFiles"])
        assert set(os.listdir(f"{place}/torrents")) == {*before, "new.torrent", "it's new, too.torrent"}
        assert archive.run(BY_XARGS)[0] == 123
        assert archive.reports() == whole_reports() | {"new.report": ["good below/file", "yes"],
                                                       "it's new, too.report": ["good a b", "yes"]}
        # stopped in the middle, and gone on with
        os.remove(f"{place}/torrents/new.torrent")
        write(f"{place}/torrents/.new.1234", b"d4:info")
        assert archive.run(recipe)[0] == 1 and "new.torrent" in os.listdir(f"{place}/torrents")


def test_timers():
    service, timer = [configparser.ConfigParser(interpolation=None) for _ in range(2)]
    service.optionxform = timer.optionxform = str
    service.read_string(block("[Service]", "ini"))
    timer.read_string(block("[Timer]", "ini"))
    assert service["Service"]["ExecStart"] == "/srv/archive/check-all" and service["Service"]["Type"] == "oneshot"
    assert timer["Timer"]["OnCalendar"] == "Sun 03:00" and timer["Install"]["WantedBy"] == "timers.target"
    table = block("check-all", "cron").splitlines()
    assert re.fullmatch(r"0 3 \* \* 0  flock --nonblock /srv/archive/lock /srv/archive/check-all", table[1])
    with folder() as place:
        archive = Archive(place)
        line = table[1].split(None, 5)[5].replace("/srv/archive", place)
        with open(f"{place}/lock", "w", encoding="utf-8") as lock:
            fcntl.flock(lock, fcntl.LOCK_EX)
            assert archive.run(line) == (1, []) and not os.path.exists(f"{place}/reports")
        assert archive.run(line) == (1, sorted(LINES + ERRORS))


# The recipes for one torrent, of as many parts as a test takes.
PARTS = 5
BY_PARTS = [block("seq \"$n\" | parallel"), block("-I {} ./check-part")]


class Big(Archive):
    """An archive with one torrent more, of several files, one of which has a bad piece."""

    def __init__(self, place, slow=False):
        super().__init__(place, slow)
        self.script("check-part", block("\n# check-part"))
        os.mkdir(f"{place}/content/big")
        files = [(f"file {number}", bytes([number]) * 70_000) for number in range(6)]
        write(f"{place}/big.torrent", torrents.torrent_of(files, 16384))
        for name, content in files:
            write(f"{place}/content/big/{name}", content)
        write(f"{place}/content/big/file 3", bytes([3]) * 50_000 + bytes(20_000))
        done = subprocess.run([BTCHECK, "check", f"{place}/big.torrent", f"{place}/content/big"], stdout=subprocess.PIPE)
        assert done.returncode == 1 and b"bad " in done.stdout, done
        self.whole = 1, sorted(done.stdout.decode().splitlines())

    def parts(self):
        """The parts that have a report."""
        return sorted(name for name in os.listdir(f"{self.place}/parts") if not name.startswith("."))

    def forget_parts(self):
        subprocess.run(["rm", "-rf", "parts", "parts.log", "checked"], cwd=self.place, check=True)


def in_few(recipe):
    """The recipe in few parts."""
    lines = recipe.splitlines(True)
    assert lines[0] in ("n=16\n", "n=64\n"), recipe
    return f"n={PARTS}\n" + "".join(lines[1:])


def test_one_torrent_in_parts():
    with folder() as place:
        archive = Big(place, slow=True)
        for recipe in BY_PARTS:
            for joins in (1, 2):
                assert archive.run(in_few(recipe)) == archive.whole, recipe
                assert len(archive.checked()) == PARTS + joins and archive.parts() == [f"{number + 1}" for number in range(PARTS)]
            # what is lost is run again, alone
            os.remove(f"{place}/parts/2")
            if "xargs" in recipe:
                assert archive.run(in_few(recipe)) == archive.whole and len(archive.checked()) == PARTS + 4
            archive.forget_parts()


def test_one_torrent_that_is_made_in_parts():
    """What one `create` makes, by the recipe."""
    with folder() as place:
        archive = Big(place)
        words = ["create", "content/big", "whole", "--name", "big", "--piece-length", "1048576"]
        subprocess.run([BTCHECK, *words], cwd=place, check=True)
        assert archive.run(in_few(block("assemble big.torrent"))) == (0, [])
        assert written(f"{place}/big.torrent") == written(f"{place}/whole")


def test_a_part_that_is_stopped_is_run_again():
    """Whatever stops the run, each part has a whole report or none, and the run goes on."""
    for recipe in BY_PARTS:
        with folder() as place:
            archive = Big(place, slow=True)
            program, end = archive.start(in_few(recipe)), time.monotonic() + 60
            while not os.path.exists(f"{place}/checked"):
                assert time.monotonic() < end, "no part was started"
                time.sleep(0.01)
            os.killpg(program.pid, signal.SIGKILL)
            program.communicate(timeout=60)
            for name in archive.parts():
                with open(f"{place}/parts/{name}", "rb") as report:
                    assert report.read().split(b"\n")[-2] in (b"part yes", b"part no"), name
            assert archive.run(in_few(recipe)) == archive.whole, recipe


def test_a_fault_of_a_part():
    """No report is kept, nothing is joined, and the run has failed."""
    with folder() as place:
        archive = Big(place)
        os.rename(f"{place}/big.torrent", f"{place}/other.torrent")
        for recipe in BY_PARTS:
            status, lines = archive.run(in_few(recipe))
            assert status != 0 and not lines and not os.listdir(f"{place}/parts"), (recipe, status, lines)
            archive.forget_parts()


def test_one_torrent_on_several_machines():
    """One of three does not answer: the others check its parts."""
    with folder() as place:
        archive = Big(place)
        write(f"{place}/hosts", b"2/:\n2/alpha\n2/beta\n")
        recipe = in_few(block("| PARALLEL_SHELL")).replace("/srv/archive", place)
        assert archive.run(recipe) == archive.whole
        assert len(archive.parts()) == PARTS


class Array(Big):
    """The archive with the recipe of a job array, whose tasks fail that are in the file `broken`."""

    def __init__(self, place, cluster):
        super().__init__(place)
        os.rename(f"{place}/bin/btcheck", f"{place}/bin/whole")
        self.script("bin/btcheck", f"""#!/bin/sh
[ -e {place}/broken ] && grep -qx "$5" {place}/broken && exit 2
exec {place}/bin/whole "$@"
""")
        self.script("check-array", block("\n# check-array").replace("/srv/archive", place))
        self.environment.update(cluster.environment, PATH=f"{place}/bin:{cluster.environment['PATH']}")

    def joined(self):
        """What the job that joins the parts printed, in order."""
        with open(f"{self.place}/report", encoding="utf-8") as report:
            return sorted(report.read().splitlines())


def test_a_job_array():
    """Slurm runs all parts and joins them. If some fail, nothing is joined, and these are run again alone."""
    with Cluster() as cluster, folder() as place:
        archive = Array(place, cluster)
        recipe = block("sbatch --parsable").replace("/srv/archive", place)
        assert archive.run(recipe)[0] == 0
        cluster.wait_for_jobs()
        assert archive.joined() == archive.whole[1] and len(archive.parts()) == 64
        archive.forget_parts()
        os.remove(f"{place}/report")
        write(f"{place}/broken", b"3/64\n17/64\n")
        assert archive.run(recipe)[0] == 0
        cluster.wait_for("the join was not given up", lambda: "Never" in cluster.command("squeue", "-h", "-o", "%r"))
        assert len(archive.parts()) == 62 and not os.path.exists(f"{place}/report")
        cluster.command("scancel", "--user", getpass.getuser())
        os.remove(f"{place}/broken")
        again = re.search(r"`(sbatch --array=3,17 check-array)`", PAGE)[1]
        assert archive.run(recipe.replace("sbatch --parsable check-array", again.replace("sbatch", "sbatch --parsable")))[0] == 0
        cluster.wait_for_jobs()
        assert archive.joined() == archive.whole[1] and len(archive.parts()) == 64


def test_a_job_array_without_slurm():
    """Each task by itself, in any order; and the syntax of what runs them."""
    with folder() as place:
        archive = Big(place)
        script, submitted = block("\n# check-array"), block("sbatch --parsable")
        for text in (script, submitted):
            subprocess.run(["bash", "-n"], input=text.encode(), check=True)
        options = dict(re.findall(r"^#SBATCH --([\w-]+)=(\S+)$", script, re.M))
        assert options["array"] == "1-64" and options["chdir"] == "/srv/archive", options
        archive.script("check-array", script)
        os.mkdir(f"{place}/parts")
        for task in reversed(range(1, 65)):
            assert archive.run(f"SLURM_ARRAY_TASK_ID={task} ./check-array") == (0, [])
        assert archive.run(re.search("--wrap '(.*)'", submitted)[1]) == archive.whole