"""`btcheck-many`: one torrent and a whole archive over cores and machines, stopped at any time, with hostile names."""
import getpass
import os
import re
import shutil
import signal
import socket
import subprocess
import time

from slurm import Cluster
from support import BTCHECK, TOP, LeftOut, folder, write, written
from test_many import FAULTS, NOT_GOOD, REASONS, Archive, Big, whole_reports
import torrents

MANY = f"{TOP}/tools/btcheck-many"
CHECK = "btcheck-many check --parts 5 big.torrent content/big"
ARCHIVE = "btcheck-many archive torrents content reports"

# What an archive prints of its torrents that are not good, and then of those with a fault.
LINES = [f"{name}: {line}" for name, lines in sorted(NOT_GOOD.items()) for line in lines]
WHY = [f"barred: {line}" for line in REASONS["barred"]]
ERRORS = WHY + [f"{name}: {line}" for name, lines in FAULTS.items() for line in lines]

HOSTILE = ["-n", "--help", "a b", "it's", 'do"$(touch hit)`touch hit`', "{}", "{1}", "*", "a=b", "line\nfeed\n", "\\n", b"\xff\xfe",
           ".hidden", "%s", "~", "a;touch hit"]


class Many:
    """An archive of the tests of recipes, with `btcheck-many` beside its `btcheck`."""

    def __init__(self, archive):
        self.archive, self.place = archive, archive.place
        os.symlink(MANY, f"{self.place}/bin/btcheck-many")

    def run(self, code):
        """The status and the lines of standard output, in their order."""
        program = self.archive.start(code)
        out, error = program.communicate(timeout=120)
        return program.returncode, out.splitlines(), error

    def kept(self):
        return self.archive.reports()

    def left(self):
        """What the run left beside what it is for."""
        places = [place for place in (self.place, f"{self.place}/reports") if os.path.isdir(place)]
        return [name for place in places for name in os.listdir(place) if name.startswith(".btcheck-many")]


def test_help_and_wrong_arguments():
    with folder() as place:
        many = Many(Archive(place))
        status, lines, _ = many.run("btcheck-many --help")
        assert status == 0 and lines[0].startswith("Checks torrents") and many.run("btcheck-many check -h")[1] == lines
        version = subprocess.run([BTCHECK, "--version"], stdout=subprocess.PIPE, text=True, check=True).stdout
        assert many.run("btcheck-many --version")[:2] == (0, version.splitlines())
        for words in ["", "none", "check", "check a", "check a b c", "check -j 0 a b", "check -j x a b", "check -j", "archive a b",
                      "check --nothing a b", "check --submit a b", "check --parts 1000000 a b"]:
            status, lines, error = many.run(f"btcheck-many {words}")
            assert (status, lines) == (2, []) and "Try btcheck-many --help." in error, (words, status, lines, error)
        manual = written(f"{TOP}/man/btcheck-many.1").decode()
        named = set(re.findall(r"(?<=Fl )-?\w+", manual))
        helped = re.findall(r"^  (-\w.*|--\w.*)", written(MANY).decode(), re.M)
        assert {option for line in helped for option in re.findall(r"(?<![\w-])-(-?\w+)", line[:18])} == named, (helped, named)


def test_one_torrent():
    """What `btcheck check` prints, in its order, with its status; nothing is left."""
    with folder() as place:
        many = Many(Big(place))
        done = subprocess.run([BTCHECK, "check", "big.torrent", "content/big"], cwd=place, stdout=subprocess.PIPE, text=True)
        for words in ["", "-j 2", "--keep 'a folder'"]:
            ended = many.run(f"btcheck-many check --parts 5 {words} big.torrent content/big")
            assert ended[:2] == (done.returncode, done.stdout.splitlines()), (words, ended)
        assert many.left() == [] and not os.path.exists(f"{place}/a folder")
        # what is refused, and what is not there
        write(f"{place}/none.torrent", b"abc")
        assert many.run("btcheck-many check none.torrent content/big")[:2] == (1, ["refused 2 NotBencode BadStart 0"])
        assert many.run("btcheck-many check gone.torrent content/big") == (2, [], "fault: cannot read the torrent\n")
        assert many.left() == []


def stopped(many, code, how, until):
    """Starts a run, stops it in the middle of its work, and gives its status."""
    many.archive.halt()
    program, end = many.archive.start(code), time.monotonic() + 60
    while not until():
        assert time.monotonic() < end, "nothing is done"
        time.sleep(0.01)
    (os.kill if how == signal.SIGTERM else os.killpg)(program.pid, how)
    program.communicate(timeout=60)
    many.archive.go_on()
    return program.returncode


def test_one_torrent_that_is_stopped():
    """Parts that are there are not done again, and no process of the run is left."""
    for how in [signal.SIGTERM, signal.SIGINT]:
        with folder() as place:
            many = Many(Big(place, slow=True))
            keep = f"{place}/kept"
            code = CHECK.replace("--parts 5", "-j 1 --parts 9 --keep kept")
            assert stopped(many, "exec " + code, how, lambda: os.path.isdir(f"{keep}/parts") and len(os.listdir(f"{keep}/parts")) > 2) == -how
            there = [name for name in os.listdir(f"{keep}/parts") if not name.startswith(".")]
            before = len(many.archive.checked())
            assert 1 < len(there) < 9, there
            status, lines, error = many.run(code)
            assert (status, sorted(lines)) == many.archive.whole and f"{len(there)} of 9 parts" in error, (lines, error)
            # each part that was missing, the look at the torrent, and the join
            assert len(many.archive.checked()) - before == 9 - len(there) + 2
            assert not os.path.exists(keep)


def test_one_torrent_twice_at_once():
    with folder() as place:
        many = Many(Big(place, slow=True))
        code = CHECK.replace("--parts 5", "-j 1 --parts 9 --keep kept")
        many.archive.halt()
        first = many.archive.start(code)
        end = time.monotonic() + 60
        while not os.path.isdir(f"{place}/kept/parts"):
            assert time.monotonic() < end
            time.sleep(0.01)
        assert many.run(code) == (2, [], "fault: another run is at work there\n")
        many.archive.go_on()
        out, _ = first.communicate(timeout=60)
        assert (first.returncode, sorted(out.splitlines())) == many.archive.whole


def test_one_torrent_on_machines():
    """One of three does not answer: the others check its parts."""
    with folder() as place:
        many = Many(Big(place))
        write(f"{place}/hosts", b"2/:\n2/alpha\n2/beta\n")
        status, lines, _ = many.run("btcheck-many check --hosts hosts --parts 7 big.torrent content/big")
        assert (status, sorted(lines)) == many.archive.whole


def test_an_archive():
    with folder() as place:
        many = Many(Archive(place))
        for _ in range(2):
            assert many.run(ARCHIVE)[:2] == (2, LINES + ERRORS)
            assert many.kept() == whole_reports() and many.left() == []
        for name in FAULTS:
            os.remove(f"{place}/torrents/{name}.torrent")
        assert many.run(ARCHIVE)[:2] == (1, LINES + WHY)
        for name in NOT_GOOD:
            os.remove(f"{place}/torrents/{name}.torrent")
        assert many.run(ARCHIVE)[:2] == (0, [])
        os.mkdir(f"{place}/torrents/below")
        write(f"{place}/torrents/below/good 1.torrent", b"")
        assert many.run(ARCHIVE) == (2, [], "fault: two torrents have the name good 1.torrent\n")
        assert many.run("btcheck-many archive nowhere content reports")[0] == 2


def test_an_archive_on_machines():
    with folder() as place:
        many = Many(Archive(place))
        write(f"{place}/hosts", b"2/:\n2/alpha\n2/beta\n")
        assert many.run("btcheck-many archive --hosts hosts torrents content reports")[:2] == (2, LINES + ERRORS)
        assert many.kept() == whole_reports()


def test_an_archive_that_is_stopped():
    for how in [signal.SIGTERM, signal.SIGINT]:
        with folder() as place:
            many = Many(Archive(place, slow=True))
            names = [name.removesuffix(".torrent") for name in os.listdir(f"{place}/torrents")]
            code = ARCHIVE.replace("archive", "archive -j 2")
            is_some = lambda: os.path.isdir(f"{place}/reports") and len(os.listdir(f"{place}/reports")) > 2
            assert stopped(many, "exec " + code, how, is_some) == -how
            assert many.kept().items() <= whole_reports().items()
            there = {name for name in many.kept() if name.endswith(".report")}
            before = len(many.archive.checked())
            assert many.run(code)[:2] == (2, LINES + ERRORS)
            assert many.kept() == whole_reports() and many.left() == []
            # each torrent once that had no report (what it holds is read from standard input)
            missing = {f"torrents/{name}.torrent" for name in names} - {f"torrents/{name.removesuffix('.report')}.torrent" for name in there}
            again = [path for path in many.archive.checked()[before:] if path != "/dev/stdin"]
            assert sorted(again) == sorted(missing)


def test_hostile_names():
    """Of torrents, of the folders of their content, and of what is checked in parts."""
    with folder() as place:
        many = Many(Archive(place))
        archive = os.path.join(os.fsencode(place), b"other")
        for kind in (b"torrents", b"content"):
            os.makedirs(os.path.join(archive, kind))
        whole = torrents.torrent(torrents.info({"file": torrents.file(b"abc")}, name="none"))
        names = [os.fsencode(name) for name in HOSTILE]
        for name in names:
            write(os.path.join(archive, b"torrents", name + b".torrent"), whole)
            os.mkdir(os.path.join(archive, b"content", name))
            write(os.path.join(archive, b"content", name, b"file"), b"abc")
        assert many.run("cd other && btcheck-many archive torrents content reports")[:2] == (0, [])
        assert sorted(os.listdir(os.path.join(archive, b"reports"))) == sorted(name + b".report" for name in names)
        for name in names:
            code = b'cd other && btcheck-many check --parts 2 -- "torrents/$1.torrent" "content/$1"'
            done = subprocess.run(["sh", "-c", code, "sh", name], cwd=place, env=many.archive.environment, stdout=subprocess.PIPE)
            assert (done.returncode, done.stdout) == (0, b"good file\nyes\n"), (name, done)
        assert not any("hit" in names for _, _, names in os.walk(place))


def test_a_job_array():
    with Cluster() as cluster, folder() as place:
        many = Many(Big(place))
        many.archive.environment.update(cluster.environment, PATH=f"{place}/bin:{cluster.environment['PATH']}")
        status, lines, error = many.run("btcheck-many slurm --parts 6 --keep kept --submit big.torrent content/big")
        assert status == 0, (lines, error)
        cluster.wait_for_jobs()
        with open(f"{place}/kept/report", encoding="utf-8") as report:
            assert sorted(report.read().splitlines()) == many.archive.whole[1]


def created(many, words, **options):
    """How `btcheck-many create` ends with these words, as a list."""
    bare = {**os.environ, "PATH": f"{many.place}/bin:{os.environ['PATH']}"}
    return subprocess.run(["btcheck-many", "create", *words], cwd=many.place, env=bare, stdout=subprocess.PIPE,
        stderr=subprocess.PIPE, timeout=120, check=False, **options)


def test_a_torrent_is_made_in_parts_whatever_the_names():
    with folder() as place:
        many = Many(Archive(place))
        names = [name for name in HOSTILE if isinstance(name, str)]
        os.makedirs(f"{place}/some")
        for at, name in enumerate(names):
            write(f"{place}/some/{name}", bytes([at]) * (at * 9000))
        write(f"{place}/some/left.tmp", b"x")
        for at, name in enumerate(names):
            options = ["--name", name, "--piece-length", "16384", "--exclude", "*.tmp", *["--hybrid"] * (at % 2)]
            options = [f"{option}={value}" for option, value in zip(options[:6:2], options[1:6:2])] + options[6:]
            whole = subprocess.run([BTCHECK, "create", f"{place}/some", f"{place}/whole", *options], stdout=subprocess.PIPE,
                check=False)
            assert whole.returncode == 0, (name, whole)
            out = f"./{name}.torrent"
            words = ["--name", name, "--piece-length", "16384", "--exclude", "*.tmp", *["--hybrid"] * (at % 2)]
            done = created(many, ["--parts", "5", "-j", "3", *words, "--", f"{place}/some", out])
            assert (done.returncode, done.stdout) == (0, b""), (name, done)
            assert written(f"{place}/{out}") == written(f"{place}/whole") and not many.left(), name
        assert not os.path.exists(f"{place}/hit")


def some_files(many):
    """A folder of some files, and the bytes of the hybrid that `create` makes of it; CREATE makes it in parts."""
    os.makedirs(f"{many.place}/some/below")
    for at, name in enumerate(["a", "below/b", "c d"]):
        write(f"{many.place}/some/{name}", os.urandom(1) * (70000 * at + 100000))
    words = ["create", "some", "whole", "--name", "some", "--piece-length", "16384", "--hybrid"]
    subprocess.run([BTCHECK, *words], cwd=many.place, check=True)
    return written(f"{many.place}/whole")


CREATE = "btcheck-many create -j 1 --parts 9 --keep kept some out --name some --piece-length 16384 --hybrid"


def test_a_torrent_in_parts_that_is_stopped():
    """Parts that are there are not made again; OUT is not there before all are."""
    for how in [signal.SIGTERM, signal.SIGINT]:
        with folder() as place:
            many = Many(Archive(place, slow=True))
            whole, parts = some_files(many), f"{place}/kept/parts"
            assert stopped(many, "exec " + CREATE, how, lambda: os.path.isdir(parts) and len(os.listdir(parts)) > 2) == -how
            there = [name for name in os.listdir(parts) if not name.startswith(".")]
            before = len(many.archive.checked())
            assert 1 < len(there) < 9 and not os.path.exists(f"{place}/out"), there
            status, lines, error = many.run(CREATE)
            assert (status, lines) == (0, []) and f"{len(there)} of 9 parts" in error, (status, lines, error)
            assert written(f"{place}/out") == whole and not os.path.exists(f"{place}/kept")
            # each part that was missing, what lists the folder, and what assembles them
            assert len(many.archive.checked()) - before == 9 - len(there) + 2


def test_a_torrent_in_parts_on_machines():
    """One of three does not answer: the others make its parts."""
    with folder() as place:
        many = Many(Archive(place))
        whole = some_files(many)
        write(f"{place}/hosts", b"2/:\n2/alpha\n2/beta\n")
        status, lines, error = many.run(CREATE.replace("-j 1", "--hosts hosts"))
        assert (status, lines) == (0, []) and written(f"{place}/out") == whole, (status, lines, error)


class Daemon:
    """An ssh daemon of this machine's own, on a port of the loopback, for a `with`: `ssh` is the command that reaches it
    under any name. A login finds what is in `bin`. Where the system lets no daemon take a login, `ssh` stays what stands
    in its place."""

    def __init__(self, place, bin):
        self.place, self.daemon = place, shutil.which("sshd", path=f"{os.environ['PATH']}:/usr/sbin")
        if not self.daemon or not shutil.which("ssh-keygen"):
            raise LeftOut("there is no sshd here: the Debian package is openssh-server")
        os.makedirs(f"{place}/ssh")
        for name in ("host", "user"):
            subprocess.run(["ssh-keygen", "-q", "-t", "ed25519", "-N", "", "-f", f"{place}/ssh/{name}"], check=True)
        with socket.create_server(("127.0.0.1", 0)) as server:
            self.port = server.getsockname()[1]
        write(f"{place}/ssh/sshd", f"""Port {self.port}
ListenAddress 127.0.0.1
HostKey {place}/ssh/host
AuthorizedKeysFile {place}/ssh/user.pub
PidFile {place}/ssh/pid
StrictModes no
UsePAM no
PermitRootLogin yes
PasswordAuthentication no
SetEnv PATH={bin}:{os.environ['PATH']} PYTHONPATH=
""".encode())
        write(f"{place}/ssh/client", f"""Host *
HostName 127.0.0.1
Port {self.port}
User {getpass.getuser()}
IdentityFile {place}/ssh/user
StrictHostKeyChecking no
UserKnownHostsFile /dev/null
LogLevel ERROR
BatchMode yes
""".encode())
        self.ssh = f"{bin}/ssh"

    def __enter__(self):
        if os.geteuid() == 0:
            os.makedirs("/run/sshd", exist_ok=True)
        self.running = subprocess.Popen([self.daemon, "-D", "-e", "-f", f"{self.place}/ssh/sshd"], stderr=subprocess.DEVNULL)
        own = f"ssh -F {self.place}/ssh/client"
        for _ in range(100):
            reached = subprocess.run([*own.split(), "here", "true"], stdin=subprocess.DEVNULL, stderr=subprocess.DEVNULL, check=False)
            if reached.returncode == 0:
                self.ssh = own
                return self
            time.sleep(0.1)
        print("no login by ssh on the loopback: its stand-in runs")
        return self

    def __exit__(self, *_):
        self.running.terminate()
        self.running.wait()


def test_machines_by_ssh():
    """The same over a daemon of ssh on the loopback, under two names."""
    with folder() as place:
        many = Many(Big(place))
        whole = some_files(many)
        with Daemon(place, f"{place}/bin") as daemon:
            many.archive.environment["PARALLEL_SSH"] = daemon.ssh
            write(f"{place}/hosts", b"1/:\n2/alpha\n2/gamma\n")
            status, lines, error = many.run("btcheck-many check --hosts hosts --parts 7 big.torrent content/big")
            assert (status, sorted(lines)) == many.archive.whole, (status, lines, error)
            status, lines, error = many.run(CREATE.replace("-j 1", "--hosts hosts"))
            assert (status, lines) == (0, []) and written(f"{place}/out") == whole, (status, lines, error)


def test_a_torrent_in_parts_is_refused_as_one():
    with folder() as place:
        many = Many(Archive(place))
        os.makedirs(f"{place}/some")
        done = created(many, ["some", "out", "--name", "x", "--piece-length", "5"])
        assert (done.returncode, done.stdout) == (1, b"refused 6 PieceLength\n") and not many.left(), done
        done = created(many, ["some", "out", "--name", "x", "--piece-length", "16384", "--parts", "3"])
        assert (done.returncode, done.stdout) == (1, b"refused 13 NoFiles\n") and not many.left(), done
        os.symlink("nowhere", f"{place}/some/link")
        done = created(many, ["some", "out", "--name", "x", "--piece-length", "16384", "--parts", "3"])
        assert done.returncode == 2 and b"not all parts are done" in done.stderr, done
        os.remove(f"{place}/some/link")
        write(f"{place}/some/a", b"x" * 70000)
        done = created(many, ["some", "out", "--name", "x", "--piece-length", "16384", "--parts", "3"])
        assert (done.returncode, done.stdout) == (0, b"") and not many.left(), done
        for words in ([], ["some"], ["some", "a", "b"], ["some", "out", "--nothing"], ["some", "out", "--name"]):
            done = created(many, words)
            assert done.returncode == 2 and b"Try btcheck-many --help." in done.stderr, (words, done)
