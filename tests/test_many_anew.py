"""`btcheck-many` after a stop: whatever changed meanwhile, it ends as a run from the start would, and does anew no more than
what changed. The program is slowed by a wrapper, so that a run can be stopped where it is to."""
import json
import os
import shutil
import signal
import subprocess
import sys
import time

import torrents
from support import BTCHECK, TOP, folder, write, written

sys.path.insert(1, f"{TOP}/tools")
from many import looks  # noqa: E402

MANY = f"{TOP}/tools/btcheck-many"

# Notes what it is run for. Once as many checks or parts have ended as the file `halt` says, no other one goes on.
SLOW = """#!/bin/sh
case "$*" in show*|*/18446744073709551615*|join*|assemble*) exec {program} "$@" ;; esac
echo "$*" >>{place}/ran
while most=$(cat {place}/halt 2>/dev/null) && [ "$(wc -l <{place}/ended)" -ge "${{most:-0}}" ]; do sleep 0.02; done
{program} "$@"
status=$?
echo >>{place}/ended
exit "$status"
"""


class Place:
    """A folder with the programs on its path, and five torrents of one file each, 1 to 5, beside their content."""

    def __init__(self, place):
        self.place = place
        for name in ("bin", "t", "content", "files"):
            os.mkdir(f"{place}/{name}")
        write(f"{place}/bin/btcheck", SLOW.format(program=BTCHECK, place=place).encode())
        os.chmod(f"{place}/bin/btcheck", 0o755)
        os.symlink(MANY, f"{place}/bin/btcheck-many")
        for number in range(1, 6):
            self.torrent(number, bytes([number]) * 50_000)
        for name in "abc":
            write(f"{place}/files/{name}", name.encode() * 100_000)
        write(f"{place}/files.torrent", torrents.torrent_of([(name, name.encode() * 100_000) for name in "abc"], 16384))
        self.environment = {**os.environ, "PATH": f"{place}/bin:{os.environ['PATH']}"}

    def torrent(self, name, content):
        write(f"{self.place}/t/{name}.torrent", torrents.torrent_of([("f", content)], 16384))
        os.mkdir(f"{self.place}/content/{name}")
        write(f"{self.place}/content/{name}/f", content)

    def start(self, words, **options):
        options = {"cwd": self.place, "stdout": subprocess.PIPE, "stderr": subprocess.PIPE} | options
        return subprocess.Popen(["btcheck-many", *words], env=self.environment, start_new_session=True,
                                preexec_fn=lambda: signal.signal(signal.SIGINT, signal.SIG_DFL), **options)

    def run(self, *words, **options):
        """The status and both outputs of a run."""
        write(f"{self.place}/ran", b"")
        program = self.start(words, **options)
        out, error = program.communicate(timeout=120)
        return program.returncode, out.decode(), error.decode()

    def stop(self, count, words, done, how=signal.SIGTERM):
        """Stops a run once `count` names are in the folder `done`."""
        for name in ("ran", "ended"):
            write(f"{self.place}/{name}", b"")
        write(f"{self.place}/halt", b"%d" % count)
        program, end = self.start(words), time.monotonic() + 60
        while len(names_in(f"{self.place}/{done}")) < count or len(self.ran()) <= count:
            assert program.poll() is None and time.monotonic() < end, program.communicate()
            time.sleep(0.01)
        program.send_signal(how)
        _, error = program.communicate(timeout=60)
        os.remove(f"{self.place}/halt")
        assert program.returncode == -how and error == b"", (program.returncode, error)

    def ran(self):
        """What the program was run for."""
        return written(f"{self.place}/ran").decode().splitlines()

    def reports(self, name="reports"):
        """What is kept, by its names."""
        return {each: written(f"{self.place}/{name}/{each}") for each in names_in(f"{self.place}/{name}", "")}

    def left(self):
        """What is there beside what was made at first."""
        known = {"bin", "t", "content", "files", "files.torrent", "ran", "ended"}
        return set(os.listdir(self.place)) - known


def names_in(place, hidden="."):
    """The names in a folder, without those that begin with a dot."""
    return [name for name in os.listdir(place) if not hidden or not name.startswith(hidden)] if os.path.isdir(place) else []


def damage(path):
    """Changes a byte, and puts the time back."""
    before = os.stat(path)
    with open(path, "r+b") as file:
        file.seek(100)
        file.write(b"!")
    os.utime(path, ns=(before.st_atime_ns, before.st_mtime_ns))


def replace_torrent(place):
    shutil.copy(f"{place}/t/2.torrent", f"{place}/t/1.torrent")


def other_content(place):
    shutil.copytree(f"{place}/content", f"{place}/B")
    os.remove(f"{place}/B/1/f")


def other_torrents(place):
    shutil.copytree(f"{place}/t", f"{place}/T")
    os.remove(f"{place}/T/1.torrent")


def came(place):
    write(f"{place}/t/0.torrent", torrents.torrent_of([("f", b"lost")], 16384))


def cut(path):
    write(path, written(path)[:-3])


# What happens after three of five torrents were checked and the round was stopped; the words that then go on; and the
# torrents that are then checked.
ROUNDS = {
    "nothing": (lambda place: None, ["t", "content"], "45"),
    "another CONTENT": (other_content, ["t", "B"], "12345"),
    "another TORRENTS": (other_torrents, ["T", "content"], "2345"),
    "the same by other names": (lambda place: os.symlink("t", f"{place}/same"), ["same/", "content/../content"], "45"),
    "a file that was damaged": (lambda place: damage(f"{place}/content/2/f"), ["t", "content"], "245"),
    "a file that is gone": (lambda place: os.remove(f"{place}/content/2/f"), ["t", "content"], "245"),
    "a file that was touched": (lambda place: os.utime(f"{place}/content/3/f"), ["t", "content"], "345"),
    "a torrent that was replaced": (replace_torrent, ["t", "content"], "145"),
    "a torrent that came": (came, ["t", "content"], "045"),
    "a torrent that is gone": (lambda place: os.remove(f"{place}/t/1.torrent"), ["t", "content"], "45"),
    "a folder that went": (lambda place: os.rename(f"{place}/content/1", f"{place}/content/x"), ["t", "content"], "145"),
    "a report that was cut": (lambda place: cut(f"{place}/reports/3.report"), ["t", "content"], "345"),
    "another option": (lambda place: None, ["t", "content", "--bad"], "12345"),
    "anew": (lambda place: None, ["t", "content", "--anew"], "12345"),
}


def test_a_round_goes_on_for_the_same_alone():
    for name, (happens, words, checked) in ROUNDS.items():
        with folder() as place:
            there = Place(place)
            there.stop(3, ["archive", "-j", "1", "t", "content", "reports"], "reports")
            happens(place)
            status, out, error = there.run("archive", *words[:2], "reports", *words[2:], "-j", "2")
            seen = sorted(line.split("/")[1][0] for line in there.ran())
            assert seen == sorted(checked), (name, seen, error)
            assert there.run("archive", *words[:2], "fresh", *[word for word in words[2:] if word != "--anew"])[:2] == (status, out), name
            assert there.reports() == there.reports("fresh") and len(there.reports()) == len(os.listdir(f"{place}/{words[0]}")), name
            assert ("begins anew" if len(checked) > 3 else "goes on with the round that was stopped") in error, (name, error)
            changed = set(checked) - set("450")
            assert len(checked) > 3 or (f"anew, since files changed: {''.join(changed)}" in error) == bool(changed), (name, error)


def test_an_empty_round_leaves_nothing():
    with folder() as place:
        there = Place(place)
        os.mkdir(f"{place}/none")
        os.mkdir(f"{place}/kept")
        for reports in ("reports", "kept"):
            assert there.run("archive", "none", "content", reports) == (2, "", "fault: there is no torrent\n")
        assert there.left() == {"none", "kept"} and os.listdir(f"{place}/kept") == []
        shutil.copy(f"{place}/t/1.torrent", f"{place}/none")
        assert there.run("archive", "none", "content", "reports") == (0, "", "1 torrent, 1 good\n")


def test_what_is_no_torrent_and_no_report():
    """A folder is no torrent, a name of dots leads nowhere, and what others keep beside the reports stays."""
    with folder() as place:
        there = Place(place)
        os.makedirs(f"{place}/t/x.torrent/y.torrent")
        shutil.copy(f"{place}/t/1.torrent", f"{place}/t/x.torrent/6.torrent")
        os.symlink("../content", f"{place}/t/link.torrent")
        for dots in ("", ".", ".."):
            shutil.copy(f"{place}/t/1.torrent", f"{place}/t/{dots}.torrent")
        write(f"{place}/f", bytes([1]) * 50_000)
        os.mkdir(f"{place}/reports")
        others = {"my.report": b"mine\n", "my.error": b"a fault\n", "my.reasons": b"", "note": b"yes\n", "yes.report": b"yes"}
        for name, text in others.items():
            write(f"{place}/reports/{name}", text)
        write(f"{place}/reports/gone.report", b"good f\nyes\n")
        lost = "".join(f"{name}: missing f\n{name}: no\n" for name in ("..", ".", "", "6"))
        for _ in range(2):
            assert there.run("archive", "t", "content", "reports") == (1, lost, "9 torrents, 5 good, 4 not good\n")
            kept = there.reports()
            hints = {name for name, text in kept.items() if text.startswith(b"hint: ")}
            assert hints == {"...reasons", "..reasons", ".reasons", "6.reasons"}, kept
            assert kept.items() > others.items() and "gone.report" not in kept and len(kept) == len(others) + 9 + len(hints), kept


def other_files(place):
    shutil.copytree(f"{place}/files", f"{place}/B")
    damage(f"{place}/B/a")


def other_torrent(place):
    write(f"{place}/B.torrent", torrents.torrent_of([(name, name.encode() * 100_001) for name in "abc"], 16384))


# What happens after four of six parts of a check were done, the arguments that then go on, and how many parts are then
# checked. Of the parts 1 and 2 have the first file, 3 and 4 the second one, 5 and 6 the third.
CHECKS = {
    "nothing": (lambda place: None, ["files.torrent", "files"], 2),
    "a file that was damaged": (lambda place: damage(f"{place}/files/a"), ["files.torrent", "files"], 4),
    "a file of what is left": (lambda place: damage(f"{place}/files/c"), ["files.torrent", "files"], 2),
    "a file that is gone": (lambda place: os.remove(f"{place}/files/b"), ["files.torrent", "files"], 4),
    "another DIR": (other_files, ["files.torrent", "B"], 6),
    "another TORRENT": (other_torrent, ["B.torrent", "files"], 6),
    "a torrent that changed": (lambda place: os.utime(f"{place}/files.torrent"), ["files.torrent", "files"], 6),
    "a part that was cut": (lambda place: cut(f"{place}/kept/parts/1"), ["files.torrent", "files"], 3),
    "another option": (lambda place: None, ["files.torrent", "files", "--bad"], 6),
    "another number of parts": (lambda place: None, ["files.torrent", "files", "--parts=5"], 5),
    "anew": (lambda place: None, ["files.torrent", "files", "--anew"], 6),
}


def test_a_check_in_parts_goes_on_for_the_same_alone():
    for name, (happens, words, count) in CHECKS.items():
        with folder() as place:
            there = Place(place)
            there.stop(4, ["check", "--keep", "kept", "-j", "1", "--parts", "6", "files.torrent", "files"], "kept/parts")
            happens(place)
            status, out, error = there.run("check", "--parts", "6", *words, "--keep=kept")
            plain = subprocess.run([BTCHECK, "check", *words[:2], *[word for word in words[2:] if word == "--bad"]], cwd=place,
                                   stdout=subprocess.PIPE, text=True, check=False)
            assert (status, out) == (plain.returncode, plain.stdout), (name, out, error)
            assert len(there.ran()) == count and ("anew" in error) == (count > 2 and "left" not in name), (name, there.ran(), error)
            assert not os.path.exists(f"{place}/kept")


# The same of a torrent that is made, with what is given to `create`.
CREATES = {
    "nothing": (lambda place: None, ["files"], 2),
    "a file that was damaged": (lambda place: damage(f"{place}/files/a"), ["files"], 6),
    "a file that came": (lambda place: write(f"{place}/files/d", b"d"), ["files"], 6),
    "a file that is left out": (lambda place: write(f"{place}/files/d.log", b"d"), ["files"], 2),
    "a file that is gone": (lambda place: os.remove(f"{place}/files/b"), ["files"], 6),
    "another DIR": (other_files, ["B"], 6),
    "another option": (lambda place: None, ["files", "--hybrid"], 6),
    "a part that was cut": (lambda place: write(f"{place}/kept/parts/1", b""), ["files"], 3),
    "anew": (lambda place: None, ["files", "--anew"], 6),
}
OPTIONS = ["--name=n", "--piece-length", "16384", "--exclude", "*.log"]


def test_a_torrent_in_parts_goes_on_for_the_same_alone():
    for name, (happens, words, count) in CREATES.items():
        with folder() as place:
            there = Place(place)
            there.stop(4, ["create", "files", "out", *OPTIONS, "--keep", "kept", "-j1", "--parts", "6"], "kept/parts")
            happens(place)
            status, out, error = there.run("create", *words, "out", *OPTIONS, "--parts=6", "--keep", "kept")
            plain = [word for word in words if word != "--anew"]
            subprocess.run([BTCHECK, "create", *plain, "whole", *OPTIONS], cwd=place, check=True)
            assert (status, out) == (0, "") and written(f"{place}/out") == written(f"{place}/whole"), (name, status, out, error)
            assert len(there.ran()) == count and ("anew" in error) == (count > 2), (name, there.ran(), error)
            assert not os.path.exists(f"{place}/kept")


def test_a_run_goes_on_whatever_the_number_of_jobs():
    """Without --parts it is cut as it was."""
    with folder() as place:
        there = Place(place)
        there.stop(1, ["check", "--keep", "kept", "-j", "1", "--parts", "3", "files.torrent", "files"], "kept/parts")
        assert there.run("check", "--keep", "kept", "-j", "2", "files.torrent", "files")[0] == 0 and len(there.ran()) == 2


def test_a_run_that_is_killed():
    """What a killed run left at work keeps others out, and its parts that are whole are not done again."""
    with folder() as place:
        there = Place(place)
        write(f"{place}/halt", b"2")
        for name in ("ran", "ended"):
            write(f"{place}/{name}", b"")
        words = ["check", "--keep", "kept", "-j", "2", "--parts", "6", "files.torrent", "files"]
        program, end = there.start(words), time.monotonic() + 60
        while len(names_in(f"{place}/kept/parts")) < 2 or len(there.ran()) < 4:
            assert time.monotonic() < end
            time.sleep(0.01)
        program.kill()
        program.communicate()
        # (one more may have begun before the second one ended)
        whole = len(names_in(f"{place}/kept/parts"))
        assert there.run(*words) == (2, "", "fault: another run is at work there\n")
        os.remove(f"{place}/halt")
        while there.run(*words)[0] == 2:
            assert time.monotonic() < end
            time.sleep(0.05)
        assert len(there.ran()) == 6 - whole and whole in (2, 3)


def test_a_look_tells_one_file_from_another():
    """Of each change of a file: it is seen by its size, time or inode; a file that changed just now counts as changing."""
    with folder() as place:
        path = write(f"{place}/f", b"abc")
        tick, looks.TICK = looks.TICK, 60_000_000_000  # (so long may pass here before the first look, on a busy machine)
        assert len(looks.look(path)) == 5 and looks.look(path) != looks.look(path)
        looks.TICK = tick
        time.sleep(0.05)
        first = looks.look(path)
        assert looks.look(path) == first and json.loads(json.dumps(first)) == first
        for change in (damage, os.utime, lambda path: os.chmod(path, 0o600), lambda path: write(path, b"abcd"),
                       lambda path: os.replace(write(f"{path}2", b"abc"), path), os.remove, os.mkdir):
            if change is damage:
                write(path, bytes(200))
            before = looks.look(path)
            change(path)
            assert looks.look(path) != before, change
