"""Files that are read together: on a terminal no line waits long for the files behind it."""
import os
import subprocess
import sys
import time

from support import LeftOut, folder, write
from terminal import arrivals
from torrents import torrent_of

SECONDS = 0.4

# How often a run is tried: one that has to wait for a processor is late by that.
TRIES = 3

# Holds leases on the files that it is given, so that who opens one waits; gives one back after each pause, and prints when.
HOLDER = f"""
import fcntl, os, signal, sys, time
signal.signal(signal.SIGIO, signal.SIG_IGN)
files = [os.open(path, os.O_RDWR) for path in sys.argv[1:]]
try:
    for file in files:
        fcntl.fcntl(file, fcntl.F_SETLEASE, fcntl.F_WRLCK)
except OSError:
    print("none", flush=True)
    raise SystemExit
print("held", flush=True)
sys.stdin.readline()
for file in files:
    time.sleep({SECONDS})
    print(time.monotonic())
    fcntl.fcntl(file, fcntl.F_SETLEASE, fcntl.F_UNLCK)
"""


def slowly(paths):
    """Has each of these files be opened some time after the one before it, from `begin` on."""
    holder = subprocess.Popen([sys.executable, "-c", HOLDER, *paths], stdin=subprocess.PIPE, stdout=subprocess.PIPE)
    if holder.stdout.readline() != b"held\n":
        raise LeftOut("no leases on files here")

    def begin():
        holder.stdin.write(b"\n")
        holder.stdin.flush()

    return holder, begin


def lateness(place, files, words, *arguments):
    """The lines that do not come before the third file behind theirs can be read, of a run that reads these files one by
    one as they are given back."""
    start = time.monotonic()
    holder, begin = slowly([f"{place}/files/{name}" for name, _ in files[1:]])
    status, lines = arrivals(*arguments, begin=begin)
    readable = [start, *(float(line) for line in holder.communicate(timeout=60)[0].split())]
    assert status == 0, (status, lines)
    assert [line for line, _ in lines[:len(files)]] == [f"{words} {name}" for name, _ in files], lines
    assert all(came > since for (_, came), since in zip(lines, readable)), (lines, readable)
    return [(line, came - start) for (line, came), later in zip(lines, readable[3:]) if came > later]


def expect_prompt(*run):
    """Each line comes soon, though later files are slow: in one run of some at least."""
    late = []
    for _ in range(TRIES):
        late.append(lateness(*run))
        if not late[-1]:
            return
    raise AssertionError(late)


FILES = [(f"f{at}", bytes([at]) * 20000) for at in range(7)]


def slow_files(place):
    """A torrent of small files, which stand in a folder."""
    os.mkdir(f"{place}/files")
    for name, content in FILES:
        write(f"{place}/files/{name}", content)
    return write(f"{place}/torrent", torrent_of(FILES, 32768))


def test_lines_of_seeds():
    with folder("/dev/shm") as place:
        torrent, record = slow_files(place), write(f"{place}/record", b"")
        expect_prompt(place, FILES, "seeded", "replay", torrent, record, "--seed", f"{place}/files")


def test_lines_of_a_check():
    with folder("/dev/shm") as place:
        torrent = slow_files(place)
        expect_prompt(place, FILES, "good", "check", torrent, f"{place}/files")
