#!/usr/bin/env python3
"""tests/walks.py: prints the walk of each command below: the files of the crates in which a function runs for each file of a
torrent, from its bytes to the line that is said of it.

The program itself tells: Rattle's own compiler makes it of what was proved, with no function inlined, and valgrind counts the
calls of each function, once for few files and once for more. The digests side by side, and what small files and long pieces
wait in for them, are left out.
"""
import collections
import glob
import os
import re
import sys

from support import TOP, LeftOut, folder, need, run, write

sys.path.insert(0, f"{TOP}/tools")
import kit  # noqa: E402

PROGRAM = f"{TOP}/build/plain/btcheck"
BESIDE = ("lanes/", "sha1_lanes/", "sha256_lanes/", "file_windows/", "pieces/src/stages.rt")
FEW, MANY = 2, 5
# Of each walk the commands whose calls are counted, and the functions within which they are.
WALKS = {
    "check": [("commands::checks::check::*", ["check", "torrent", "files"])],
    "check --part, join": [("commands::part_checks::check_part::*", ["check", "torrent", "files", "--part", "1/1"]),
                           ("commands::outcomes::join::*", ["join", "torrent", "report"])],
}


def made():
    """Makes the program, unless it is newer than all that it is made of."""
    sources = glob.glob(f"{TOP}/crates/*/src/**/*.rt", recursive=True)
    if os.path.exists(PROGRAM) and os.path.getmtime(PROGRAM) > max(map(os.path.getmtime, sources)):
        return
    if not os.path.exists(f"{kit.KIT}/bin/rattle") or not os.path.exists(kit.rlib("performing")):
        raise LeftOut("the libraries of the program are not proved: tools/prove btcheck does that")
    if b"--backend" not in run("build", "--help", program=f"{kit.KIT}/bin/rattle").stdout:
        raise LeftOut("this kit has no compiler of its own")
    os.makedirs(os.path.dirname(PROGRAM), exist_ok=True)
    words = ["--incremental", "out/incremental", "--toolchain", f"{kit.KIT}/toolchain", "--backend", "rattle", "--opt-level", "0"]
    assert kit.logged(kit.command("btcheck", "src/main.rt", *words, "-o", f"{PROGRAM}.o"), "btcheck", "btcheck-plain")
    kit.run(kit.linking(PROGRAM), "btcheck", check=True)


def file_of(symbol):
    """The file that has a function, as it stands below crates/; None if that is no crate's here."""
    crate, *words = re.sub(r"<.*", "", symbol).rstrip(":").split("::")
    paths = (f"{crate}/src/{'/'.join(words[:count])}.rt" for count in range(len(words), 0, -1))
    return next((path for path in paths if os.path.exists(f"{TOP}/crates/{path}")), None)


def calls(place, inside, arguments):
    """How many calls of the functions of each file are made within these functions."""
    words = ["--tool=callgrind", f"--toggle-collect={inside}", "--compress-strings=no", "--callgrind-out-file=calls", PROGRAM]
    done = run(*words, *arguments, program="valgrind", cwd=place)
    assert done.returncode == 0 and done.stdout.endswith(b"yes\n"), done
    if "--part" in arguments:
        write(f"{place}/report", done.stdout)
    counts = collections.Counter()
    with open(f"{place}/calls", encoding="utf-8", errors="replace") as file:
        for symbol, count in re.findall(r"^cfn=(.*)\ncalls=(\d+) ", file.read(), re.M):
            counts[file_of(symbol)] += int(count)
    return counts


def counted(walk, files):
    """The calls of each file in the commands of a walk, for this many files of a hybrid, which are none of the small ones."""
    with folder() as place:
        os.mkdir(f"{place}/files")
        for number in range(files):
            write(f"{place}/files/{number}", bytes([number]) * 150_000)
        words = ["create", f"{place}/files", f"{place}/torrent", "--name", "x", "--piece-length", "32768", "--hybrid"]
        assert run(*words, program=PROGRAM).returncode == 0
        return [calls(place, *step) for step in WALKS[walk]]


def files_of(walk):
    """The files of a walk, sorted: those whose functions are called at least once more for each file more."""
    need("valgrind")
    made()
    few, many = counted(walk, FEW), counted(walk, MANY)
    each = {path for one, other in zip(few, many) for path in other if path and other[path] - one[path] >= MANY - FEW}
    return sorted(path for path in each if not path.startswith(BESIDE))


def crates_of(paths):
    return {path.split("/")[0] for path in paths}


if __name__ == "__main__":
    for name in WALKS:
        found = files_of(name)
        print(f"{name}: {len(found)} files of {len(crates_of(found))} crates", *found, sep="\n  ")
