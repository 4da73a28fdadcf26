"""`--json` beside the plain report: `replay` of a million keep-alives, and `show` and `check` of a torrent of as many small
files as --files says, each with some bytes of its own."""
import os
import sys

from measuring import BTCHECK, TOP, measured, missed_marks, need_program, report

sys.path.insert(0, os.path.join(TOP, "tests"))
import torrents  # noqa: E402

KEEP_ALIVES = 1_000_000
MARKS = [("plain", 1.3)]


def make(folder, count):
    """A folder with as many small files, its torrent, one of the first file alone, and a record of keep-alives: four zero
    bytes each (BEP 3)."""
    contents = [(f"file {number:06}", b"%d" % number) for number in range(count)]
    os.makedirs(f"{folder}/files")
    for name, content in contents:
        with open(f"{folder}/files/{name}", "wb") as out:
            out.write(content)
    for name, some in (("torrent", contents), ("one.torrent", contents[:1])):
        with open(f"{folder}/{name}", "wb") as out:
            out.write(torrents.torrent_of(some, 1 << 14))
    with open(f"{folder}/record", "wb") as out:
        out.write(bytes(4 * KEEP_ALIVES))


def run(folder, words):
    """Measures each command, and gives the marks that are missed, in words."""
    need_program()
    make(folder, words.files)
    torrent, missed = f"{folder}/torrent", []
    for name, command in [(f"replay of {KEEP_ALIVES} keep-alives", ["replay", f"{folder}/one.torrent", f"{folder}/record"]),
                          (f"show of {words.files} files", ["show", torrent]),
                          (f"check of {words.files} files", ["check", torrent, f"{folder}/files"])]:
        found = measured({"--json": [BTCHECK, *command, "--json"], "plain": [BTCHECK, *command]}, words.rounds)
        print(name, end=": ")
        report(found, 0, "--json")
        missed += [f"{mark} ({name})" for mark in missed_marks(found, "--json", MARKS)]
    return missed
