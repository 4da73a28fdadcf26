"""`btcheck check --bad`, which prints the runs of bad pieces, beside `check` of the same file of random bytes, of which
one byte is wrong: for pieces of 16 KiB, 64 KiB and 1 MiB, by a torrent of version 2 and by a hybrid."""
import os

from measuring import BTCHECK, measure, measured, missed_marks, need_program, report, write_random

MARKS = [("check", 1.05)]
COMMANDS = {"check --bad": "check --bad", "check": "check"}


def says_no(command, torrent, files):
    """The command that makes this check; it fails if the answer is another one than no."""
    return ["sh", "-c", f"{BTCHECK} {command} {torrent} {files}; test $? -eq 1"]


def run(folder, words):
    """Measures each torrent, and gives the marks that are missed, in words."""
    need_program()
    files, missed = f"{folder}/files", []
    os.makedirs(files)
    write_random(f"{files}/content", words.size)
    torrents = {}
    for piece_length in (1 << 14, 1 << 16, 1 << 20):
        for name, kind in (("version 2", []), ("hybrid", ["--hybrid"])):
            torrent = f"{folder}/{piece_length}{name[0]}"
            measure([BTCHECK, "create", files, torrent, "--name", "x", "--piece-length", str(piece_length), *kind])
            torrents[f"{name}, pieces of {piece_length >> 10} KiB"] = torrent
    with open(f"{files}/content", "r+b") as content:
        content.seek((words.size << 20) // 2)
        byte = content.read(1)[0]
        content.seek(-1, os.SEEK_CUR)
        content.write(bytes([byte ^ 1]))
    for name, torrent in torrents.items():
        found = measured({title: says_no(command, torrent, files) for title, command in COMMANDS.items()}, words.rounds)
        print(name, end=": ")
        report(found, words.size, "check --bad")
        missed += [f"{mark} ({name})" for mark in missed_marks(found, "check --bad", MARKS)]
    return missed
