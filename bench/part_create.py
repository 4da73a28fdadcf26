"""`btcheck create` of a folder with one file of random bytes, and of one with many files of one block, each as a
torrent of version 2 and as a hybrid: beside the bare digests of the same bytes (SHA-256; SHA-256 and SHA-1), and beside
libtorrent, which makes a torrent of the same folder with one thread (remake.py; it needs Debian's python3-libtorrent).
Its memory is held against that of `btcheck show` of what it made."""
import os
import shutil
import sys

import part_check
from measuring import BARE, BTCHECK, TOP, build_bare, lacks, measure, measured, missed_marks, report

sys.path.insert(0, os.path.join(TOP, "tests"))
import support  # noqa: E402

# What one large file may cost at most: (of what, ratio of processor time), and how many MiB any folder may take beside
# the torrent.
MARKS = [("bare digests", 1.05)]
MEMORY_MARK = 8


def commands_of(folder, files, joined, piece_length, hybrid):
    out, kind = os.path.join(folder, "torrent"), "hybrid" if hybrid else "v2"
    create = [BTCHECK, "create", files, out, "--name", "files", "--piece-length", str(piece_length)]
    return {
        "btcheck create": create + ["--hybrid"] * hybrid,
        "bare digests": [BARE, "both" if hybrid else "digests", joined],
        "reading alone": [BARE, "read", joined],
        "libtorrent": [support.python_with_libtorrent(), os.path.join(TOP, "bench", "remake.py"), files,
                       os.path.join(folder, "theirs"), str(piece_length), kind],
    }


def create(folder, words, make):
    """Measures one folder as both kinds of torrent, and gives the marks that it misses, in words."""
    files, joined, torrent = (os.path.join(folder, name) for name in ("files", "joined", "torrent"))
    os.makedirs(files)
    _, piece_length, mib = make(files, words)
    part_check.join(files, joined)
    missed = []
    for hybrid in (False, True):
        found = measured(commands_of(folder, files, joined, piece_length, hybrid), words.rounds)
        print(f"{make.__name__.replace('_', ' ')}, {'hybrid' if hybrid else 'version 2'}: ", end="")
        report(found, mib, "btcheck create")
        measure([BTCHECK, "check", torrent, files])
        if make is part_check.one_file:
            missed += missed_marks(found, "btcheck create", MARKS)
        if found["btcheck create"].peak > measure([BTCHECK, "show", torrent])[2] + MEMORY_MARK * 1024:
            missed.append(f"btcheck create takes more than {MEMORY_MARK} MiB beside the torrent")
    shutil.rmtree(files)
    return missed


def run(folder, words):
    """Measures `create`, and gives the marks that it misses, in words."""
    if lacks("create"):
        return []
    build_bare()
    return create(folder, words, part_check.one_file) + create(folder, words, part_check.many_files)
