"""`btcheck check` of a folder with one file of random bytes, and of one with many files of one block, each by a torrent
of version 2 and by a hybrid: beside the bare digests of the same bytes (SHA-256; SHA-256 and SHA-1), and beside
libtorrent, which checks the same folder with one thread (recheck.py; it needs Debian's python3-libtorrent). Its memory
is held against that of `btcheck show`, which has the same torrent and no file."""
import os
import shutil
import sys

from measuring import (BARE, BLOCK, BTCHECK, TOP, measured, build_bare, measure, missed_marks, need_program, report,
                       write_random)

sys.path.insert(0, os.path.join(TOP, "tests"))
import support  # noqa: E402

# What the check of one large file may cost at most: (of what, ratio of processor time), and how many MiB any check may
# take beside the torrent.
MARKS = [("bare digests", 1.05)]
MEMORY_MARK = 8


def one_file(folder, words):
    """A folder with one file of random bytes. Gives what a torrent is made of, its piece length, and the size in
    MiB."""
    path = os.path.join(folder, "content")
    write_random(path, words.size)
    return path, 1 << 20, words.size


def many_files(folder, words):
    """A folder with many files of one block of random bytes. Gives what `one_file` does."""
    for number in range(words.files):
        with open(os.path.join(folder, f"{number:06}"), "wb") as out:
            out.write(os.urandom(BLOCK))
    return folder, BLOCK, words.files * BLOCK >> 20


def join(folder, path):
    """The bytes of the folder's files, in one file."""
    with open(path, "wb") as out:
        for name in sorted(os.listdir(folder)):
            with open(os.path.join(folder, name), "rb") as content:
                shutil.copyfileobj(content, out, 1 << 20)


def commands_of(files, content, joined, torrent, hybrid):
    return {
        "btcheck check": [BTCHECK, "check", torrent, files],
        "bare digests": [BARE, "both" if hybrid else "digests", joined],
        "reading alone": [BARE, "read", joined],
        "libtorrent": [support.python_with_libtorrent(), os.path.join(TOP, "bench", "recheck.py"), torrent,
                       os.path.dirname(content)],
    }


def check(folder, words, make):
    """Measures one folder by both kinds of torrent, and gives the marks that it misses, in words."""
    files, joined, torrent = (os.path.join(folder, name) for name in ("files", "joined", "torrent"))
    os.makedirs(files)
    content, piece_length, mib = make(files, words)
    join(files, joined)
    missed = []
    for hybrid in (False, True):
        support.made_by_libtorrent([{"content": content, "torrent": torrent, "piece_length": piece_length,
                                     "hybrid": hybrid}])
        found = measured(commands_of(files, content, joined, torrent, hybrid), words.rounds)
        print(f"{make.__name__.replace('_', ' ')}, {'hybrid' if hybrid else 'version 2'}: ", end="")
        report(found, mib, "btcheck check")
        if make is one_file:
            missed += missed_marks(found, "btcheck check", MARKS)
        if found["btcheck check"].peak > measure([BTCHECK, "show", torrent])[2] + MEMORY_MARK * 1024:
            missed.append(f"btcheck check takes more than {MEMORY_MARK} MiB beside the torrent")
    shutil.rmtree(files)
    return missed


def run(folder, words):
    """Measures `check`, and gives the marks that it misses, in words."""
    need_program()
    build_bare()
    return check(folder, words, one_file) + check(folder, words, many_files)
