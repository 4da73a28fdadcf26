"""The inputs that cost a command the most time or memory beside their own size: torrents of `--part` MiB and records of
sixteen times as much, each built by a function below and run once. Printed are processor time and the largest resident
set, each for a MiB of the input. At the default sizes it needs 8 GiB of memory, and takes some twenty minutes: a record
of 1 GiB of keep-alives has 268 million frames, and as many lines."""
import itertools
import os
import string
import sys

from measuring import BTCHECK, TOP, measure, need_program

sys.path.insert(0, os.path.join(TOP, "tests"))
import messages  # noqa: E402
from torrents import ABC, bencoded, torrent_of  # noqa: E402
from trees import BLOCK, Tree, blocks_of, sha256  # noqa: E402

# How many times its size a torrent may take in memory, and how many MiB a replay and a conversion may take whatever their
# record's size.
TORRENT_MARK = 36
REPLAY_MARK = 8
CONVERT_MARK = 2


def ignored(value, size):
    """The torrent of `abc.txt` with a list of `size` bytes of values under a key that nothing reads."""
    return b"d1:al" + value * (size // len(value)) + b"e" + ABC[1:]


def empty_files(folders, size):
    """A torrent of empty files, all below `folders` folders."""
    files = [b"4:%sd0:d6:lengthi0eee" % name for name in names(size // 23)]
    tree = b"d1:d" * folders + b"d" + b"".join(files) + b"e" * (folders + 1)
    return b"d4:infod9:file tree" + tree + b"12:meta versioni2e4:name1:x12:piece lengthi16384eee"


def own_folders(size):
    """A torrent of empty files, each below 122 folders of its own."""
    last = b"1:ad" * 121 + b"1:ad0:d6:lengthi0eee" + b"e" * 122
    tree = b"d" + b"".join(b"4:%sd" % name + last for name in names(size // (len(last) + 7))) + b"e"
    return b"d4:infod9:file tree" + tree + b"12:meta versioni2e4:name1:x12:piece lengthi16384eee"


def names(count):
    """This many names of four letters, in order."""
    letters = sorted(string.ascii_letters.encode())
    return map(bytes, itertools.islice(itertools.product(letters, repeat=4), count))


def own_roots(size):
    """A torrent of files of one block, each with a root of its own."""
    tree = {name: {b"": {b"length": BLOCK, b"pieces root": sha256(name)}} for name in names(size // 80)}
    return bencoded({b"info": {b"file tree": tree, b"meta version": 2, b"name": b"x", b"piece length": BLOCK}})


def one_layer(size):
    """A torrent of one file with a piece layer of that size."""
    count = 1 << (size // 32).bit_length() - 1
    leaves = [bytes(32)] * count
    tree = Tree(leaves)
    info = {b"file tree": {b"x": {b"": {b"length": count * BLOCK, b"pieces root": tree.root}}}, b"meta version": 2,
            b"name": b"x", b"piece length": BLOCK}
    return bencoded({b"info": info, b"piece layers": {tree.root: b"".join(leaves)}})


TORRENTS = {
    "lists of an empty text": lambda size: ignored(b"l0:e", size),
    "lists of 33 empty texts": lambda size: ignored(b"l" + b"0:" * 33 + b"e", size),
    "lists of 33 empty lists": lambda size: ignored(b"l" + b"le" * 33 + b"e", size),
    "lists in lists": lambda size: ignored(b"l" * 126 + b"e" * 126, size),
    "dictionaries of a pair": lambda size: ignored(b"d0:0:e", size),
    "integers": lambda size: ignored(b"i0e", size),
    "empty files": lambda size: empty_files(0, size),
    "empty files below 123 folders": lambda size: empty_files(123, size),
    "empty files below 122 folders each": own_folders,
    "files with a root each": own_roots,
    "one piece layer": one_layer,
}

FIVE = bytes(range(256)) * 256 + bytes(100)
TREE = Tree.of(FIVE)
EIGHT = (TREE.root, 0, 0, 8, 2)


def repeated(frame):
    return lambda size: frame * (size // len(frame))


RECORDS = {
    "keep-alives": repeated(messages.KEEP_ALIVE),
    "other messages": repeated(messages.frame(b"\x04")),
    "hash requests": repeated(messages.request(*EIGHT)),
    "hashes that are known": repeated(messages.hashes(*EIGHT, given=TREE.hashes(0, 0, 8, 0))),
    "hashes that are false": repeated(messages.hashes(*EIGHT, given=[bytes(32)] * 5 + TREE.hashes(0, 0, 8, 0)[5:])),
    "a block that is known": repeated(messages.piece(0, 0, blocks_of(FIVE)[0])),
    "frames of a wrong size": repeated(messages.frame(b"\x07" + bytes(263217))),
}


def measure_one(name, arguments, mib, most):
    """Measures a command on an input of `mib` MiB, and gives the mark that it misses: its memory at most, in MiB."""
    _, processor, peak = measure([BTCHECK, *arguments], statuses=(0, 1))
    peak /= 1024
    print(f"{name:38} {mib:6} {processor / mib:12.4f} {peak:9.1f} {peak / mib:10.2f}", flush=True)
    return [f"{name} takes more than {most} MiB"] if peak > most else []


def written(folder, name, content):
    path = os.path.join(folder, name)
    with open(path, "wb") as out:
        out.write(content)
    return path


def run(folder, words):
    """Measures every input, and gives the marks that they miss, in words."""
    need_program()
    missed = []
    print(f"{'':38} {'MiB':>6} {'s for a MiB':>12} {'peak MiB':>9} {'for a MiB':>10}")
    for name, make in TORRENTS.items():
        path, most = written(folder, "torrent", make(words.part << 20)), TORRENT_MARK * words.part + REPLAY_MARK
        missed += measure_one(f"show: {name}", ["show", path], words.part, most)
        missed += measure_one(f"check: {name}", ["check", path, os.path.join(folder, "nothing")], words.part, most)
    path = written(folder, "torrent", torrent_of([("five", FIVE)], 32768))
    for name, make in RECORDS.items():
        record = written(folder, "record", make(16 * words.part << 20))
        missed += measure_one(f"replay: {name}", ["replay", path, record], 16 * words.part, REPLAY_MARK)
        converted = os.path.join(folder, "converted")
        missed += measure_one(f"convert: {name}", ["convert", record, converted], 16 * words.part, CONVERT_MARK)
    return missed
