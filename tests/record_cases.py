"""What the tests of records with directions share."""
import functools
import random
import subprocess

import messages
from support import BTCHECK, run, write
from torrents import torrent_of
from trees import BLOCK, Tree

IN, OUT = b"\x00", b"\x01"

# A record of form 1 of the torrent of `abc.txt`, its frames, and the line of each.
FRAMES = [messages.KEEP_ALIVE, messages.piece(0, 0, b"abc"), messages.frame(b"\x04" + bytes(4)),
          messages.piece(0, 0, b"abd")]
LINES = ["keep-alive", "verified 0 0", "skipped 4", "refused P4 BadBlock"]


@functools.lru_cache
def large():
    """A file of 1,024 blocks, its torrent of one piece, and an ask for the second half of its leaves."""
    content = random.Random(14).randbytes(1024 * BLOCK)
    tree = Tree.of(content)
    return content, tree, torrent_of([("file", content)], len(content)), (tree.root, 0, 512, 512, 9)


def replay(place, torrent, record, *flags):
    return run("replay", write(f"{place}/torrent", torrent), write(f"{place}/record", record), *flags)


def started(*arguments):
    return subprocess.Popen([BTCHECK, *arguments], stdin=subprocess.PIPE, stdout=subprocess.PIPE, bufsize=0)


def worlds():
    """Files and piece lengths of torrents to talk about."""
    chance = random.Random(21)
    for files in ([("a", chance.randbytes(16385)), ("b", b""), ("c", b"abc")],
                  [("large", chance.randbytes(300 * BLOCK + 77)), ("nine", chance.randbytes(9 * BLOCK))]):
        for piece_length in (16384, 262144):
            yield files, piece_length
