"""`btcheck convert` of piece messages of one block each, beside copying the record by `cat`; and `btcheck replay` of
the first of them, verified by piece layers, as a record of form 2 and as one of form 1."""
import os
import sys

from measuring import BLOCK, BTCHECK, TOP, lacks, measured, missed_marks, report

sys.path.insert(0, os.path.join(TOP, "tests"))
import messages  # noqa: E402
import torrents  # noqa: E402
from trees import Tree  # noqa: E402

# Processor time: what the conversion may cost at most, beside copying, and a replay of form 2 beside one of form 1.
CONVERT_MARKS, REPLAY_MARKS = [("cat", 1.5)], [("form 1", 1.02)]
MEMORY_MARK = 2  # MiB
REPLAYED = 4096  # messages


def write_pieces(path, count):
    """Piece messages of random blocks, and the leaves of the first of them."""
    leaves = []
    with open(path, "wb") as out:
        for at in range(count):
            block = os.urandom(BLOCK)
            leaves += [block] if at < REPLAYED else []
            out.write(messages.piece(at, 0, block))
    return Tree.of_blocks(leaves)


def convert(folder, words):
    """Measures the conversion, and gives the marks that it misses, in words, and the hashes of the first blocks."""
    record, out, copy = (os.path.join(folder, name) for name in ("record", "converted", "copy"))
    tree = write_pieces(record, words.size * 64)
    found = measured({
        "btcheck convert": [BTCHECK, "convert", record, out],
        "cat": ["sh", "-c", 'exec cat "$1" > "$2"', "cat", record, copy],
    }, words.rounds)
    assert os.path.getsize(out) == 8 + words.size * 64 + os.path.getsize(record)
    print(f"{words.size * 64} pieces converted", end=": ")
    report(found, words.size, "btcheck convert")
    missed = missed_marks(found, "btcheck convert", CONVERT_MARKS)
    if found["btcheck convert"].peak > MEMORY_MARK * 1024:
        missed.append(f"btcheck convert takes more than {MEMORY_MARK} MiB")
    return missed, tree


def replay(folder, words, tree):
    """Measures both forms of a record of the first blocks, and gives the marks that they miss, in words."""
    paths = [os.path.join(folder, name) for name in ("torrent", "form-1", "form-2")]
    entry = {"": {"length": REPLAYED * BLOCK, "pieces root": tree.root}}
    with open(paths[0], "wb") as torrent, open(paths[1], "wb") as first, open(paths[2], "wb") as second:
        torrent.write(torrents.torrent(torrents.info({"file": entry}, BLOCK), {tree.root: b"".join(tree.whole_layer(0))}))
        with open(os.path.join(folder, "record"), "rb") as record:
            first.write(record.read(REPLAYED * (13 + BLOCK)))
        with open(os.path.join(folder, "converted"), "rb") as record:
            second.write(record.read(8 + REPLAYED * (14 + BLOCK)))
    found = measured({"form 2": [BTCHECK, "replay", paths[0], paths[2]],
                      "form 1": [BTCHECK, "replay", paths[0], paths[1]]}, 3 * words.rounds)
    print(f"{REPLAYED} pieces replayed", end=": ")
    report(found, REPLAYED * BLOCK >> 20, "form 2")
    return missed_marks(found, "form 2", REPLAY_MARKS)


def run(folder, words):
    """Measures both, and gives the marks that they miss, in words."""
    if lacks("convert"):
        return []
    missed, tree = convert(folder, words)
    return missed + replay(folder, words, tree)
