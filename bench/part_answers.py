"""`btcheck replay --answers` and `--seed`. 2,048 requests of 512 leaves with their uncles, eight times each, are
answered from a tree of 2^20 leaves, beside copying the bytes of the answers; what a replay without a request takes, for
the session, is left out. And a session is filled from a file, beside the bare digests of its blocks, and in little more
memory than what it then knows takes."""
import os
import statistics
import sys

from measuring import BARE, BLOCK, BTCHECK, TOP, build_bare, measured, missed_marks, need_program, report, write_random

sys.path.insert(0, os.path.join(TOP, "tests"))
import messages  # noqa: E402
import torrents  # noqa: E402
from trees import Tree  # noqa: E402

SPAN, LEAVES, TIMES = 512, 1 << 20, 8
# Processor time: answers at most so often as long as copying them, seeding as the bare digests.
ANSWERS_MARK, SEED_MARKS = 3, [("bare digests", 1.05)]
SEED_MEMORY_MARK = 1024  # KiB beside the session
CELL_BYTES = 33


def write(path, parts):
    with open(path, "wb") as out:
        out.writelines(parts)
    return path


def answers(folder, words):
    """All leaves are known from the piece layers, since a piece is one block."""
    tree = Tree([os.urandom(32) for _ in range(LEAVES)])
    entry = {"": {"length": LEAVES * BLOCK, "pieces root": tree.root}}
    whole = torrents.torrent(torrents.info({"file": entry}, BLOCK), {tree.root: b"".join(tree.layers[0])})
    torrent = write(os.path.join(folder, "torrent"), [whole])
    asks = [messages.request(tree.root, 0, index, SPAN, tree.height) for index in range(0, LEAVES, SPAN)]
    record = write(os.path.join(folder, "record"), asks * TIMES)
    out, copy = os.path.join(folder, "out"), os.path.join(folder, "copy")
    found = measured({
        "with answers": [BTCHECK, "replay", torrent, record, "--answers", out],
        "no requests": [BTCHECK, "replay", torrent, "/dev/null"],
        "copying": ["cp", out, copy],
    }, words.rounds)
    size = os.path.getsize(out)
    assert size == TIMES * len(asks) * (53 + 32 * (SPAN + tree.height - 9)), size
    print(f"{TIMES * len(asks)} answers of {SPAN} leaves", end=": ")
    report(found, size >> 20, "with answers")
    rounds = zip(found["with answers"].processors, found["no requests"].processors, found["copying"].processors)
    ratio = statistics.median((full - bare) / max(copied, 0.001) for full, bare, copied in rounds)
    print(f"the answers alone take {ratio:.2f} x the processor time of copying them, and "
          f"{found['with answers'].peak - found['no requests'].peak} KiB")
    return [f"answers take more than {ANSWERS_MARK} x the time of copying them"] if ratio > ANSWERS_MARK else []


def seeding(folder, words):
    content = os.path.join(folder, "content")
    os.makedirs(content)
    path = os.path.join(content, "file")
    write_random(path, words.size)
    with open(path, "rb") as file:
        tree = Tree.of_blocks(iter(lambda: file.read(BLOCK), b""))
    length = words.size << 20
    entry = {"": {"length": length, "pieces root": tree.root}}
    piece_length = min(1 << 30, BLOCK << tree.height)
    layers = {tree.root: b"".join(tree.whole_layer(16))} if length > piece_length else {}
    whole = torrents.torrent(torrents.info({"file": entry}, piece_length), layers)
    torrent = write(os.path.join(folder, "seeded"), [whole])
    found = measured({
        "seeding": [BTCHECK, "replay", torrent, "/dev/null", "--info-only", "--seed", content],
        "root": [BTCHECK, "root", path],
        "bare digests": [BARE, "digests", path],
    }, words.rounds)
    print("seeding", end=": ")
    report(found, words.size, "seeding")
    # of a page with fewer places only the cells of these are written, and take memory
    cells = sum(1 << tree.height - layer for layer in range(tree.height + 1))
    beside = found["seeding"].peak - found["root"].peak - cells * CELL_BYTES // 1024
    print(f"beside the session, of {cells} cells, seeding takes {beside} KiB more than root")
    missed = [f"seeding takes more than {SEED_MEMORY_MARK} KiB beside the session"] if beside > SEED_MEMORY_MARK else []
    return missed + missed_marks(found, "seeding", SEED_MARKS)


def run(folder, words):
    """Measures both, and gives the marks that they miss, in words."""
    need_program()
    build_bare()
    return answers(folder, words) + seeding(folder, words)
