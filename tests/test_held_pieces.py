"""Blocks that are held, with small bounds: the program of crates/piece_tests replays a record beside them.

A torrent of pieces of four blocks: `a` and `b` have one content of ten blocks and 100 bytes, so one tree, and `c` has
six blocks. Its piece layers are known."""
import random

import pieces_model
from messages import hashes, piece
from support import folder, piece_tests, run, write
from torrents import torrent_of
from trees import BLOCK, Tree, blocks_of

A = bytes(range(256)) * 640 + bytes(100)
C = bytes(range(255, -1, -1)) * 384
FILES = [("a", A), ("b", A), ("c", C)]
TORRENT = torrent_of(FILES, 4 * BLOCK)
FIRST = [0, 3, 6]  # the first piece of each file


def sent(file, block, turned=False):
    """The message with a block of a file, or with one whose first byte has another bit."""
    content = blocks_of(FILES[file][1])[block]
    if turned:
        content = bytes([content[0] ^ 1]) + content[1:]
    return piece(FIRST[file] + block // 4, block % 4 * BLOCK, content)


def leaves(file, first):
    """The message with the leaves of the four blocks from this one on, and the uncle that leads to their piece's."""
    tree = Tree.of(FILES[file][1])
    return hashes(tree.root, 0, first, 4, 0, given=tree.hashes(0, first, 4, 0))


def replayed(place, record, bound):
    """What the program prints: the report, and how many blocks of each tree are marked."""
    done = run(write(f"{place}/t", TORRENT), write(f"{place}/r", record), str(bound), program=piece_tests())
    assert (done.returncode, done.stderr) == (0, b""), done
    lines = done.stdout.decode().splitlines()
    return lines[:-2], [int(line.split()[2]) for line in lines[-2:]]


def modelled(record, bound):
    holding = pieces_model.Holding(pieces_model.Opened(TORRENT, True), bound)
    _, text = pieces_model.report(holding, record, padded=True)
    marked = [len(holding.marked.get(root, ())) for root in holding.session.trees]
    return text.decode().splitlines(), marked


# Each case: the bound in blocks, the messages, the lines of the report, and how many blocks of each tree are marked.
CASES = {
    "the newest digest wins": (
        16, [sent(0, 0, turned=True), sent(0, 0), sent(0, 1), sent(0, 2), sent(0, 3)],
        ["1 held 0 0", "2 held 0 0", "3 held 0 1", "4 held 0 2", "5 held 0 3", "5 proved 0 0 3", "end"], [4, 0]),
    "also if it is false": (
        16, [sent(0, 0), sent(0, 0, turned=True), sent(0, 1), sent(0, 2), sent(0, 3)],
        ["1 held 0 0", "2 held 0 0", "3 held 0 1", "4 held 0 2", "5 held 0 3", "5 false 0 0 3", "end"], [0, 0]),
    "the oldest gives way, and is told of its first file": (
        4, [sent(1, 0), sent(2, 0)], ["1 held 1 0", "2 dropped 0 0 3", "2 held 2 0", "held 1", "end"], [0, 0]),
    "or of the file at hand, if it has the tree": (
        4, [sent(0, 0), sent(1, 4)], ["1 held 0 0", "2 dropped 1 0 3", "2 held 1 4", "held 1", "end"], [0, 0]),
    "the one whose newest block came longest ago": (
        8, [sent(0, 0), sent(2, 0), sent(0, 1), sent(0, 4)],
        ["1 held 0 0", "2 held 2 0", "3 held 0 1", "4 dropped 2 0 3", "4 held 0 4", "held 3", "end"], [0, 0]),
    "a bound below one piece is one piece": (
        0, [sent(0, 0), sent(0, 1), sent(0, 2), sent(0, 3)],
        ["1 held 0 0", "2 held 0 1", "3 held 0 2", "4 held 0 3", "4 proved 0 0 3", "end"], [4, 0]),
    "two files of one content share what is held": (
        16, [sent(0, 0), sent(1, 1), sent(0, 2), sent(1, 3)],
        ["1 held 0 0", "2 held 1 1", "3 held 0 2", "4 held 1 3", "4 proved 1 0 3", "end"], [4, 0]),
    "the last piece has fewer blocks, and a shorter one": (
        16, [sent(0, 10), sent(0, 8), sent(0, 9), sent(2, 5), sent(2, 4)],
        ["1 held 0 10", "2 held 0 8", "3 held 0 9", "3 proved 0 8 10", "4 held 2 5", "5 held 2 4", "5 proved 2 4 5", "end"],
        [3, 2]),
    "a false piece is given up whole, and can come again": (
        16, [sent(2, 0), sent(2, 1, turned=True), sent(2, 2), sent(2, 3), sent(2, 0), sent(2, 1), sent(2, 2), sent(2, 3)],
        ["1 held 2 0", "2 held 2 1", "3 held 2 2", "4 held 2 3", "4 false 2 0 3", "5 held 2 0", "6 held 2 1", "7 held 2 2",
         "8 held 2 3", "8 proved 2 0 3", "end"], [0, 4]),
    "a held block whose own leaf becomes known is judged by itself": (
        16, [sent(1, 0), sent(1, 1, turned=True), sent(1, 2), leaves(1, 0)],
        ["1 held 1 0", "2 held 1 1", "3 held 1 2", "4 stored 6", "4 proved 0 0 0", "4 false 0 1 1", "4 proved 0 2 2", "end"],
        [2, 0]),
    "only what came is marked": (
        16, [leaves(0, 0), sent(0, 0), sent(0, 1, turned=True)],
        ["1 stored 6", "2 verified 0 0", "3 refused P4 BadBlock", "end"], [1, 0]),
}


def test_a_table():
    with folder() as place:
        for name, (bound, messages, report, marked) in CASES.items():
            assert replayed(place, b"".join(messages), bound) == (report, marked), name
            assert modelled(b"".join(messages), bound) == (report, marked), name


def test_random_records():
    chance = random.Random(56)
    with folder() as place:
        for _ in range(100):
            record = b"".join(any_message(chance) for _ in range(chance.randrange(1, 60)))
            bound = chance.randrange(0, 20)
            assert replayed(place, record, bound) == modelled(record, bound), (bound, record.hex()[:200])


def any_message(chance):
    file = chance.randrange(3)
    if chance.random() < 0.05:
        return leaves(file, 4 * chance.randrange(2 if file < 2 else 1))
    return sent(file, chance.randrange(len(blocks_of(FILES[file][1]))), turned=chance.random() < 0.1)
