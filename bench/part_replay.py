"""`btcheck replay` on records. One has 16,384 piece messages of one block each and the hashes of their leaves before
them, another the same in messages of 16 blocks, beside the bare digests of the same blocks. One has 2,048 answers of
512 leaves with their uncles over a tree of 2^20 leaves, beside the bare digests of the pairs that lead to the root. And
on an empty record a torrent of 1,000,000 pieces: what its layers cost a new session, beside the bare digests of the
pairs above them."""
import os
import statistics
import sys

from measuring import BARE, BLOCK, BTCHECK, TOP, measured, build_bare, missed_marks, need_program, report

sys.path.insert(0, os.path.join(TOP, "tests"))
import messages  # noqa: E402
from torrents import bencoded  # noqa: E402
from trees import Tree  # noqa: E402

# What each record may cost at most: (of what, ratio of processor time).
PIECES_MARKS = {1: [("bare digests", 1.1)], 16: [("bare digests", 1.03)]}
ANSWERS_MARKS = [("bare digests", 1.28)]
# What the layers may cost a new session at most, by the processor time of the bare digests.
LAYERS_MARK = 1.3
SPAN = 512


def torrent_over(tree, length):
    """A torrent of one file, which lies in one piece or in pieces of 2^30 bytes."""
    return torrent_in_pieces(tree, length, min(1 << 30, BLOCK << tree.height))


def torrent_in_pieces(tree, length, piece_length):
    layers = {}
    if length > piece_length:
        layers[tree.root] = b"".join(tree.whole_layer((piece_length // BLOCK).bit_length() - 1))
    return bencoded({
        "info": {"file tree": {"file": {b"": {"length": length, "pieces root": tree.root}}}, "meta version": 2,
                 "name": "file", "piece length": piece_length},
        "piece layers": layers,
    })


def uncles_of(tree, span):
    """How many uncles lead from a range of `span` leaves to the root."""
    return tree.height - (span.bit_length() - 1)


def answer(tree, index, span):
    """A hashes message with the leaves from `index` on, and each uncle up to the root."""
    given = tree.hashes(0, index, span, uncles_of(tree, span))
    return messages.hashes(tree.root, 0, index, span, tree.height, given=given)


def pairs_of(tree, index, span):
    """The pairs that are hashed for such a message, one after the other."""
    found, count = [], span
    for layer in range(tree.height):
        at = index >> layer
        found += tree.layers[layer][at & ~1:(at & ~1) + max(count, 2)]
        count //= 2
    return b"".join(found)


def write(path, parts):
    with open(path, "wb") as out:
        out.writelines(parts)
    return path


def replay_beside(words, title, torrent, record, kind, bare, marks):
    """Measures one record beside the bare digests of a file's blocks or pairs, and gives the marks that it misses."""
    found = measured({
        "btcheck replay": [BTCHECK, "replay", torrent, record, "--info-only"],
        "bare digests": [BARE, kind, bare],
        "reading alone": [BARE, "read", record],
    }, words.rounds)
    print(title, end=": ")
    report(found, os.path.getsize(bare) >> 20, "btcheck replay")
    return missed_marks(found, "btcheck replay", marks)


def replay_pieces(folder, words):
    count, missed = 16384, []
    blocks = [os.urandom(BLOCK) for _ in range(count)]
    tree = Tree.of_blocks(blocks)
    torrent = write(os.path.join(folder, "torrent"), [torrent_over(tree, count * BLOCK)])
    bare = write(os.path.join(folder, "blocks"), blocks)
    for each, marks in PIECES_MARKS.items():
        pieces = (messages.piece(0, at * BLOCK, b"".join(blocks[at:at + each])) for at in range(0, count, each))
        record = write(os.path.join(folder, "record"),
                       [*(answer(tree, index, SPAN) for index in range(0, count, SPAN)), *pieces])
        title = f"a record of {count} blocks, {each} in a message, and their hashes"
        missed += replay_beside(words, title, torrent, record, "digests", bare, marks)
    return missed


def replay_answers(folder, words):
    leaves = 1 << 20
    tree = Tree([os.urandom(32) for _ in range(leaves)])
    torrent = write(os.path.join(folder, "torrent"), [torrent_over(tree, leaves * BLOCK)])
    starts = range(0, leaves, SPAN)
    record = write(os.path.join(folder, "record"), (answer(tree, index, SPAN) for index in starts))
    bare = write(os.path.join(folder, "pairs"), (pairs_of(tree, index, SPAN) for index in starts))
    title = f"a record of {len(starts)} answers of {SPAN} leaves"
    return replay_beside(words, title, torrent, record, "pairs", bare, ANSWERS_MARKS)


def new_session(folder, words):
    pieces = 1_000_000
    tree = Tree([os.urandom(32) for _ in range(pieces)])
    torrent = write(os.path.join(folder, "torrent"), [torrent_in_pieces(tree, pieces * BLOCK, BLOCK)])
    nodes = [tree.layers[layer] for layer in range(tree.height)]
    covered = [-(-pieces // 2 ** (layer + 1)) for layer in range(tree.height)]
    bare = write(os.path.join(folder, "pairs"),
                 (b"".join(layer[:2 * count]) for layer, count in zip(nodes, covered)))
    command = [BTCHECK, "replay", torrent, "/dev/null"]
    found = measured({"with layers": command, "roots alone": [*command, "--info-only"],
                      "bare digests": [BARE, "pairs", bare]}, words.rounds)
    print(f"a torrent of {pieces} pieces, and no message", end=": ")
    report(found, os.path.getsize(bare) >> 20, "with layers")
    whole, opening, digests = (rounds.processors for rounds in found.values())
    ratio = statistics.median((one - other) / of for one, other, of in zip(whole, opening, digests))
    print(f"its layers cost a new session {ratio:.3f} x the bare digests")
    return [f"layers cost a new session more than {LAYERS_MARK} x the bare digests"] if ratio > LAYERS_MARK else []


def run(folder, words):
    """Measures `replay`, and gives the marks that it misses, in words."""
    need_program()
    build_bare()
    return replay_pieces(folder, words) + replay_answers(folder, words) + new_session(folder, words)
