"""2,048 answers of 512 leaves with their uncles, over a tree of 2^20 leaves, given to a session by value: without a
frame and without a line, in the order of their places, from the end, and in another. Beside it stand the bare digests
of the pairs that lead to the root."""
import os

from measuring import BARE, BLOCK, SESSIONS, measured, build_bare, build_sessions, missed_marks, report, see_answer
from part_replay import SPAN, pairs_of, torrent_over, uncles_of, write
from trees import Tree

# What the session may cost at most: (of what, ratio of processor time).
MARKS = [("bare digests", 1.3)]
# By how many spans each answer is on from the one before it, in each order.
ORDERS = {"session": 1, "in any order": 1237, "from the end": 2047}


def run(folder, words):
    """Measures a session, and gives the marks that it misses, in words."""
    build_bare()
    build_sessions()
    leaves = 1 << 20
    tree = Tree([os.urandom(32) for _ in range(leaves)])
    torrent = write(os.path.join(folder, "torrent"), [torrent_over(tree, leaves * BLOCK)])
    starts = range(0, leaves, SPAN)
    uncles = uncles_of(tree, SPAN)
    bare = write(os.path.join(folder, "pairs"), (pairs_of(tree, index, SPAN) for index in starts))
    commands = {"bare digests": [BARE, "pairs", bare]}
    for name, step in ORDERS.items():
        hashes = write(os.path.join(folder, f"hashes {step}"),
                       (b"".join(tree.hashes(0, index * step % leaves, SPAN, uncles)) for index in starts))
        commands[name] = [SESSIONS, torrent, hashes, str(32 * (SPAN + uncles)), str(step)]
        see_answer(commands[name], 2 * leaves - 2)  # every place but the root is new
    found = measured(commands, words.rounds)
    print(f"{len(starts)} answers of {SPAN} leaves, by value: ", end="")
    report(found, os.path.getsize(bare) >> 20, "session")
    return [mark for name in ORDERS for mark in missed_marks(found, name, MARKS)]
