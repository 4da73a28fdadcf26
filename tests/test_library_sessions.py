"""Calls on sessions that no command makes, and what a session knows after each message. The program of crates/memory_tests
takes messages over either map, and prints what each came to and how much is known and marked."""
import re
import subprocess

import messages
from session_model import Session
from support import folder, memory_tests, write
from torrents import torrent_of
from trees import BLOCK, Tree, blocks_of, sha256

FIVE = b"".join(bytes([number]) * BLOCK for number in (1, 2, 3, 4)) + bytes([5]) * 100
LARGE = b"".join(number.to_bytes(4, "big") * (BLOCK // 4) for number in range(1024))
ZERO, ZEROS = bytes(32), sha256(bytes(64))
STATE = re.compile(r"State { known: (\d+), marked: (\d+), pages: \d+ }")
BLOCKS = re.compile(r"Blocks\(Blocks { file: (\d+), first: (\d+), count: 1, refusals: \[(None|Some\((\w+)\)), .*")


def made(place, files, piece_length, frames, over, call):
    """The lines that the program prints of these messages, but the first, which is of the torrent."""
    path = write(f"{place}/torrent", torrent_of(files, piece_length))
    record = write(f"{place}/record", b"".join(frames))
    done = subprocess.run([memory_tests(), path, record, over, call], stdout=subprocess.PIPE, timeout=600, check=True, text=True)
    return done.stdout.splitlines()[1:]


def short(verdict):
    """What a message came to, without the brackets of a run; of a message of one block its file, its number and its
    refusal."""
    block = BLOCKS.search(verdict)
    return (block[4] or f"Verified {block[1]} {block[2]}") if block else verdict.strip("[]")


def steps(place, files, piece_length, frames, call="step"):
    """What each message comes to, how many places are known then, and how many leaves marked: over both maps the
    same."""
    found = []
    for over in ("flat", "paged"):
        lines = [line for line in made(place, files, piece_length, frames, over, call) if not line.startswith(("[[", "rejected"))]
        states = [STATE.fullmatch(line) for line in lines[1::2]]
        found.append([(short(line), int(state[1]), int(state[2])) for line, state in zip(lines[::2], states)])
    assert found[0] == found[1], found
    return found[0]


def expect_steps(files, piece_length, rows, call="step"):
    """Rows of messages and steps: a new session takes each row's."""
    with folder() as place:
        for frames, wanted in rows:
            seen = steps(place, files, piece_length, frames, call)
            assert seen == wanted, (wanted, seen)


def test_hashes_of_a_file_of_five_blocks():
    tree = Tree.of(FIVE)
    leaves, (four, end) = tree.layers[0], tree.layers[2]
    turned = end[:31] + bytes([end[31] ^ 1])
    rows = [(0, 8, leaves, "Stored(14)", 15),
            (0, 8, [*leaves[:6], ZEROS, ZERO], "HashRefused(BadPad)", 1),
            (0, 8, [*leaves[:6], leaves[4], ZERO], "HashRefused(BadPad)", 1),
            (0, 4, [*leaves[:4], end], "Stored(8)", 9),
            (0, 4, [*leaves[:4], turned], "HashRefused(Mismatch)", 1),
            (0, 4, [leaves[0], leaves[1], leaves[3], leaves[2], end], "HashRefused(Mismatch)", 1),
            (4, 2, [leaves[4], ZERO, ZEROS, four], "Stored(6)", 7)]
    expect_steps([("a", FIVE)], 32768, [([messages.hashes(tree.root, 0, index, length, 2, given=given)], [(verdict, known, 0)])
                                        for index, length, given, verdict, known in rows])
    # over the piece layers
    pairs = messages.hashes(tree.root, 1, 0, 4, 0, given=tree.layers[1])
    all_leaves = messages.hashes(tree.root, 0, 0, 8, 2, given=leaves)
    expect_steps([("a", FIVE)], 32768, [([pairs, all_leaves], [("Stored(0)", 7, 0), ("Stored(8)", 15, 0)])], "run")


def test_blocks_of_a_file_of_five():
    tree, blocks = Tree.of(FIVE), blocks_of(FIVE)
    turned = blocks[0][:-1] + bytes([blocks[0][-1] ^ 0x80])
    cases = [(1, 0, blocks[2], "Verified 0 2", 1), (1, 0, blocks[2], "Verified 0 2", 1),
             (0, 32768, blocks[2], "Verified 0 2", 1), (2, 0, blocks[4], "Verified 0 4", 2),
             (2, 0, bytes([5]) * 101, "BlockRefused(BadSize)", 2), (2, 0, bytes([5]) * 99, "BlockRefused(BadSize)", 2),
             (0, 1, blocks[0], "BlockRefused(BadPlace)", 2), (2, 16384, blocks[4], "BlockRefused(BadPlace)", 2),
             (0, 0, blocks[1], "BadBlock", 2), (0, 0, turned, "BadBlock", 2)]
    known = messages.hashes(tree.root, 0, 0, 8, 2, given=tree.layers[0])
    for call, before, stored in (("step", 1, 14), ("run", 7, 8)):
        expect_steps([("a", FIVE)], 32768, [
            ([messages.piece(1, 0, blocks[2]), known, *(messages.piece(*case[:3]) for case in cases)],
             [("Unproved", before, 0), (f"Stored({stored})", 15, 0), *((verdict, 15, marked) for *_, verdict, marked in cases)])], call)


def test_equal_files_share_one_tree_and_its_marks():
    tree, blocks = Tree.of(FIVE), blocks_of(FIVE)
    known = messages.hashes(tree.root, 0, 0, 8, 2, given=tree.layers[0])
    rows = [(4, blocks[2], "Verified 1 2", 1), (1, blocks[2], "Verified 0 2", 1), (3, blocks[0], "Verified 1 0", 2),
            (5, blocks[4], "Verified 1 4", 3)]
    expect_steps([("a", FIVE), ("b", FIVE)], 32768, [
        ([known, *(messages.piece(index, 0, block) for index, block, *_ in rows)],
         [("Stored(8)", 15, 0), *((verdict, 15, marked) for *_, verdict, marked in rows)])], "run")


def test_a_file_of_one_block_has_no_range():
    root = sha256(FIVE[-100:])
    asks = [(0, 0), (0, 1), (0, 2), (2, 2), (0, 512)]
    frames = [messages.hashes(root, 0, index, length, 0, given=[root]) for index, length in asks]
    for call in ("step", "run"):
        expect_steps([("a", FIVE[-100:])], 16384, [
            ([*frames, messages.piece(0, 0, FIVE[-100:])],
             [("HashRefused(BadRange)", 1, 0)] * len(asks) + [("Verified 0 0", 1, 1)])], call)


def test_two_answers_tell_a_file_of_1024_blocks():
    tree = Tree.of(LARGE)
    first, second = (messages.hashes(tree.root, 0, at, 512, 9, given=tree.hashes(0, at, 512, 1)) for at in (0, 512))
    alone = messages.hashes(tree.root, 0, 512, 512, 9, given=tree.hashes(0, 512, 512, 0))
    odd = [(0, 0, 3, 9, 512, "BadRange"), (0, 0, 1, 9, 512, "BadRange"), (0, 0, 16384, 9, 512, "BadRange"),
           (0, 256, 512, 9, 512, "BadRange"), (0, 1024, 512, 9, 512, "BadRange"), (11, 0, 2, 9, 512, "BadRange"),
           (0, 0, 512, 9, 511, "BadCount"), (0, 0, 512, 0, 513, "BadCount"), (0, 0, 512, 9, 514, "BadCount")]
    refused = [(messages.hashes(tree.root, *ask, given=[ZERO] * count), why) for *ask, count, why in odd]
    refused.append((messages.hashes(ZEROS, 0, 0, 3, 9, given=[ZERO] * 512), "UnknownRoot"))
    expect_steps([("a", LARGE)], 1 << 24, [
        ([second, second, first], [("Stored(1024)", 1025, 0), ("Stored(0)", 1025, 0), ("Stored(1022)", 2047, 0)]),
        ([alone], [("HashRefused(Unanchored)", 1, 0)]),
        ([frame for frame, _ in refused], [(f"HashRefused({why})", 1, 0) for _, why in refused])])


def test_whole_layers():
    """`fill` takes as many hashes as the file has in a layer, without those that cover only places past its end."""
    tree = Tree.of(FIVE)
    leaves, pairs = tree.layers[0], tree.layers[1]
    rows = [(0, leaves[:5], "Stored(14)", 15), (1, pairs[:3], "Stored(6)", 7), (2, tree.layers[2], "Stored(2)", 3),
            (3, [tree.root], "Stored(0)", 1), (4, [tree.root], "HashRefused(BadRange)", 1),
            (0, leaves, "HashRefused(BadCount)", 1), (0, leaves[:4], "HashRefused(BadCount)", 1),
            (1, leaves[:3], "HashRefused(Mismatch)", 1)]
    expect_steps([("a", FIVE)], 131072, [([messages.hashes(tree.root, layer, 0, 2, 0, given=given)], [(verdict, known, 0)])
                                         for layer, given, verdict, known in rows], "fill")


def debug_of(ask):
    """How the program prints what is wanted."""
    if ask is None:
        return "None"
    root, *numbers = ask
    verdict = ", ".join(f"{name}: {number}" for name, number in zip(("base", "index", "length", "proof"), numbers))
    return f"Some(Ask {{ root: {list(root)}, {verdict} }})"


def test_what_is_wanted_next():
    """For each block the aligned range of leaves that holds it, until its leaf is known."""
    for content, ranges in ((FIVE, [(4, 2), (0, 4)]), (LARGE, [(512, 512), (0, 2), (0, 512)]), (FIVE[:100], [])):
        tree, model = Tree.of(content), Session([("a", content)], 1 << 24, False)
        asks = [(tree.root, 0, index, length, tree.height - 1) for index, length in ranges]
        frames, wanted = [], []
        for ask in [None, *asks]:
            if ask:
                given = tree.hashes(*ask[1:4], tree.height - ask[3].bit_length() + 1)
                frames.append(messages.hashes(*ask, given=given))
                assert model.take(*ask, given).startswith("stored")
            wanted += [debug_of(model.want(tree.root, block)) for block in range(tree.leaf_count)]
        with folder() as place:
            for over in ("flat", "paged"):
                seen = made(place, [("a", content)], 1 << 24, frames, over, "want")
                assert seen == wanted, (over, ranges)
