"""Whole pieces, as today's clients send them, of one file of random bytes. `replay --pieces` of a record of piece
messages of one block, by a torrent with pieces of 256 KiB, is beside `replay` of the same blocks by one with pieces of
a block, whose layers are the leaves, so that each is known. And a program in C (bench/pieces.c), which hands each piece
to `btcheck_session_take_piece`, is beside `check` of the same file, for pieces of 128 KiB, 1 MiB and 16 MiB."""
import os
import subprocess
import sys

from measuring import BLOCK, BTCHECK, CPU, TOP, measured, missed_marks, need_program, report, see_answer, write_random

sys.path.insert(0, os.path.join(TOP, "tests"))
import messages  # noqa: E402
from torrents import bencoded  # noqa: E402
from trees import Tree  # noqa: E402

PROGRAM = os.path.join(TOP, "build", CPU, "pieces")
LIBRARY = {"x86-64-v3": "build/lib/glibc-hwcaps/x86-64-v3/libbtcheck.a"}.get(CPU, "build/lib/libbtcheck.a")
REPLAY_MARKS, PIECE_MARKS = [("known leaves", 1.05)], [("btcheck check", 1.1)]
# Of memory at most this, and so much for each block that is held.
MEMORY_MARK, HELD_MARK = 8 << 20, 40


def has_pieces():
    """Whether the program has `replay --pieces`."""
    helped = subprocess.run([BTCHECK, "replay", "--help"], stdout=subprocess.PIPE, text=True, check=True).stdout
    if "--pieces" not in helped:
        print("replay --pieces is skipped: the program does not have it")
    return "--pieces" in helped


def blocks_of(path):
    with open(path, "rb") as file:
        while block := file.read(BLOCK):
            yield block


def torrent_of(path, tree, length, piece_length):
    layer = (piece_length // BLOCK).bit_length() - 1
    with open(path, "wb") as out:
        out.write(bencoded({
            "info": {"file tree": {"content": {b"": {"length": length, "pieces root": tree.root}}}, "meta version": 2,
                     "name": "files", "piece length": piece_length},
            "piece layers": {tree.root: b"".join(tree.whole_layer(layer))} if length > piece_length else {}}))
    return path


def record_of(path, content, piece_length):
    """A record of form 1: the blocks one after the other, a message each."""
    with open(path, "wb") as out:
        for at, block in enumerate(blocks_of(content)):
            out.write(messages.piece(at * BLOCK // piece_length, at * BLOCK % piece_length, block))
    return path


def replays(folder, content, tree, words):
    length, commands = words.size << 20, {}
    for name, piece_length, options in (("by pieces", 1 << 18, ["--pieces"]), ("known leaves", BLOCK, [])):
        torrent = torrent_of(f"{folder}/{piece_length}.torrent", tree, length, piece_length)
        record = record_of(f"{folder}/{piece_length}.record", content, piece_length)
        commands[name] = [BTCHECK, "replay", torrent, record, *options]
    found = measured(commands, words.rounds)
    print(f"a record of {length // BLOCK} blocks, one in a message, by pieces of 256 KiB", end=": ")
    report(found, words.size, "by pieces")
    for piece_length in (1 << 18, BLOCK):
        os.remove(f"{folder}/{piece_length}.record")
    missed = missed_marks(found, "by pieces", REPLAY_MARKS)
    most = found["known leaves"].peak + (MEMORY_MARK >> 10) + (1 << 18) // BLOCK * HELD_MARK // 1024
    return missed + ([f"replay --pieces takes more than {most} KiB"] if found["by pieces"].peak > most else [])


def pieces(folder, content, tree, words):
    missed = []
    for piece_length in (1 << 17, 1 << 20, 1 << 24):
        torrent = torrent_of(f"{folder}/torrent", tree, words.size << 20, piece_length)
        command = [PROGRAM, torrent, content, str(piece_length)]
        see_answer(command, (words.size << 20) // BLOCK)
        check = [BTCHECK, "check", torrent, os.path.dirname(content)]
        found = measured({"take_piece": command, "btcheck check": check}, words.rounds)
        name = f"pieces of {piece_length >> 10} KiB"
        print(name, end=": ")
        report(found, words.size, "take_piece")
        missed += [f"{mark} ({name})" for mark in missed_marks(found, "take_piece", PIECE_MARKS)]
    return missed


def run(folder, words):
    """Measures both, and gives the marks that are missed, in words."""
    need_program()
    subprocess.run(["make", "-s", "lib"], cwd=TOP, check=True, env={**os.environ, "CPU": ""})
    subprocess.run([os.environ.get("CC", "cc"), "-O2", "-I", f"{TOP}/bindings/c", f"{TOP}/bench/pieces.c",
                    f"{TOP}/{LIBRARY}", "-o", PROGRAM], check=True)
    os.makedirs(f"{folder}/files")
    content = f"{folder}/files/content"
    write_random(content, words.size)
    tree = Tree.of_blocks(blocks_of(content))
    return (replays(folder, content, tree, words) if has_pieces() else []) + pieces(folder, content, tree, words)
