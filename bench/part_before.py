"""With --before PROGRAM: this program beside another build of it. The marks are for one that hashes neither the version 1
pieces of a hybrid nor small files side by side, and writes each line by itself: beside it, what is hashed side by side
takes less, and nothing takes more. `root`, `check` and parts of one file; `check` and `create` of a hybrid with
pieces of 64 KiB, 1 MiB and 16 MiB; 20,000 files of 1 to 40 KiB, version 2 and hybrid; messages and answers; and plain
reports of a million keep-alives, and of 20,000 files that are shown or missing. A row has the median of the rounds'
ratios of processor time, and the most that it may be for the kind of processor."""
import os
import random
import shutil
import sys

from measuring import BLOCK, BTCHECK, CPU, TOP, measure, measured, need_program, write_random
from part_replay import SPAN, Tree, answer, messages, torrent_over, write

sys.path.insert(0, os.path.join(TOP, "tests"))
import torrents  # noqa: E402

KEEP_ALIVES = 1_000_000
SMALL = 20_000
# The most that each may take of the other's processor time, for x86-64-v2 and for x86-64-v3.
SAME, REPORT, HYBRID, FILES, HYBRID_FILES = (1.02, 1.02), (1.05, 1.05), (0.75, 0.5), (0.75, 0.4), (0.6, 0.35)


class Beside:
    """Two programs, and the marks that were missed so far, in words."""

    def __init__(self, words):
        self.before, self.rounds, self.missed = os.path.abspath(words.before), words.rounds, []

    def row(self, name, mark, *arguments, status=0):
        """Measures one command of both programs, which ends with this status, and prints its row."""
        commands = {"now": [BTCHECK, *arguments], "before": [self.before, *arguments]}
        if status:
            commands = {kind: ["sh", "-c", f"{' '.join(command)}; test $? -eq {status}"] for kind, command in commands.items()}
        found = measured(commands, self.rounds)
        ratio, most = found["now"].takes(found["before"]), mark[CPU != "x86-64-v2"]
        print(f"| {name} | {found['now'].processor:.2f} | {found['before'].processor:.2f} | {ratio:.3f} | {most} |", flush=True)
        if ratio > most:
            self.missed.append(f"{name}: {ratio:.3f}, not {most}")


def create(files, out, piece_length, hybrid=False):
    return ["create", files, out, "--name", "x", "--piece-length", str(piece_length), *["--hybrid"] * hybrid]


def one_file(folder, words, beside):
    files, torrent, out = (os.path.join(folder, name) for name in ("files", "torrent", "out"))
    path = os.path.join(files, "content")
    os.makedirs(files)
    write_random(path, words.size)
    measure([BTCHECK, *create(files, torrent, 1 << 20)])
    beside.row("`root`", SAME, "root", path)
    beside.row("`check`, version 2", SAME, "check", torrent, files)
    beside.row("`check --part 2/4`, version 2", SAME, "check", torrent, files, "--part", "2/4")
    beside.row("`create`, version 2", SAME, *create(files, out, 1 << 20))
    for piece_length, name in ((1 << 16, "64 KiB"), (1 << 20, "1 MiB"), (1 << 24, "16 MiB")):
        measure([BTCHECK, *create(files, torrent, piece_length, True)])
        beside.row(f"`check`, hybrid, pieces of {name}", HYBRID, "check", torrent, files)
        beside.row(f"`create`, hybrid, pieces of {name}", HYBRID, *create(files, out, piece_length, True))
        if piece_length == 1 << 20:
            beside.row("`check --part 2/4`, hybrid", HYBRID, "check", torrent, files, "--part", "2/4")
    shutil.rmtree(files)


def small_files(folder, beside):
    """Files of 1 to 40 KiB."""
    files, torrent, out = (os.path.join(folder, name) for name in ("files", "torrent", "out"))
    os.makedirs(files)
    draw = random.Random(1)
    for number in range(SMALL):
        write(os.path.join(files, f"{number:05}"), [draw.randbytes(draw.randrange(1 << 10, 40 << 10))])
    for hybrid, mark, name in ((False, FILES, "version 2"), (True, HYBRID_FILES, "hybrid")):
        measure([BTCHECK, *create(files, torrent, 1 << 16, hybrid)])
        beside.row(f"`check`, {SMALL} small files, {name}", mark, "check", torrent, files)
        beside.row(f"`create`, {SMALL} small files, {name}", mark, *create(files, out, 1 << 16, hybrid))
        beside.row(f"`check --part 1/1`, {SMALL} small files, {name}", SAME, "check", torrent, files, "--part", "1/1")
    measure([BTCHECK, *create(files, torrent, 1 << 16)])
    record = write(os.path.join(folder, "record"), [b""])
    beside.row(f"`replay --seed`, {SMALL} small files", FILES, "replay", torrent, record, "--seed", files)
    shutil.rmtree(files)


def messages_of_peers(folder, beside):
    """2,048 answers of 512 leaves over 2^20 leaves, and messages of one block each."""
    torrent, record = os.path.join(folder, "torrent"), os.path.join(folder, "record")
    leaves, count = 1 << 20, 16384
    tree = Tree([os.urandom(32) for _ in range(leaves)])
    write(torrent, [torrent_over(tree, leaves * BLOCK)])
    write(record, (answer(tree, index, SPAN) for index in range(0, leaves, SPAN)))
    beside.row("2,048 answers of 512 leaves", SAME, "replay", torrent, record, "--info-only")
    blocks = [os.urandom(BLOCK) for _ in range(count)]
    tree = Tree.of_blocks(blocks)
    write(torrent, [torrent_over(tree, count * BLOCK)])
    pieces = (messages.piece(0, at * BLOCK, block) for at, block in enumerate(blocks))
    write(record, [*(answer(tree, at, SPAN) for at in range(0, count, SPAN)), *pieces])
    beside.row("messages of one block", SAME, "replay", torrent, record, "--info-only")


def reports(folder, beside):
    """Lines that take most of the time: none needs a digest."""
    torrent, record, empty = (os.path.join(folder, name) for name in ("torrent", "record", "empty"))
    os.makedirs(empty)
    contents = [(f"file {number:06}", b"%d" % number) for number in range(SMALL)]
    write(torrent, [torrents.torrent_of(contents[:1], 1 << 14)])
    write(record, [bytes(4 * KEEP_ALIVES)])
    beside.row(f"`replay`, {KEEP_ALIVES} keep-alives", REPORT, "replay", torrent, record)
    write(torrent, [torrents.torrent_of(contents, 1 << 14)])
    beside.row(f"`show`, {SMALL} files", REPORT, "show", torrent)
    beside.row(f"`check`, {SMALL} missing files", REPORT, "check", torrent, empty, status=1)


def run(folder, words):
    """Measures all rows if there is a program to compare with, and gives the marks that it misses, in words."""
    if not words.before:
        print("before: left out, since --before names no program")
        return []
    need_program()
    beside = Beside(words)
    print(f"{words.size} MiB, {words.rounds} interleaved rounds, {CPU}")
    print("| What | now, processor s | before | median of the ratios | most |\n|---|---|---|---|---|")
    one_file(folder, words, beside)
    small_files(folder, beside)
    messages_of_peers(folder, beside)
    reports(folder, beside)
    return beside.missed
