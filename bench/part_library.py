"""The C library beside `btcheck replay`, both for x86-64-v2: a program in C (bench/library.c) hands the messages of a record
to a session. One record has the hashes of 16,384 blocks and then these blocks, another 2,048 answers of 512 leaves with
their uncles over a tree of 2^20 leaves."""
import os
import subprocess

from measuring import BLOCK, TOP, measured, missed_marks, need_program, report, see_answer
from part_replay import SPAN, Tree, answer, messages, torrent_over, write

KIND = "x86-64-v2"
PROGRAM = os.path.join(TOP, "build", KIND, "library")
REPLAY = os.path.join(TOP, "build", KIND, "btcheck")
MARKS = [("btcheck replay", 1.05)]


def build():
    """Builds the library, the program over it, and btcheck for the same kind of processor."""
    subprocess.run(["make", "-s", "lib", f"build/{KIND}/btcheck"], cwd=TOP, check=True, env={**os.environ, "CPU": ""})
    archive = os.path.join(TOP, "build", "lib", "libbtcheck.a")
    subprocess.run([os.environ.get("CC", "cc"), "-O2", "-I", os.path.join(TOP, "bindings", "c"),
                    os.path.join(TOP, "bench", "library.c"), archive, "-o", PROGRAM], check=True)


def beside(words, title, torrent, record, mib, printed):
    command = [PROGRAM, torrent, record]
    see_answer(command, printed)
    found = measured({"library": command, "btcheck replay": [REPLAY, "replay", torrent, record, "--info-only"]}, words.rounds)
    print(title, end=": ")
    report(found, mib, "library")
    return missed_marks(found, "library", MARKS)


def of_blocks(folder, words):
    count = 16384
    blocks = [os.urandom(BLOCK) for _ in range(count)]
    tree = Tree.of_blocks(blocks)
    torrent = write(os.path.join(folder, "torrent"), [torrent_over(tree, count * BLOCK)])
    record = write(os.path.join(folder, "record"), [*(answer(tree, index, SPAN) for index in range(0, count, SPAN)),
                                                    *(messages.piece(0, at * BLOCK, blocks[at]) for at in range(count))])
    return beside(words, f"{count} blocks and their hashes", torrent, record, count * BLOCK >> 20,
                  f"{count} {2 * count - 2}")


def of_answers(folder, words):
    leaves = 1 << 20
    tree = Tree([os.urandom(32) for _ in range(leaves)])
    torrent = write(os.path.join(folder, "torrent"), [torrent_over(tree, leaves * BLOCK)])
    record = write(os.path.join(folder, "record"), (answer(tree, index, SPAN) for index in range(0, leaves, SPAN)))
    return beside(words, f"{leaves // SPAN} answers of {SPAN} leaves", torrent, record, os.path.getsize(record) >> 20,
                  f"0 {2 * leaves - 2}")


def run(folder, words):
    """Measures both records, and gives the marks that are missed, in words."""
    need_program()
    build()
    return of_blocks(folder, words) + of_answers(folder, words)
