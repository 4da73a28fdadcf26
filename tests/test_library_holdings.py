"""The C library's calls on a torrent as a whole and on what is held of blocks that cannot be proved yet: what a torrent has,
the sentences of the statuses, and random records beside the plain model of held blocks."""
import ctypes
import os
import random
import re
import subprocess

import messages
import pieces_model
from session_model import Session
from support import INCLUDES, folder, need, run, write
from test_library_c import LIB, compiled, made
from test_library_numbers import header_numbers
from torrents import file, hybrid, info, torrent, torrent_of
from trees import BLOCK, Tree, blocks_of

NUMBER = ctypes.c_uint64


class Handle(ctypes.Structure):
    """A handle of the library."""
    _fields_ = [("full", ctypes.c_bool), ("at", ctypes.c_void_p)]


class Opened:
    """The calls of the library on one torrent."""

    def __init__(self, content):
        made()
        self.library, self.content, self.handle = ctypes.CDLL(f"{LIB}/libbtcheck.so.1"), content, Handle()
        assert self.call("session_open", content, ctypes.c_size_t(len(content)), True) == 0

    def __enter__(self):
        return self

    def __exit__(self, *_):
        self.library.btcheck_session_free(ctypes.byref(self.handle))

    def call(self, name, *given):
        return getattr(self.library, f"btcheck_{name}")(ctypes.byref(self.handle), *given)

    def number(self, name):
        """The number that a call writes."""
        found = NUMBER()
        assert self.call(name, ctypes.byref(found)) == 0, name
        return found.value

    def name(self, size):
        """Of a room of `size` bytes: the status, the length, and what stands there then."""
        room, length = ctypes.create_string_buffer(b"?" * size, size) if size else ctypes.create_string_buffer(1), NUMBER()
        status = self.call("session_name", room, ctypes.c_size_t(size), ctypes.byref(length))
        return status, length.value, room.raw[:size]


def test_what_a_torrent_has():
    """Piece length, pieces of all files together, the name, and whether it is a hybrid."""
    contents = [random.Random(size).randbytes(size) for size in (0, 1, BLOCK, BLOCK + 1, 5 * BLOCK + 100)]
    for count in range(1, len(contents) + 1):
        for piece_length in (BLOCK, 2 * BLOCK, 1 << 20, 1 << 30):
            files = [(f"f{number}", content) for number, content in enumerate(contents[:count])]
            with Opened(torrent_of(files, piece_length)) as opened:
                pieces = sum(-(-len(content) // piece_length) for _, content in files)
                found = opened.number("session_piece_length"), opened.number("session_pieces"), opened.call("session_is_hybrid")
                assert found == (piece_length, pieces, 6), (count, found)
    with Opened(torrent(hybrid())) as opened:
        assert opened.call("session_is_hybrid") == 0
    for name in ("x", "a name", "a/b", "..", "\u00fcber", "n" * 300):
        whole, text = info({"a": file(b"abc")}), name.encode()
        with Opened(torrent({**whole, "name": text})) as opened:
            for size in (0, len(text) - 1, len(text), len(text) + 5):
                wanted = text + b"?" * (size - len(text)) if size >= len(text) else b"?" * size
                assert opened.name(size) == (0 if size >= len(text) else 7, len(text), wanted), (name, size)


def test_sentences():
    """Each status of the header has a sentence of its own, and other numbers have one together."""
    need("gcc", "g++")
    numbers = {name: number for name, number in header_numbers().items() if number not in (0,) and number < 12 or number > 100}
    source = '#include <btcheck.h>\n#include <stdio.h>\nint main(void) { for (unsigned n = 0; n < 400; n++) puts(btcheck_status_text(n)); return 0; }\n'
    kinds = {"STORED", "BLOCKS", "ANSWERED", "REJECTED", "REJECT_NOTED", "KEEP_ALIVE", "SKIPPED"}
    statuses = {number for name, number in numbers.items() if name not in kinds} | {0}
    with folder() as place:
        path = write(f"{place}/texts.c", source.encode())
        for compiler, language in (("gcc", "c"), ("g++", "c++")):
            subprocess.run([compiler, "-Wall", "-Wextra", "-Werror", *INCLUDES, "-x", language, path, "-o", f"{place}/texts"], check=True)
            lines = run(program=f"{place}/texts", check=True, text=True).stdout.splitlines()
            assert len(lines) == 400
            assert {number for number, line in enumerate(lines) if line == "An unknown status."} == set(range(400)) - statuses
            told = [lines[number] for number in sorted(statuses)]
            assert len(set(told)) == len(told) and all(re.fullmatch(r"[A-Z].*\.", line) for line in told), told


class Talk:
    """Messages of peers about some files, whose draws a seed fixes: most blocks true, in any order, some several in one
    message; and hashes of some ranges."""

    def __init__(self, seed):
        self.chance = random.Random(seed)
        sizes = [self.chance.choice([1, BLOCK - 1, BLOCK, BLOCK + 1, 3 * BLOCK + 5, 8 * BLOCK, 11 * BLOCK + 7]) for _ in range(3)]
        self.files = [(f"f{number}", self.chance.randbytes(size)) for number, size in enumerate(sizes)]
        if self.chance.random() < 0.5:
            self.files.append(("same", self.files[0][1]))
        self.piece_length = BLOCK * self.chance.choice([1, 2, 4, 8])
        self.firsts = [sum(-(-len(content) // self.piece_length) for _, content in self.files[:number]) for number in range(len(self.files))]

    def piece(self):
        number = self.chance.randrange(len(self.files))
        content = self.files[number][1]
        blocks = blocks_of(content)
        first = self.chance.randrange(len(blocks))
        count = 1 if self.chance.random() < 0.8 else self.chance.randint(1, len(blocks) - first)
        carried = bytearray(b"".join(blocks[first:first + count]))
        if self.chance.random() < 0.08:
            carried[self.chance.randrange(len(carried))] ^= 1
        if self.chance.random() < 0.03:
            carried += b"x"
        at = first * BLOCK
        return messages.piece(self.firsts[number] + at // self.piece_length, at % self.piece_length, bytes(carried))

    def hashes(self):
        tree = Tree.of(self.chance.choice(self.files)[1])
        if not tree.height:
            return messages.KEEP_ALIVE
        base = self.chance.randrange(tree.height)
        length = 2 ** self.chance.randint(1, tree.height - base)
        index = self.chance.randrange(2 ** (tree.height - base) // length) * length
        uncles = tree.height - base - (length.bit_length() - 1)
        given = tree.hashes(base, index, length, uncles)
        if self.chance.random() < 0.2:
            given[self.chance.randrange(len(given))] = self.chance.randbytes(32)
        return messages.hashes(tree.root, base, index, length, uncles, given=given)

    def record(self):
        count = self.chance.choice([5, 30, 80])
        return b"".join(self.hashes() if self.chance.random() < 0.1 else self.piece() for _ in range(count))


def test_records_by_pieces():
    """The program in C prints what the plain model of held blocks does, with room for all and with little."""
    with folder() as place:
        program, words = compiled(place, "replay"), {}
        for seed in range(int(os.environ.get("RECORDS", "60"))):
            talk = Talk(seed)
            record, path = talk.record(), write(f"{place}/t.torrent", torrent_of(talk.files, talk.piece_length))
            record_path = write(f"{place}/record", record)
            for with_layers in (True, False):
                bound = talk.chance.choice([0, 3, 9, 1 << 20])
                holding = pieces_model.Holding(Session(talk.files, talk.piece_length, with_layers), bound)
                wanted = pieces_model.report(holding, record)
                flags = [] if with_layers else ["--info-only"]
                done = run(*flags, "--pieces", str(bound), path, record_path, program=program)
                assert (done.returncode, done.stdout) == wanted, (seed, with_layers, bound, done.stdout.decode(), wanted[1].decode())
                for line in done.stdout.decode().splitlines():
                    word = line.split()[1 if line[0].isdigit() else 0]
                    words[word] = words.get(word, 0) + 1
    assert {"held", "proved", "false", "dropped", "verified", "refused", "stored"} <= set(words), words
    print("lines of held blocks: " + ", ".join(f"{word} {count}" for word, count in sorted(words.items())))
