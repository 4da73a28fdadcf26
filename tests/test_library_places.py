"""The C library's calls on pieces, on bytes of files, on what is marked, and on frames that are written: beside a model, and
beside libtorrent."""
import json
import random
import subprocess

import messages
from support import folder, python_with_libtorrent, write
from test_library_c import module
from torrents import torrent_of
from trees import BLOCK, Tree

PIECE = 4 * BLOCK
SIZES = [("a", 9 * BLOCK + 5), ("b", 0), ("c", 4 * BLOCK), ("d", 1), ("e", 0), ("f", 3 * BLOCK + 1), ("g", 17 * BLOCK), ("h", 0)]
CONTENTS = {name: random.Random(name).randbytes(size) for name, size in SIZES}
TORRENT = torrent_of(list(CONTENTS.items()), PIECE)


def pieces():
    """Each piece: its file, its offset there, and its bytes."""
    return [(file, at, content[at:at + PIECE]) for file, content in enumerate(CONTENTS.values()) for at in range(0, len(content), PIECE)]


def caught(kind, call, *given):
    try:
        call(*given)
    except kind:
        return True
    return False


def test_places():
    """Each piece, and each byte near a block's end, is where the model has it; past the end there is none."""
    kinds, rows = module(), pieces()
    with kinds.Session(TORRENT) as session:
        assert session.pieces() == len(rows)
        for index, (file, at, content) in enumerate(rows):
            assert session.piece(index) == (len(content), file, at // BLOCK, at), index
        for past in (len(rows), len(rows) + 1, 2**32 - 1):
            assert caught(kinds.NoSuch, session.piece, past)
        for file, content in enumerate(CONTENTS.values()):
            numbers = [index for index, row in enumerate(rows) if row[0] == file]
            found = session.file_pieces(file)
            assert list(found) == numbers and found.start == session.file(file).first_piece, file
            for offset in sorted({max(0, end + more) for end in range(0, len(content) + 1, BLOCK) for more in (-1, 0, 1)}):
                for length in (0, 1, BLOCK, PIECE + 1, 2**64 - 1):
                    if offset >= len(content):
                        assert caught(kinds.NoSuch, session.map_file, file, offset, length)
                        continue
                    piece, begin, many = session.map_file(file, offset, length)
                    assert rows[piece][0] == file and rows[piece][1] + begin == offset and begin < PIECE
                    assert many == min(length, len(content) - offset)
        for call in (session.file_pieces, session.file_counts, lambda file: session.map_file(file, 0, 1)):
            assert caught(kinds.NoSuch, call, len(CONTENTS)) and caught(kinds.NoSuch, call, 2**64 - 1)


def bits_of(whole, count):
    """A bitfield: the highest bit of the first byte is that of piece 0."""
    found = bytearray(-(-count // 8))
    for piece in whole:
        found[piece // 8] |= 0x80 >> piece % 8
    return bytes(found)


def test_bitfield():
    """Blocks come in any order, single ones and whole pieces: a bit is set with the last block of its piece."""
    kinds, rows = module(), pieces()
    draw = random.Random(3)
    with kinds.Session(TORRENT) as session:
        blocks = {(index, begin): content[begin:begin + BLOCK] for index, (_, _, content) in enumerate(rows) for begin in range(0, len(content), BLOCK)}
        left, whole = dict(blocks), set()
        for file, content in enumerate(CONTENTS.values()):
            if content:
                session.fill(session.file(file).tree, 0, Tree.of(content).layers[0][:-(-len(content) // BLOCK)])
        while True:
            assert session.bitfield() == bits_of(whole, len(rows))
            for file, content in enumerate(CONTENTS.values()):
                count = -(-len(content) // BLOCK)
                missing = sum(rows[index][0] == file for index, _ in left)
                assert session.file_counts(file) == (count - missing, count), file
            if not left:
                break
            index, begin = draw.choice(list(left))
            if draw.random() < 0.2:
                session.take_piece(index, rows[index][2])
                left = {at: block for at, block in left.items() if at[0] != index}
            else:
                assert caught(kinds.P4BadBlock, session.take_block, index, begin, bytes(len(left[index, begin])))
                session.take_block(index, begin, left.pop((index, begin)))
            whole |= {index} - {at for at, _ in left}
        assert whole == set(range(len(rows)))


def test_marks_of_one_tree():
    """Two files of one tree have their marks, and so their bits, together; other files have none of them."""
    kinds, content = module(), CONTENTS["a"]
    torrent = torrent_of([("a", content), ("b", content), ("c", content[1:])], PIECE)
    with kinds.Session(torrent) as session:
        session.take_piece(0, content[:PIECE])
        assert [session.file_counts(file)[0] for file in range(3)] == [4, 4, 0]
        assert session.bitfield() == bits_of({0, 3}, 9)


def test_written_frames():
    """They are those of BEP 52, with their length in front; what answers a request is a frame always."""
    kinds, content = module(), CONTENTS["g"]
    tree = Tree.of(content)
    root = tree.layers[-1][0]
    with kinds.Session(TORRENT, layers=False) as other, kinds.Session(TORRENT) as session:
        for ask in ((root, 0, 0, 32, 0), (root, 0, 8, 8, 2), (bytes(32), 2**32 - 1, 0, 2**32 - 1, 1 << 31)):
            assert kinds.request_frame(ask) == messages.request(*ask)
            assert kinds.reject_frame(kinds.Ask(*ask)) == messages.reject(*ask) == session.answer_frame(ask)
        session.fill(session.file(6).tree, 0, tree.layers[0][:17])
        for base, index, length, proof in ((0, 0, 32, 0), (0, 8, 8, 4), (0, 16, 2, 4), (2, 2, 2, 2), (2, 0, 8, 0), (0, 16, 2, 9)):
            ask, frame = (root, base, index, length, proof), session.answer_frame((root, base, index, length, proof))
            assert frame == messages.hashes(*ask, given=session.answer(ask)) and len(frame) > 53
            if proof > 3 or length == 32:
                assert isinstance(other.frame(frame[4:]), kinds.Stored)
        assert session.answer_frame((root, 0, 1, 8, 0)) == messages.reject(root, 0, 1, 8, 0)
        asked = kinds.Session(TORRENT, layers=False).want(session.file(6).tree, 3)
        assert session.frame(kinds.request_frame(asked)[4:]) == kinds.Answered()
        assert session.frame(kinds.reject_frame(asked)[4:]) == kinds.RejectNoted()


def test_a_long_answer():
    """The most hashes that one request may name take more room than most, and the call says how much."""
    kinds = module()
    content = bytes(8192 * BLOCK)
    torrent = torrent_of([("a", content)], 4096 * BLOCK)
    with kinds.Session(torrent) as session:
        root, leaves = session.file(0).root, [Tree.of(bytes(BLOCK)).layers[0][0]] * 8192
        session.fill(0, 0, leaves)
        assert session.answer_frame((root, 0, 0, 8192, 0)) == messages.hashes(root, 0, 0, 8192, 0, given=leaves)


# What libtorrent says: of each piece the file in which it begins, the offset there, and its bytes without pads; and where bytes
# of files lie.
IN_LIBTORRENT = """
import json, sys
import libtorrent as lt
info = lt.torrent_info(sys.argv[1])
files = info.files()
is_pad = lambda number: files.file_flags(number) & lt.file_storage.flag_pad_file
order = {files.file_name(number): number for number in range(files.num_files()) if not is_pad(number)}
parts = [[part for part in info.map_block(piece, 0, info.piece_size(piece)) if not is_pad(part.file_index)] for piece in range(info.num_pieces())]
asked = [info.map_file(order[name], offset, length) for name, offset, length in json.loads(sys.argv[2])]
print(json.dumps([[[files.file_name(one.file_index), one.offset, one.size] for one, in parts], [[it.piece, it.start, it.length] for it in asked]]))
"""


def test_as_libtorrent():
    """What map_block and map_file say of pieces and bytes, where the bytes end within the file."""
    kinds, names = module(), list(CONTENTS)
    python = python_with_libtorrent()
    asked = [(name, offset, length) for name, size in SIZES for offset in range(0, size, BLOCK - 1) for length in {1, min(size - offset, BLOCK)}]
    with folder() as place, kinds.Session(TORRENT) as session:
        path = write(f"{place}/t.torrent", TORRENT)
        done = subprocess.run([python, "-c", IN_LIBTORRENT, path, json.dumps(asked)], stdout=subprocess.PIPE, check=True, timeout=60)
        parts, found = json.loads(done.stdout)
        places = [session.piece(index) for index in range(session.pieces())]
        assert parts == [[names[it.file], it.offset, it.length] for it in places]
        assert found == [list(session.map_file(names.index(name), offset, length)) for name, offset, length in asked]
