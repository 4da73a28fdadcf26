"""`btcheck replay --padded`: the last block of a file with zeros behind its end, as libtorrent sends it."""
import random

import pieces_model
import record_model
from messages import hashes, piece
from poison import MOST_BYTES, Peers
from record_cases import replay, worlds
from session_model import Session
from support import expect, folder
from test_pieces import record_of, torrent_of_record
from torrents import FIVE, torrent_of
from trees import BLOCK, Tree, blocks_of


def lines(*texts):
    return "".join(f"{text}\n" for text in texts)


def test_worked_messages():
    """A file of five blocks, the last of 100 zeros: 16,284 more are missing to a whole one."""
    tree, blocks = Tree.of(FIVE), blocks_of(FIVE)
    torrent, zeros = torrent_of([("five", FIVE)], 32768), bytes(BLOCK - 100)
    eight = hashes(tree.root, 0, 0, 8, 2, given=tree.hashes(0, 0, 8, 0))
    last, refused = [f"2 verified 0 {at}" for at in (2, 3, 4)], ["2 refused P2 BadSize"]
    turned = bytes([blocks[4][0] ^ 1]) + blocks[4][1:]
    cases = [
        (piece(2, 0, blocks[4]), ["2 verified 0 4"], ["2 verified 0 4"]),
        (piece(2, 0, blocks[4] + zeros), refused, ["2 verified 0 4"]),
        (piece(2, 0, blocks[4] + zeros[:1]), refused, ["2 verified 0 4"]),
        (piece(2, 0, blocks[4] + zeros + b"\0"), refused, refused),
        (piece(2, 0, blocks[4] + b"\1" + zeros[1:]), refused, refused),
        (piece(2, 0, blocks[4] + zeros[1:] + b"\1"), refused, refused),
        (piece(2, 0, blocks[4][:99]), refused, refused),
        (piece(2, 0, turned + zeros), refused, ["2 refused P4 BadBlock"]),
        (piece(1, 0, FIVE[32768:] + zeros), refused, last),
        (piece(1, 0, FIVE[32768:] + zeros + bytes(BLOCK)), refused, refused),
        (piece(1, BLOCK, blocks[3] + zeros), refused, ["2 verified 0 3", "2 verified 0 4"]),
        (piece(1, 0, blocks[2] + zeros), refused, refused),
        (piece(2, 1, blocks[4][1:] + zeros), ["2 refused P1 BadPlace"], ["2 refused P1 BadPlace"]),
        (piece(2, BLOCK, bytes(BLOCK)), ["2 refused P1 BadPlace"], ["2 refused P1 BadPlace"]),
        (piece(2, 0, b""), refused, refused),
        (piece(0, 4 * BLOCK, blocks[4] + zeros), refused, ["2 verified 0 4"]),
    ]
    with folder() as place:
        for message, plain, padded in cases:
            for flags, report in (([], plain), (["--padded"], padded)):
                status = 1 if any("refused" in line for line in report) else 0
                expect(replay(place, torrent, eight + message, "--info-only", *flags), status,
                       lines("1 stored 14", *report, "end"))


def test_what_went_out_and_both_forms():
    torrent = torrent_of([("five", FIVE)], 16384)
    padded = piece(4, 0, FIVE[65536:] + bytes(BLOCK - 100))
    with folder() as place:
        expect(replay(place, torrent, padded, "--padded"), 0, lines("1 verified 0 4", "end"))
        directed = record_model.FORM_2 + b"\1" + padded + b"\0" + padded
        expect(replay(place, torrent, directed, "--padded"), 0, lines("1 sent", "2 verified 0 4", "end"))
        expect(replay(place, torrent, directed), 1, lines("1 sent", "2 refused P2 BadSize", "end"))


def test_the_longest_message():
    """A message of 263,208 bytes, the most that a frame carries, of which fewer are the file's."""
    content = random.Random(8).randbytes(16 * BLOCK + 100)
    torrent, over = torrent_of([("file", content)], 1 << 20), MOST_BYTES - len(content)
    tree = Tree.of(content)
    leaves = hashes(tree.root, 0, 0, 32, 5, given=tree.hashes(0, 0, 32, 0))
    with folder() as place:
        expect(replay(place, torrent, leaves + piece(0, 0, content + bytes(over)), "--padded"), 0,
               lines("1 stored 62", *(f"2 verified 0 {at}" for at in range(17)), "end"))
        expect(replay(place, torrent, leaves + piece(0, 0, content + bytes(over - 1) + b"x"), "--padded"), 1,
               lines("1 stored 62", "2 refused P2 BadSize", "end"))
        expect(replay(place, torrent, leaves + piece(0, 0, content + bytes(over + 1)), "--padded"), 1,
               lines("1 stored 62", "2 bad frame 7 263218", "end"))


class PaddingPeers(Peers):
    """Peers that often put bytes behind the last block of a file."""

    def piece(self):
        _, content, kept, first = self.chance.choice(self.model.files)
        at = self.chance.choice([0, len(kept["blocks"]) - 1, self.chance.randrange(len(kept["blocks"]))])
        carried = content[at * BLOCK:][:self.chance.choice([BLOCK, 17 * BLOCK])]
        carried += bytes(self.chance.choice([0, 1, -len(content) % BLOCK, -len(content) % BLOCK, BLOCK]))
        if self.is_rare(0.3) and carried:
            turned = self.chance.choice([0, len(carried) - 1, self.chance.randrange(len(carried))])
            carried = carried[:turned] + bytes([carried[turned] ^ 1]) + carried[turned + 1:]
        return piece(*self.place(first, at), carried[:MOST_BYTES]), None

    def record(self, count):
        """This many frames; what is made of them is asked of another model."""
        return b"".join(self.chance.choice([self.hashes, self.piece, self.piece])()[0] for _ in range(count))


def test_random_records():
    compared = 0
    with folder() as place:
        for files, piece_length in worlds():
            for with_layers in (True, False):
                for seed in range(6):
                    record = PaddingPeers(files, piece_length, with_layers, seed).record(120)
                    flags = [] if with_layers else ["--info-only"]
                    for more, model in ((["--padded"], pieces_model.padded_report), ([], record_model.report)):
                        status, text = model(Session(files, piece_length, with_layers), record)
                        expect(replay(place, torrent_of(files, piece_length), record, *flags, *more), status, text)
                        compared += text.count(b"\n")
    print(f"{compared} lines compared")


def test_what_libtorrent_sends():
    """Of pieces of one block all are verified; see test_pieces.py for these records."""
    with folder() as place:
        for name, count in (("v2-16k-file", 13), ("hy-16k-magnet", 13), ("v2-64k-magnet", 1), ("v2-16k-turned99-1-file-1", 9)):
            torrent, with_layers = torrent_of_record(name)
            flags = [] if with_layers else ["--info-only"]
            status, text = pieces_model.padded_report(pieces_model.Opened(torrent, with_layers), record_of(name))
            assert text.count(b" verified ") == count and b"BadSize" not in text, text
            expect(replay(place, torrent, record_of(name), *flags, "--padded"), status, text)
            assert b"BadSize" in replay(place, torrent, record_of(name), *flags).stdout
