"""A session that has every block of a file answers for it: each request for at most 512 hashes, at any base, that has a node
over a block in its range, and whatever another session wants. The pads that this takes come with the file's last piece."""
import random
import re
import subprocess

import messages
import pieces_model
import record_model
from session_model import RANGE, Session, end_pads
from support import BTCHECK, expect, folder, memory_tests, run, write, written
from test_pages import PAGE, PAGE_KIB, ZEROS
from torrents import info, torrent, torrent_of
from trees import BLOCK, Tree, sha256

SIZES = (1, 2, 3, 5, 9, 17, 33, 65, 100, 257, 513, 700, 1025, 1500)
PIECES = (BLOCK, 2 * BLOCK, 4 * BLOCK, 64 * BLOCK)
STATE = re.compile(r"State { known: (\d+), marked: (\d+), pages: (\d+) }")


def content_of(count):
    """This number of blocks, the last of which has five bytes."""
    return random.Random(count).randbytes((count - 1) * BLOCK + 5)


def frames_of(content, piece_length):
    """The messages of all blocks, one each."""
    return [messages.piece(at // piece_length, at % piece_length, content[at:at + BLOCK]) for at in range(0, len(content), BLOCK)]


def asks_of(tree, most=200):
    """Asks for at most 512 hashes that have a node over a block in their range: at each base and of each length the one
    with the last block, and some of the others."""
    last, others = [], []
    for base in range(tree.height):
        for span in range(1, min(RANGE.bit_length() - 1, tree.height - base) + 1):
            starts = range(0, -(-tree.leaf_count // 2 ** base), 2 ** span)
            found = [(tree.root, base, index, 2 ** span, tree.height - base - 1) for index in starts]
            others, last = others + found[:-1], last + found[-1:]
    return last + random.Random(tree.leaf_count).sample(others, min(most, len(others)))


def wanted_of(content, tree):
    """What a session that knows the root alone wants of each block."""
    fresh = Session([("f", content)], BLOCK, False)
    return sorted({ask for block in range(tree.leaf_count) if (ask := fresh.want(tree.root, block))})


def stored(content, answers):
    """The lines of a session that knows the root alone and takes these answers in turn: each is stored."""
    fresh = Session([("f", content)], BLOCK, False)
    lines = [record_model.lines(fresh, frame[4:])[0] for frame in answers]
    assert all(line.startswith("stored") for line in lines), lines
    return "".join(f"{number} {line}\n" for number, line in enumerate(lines, 1)).encode() + b"end\n"


def test_all_blocks_are_served():
    """A replay that held all blocks of a file and proved them, in either order, answers each such request, and another
    session stores all that was wanted."""
    compared = 0
    with folder() as place:
        out = f"{place}/out"
        for count in SIZES:
            content, tree = content_of(count), Tree.of(content_of(count))
            wanted = wanted_of(content, tree)
            asks = wanted + asks_of(tree)
            for piece_length in PIECES:
                path, frames = write(f"{place}/torrent", torrent_of([("f", content)], piece_length)), frames_of(content, piece_length)
                for blocks in (frames, frames[::-1]):
                    record = b"".join([*blocks, *(messages.request(*ask) for ask in asks)])
                    holding = pieces_model.Holding(Session([("f", content)], piece_length, True))
                    status, text = pieces_model.report(holding, record)
                    assert text.count(b" answered\n") == len(asks), (count, piece_length, text)
                    expect(run("replay", path, write(f"{place}/record", record), "--pieces", "--answers", out), status, text)
                    answers = [holding.session.answer_frame(*ask) for ask in asks]
                    assert written(out) == b"".join(answers), (count, piece_length)
                    compared += len(answers)
                answers = answers[:len(wanted)]
                expect(run("replay", path, write(f"{place}/record", b"".join(answers)), "--info-only"), 0, stored(content, answers))
    print(f"{compared} answers compared")


# ---- what is known then, and on how many pages


def states(place, content, piece_length, over):
    """How many places are known after each piece, and on how many pages, as the library says it."""
    path, whole = write(f"{place}/torrent", torrent_of([("f", content)], piece_length)), write(f"{place}/content", content)
    done = subprocess.run([memory_tests(), path, whole, over, "pieces"], stdout=subprocess.PIPE, timeout=600, check=True, text=True)
    return [(int(state[1]), int(state[3])) for line in done.stdout.splitlines() if (state := STATE.fullmatch(line))]


def pages_of(known):
    return len({(layer, index // PAGE) for layer, index in known})


def states_of_the_model(content, piece_length):
    """The same as the model says it. The pads stand on pages that the last piece takes without them."""
    tree = Session([("f", content)], piece_length, True).trees[Tree.of(content).root]
    whole, known, found = tree["whole"], set(tree["known"]), []
    blocks = piece_length // BLOCK
    span = min(blocks.bit_length() - 1, whole.height)
    for first in range(0, whole.leaf_count, blocks):
        known |= {(level, index) for level in range(span + 1) for index in range(first >> level, first + 2 ** span >> level)}
        found.append((len(known), pages_of(known)))
    known |= end_pads(whole).keys()
    assert pages_of(known) == found[-1][1], (whole.leaf_count, piece_length)
    return [*found[:-1], (len(known), pages_of(known))]


def test_pads_come_with_the_last_piece():
    """They are counted among the known places, and take no page more."""
    with folder() as place:
        for count in SIZES:
            for piece_length in PIECES:
                content = content_of(count)
                wanted = states_of_the_model(content, piece_length)
                assert states(place, content, piece_length, "paged") == wanted, (count, piece_length)
                flat = [known for known, _ in states(place, content, piece_length, "flat")]
                assert flat == [known for known, _ in wanted], (count, piece_length)


# ---- a file of 2^46 bytes


class Long:
    """A file with three blocks in its last piece, of 1 GiB each, and zero hashes for the leaves of all others."""

    piece, span = 1 << 30, 16

    def __init__(self, before):
        self.before, self.blocks = before, [bytes([number]) * size for number, size in ((1, BLOCK), (2, BLOCK), (3, 77))]
        row, level = [sha256(block) for block in self.blocks], 0
        while level < 32:
            if level == self.span:
                [self.last], row = row, [*[ZEROS[level]] * (before % 2), *row]
                before //= 2
            elif level > self.span:
                row, before = [*[ZEROS[level]] * (before % 2), *row], before // 2
            row += [ZEROS[level]] * (len(row) % 2)
            row, level = [sha256(row[at] + row[at + 1]) for at in range(0, len(row), 2)], level + 1
        [self.root] = row
        length = self.before * self.piece + 2 * BLOCK + 77
        self.torrent = torrent(info({"file": {"": {"length": length, "pieces root": self.root}}}, self.piece),
                               {self.root: ZEROS[self.span] * self.before + self.last})

    def asks(self):
        """For each base the widest short ask with the last block, and whether its range has no block of another piece
        below the piece layer."""
        first = self.before << self.span
        for base in range(32):
            length = min(RANGE, 2 ** (32 - base))
            index = (first >> base) // length * length
            yield (self.root, base, index, length, 31 - base), base >= self.span or index << base >= first

    def peak(self, place, count):
        """The lines of a replay of the first blocks of the last piece and then of the asks, and its largest resident set
        in KiB."""
        sent = [messages.piece(self.before, at * BLOCK, block) for at, block in enumerate(self.blocks[:count])]
        sent += [messages.request(*ask) for ask, _ in self.asks()]
        program = subprocess.Popen([BTCHECK, "replay", write(f"{place}/torrent", self.torrent), "/dev/stdin", "--pieces"],
                                   stdin=subprocess.PIPE, stdout=subprocess.PIPE)
        program.stdin.write(b"".join(sent))
        program.stdin.flush()
        lines = [program.stdout.readline().decode()]
        while lines[-1] and not lines[-1].startswith(f"{len(sent)} "):
            lines.append(program.stdout.readline().decode())
        with open(f"/proc/{program.pid}/status", encoding="ascii", errors="replace") as status:
            resident = next(int(line.split()[1]) for line in status if line.startswith("VmHWM:"))
        program.communicate(timeout=60)
        return [line.split(" ", 1)[1] for line in lines], resident


def test_the_last_piece_of_a_file_of_2_to_the_46_bytes():
    """It takes the pages of its leaves and of the nodes above them, and the pads beside it take none."""
    pages = sum(max(1, 2 ** (Long.span - level) // PAGE) for level in range(Long.span))
    with folder() as place:
        for before in ((1 << 16) - 1, 1 << 15):
            long = Long(before)
            first = before << Long.span
            _, alone = long.peak(place, 2)
            lines, resident = long.peak(place, 3)
            held = [f"held 0 {first + at}\n" for at in range(3)]
            answers = ["answered\n" if is_whole else "rejected\n" for _, is_whole in long.asks()]
            assert lines == [*held, f"proved 0 {first} {first + 2}\n", *answers], lines
            print(f"{before} pieces before: {resident - alone} KiB, at most {pages * PAGE_KIB}")
            assert resident - alone <= pages * PAGE_KIB + 512, (resident, alone)
