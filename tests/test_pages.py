"""Memory of a session: it follows what is known, whatever places a stranger picks, and not the length of a file."""
import random
import re
import subprocess

from messages import hashes
from support import BTCHECK, folder, write
from torrents import info, torrent
from trees import sha256

PAGE = 512
PAGE_KIB = 17
ZEROS = [bytes(32)]
for _ in range(32):
    ZEROS.append(sha256(ZEROS[-1] * 2))
# One file of 2^46 bytes, all of whose leaves are zero hashes: so the hashes of a layer are all the same.
LONGEST = torrent(info({"file": {"": {"length": 1 << 46, "pieces root": ZEROS[32]}}}, 1 << 30),
                  {ZEROS[32]: ZEROS[16] * 65536})


def pair(index):
    """A true message with the leaves `index` and `index + 1`, and each uncle up to the root."""
    return hashes(ZEROS[32], 0, index, 2, 31, given=[ZEROS[0], *ZEROS[:32]])


def peak(place, *messages):
    """The last line but `end`, and the largest resident set in KiB once all messages were taken."""
    write(f"{place}/torrent", LONGEST)
    program = subprocess.Popen([BTCHECK, "replay", f"{place}/torrent", "/dev/stdin", "--info-only"],
                               stdin=subprocess.PIPE, stdout=subprocess.PIPE)
    for message in messages:
        program.stdin.write(message)
        program.stdin.flush()
        first = program.stdout.readline()
    with open(f"/proc/{program.pid}/status", encoding="ascii", errors="replace") as status:
        resident = next(int(line.split()[1]) for line in status if line.startswith("VmHWM:"))
    out, _ = program.communicate(timeout=60)
    assert (program.returncode, out) == (0, b"end\n"), (program.returncode, out)
    return first, resident


def pages_of(starts):
    """How many pages hold what such messages make known."""
    return len({(layer, (index >> layer ^ side) // PAGE) for index in starts for layer in range(33) for side in (0, 1)
                if layer < 32 or side == 0})


def test_the_last_leaves_take_less_than_8_mib():
    with folder() as place:
        line, resident = peak(place, pair(2 ** 32 - 2))
    assert line == b"1 stored 64\n", line
    print(f"beside the torrent: {resident - len(LONGEST) // 1024} KiB")
    assert resident - len(LONGEST) // 1024 < 8 << 10, resident


def test_a_page_takes_at_most_17_kib():
    """Pairs of leaves far from each other: from the file's end to its front, and in any order."""
    backwards = range(2 ** 32 - 2, 0, -2 ** 32 // 300)
    backwards = [index & ~1 for index in backwards]
    chance = random.Random(7)
    anywhere = [chance.randrange(2 ** 31) * 2 for _ in range(300)]
    with folder() as place:
        _, alone = peak(place, pair(backwards[0]))
        for starts in (backwards, anywhere):
            line, resident = peak(place, *map(pair, starts))
            assert re.fullmatch(rb"\d+ stored \d+\n", line), line
            most = PAGE_KIB * (pages_of(starts) - pages_of(backwards[:1]))
            print(f"{pages_of(starts)} pages: {resident - alone} KiB, at most {most}")
            assert resident - alone <= most + 512, (resident, alone, most)
