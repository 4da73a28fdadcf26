"""What users know, and `btcheck` beside it: `root`, `check` and `create` of one file of random bytes, and `check` and
`create` of 20,000 files of 1 to 40 KiB, as torrents of version 2 and as hybrids, beside `sha256sum`, `openssl dgst
-sha256`, and libtorrent with one thread and with four (it needs Debian's python3-libtorrent; libtorrent makes torrents
with one thread). With --before another build of the program goes through the same rounds. Prints the rows of
docs/SPEED.md: the medians of all rounds. OpenSSL, and with it libtorrent, uses instructions for SHA where the processor has
them; with OPENSSL_ia32cap=:~0x20000000 in the environment it does without."""
import os
import random
import shutil
import statistics
import sys

from measuring import BTCHECK, TOP, measured, need_program, write_random

sys.path.insert(0, os.path.join(TOP, "tests"))
import support  # noqa: E402

PIECE_LENGTH, SMALL_PIECE_LENGTH = 1 << 20, 1 << 16
NAMES = ["before", "sha256sum", "openssl", "libtorrent, 1 thread", "libtorrent, 4 threads"]


def by_programs(words, *arguments):
    """The command of these arguments for this program, and for the one before it."""
    commands = {"btcheck": [BTCHECK, *arguments]}
    if words.before:
        commands["before"] = [os.path.abspath(words.before), *arguments]
    return commands


def on_file(words, path):
    """The commands that read the file and know of no torrent."""
    commands = by_programs(words, "root", path)
    if shutil.which("sha256sum"):
        commands["sha256sum"] = ["sha256sum", path]
    if shutil.which("openssl"):
        commands["openssl"] = ["openssl", "dgst", "-sha256", path]
    return commands


def checks(words, torrent, files, saved):
    """The commands that check the folder of files; `saved` is the folder below which libtorrent looks for the torrent's name."""
    python, script = support.python_with_libtorrent(), os.path.join(TOP, "bench", "recheck.py")
    commands = by_programs(words, "check", torrent, files)
    for name, threads in [("libtorrent, 1 thread", 1), ("libtorrent, 4 threads", 4)]:
        commands[name] = [python, script, torrent, saved, str(threads)]
    return commands


def creates(words, folder, files, piece_length, hybrid):
    python, script = support.python_with_libtorrent(), os.path.join(TOP, "bench", "remake.py")
    out, theirs = os.path.join(folder, "out"), os.path.join(folder, "theirs")
    commands = by_programs(words, "create", files, out, "--name", "files", "--piece-length", str(piece_length),
                           *["--hybrid"] * hybrid)
    commands["libtorrent, 1 thread"] = [python, script, files, theirs, str(piece_length), "hybrid" if hybrid else "v2"]
    return commands


def figures(found, name):
    """Processor and wall seconds of a command, and how often the processor time of another goes into ours."""
    if name not in found:
        return "–"
    rounds = found[name]
    text = f"{statistics.median(rounds.processors):.2f} ({statistics.median(rounds.walls):.2f})"
    return text if name == "btcheck" else f"{text}, {found['btcheck'].takes(rounds):.2f}"


def row(name, found):
    print(f"| {name} | " + " | ".join(figures(found, other) for other in ["btcheck", *NAMES]) + " |")


def uses_sha_instructions():
    """Whether OpenSSL, and with it libtorrent, uses the processor's instructions for SHA; btcheck does not. It uses none
    where the variable OPENSSL_ia32cap takes them away."""
    with open("/proc/cpuinfo", encoding="ascii", errors="replace") as file:
        has = any("sha_ni" in line.split() for line in file if line.startswith("flags"))
    return has and "OPENSSL_ia32cap" not in os.environ


def rows(words, folder, content, files, saved, piece_length, of=""):
    """The rows of checking and making a torrent of this content."""
    torrent = os.path.join(folder, "torrent")
    for hybrid, kind in [(False, "version 2"), (True, "hybrid")]:
        support.made_by_libtorrent([{"content": content, "torrent": torrent, "piece_length": piece_length, "hybrid": hybrid}])
        row(f"`check`{of}, {kind}", measured(checks(words, torrent, files, saved), words.rounds))
        row(f"`create`{of}, {kind}", measured(creates(words, folder, files, piece_length, hybrid), words.rounds))


def write_small(files, count):
    """Files of 1 to 40 KiB."""
    draw = random.Random(1)
    for number in range(count):
        with open(os.path.join(files, f"{number:05}"), "wb") as out:
            out.write(draw.randbytes(draw.randrange(1 << 10, 40 << 10)))


def run(folder, words):
    """Measures all rows. No mark is missed here: the other parts have them."""
    need_program()
    print(f"OpenSSL, and with it libtorrent, uses {'the' if uses_sha_instructions() else 'no'} instructions for SHA")
    files = os.path.join(folder, "files")
    os.makedirs(files)
    path = os.path.join(files, "content")
    write_random(path, words.size)
    print(f"{words.size} MiB, {words.rounds} interleaved rounds, medians: processor seconds (wall seconds), and how often")
    print("the processor time of the other goes into that of btcheck")
    print("| What | btcheck | " + " | ".join(NAMES) + " |")
    print("|---" * (2 + len(NAMES)) + "|")
    row("`root`", measured(on_file(words, path), words.rounds))
    rows(words, folder, path, files, files, PIECE_LENGTH)
    os.remove(path)
    write_small(files, words.files)
    rows(words, folder, files, files, folder, SMALL_PIECE_LENGTH, f" of {words.files} small files")
    return []
