"""Many torrents at once, as docs/MANY.md has it: `xargs` with four checks at a time beside one at a time, on folders of
one file each; the time of the clock counts. Then `btcheck-many archive` once over small torrents, five times as many as
--files says: what each costs beside its digests, on one machine, and a twentieth of them by GNU parallel, as
with more machines."""
import os
import shutil
import statistics
import sys

from measuring import BTCHECK, TOP, measure, measured, need_program, report, write_random

sys.path.insert(0, os.path.join(TOP, "tests"))
import torrents  # noqa: E402

COUNT = 16
PIECE_LENGTH = 1 << 20
# How many times as fast four at once are, on four cores that nothing else uses.
MARK = 3.5
# How many small torrents for each file that --files says.
TORRENTS = 5


def make(folder, mib):
    """COUNT torrents, each beside a folder with a file of `mib` MiB."""
    for number in range(COUNT):
        content = os.path.join(folder, str(number))
        os.makedirs(content)
        write_random(os.path.join(content, "file"), mib)
        with open(os.path.join(content, "file"), "rb") as file, open(f"{content}.torrent", "wb") as out:
            out.write(torrents.torrent_of([("file", file.read())], PIECE_LENGTH))


def by_xargs(folder, jobs):
    """The command that checks all of them, `jobs` at a time; it fails if one is not good."""
    numbers = " ".join(map(str, range(COUNT)))
    one = f"{BTCHECK} check {folder}/{{}}.torrent {folder}/{{}}"
    return ["sh", "-c", f"echo {numbers} | tr ' ' '\\n' | xargs -P {jobs} -I {{}} {one}"]


def make_small(folder, count):
    """As many small torrents, each with a file of its own."""
    for kind in ("torrents", "content"):
        os.makedirs(f"{folder}/{kind}")
    for number in range(count):
        content = b"%d" % number
        os.makedirs(f"{folder}/content/{number}")
        with open(f"{folder}/content/{number}/file", "wb") as out:
            out.write(content)
        with open(f"{folder}/torrents/{number}.torrent", "wb") as out:
            out.write(torrents.torrent_of([("file", content)], PIECE_LENGTH))


def archive(folder, count, *options):
    """Checks these torrents, and prints what one costs."""
    path = f"PATH={os.path.dirname(BTCHECK)}:{os.environ['PATH']}"
    wall, processor, _ = measure(["env", path, f"{TOP}/tools/btcheck-many", "archive", *options, f"{folder}/torrents",
                                  f"{folder}/content", f"{folder}/reports"])
    with os.scandir(f"{folder}/reports") as found:
        sizes = [entry.stat().st_size for entry in found if entry.name.endswith(".report")]
    by = " by GNU parallel" if options else ""
    print(f"btcheck-many archive of {count} small torrents{by}: {wall:.0f} s on {os.cpu_count()} processors, "
          f"{1000 * processor / count:.1f} ms of processor time a torrent; reports of {sum(sizes)} bytes")
    return [] if len(sizes) == count else [f"{count - len(sizes)} of {count} small torrents have no report"]


def archives(folder, count):
    """Checks small torrents by each of the two."""
    missed = []
    for some, options in [(max(1, count // 20), ["--hosts", f"{folder}/hosts"]), (count, [])]:
        if options and not shutil.which("parallel"):
            continue
        place = f"{folder}/{some}"
        make_small(place, some)
        with open(f"{folder}/hosts", "w", encoding="ascii") as out:
            out.write(f"{os.cpu_count()}/:\n")
        missed += archive(place, some, *options)
        shutil.rmtree(place)
    return missed


def run(folder, words):
    """Measures both, and gives the mark that they miss, in words."""
    need_program()
    each = max(1, words.size // COUNT)
    make(folder, each)
    found = measured({"four at once": by_xargs(folder, 4), "one at a time": by_xargs(folder, 1)}, words.rounds)
    report(found, COUNT * each, "four at once")
    pairs = zip(found["one at a time"].walls, found["four at once"].walls)
    ratio = statistics.median(one / four for one, four in pairs)
    print(f"four at once are {ratio:.2f} x as fast on {os.cpu_count()} cores")
    missed = archives(folder, TORRENTS * words.files)
    if (os.cpu_count() or 1) >= 4 and ratio < MARK:
        missed.append(f"four checks at once are not {MARK} x as fast as one at a time")
    return missed
