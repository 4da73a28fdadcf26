"""That the files of a torrent are read in the order of their bytes, each byte once, as strace sees the calls."""
import collections
import os
import random
import re
import subprocess

from support import BTCHECK, folder, made_by_libtorrent, need, write, written

# A call that moves bytes of an open file, or the place in it: its name, the file's path, and what it answered.
CALL = re.compile(r"^(\w+)\(\d+<([^>]*)>.*= (-?\d+)", re.M)
CALLS = "openat,read,readv,pread64,preadv,preadv2,lseek,mmap,sendfile,splice,copy_file_range"


def calls_on_files(place, *words):
    """The calls on the files below a folder, by path: the name and the answer of each, in order."""
    trace = f"{place}/trace"
    done = subprocess.run(["strace", "-qq", "-y", "-s", "0", "-e", f"trace={CALLS}", "-o", trace, BTCHECK, *words],
                          stdout=subprocess.DEVNULL, check=False).returncode
    found = {}
    for name, path, answer in CALL.findall(written(trace).decode()):
        if path.startswith(f"{place}/content/"):
            found.setdefault(path, []).append((name, int(answer)))
    return done, found


def opened_below(place):
    """How often each file below the folder was opened, by the trace."""
    paths = re.findall(r"^openat\(.*= \d+<([^>]*)>", written(f"{place}/trace").decode(), re.M)
    return collections.Counter(path for path in paths if path.startswith(f"{place}/content/") and os.path.isfile(path))


def expect_in_order(place, sizes, *words):
    done, found = calls_on_files(place, *words)
    assert done == 0, done
    for path, size in sizes.items():
        calls = found[f"{place}/content/{path}"]
        assert {name for name, _ in calls} == {"read"}, (path, calls)
        assert sum(answer for _, answer in calls) == size, (path, calls)


def test_bytes_are_read_in_order():
    need("strace")
    draw = random.Random(8)
    sizes = {"large": 3_000_001, "whole": 1 << 20, **{f"small {number}": draw.randrange(1, 40_000) for number in range(30)}}
    with folder() as place:
        place = os.path.realpath(place)
        os.makedirs(f"{place}/content")
        for path, size in sizes.items():
            write(f"{place}/content/{path}", draw.randbytes(size))
        for hybrid in [False, True]:
            torrent = f"{place}/torrent"
            made_by_libtorrent([{"content": f"{place}/content", "torrent": torrent, "piece_length": 65536,
                                 "hybrid": hybrid}])
            expect_in_order(place, sizes, "check", torrent, f"{place}/content")
            kind = ["--piece-length", "65536", *(["--hybrid"] if hybrid else [])]
            expect_in_order(place, sizes, "create", f"{place}/content", f"{place}/made", "--name", "made", *kind)


def test_long_pieces_are_read_in_order():
    """Pieces of 8 MiB, which wait for each other to be hashed side by side."""
    need("strace")
    sizes = {"a": 5 * (1 << 23) + 77}
    with folder() as place:
        place = os.path.realpath(place)
        os.makedirs(f"{place}/content")
        write(f"{place}/content/a", random.Random(9).randbytes(sizes["a"]))
        kind = ["--name", "content", "--piece-length", "8M", "--hybrid"]
        expect_in_order(place, sizes, "create", f"{place}/content", f"{place}/torrent", *kind)
        expect_in_order(place, sizes, "check", f"{place}/torrent", f"{place}/content")


def share_of(before, length, total, pieces, part, parts):
    """Where a part's bytes of a file begin and end, if it has any, or the file's end."""
    starts = [total // parts * number for number in range(parts)] + [1 << 64]
    if not length:
        return (0, 0) if starts[part] <= before < starts[part + 1] else None
    mine = [at for at in range(0, length, pieces) if starts[part] <= before + at < starts[part + 1]]
    return (mine[0], min(mine[-1] + pieces, length)) if mine else None


def test_a_part_reads_its_own_bytes_once():
    """Each file of which a part has a byte, or the end, is opened once, at the first of its pieces; no other is."""
    need("strace")
    draw = random.Random(10)
    sizes = {"a": 200_001, "b": 0, "c/d": 16384, "c/e": 5, "f": 16384 * 7, "g": 0, "h": 1}
    total = sum(sizes.values())
    with folder() as place:
        place = os.path.realpath(place)
        for path, size in sizes.items():
            os.makedirs(os.path.dirname(f"{place}/content/{path}"), exist_ok=True)
            write(f"{place}/content/{path}", draw.randbytes(size))
        for kind in [[], ["--hybrid"]]:
            for parts in (1, 2, 5):
                for part in range(parts):
                    done, found = calls_on_files(place, "create", f"{place}/content", f"{place}/out", "--name", "x",
                        "--piece-length", "16384", *kind, "--part", f"{part + 1}/{parts}")
                    assert done == 0, done
                    opened, before = opened_below(place), 0
                    for path, size in sorted(sizes.items(), key=lambda file: file[0].split("/")):
                        share = share_of(before, size, total, 16384, part, parts)
                        calls = found.get(f"{place}/content/{path}", [])
                        seen = (opened[f"{place}/content/{path}"], sum(answer for name, answer in calls if name == "read"),
                            [answer for name, answer in calls if name == "lseek"])
                        wanted = (1, share[1] - share[0], [share[0]]) if share else (0, 0, [])
                        assert seen == wanted, (path, part, parts, seen, wanted)
                        before += size
