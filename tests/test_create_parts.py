"""`btcheck create --part I/N` and `btcheck assemble`: folders made in one to nine parts give the bytes of one `create`, or
its refusal; and parts that do not belong together are refused, with OUT untouched."""
import os
import random
import re

from support import BTCHECK, expect, folder, run, write, written

ROUNDS = 300


def content(draw):
    """A file of none to some pieces, with an end that is odd or even."""
    length = draw.choice([0, 0, 1, 3, 16383, 16384, 16385, 32768, 40000, 65536, 65636, 98304, draw.randrange(1, 200_000)])
    return draw.randbytes(length)


def contents_of(draw):
    """Some files, in folders or not, some of them equal; with a root reused now and then."""
    names = ["a", "b", "b.tmp", "c/d", "c/e", "c/f/g", ".hidden", "z\n", "\u00fc"]
    files = {name: content(draw) for name in names[:draw.randrange(0, len(names) + 1)]}
    if len(files) > 2 and draw.randrange(3) == 0:
        first, second = list(files)[:2]
        files[second] = files[first]
    if len(files) > 3 and draw.randrange(6) == 0:
        # A file of two blocks, and one of a block that is their leaves joined: one root, two lengths.
        import hashlib
        blocks = draw.randbytes(16384), draw.randbytes(16384)
        first, second = list(files)[-2:]
        files[first] = b"".join(blocks)
        files[second] = b"".join(hashlib.sha256(block).digest() for block in blocks)
    return files


def make(place, files):
    os.makedirs(place)
    for name, bytes_of in files.items():
        os.makedirs(os.path.dirname(f"{place}/{name}"), exist_ok=True)
        write(f"{place}/{name}", bytes_of)


def options_of(draw):
    pieces = draw.choice(["16384", "32768", "65536", "auto", "16K"] + ["12345"] * (draw.randrange(20) == 0))
    excluded = draw.choice([[], [], ["--exclude", "*.tmp"], ["--exclude", "/c", "--exclude", "b*"]])
    return ["--name", draw.choice(["x", "a name", "\u00fc"]), "--piece-length", pieces,
        *(["--hybrid"] if draw.randrange(2) else []), *excluded]


def parts_of(place, options, count):
    """The parts' paths, and how the runs ended."""
    paths = [f"{place}/part{number}" for number in range(1, count + 1)]
    done = [run("create", f"{place}/files", path, *options, "--part", f"{number}/{count}")
        for number, path in enumerate(paths, 1)]
    return paths, done


def test_all_parts_assemble_to_the_torrent():
    draw = random.Random(57)
    seen = set()
    for at in range(ROUNDS):
        with folder() as place:
            make(f"{place}/files", contents_of(draw))
            options = options_of(draw)
            whole = run("create", f"{place}/files", f"{place}/whole", *options)
            paths, done = parts_of(place, options, draw.randrange(1, 10))
            if whole.stdout.startswith(b"refused 6 "):
                for each in done:
                    expect(each, 1, whole.stdout)
                seen.add("6")
                continue
            if "--exclude" in options and whole.stdout.startswith(b"refused 13 "):
                for each in done:
                    expect(each, 1, whole.stdout)
                assert not any(map(os.path.exists, [f"{place}/whole", *paths]))
                seen.add("left out")
                continue
            for each in done:
                expect(each, 0)
            draw.shuffle(paths)
            made = run("assemble", f"{place}/made", *paths)
            expect(made, whole.returncode, whole.stdout, whole.stderr)
            if whole.returncode:
                assert os.path.exists(f"{place}/made") == os.path.exists(f"{place}/whole"), at
                seen.add(whole.stdout.split()[1].decode())
            else:
                assert written(f"{place}/made") == written(f"{place}/whole"), (at, options, paths)
                expect(run("check", f"{place}/made", f"{place}/files", "--quiet"), 0, b"yes\n")
                seen.add("made")
    assert seen >= {"made", "13", "12", "6"}, seen


def refused(place, paths, line):
    """The parts are refused so, and the torrent's file stays as it is."""
    write(f"{place}/out", b"before")
    done = run("assemble", f"{place}/out", *paths)
    expect(done, 2, b"", line)
    assert written(f"{place}/out") == b"before"


OPTIONS = ["--name", "x", "--piece-length", "16384", "--hybrid"]


def test_parts_that_do_not_belong_together_are_refused():
    with folder() as place:
        make(f"{place}/files", {"a": random.Random(1).randbytes(100_000), "b": b"", "c": b"xyz"})
        paths, done = parts_of(place, OPTIONS, 3)
        for each in done:
            expect(each, 0)
        refused(place, paths[:2], b"fault: part 3 of 3 is missing\n")
        refused(place, paths[1:], b"fault: part 1 of 3 is missing\n")
        refused(place, [*paths, paths[1]], b"fault: part 2 is there twice\n")
        whole = written(paths[1])
        for broken in (whole[:-1], whole + b"\0", whole[:40], b"", b"d8:announce0:e"):
            write(f"{place}/broken", broken)
            refused(place, [paths[0], f"{place}/broken", paths[2]], f"fault: no whole part: {place}/broken\n".encode())
        expect(run("create", f"{place}/files", f"{place}/half", *OPTIONS, "--part", "1/2"), 0)
        refused(place, [paths[0], f"{place}/half"], f"fault: a part of another number of parts: {place}/half\n".encode())
        for changed in ("name", "length", "file", "kind", "pieces"):
            options = list(OPTIONS)
            if changed == "name":
                options[1] = "y"
            elif changed == "length":
                write(f"{place}/files/c", b"xyzt")
            elif changed == "file":
                write(f"{place}/files/d", b"")
            elif changed == "kind":
                options.pop()
            else:
                options[3] = "32768"
            expect(run("create", f"{place}/files", f"{place}/other", *options, "--part", "2/3"), 0)
            refused(place, [paths[0], f"{place}/other", paths[2]], b"fault: part 2 is of another folder\n")
            write(f"{place}/files/c", b"xyz")
            if changed == "file":
                os.remove(f"{place}/files/d")
        expect(run("assemble", f"{place}/out", *paths), 0)


def test_out_is_never_an_input():
    with folder() as place:
        make(f"{place}/files", {"a": b"x" * 70000, "b": b"y"})
        before = written(f"{place}/files/b")
        os.link(f"{place}/files/b", f"{place}/link")
        for number in ("1/2", "2/2"):
            for out in (f"{place}/files/b", f"{place}/link"):
                done = run("create", f"{place}/files", out, *OPTIONS, "--part", number)
                expect(done, 2, b"", f"fault: cannot write {out}\n".encode())
                assert written(f"{place}/files/b") == before
        paths, _ = parts_of(place, OPTIONS, 2)
        kept = written(paths[1])
        expect(run("assemble", paths[1], *paths), 2, b"", f"fault: cannot write {paths[1]}\n".encode())
        assert written(paths[1]) == kept


def test_a_file_that_cannot_be_read_is_named_by_the_part_that_has_it():
    with folder() as place:
        make(f"{place}/files", {"a": b"x" * 50000, "b": b"y" * 50000})
        os.symlink("nowhere", f"{place}/files/link")
        for number in ("1/2", "2/2"):
            whole = run("create", f"{place}/files", f"{place}/out", *OPTIONS)
            part = run("create", f"{place}/files", f"{place}/out", *OPTIONS, "--part", number)
            expect(part, whole.returncode, whole.stdout, whole.stderr)
        expect(run("create", f"{place}/none", f"{place}/out", *OPTIONS, "--part", "1/2"), 2, b"",
            f"fault: cannot read {place}/none\n".encode())


def test_each_piece_is_hashed_by_one_part():
    """The sizes of the parts behind what was listed: 32 bytes for a piece, in as even a division as there is."""
    with folder() as place:
        make(f"{place}/files", {"a": random.Random(2).randbytes(16384 * 90 + 5)})
        options = OPTIONS[:4]
        paths, _ = parts_of(place, options, 9)
        head = min(os.path.getsize(path) for path in paths) - 32 * 10
        pieces = [(os.path.getsize(path) - head) // 32 for path in paths]
        assert sum(pieces) == 91 and max(pieces) <= 11, pieces


def test_options_of_parts():
    with folder() as place:
        make(f"{place}/files", {"a": b"x"})
        for part in ("0/2", "3/2", "1", "a/b", "1/0", "-1/2", ""):
            done = run("create", f"{place}/files", f"{place}/out", *OPTIONS, f"--part={part}")
            assert done.returncode == 2 and re.search(rb"""invalid value ".*" for '--part <I/N>'""", done.stderr), (part, done)
            assert not os.path.exists(f"{place}/out")
        write(f"{place}/out", b"kept")
        done = run("create", f"{place}/files", f"{place}/out", *OPTIONS, "--part", "1/1", "--no-clobber")
        assert done.returncode == 2 and written(f"{place}/out") == b"kept", done
        assert run("assemble", f"{place}/out").returncode == 2


def number(value):
    return value.to_bytes(8, "big")


def sized(text):
    return number(len(text)) + text


def listing_of(files, name=b"x", pieces=16384, kind=1, count=None):
    """What a part lists: each of the files is its path's components and its length in bytes."""
    return (number(pieces) + number(kind) + sized(name) + number(len(files) if count is None else count)
        + b"".join(number(length) + number(len(path)) + b"".join(map(sized, path)) for path, length in files))


def only_part(listing, rows):
    """The text of part 1 of 1."""
    return b"btcheck part of a torrent 1\n" + number(1) + number(1) + sized(listing) + rows


A = (b"\x01" * 20_000, [b"a"])
C = (b"\x02" * 100, [b"d", b"c"])


def rows_of(place, content, path):
    """What the only part of a folder with this file alone says of its pieces."""
    make(f"{place}/files", {b"/".join(path).decode(): content})
    (made,), _ = parts_of(place, OPTIONS, 1)
    return written(made)[len(only_part(listing_of([(path, len(content))]), b"")):]


def rows_of_both():
    with folder() as one, folder() as other:
        return rows_of(one, *A), rows_of(other, *C)


def test_a_listing_is_read_to_the_byte():
    """Texts whose listing is none, though each is as long as it says."""
    first, second = rows_of_both()
    a, c = (A[1], len(A[0])), (C[1], len(C[0]))
    good = listing_of([a, c])
    listings = {
        "kind 2": listing_of([a, c], kind=2),
        "kind 2^63": listing_of([a, c], kind=1 << 63),
        "a byte behind": good + b"\0",
        "a file behind": good + listing_of([a])[33:],
        "a byte less": good[:-1],
        "a file more": listing_of([a, c], count=3),
        "a file less": listing_of([a, c], count=1),
        "2^64 - 1 files": listing_of([a, c], count=(1 << 64) - 1),
        "a name that is not UTF-8": listing_of([a, c], name=b"\xff"),
        "half a character": listing_of([a, c], name="\u00fc".encode()[:1]),
        "a component that is not UTF-8": listing_of([([b"\xc0\x80"], a[1]), c]),
        "nothing": b"",
    }
    with folder() as place:
        make(f"{place}/files", {"a": A[0], "d/c": C[0]})
        expect(run("create", f"{place}/files", f"{place}/whole", *OPTIONS), 0)
        write(f"{place}/part", only_part(good, first + second))
        expect(run("assemble", f"{place}/made", f"{place}/part"), 0)
        assert written(f"{place}/made") == written(f"{place}/whole")
        line = f"fault: no whole part: {place}/part\n".encode()
        for why, listing in listings.items():
            write(f"{place}/part", only_part(listing, first + second))
            refused(place, [f"{place}/part"], line)
        # A listing in another order is taken, and the torrent is the same.
        write(f"{place}/part", only_part(listing_of([c, a]), second + first))
        expect(run("assemble", f"{place}/made", f"{place}/part"), 0)
        assert written(f"{place}/made") == written(f"{place}/whole")


def test_each_digest_is_there():
    """A text that is cut before, in or behind a digest, or that has one more."""
    first, second = rows_of_both()
    rows = first + second
    widths = [32, 32, 20, 20, 20, 32, 20, 20]
    assert len(rows) == sum(widths), len(rows)
    cuts = {at + more for at in (sum(widths[:n]) for n in range(len(widths))) for more in (0, 1, 19)}
    with folder() as place:
        listing = listing_of([(A[1], len(A[0])), (C[1], len(C[0]))])
        line = f"fault: no whole part: {place}/part\n".encode()
        for told in [*(rows[:cut] for cut in sorted(cuts)), rows + b"\0", rows + rows[:20]]:
            write(f"{place}/part", only_part(listing, told))
            refused(place, [f"{place}/part"], line)


def test_the_first_fault_is_answered():
    """By the fronts, text by text: no part, another number of parts, another folder, and only then the same part twice."""
    with folder() as place:
        make(f"{place}/files", {"a": b"x" * 40_000})
        (one, two), _ = parts_of(place, OPTIONS, 2)
        expect(run("create", f"{place}/files", f"{place}/three", *OPTIONS, "--part", "1/3"), 0)
        write(f"{place}/files/b", b"")
        expect(run("create", f"{place}/files", f"{place}/other", *OPTIONS, "--part", "1/2"), 0)
        write(f"{place}/none", b"")
        none, three, other = f"{place}/none", f"{place}/three", f"{place}/other"
        write(f"{place}/short", written(one)[:-1])
        for paths, line in [
            ([one, three, none], f"fault: a part of another number of parts: {three}\n"),
            ([one, none, three], f"fault: no whole part: {none}\n"),
            ([one, other], "fault: part 1 is of another folder\n"),
            ([one, one, none], "fault: part 1 is there twice\n"),
            ([two, f"{place}/short", two], "fault: part 2 is there twice\n"),
            ([two, f"{place}/short"], f"fault: no whole part: {place}/short\n"),
        ]:
            refused(place, paths, line.encode())


def test_the_first_fault_behind_the_fronts_is_answered():
    """Once all parts are there: no listing, by the first part; then the sizes of the texts, in the order of the parts; and
    only then the files."""
    def changed(name, *changes):
        paths = [f"{place}/{name}{number}" for number in (1, 2, 3)]
        for path, text in zip(paths, texts):
            for old, new in changes:
                assert old in text
                text = text.replace(old, new, 1)
            write(path, text)
        return paths

    with folder() as place:
        make(f"{place}/files", {"a": b"x" * 60_000, "b": b""})
        paths, _ = parts_of(place, OPTIONS, 3)
        texts = [written(path) for path in paths]
        unlisted = changed("unlisted", (number(16384) + number(1), number(16384) + number(2)))
        clashing = changed("clashing", (sized(b"b"), sized(b"a")))
        short = [write(f"{place}/short{number}", text[:-1]) for number, text in enumerate(texts, 1)]
        for given, blamed in [
            (unlisted[::-1], unlisted[0]),
            ([short[2], short[1], paths[0]], short[1]),
            ([short[2], paths[1], paths[0]], short[2]),
            ([clashing[0], clashing[1], write(f"{place}/odd", written(clashing[2])[:-1])], f"{place}/odd"),
        ]:
            refused(place, given, f"fault: no whole part: {blamed}\n".encode())
        expect(run("assemble", f"{place}/out", *clashing), 1, b"refused 22 PathClash a\n")


def test_a_part_without_an_end_is_refused():
    """The memory that it may take is bounded, whatever stands in front."""
    with folder() as place:
        fronts = [b"", b"btcheck part of a torrent 1\n" + number(1) + number(1) + number(1 << 62)]
        for front in fronts:
            write(f"{place}/front", front)
            done = run("sh", "-c", 'cat "$1/front" /dev/zero | "$0" assemble "$1/out" /dev/stdin', BTCHECK, place,
                program="/usr/bin/env", memory=8 << 20, timeout=120)
            expect(done, 2, b"", b"fault: no whole part: /dev/stdin\n")
            assert not os.path.exists(f"{place}/out")
