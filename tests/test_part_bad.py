"""`btcheck check TORRENT DIR --part I/N --bad`: the runs of bad pieces among a part's places, beside a model that compares the
contents themselves, beside the same part without them, and, for all parts, beside `check --bad`."""
import os
import random

from parts_model import marked_lines
from shim import shimmed
from support import expect, folder, run, write
from terminal import cut_off
from test_bad import FIVE, PIECE, RUN, TABLE, drawn_content, drawn_damage, flipped, laid_out
from test_progress import torrent_of_zeros, zeros
from torrents import torrent_of

ROUNDS = 60


def lines_of(done):
    assert done.stdout.endswith(b"\n") and not done.stderr, done
    return done.stdout.decode().split("\n")[:-1]


def marked(torrent, content, number, count):
    """The lines of a part with --bad. Without those of runs, and one word of the first, they are those of the part without."""
    done = run("check", torrent, content, "--part", f"{number}/{count}", "--bad")
    plain = run("check", torrent, content, "--part", f"{number}/{count}")
    lines = lines_of(done)
    assert lines[0].startswith(f"part {number}/{count} ") and lines[0].endswith(" bad"), done
    assert lines[-1] == {0: "part yes", 1: "part no"}[done.returncode], done
    without = [lines[0].removesuffix(" bad"), *[line for line in lines[1:] if not RUN.fullmatch(line)]]
    assert (plain.returncode, lines_of(plain)) == (done.returncode, without), (done, plain)
    return lines


def pieces_named(lines):
    """The pieces in the runs, each by its number, in the order of the lines."""
    for line in lines:
        found = RUN.fullmatch(line)
        if found:
            yield from range(int(found[1]), int(found[2]) + 1)


def expect_parts(torrent, content, contents, states, piece_length, count):
    """Each part prints what the model does; the bad pieces of all parts are those of the whole check. Gives the lines of runs."""
    told, named = [], []
    for number in range(1, count + 1):
        lines = marked(torrent, content, number, count)
        files = [line for line in lines[1:-1] if not line.startswith("v1 ")]
        wanted = marked_lines(contents, states, piece_length, number - 1, count)
        assert files == wanted, (number, count, wanted, files)
        told += [line for line in files if RUN.fullmatch(line)]
        named += pieces_named(files)
    whole = run("check", torrent, content, "--bad")
    assert named == list(pieces_named(lines_of(whole))), (count, named, whole)
    return told


def test_each_row():
    """What stands in the place of a file of five pieces, in one to nine parts."""
    with folder() as place:
        contents = [("a", bytes(PIECE + 1)), ("b", FIVE), ("c", b"abc")]
        torrent = write(f"{place}/torrent", torrent_of(contents, PIECE))
        for found, _ in TABLE:
            states = {"b": found}
            content = laid_out(f"{place}/content", contents, states)
            for count in range(1, 10):
                expect_parts(torrent, content, contents, states, PIECE, count)


def test_one_part_is_the_whole_check():
    with folder() as place:
        contents = [("a", bytes(PIECE + 1)), ("b", FIVE), ("c", b"abc")]
        torrent = write(f"{place}/torrent", torrent_of(contents, PIECE))
        for found, _ in TABLE:
            content = laid_out(f"{place}/content", contents, {"b": found})
            whole = run("check", torrent, content, "--bad")
            lines = marked(torrent, content, 1, 1)
            assert [*lines[1:-1], lines[-1].removeprefix("part ")] == lines_of(whole), (lines, whole)


def test_what_stands_in_a_report():
    """Four parts of seven pieces: a run that goes on in the next part is a run of each."""
    with folder() as place:
        contents = [("a", bytes(7 * PIECE))]
        torrent = write(f"{place}/torrent", torrent_of(contents, PIECE))
        content = laid_out(f"{place}/content", contents, {"a": flipped(bytes(7 * PIECE), 0, *range(2 * PIECE, 6 * PIECE, PIECE))})
        told = [marked(torrent, content, number, 4)[1:] for number in range(1, 5)]
        assert told == [
            ["bad 0 a", "bad pieces 0 0 bytes 0-16383", "part no"],
            ["bad 2 a", "bad pieces 2 2 bytes 32768-49151", "part no"],
            ["bad 3 a", "bad pieces 3 4 bytes 49152-81919", "part no"],
            ["bad 5 a", "bad pieces 5 5 bytes 81920-98303", "part no"],
        ], told


def test_random_folders():
    """Of version 2 and hybrids, of files that are missing, cut, longer, empty or changed, in one to nine parts."""
    draw = random.Random(5253)
    seen = set()
    for _ in range(ROUNDS):
        with folder() as place:
            contents = [(name, drawn_content(draw)) for name in "abcd"[:draw.randrange(1, 5)]]
            piece_length = draw.choice([16384, 32768, 65536])
            laid_out(f"{place}/whole", contents, {})
            kind = ["--hybrid"] if draw.randrange(2) else []
            torrent = f"{place}/torrent"
            made = run("create", f"{place}/whole", torrent, "--name", "x", "--piece-length", str(piece_length), *kind)
            if made.returncode:
                assert made.stdout.startswith(b"refused 12 "), made
                continue
            states = {name: drawn_damage(draw, content) for name, content in contents if draw.randrange(3)}
            content = laid_out(f"{place}/content", contents, states)
            for count in range(1, 10):
                told = expect_parts(torrent, content, contents, states, piece_length, count)
                seen.add(min(len(told), 3))
    assert seen == {0, 1, 2, 3}, seen


def test_unreadable_files_have_no_runs():
    with folder() as place:
        contents = [("a", FIVE), ("b", FIVE[1:]), ("c", b"abc")]
        torrent = write(f"{place}/torrent", torrent_of(contents, PIECE))
        content = laid_out(f"{place}/content", contents, {"c": b"abd"})
        os.remove(f"{content}/a")
        os.mkdir(f"{content}/a")
        os.remove(f"{content}/b")
        assert marked(torrent, content, 1, 1)[1:] == ["unreadable a", "missing b", "bad 10 c", "bad pieces 10 10 bytes 0-2", "part no"]


def test_faults():
    with folder() as place:
        contents = [("a", FIVE)]
        torrent = write(f"{place}/torrent", torrent_of(contents, PIECE))
        content = laid_out(f"{place}/content", contents, {"a": flipped(FIVE, 0, -1)})
        with open("/dev/full", "wb") as full:
            expect(run("check", "--bad", torrent, content, "--part", "1/2", stdout=full), 2, None, "fault: cannot write -\n")
        expect(run("check", "--bad", f"{place}/none", content, "--part", "1/2"), 2, "", f"fault: cannot read {place}/none\n")
        write(f"{place}/odd", b"d")
        expect(run("check", "--bad", f"{place}/odd", content, "--part", "1/2"), 1, "refused 2 NotBencode Truncated 1\n")


def test_reads_that_fail():
    """Each file is read once: one of which a read fails is unreadable and has no runs, and the other's lines stand."""
    with shimmed() as (place, shim):
        contents = [("a", FIVE), ("c", b"abc")]
        torrent = write(f"{place}/torrent", torrent_of(contents, PIECE))
        content = laid_out(f"{place}/content", contents, {"a": flipped(FIVE, 0, 2 * PIECE), "c": b"ab"})
        runs = shim.each("read", "check", "--bad", torrent, content, "--part", "1/1")
        ample = next(runs)
        head, *lines = ample.stdout.decode().split("\n")[:-1]
        assert head.endswith(" bad") and ample.returncode == 1, ample
        assert lines == ["bad 0 a", "bad pieces 0 0 bytes 0-16383", "bad pieces 2 2 bytes 32768-49151", "wrong length c",
                         "bad pieces 5 5 bytes 0-2", "part no"], ample
        told = {"a": [head, "unreadable a", *lines[3:]], "c": [head, *lines[:3], "unreadable c", "part no"]}
        seen = set()
        for done in runs:
            said = done.stdout.decode().split("\n")[:-1]
            if done.returncode == 1:
                assert done.stderr == b"" and said in told.values(), done
                seen.add(said[1])
            else:
                assert (done.returncode, done.stderr.decode(), said) == (2, f"fault: cannot read {torrent}\n", []), done
        assert seen == {"unreadable a", lines[0]}, seen


def test_a_part_that_is_cut_off():
    """A terminal has the lines of the first file and of its bad pieces while the second is read."""
    with folder() as place:
        sizes = {"a": PIECE, "b": 1 << 33}  # some seconds of reading
        path = write(f"{place}/torrent", torrent_of_zeros(sizes))
        zeros(place, "b", sizes["b"])
        write(f"{place}/a", flipped(bytes(PIECE), 5))
        status, text = cut_off(3, "check", "--bad", path, place, "--part", "1/1")
        assert status == -2 and text.endswith(" bad\nbad 0 a\nbad pieces 0 0 bytes 0-16383\n"), (status, text)


def test_memory_does_not_grow_with_the_runs():
    with folder() as place:
        content = random.Random(7).randbytes(400 * PIECE)
        torrent = write(f"{place}/torrent", torrent_of([("a", content)], PIECE))
        laid_out(f"{place}/content", [("a", flipped(content, *range(0, len(content), 2 * PIECE)))], {})
        done = run("check", "--bad", torrent, f"{place}/content", "--part", "1/2", memory=12000)
        assert done.returncode == 1 and done.stdout.count(b"bad pieces") == 100, done
