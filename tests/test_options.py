"""The options beside those that the formats need: short ones, piece lengths in units, reasons in pipes, summaries, sums,
extra files."""
import json
import os
import random
import re

import torrents
from create_model import torrent_of as created
from support import expect, folder, run, write, written
from terminal import on_terminal

KIB, MIB, GIB = 1 << 10, 1 << 20, 1 << 30


def example(place):
    """A torrent of two files of several pieces and one of part of one, with its folder."""
    contents = {"a": random.Random(1).randbytes(100000), "b c": b"x", "sub/d": random.Random(2).randbytes(40000)}
    for path, content in contents.items():
        os.makedirs(os.path.dirname(f"{place}/all/{path}"), exist_ok=True)
        write(f"{place}/all/{path}", content)
    expect(run("create", f"{place}/all", f"{place}/t", "--name", "n", "--piece-length", "32768"), 0)
    return contents


def test_short_options():
    """Each says what the long one says, also joined to another."""
    with folder() as place:
        example(place)
        record = write(f"{place}/record", b"")
        for short, long in [(["root", f"{place}/t", "-j"], ["root", f"{place}/t", "--json"]),
                            (["show", "-j", f"{place}/t"], ["show", "--json", f"{place}/t"]),
                            (["check", "-q", f"{place}/t", f"{place}/all"], ["check", "--quiet", f"{place}/t", f"{place}/all"]),
                            (["check", "-jq", f"{place}/t", place], ["check", "--json", "--quiet", f"{place}/t", place]),
                            (["replay", "-j", f"{place}/t", record], ["replay", "--json", f"{place}/t", record])]:
            done = run(*long)
            expect(run(*short), done.returncode, done.stdout, done.stderr)
        expect(run("replay", f"{place}/t", record, "-o", f"{place}/answers"), 0, "end\n")
        assert written(f"{place}/answers") == b""
        for twice in (["root", f"{place}/t", "-jj"], ["check", "-q", "--quiet", f"{place}/t", place], ["create", "-j", place, "x"]):
            expect(run(*twice), 2, b"", None)


# Texts of a piece length, and what they mean.
LENGTHS = {"16384": 16384, "16K": 16384, "+64K": 65536, "064K": 65536, "1M": MIB, "1024M": GIB, "1048576K": GIB, "1G": GIB, "+01G": GIB}
NO_LENGTHS = ["K", "M", "1k", "1m", "1 M", "1MK", "1KM", "1KK", "K1", "1K1", "1.5M", "-1M", "auto ", "Auto", "1g", "1 G", "1GK", "", "0x10K",
              "18014398509481984K", "17592186044416M", "17179869184G", "18446744073709551616"]
# These are numbers, but no piece lengths: the folder is refused.
REFUSED = ["0", "0K", "1K", "15K", "2048M", "2G", "17179869183G", "18014398509481983K", "17592186044415M", "18446744073709551615"]


def test_piece_lengths_in_units():
    with folder() as place:
        os.mkdir(f"{place}/all")
        content = random.Random(3).randbytes(200000)
        write(f"{place}/all/a", content)
        for text, length in LENGTHS.items():
            expect(run("create", f"{place}/all", f"{place}/out", "--name", "n", "--piece-length", text), 0)
            assert written(f"{place}/out") == created({"a": content}, "n", length, False), text
        os.remove(f"{place}/out")
        for text in NO_LENGTHS:
            done = run("create", f"{place}/none", f"{place}/out", "--name", "n", f"--piece-length={text}")
            expect(done, 2, b"", None)
            assert f"error: invalid value \"{text}\" for '--piece-length <K>'".encode() in done.stderr, (text, done.stderr)
        for text in REFUSED:
            expect(run("create", f"{place}/all", f"{place}/out", "--name", "n", "--piece-length", text), 1, "refused 6 PieceLength\n")
        assert not os.path.exists(f"{place}/out")


def auto(total):
    """The smallest power of two from 16 KiB that leaves 2,048 pieces at most, or 16 MiB."""
    length = 16 * KIB
    while length < 16 * MIB and 2048 * length < total:
        length *= 2
    return length


def holes(place, lengths):
    """Files of zeros that take no room on the disk."""
    os.mkdir(place)
    for name, length in lengths.items():
        with open(f"{place}/{name}", "wb") as file:
            file.truncate(length)


def test_piece_length_auto():
    """It goes by the sum of what is listed, without what is left out. Files of zeros are read fast, and take no room."""
    cases = [{}, {"a": 0}, {"a": 1}, {"a": 32 * MIB}, {"a": 32 * MIB + 1}, {"a": 20 * MIB, "b": 44 * MIB, "c": 1}]
    for lengths in cases:
        with folder() as place:
            holes(f"{place}/all", lengths)
            status = 1 if not lengths else 0
            done = run("create", f"{place}/all", f"{place}/out", "--name", "n", "--piece-length", "auto")
            expect(done, status, "" if lengths else "refused 13 NoFiles\n")
            if lengths:
                wanted = auto(sum(lengths.values()))
                assert f"piece length: {wanted}\n" in run("show", f"{place}/out").stdout.decode(), (lengths, wanted)
    with folder() as place:
        holes(f"{place}/all", {"a": 20 * MIB, "b.tmp": 20 * MIB})
        expect(run("create", f"{place}/all", f"{place}/out", "--name", "n", "--piece-length", "auto", "--exclude", "*.tmp"), 0)
        assert b"piece length: 16384\n" in run("show", f"{place}/out").stdout
        missing = f"{place}/none"
        expect(run("create", missing, f"{place}/new", "--name", "n", "--piece-length", "auto"), 2, b"", f"fault: cannot read {missing}\n")
        os.symlink("a", f"{place}/all/link")
        expect(run("create", f"{place}/all", f"{place}/new", "--name", "n", "--piece-length", "auto"), 2, b"",
               "fault: not a file or folder: link\n")
        assert not os.path.exists(f"{place}/new")


def test_nothing_is_clobbered():
    with folder() as place:
        example(place)
        new = ["--name", "n", "--piece-length", "32768", "--no-clobber"]
        expect(run("create", f"{place}/all", f"{place}/new", *new), 0)
        assert written(f"{place}/new") == written(f"{place}/t")
        os.mkdir(f"{place}/folder")
        os.symlink("nowhere", f"{place}/dangling")
        os.mkfifo(f"{place}/pipe")
        write(f"{place}/empty", b"")
        for there in ["new", "folder", "dangling", "pipe", "empty", "all/a"]:
            for more in ([], ["--exclude", "*.tmp"]):
                # the folder is not looked at
                done = run("create", f"{place}/none", f"{place}/{there}", *new, *more, "--reasons")
                expect(done, 2, b"", f"fault: cannot write {place}/{there}\nreason: it is there already\n")
        assert written(f"{place}/new") == written(f"{place}/t") and written(f"{place}/empty") == b""
        assert os.readlink(f"{place}/dangling") == "nowhere" and not os.path.exists(f"{place}/nowhere")


def test_reasons_of_what_is_unreadable():
    """In a pipe they stand before the line, on a stream of their own; without the option there is none."""
    with folder() as place:
        contents = example(place)
        os.remove(f"{place}/all/a")
        os.mkdir(f"{place}/all/a")
        os.remove(f"{place}/all/b c")
        report = "unreadable a\nmissing b c\ngood sub/d\nno\n"
        expect(run("check", f"{place}/t", f"{place}/all"), 1, report)
        expect(run("check", f"{place}/t", f"{place}/all", "--reasons"), 1, report, f"reason: {place}/all/a: it is no regular file\n")
        expect(run("replay", f"{place}/t", write(f"{place}/record", b""), "--seed", f"{place}/all", "--reasons"), 0, None,
               f"reason: {place}/all/a: it is no regular file\n")
        part = run("check", f"{place}/t", f"{place}/all", "--part", "1/1", "--reasons")
        expect(part, 1, None, f"reason: {place}/all/a: it is no regular file\n")
        os.rmdir(f"{place}/all/a")
        write(f"{place}/all/a", contents["a"])
        expect(run("check", f"{place}/t", f"{place}/all", "--reasons"), 1, report.replace("unreadable", "good"))
        assert on_terminal("check", f"{place}/t", f"{place}/all", "--reasons")[2] == ""


def test_summary():
    """Standard output and the status stay; good files count also where they are not printed."""
    with folder() as place:
        contents = example(place)
        for options in ([], ["--quiet"], ["--json"], ["--bad"], ["--bad", "--json", "--quiet"]):
            for damage in (None, "a", "sub/d", "b c"):
                path = f"{place}/all/{damage}"
                if damage:
                    write(path, bytes(len(contents[damage]) - (damage == "sub/d")))
                    if damage == "b c":
                        os.remove(path)
                words = ["check", f"{place}/t", f"{place}/all", *options]
                plain, done = run(*words), run(*words, "--summary")
                expect(done, plain.returncode, plain.stdout, None)
                verdicts = [damage is not None and name == damage for name in ("b c", None, "sub/d", "a")]
                counts = f"{3 - sum(verdicts)} good, {verdicts[0]:d} missing, 0 unreadable, {verdicts[2]:d} wrong length, {verdicts[3]:d} bad"
                lines = done.stderr.decode().splitlines()
                assert lines[0] == f"summary: {counts}", (options, damage, lines)
                read = re.fullmatch(r"summary: (\d+) bytes read in \d+\.\d{3} s, (\d+ B|\d+\.\d [KMG]iB)/s", lines[1])
                assert len(lines) == 2 and read, lines
                if damage is None:
                    assert int(read[1]) == sum(map(len, contents.values())), lines
                if damage:
                    write(path, contents[damage])
        done = run("check", write(f"{place}/none", b"x"), f"{place}/all", "--summary")
        expect(done, 1, "refused 2 NotBencode BadStart 0\n")


def test_sums_of_a_torrent():
    with folder() as place:
        contents = example(place)
        plain = run("show", f"{place}/t").stdout
        total = sum(map(len, contents.values()))
        pieces = sum(-(-len(content) // 32768) for content in contents.values())
        long = f"total: {total} 136.7 KiB\npieces: {pieces} of 32.0 KiB\nlayers: 2\n"
        expect(run("show", f"{place}/t", "--long"), 0, plain + long.encode())
        objects = [json.loads(line) for line in run("show", "-j", "--long", f"{place}/t").stdout.splitlines()]
        assert objects[-3:] == [{"kind": "total", "bytes": total, "size": "136.7 KiB"},
                                {"kind": "pieces", "count": pieces, "size": "32.0 KiB"}, {"kind": "layers", "count": 2}], objects
        assert objects[:-3] == [json.loads(line) for line in run("show", "-j", f"{place}/t").stdout.splitlines()]
        # two files of one content have one layer
        expect(run("show", write(f"{place}/two", torrents.torrent_of([("a", bytes(40000)), ("b", bytes(40000)), ("c", b"")], 16384)), "--long"),
               0, run("show", f"{place}/two").stdout + b"total: 80000 78.1 KiB\npieces: 6 of 16.0 KiB\nlayers: 1\n")
        expect(run("show", write(f"{place}/none", b"x"), "--long"), 1, "refused 2 NotBencode BadStart 0\n")
        with open("/dev/full", "wb") as full:
            expect(run("show", f"{place}/t", "--long", stdout=full), 2, None, "fault: cannot write -\n")


def test_extra_files():
    """What the torrent does not name comes first, and what leads to a file that it names is none of it."""
    with folder() as place:
        example(place)
        report = "good a\ngood b c\ngood sub/d\nyes\n"
        expect(run("check", f"{place}/t", f"{place}/all", "--extra"), 0, report)
        os.rename(f"{place}/all/sub", f"{place}/elsewhere")
        os.symlink(f"{place}/elsewhere", f"{place}/all/sub")
        expect(run("check", f"{place}/t", f"{place}/all", "--extra"), 0, report)
        os.makedirs(f"{place}/all/x/y")
        os.mkdir(f"{place}/all/empty")
        for name in ["x/y/z", "line\nfeed", ".hidden", "b c2", "a.txt"]:
            write(f"{place}/all/{name}", b"")
        os.symlink("nowhere", f"{place}/all/x/link")
        os.mkfifo(f"{place}/all/pipe")
        extra = [".hidden", "a.txt", "b c2", "line\\x0afeed", "pipe", "x/link", "x/y/z"]
        lines = "".join(f"extra {path}\n" for path in extra)
        expect(run("check", f"{place}/t", f"{place}/all", "--extra"), 0, lines + report)
        expect(run("check", f"{place}/t", f"{place}/all", "--extra", "--quiet"), 0, lines + "yes\n")
        objects = [json.loads(line) for line in run("check", f"{place}/t", f"{place}/all", "--extra", "--json").stdout.splitlines()]
        assert objects[:2] == [{"kind": "extra", "path": ".hidden"}, {"kind": "extra", "path": "a.txt"}], objects
        assert objects[3] == {"kind": "extra", "path": "line\nfeed"}, objects
        for nowhere in (f"{place}/none", f"{place}/t"):
            done = run("check", f"{place}/t", nowhere)
            expect(run("check", f"{place}/t", nowhere, "--extra"), 1, done.stdout)
        write(os.fsencode(f"{place}/all/") + b"\xff", b"")
        expect(run("check", f"{place}/t", f"{place}/all", "--extra"), 2, b"", "fault: name is not UTF-8\n")
        expect(run("check", f"{place}/t", f"{place}/all"), 0, report)


def test_what_a_terminal_is_told():
    """A folder too high, and a path that other programs take for standard input."""
    with folder() as place:
        example(place)
        os.mkdir(f"{place}/up")
        missing = "missing a\nmissing b c\nmissing sub/d\nno\n"
        assert on_terminal("check", f"{place}/t", f"{place}/up") == (1, missing, "")
        os.rename(f"{place}/all", f"{place}/up/n")
        hint = f"hint: try check {place}/t {place}/up/n\n"
        assert on_terminal("check", f"{place}/t", f"{place}/up") == (1, missing, hint)
        expect(run("check", f"{place}/t", f"{place}/up"), 1, missing)
        write(f"{place}/up/a", b"")
        assert on_terminal("check", f"{place}/t", f"{place}/up")[2] == ""
        assert on_terminal("check", f"{place}/t", f"{place}/up/n") == (0, "good a\ngood b c\ngood sub/d\nyes\n", "")
        status, _, shown = on_terminal("root", "-")
        assert (status, shown) == (2, "fault: cannot read -\nreason: no such file or folder; /dev/stdin is standard input\n")
