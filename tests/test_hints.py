"""What standard error tells of a run besides its faults: hints, the lengths of files, and what a replay verified."""
import os
import random

import torrents
from messages import hashes, piece
from support import escaped, expect, folder, run, write
from terminal import on_terminal
from test_seeds import World
from torrents import torrent_of
from trees import BLOCK, Tree, blocks_of, layer, root_of


def told(words, hint, status=1, reasons=""):
    """Runs a command plainly, with --reasons and on a terminal: what it prints stays, and only the other two tell the hint."""
    plain = run(*words)
    assert plain.returncode == status and b"hint" not in plain.stderr, (words, plain)
    line = f"hint: {hint}\n" if hint else ""
    fault = plain.stderr.decode()
    expect(run(*words, "--reasons"), status, plain.stdout, f"{fault}{reasons}{line}")
    shown = on_terminal(*words, term="dumb")
    assert shown == (status, plain.stdout.decode(), fault + line), (words, shown)


class Two:
    """A torrent of two files, one of them in a folder, and its folder."""

    def __init__(self, place):
        self.place, self.torrent, self.folder = place, f"{place}/t", f"{place}/n"
        self.contents = {"a": random.Random(1).randbytes(40_000), "sub/b": random.Random(2).randbytes(100_000)}
        os.makedirs(f"{self.folder}/sub")
        for path, content in self.contents.items():
            write(f"{self.folder}/{path}", content)
        expect(run("create", self.folder, self.torrent, "--name", "n", "--piece-length", "16K"), 0)

    def checks(self, dir_):
        """The ways to check a folder."""
        plain = ["check", self.torrent, dir_]
        return [[*plain, *more] for more in ([], ["--quiet"], ["--json"], ["--bad"], ["--part", "1/1"], ["--part", "2/2", "--json"],
                                             ["--part", "1/2", "--bad"], ["--extra"])]


def test_a_folder_that_is_not_there():
    with folder() as place:
        two = Two(place)
        for dir_ in (f"{place}/none", f"{place}/line\nfeed"):
            for words in two.checks(dir_):
                told(words, f"there is no folder {escaped(dir_)}")
        os.mkdir(f"{place}/up")
        for words in two.checks(f"{place}/n") + two.checks(f"{place}/up"):
            done = run(*words, "--reasons")
            assert b"hint" not in done.stderr, (words, done)


def test_a_file_in_place_of_a_folder():
    with folder() as place:
        two = Two(place)
        for dir_, hint in [(two.torrent, f"it is no folder: {two.torrent}"), (f"{two.torrent}/x", f"there is no folder {two.torrent}/x"),
                           (f"{two.folder}/a", f"try check {two.torrent} {two.folder}")]:
            why = "".join(f"reason: {dir_}/{path}: a part of the path is no folder\n" for path in ("a", "sub/b"))
            told(["check", two.torrent, dir_], hint, reasons=why)
        single = f"{place}/single"
        os.mkdir(f"{place}/e")
        write(f"{place}/e/movie", b"abc")
        expect(run("create", f"{place}/e", single, "--name", "movie", "--piece-length", "16K"), 0)
        done = run("check", single, f"{place}/e/movie", "--reasons", "--part", "1/1")
        assert done.stderr.decode().endswith(f"\nhint: try check {single} {place}/e\n"), done
        done = run("check", single, "movie", "--reasons", cwd=f"{place}/e")
        assert done.stderr.decode().endswith(f"\nhint: try check {single} .\n"), done


def test_a_folder_above_or_below():
    with folder() as place:
        two = Two(place)
        for words in two.checks(place):
            told(words, f"try check {two.torrent} {place}/n")
        for words in two.checks(f"{two.folder}/sub"):
            told(words, f"try check {two.torrent} {two.folder}/sub/..")
        # a file of another length is none of the torrent's
        for path in two.contents:
            write(f"{two.folder}/{path}", b"")
        told(["check", two.torrent, f"{two.folder}/sub"], None)
        # one that is found is enough to hint at nothing
        write(f"{place}/a", b"")
        assert b"hint" not in run("check", two.torrent, place, "--reasons").stderr


def test_a_folder_of_seeds():
    with folder() as place:
        two = Two(place)
        record = write(f"{place}/record", b"")
        for dir_, hint in [(two.folder, None), (f"{place}/none", f"there is no folder {place}/none"), (place, f"try --seed {place}/n"),
                           (f"{two.folder}/sub", f"try --seed {two.folder}/sub/..")]:
            for more in ([], ["--json"], ["--pieces"]):
                told(["replay", two.torrent, record, "--seed", dir_, *more], hint, status=0)


def test_a_torrent_of_version_1():
    with folder() as place:
        old = {"name": "x", "piece length": 16384, "length": 3, "pieces": bytes(20)}
        record = write(f"{place}/record", b"")
        cases = {"old": old, "none": {**old, "pieces": 7}, "new": {"name": "x", "piece length": 16384}}
        for name, info in cases.items():
            torrent = write(f"{place}/{name}", torrents.bencoded({"info": info}))
            hint = "of version 1 alone: only version 2 and hybrids are read" if name == "old" else None
            for words in (["show", torrent], ["show", torrent, "--json"], ["check", torrent, place], ["check", torrent, place, "--part", "1/2"],
                          ["join", torrent, record], ["replay", torrent, record, "--summary"]):
                told(words, hint)
            expect(run("show", torrent), 1, "refused 3 Missing meta version\n")
        other = write(f"{place}/other", torrents.bencoded({"info": {**old, "meta version": 1}}))
        told(["show", other], None)


def test_reports_that_cannot_be_joined():
    with folder() as place:
        two = Two(place)
        parts = {}
        for kind in ("", "--bad", "--json"):
            for number in (1, 2):
                text = run("check", two.torrent, two.folder, "--part", f"{number}/2", *kind.split()).stdout
                parts[kind, number] = write(f"{place}/{number}{kind}", text)
        cut = write(f"{place}/cut", b"part 1/2")
        mixed, objects = "some reports are of `--bad`, and some are not", "`join` reads what `check --part` prints without `--json`"
        for one, other, hint in [(parts["", 1], parts["--bad", 2], mixed), (parts["--bad", 1], parts["", 2], mixed),
                                 (parts["", 1], parts["--json", 2], objects), (parts["--json", 1], parts["--json", 2], objects),
                                 (parts["", 1], cut, None), (parts["", 1], two.torrent, None)]:
            told(["join", two.torrent, one, other], hint, status=2)
        told(["join", two.torrent, parts["", 1], parts["", 2]], None, status=0)


def test_lengths():
    """With reasons both lengths stand on standard error, in the order of the lines; these stay."""
    with folder() as place:
        two = Two(place)
        for sizes in ((39_999, 100_000), (40_001, 5), (0, 100_001)):
            lines = ""
            for (path, content), size in zip(two.contents.items(), sizes):
                write(f"{two.folder}/{path}", bytes(size))
                if size != len(content):
                    lines += f"reason: {two.folder}/{path}: it has {size} bytes, not {len(content)}\n"
            for words in two.checks(two.folder):
                if "2/2" in words or "1/2" in words:
                    continue
                plain = run(*words)
                assert plain.stdout.count(b"wrong length") == lines.count("reason"), (words, plain)
                expect(plain, 1, None, b"")
                expect(run(*words, "--reasons"), 1, plain.stdout, lines)
                assert on_terminal(*words, term="dumb") == (1, plain.stdout.decode(), ""), words
        # a part tells of its own files
        parts = [run("check", two.torrent, two.folder, "--part", f"{number}/9", "--reasons").stderr.decode() for number in range(1, 10)]
        assert set("".join(parts).splitlines(True)) <= set(lines.splitlines(True)) and any(parts), parts


# ---- what a replay verified

A, C = bytes(range(256)) * 640 + bytes(100), bytes(range(255, -1, -1)) * 384
FILES = [("a", A), ("b", A), ("c", C), ("empty", b"")]
FIRST = [0, 3, 6]  # the first piece of each file, of four blocks


def sent(file, block, turned=False):
    content = blocks_of(FILES[file][1])[block]
    if turned:
        content = bytes([content[0] ^ 1]) + content[1:]
    return piece(FIRST[file] + block // 4, block % 4 * BLOCK, content)


def leaves(file, first):
    tree = Tree.of(FILES[file][1])
    return hashes(tree.root, 0, first, 4, 0, given=tree.hashes(0, first, 4, 0))


def summary(verified, whole, refused=0, false=0, dropped=0, held=0):
    """Of the 28 blocks and 8 pieces of the files above."""
    return (f"summary: {verified} of 28 blocks verified, {whole} of 8 pieces whole\n"
            f"summary: {refused} refused, {false} false, {dropped} dropped, {held} held\n")


# The messages, the options, and the summary. `a` and `b` have one tree: a block of one counts for both.
SUMMARIES = [
    ([], [], summary(0, 0)),
    ([sent(0, 0)], [], summary(0, 0, refused=1)),
    ([leaves(0, 0), sent(0, 0), sent(0, 0), sent(1, 1), sent(0, 2, True)], [], summary(4, 0, refused=1)),
    ([leaves(2, 0)] + [sent(2, block) for block in range(4)], [], summary(4, 1)),
    ([sent(2, 4), sent(2, 5)], ["--pieces"], summary(2, 1)),
    ([sent(0, 10), sent(0, 8), sent(0, 9), sent(0, 0)], ["--pieces"], summary(6, 2, held=1)),
    ([sent(2, block, block == 1) for block in range(4)] + [sent(2, 0)], ["--pieces"], summary(0, 0, false=4, held=1)),
    ([sent(file, block) for file in (0, 2) for block in range(len(blocks_of(FILES[file][1])))], ["--pieces"], summary(28, 8)),
]


def test_summary_of_a_replay():
    """What is printed stays, with the status; the summary comes last, also of a record that ends too soon."""
    with folder() as place:
        torrent = write(f"{place}/t", torrent_of(FILES, 4 * BLOCK))
        for given, options, wanted in SUMMARIES:
            for record, end in [(b"".join(given), b""), (b"".join(given) + b"\0", b"fault Truncated\n")]:
                words = ["replay", torrent, write(f"{place}/r", record), *options]
                for more in ([], ["--json"], ["--answers", f"{place}/out"]):
                    plain = run(*words, *more)
                    expect(plain, plain.returncode, None, b"")
                    assert more == ["--json"] or plain.stdout.endswith(end)
                    expect(run(*words, *more, "--summary"), plain.returncode, plain.stdout, wanted)
                assert on_terminal(*words, "--summary", term="dumb")[2] == wanted
        # a fault has none
        expect(run("replay", torrent, f"{place}/none", "--summary"), 2, b"", f"fault: cannot read {place}/none\n")


def test_what_is_seeded_is_not_verified():
    with folder() as place:
        world = World(place, [("c", C), ("d", C[:100])], 4 * BLOCK)
        done = world.replay(sent(2, 0)[:5] + bytes(8) + blocks_of(C)[0], "--seed", world.folder, "--summary")
        expect(done, 0, "seeded c\nseeded d\n1 verified 0 0\nend\n",
               "summary: 1 of 7 blocks verified, 0 of 3 pieces whole\nsummary: 0 refused, 0 false, 0 dropped, 0 held\n")


def test_many_files_of_one_content():
    """Their tree is looked at once."""
    with folder() as place:
        content = bytes(64 * BLOCK)
        tree = dict.fromkeys((f"{number:05}" for number in range(20_000)), torrents.file(content))
        torrent = write(f"{place}/t", torrents.torrent(torrents.info(tree), {root_of(content): layer(content, 1)}))
        done = run("replay", torrent, write(f"{place}/r", b""), "--summary", timeout=60)
        expect(done, 0, "end\n", "summary: 0 of 1280000 blocks verified, 0 of 1280000 pieces whole\n"
               "summary: 0 refused, 0 false, 0 dropped, 0 held\n")
