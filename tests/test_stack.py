"""The stack that the program takes: each command does on little stack what it does on as much as is usual."""
import hashlib
import os

import messages
from support import folder, run, write, written
from torrents import FIVE, TWO, entry, file, hybrid, info, torrent, torrent_of
from trees import Tree, blocks_of

# In KiB: less than the 128 of SECURITY, since a command's arguments and its environment stand on its stack too. The kernel
# begins it up to 8 KiB lower, by chance: `convert`, which needs the most, ended by a signal in 2 of 100 runs on 120, and in
# none of 2,000 on 124.
STACK = 124
DEEP = 122


def outcome(done):
    return done.returncode, done.stdout, done.stderr


def expect_same(*arguments, out=None, statuses=(0,)):
    """The command ends alike on little stack, and leaves the same in the file `out`, if there is one."""
    ample = run(*arguments)
    assert ample.returncode in statuses, (arguments, outcome(ample))
    made = written(out) if out else None
    done = run(*arguments, stack=STACK)
    assert outcome(done) == outcome(ample), (arguments, outcome(done))
    assert not out or written(out) == made, arguments
    return ample


def deep_torrent():
    """A hybrid of one file below as many folders as a torrent can have, and where the file stands."""
    tree, parts = file(b"abc"), ["d"] * DEEP
    for part in parts:
        tree = {part: tree}
    return torrent(info(tree, files=[entry(3, *parts)], pieces=hashlib.sha1(b"abc").digest())), "/".join(parts)


def test_files_and_arguments():
    with folder() as place:
        expect_same("root", write(f"{place}/content", bytes(200_000)))
        expect_same("root", f"{place}/nothing", statuses=(2,))
        expect_same("root", f"{place}/content", "--json")
        for arguments in (["--help"], ["help", "check"], ["--version"]):
            expect_same(*arguments)
        for arguments in ([], ["nothing"], ["create"]):
            expect_same(*arguments, statuses=(2,))


def test_torrents_and_folders():
    lists = b"d1:a" + 127 * b"l" + 127 * b"e" + b"e"
    deep, path = deep_torrent()
    with folder() as place:
        os.makedirs(os.path.dirname(f"{place}/all/{path}"))
        write(f"{place}/all/{path}", b"abc")
        known = write(f"{place}/deep", deep)
        for command in ([], ["--json"]):
            expect_same("show", write(f"{place}/lists", lists), *command, statuses=(1,))
            expect_same("show", known, *command)
            expect_same("check", known, f"{place}/all", *command)
            expect_same("check", known, f"{place}/nothing", "--bad", *command, statuses=(1,))
        for kind in ([], ["--hybrid"]):
            expect_same("create", f"{place}/all", f"{place}/out", "--name", "x", "--piece-length", "16384", *kind,
                        out=f"{place}/out")
        expect_same("create", f"{place}/all", f"{place}/out", "--name", "x", "--piece-length", "16384", "--exclude", "*.x",
                    out=f"{place}/out")


def test_checks_of_small_files():
    """They are judged together, in more than one batch; some are damaged."""
    with folder() as place:
        os.mkdir(f"{place}/all")
        for number in range(150):
            write(f"{place}/all/{number:03}", bytes([number]) * (number * 997 % 70_000 + 1))
        for kind in ([], ["--hybrid"]):
            path = f"{place}/torrent{len(kind)}"
            expect_same("create", f"{place}/all", path, "--name", "x", "--piece-length", "65536", *kind, out=path)
        write(f"{place}/all/077", b"x" + written(f"{place}/all/077")[1:])
        for path in (f"{place}/torrent0", f"{place}/torrent1"):
            for more in ([], ["--json"], ["--quiet"], ["--bad"], ["--part", "1/2"]):
                expect_same("check", path, f"{place}/all", *more, statuses=(0, 1))


def test_checks_of_hybrids():
    with folder() as place:
        path = write(f"{place}/torrent", torrent(hybrid()))
        os.mkdir(f"{place}/all")
        write(f"{place}/all/a", TWO[:-1] + b"x")
        write(f"{place}/all/c", b"abc")
        for more in ([], ["--bad"], ["--quiet"], ["--part", "1/2"], ["--part", "2/2"], ["--part", "1/2", "--bad"]):
            expect_same("check", path, f"{place}/all", *more, statuses=(0, 1))
        reports = [write(f"{place}/{part}", run("check", path, f"{place}/all", "--part", f"{part}/2").stdout) for part in (1, 2)]
        expect_same("join", path, *reports, statuses=(1,))


def test_records():
    tree, blocks = Tree.of(FIVE), blocks_of(FIVE)
    ask = (tree.root, 0, 0, 4, 2)
    frames = [messages.hashes(*ask, given=tree.hashes(0, 0, 4, 1)), messages.piece(0, 0, blocks[0] + blocks[1]),
              messages.request(tree.root, 0, 0, 8, 0), messages.piece(0, 0, blocks[1])]
    with folder() as place:
        path = write(f"{place}/torrent", torrent_of([("five", FIVE)], 32768))
        os.mkdir(f"{place}/all")
        write(f"{place}/all/five", FIVE)
        record, out = write(f"{place}/record", b"".join(frames)), f"{place}/out"
        for more in ([], ["--padded"], ["--json"], ["--info-only"]):
            expect_same("replay", path, record, *more, statuses=(0, 1))
        expect_same("replay", path, record, "--seed", f"{place}/all", "--answers", out, out=out, statuses=(0, 1))
        expect_same("convert", record, out, out=out)
