"""`btcheck create DIR OUT --name N --piece-length K [--hybrid]`, on real folders, against the model and libtorrent."""
import errno
import json
import os
import random
import shutil
import stat
import subprocess

import torrents
from create_model import contents_of, torrent_of
from opening_model import decoded
from shim import shimmed
from support import BTCHECK, TOP, expect, folder, made_by_libtorrent, python_with_libtorrent, run, write, written
from trees import BLOCK, sha256


# Files of a folder: hidden ones, empty ones, equal ones, and names around the order of paths.
FILES = {
    ".hidden": b"hidden",
    ".git/config": b"x" * 40000,
    "a.txt": random.Random(1).randbytes(16385),
    "a/b": b"abc",
    "a/c/d": random.Random(2).randbytes(16384),
    "a/c.d": b"",
    "l": random.Random(3).randbytes(300001),
    "m": b"",
    "n": random.Random(4).randbytes(70000),
    "o": random.Random(4).randbytes(70000),
    "p": random.Random(5).randbytes(40000) + bytes(9000),
    "\u00fcn\u00efcode/\u6587\u4ef6 1": b"x" * 32768,
    "z\\\n": b"z",
}


def make_folder(place, files):
    os.makedirs(place, exist_ok=True)
    for path, content in files.items():
        os.makedirs(os.path.dirname(f"{place}/{path}"), exist_ok=True)
        write(f"{place}/{path}", content)
    return place


def create(place, out, name="x", piece_length=16384, hybrid=False, **options):
    flags = ["--name", name, "--piece-length", str(piece_length)] + ["--hybrid"] * hybrid
    return run("create", place, out, *flags, **options)


def expect_created(place, out, contents, *more, **options):
    """The command prints nothing and writes the torrent of these contents."""
    expect(create(place, out, *more, **options), 0)
    name, piece_length, hybrid = (*more, *("x", 16384, False)[len(more):])
    wanted, seen = torrent_of(contents, name, piece_length, hybrid), written(out)
    at = next((at for at, pair in enumerate(zip(wanted, seen)) if pair[0] != pair[1]), min(len(wanted), len(seen)))
    assert wanted == seen, (at, wanted[at - 20:at + 60], seen[at - 20:at + 60])


def expect_untouched(done, out, status, stdout=b"", stderr=b""):
    """The run ended so, and the file was not opened."""
    expect(done, status, stdout, stderr)
    assert written(out) == b"before"


# Globs, and for each the paths of TREE that are left out by it.
TREE = ["a.tmp", "b.txt", "a/b.tmp", "a/b/c.tmp/d", "a/b/c", "b/c", "c*d", "c\\d", "e/[x]", "f/\u00fc.x", "g\nh", ".i"]
GLOBS = {
    "*.tmp": {"a.tmp", "a/b.tmp", "a/b/c.tmp/d"},
    "/*.tmp": {"a.tmp"},
    "*.tmp/": {"a/b/c.tmp/d"},
    "b": {"a/b/c.tmp/d", "a/b/c", "b/c"},
    "b/": {"a/b/c.tmp/d", "a/b/c", "b/c"},
    "/b": {"b/c"},
    "a/b": {"a/b/c.tmp/d", "a/b/c"},
    "a/*": {"a/b.tmp", "a/b/c.tmp/d", "a/b/c"},
    "a/*/": {"a/b/c.tmp/d", "a/b/c"},
    "a/*/c": {"a/b/c"},
    "a/**/d": {"a/b/c.tmp/d"},
    "**/c": {"a/b/c", "b/c"},
    "a**c": {"a/b/c"},
    "a/**": {"a/b.tmp", "a/b/c.tmp/d", "a/b/c"},
    "c\\*d": {"c*d"},
    "c?d": {"c*d", "c\\d"},
    "c[*]d": {"c*d"},
    "c[!*]d": {"c\\d"},
    "c[^a-z]d": {"c*d", "c\\d"},
    "[[]x[]]": {"e/[x]"},
    "?.x": {"f/\u00fc.x"},
    "g*h": {"g\nh"},
    ".*": {".i"},
    "*": set(TREE),
    "none": set(),
    "A*": set(),
    "e[+-9][[]x]": set(),
}


def test_globs():
    """What is left out is the listing without it, whatever else is there; OUT may be left out too."""
    with folder() as place:
        contents = {path: path.encode() for path in TREE}
        content, out = make_folder(f"{place}/content", contents), f"{place}/out"
        for glob, left_out in GLOBS.items():
            wanted = {path: text for path, text in contents.items() if path not in left_out}
            done = run("create", content, out, "--name", "x", "--piece-length", "16384", "--exclude", glob)
            if wanted:
                expect(done, 0)
                assert written(out) == torrent_of(wanted, "x", 16384, False), glob
            else:
                expect(done, 1, "refused 13 NoFiles\n")
                assert not os.path.exists(out) or written(out), glob
        new, several = ["--name", "x", "--piece-length", "16384"], ["--exclude", "*.torrent", "--exclude", "a", "--exclude=b"]
        for _ in range(2):
            expect(run("create", content, f"{content}/x.torrent", *new, *several), 0)
            kept = {path: text for path, text in contents.items() if path[0] not in "ab" or path in ("a.tmp", "b.txt")}
            assert written(f"{content}/x.torrent") == torrent_of(kept, "x", 16384, False)
        before = written(f"{content}/.i")
        expect(run("create", content, f"{content}/.i", *new, *several), 2, b"", f"fault: cannot write {content}/.i\n")
        assert written(f"{content}/.i") == before
        os.symlink("a", f"{content}/link")
        expect(run("create", content, out, *new), 2, b"", "fault: not a file or folder: link\n")
        expect(run("create", f"{place}/missing", out, *new, "--exclude", "["), 2, b"", None)


def test_one_small_file():
    """The worked torrents, byte for byte."""
    with folder() as place:
        content, out = make_folder(f"{place}/content", {"abc.txt": b"abc"}), f"{place}/out"
        expect(create(content, out, "abc"), 0)
        assert written(out) == torrents.ABC and len(torrents.ABC) == 166
        expect(create(content, out, "abc", 16384, True), 0)
        assert written(out) == (
            torrents.ABC[:61] + sha256(b"abc") + b"eee5:filesld6:lengthi3e4:pathl7:abc.txteee12:meta versioni2e4:name3:abc"
            b"12:piece lengthi16384e6:pieces20:" + bytes.fromhex("a9993e364706816aba3e25717850c26c9cd0d89d")
            + b"e12:piece layersdee") and os.path.getsize(out) == 236
        expect(create(content, out, "abc.txt", 16384, True), 0)
        assert b"e6:lengthi3e12:meta version" in written(out) and b"5:files" not in written(out)


def test_a_pad_between_two_files():
    with folder() as place:
        content = make_folder(f"{place}/content", {"a": torrents.TWO, "c": b"abc"})
        expect(create(content, f"{place}/out", "x", 32768, True), 0)
        assert written(f"{place}/out") == torrents.torrent(torrents.hybrid())
        assert b"d4:attr1:p6:lengthi16383e4:pathl4:.pad5:16383ee" in written(f"{place}/out")


def test_real_folders():
    """What is written is what an independent writer writes, opens again, and the folder is good by it."""
    with folder() as place:
        content, out = make_folder(f"{place}/content", FILES), f"{place}/out"
        os.makedirs(f"{content}/empty/folders/below")
        os.symlink("content", f"{place}/link")
        for piece_length in (16384, 32768, 65536, 262144):
            for hybrid in (False, True):
                for at in (content, f"{place}/link", f"{content}/", f"{content}/a/.."):
                    expect_created(at, out, FILES, "the name", piece_length, hybrid)
                shown = run("show", out)
                assert shown.returncode == 0 and shown.stdout.startswith(b"name: the name\n"), shown
                checked = run("check", out, content)
                assert checked.returncode == 0 and checked.stdout.endswith(b"\nyes\n"), checked
        expect_created(".", out, FILES, cwd=content)


def test_names():
    with folder() as place:
        content, out = make_folder(f"{place}/content", {"a": b"abc"}), f"{place}/out"
        for name in ["", "a", "a/b", "..", "\u6587 \n\\", "--name", "x" * 1000]:
            flag = f"--name={name}"
            expect(run("create", content, out, flag, "--piece-length", "16384"), 0)
            assert written(out) == torrent_of({"a": b"abc"}, name, 16384, False)
            assert run("show", out).returncode == 0


def random_tree(draw):
    """Contents by random paths, none of which is the prefix of another."""
    contents = {}
    while len(contents) < draw.randrange(1, 12):
        path = "/".join(draw.choice(["a", "b", ".a", "a.b", "A", "\u00e9", "ab", "0"]) for _ in range(draw.randrange(1, 4)))
        clash = any(f"{one}/".startswith(f"{other}/") for one, other in [(path, kept) for kept in contents]
                    + [(kept, path) for kept in contents])
        if not clash:
            length = draw.choice([0, 0, 1, 3, BLOCK - 1, BLOCK, BLOCK + 1, 2 * BLOCK, 3 * BLOCK + 7, 5 * BLOCK, 70000])
            contents[path] = draw.randbytes(length)
    return contents


def test_random_folders():
    draw = random.Random(15)
    for number in range(60):
        with folder() as place:
            contents = random_tree(draw)
            content = make_folder(f"{place}/content", contents)
            for hybrid in (False, True):
                piece_length = draw.choice([16384, 32768, 65536])
                expect_created(content, f"{place}/out", contents, draw.choice(["x", "a", "b"]), piece_length, hybrid)
                checked = run("check", f"{place}/out", content)
                assert checked.returncode == 0 and checked.stdout.endswith(b"yes\n"), (number, checked)
            assert contents_of(content) == contents


def test_small_files_of_hybrids():
    """Files that are hashed together: of each length around a block of SHA-1 and a piece, more than a window has, empty
    ones between, and a large one among them."""
    draw = random.Random(16)
    for piece_length in (16384, 65536):
        around = [length + more for length in (piece_length, 2 * piece_length) for more in (-64, -63, -1, 0, 1, 55, 56, 64)]
        lengths = [*range(0, 130), 0, *around, 131071, 131072, 131073, 0, 700000, 1, *draw.choices(range(40000), k=100)]
        contents = {f"{number:03}": draw.randbytes(length) for number, length in enumerate(lengths)}
        with folder() as place:
            content = make_folder(f"{place}/content", contents)
            expect_created(content, f"{place}/out", contents, "x", piece_length, True)
            checked = run("check", f"{place}/out", content)
            assert checked.returncode == 0 and checked.stdout.endswith(b"\nyes\n"), checked


def test_large_pieces_of_hybrids():
    """Pieces of which eight are not read at once: files of fewer than four whole pieces, which are hashed alone, and one of
    twelve, so that digests are known before its end."""
    draw, piece = random.Random(17), 1 << 23
    contents = {f"{length}": draw.randbytes(length) for length in (2 * piece - 1, 3 * piece, 12 * piece + 77)}
    with folder() as place:
        content = make_folder(f"{place}/content", contents)
        expect_created(content, f"{place}/out", contents, "x", piece, True)
        checked = run("check", f"{place}/out", content)
        assert checked.returncode == 0 and checked.stdout.endswith(b"\nyes\n"), checked


def test_large_pieces_of_files_that_change():
    """How long a file is, is asked before it is read, where its pieces are large: one that is shorter or longer then is
    hashed as it is, from fewer than four pieces to more or the other way."""
    draw, piece = random.Random(18), 1 << 23
    with shimmed() as (place, shim):
        for before, after in [(5 * piece, 1), (5 * piece, piece + 5), (6 * piece + 9, 3 * piece), (5, 5 * piece), (piece, 6 * piece + 1)]:
            content = draw.randbytes(min(before, after))
            folder_of = make_folder(f"{place}/content", {"a": content + bytes(before - len(content))})
            arguments = ["create", folder_of, f"{place}/out", "--name", "x", "--piece-length", str(piece), "--hybrid"]
            expect(shim.run("read", 1, *arguments, change=(f"{folder_of}/a", after))[1], 0)
            contents = {"a": content + bytes(after - len(content))}
            assert written(f"{place}/out") == torrent_of(contents, "x", piece, True), (before, after)


def test_folders_a_hundred_deep():
    with folder() as place:
        deep = {"/".join(["d"] * depth + [f"f{depth}"]): b"%d" % depth for depth in range(101)}
        content = make_folder(f"{place}/deep", deep)
        for hybrid in (False, True):
            expect_created(content, f"{place}/out", deep, "x", 16384, hybrid)
            checked = run("check", f"{place}/out", content)
            assert checked.returncode == 0 and checked.stdout.endswith(b"yes\n"), checked


def test_a_hundred_thousand_files():
    """The torrent of the independent writer, the same at a second run, and the folder is good by it."""
    with folder("/dev/shm") as place:
        many = {f"{number % 400}/{number}": b"%d" % number for number in range(100_000)}
        content = make_folder(f"{place}/many", many)
        expect_created(content, f"{place}/out", many)
        first = written(f"{place}/out")
        expect(create(content, f"{place}/again"), 0)
        assert written(f"{place}/again") == first
        checked = run("check", f"{place}/out", content)
        assert checked.returncode == 0 and checked.stdout.count(b"\ngood ") == 99_999, checked.stdout[-100:]
        assert checked.stdout.endswith(b"\nyes\n")


def test_a_torrent_that_is_too_large():
    """The version 1 list has the whole path of each file: 18,000 empty files below 3,764 bytes of path take more than
    64 MiB. The torrent stands empty."""
    with folder("/dev/shm") as place:
        content, out = f"{place}/content", f"{place}/out"
        below = "/".join([content, *["d" * 250] * 15])
        os.makedirs(below)
        for number in range(18_000):
            os.close(os.open(f"{below}/{number}", os.O_CREAT | os.O_WRONLY))
        write(out, b"before")
        expect(create(content, out, hybrid=True), 1, "refused 1 TooLarge\n")
        assert written(out) == b""
        expect(create(content, out), 0)


def test_too_many_components():
    with folder() as place:
        content, out = f"{place}/content", f"{place}/out"
        make_folder(content, {"/".join(["d"] * 123 + ["f"]): b"abc"})
        expect(create(content, out), 0)
        path = "/".join(["d"] * 124 + ["f"])
        make_folder(content, {path: b"abc"})
        write(out, b"before")
        expect_untouched(create(content, out), out, 1, f"refused 8 Path {path}\n")


def test_refused_before_the_torrent_is_opened():
    """A wrong piece length, and a root that a file of another length has; then the torrent is not touched."""
    with folder() as place:
        blocks = [bytes([number]) * BLOCK for number in (1, 2)]
        content = make_folder(f"{place}/content", {"first": b"".join(blocks), "second": sha256(blocks[0]) + sha256(blocks[1])})
        out = write(f"{place}/out", b"before")
        for piece_length in (0, 1, 8192, 16383, 16385, 24576, 1 << 31, 2 ** 64 - 1):
            for at in (content, f"{place}/nothing"):
                expect_untouched(create(at, out, "x", piece_length), out, 1, "refused 6 PieceLength\n")
        for piece_length in (16384, 1 << 20):
            expect_untouched(create(content, out, "x", piece_length), out, 1, "refused 12 RootReused second\n")
        os.mkdir(f"{content}/a\nb")
        os.rename(f"{content}/second", f"{content}/a\nb/c")
        expect_untouched(create(content, out), out, 1, "refused 12 RootReused first\n")
        os.mkdir(f"{content}/b\\\n\x7fé")
        os.rename(f"{content}/first", f"{content}/b\\\n\x7fé/first")
        expect_untouched(create(content, out), out, 1, "refused 12 RootReused b\\x5c\\x0a\\x7fé/first\n")
        for words in (["--piece-length", "16384"], ["--name", "x"], ["--name", "x", "--piece-length", "K"],
                      ["--name", "x", "--piece-length", "-1"], ["--name", "x", "--piece-length", str(2 ** 64)]):
            done = run("create", content, out, *words)
            expect_untouched(done, out, 2, b"", None)
            assert done.stderr.startswith(b"error: "), done
        with open("/dev/full", "wb") as full:
            expect_untouched(create(content, out, stdout=full), out, 2, None, "fault: cannot write -\n")


def test_no_files():
    """A folder without files: the torrent stands empty, also if there was one before."""
    with folder() as place:
        content = f"{place}/content"
        os.makedirs(f"{content}/empty/folders")
        for before in (None, b"before"):
            out = f"{place}/out"
            if before:
                write(out, before)
            expect(create(content, out), 1, "refused 13 NoFiles\n")
            assert written(out) == b""
            with open("/dev/full", "wb") as full:
                expect(create(content, out, stdout=full), 2, None, "fault: cannot write -\n")
        write(f"{content}/empty/file", b"")
        for hybrid in (False, True):
            expect_created(content, out, {"empty/file": b""}, "x", 16384, hybrid)


def test_a_torrent_of_nothing_leaves_the_old_one():
    """If everything is left out, OUT is not opened; nor is it made."""
    with folder() as place:
        content, out = make_folder(f"{place}/content", {"a": b"abc", "b/c": b""}), write(f"{place}/out", b"before")
        for more in (["--piece-length", "16384"], ["--piece-length", "16384", "--hybrid"], ["--piece-length", "auto"]):
            words = ["--name", "x", *more, "--exclude", "*"]
            expect_untouched(run("create", content, out, *words), out, 1, "refused 13 NoFiles\n")
            expect(run("create", content, f"{place}/new", *words, "--no-clobber"), 1, "refused 13 NoFiles\n")
            with open("/dev/full", "wb") as full:
                expect_untouched(run("create", content, out, *words, stdout=full), out, 2, None, "fault: cannot write -\n")
        assert not os.path.exists(f"{place}/new")


def make_socket(path):
    os.mknod(path, stat.S_IFSOCK | 0o600)


ODD_FILES = [
    lambda path: os.symlink("b", path),
    lambda path: os.symlink("nothing", path),
    lambda path: os.symlink(".", path),
    lambda path: os.symlink(os.path.basename(path), path),
    lambda path: os.symlink("/dev/zero", path),
    os.mkfifo,
    make_socket,
]


def test_what_is_neither_file_nor_folder():
    with folder() as place:
        content, out = make_folder(f"{place}/content", {"b": b"abc", "d/e": b"abc"}), write(f"{place}/out", b"before")
        for odd in ODD_FILES:
            for name in ("a", "d/\x01"):
                odd(f"{content}/{name}")
                printed = name.replace("\x01", "\\x01")
                expect_untouched(create(content, out, timeout=10), out, 2, b"", f"fault: not a file or folder: {printed}\n")
                os.remove(f"{content}/{name}")
        expect(create(content, out), 0)


def test_names_that_are_not_utf_8():
    with folder() as place:
        content, out = make_folder(f"{place}/content", {"b": b"abc", "d/e": b"abc"}), write(f"{place}/out", b"before")
        for at, is_folder in [(b"a\xff", False), (b"\xc3", True), (b"d/\xed\xa0\x80", False)]:
            path = os.fsencode(content) + b"/" + at
            os.mkdir(path) if is_folder else write(path, b"x")
            expect_untouched(create(content, out), out, 2, b"", "fault: name is not UTF-8\n")
            os.rmdir(path) if is_folder else os.remove(path)
        expect(create(content, out), 0)


def test_folders_that_cannot_be_listed():
    with folder() as place:
        content, out = make_folder(f"{place}/content", {"b": b"abc"}), write(f"{place}/out", b"before")
        for at in (f"{place}/nothing", f"{content}/b", "", "/dev/null"):
            expect_untouched(create(at, out), out, 2, b"", f"fault: cannot read {at}\n")


def test_listings_that_fail():
    """A folder below that cannot be opened to be listed, or a listing that fails in its middle."""
    with shimmed() as (place, shim):
        contents = {f"file {number}": b"x" for number in range(200)} | {"b/c": b"abc", "b/d/e": b"abc", "f/g": b""}
        content, out = make_folder(f"{place}/content", contents), f"{place}/out"
        arguments = ["create", content, out, "--name", "x", "--piece-length", "16384"]
        for kind, error, least in [("openat", errno.EACCES, 4), ("openat", errno.EMFILE, 4), ("openat", errno.ENOENT, 4),
                                   ("list", errno.EIO, 9), ("list", errno.EINTR, 9)]:
            calls, done = shim.run(kind, 0, *arguments)
            expect(done, 0)
            assert calls >= least, (kind, calls)
            for at in range(1, calls + 1):
                write(out, b"before")
                _, done = shim.run(kind, at, *arguments, error=error)
                expect_untouched(done, out, 2, b"", f"fault: cannot read {content}\n")
        # a few names at a time
        calls, done = shim.run("list", 0, *arguments, one_byte=True)
        expect(done, 0)
        assert calls > 20 and written(out) == torrent_of(contents, "x", 16384, False), calls


def test_files_without_permission():
    nobody = {"preexec_fn": lambda: os.setuid(65534)} if os.geteuid() == 0 else {}
    with folder() as place:
        os.chmod(place, 0o777)
        program = f"{place}/btcheck"
        shutil.copy(BTCHECK, program)
        content, out = make_folder(f"{place}/content", {"b": b"abc", "d/e": b"abc"}), write(f"{place}/out", b"before")
        os.chmod(out, 0o666)
        os.chmod(f"{content}/b", 0)
        expect_untouched(create(content, out, executable=program, **nobody), out, 2, b"", "fault: cannot read b\n")
        os.chmod(f"{content}/b", 0o644)
        os.chmod(f"{content}/d", 0)
        expect_untouched(create(content, out, executable=program, **nobody), out, 2, b"", f"fault: cannot read {content}\n")
        os.chmod(f"{content}/d", 0o755)
        os.chmod(out, 0o444)
        expect_untouched(create(content, out, executable=program, **nobody), out, 2, b"", f"fault: cannot write {out}\n")
        os.chmod(out, 0o666)
        expect(create(content, out, executable=program, **nobody), 0)


def test_the_torrent_in_the_folder():
    """A torrent below the folder that is not there yet is made; one that was listed stays as it is."""
    with folder() as place:
        content = make_folder(f"{place}/content", {"b": b"abc", "d/e": b"def"})
        out = f"{content}/d/out"
        expect_created(content, out, {"b": b"abc", "d/e": b"def"})
        expect_unwritten(content, out)


def expect_unwritten(content, out):
    """OUT is a file of the folder, which stays as it is."""
    before = written(out)
    expect(create(content, out), 2, b"", f"fault: cannot write {out}\n")
    assert written(out) == before, out


def test_no_file_of_the_folder_is_overwritten():
    """By whatever path: its own, a hard link, symlinks, or standard output that goes there."""
    with folder() as place:
        content = make_folder(f"{place}/content", {"b": b"abc", "d/e": b"def"})
        os.symlink(content, f"{place}/same")
        os.symlink("content/b", f"{place}/to-b")
        os.symlink("to-b", f"{place}/to-to-b")
        os.link(f"{content}/d/e", f"{place}/link")
        for out in [f"{content}/b", f"{content}/d/e", f"{content}/d/../b", f"{place}/same/d/e", f"{place}/to-b",
                    f"{place}/to-to-b", f"{place}/link"]:
            expect_unwritten(content, out)
            expect_unwritten(f"{place}/same", out)
        with open(f"{content}/b", "ab") as there:
            expect(create(content, "/dev/stdout", stdout=there), 2, None, "fault: cannot write /dev/stdout\n")
        assert (written(f"{content}/b"), written(f"{content}/d/e")) == (b"abc", b"def")
        # a symlink beside the folder to a file that is no part of it, and a name that leads nowhere yet
        other = write(f"{place}/other", b"before")
        os.symlink("other", f"{place}/to-other")
        os.symlink("new", f"{place}/to-new")
        for out, real in [(f"{place}/to-other", other), (f"{place}/to-new", f"{place}/new")]:
            expect_created(content, out, {"b": b"abc", "d/e": b"def"})
            assert written(real) == written(out) and os.path.islink(out)
        # a file that is refused, or cannot be read, is reported before OUT is looked at
        expect(create(content, f"{content}/b", piece_length=1), 1, b"refused 6 PieceLength\n")
        os.symlink("nothing", f"{content}/odd")
        expect(create(content, f"{content}/b"), 2, b"", "fault: not a file or folder: odd\n")
        assert written(f"{content}/b") == b"abc"


def test_torrents_that_cannot_be_written():
    with folder() as place:
        content = make_folder(f"{place}/content", FILES)
        for out in (f"{place}/nothing/out", place, "", "/dev/full"):
            expect(create(content, out), 2, b"", f"fault: cannot write {out}\n")
        done = create(content, "/dev/stdout", "x", 16384, True)
        expect(done, 0, torrent_of(FILES, "x", 16384, True))
        read_end, write_end = os.pipe()
        os.close(read_end)
        expect(create(content, "/dev/stdout", stdout=write_end), 2, None, "fault: cannot write /dev/stdout\n")
        os.close(write_end)


def test_files_that_vanish():
    """A file that is gone when it is opened, one that cannot be read on, and one that shrinks or grows meanwhile."""
    with shimmed() as (place, shim):
        contents = {"a": torrents.TWO, "b/c": b"abc"}
        content, out = make_folder(f"{place}/content", contents), write(f"{place}/out", b"before")
        arguments = ["create", content, out, "--name", "x", "--piece-length", "16384"]
        printed = set()
        for kind, error in [("stat", errno.ENOENT), ("open", errno.ENOENT), ("read", errno.EIO), ("open", errno.EMFILE)]:
            calls, done = shim.run(kind, 0, *arguments)
            expect(done, 0)
            for at in range(1, calls + 1):
                write(out, b"before")
                _, done = shim.run(kind, at, *arguments, error=error)
                if shim.failed and done.returncode == 2:
                    printed.add(done.stderr.decode())
                    assert not done.stdout and written(out) == b"before", (kind, at, done)
        names = {"a", "b/c", content, out}
        assert printed == {f"fault: cannot {'write' if name == out else 'read'} {name}\n" for name in names}, printed
        for length in (0, 1, 16384, 16386, 100000):
            for at in range(1, 5):
                write(f"{content}/a", torrents.TWO)
                _, done = shim.run("read", at, *arguments, change=(f"{content}/a", length))
                expect(done, 0)
                size = decoded(written(out))[0][b"info"][b"file tree"][b"a"][b""][b"length"]
                # it changed before the first block was read, after that one, or after the last byte
                assert size in (length, max(length, 16384), len(torrents.TWO)), (length, at, size)
                assert run("show", out).returncode == 0


def test_libtorrent_takes_the_torrents():
    """A session of libtorrent finds the folder complete; roots, layers and pieces are those that it makes itself."""
    with folder() as place:
        orders, pairs, ours = [], [], []
        for number, contents in enumerate([FILES, {"one": torrents.TWO}, {"a": torrents.TWO, "c": b"abc"}]):
            contents = {path: content for path, content in contents.items() if "\\" not in path}
            content = make_folder(f"{place}/{number}/content", contents)
            for piece_length in (16384, 65536):
                for hybrid in (False, True):
                    out = f"{place}/{number}-{piece_length}-{hybrid}"
                    # libtorrent looks for a single file beside the folder's name, not in it
                    name, below = ("content", f"{place}/{number}") if len(contents) > 1 else ("one", content)
                    expect(create(content, out, name, piece_length, hybrid), 0)
                    pairs.append((out, below))
                    ours.append(out)
                    orders.append({"content": content, "torrent": f"{out}.theirs", "piece_length": piece_length,
                                   "hybrid": hybrid})
        found = subprocess.run([python_with_libtorrent(), f"{TOP}/tests/seeder.py"], input=json.dumps(pairs), text=True,
                               stdout=subprocess.PIPE, check=True)
        assert json.loads(found.stdout) == [True] * len(pairs), list(zip(ours, json.loads(found.stdout)))
        for out, printed in zip(ours, made_by_libtorrent(orders)):
            mine, theirs = (decoded(written(path))[0] for path in (out, f"{out}.theirs"))
            assert mine[b"piece layers"] == theirs[b"piece layers"], out
            # libtorrent may pad the last file too, so the last digest may differ
            one, other = (value[b"info"].get(b"pieces", b"") for value in (mine, theirs))
            assert len(one) == len(other) and one[:-20] == other[:-20], out
            assert mine[b"info"][b"piece length"] == printed["piece_length"]
            checked = run("check", f"{out}.theirs", f"{os.path.dirname(out)}/{os.path.basename(out)[0]}/content")
            assert checked.returncode == 0, checked
