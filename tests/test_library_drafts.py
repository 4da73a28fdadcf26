"""Torrents that the C library makes: what a draft writes beside the model and beside `btcheck create`, in the order in which
files come and by parts of any size, and each refusal by its number."""
import os
import random

from create_model import torrent_of
from support import expect, folder, write, written
from test_create import FILES, GLOBS, TREE, create, make_folder, random_tree
from test_library_c import CONTENT, SMALL, expected, module, outcome
from test_python_module import raised
from trees import BLOCK


def pushed(file, content, parts):
    at = 0
    while at < len(content):
        part = next(parts)
        file.push(content[at:at + part])
        at += part


def drafted(contents, name, piece_length, hybrid, draw):
    """The text of a draft whose files come in any order, in parts of any size."""
    parts = iter(lambda: draw.choice([1, 100, BLOCK - 1, BLOCK, BLOCK + 1, piece_length, 3 * piece_length + 7, 1 << 20]), None)
    paths = sorted(contents)
    draw.shuffle(paths)
    with module().Draft(name, piece_length, hybrid) as draft, module().DraftFile(draft) as file:
        for path in paths:
            pushed(file, contents[path], parts)
            draft.add(file, path)
        return draft.finish()


def test_random_drafts():
    """A draft is the torrent of the model, whatever the order of its files; and so it is of the folder that has them, as
    `create` reads it, in Python and by the program."""
    draw = random.Random(58)
    for number in range(60):
        contents = FILES if number == 0 else random_tree(draw)
        with folder() as place:
            content = make_folder(f"{place}/content", contents)
            for hybrid in (False, True):
                name, piece_length = draw.choice(["x", "a", "\u6587", ""]), draw.choice([16384, 32768, 65536])
                wanted = torrent_of(contents, name, piece_length, hybrid)
                assert drafted(contents, name, piece_length, hybrid, draw) == wanted, (number, hybrid)
                assert module().create(content, name, piece_length, hybrid) == wanted, (number, hybrid)
                expect(create(content, f"{place}/out", name, piece_length, hybrid), 0)
                assert written(f"{place}/out") == wanted


def test_long_pieces():
    """Pieces of a hybrid of which eight are not hashed at once: of files whose length is not known before their end."""
    draw, piece = random.Random(59), 1 << 23
    contents = {str(length): draw.randbytes(length) for length in (2 * piece, 3 * piece - 1, 12 * piece + 77)}
    assert drafted(contents, "x", piece, True, draw) == torrent_of(contents, "x", piece, True)


def test_one_file_under_the_name():
    """A single file with the torrent's name is `length` in a hybrid, and no list."""
    made = drafted({"x": CONTENT}, "x", BLOCK, True, random.Random(1))
    assert made == torrent_of({"x": CONTENT}, "x", BLOCK, True) and b"6:lengthi82020e12:meta version" in made


def test_refusals_of_a_draft():
    """Each by its number; draft and file are as before, and go on."""
    kinds = module()
    expected([
        ("no piece length", outcome(kinds.Draft, "x", 16383), (106, None)),
        ("too long pieces", outcome(kinds.Draft, "x", 1 << 31), (106, None)),
        ("no text", outcome(kinds.Draft, b"\xff", 1), (104, None)),
    ])
    with kinds.Draft("x", BLOCK) as draft, kinds.DraftFile(draft) as file, kinds.Draft("y", BLOCK, True) as other:
        file.push(CONTENT)
        bad = ["", "/", "a/", "/a", "a//b", ".", "..", "a/./b", "a/../b", "a\0b", "/".join("a" * 125), b"\xff", b"a/\xff/b", b"\xc3"]
        for path in bad:
            assert outcome(draft.add, file, path) == (108, None), path
        expected([
            ("of a hybrid", outcome(other.add, file, "a"), (1, None)),
            ("nothing in it", outcome(draft.finish), (113, None)),
            ("it has all its bytes", outcome(file.push, b"a"), (3, None)),
            ("no bytes more", outcome(file.push, b""), (0, None)),
            ("added", outcome(draft.add, file, "d/a"), (0, None)),
            ("there already, and empty", outcome(draft.add, file, "d/a"), (122, None)),
            ("below a file", outcome(draft.add, file, "d/a/b"), (122, None)),
            ("above a file", outcome(draft.add, file, "d"), (122, None)),
            ("the deepest", outcome(draft.add, file, "/".join("a" * 124)), (0, None)),
        ])
        wanted = {"d/a": CONTENT, "/".join("a" * 124): b""}
        assert draft.finish() == torrent_of(wanted, "x", BLOCK, False)
        file.push(SMALL)
        draft.add(file, "e")
        assert draft.finish() == draft.finish() == torrent_of({**wanted, "e": SMALL}, "x", BLOCK, False)
    assert outcome(draft.finish)[0] == outcome(file.push, b"")[0] == 1


def test_types_of_drafts():
    kinds = module()
    with kinds.Draft("x", BLOCK) as draft, kinds.DraftFile(draft) as file:
        for call, *given in [(kinds.Draft, 5, BLOCK), (kinds.Draft, "x", "16384"), (kinds.Draft, "x", BLOCK, 1), (kinds.DraftFile, file),
                             (draft.add, draft, "a"), (draft.add, file, 5), (file.push, "a"), (file.push, 5)]:
            assert raised(call, *given) is TypeError, (call, given)
        assert issubclass(raised(kinds.Draft, "x", -1), ValueError)


def test_a_file_for_several_drafts():
    """A file goes to any draft of its piece length and kind, also once the one is gone that it was made for."""
    kinds = module()
    with kinds.Draft("x", BLOCK, True) as first:
        file = kinds.DraftFile(first)
    with kinds.Draft("y", BLOCK, True) as second, kinds.Draft("z", 2 * BLOCK, True) as third:
        file.push(CONTENT)
        assert outcome(third.add, file, "a") == (1, None)
        second.add(file, "a")
        assert second.finish() == torrent_of({"a": CONTENT}, "y", BLOCK, True)
    file.close()


def test_globs_and_lengths_of_a_folder():
    """Python's `create` leaves out what the program's --exclude does, and chooses the piece length that `auto` does."""
    kinds = module()
    with folder() as place:
        contents = {path: path.encode() for path in TREE}
        content = make_folder(f"{place}/content", contents)
        for glob, left_out in GLOBS.items():
            wanted = {path: text for path, text in contents.items() if path not in left_out}
            if wanted:
                assert kinds.create(content, "x", BLOCK, exclude=[glob]) == torrent_of(wanted, "x", BLOCK, False), glob
            else:
                assert raised(kinds.create, content, "x", BLOCK, False, [glob]) is kinds.TorrentNoFiles, glob
        kept = {path: text for path, text in contents.items() if path[0] not in "ab" or path in ("a.tmp", "b.txt")}
        assert kinds.create(content, "x", exclude=["*.torrent", "a", "b"]) == torrent_of(kept, "x", BLOCK, False)
        for glob in ("", "/", "a\\", "[", "[a", "[z-a]", "[a-", "[]", "[!"):
            assert raised(kinds.create, content, "x", BLOCK, False, ["a", glob]) is ValueError, glob
        assert raised(kinds.create, content, "x", BLOCK, False, "a") is TypeError and raised(kinds.create, content, "x", "1M") is TypeError
        for length, piece_length in ((2048 * BLOCK, BLOCK), (2048 * BLOCK + 1, 2 * BLOCK)):
            with open(f"{place}/long", "wb") as file:
                file.truncate(length)
            alone = make_folder(f"{place}/{length}", {})
            os.rename(f"{place}/long", f"{alone}/long")
            assert kinds.create(alone, "x", "auto") == kinds.create(alone, "x", piece_length), length


def test_folders_that_are_refused():
    """What `create` refuses is refused by Python's too: links, pipes, odd names; and a folder without files."""
    kinds = module()
    with folder() as place:
        content = make_folder(f"{place}/content", {"a": b"a"})
        os.symlink("content", f"{place}/link")
        assert kinds.create(f"{place}/link", "x", BLOCK) == torrent_of({"a": b"a"}, "x", BLOCK, False)
        for make in (lambda at: os.symlink("a", at), lambda at: os.symlink(".", at), os.mkfifo):
            make(f"{content}/b")
            assert raised(kinds.create, content, "x", BLOCK) is ValueError
            expect(create(content, f"{place}/out"), 2, b"", "fault: not a file or folder: b\n")
            os.remove(f"{content}/b")
        write(os.fsencode(content) + b"/\xff", b"")
        assert issubclass(raised(kinds.create, content, "x", BLOCK), ValueError)
        assert raised(kinds.create, f"{place}/none", "x", BLOCK) is FileNotFoundError
        os.makedirs(f"{place}/empty/folders")
        assert raised(kinds.create, f"{place}/empty", "x", BLOCK) is kinds.TorrentNoFiles
        assert raised(kinds.create, f"{place}/none", "x", 5) is kinds.TorrentPieceLength
