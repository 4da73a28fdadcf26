"""`btcheck show TORRENT` on what is no torrent that opens: a line for each refusal."""
from support import expect, folder, run, write
from torrents import ABC, CUTS, LIST, entry, file, hybrid, info, pad, torrent
from trees import layer, root_of, sha256


def are_refused(cases):
    """Of torrent files and their refusals, `show` prints each."""
    with folder() as place:
        for content, refusal in cases:
            expect(run("show", write(f"{place}/t", content)), 1, f"refused {refusal}\n")


def changed(**more):
    """The torrent of `abc.txt` with more keys or other values in its info dictionary; without those that are None."""
    value = info({"abc.txt": file(b"abc")}, **more)
    return torrent({key: inner for key, inner in value.items() if inner is not None})


def one(name="abc.txt", **more):
    """The same with more keys or other values in the file's dictionary; without those that are None."""
    known = file(b"abc", **{key.replace("_", " "): value for key, value in more.items()})[""]
    return torrent(info({name: {"": {key: value for key, value in known.items() if value is not None}}}))


def test_refused_bencodings():
    cases = [
        (b"", "Truncated 0"),
        (b"d4:info", "Truncated 7"),
        (b"x", "BadStart 0"),
        (b"di1ei2ee", "BadStart 1"),
        (b"i-0e", "BadInteger 0"),
        (b"i9223372036854775808e", "IntegerRange 0"),
        (b"02:ab", "BadLength 0"),
        (b"d1:bi1e1:ai1ee", "KeyOrder 7"),
        (ABC + b"x", "Trailing 166"),
        (b"l" * 129, "TooDeep 128"),
    ]
    are_refused((content, f"2 NotBencode {fault}") for content, fault in cases)


def test_refused_keys():
    cases = [
        (b"i1e", "4 WrongType top"),
        (b"de", "3 Missing info"),
        (b"d4:infoi1ee", "4 WrongType info"),
        (changed(meta_version=None), "3 Missing meta version"),
        (changed(meta_version="2"), "4 WrongType meta version"),
        (changed(meta_version=3, name=None), "5 Version"),
        (changed(file_tree=None), "3 Missing file tree"),
        (changed(name=None), "3 Missing name"),
        (changed(piece_length=None), "3 Missing piece length"),
        (changed(file_tree=[]), "4 WrongType file tree"),
        (changed(name=b"\xff"), "4 WrongType name"),
        (changed(piece_length="16384"), "4 WrongType piece length"),
        (torrent(info({"abc.txt": file(b"abc")}), []), "4 WrongType piece layers"),
        (changed(piece_length=16385), "6 PieceLength"),
    ]
    are_refused(cases)


def test_refused_files():
    same = {"a": file(b"abc"), "b": file(b"abc", length=4)}
    cases = [
        (changed(file_tree={"a": 1}), "7 Shape"),
        (one(".."), "8 Path"),
        (one("a/b"), "8 Path"),
        (one(b"\xff"), "8 Path"),
        (one(attr="l"), "9 Symlink"),
        (one(length=-1), "10 Length"),
        (one(pieces_root=None), "11 Root"),
        (torrent(info(same)), "12 RootReused"),
        (changed(file_tree={}), "13 NoFiles"),
        (one(length=1 << 46), "14 TooManyPieces"),
    ]
    are_refused(cases)


def test_refused_layers():
    content = bytes(i % 251 for i in range(65636))
    right, value = layer(content, 2), info({"five": file(content)}, 32768)
    root = root_of(content)
    assert len(right) == 96
    cases = [
        ({}, "15 LayerMissing"),
        ({root: right + sha256(bytes(64))}, "16 LayerSize"),
        ({root: right[32:64] + right[:32] + right[64:]}, "17 LayerMismatch"),
    ]
    are_refused((torrent(value, layers), refusal) for layers, refusal in cases)


def test_refused_hybrids():
    cases = [
        (hybrid(length=16388), "18 HybridFiles"),
        (hybrid([LIST[0], LIST[1], entry(3, "d")]), "18 HybridFiles"),
        (hybrid([LIST[0], pad(16382), LIST[2]]), "19 HybridAlign"),
        (hybrid([LIST[0], LIST[2]]), "19 HybridAlign"),
        (hybrid(LIST + [pad(32766)]), "19 HybridAlign"),
        (hybrid(pieces=CUTS + bytes(20)), "20 HybridPieces"),
    ]
    are_refused((torrent(value), refusal) for value, refusal in cases)


def test_a_torrent_is_read_with_a_bound():
    """However long what follows is, a byte more than the limit is refused at once."""
    with folder() as place:
        for size in [67108865, 1 << 40]:
            with open(f"{place}/t", "wb") as out:
                out.truncate(size)
            expect(run("show", f"{place}/t", timeout=10), 1, "refused 1 TooLarge\n")
        comment = 67108864 - len(ABC) - len(b"7:comment67108672:")
        longest = b"d7:comment%d:" % comment + bytes(comment) + ABC[1:]
        assert len(longest) == 67108864
        expect(run("show", write(f"{place}/t", longest), timeout=10), 0, None)
        expect(run("show", write(f"{place}/t", longest + b"x"), timeout=10), 1, "refused 1 TooLarge\n")
    expect(run("show", "/dev/zero", timeout=10), 1, "refused 1 TooLarge\n")
