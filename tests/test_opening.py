"""Torrents that open and that do not, as `btcheck show` says: each is the text of one that opens, with some changes.

In a text `<abc>` and the like stand for the bytes that have this name in `BYTES`.
"""
import hashlib
import re

import messages
from support import expect, folder, run, write
from torrents import TWO, bencoded, entry, file, info, pad
from trees import BLOCK, layer, root_of, sha256

CONTENT = bytes(i % 251 for i in range(65636))
LAYER = layer(CONTENT, 2)
BYTES = {
    "abc": sha256(b"abc"),
    "two": root_of(TWO),
    "five": root_of(CONTENT),
    "pair": LAYER[:32],
    "next": LAYER[32:64],
    "end": LAYER[64:],
    "turned": bytes([LAYER[0] ^ 1]) + LAYER[1:32],
    "pad": sha256(bytes(64)),
    "zeros": bytes(32),
    "cut": hashlib.sha1(TWO + bytes(16383)).digest(),
    "abc cut": hashlib.sha1(b"abc").digest(),
    "padded cut": hashlib.sha1(b"abc" + bytes(32765)).digest(),
    "00": b"\0",
    "ff": b"\xff",
}

# One file, `abc.txt` with content `abc`.
ABC = ("d4:infod9:file treed7:abc.txtd0:d6:lengthi3e11:pieces root32:<abc>eee12:meta versioni2e4:name3:abc"
       "12:piece lengthi16384ee12:piece layersdee")
FILE = "7:abc.txtd0:d6:lengthi3e11:pieces root32:<abc>ee"
TREE = f"9:file treed{FILE}e"

# One file of five blocks, with a piece length of two.
FIVE = ("d4:infod9:file treed4:fived0:d6:lengthi65636e11:pieces root32:<five>eee12:meta versioni2e4:name4:five"
        "12:piece lengthi32768ee12:piece layersd32:<five>96:<pair><next><end>ee")

# The hybrid of a file `a` of 16,385 bytes and a file `c` of 3, with a pad between them.
FIRST = "d6:lengthi16385e4:pathl1:aee"
PADDING = "d4:attr1:p6:lengthi16383e4:pathl4:.pad5:16383ee"
LAST = "d6:lengthi3e4:pathl1:cee"
FILES = f"5:filesl{FIRST}{PADDING}{LAST}e"
HYBRID = ("d4:infod9:file treed1:ad0:d6:lengthi16385e11:pieces root32:<two>ee1:cd0:d6:lengthi3e11:pieces root32:<abc>eee"
          f"{FILES}12:meta versioni2e4:name1:x12:piece lengthi32768e6:pieces40:<cut><abc cut>e12:piece layersdee")

# A hybrid of an empty file, with a pad behind it.
PAD_ALONE = ("d4:infod9:file treed1:bd0:d6:lengthi0eeee5:filesld6:lengthi0e4:pathl1:beed4:attr1:p6:lengthi1eee"
             "12:meta versioni2e4:name1:x12:piece lengthi32768e6:pieces20:<cut>ee")

# The text, what is wrong, the refusal, and the changes.
CASES = [
    # tops
    (ABC, "a byte after the end", "2 NotBencode Trailing 166", [("layersdee", "layersdeex")]),
    (ABC, "an integer at the top", "4 WrongType top", [(ABC, "i1e")]),
    (ABC, "a list at the top", "4 WrongType top", [(ABC, "l4:infoe")]),
    (ABC, "no info", "3 Missing info", [(ABC, "de")]),
    (ABC, "an integer for info", "4 WrongType info", [(ABC, "d4:infoi1ee")]),
    # versions
    (ABC, "no version", "3 Missing meta version", [("12:meta versioni2e", "")]),
    (ABC, "a text for a version", "4 WrongType meta version", [("versioni2e", "version1:2")]),
    (ABC, "version 1", "5 Version", [("versioni2e", "versioni1e")]),
    (ABC, "version 3", "5 Version", [("versioni2e", "versioni3e")]),
    (ABC, "version -2", "5 Version", [("versioni2e", "versioni-2e")]),
    # absent
    (ABC, "no file tree", "3 Missing file tree", [(TREE, "")]),
    (ABC, "no name", "3 Missing name", [("4:name3:abc", "")]),
    (ABC, "no piece length", "3 Missing piece length", [("12:piece lengthi16384e", "")]),
    # kinds
    (ABC, "a list for the file tree", "4 WrongType file tree", [(TREE, "9:file treele")]),
    (ABC, "an integer for the name", "4 WrongType name", [("4:name3:abc", "4:namei1e")]),
    (ABC, "a name that is not UTF-8", "4 WrongType name", [("4:name3:abc", "4:name1:<ff>")]),
    (ABC, "a text for the piece length", "4 WrongType piece length", [("i16384e", "5:16384")]),
    (ABC, "a list for piece layers that no file needs", "4 WrongType piece layers", [
        ("layersde", "layersle"),
    ]),
    # piece lengths
    (ABC, "16,385", "6 PieceLength", [("i16384e", "i16385e")]),
    (ABC, "half of the least", "6 PieceLength", [("i16384e", "i8192e")]),
    (ABC, "twice the greatest", "6 PieceLength", [("i16384e", "i2147483648e")]),
    (ABC, "zero", "6 PieceLength", [("i16384e", "i0e")]),
    (ABC, "below zero", "6 PieceLength", [("i16384e", "i-16384e")]),
    # shapes
    (ABC, "a key beside the zero-length key", "7 Shape", [
        ("7:abc.txtd0:d", "3:abcd0:d6:lengthi0ee1:xdee7:abc.txtd0:d"),
    ]),
    (ABC, "the zero-length key at the root", "7 Shape", [("7:abc.txtd0:d", "0:d6:lengthi0ee7:abc.txtd0:d")]),
    (ABC, "an integer for a component", "7 Shape", [("7:abc.txtd0:d", "3:abci1e7:abc.txtd0:d")]),
    (ABC, "an integer under the zero-length key", "7 Shape", [
        ("7:abc.txtd0:d", "3:abcd0:i1ee7:abc.txtd0:d"),
    ]),
    (ABC, "an integer in a directory", "7 Shape", [("7:abc.txtd0:d", "3:abcd1:bi1ee7:abc.txtd0:d")]),
    # paths
    (ABC, "the directory above", "8 Path", [("7:abc.txt", "2:..")]),
    (ABC, "the directory itself", "8 Path", [("7:abc.txt", "1:.")]),
    (ABC, "a slash", "8 Path", [("7:abc.txt", "3:a/b")]),
    (ABC, "a zero byte", "8 Path", [("7:abc.txt", "3:a<00>b")]),
    (ABC, "bytes that are not UTF-8", "8 Path", [("7:abc.txt", "1:<ff>")]),
    (ABC, "an empty directory", "8 Path", [("7:abc.txt", "2:..de7:abc.txt")]),
    (ABC, "a directory with a file", "8 Path", [("7:abc.txtd0:", "2:..d1:ad0:"), ("<abc>eee", "<abc>eeee")]),
    # fields
    (ABC, "a symlink", "9 Symlink", [("6:lengthi3e", "4:attr1:l6:lengthi3e")]),
    (ABC, "a symlink with another attribute", "9 Symlink", [("6:lengthi3e", "4:attr2:xl6:lengthi3e")]),
    (ABC, "a length below zero", "10 Length", [("i3e", "i-1e")]),
    (ABC, "a byte more than the greatest length", "10 Length", [("i3e", "i70368744177665e")]),
    (ABC, "no length", "10 Length", [("6:lengthi3e", "")]),
    (ABC, "a text for a length", "10 Length", [("i3e", "1:3")]),
    (ABC, "a root of 31 bytes", "11 Root", [("32:<abc>", "31:1234567890123456789012345678901")]),
    (ABC, "a root of 33 bytes", "11 Root", [("32:<abc>", "33:<abc><00>")]),
    (ABC, "no root", "11 Root", [("11:pieces root32:<abc>", "")]),
    (ABC, "an integer for a root", "11 Root", [("32:<abc>", "i1e")]),
    # together
    (ABC, "a file, and one of the digests of its two blocks", "12 RootReused", [
        (FILE,
         "6:blocksd0:d6:lengthi32768e11:pieces root32:<pair>ee7:digestsd0:d6:lengthi64e11:pieces root32:<pair>ee"),
        ("i16384e", "i32768e"),
    ]),
    (ABC, "no file", "13 NoFiles", [(FILE, "")]),
    (ABC, "an empty directory alone", "13 NoFiles", [(FILE, "3:dirde")]),
    (ABC, "a file of 2^32 pieces", "14 TooManyPieces", [("i3e", "i70368744177664e")]),
    (ABC, "two files of 2^31 pieces each", "14 TooManyPieces", [
        (FILE,
         "1:ad0:d6:lengthi35184372088832e11:pieces root32:<abc>ee1:bd0:d6:lengthi35184372088832e11:pieces root32:<abc>ee"),
    ]),
    # layers
    (FIVE, "another key", "15 LayerMissing", [("layersd32:<five>", "layersd32:<two>")]),
    (FIVE, "no entry", "15 LayerMissing", [("d32:<five>96:<pair><next><end>e", "de")]),
    (FIVE, "no piece layers", "15 LayerMissing", [("12:piece layersd32:<five>96:<pair><next><end>e", "")]),
    (FIVE, "a pad at its end", "16 LayerSize", [("96:<pair><next><end>", "128:<pair><next><end><pad>")]),
    (FIVE, "a hash less", "16 LayerSize", [("96:<pair><next><end>", "64:<pair><next>")]),
    (FIVE, "a byte more", "16 LayerSize", [("96:<pair><next><end>", "97:<pair><next><end><00>")]),
    (FIVE, "an integer", "16 LayerSize", [("96:<pair><next><end>", "i96e")]),
    (FIVE, "a bit turned", "17 LayerMismatch", [("<next><end>", "<next><turned>")]),
    (FIVE, "two hashes swapped", "17 LayerMismatch", [("<pair><next>", "<next><pair>")]),
    (FIVE, "another file's root", "17 LayerMismatch", [
        ("i65636e11:pieces root32:<five>", "i65636e11:pieces root32:<two>"),
        ("layersd32:<five>", "layersd32:<two>"),
    ]),
    # needed
    (ABC, "two pieces", "15 LayerMissing", [("i3e", "i16385e")]),
    (ABC, "2^32 - 1 pieces", "15 LayerMissing", [("i3e", "i70368744161280e")]),
    (ABC, "the greatest length in 2^31 pieces", "15 LayerMissing", [
        ("i3e", "i70368744177664e"),
        ("i16384e", "i32768e"),
    ]),
    # lists
    (HYBRID, "neither list", "18 HybridFiles", [(FILES, "")]),
    (HYBRID, "both lists", "18 HybridFiles", [("12:meta", "6:lengthi3e12:meta")]),
    (HYBRID, "one length for two files", "18 HybridFiles", [(FILES, "6:lengthi16388e")]),
    (HYBRID, "a dictionary of files", "18 HybridFiles", [(FILES, "5:filesde")]),
    (HYBRID, "an integer for a file", "18 HybridFiles", [(LAST, "i3e")]),
    # entries
    (HYBRID, "no length", "18 HybridFiles", [(LAST, "d4:pathl1:cee")]),
    (HYBRID, "a length below zero", "18 HybridFiles", [(LAST, "d6:lengthi-3e4:pathl1:cee")]),
    (HYBRID, "a byte more than the greatest length", "18 HybridFiles", [
        (LAST, "d6:lengthi70368744177665e4:pathl1:cee"),
    ]),
    (HYBRID, "a pad with no length", "18 HybridFiles", [("6:lengthi16383e", "")]),
    (HYBRID, "no path", "18 HybridFiles", [(LAST, "d6:lengthi3ee")]),
    (HYBRID, "an empty path", "18 HybridFiles", [(LAST, "d6:lengthi3e4:pathlee")]),
    (HYBRID, "an integer in a path", "18 HybridFiles", [(LAST, "d6:lengthi3e4:pathli1eee")]),
    (HYBRID, "a text for a path", "18 HybridFiles", [(LAST, "d6:lengthi3e4:path1:ce")]),
    # others
    (HYBRID, "another path", "18 HybridFiles", [(LAST, "d6:lengthi3e4:pathl1:dee")]),
    (HYBRID, "a longer path", "18 HybridFiles", [(LAST, "d6:lengthi3e4:pathl1:c1:cee")]),
    (HYBRID, "another length", "18 HybridFiles", [(LAST, "d6:lengthi4e4:pathl1:cee")]),
    (HYBRID, "another order", "18 HybridFiles", [
        (FIRST, "d6:lengthi3e4:pathl1:cee"),
        ("16383eed6:lengthi3e4:pathl1:cee", "16383eed6:lengthi16385e4:pathl1:aee"),
    ]),
    (HYBRID, "a file less", "18 HybridFiles", [(LAST, "")]),
    (HYBRID, "a file more", "18 HybridFiles", [(LAST, "d6:lengthi3e4:pathl1:ceed6:lengthi0e4:pathl1:dee")]),
    (HYBRID, "a pad in place of a file", "18 HybridFiles", [(LAST, "d4:attr1:p6:lengthi3e4:pathl1:cee")]),
    # places
    (HYBRID, "a pad that is a byte too short", "19 HybridAlign", [("i16383e", "i16382e")]),
    (HYBRID, "a pad that is a byte too long", "19 HybridAlign", [("i16383e", "i16384e")]),
    (HYBRID, "a pad that is a piece too long", "19 HybridAlign", [("i16383e", "i49151e")]),
    (HYBRID, "no pad", "19 HybridAlign", [(PADDING, "")]),
    (HYBRID, "a pad before the first file", "19 HybridAlign", [
        (FIRST, "d4:attr1:p6:lengthi32768eed6:lengthi16385e4:pathl1:aee"),
    ]),
    (HYBRID, "a last pad past the piece", "19 HybridAlign", [
        (LAST, "d6:lengthi3e4:pathl1:ceed4:attr1:p6:lengthi32766e4:pathl4:.pad5:32766ee"),
    ]),
    # pieces
    (HYBRID, "a digest more", "20 HybridPieces", [("40:<cut><abc cut>", "60:<cut><abc cut><abc cut>")]),
    (HYBRID, "a digest less", "20 HybridPieces", [("40:<cut><abc cut>", "20:<cut>")]),
    (HYBRID, "a byte more", "20 HybridPieces", [("40:<cut><abc cut>", "41:<cut><abc cut><00>")]),
    (HYBRID, "an integer", "20 HybridPieces", [("40:<cut><abc cut>", "i40e")]),
    (PAD_ALONE, "a pad and no file that is not empty", "19 HybridAlign", []),
]

# What two tests refuse, one after the other in their order: the first of them answers.
TWO_FAULTS = [
    (ABC, "bytes after an integer", "2 NotBencode Trailing 3", [(ABC, "i1ex")]),
    (ABC, "info without a version", "4 WrongType info", [(ABC, "d4:infolee")]),
    (ABC, "a text for the version, and an integer for the name", "4 WrongType meta version", [
        ("versioni2e4:name3:abc", "version1:34:namei1e"),
    ]),
    (ABC, "version 3 and no name", "5 Version", [("versioni2e4:name3:abc", "versioni3e")]),
    (ABC, "no name, and a list for the file tree", "3 Missing name", [
        ("treed7:abc.txt", "treel7:abc.txt"),
        ("4:name3:abc", ""),
    ]),
    (ABC, "a list for piece layers, and a piece length of 16,385", "4 WrongType piece layers", [
        ("layersde", "layersle"),
        ("i16384e", "i16385e"),
    ]),
    (ABC, "a piece length of 16,385, and an integer for a component", "6 PieceLength", [
        ("i16384e", "i16385e"),
        ("d0:d", "d0:i1e1:xd"),
    ]),
    (ABC, "an integer for a component, and the path ..", "7 Shape", [(FILE, "2:..i1e")]),
    (ABC, "the path .., and a symlink", "8 Path", [("7:abc.txt", "2:.."), ("6:length", "4:attr1:l6:length")]),
    (ABC, "a symlink, and a length below zero", "9 Symlink", [("6:lengthi3e", "4:attr1:l6:lengthi-1e")]),
    (ABC, "a length below zero, and another file without a root", "10 Length", [
        (FILE, "1:ad0:d6:lengthi-1e11:pieces root32:<abc>ee1:bd0:d6:lengthi1eee"),
    ]),
    (ABC, "a file without a root, and one root of two lengths", "11 Root", [
        (FILE,
         "1:ad0:d6:lengthi1e11:pieces root32:<abc>ee1:bd0:d6:lengthi2e11:pieces root32:<abc>ee1:cd0:d6:lengthi1eee"),
    ]),
    (ABC, "one root of two lengths, and too many pieces", "12 RootReused", [
        (FILE, "1:ad0:d6:lengthi1e11:pieces root32:<abc>ee1:bd0:d6:lengthi70368744177664e11:pieces root32:<abc>ee"),
    ]),
    (ABC, "too many pieces, and no layer", "14 TooManyPieces", [("i3e", "i70368744177664e")]),
    (FIVE, "no layer for one file, and a short one for another", "15 LayerMissing", [
        ("d4:five", "d1:dd0:d6:lengthi65637e11:pieces root32:<two>ee4:five"),
        ("96:<pair><next><end>", "64:<pair><next>"),
    ]),
    (FIVE, "a short layer for one file, and another root over another's", "16 LayerSize", [
        ("d4:five", "d1:dd0:d6:lengthi65637e11:pieces root32:<two>ee4:five"),
        ("32:<five>96:<pair><next><end>", "32:<five>96:<next><pair><end>32:<two>64:<pair><next>"),
    ]),
    (FIVE, "another root over a layer, and no list of version 1", "17 LayerMismatch", [
        ("<next><end>", "<next><turned>"),
        ("i32768ee", "i32768e6:pieces20:<cut>e"),
    ]),
    (HYBRID, "no file, and another list of version 1", "13 NoFiles", [
        ("treed1:ad0:d6:lengthi16385e11:pieces root32:<two>ee1:cd0:d6:lengthi3e11:pieces root32:<abc>eee", "treede"),
    ]),
    (HYBRID, "another length, at a place that is not its own", "18 HybridFiles", [
        ("lengthi3e4:path", "lengthi4e4:path"),
        ("i16383e", "i16382e"),
    ]),
    (HYBRID, "a file at a place that is not its own, and a digest more", "19 HybridAlign", [
        ("i16383e", "i16382e"),
        ("40:<cut>", "60:<cut><cut>"),
    ]),
]


# A text that opens with these changes, and the lines of its files.
OPENED = [
    (FIVE, "three pieces", ["65636 <five> five"], []),
    (FIVE, "a layer that no file needs", ["65636 <five> five"], [("d32:<five>", "d32:<zeros>1:x32:<five>")]),
    (FIVE, "one piece, and a layer that it does not need", ["65636 <five> five"], [("i32768e", "i131072e")]),
    (FIVE, "one piece, and no layers", ["65636 <five> five"], [
        ("i32768e", "i131072e"),
        ("12:piece layersd32:<five>96:<pair><next><end>e", ""),
    ]),
    (ABC, "an empty file between two others", ["16385 <two> a", "0 - b", "3 <abc> c"], [
        (FILE, "1:ad0:d6:lengthi16385e11:pieces root32:<two>ee1:bd0:d6:lengthi0eee"
               "1:cd0:d6:lengthi3e11:pieces root32:<abc>ee"),
        ("i16384e", "i32768e"),
    ]),
    (ABC, "an empty file at the end", ["3 <abc> a", "0 - b"], [
        (FILE, "1:ad0:d6:lengthi3e11:pieces root32:<abc>ee1:bd0:d6:lengthi0eee"),
    ]),
    (ABC, "a folder before a file whose name goes on, and two equal files", ["3 <abc> a/b", "3 <abc> a.txt"], [
        (FILE, "1:ad1:bd0:d6:lengthi3e11:pieces root32:<abc>eee5:a.txtd0:d6:lengthi3e11:pieces root32:<abc>ee"),
    ]),
    (ABC, "an empty folder", ["3 <abc> abc.txt"], [(FILE, FILE + "2:zzde")]),
    (ABC, "an empty file alone, whose root is ignored", ["0 - a"], [(FILE, "1:ad0:d6:lengthi0e11:pieces rooti1eee")]),
    (ABC, "names beyond ASCII", ["3 <abc> 文件"], [("7:abc.txt", "6:文件")]),
    (ABC, "keys that no test looks at", ["3 <abc> abc.txt"], [
        ("6:lengthi3e", "6:lengthi3e5:mtimei1e"),
        ("i16384ee", "i16384e7:privatei1e6:source3:abce"),
        ("d4:info", "d8:announce1:x7:comment1:y10:created by1:z4:info"),
    ]),
    (ABC, "an executable file", ["3 <abc> abc.txt"], [("6:lengthi3e", "4:attr1:x6:lengthi3e")]),
    (ABC, "a hidden executable file", ["3 <abc> abc.txt"], [("6:lengthi3e", "4:attr2:hx6:lengthi3e")]),
    (ABC, "attributes that are no text", ["3 <abc> abc.txt"], [("6:lengthi3e", "4:attrl1:le6:lengthi3e")]),
    (ABC, "the greatest piece length", ["3 <abc> abc.txt"], [("i16384e", "i1073741824e")]),
    (HYBRID, "no pad at the end", ["16385 <two> a", "3 <abc> c"], []),
    (HYBRID, "a pad at the end", ["16385 <two> a", "3 <abc> c"], [
        (LAST, LAST + "d4:attr1:p6:lengthi32765e4:pathl4:.pad5:32765ee"),
        ("<cut><abc cut>", "<cut><padded cut>"),
    ]),
    (HYBRID, "two pads without paths for one", ["16385 <two> a", "3 <abc> c"], [
        (PADDING, "d4:attr1:p6:lengthi16000eed4:attr2:hp6:lengthi383ee"),
    ]),
    (ABC, "a hybrid with one file in a list", ["3 <abc> abc.txt"], [
        ("12:meta", "5:filesld6:lengthi3e4:pathl7:abc.txteee12:meta"),
        ("i16384ee", "i16384e6:pieces20:<abc cut>e"),
    ]),
    (ABC, "a hybrid with one file by its length, with its name", ["3 <abc> abc.txt"], [
        ("12:meta", "6:lengthi3e12:meta"),
        ("4:name3:abc", "4:name7:abc.txt"),
        ("i16384ee", "i16384e6:pieces20:<abc cut>e"),
    ]),
    (ABC, "a hybrid with an empty file alone", ["0 - a"], [
        (FILE, "1:ad0:d6:lengthi0eee"),
        ("12:meta", "5:filesld6:lengthi0e4:pathl1:aeee12:meta"),
        ("i16384ee", "i16384e6:pieces0:e"),
    ]),
]


def changed(text, what, changes):
    for old, new in changes:
        assert old in text, what
        text = text.replace(old, new)
    return bytes_of(text)


def bytes_of(text):
    parts = re.split("<([^>]*)>", text)
    return b"".join(BYTES[part] if i % 2 else part.encode() for i, part in enumerate(parts))


def opens(place, content):
    done = run("show", write(f"{place}/t", content))
    assert done.returncode == 0, done.stdout
    return done.stdout


def test_opened():
    with folder() as place:
        for text, what, files, changes in OPENED:
            content = changed(text, what, changes)
            lines = [re.sub("<([^>]*)>", lambda name: BYTES[name[1]].hex(), line) for line in [f"files: {len(files)}", *files]]
            shown = opens(place, content).decode().splitlines()
            assert shown[-len(lines):] == lines, (what, shown)
            hashes = [line.split()[2] for line in shown if line.startswith("info hash")]
            assert len(hashes) == (2 if b"6:pieces" in content else 1), (what, shown)


# Three files of three bytes, and one of 2^30 bytes behind them, each in a piece of its own.
FAR = [(FILE, "".join(f"1:{name}d0:d6:lengthi3e11:pieces root32:<abc>ee" for name in "abc")
        + "1:dd0:d6:lengthi1073741824e11:pieces root32:<five>ee"), ("i16384e", "i1073741824e")]


def test_places_of_blocks():
    """The piece index and the begin of a message are those of a block, or of none, however large they are."""
    two = bytes(2 * BLOCK)
    none, unproved = ["refused P1 BadPlace"], "refused P3 Unproved"
    apart = [
        (0, 0, TWO, [f"{unproved} 0 0", f"{unproved} 0 1"]), (0, BLOCK, TWO[BLOCK:], [unproved]),
        (0, BLOCK + 1, b"abc", none), (0, 1, b"abc", none), (1, 0, b"abc", ["verified 2 0"]),
        (0, 2 * BLOCK, b"abc", ["verified 2 0"]), (1, BLOCK, b"abc", none), (2, 0, b"abc", none), (0, 4 * BLOCK, b"abc", none)]
    far = [
        (2, 0, b"abc", ["verified 2 0"]), (0, 3 << 30, two, [f"{unproved} 3 0", f"{unproved} 3 1"]),
        (3, (1 << 30) - 2 * BLOCK, two, [f"{unproved} 3 65534", f"{unproved} 3 65535"]),
        (0, (1 << 32) - 2 * BLOCK, two, [f"{unproved} 3 65534", f"{unproved} 3 65535"]),
        (3, (1 << 30) - BLOCK, two, ["refused P2 BadSize"]), (3, 1 << 30, two, none), (0, (1 << 32) - 1, two, none),
        ((1 << 32) - 1, 0, two, none), ((1 << 32) - 1, (1 << 32) - 1, two, none)]
    five = [(2, 0, CONTENT[-100:], [unproved]), (1, BLOCK, CONTENT[3 * BLOCK:], [f"{unproved} 0 3", f"{unproved} 0 4"]),
            (0, 0, CONTENT, [f"{unproved} 0 {block}" for block in range(5)]), (2, BLOCK, CONTENT[-100:], none)]
    five += [(0, 0, CONTENT[:size] + bytes(max(size - len(CONTENT), 0)), ["refused P2 BadSize"])
             for size in (0, 1, BLOCK - 1, 2 * BLOCK + 1, len(CONTENT) + 1)]
    between = [(text, changes) for text, what, _, changes in OPENED if what == "an empty file between two others"]
    with folder() as place:
        for (text, changes), rows in ((between[0], apart), ((ABC, FAR), far), ((FIVE, []), five)):
            torrent = write(f"{place}/torrent", changed(text, "places", changes))
            for index, begin, carried, verdicts in rows:
                record = write(f"{place}/record", messages.piece(index, begin, carried))
                lines = "".join(f"1 {line}\n" for line in verdicts)
                status = 0 if verdicts[0].startswith("verified") else 1
                expect(run("replay", torrent, record, "--info-only"), status, f"{lines}end\n")


def test_refused():
    with folder() as place:
        for text, what, refusal, changes in CASES + TWO_FAULTS:
            expect(run("show", write(f"{place}/t", changed(text, what, changes))), 1, f"refused {refusal}\n")


def test_limit_of_bytes():
    rest = bytes_of(ABC[1:])
    with folder() as place:
        for comment, taken in ((67_108_680, True), (67_108_681, False)):
            content = b"d7:comment%d:" % comment + bytes(comment) + rest
            assert (len(content) == 1 << 26) == taken
            if taken:
                opens(place, content)
            else:
                expect(run("show", write(f"{place}/t", content)), 1, "refused 1 TooLarge\n")
        expect(run("show", write(f"{place}/t", bytes((1 << 26) + 1))), 1, "refused 1 TooLarge\n")


def test_deepest_path():
    # three dictionaries stand above the first component, and one below the last: at most 128 are open at once
    def deep(components):
        return ABC.replace(FILE, "1:ad" * components + "0:d6:lengthi0ee" + "e" * components)

    with folder() as place:
        assert b" " + b"/".join([b"a"] * 124) + b"\n" in opens(place, bytes_of(deep(124)))
        done = run("show", write(f"{place}/t", bytes_of(deep(125))))
        assert done.returncode == 1 and done.stdout.startswith(b"refused 2 NotBencode TooDeep"), done.stdout


def test_many_files():
    """Many files, several layered trees and nested paths of a hybrid: none is refused as out of memory."""
    contents = [bytes([k]) * (k * 1000) for k in range(60)] + [bytes([k]) * (70000 + k) for k in range(5)]
    tree, entries, layers, stream = {}, [], {}, b""
    for k, content in enumerate(contents):
        folder_name, name = f"d{k // 7:02}", f"f{k:02}"
        tree.setdefault(folder_name, {}).setdefault("in", {})[name] = file(content)
        if content:
            if len(stream) % 16384:
                gap = -len(stream) % 16384
                entries.append(pad(gap))
                stream += bytes(gap)
            if len(content) > 16384:
                layers[root_of(content)] = layer(content, 1)
        entries.append(entry(len(content), folder_name, "in", name))
        stream += content
    pieces = b"".join(hashlib.sha1(stream[at:at + 16384]).digest() for at in range(0, len(stream), 16384))
    value = {"info": info(tree, files=entries, pieces=pieces), "piece layers": layers}
    with folder() as place:
        shown = opens(place, bencoded(value)).decode().splitlines()
        assert shown[4] == f"files: {len(contents)}", shown[:5]
        assert [line.split()[0] for line in shown[5:]] == [str(len(content)) for content in contents]
