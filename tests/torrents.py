"""Torrents as values of Python, and their spelling (BEP 3, BEP 52, BEP 47)."""
import hashlib

from trees import BLOCK, layer, root_of, sha256

# The torrent of the one file `abc.txt` with content `abc`, byte for byte.
ABC = (b"d4:infod9:file treed7:abc.txtd0:d6:lengthi3e11:pieces root32:" + sha256(b"abc") +
       b"eee12:meta versioni2e4:name3:abc12:piece lengthi16384ee12:piece layersdee")


def bencoded(value):
    """The spelling of a value: integers, bytes, text as UTF-8, lists, and dictionaries with their keys in order."""
    if isinstance(value, int):
        return b"i%de" % value
    if isinstance(value, str):
        return bencoded(value.encode())
    if isinstance(value, bytes):
        return b"%d:%s" % (len(value), value)
    if isinstance(value, list):
        return b"l" + b"".join(map(bencoded, value)) + b"e"
    pairs = {key.encode() if isinstance(key, str) else key: inner for key, inner in value.items()}
    return b"d" + b"".join(bencoded(key) + bencoded(pairs[key]) for key in sorted(pairs)) + b"e"


def file(content, **more):
    """What the file tree holds of a file with this content, with more keys or other values."""
    known = {"length": len(content), "pieces root": root_of(content)} if content else {"length": 0}
    return {"": known | more}


def info(tree, piece_length=16384, **more):
    """An info dictionary, with more keys or other values; `_` in a key stands for a space."""
    known = {"file tree": tree, "meta version": 2, "name": "x", "piece length": piece_length}
    return known | {key.replace("_", " "): value for key, value in more.items()}


def torrent(value, layers=None):
    """A torrent file of this info dictionary."""
    return bencoded({"info": value, "piece layers": {} if layers is None else layers})


def entry(length, *path, **more):
    """A file of the version 1 list."""
    return {"length": length, "path": list(path)} | more


def pad(length):
    return entry(length, ".pad", str(length), attr="p")


# A file of five blocks, the last of 100 bytes, and one that is long and takes no time to make.
FIVE = bytes(range(256)) * 256 + bytes(100)
LARGE = bytes(1 << 24)

# A file of two blocks and one of three bytes, and the list of version 1 that joins them.
TWO = bytes(i % 251 for i in range(16385))
FILES = {"a": file(TWO), "c": file(b"abc")}
LIST = [entry(16385, "a"), pad(16383), entry(3, "c")]
CUTS = hashlib.sha1(TWO + bytes(16383)).digest() + hashlib.sha1(b"abc").digest()


def hybrid(files=LIST, pieces=CUTS, **more):
    """The info dictionary of a hybrid."""
    return info(FILES, 32768, files=files, pieces=pieces, **more)


def torrent_of(files, piece_length):
    """The torrent file of these files, a list of (name, content) in the order of their names."""
    layers = {root_of(content): layer(content, piece_length // BLOCK) for _, content in files if len(content) > piece_length}
    return torrent(info({name: file(content) for name, content in files}, piece_length), layers)
