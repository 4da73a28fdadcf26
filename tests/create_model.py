"""A plain model of `create`: the torrent of some files, written by Python (BEP 3, BEP 47, BEP 52)."""
import hashlib
import os

from torrents import bencoded, entry, file, pad
from trees import BLOCK, layer, root_of


def in_order(files):
    """Paths and contents in the order of the file tree: by their components as bytes."""
    return sorted(files.items(), key=lambda pair: [part.encode() for part in pair[0].split("/")])


def tree_of(files):
    tree = {}
    for path, content in files:
        *folders, name = path.split("/")
        below = tree
        for part in folders:
            below = below.setdefault(part, {})
        below[name] = file(content)
    return tree


def stream_of(files, piece_length):
    """The version 1 list with its pads, and the joined digests of its pieces."""
    full = [path for path, content in files if content]
    listed, digests = [], []
    for path, content in files:
        listed.append(entry(len(content), *path.split("/")))
        short = -len(content) % piece_length
        padded = content and path != full[-1] and short
        if padded:
            listed.append(pad(short))
        stream = content + bytes(short) if padded else content
        digests += [hashlib.sha1(stream[at:at + piece_length]).digest() for at in range(0, len(stream), piece_length)]
    return listed, b"".join(digests)


def torrent_of(contents, name, piece_length, hybrid):
    """The bytes that `create` writes for these files, contents by their paths."""
    files = in_order(contents)
    info = {"file tree": tree_of(files), "meta version": 2, "name": name, "piece length": piece_length}
    if hybrid:
        listed, info["pieces"] = stream_of(files, piece_length)
        if len(files) == 1 and files[0][0] == name:
            info["length"] = len(files[0][1])
        else:
            info["files"] = listed
    layers = {root_of(content): layer(content, piece_length // BLOCK) for _, content in files if len(content) > piece_length}
    return bencoded({"info": info, "piece layers": layers})


def contents_of(folder):
    """What lies in a folder, by the paths below it."""
    found = {}
    for at, _, names in os.walk(folder):
        for name in names:
            with open(f"{at}/{name}", "rb") as content:
                found[os.path.relpath(f"{at}/{name}", folder)] = content.read()
    return found
