"""`btcheck show` on torrents of 25,000, 50,000 and 100,000 files, so that a cost that is not proportional to the files
shows, with names, roots and layers as an enemy would choose them; and on one with a piece layer of 250,000 hashes,
beside the bare digests of the same pairs."""
import functools
import os
import sys

from measuring import BARE, BLOCK, BTCHECK, TOP, measured, build_bare, missed_marks, need_program, report

sys.path.insert(0, os.path.join(TOP, "tests"))
from torrents import bencoded  # noqa: E402
from trees import sha256  # noqa: E402

# What showing 100,000 files of the plain torrent may take at most in seconds, what a file of 100,000 may cost beside one
# of 25,000, and what a piece layer may cost beside the digests of its pairs.
SHOW_MARK = 0.7
FILE_MARK = 1.5
LAYER_MARKS = [("bare digests", 1.25)]


def file_of(length, root):
    return {b"": {b"length": length, b"pieces root": root}}


def plain(number):
    """A folder for each 1,000 files, each file with a root of its own."""
    return [b"folder %03d" % (number // 1000), b"file %06d" % number], 16384, sha256(b"%d" % number)


def one_root(number):
    path, length, _ = plain(number)
    return path, length, sha256(b"")


def like_roots(number):
    """Roots that differ in their last bytes alone."""
    path, length, _ = plain(number)
    return path, length, bytes(28) + number.to_bytes(4, "big")


def like_names(number):
    """Names that differ in their last bytes alone."""
    return [b"name " * 40 + b"%06d" % number], 16384, sha256(b"%d" % number)


def deep_paths(number):
    """All files below a hundred folders."""
    return [b"folder"] * 100 + [b"file %06d" % number], 16384, sha256(b"%d" % number)


def own_folders(number):
    """Each file in a folder of its own."""
    return [b"folder %06d" % number, b"file"], 16384, sha256(b"%d" % number)


def layers_each(number):
    """Each file of two pieces, so with a piece layer."""
    path, _, _ = plain(number)
    return path, 32768, sha256(layer_of_two(number))


def layer_of_two(number):
    return sha256(b"%d" % number) + bytes(32)


def write_torrent(path, tree, layers, version1=None):
    info = {b"file tree": tree, b"meta version": 2, b"name": b"bench", b"piece length": 16384, **(version1 or {})}
    with open(path, "wb") as out:
        out.write(bencoded({b"info": info, b"piece layers": layers}))


def write_hybrid(path, count):
    """A hybrid of `count` files, each with a pad behind it but the last."""
    tree, files = {}, []
    for number in range(count):
        name = b"file %06d" % number
        tree[name] = file_of(16000, sha256(name))
        files += [{b"length": 16000, b"path": [name]}, {b"attr": b"p", b"length": 384, b"path": [b".pad", b"384"]}]
    write_torrent(path, tree, {}, {b"files": files[:-1], b"pieces": bytes(20 * count)})


def write_files(path, kind, count):
    """The torrent of `count` files of this kind."""
    tree, layers = {}, {}
    for number in range(count):
        components, length, root = kind(number)
        folder = tree
        for component in components[:-1]:
            folder = folder.setdefault(component, {})
        folder[components[-1]] = file_of(length, root)
        if length > 16384:
            layers[root] = layer_of_two(number)
    write_torrent(path, tree, layers)


def write_layer(path, pairs_path, count):
    """The torrent of one file with `count` pieces, and the pairs that its root is the digest over."""
    layer = [sha256(b"%d" % number) for number in range(count)]
    level, pad = layer, bytes(32)
    with open(pairs_path, "wb") as pairs:
        while len(level) > 1:
            level = level + [pad] * (len(level) % 2)
            joined = [level[i] + level[i + 1] for i in range(0, len(level), 2)]
            pairs.write(b"".join(joined))
            level, pad = [sha256(pair) for pair in joined], sha256(pad + pad)
    write_torrent(path, {b"file": file_of(count * BLOCK, level[0])}, {level[0]: b"".join(layer)})


KINDS = [plain, one_root, like_roots, like_names, deep_paths, own_folders, layers_each]
WRITERS = {kind.__name__.replace("_", " "): functools.partial(write_files, kind=kind) for kind in KINDS}
WRITERS["hybrid"] = write_hybrid
COUNTS = [25_000, 50_000, 100_000]


def show_files(folder, words):
    """Measures torrents of many files, and gives the marks that they miss, in words."""
    commands = {}
    for name, write in WRITERS.items():
        for count in COUNTS:
            path = os.path.join(folder, f"{name} {count}")
            write(path, count=count)
            commands[name, count] = [BTCHECK, "show", path]
    found = measured(commands, words.rounds)
    print("show, best of interleaved rounds; microseconds of processor time a file")
    print(f"{'files':14}" + "".join(f"{count:>10}" for count in COUNTS) + f"{'whole, s':>10} {'peak KiB':>9}")
    missed = []
    for name in WRITERS:
        costs = [found[name, count].processor / count * 1e6 for count in COUNTS]
        whole = found[name, COUNTS[-1]]
        print(f"{name:14}" + "".join(f"{cost:10.2f}" for cost in costs) + f"{whole.processor:10.3f} {whole.peak:9}")
        if costs[-1] > FILE_MARK * costs[0]:
            missed.append(f"{name}: a file of {COUNTS[-1]} takes more than {FILE_MARK} x one of {COUNTS[0]}")
    if found["plain", COUNTS[-1]].processor > SHOW_MARK:
        missed.append(f"show of {COUNTS[-1]} files takes more than {SHOW_MARK} s")
    return missed


def show_layer(folder, words):
    """Measures a long piece layer, and gives the mark if it misses it, in words."""
    build_bare()
    count = 250_000
    path, pairs = os.path.join(folder, "layer"), os.path.join(folder, "pairs")
    write_layer(path, pairs, count)
    found = measured({"btcheck show": [BTCHECK, "show", path], "bare digests": [BARE, "pairs", pairs]}, words.rounds)
    print(f"a piece layer of {count} hashes: ", end="")
    report(found, os.path.getsize(pairs) >> 20, "btcheck show")
    return missed_marks(found, "btcheck show", LAYER_MARKS)


def run(folder, words):
    """Measures `show`, and gives the marks that it misses, in words."""
    need_program()
    return show_files(folder, words) + show_layer(folder, words)
