"""`btcheck show TORRENT`, on torrents that libtorrent made of real folders, and on worked ones."""
import hashlib
import os
import random

from support import escaped, expect, folder, made_by_libtorrent, run, write
from torrents import ABC, LIST, TWO, bencoded, file, hybrid, info, pad, torrent
from trees import layer, root_of, root_of_file

A = "ba7816bf8f01cfea414140de5dae2223b00361a396177a9cb410ff61f20015ad"

# The info dictionary of the torrent of `abc.txt`, as it stands there.
INFO = ABC[7:148]

# Folders as lists of a path and a length; the content is random.
FOLDERS = {
    "one": [("only", 70000)],
    "many": [("a.txt", 16385), ("a/b", 3), ("a/c/d", 16384), ("b", 100000), ("z", 1)],
    "empties": [("a", 0), ("b", 40000), ("c/d", 0), ("e", 0)],
    # libtorrent itself writes `_` for bytes below 0x20, and leaves the backslash out
    "names": [("ünïcode", 20000), ("文件/目录", 5), ("with space", 7), ("del\x7f", 9)],
    "large": [("first", 3 << 20), ("second", (2 << 20) + 12345), ("third", 99)],
}


def make_folder(place, name, files, seed):
    """Writes the files below a new folder, and gives it."""
    for path, length in files:
        os.makedirs(os.path.dirname(f"{place}/{name}/{path}"), exist_ok=True)
        write(f"{place}/{name}/{path}", random.Random(f"{seed} {path}").randbytes(length))
    return f"{place}/{name}"


def lines_of(made):
    """What `show` is to print of what libtorrent says."""
    lines = [f"name: {escaped(made['name'])}", f"piece length: {made['piece_length']}", f"info hash v2: {made['v2']}"]
    if made["v1"] is not None:
        lines.append(f"info hash v1: {made['v1']}")
    lines.append(f"files: {len(made['files'])}")
    for length, root, path in made["files"]:
        lines.append(f"{length} {root} {escaped(path.removeprefix(made['name'] + '/'))}")
    return "".join(f"{line}\n" for line in lines)


def real_path(content, path):
    """Where the file lies that stands under this path in libtorrent's list.

    A path there begins with the folder's name, but where the folder has one file.
    """
    if os.path.isfile(content):
        return content
    beside, below = os.path.join(os.path.dirname(content), path), os.path.join(content, path)
    return beside if os.path.exists(beside) else below


def test_worked_torrent():
    with folder() as place:
        assert len(ABC) == 166 and len(INFO) == 141
        text = (f"name: abc\npiece length: 16384\ninfo hash v2: {hashlib.sha256(INFO).hexdigest()}\n"
                f"files: 1\n3 {A} abc.txt\n")
        expect(run("show", write(f"{place}/t", ABC)), 0, text)
        more = b"d8:announce17:http://t.invalid/13:creation datei1700000000e" + ABC[1:]
        expect(run("show", write(f"{place}/t", more)), 0, text)
        expect(run("show", write(f"{place}/t", ABC.replace(b"12:piece layersde", b""))), 0, text)
        expect(run("show", "/dev/stdin", input=ABC), 0, text)


def shown(place, content, lines):
    """`show` of this torrent file prints these lines."""
    expect(run("show", write(f"{place}/t", content)), 0, "".join(f"{line}\n" for line in lines))


def hashes(value):
    """The lines of the info-hashes of this info dictionary."""
    spelled = bencoded(value)
    return [f"info hash v2: {hashlib.sha256(spelled).hexdigest()}", f"info hash v1: {hashlib.sha1(spelled).hexdigest()}"]


def test_hybrids_have_two_info_hashes():
    last = ["files: 2", f"16385 {root_of(TWO).hex()} a", f"3 {A} c"]
    with folder() as place:
        for value in [hybrid(), hybrid(LIST + [pad(32765)])]:
            shown(place, torrent(value), ["name: x", "piece length: 32768", *hashes(value), *last])
        single = info({"c": file(b"abc")}, name="c", length=3, pieces=hashlib.sha1(b"abc").digest())
        shown(place, torrent(single), ["name: c", "piece length: 16384", *hashes(single), "files: 1", f"3 {A} c"])


def test_files_in_the_order_of_their_components():
    tree = {"a": {"b": file(b"abc"), "empty": {}, "none": file(b"")}, "a.txt": file(b"abc"), "b": file(b"", mtime=1)}
    value = info(tree)
    with folder() as place:
        shown(place, torrent(value), ["name: x", "piece length: 16384", hashes(value)[0], "files: 4",
                                      f"3 {A} a/b", "0 - a/none", f"3 {A} a.txt", "0 - b"])


def test_piece_layers():
    content = bytes(i % 251 for i in range(65636))
    root, value = root_of(content), info({"five": file(content)}, 32768)
    with folder() as place:
        shown(place, torrent(value, {root: layer(content, 2), bytes(32): b"x"}),
              ["name: x", "piece length: 32768", hashes(value)[0], "files: 1", f"65636 {root.hex()} five"])


def test_escapes():
    odd = "".join(map(chr, range(1, 0x20))) + " !\x7f\\é文\U0001f600"
    seen = "".join(f"\\x{byte:02x}" for byte in range(1, 0x20)) + " !\\x7f\\x5cé文\U0001f600"
    value = info({odd: {odd: file(b"abc")}}, name="\0/" + odd)
    with folder() as place:
        shown(place, torrent(value), [f"name: \\x00/{seen}", "piece length: 16384", hashes(value)[0], "files: 1",
                                      f"3 {A} {seen}/{seen}"])


def test_torrents_of_libtorrent():
    with folder() as place:
        orders = []
        for name, files in FOLDERS.items():
            content = make_folder(place, name, files, 1)
            for piece_length in [16384, 32768, 262144]:
                for hybrid in [False, True]:
                    torrent = f"{place}/{name}-{piece_length}-{hybrid}.torrent"
                    orders.append({"content": content, "torrent": torrent, "piece_length": piece_length, "hybrid": hybrid})
        orders.append({"content": f"{place}/many/b", "torrent": f"{place}/single", "piece_length": 16384, "hybrid": True})
        for order, made in zip(orders, made_by_libtorrent(orders)):
            expect(run("show", order["torrent"]), 0, lines_of(made))
            for length, root, path in made["files"]:
                if length:
                    assert root == root_of_file(real_path(order["content"], path)).hex()


def test_what_cannot_be_read_or_written():
    with folder() as place:
        expect(run("show", f"{place}/missing"), 2, b"", f"fault: cannot read {place}/missing\n")
        expect(run("show", place), 2, b"", f"fault: cannot read {place}\n")
        for content in [ABC, b"de"]:
            path = write(f"{place}/t", content)
            with open("/dev/full", "wb") as full:
                expect(run("show", path, stdout=full), 2, None, "fault: cannot write -\n")
            expect(run("show", path, stdout=None, preexec_fn=lambda: os.close(1)), 2, None, "fault: cannot write -\n")
