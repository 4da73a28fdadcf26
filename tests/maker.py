"""Makes torrents by libtorrent, which shares nothing with the program under test.

Run by an interpreter that has libtorrent. Standard input is a JSON list of orders: the folder or file to make a
torrent of, where to write it, the piece length, and whether it is to be a hybrid. Standard output is a JSON list of
what libtorrent itself says of each torrent that it wrote, read back from the file.
"""
import json
import os
import sys

import libtorrent as lt


def make(order):
    storage = lt.file_storage()
    lt.add_files(storage, order["content"])
    kind = 0 if order["hybrid"] else lt.create_torrent.v2_only
    torrent = lt.create_torrent(storage, order["piece_length"], kind)
    lt.set_piece_hashes(torrent, os.path.dirname(order["content"]))
    made = torrent.generate()
    with open(order["torrent"], "wb") as out:
        out.write(lt.bencode(made))
    return facts(made[b"info"][b"name"].decode(), lt.torrent_info(order["torrent"]))


def facts(name, info):
    """Name, piece length, info-hashes, and each file's length, root and path, in the torrent's order.

    The name is the one that was written: read back, libtorrent gives the file's name where a folder has one file.
    """
    files = info.files()
    listed = []
    for number in range(files.num_files()):
        if files.file_flags(number) & lt.file_storage.flag_pad_file:
            continue
        root = files.root(number).to_bytes().hex() if files.file_size(number) else "-"
        listed.append([files.file_size(number), root, files.file_path(number)])
    hashes = info.info_hashes()
    return {
        "name": name,
        "piece_length": info.piece_length(),
        "v2": hashes.v2.to_bytes().hex(),
        "v1": hashes.v1.to_bytes().hex() if hashes.has_v1() else None,
        "files": listed,
    }


if __name__ == "__main__":
    json.dump([make(order) for order in json.load(sys.stdin)], sys.stdout)
