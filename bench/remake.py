"""remake.py CONTENT OUT PIECE_LENGTH v2|hybrid: lets libtorrent make a torrent of a file or a folder with one thread,
which is what it does by itself."""
import os
import sys

import libtorrent as lt


def main(content, out, piece_length, kind):
    storage = lt.file_storage()
    lt.add_files(storage, content)
    torrent = lt.create_torrent(storage, int(piece_length), 0 if kind == "hybrid" else lt.create_torrent.v2_only)
    lt.set_piece_hashes(torrent, os.path.dirname(content))
    with open(out, "wb") as file:
        file.write(lt.bencode(torrent.generate()))


if __name__ == "__main__":
    main(*sys.argv[1:])
