"""A plain model of `check`: what lies at each path, read by Python, against an opened torrent of opening_model."""
import hashlib
import os
import stat

from opening_model import pieces_of
from support import escaped
from trees import BLOCK, Tree

# What is there and cannot be read as a file.
UNREADABLE = "unreadable"


def state_of(path):
    """What a check finds at a path: its bytes, None if nothing is there, or that it is unreadable."""
    try:
        if not stat.S_ISREG(os.stat(path).st_mode):
            return UNREADABLE
        with open(path, "rb") as file:
            return file.read()
    except FileNotFoundError:
        return None
    except OSError:
        return UNREADABLE


def first_bad_piece(content, layer, piece_length):
    """The first piece of a file whose node differs from its layer; the only piece if there is no layer."""
    if len(content) <= piece_length:
        return 0
    nodes = Tree.of(content).whole_layer((piece_length // BLOCK).bit_length() - 1)
    return next(at for at, node in enumerate(nodes) if node != layer[32 * at:32 * at + 32])


def verdict(torrent, content, length, root, first):
    """What a check says of one file."""
    if content is None:
        return "missing"
    if content == UNREADABLE:
        return "unreadable"
    if len(content) != length:
        return "wrong length"
    if not length or Tree.of(content).root == root:
        return "good"
    return f"bad {first + first_bad_piece(content, torrent.layers_of.get(root, b''), torrent.piece_length)}"


def version_1_verdict(torrent, states):
    """What a check says of the version 1 pieces, if all files could be read whole."""
    contents = iter(states)
    stream = b"".join(bytes(length) if path is None else next(contents) for path, length in torrent.version_1_list())
    pieces = torrent.info[b"pieces"]
    for at in range(pieces_of(len(stream), torrent.piece_length)):
        cut = stream[at * torrent.piece_length:(at + 1) * torrent.piece_length]
        if hashlib.sha1(cut).digest() != pieces[20 * at:20 * at + 20]:
            return f"bad {at}"
    return "good"


def report(torrent, folder):
    """The status and the text of `check` of this folder."""
    lines, verdicts, states, first = [], [], [], 0
    for path, length, root in torrent.files:
        states.append(state_of(folder + b"/" + b"/".join(path)))
        verdicts.append(verdict(torrent, states[-1], length, root, first))
        lines.append(f"{verdicts[-1]} {escaped(b'/'.join(path).decode())}")
        first += pieces_of(length, torrent.piece_length)
    if torrent.is_hybrid:
        whole = all(answer == "good" or answer.startswith("bad ") for answer in verdicts)
        verdicts.append(version_1_verdict(torrent, states) if whole else "not checked")
        lines.append(f"v1 {verdicts[-1]}")
    yes = all(answer == "good" for answer in verdicts)
    text = "".join(f"{line}\n" for line in [*lines, "yes" if yes else "no"])
    return 0 if yes else 1, text.encode()
