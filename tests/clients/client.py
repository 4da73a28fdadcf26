"""client.py TORRENT OUT SEED PORT PORT: loads a torrent from two peers of this machine, block by block in random order, and
writes into OUT what the library verifies, file behind file. A peer that lies is not asked the same again: the other one is.
The last line is `verified N of N, refused H hashes and B blocks`."""
import random
import socket
import struct
import sys

import btcheck


class Peer:
    """A connection to a peer, after both handshakes."""

    def __init__(self, port, info_hash):
        self.stream = socket.create_connection(("127.0.0.1", port)).makefile("rwb")
        greeting = b"\x13BitTorrent protocol" + bytes(8) + info_hash[:20]
        self.stream.write(greeting + bytes(20))
        self.stream.flush()
        assert self.stream.read(68)[28:48] == info_hash[:20]

    def answer(self, body, kinds):
        """Sends a message, and waits for one of these kinds."""
        self.stream.write(struct.pack(">I", len(body)) + body)
        self.stream.flush()
        while True:
            found = self.stream.read(struct.unpack(">I", self.stream.read(4))[0])
            if found[:1] and found[0] in kinds:
                return found


def fields(ask):
    return ask.root + struct.pack(">4I", ask.base, ask.index, ask.length, ask.proof)


def learn(session, peers, tree, block):
    """Learns the leaf of a block; gives how many lies it met."""
    lies = 0
    while ask := session.want(tree, block):
        session.note(ask)
        body = peers[lies % 2].answer(bytes([21]) + fields(ask), {22, 23})
        try:
            assert body[0] == 22 and body[1:49] == fields(ask)
            session.take_answer(ask, [body[at:at + 32] for at in range(49, len(body), 32)])
        except btcheck.HashesRefused:
            lies += 1
    return lies


def load(session, peers, index, begin, size):
    """Loads a block; gives it, and how many lies it met."""
    lies = 0
    while True:
        body = peers[lies % 2].answer(struct.pack(">BIII", 6, index, begin, size), {7})
        try:
            session.take_block(index, begin, body[9:])
            return body[9:], lies
        except btcheck.BlockRefused:
            lies += 1


def blocks(session):
    """The blocks of all files: where each stands in OUT and in its file, its size, its piece's number, its tree."""
    before = 0
    for file in session.files():
        for at in range(0, file.length, btcheck.BLOCK):
            yield before, at, min(btcheck.BLOCK, file.length - at), file.first_piece, file.tree
        before += file.length


def main(torrent, out, seed, *ports):
    with open(torrent, "rb") as file:
        session = btcheck.Session(file.read())
    peers = [Peer(int(port), session.info_hashes()[0]) for port in ports]
    draw, order, length = random.Random(int(seed)), list(blocks(session)), session.piece_length()
    draw.shuffle(order)
    verified = of_hashes = of_blocks = 0
    with open(out, "wb") as file:
        for before, at, size, first, tree in order:
            draw.shuffle(peers)
            of_hashes += learn(session, peers, tree, at // btcheck.BLOCK)
            block, lies = load(session, peers, first + at // length, at % length, size)
            of_blocks += lies
            verified += session.is_marked(tree, at // btcheck.BLOCK)
            file.seek(before + at)
            file.write(block)
    print(f"verified {verified} of {len(order)}, refused {of_hashes} hashes and {of_blocks} blocks")


main(*sys.argv[1:])
