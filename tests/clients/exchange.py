"""exchange.py serve TORRENT CONTENT pieces|blocks: takes the pieces of CONTENT, the files one behind the other, each piece
whole or block by block, and answers the requests for hashes of its standard input. exchange.py learn TORRENT: begins with the
roots alone, and asks on its standard output for the leaf of each block, the last one first; standard error says how often."""
import struct
import sys

import btcheck


def read():
    size = sys.stdin.buffer.read(4)
    return sys.stdin.buffer.read(struct.unpack(">I", size)[0]) if size else None


def write(kind, ask, hashes=()):
    body = bytes([kind]) + ask.root + struct.pack(">4I", ask.base, ask.index, ask.length, ask.proof) + b"".join(hashes)
    sys.stdout.buffer.write(struct.pack(">I", len(body)) + body)
    sys.stdout.buffer.flush()


def take(session, content, by_blocks):
    holdings, piece_length, before = btcheck.Holdings(session, 0), session.piece_length(), 0
    for file in session.files():
        for at in range(0, file.length, piece_length):
            index, piece = file.first_piece + at // piece_length, content[before + at:before + min(at + piece_length, file.length)]
            if by_blocks:
                for begin in range(0, len(piece), btcheck.BLOCK):
                    session.hold(holdings, index, begin, piece[begin:begin + btcheck.BLOCK])
                while session.settle(holdings):
                    pass
            else:
                session.take_piece(index, piece)
        before += file.length


def serve(session):
    while body := read():
        ask = btcheck.Ask(body[1:33], *struct.unpack(">4I", body[33:]))
        try:
            write(22, ask, session.answer(ask))
        except btcheck.Nothing:
            write(23, ask)


def learn(session):
    asked = 0
    for file in session.files():
        for block in reversed(range(-(-file.length // btcheck.BLOCK))):
            while ask := session.want(file.tree, block):
                write(21, ask)
                assert isinstance(session.frame(read()), btcheck.Stored)
                asked += 1
    print(f"asked {asked}", file=sys.stderr)


def main(way, torrent, *more):
    with open(torrent, "rb") as file:
        session = btcheck.Session(file.read(), layers=way == "serve")
    if way == "learn":
        return learn(session)
    with open(more[0], "rb") as file:
        take(session, file.read(), more[1] == "blocks")
    serve(session)


main(*sys.argv[1:])
