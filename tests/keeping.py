"""Lets one libtorrent session load a torrent from another over loopback, through the client that keeps what is verified.

Run by an interpreter that has libtorrent. Standard input is a JSON object: the folder that holds the content, the torrent
file, an empty folder for what libtorrent loads, whether it starts with the info dictionary alone, the client's program, the
folder for what it keeps, and whether a liar stands before the holder too, whom libtorrent meets first. libtorrent hangs up
on a liar soon; so if its lies are to be hidden, libtorrent sees the truth behind the client, loads all, and then loads all
once more from the holder. Standard output is a JSON object: the client's status, what it said, and how many lies were told
it in blocks and in hashes messages.
"""
import json
import os
import socket
import subprocess
import sys
import threading
import time

import libtorrent as lt

from loopback import SECONDS, Liar, Passing, pump, session, turn, wait_for

PIECE, HASHES = 7, 22


class Lying(Passing):
    """Passes connections on to a port, through somebody of this class for each, who changes what comes from there."""

    def __init__(self, port, make):
        self.make, self.liars = make, []
        super().__init__(port, None)

    def accept(self):
        while True:
            near, _ = self.server.accept()
            far = socket.create_connection(("127.0.0.1", self.port))
            self.liars.append(self.make())
            for ends in [(near, far, bytes), (far, near, self.liars[-1].lie)]:
                threading.Thread(target=pump, args=ends, daemon=True).start()

    def lies(self):
        return {kind: sum(liar.told[kind] for liar in self.liars) for kind in (PIECE, HASHES)}


class OfHalf(Liar):
    """Turns a bit in every second block, mostly of the block and sometimes of its place, and one of a hash in every second
    hashes message."""

    def __init__(self):
        super().__init__()
        self.told = {PIECE: 0, HASHES: 0}

    def bent(self, frame):
        kind = frame[4] if len(frame) > 4 else None
        if kind not in self.told:
            return frame
        self.counts[kind] += 1
        if self.counts[kind] % 2:
            return frame
        self.told[kind] += 1
        at = 60 if kind == HASHES else 10 if self.counts[kind] % 8 == 0 else len(frame) - 1
        lie = turn(frame, at)
        TRUTH[lie] = frame
        return lie


# What each lie was before.
TRUTH = {}


class Hiding(Liar):
    """Gives the truth for each lie."""

    def bent(self, frame):
        return TRUTH.get(frame, frame)


class Keeper:
    """The client, in front of some ports."""

    def __init__(self, order, ports):
        words = [order["program"], *(["--ask"] if order["asks"] else []), order["torrent"], order["kept"], str(SECONDS), *(f"127.0.0.1:{port}" for port in ports)]
        self.program = subprocess.Popen(words, stdout=subprocess.PIPE, stderr=subprocess.PIPE, text=True)
        self.ports = [int(self.program.stdout.readline().split()[0]) for _ in ports]

    def ended(self):
        said, fault = self.program.communicate(timeout=2 * SECONDS)
        return self.program.returncode, (said + fault).strip()


def parameters(order):
    """What the loader is given of the torrent."""
    info = lt.torrent_info(order["torrent"])
    if order["info_only"]:
        known = lt.parse_magnet_uri(lt.make_magnet_uri(info))
    else:
        known = lt.add_torrent_params()
        known.ti = info
    known.save_path = order["loaded"]
    return known


def meet(loaded, port):
    """Connects to a peer, also again: libtorrent hangs up on a true one too, at times."""
    if not any(peer.ip[1] == port for peer in loaded.get_peer_info()):
        loaded.connect_peer(("127.0.0.1", port))
    time.sleep(0.1)


def main(order):
    holder, loader = session(), session()
    held = holder.add_torrent({"ti": lt.torrent_info(order["torrent"]), "save_path": order["content"]})
    wait_for("the content is not found", lambda: held.status().is_seeding)
    wait_for("nobody listens", lambda: holder.listen_port() != 0)
    port = holder.listen_port()
    liars = [Lying(port, OfHalf)] if order["lies"] else []
    keeper = Keeper(order, [*(liar.own_port() for liar in liars), port])
    loaded = loader.add_torrent(parameters(order))
    if order["hides"]:
        hidden = Lying(keeper.ports[0], Hiding).own_port()
        wait_for("it is not loaded", lambda: loaded.status().is_seeding or meet(loaded, hidden))
        other, order["loaded"] = session(), f"{order['loaded']}-again"
        loaded = other.add_torrent(parameters(order))
    elif liars:
        wait_for("there is no lie", lambda: any(liars[0].lies().values()) or meet(loaded, keeper.ports[0]))
    wait_for("too slow", lambda: keeper.program.poll() is not None or meet(loaded, keeper.ports[-1]))
    status, said = keeper.ended()
    lies = liars[0].lies() if liars else {PIECE: 0, HASHES: 0}
    json.dump({"status": status, "said": said, "blocks": lies[PIECE], "hashes": lies[HASHES]}, sys.stdout)
    sys.stdout.flush()
    os._exit(0)  # the sessions end slowly


if __name__ == "__main__":
    main(json.load(sys.stdin))
