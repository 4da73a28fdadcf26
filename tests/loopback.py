"""Lets one libtorrent session load a torrent from others over loopback, through tools/record.

Run by an interpreter that has libtorrent. Standard input is a JSON object: the folder that holds the content, the torrent
file, an empty folder for what is loaded, whether the loader starts with the info dictionary alone, the file for the record,
how many sessions hold the content, and whether a liar stands between the one holder and the relay. The loader is our side.
Standard output is a JSON list of the numbers of the frames that are lies, counted from 0 among those that came in.
"""
import atexit
import json
import os
import signal
import socket
import subprocess
import sys
import threading
import time

import libtorrent as lt

RECORD = os.path.join(os.path.dirname(os.path.dirname(os.path.abspath(__file__))), "tools", "record")
HANDSHAKE = 68
SECONDS = 50


def session():
    """A session that talks to nobody by itself, without encryption."""
    quiet = {name: False for name in ["enable_dht", "enable_lsd", "enable_upnp", "enable_natpmp", "enable_outgoing_utp",
                                      "enable_incoming_utp"]}
    return lt.session({"listen_interfaces": "127.0.0.1:0", "out_enc_policy": int(lt.enc_policy.pe_disabled),
                       "in_enc_policy": int(lt.enc_policy.pe_disabled), "allow_multiple_connections_per_ip": True,
                       "alert_mask": 0, **quiet})


class Passing:
    """Passes connections on to a port of this machine; what comes from there goes through this call."""

    def __init__(self, port, change):
        self.port, self.change, self.server = port, change, socket.create_server(("127.0.0.1", 0))
        threading.Thread(target=self.accept, daemon=True).start()

    def accept(self):
        while True:
            near, _ = self.server.accept()
            far = socket.create_connection(("127.0.0.1", self.port))
            for ends in [(near, far, bytes), (far, near, self.change)]:
                threading.Thread(target=pump, args=ends, daemon=True).start()

    def own_port(self):
        return self.server.getsockname()[1]


def pump(source, sink, change):
    try:
        while part := source.recv(65536):
            sink.sendall(change(part))
    except OSError:
        pass
    for end in (source, sink):
        try:
            end.shutdown(socket.SHUT_RDWR)
        except OSError:
            pass


class Liar:
    """Turns a bit in some of the frames that the holder sends. Behind the relay it turns them back, since libtorrent
    hangs up on a liar."""

    def __init__(self):
        self.rest, self.has_greeted, self.count, self.counts = b"", False, 0, {7: 0, 22: 0}
        self.passed, self.restored = 0, 0  # bytes
        self.lies, self.places = [], []  # the numbers of the frames, and where among all bytes the turned ones stand

    def lie(self, part):
        """Gives what is whole: the handshake, and then frames."""
        self.rest += part
        given = self.whole(HANDSHAKE, bytes) if not self.has_greeted else b""
        self.has_greeted = self.passed > 0
        while self.has_greeted and len(self.rest) >= 4:
            frame = self.whole(4 + int.from_bytes(self.rest[:4], "big"), self.bent)
            if not frame:
                break
            given += frame
        return given

    def whole(self, size, change):
        """The next `size` bytes, changed, or none if they are not there yet."""
        if len(self.rest) < size:
            return b""
        given, self.rest = change(self.rest[:size]), self.rest[size:]
        self.passed += size
        return given

    def bent(self, frame):
        """Of every ninth block a bit of its own or of its place is turned, of two hashes messages in three one of a
        hash or of the proof layers."""
        self.count += 1
        kind = frame[4] if len(frame) > 4 else None
        if kind not in self.counts:
            return frame
        self.counts[kind] += 1
        at = {4: 3000, 13: 5}.get(self.counts[7] % 18) if kind == 7 else {2: 60, 0: 52}.get(self.counts[22] % 3)
        if at is None:
            return frame
        self.lies.append(self.count - 1)
        self.places.append(self.passed + at)
        return turn(frame, at)

    def restore(self, part):
        start, self.restored = self.restored, self.restored + len(part)
        for place in self.places:
            if start <= place < self.restored:
                part = turn(part, place - start)
        return part


def turn(text, at):
    return text[:at] + bytes([text[at] ^ 1]) + text[at + 1:]


class Relay:
    """The tool, in front of these ports."""

    def __init__(self, ports, out):
        pairs = [word for port in ports for word in ("127.0.0.1:0", f"127.0.0.1:{port}")]
        self.program = subprocess.Popen([RECORD, *pairs, out], stderr=subprocess.PIPE, text=True)
        atexit.register(self.program.kill)
        said = [self.program.stderr.readline().split(" for ")[0] for _ in ports]
        self.ports = [int(line.rsplit(":", 1)[1]) for line in said]

    def stop(self):
        """Ends it, unless it has ended with the connections. One to each port has to be recorded, and if there is one port
        it has to be the only one; of several peers libtorrent tries some twice."""
        if self.program.poll() is None:
            self.program.send_signal(signal.SIGTERM)
        said = self.program.stderr.read()
        if self.program.wait(SECONDS) != 0 or len(self.ports) == 1 and "only passed on" in said:
            sys.exit(f"not one connection to each port that was recorded:\n{said}")


def wait_for(what, done):
    end = time.monotonic() + SECONDS
    while not done():
        if time.monotonic() > end:
            sys.exit(f"{what}: nothing after {SECONDS} seconds")
        time.sleep(0.02)


def holding(order, info):
    """A session that holds the content; one of several lets nobody have all of it at once."""
    holder = session()
    held = holder.add_torrent({"ti": info, "save_path": order["content"]})
    if order.get("holders", 1) > 1:
        held.set_upload_limit(400_000)  # that of a session does not hold on one machine
    wait_for("the content is not found", lambda: held.status().is_seeding)
    wait_for("nobody listens", lambda: holder.listen_port() != 0)
    return holder


def main(order):
    info = lt.torrent_info(order["torrent"])
    holders, loader, liar = [holding(order, info) for _ in range(order.get("holders", 1))], session(), Liar()
    ports = [holder.listen_port() for holder in holders]
    lying = order["lies"]
    relay = Relay([Passing(ports[0], liar.lie).own_port()] if lying else ports, order["record"])
    doors = [Passing(relay.ports[0], liar.restore).own_port()] if lying else relay.ports
    if order["info_only"]:
        known = lt.parse_magnet_uri(lt.make_magnet_uri(info))
    else:
        known = lt.add_torrent_params()
        known.ti = lt.torrent_info(order["torrent"])
    known.save_path = order["loaded"]
    loaded = loader.add_torrent(known)
    for port in doors:
        count = len(loaded.get_peer_info())
        wait_for("nobody connects", lambda: len(loaded.get_peer_info()) > count or loaded.status().is_seeding
                 or loaded.connect_peer(("127.0.0.1", port)))
    wait_for("it is not loaded", lambda: loaded.status().is_seeding)
    time.sleep(0.2)
    relay.stop()
    json.dump(liar.lies, sys.stdout)
    sys.stdout.flush()
    os._exit(0)  # the sessions end slowly


if __name__ == "__main__":
    main(json.load(sys.stdin))
