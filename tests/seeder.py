"""Says how much of a torrent a session of libtorrent finds in a folder.

Run by an interpreter that has libtorrent. Standard input is a JSON list of pairs: a torrent, and the folder that holds
the torrent's own folder. Standard output is a JSON list: whether all of it was found.
"""
import json
import sys
import time

import libtorrent as lt

SECONDS = 50


def session():
    """A session that talks to nobody."""
    quiet = ["enable_dht", "enable_lsd", "enable_upnp", "enable_natpmp", "enable_outgoing_tcp", "enable_incoming_tcp",
             "enable_outgoing_utp", "enable_incoming_utp"]
    return lt.session({"listen_interfaces": "127.0.0.1:0", "alert_mask": 0, **{name: False for name in quiet}})


def is_whole(talk, path, place):
    handle = talk.add_torrent({"ti": lt.torrent_info(path), "save_path": place})
    end = time.monotonic() + SECONDS
    while time.monotonic() < end:
        status = handle.status()
        if status.state in (lt.torrent_status.seeding, lt.torrent_status.finished, lt.torrent_status.downloading):
            return status.is_seeding and status.progress == 1
        time.sleep(0.02)
    return False


if __name__ == "__main__":
    talk = session()
    json.dump([is_whole(talk, path, place) for path, place in json.load(sys.stdin)], sys.stdout)
