"""recheck.py TORRENT FOLDER [THREADS]: lets libtorrent check a folder with one thread, or THREADS; status 1 where a
piece is bad.

The torrent's files lie below FOLDER/NAME, where NAME is the torrent's name.
"""
import sys
import time

import libtorrent as lt

SETTINGS = {
    "aio_threads": 1,
    "hashing_threads": 1,
    "checking_mem_usage": 256,
    "listen_interfaces": "",
    "enable_dht": False,
    "enable_lsd": False,
    "enable_natpmp": False,
    "enable_upnp": False,
}


def main(torrent, folder, threads=1):
    session = lt.session(SETTINGS | {"aio_threads": int(threads), "hashing_threads": int(threads)})
    params = lt.add_torrent_params()
    params.ti = lt.torrent_info(torrent)
    params.save_path = folder
    params.flags = lt.torrent_flags.upload_mode
    handle = session.add_torrent(params)
    while handle.status().state in (lt.torrent_status.checking_files, lt.torrent_status.checking_resume_data):
        time.sleep(0.01)
    return 0 if handle.status().is_seeding else 1


if __name__ == "__main__":
    sys.exit(main(*sys.argv[1:]))
