"""Hybrids in clients of version 1: what README and the manual say of those that Debian 12 has, of the ones that are installed
here in that version."""
import glob
import os
import re
import shutil
import subprocess
import time

from support import TOP, expect, folder, run

NEW = ["--name", "pair", "--piece-length", "32768", "--hybrid"]


def version_of(command, *words):
    """The version that a client says it has, or nothing if it is not installed."""
    if not shutil.which(command):
        return ""
    done = subprocess.run([command, *words], stdout=subprocess.PIPE, stderr=subprocess.STDOUT, text=True)
    return re.search(r"\d+(?:\.\d+)+", done.stdout)[0]


def kept_by_rtorrent(place, torrent):
    """The info hashes of the torrents that rtorrent keeps once it was started with this one, on a terminal of `script`."""
    os.mkdir(f"{place}/session")
    line = f"exec rtorrent -n -s {place}/session -d {place} -o network.port_open.set=no {torrent}"
    with subprocess.Popen(["script", "-qc", line, "/dev/null"], stdin=subprocess.DEVNULL, stdout=subprocess.DEVNULL, stderr=subprocess.DEVNULL,
                          env={**os.environ, "TERM": "xterm"}) as client:
        for _ in range(300):
            found = glob.glob(f"{place}/session/*.torrent")
            if found:
                break
            time.sleep(0.1)
        client.terminate()
    return [os.path.basename(path).removesuffix(".torrent").lower() for path in found]


def test_hybrids_in_clients_of_version_1():
    with folder() as place:
        torrent = f"{place}/pair.torrent"
        expect(run("create", f"{TOP}/examples/pair", torrent, *NEW), 0)
        info_hash = re.search(r"^info hash v1: (\w+)$", run("show", torrent).stdout.decode(), re.M)[1]
        if version_of("transmission-show", "--version") == "3.00":
            done = subprocess.run(["transmission-show", torrent], stdout=subprocess.PIPE, stderr=subprocess.STDOUT, text=True)
            assert "Error parsing .torrent file" in done.stdout, done
        if version_of("aria2c", "--version").startswith("1.36."):
            done = subprocess.run(["aria2c", "-S", torrent], stdout=subprocess.PIPE, stderr=subprocess.STDOUT, text=True)
            assert re.search(r"^Info Hash: (\w{40})$", done.stdout, re.M)[1] != info_hash, done
        if version_of("rtorrent", "-h") == "0.9.8" and shutil.which("script"):
            assert kept_by_rtorrent(place, torrent) == [info_hash]
