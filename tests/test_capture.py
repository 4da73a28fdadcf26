"""docs/RECORDING.md: a packet capture becomes a record by tcpflow."""
import os
import re
import struct
import subprocess

import messages
import record_model
from session_model import Session
from support import BTCHECK, TOP, folder, need, write
from torrents import ABC

HANDSHAKE = b"\x13BitTorrent protocol" + bytes(48)
PEER, OURS = (bytes([192, 0, 2, 7]), 6881), (bytes([198, 51, 100, 4]), 50000)
FIN, SYN, ACK = 1, 2, 16


def recipe(*texts):
    """The lines of the page's blocks of code that have these texts, one each."""
    with open(f"{TOP}/docs/RECORDING.md", encoding="utf-8") as page:
        lines = "".join(re.findall(r"^```sh\n(.*?)^```$", page.read(), re.M | re.S)).splitlines()
    found = [[line for line in lines if text in line] for text in texts]
    assert all(len(of) == 1 for of in found), found
    return [of[0] for of in found]


def checksum(text):
    """The internet checksum (RFC 1071)."""
    text += bytes(len(text) % 2)
    total = sum(struct.unpack(f">{len(text) // 2}H", text))
    while total >> 16:
        total = (total & 0xffff) + (total >> 16)
    return total ^ 0xffff


def with_checksum(header, at, *covered):
    return header[:at] + checksum(b"".join(covered)).to_bytes(2, "big") + header[at + 2:]


def packet(source, target, number, flags, content=b""):
    """A TCP segment with this sequence number, in an IPv4 packet, in an Ethernet frame."""
    segment = struct.pack(">HHIIBBHHH", source[1], target[1], number % (1 << 32), 1, 5 << 4, flags | ACK, 65535, 0, 0)
    pseudo = source[0] + target[0] + struct.pack(">HH", 6, 20 + len(content))
    segment = with_checksum(segment, 16, pseudo, segment, content)
    header = struct.pack(">BBHHHBBH", 0x45, 0, 40 + len(content), 0, 0x4000, 64, 6, 0) + source[0] + target[0]
    return bytes(12) + b"\x08\x00" + with_checksum(header, 10, header) + segment + content


def capture(packets):
    """A file as tcpdump writes it."""
    parts = [struct.pack("<IHHiIII", 0xa1b2c3d4, 2, 4, 0, 0, 262144, 1)]
    for at, text in enumerate(packets):
        parts += [struct.pack("<IIII", 1700000000, at, len(text), len(text)), text]
    return b"".join(parts)


def segments(source, target, start, stream, size):
    """The packets of a stream whose first byte has the sequence number behind the start; the first one opens it."""
    yield packet(source, target, start, SYN)
    for at in range(0, len(stream), size):
        yield packet(source, target, start + 1 + at, 0, stream[at:at + size])
    yield packet(source, target, start + 1 + len(stream), FIN)


def recorded(place, packets):
    """What the page's recipe makes of a capture of these packets: the record, and the run of `replay`."""
    need("tcpflow")
    write(f"{place}/capture.pcap", capture(packets))
    write(f"{place}/TORRENT", ABC)
    os.mkdir(f"{place}/bin")
    os.symlink(BTCHECK, f"{place}/bin/btcheck")
    steps = [*recipe("tcpflow -r", "tail -c +69"), "btcheck replay TORRENT record"]
    done = subprocess.run(["sh", "-ec", "\n".join(steps)], cwd=place, stdout=subprocess.PIPE, stderr=subprocess.PIPE,
                          env={**os.environ, "PATH": f"{place}/bin:{os.environ['PATH']}"}, timeout=60)
    with open(f"{place}/record", "rb") as file:
        return file.read(), done


def replayed(record):
    """How the model replays it: the status and the report."""
    return record_model.report(Session([("abc.txt", b"abc")], 16384, True), record)


def test_a_capture_becomes_a_record():
    frames = [messages.KEEP_ALIVE, messages.frame(b"\x05" + bytes(2000)), messages.piece(0, 0, b"abd"),
              messages.piece(0, 0, b"abc"), messages.frame(b"\x04" + bytes(4))]
    wanted = b"".join(frames)
    came = list(segments(PEER, OURS, (1 << 32) - 300, HANDSHAKE + wanted, 100))  # the numbers wrap around
    went = list(segments(OURS, PEER, 7, HANDSHAKE + messages.frame(b"\x02"), 1400))
    came[3], came[4] = came[4], came[3]  # one overtook the other
    came.insert(9, came[2])  # one was sent twice
    with folder() as place:
        record, done = recorded(place, [went[0], came[0], *went[1:], *came[1:]])
        assert record == wanted
        assert (done.returncode, done.stdout) == replayed(record), done


def holes(place, packets):
    """What the page's recipe for lost packets prints of a capture of these."""
    need("tcpdump")
    write(f"{place}/capture.pcap", capture(packets))
    steps = "\n".join(recipe("tcpdump -nr", "sed -n", "print \"lost"))
    return subprocess.run(["sh", "-ec", steps], cwd=place, stdout=subprocess.PIPE, check=True, text=True, timeout=60).stdout


def test_lost_packets_are_found():
    """Each hole, at the start, in the middle and over several packets; not what came twice, or late, or from the other side."""
    came = list(segments(PEER, OURS, (1 << 32) - 300, HANDSHAKE + bytes(5000), 100))
    went = list(segments(OURS, PEER, 7, HANDSHAKE, 1400))
    with folder() as place:
        assert holes(place, [*went, *came[:9], came[10], came[9], came[3], *came[11:]]) == ""
        lost = [came[0], *came[2:20], *came[21:30], *came[33:], *went[:1]]
        assert holes(place, lost) == "lost: bytes 1 to 100\nlost: bytes 1901 to 2000\nlost: bytes 2901 to 3200\n"


def test_packets_that_the_capture_lost():
    """They stand as zeros, and the end is missing."""
    wanted = messages.piece(0, 0, bytes([1]) * 16384) + messages.piece(0, 0, b"abc") + messages.frame(b"\x05" + bytes(200))
    came = list(segments(PEER, OURS, 1000, HANDSHAKE + wanted, 100))
    with folder() as place:
        record, done = recorded(place, [*came[:50], *came[51:-2]])
        assert record == (wanted[:4832] + bytes(100) + wanted[4932:])[:len(record)] and 0 < len(wanted) - len(record) < 100
        assert (done.returncode, done.stdout) == replayed(record), done
        assert done.stdout.endswith(b"2 verified 0 0\nfault Truncated\n"), done
