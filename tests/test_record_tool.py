"""tools/record between scripted peers: what it passes on, and what it records, byte by byte."""
import contextlib
import os
import random
import resource
import signal
import socket
import struct
import subprocess
import threading
import time

import messages
from record_model import FORM_2
from support import BTCHECK, TOP, expect, folder, run, write
from torrents import ABC

RECORD = f"{TOP}/tools/record"
HANDSHAKE = b"\x13BitTorrent protocol" + bytes(range(48))
CAME_IN, WENT_OUT = 0, 1
SECONDS = 20


class Relay:
    """The tool with a peer at each of its targets. Leaving the `with` ends it if it still runs."""

    def __init__(self, out, listen="127.0.0.1:0", count=1, **options):
        self.doors = [socket.create_server(("127.0.0.1", 0)) for _ in range(count)]
        for door in self.doors:
            door.settimeout(SECONDS)
        self.targets = [f"127.0.0.1:{door.getsockname()[1]}" for door in self.doors]
        words = [word for target in self.targets for word in (listen, target)]
        self.program = subprocess.Popen([RECORD, *words, out], stderr=subprocess.PIPE, text=True, **options)
        self.greetings = [self.heard() for _ in self.doors]
        self.ports = [int(line.removesuffix(f" for {target}").rsplit(":", 1)[1])
                      for line, target in zip(self.greetings, self.targets)]
        self.door, self.port = self.doors[0], self.ports[0]

    def __enter__(self):
        return self

    def __exit__(self, *_):
        self.program.kill()
        self.program.wait()
        self.program.stderr.close()
        for door in self.doors:
            door.close()

    def heard(self):
        """The next line that the tool says."""
        return self.program.stderr.readline().rstrip("\n")

    def connect(self, peer=0):
        """Both ends of a new connection: our side, and the target's."""
        ours = socket.create_connection(("127.0.0.1", self.ports[peer]), SECONDS)
        theirs, _ = self.doors[peer].accept()
        theirs.settimeout(SECONDS)
        return ours, theirs

    def ended(self):
        """The status with which it ends, and what it says until then."""
        said = self.program.stderr.read()
        return self.program.wait(SECONDS), said

    def stop(self, number=signal.SIGTERM):
        self.program.send_signal(number)
        return self.ended()


class Talk:
    """What two ends say one after the other. Each part has arrived before the next one is sent. With a list it is one of
    several talks, which all go on in that list."""

    def __init__(self, ours, theirs, whole=None):
        self.ways, self.said = {WENT_OUT: (ours, theirs), CAME_IN: (theirs, ours)}, []
        self.whole = [] if whole is None else whole

    def say(self, direction, part):
        source, sink = self.ways[direction]
        source.sendall(part)
        got = b""
        while len(got) < len(part):
            more = sink.recv(len(part) - len(got))
            assert more, "the connection has ended"
            got += more
        assert got == part
        self.said.append((direction, part))
        self.whole.append((self, direction, part))

    def greet(self):
        self.say(WENT_OUT, HANDSHAKE)
        self.say(CAME_IN, HANDSHAKE)
        return self

    def record(self):
        """What the record holds now: each frame where its last byte was said, but none before both handshakes."""
        return recorded(self.whole)

    def close(self):
        for end in self.ways[WENT_OUT]:
            end.close()


def recorded(said):
    """The record of what was said in several connections."""
    streams, early, record = {}, {}, FORM_2
    for talk, direction, part in said:
        held = early.setdefault(talk, [])
        for byte in part:
            stream = streams.setdefault((talk, direction), bytearray())
            stream.append(byte)
            whole = bytes(stream[68:])
            if len(whole) >= 4 and len(whole) == 4 + int.from_bytes(whole[:4], "big"):
                held.append(bytes([direction]) + whole)
                del stream[68:]
        if all(len(streams.get((talk, way), b"")) >= 68 for way in (CAME_IN, WENT_OUT)):
            record += b"".join(held)
            held.clear()
    return record


def wait_for(path, content):
    """The record is written behind the passing on, so it may come a little later."""
    end = time.monotonic() + SECONDS
    while content_of(path) != content:
        assert time.monotonic() < end, (content_of(path), content)
        time.sleep(0.002)


def content_of(path):
    with open(path, "rb") as file:
        return file.read()


def some_frame(chance):
    return chance.choice([messages.KEEP_ALIVE, messages.frame(b"\x00"), messages.frame(b"\x05" + chance.randbytes(30)),
                          messages.piece(1, 0, chance.randbytes(200)), messages.request(bytes(32), 0, 0, 2, 1)])


def some_stream(chance):
    """A handshake, frames, and at most the start of another one."""
    return HANDSHAKE + b"".join(some_frame(chance) for _ in range(12)) + bytes(chance.randrange(3))


def cut(chance, stream):
    """A stream in parts of any sizes."""
    while stream:
        size = chance.choice([1, 3, 4, 5, 67, 69, 150, 1000])
        yield stream[:size]
        stream = stream[size:]


def test_every_byte_and_every_frame():
    chance = random.Random(19)
    for _ in range(8):
        parts = {way: list(cut(chance, some_stream(chance))) for way in (CAME_IN, WENT_OUT)}
        with folder() as place, Relay(f"{place}/record") as relay:
            talk = Talk(*relay.connect())
            while any(parts.values()):
                way = chance.choice([way for way in parts if parts[way]])
                talk.say(way, parts[way].pop(0))
                wait_for(f"{place}/record", talk.record())
            for end in talk.ways[WENT_OUT]:
                end.close()
            status, said = relay.ended()
            assert status == 0 and "is recorded" in said, (status, said)
            assert content_of(f"{place}/record") == talk.record()


def test_directions():
    """Our side is the one that connects."""
    with folder() as place, Relay(f"{place}/record") as relay:
        talk = Talk(*relay.connect()).greet()
        talk.say(WENT_OUT, messages.request(bytes(32), 0, 0, 2, 0))
        talk.say(CAME_IN, messages.reject(bytes(32), 0, 0, 2, 0))
        assert relay.stop()[0] == 0
        assert content_of(f"{place}/record") == (bytes.fromhex("ffffffff42544832") +
                                                 b"\x01" + messages.request(bytes(32), 0, 0, 2, 0) +
                                                 b"\x00" + messages.reject(bytes(32), 0, 0, 2, 0))


def test_frames_before_the_other_handshake():
    with folder() as place, Relay(f"{place}/record") as relay:
        talk = Talk(*relay.connect())
        talk.say(WENT_OUT, HANDSHAKE + messages.frame(b"\x05\xff") + b"\x00")
        talk.say(CAME_IN, HANDSHAKE[:60])
        wait_for(f"{place}/record", FORM_2)
        talk.say(CAME_IN, HANDSHAKE[60:] + messages.frame(b"\x01"))
        talk.say(WENT_OUT, bytes(3))
        assert relay.stop()[0] == 0
        frames = b"\x01" + messages.frame(b"\x05\xff") + b"\x00" + messages.frame(b"\x01") + b"\x01" + messages.KEEP_ALIVE
        assert content_of(f"{place}/record") == FORM_2 + frames == talk.record()


def test_half_closes():
    for closer in (WENT_OUT, CAME_IN):
        with folder() as place, Relay(f"{place}/record") as relay:
            talk = Talk(*relay.connect()).greet()
            closing, seeing = talk.ways[closer]
            closing.shutdown(socket.SHUT_WR)
            assert seeing.recv(1) == b""
            talk.say(1 - closer, messages.frame(b"\x02"))
            seeing.close()
            assert closing.recv(1) == b""
            closing.close()
            assert relay.ended()[0] == 0
            assert content_of(f"{place}/record") == talk.record()


def break_off(end):
    """Closes it by a reset."""
    end.setsockopt(socket.SOL_SOCKET, socket.SO_LINGER, struct.pack("ii", 1, 0))
    end.close()


def test_a_connection_that_is_broken_off():
    for breaker in (WENT_OUT, CAME_IN):
        with folder() as place, Relay(f"{place}/record") as relay:
            talk = Talk(*relay.connect()).greet()
            talk.say(WENT_OUT, messages.frame(b"\x02"))
            breaking, seeing = talk.ways[breaker]
            break_off(breaking)
            assert seeing.recv(1) == b""
            assert relay.ended()[0] == 0
            assert content_of(f"{place}/record") == talk.record()


def test_what_was_taken_is_passed_on():
    """A side that sends until nothing is taken any more breaks off; the other one has not read anything yet."""
    frame = messages.piece(0, 0, bytes(16384))
    with folder() as place, Relay(f"{place}/record") as relay:
        talk = Talk(*relay.connect()).greet()
        ours, theirs = talk.ways[WENT_OUT]
        ours.settimeout(0.3)
        with contextlib.suppress(TimeoutError):
            while True:
                ours.sendall(frame)
        break_off(ours)
        got = bytearray()
        while part := theirs.recv(1 << 20):
            got += part
        assert relay.ended()[0] == 0
        count = len(got) // len(frame)
        assert count > 100 and got == (frame * (count + 1))[:len(got)]
        assert content_of(f"{place}/record") == FORM_2 + (b"\x01" + frame) * count


def test_killed():
    with folder() as place, Relay(f"{place}/record") as relay:
        talk = Talk(*relay.connect()).greet()
        for _ in range(5):
            talk.say(CAME_IN, messages.piece(0, 0, b"abc") + b"\x00\x00")
            wait_for(f"{place}/record", talk.record())
            talk.say(CAME_IN, b"\x00\x01\x07")
        wait_for(f"{place}/record", talk.record())
        assert relay.stop(signal.SIGKILL)[0] == -signal.SIGKILL
        assert content_of(f"{place}/record") == talk.record()
        for end in talk.ways[WENT_OUT]:
            with contextlib.suppress(ConnectionResetError):
                assert end.recv(1) == b""


def test_stopped():
    for number in (signal.SIGINT, signal.SIGTERM):
        with folder() as place:
            with Relay(f"{place}/record") as relay:
                status, said = relay.stop(number)
                assert status == 1 and said == f"record: frames recorded in {place}/record: 0\n", (status, said)
            assert content_of(f"{place}/record") == FORM_2
            with Relay(f"{place}/record") as relay:
                talk = Talk(*relay.connect()).greet()
                talk.say(CAME_IN, messages.KEEP_ALIVE + b"\x00")
                status, said = relay.stop(number)
                assert status == 0 and said.endswith(": 1\n"), (status, said)
                assert all(end.recv(1) == b"" for end in talk.ways[WENT_OUT])
            assert content_of(f"{place}/record") == FORM_2 + b"\x00" + messages.KEEP_ALIVE


def test_what_is_no_handshake():
    """It is passed on, and the record waits for a connection that has handshakes."""
    chance = random.Random(1)
    with folder() as place, Relay(f"{place}/record") as relay:
        for text in (chance.randbytes(96), b"GET / HTTP/1.1\r\n\r\n", HANDSHAKE[:19] + b"!" + HANDSHAKE[20:], b"\x13bit"):
            talk = Talk(*relay.connect())
            talk.say(WENT_OUT, text)
            line = relay.heard()
            assert "is not recorded, only passed on: no BitTorrent handshake" in line, line
            talk.say(CAME_IN, chance.randbytes(5000))
            for end in talk.ways[WENT_OUT]:
                end.close()
        silent = Talk(*relay.connect())
        silent.say(WENT_OUT, HANDSHAKE)
        for end in silent.ways[WENT_OUT]:
            end.close()
        assert content_of(f"{place}/record") == FORM_2
        talk = Talk(*relay.connect()).greet()
        talk.say(CAME_IN, messages.KEEP_ALIVE)
        wait_for(f"{place}/record", talk.record())
        assert relay.stop()[0] == 0


def test_a_record_is_one_connection():
    with folder() as place, Relay(f"{place}/record") as relay:
        early = Talk(*relay.connect())
        early.say(WENT_OUT, HANDSHAKE + messages.frame(b"\x02"))
        talk = Talk(*relay.connect()).greet()
        assert "is recorded" in relay.heard()
        early.say(CAME_IN, HANDSHAKE + messages.frame(b"\x01"))
        assert "is not recorded, only passed on: another connection is recorded" in relay.heard()
        talk.say(CAME_IN, messages.frame(b"\x01"))
        early.say(WENT_OUT, messages.frame(b"\x03"))
        for end in talk.ways[WENT_OUT]:
            end.close()
        assert relay.heard() == f"record: frames recorded in {place}/record: 1"
        # nobody else is let in, but who is there stays
        early.say(CAME_IN, messages.frame(b"\x00"))
        with contextlib.suppress(ConnectionRefusedError):
            socket.create_connection(("127.0.0.1", relay.port), SECONDS).close()
            raise AssertionError("it still listens")
        for end in early.ways[WENT_OUT]:
            end.close()
        assert relay.ended() == (0, "")
        assert content_of(f"{place}/record") == talk.record()


def test_several_peers():
    """One record of all connections, whose frames come in parts that are mixed with each other."""
    chance = random.Random(56)
    for _ in range(6):
        whole = []
        with folder() as place, Relay(f"{place}/record", count=3) as relay:
            assert all(line.endswith(f" for {target}") for line, target in zip(relay.greetings, relay.targets))
            talks = [Talk(*relay.connect(peer), whole) for peer in range(3)]
            parts = {(talk, way): list(cut(chance, some_stream(chance))) for talk in talks for way in (CAME_IN, WENT_OUT)}
            while any(parts.values()):
                talk, way = chance.choice([key for key in parts if parts[key]])
                talk.say(way, parts[talk, way].pop(0))
                wait_for(f"{place}/record", recorded(whole))
                if chance.random() < 0.02:  # one peer breaks off in mid-frame
                    break_off(talk.ways[way][0])
                    for left in (CAME_IN, WENT_OUT):
                        parts[talk, left] = []
            for talk in talks:
                talk.close()
            have_greeted = all(recorded([part for part in whole if part[0] is talk]) != FORM_2 for talk in talks)
            status, said = relay.ended() if have_greeted else relay.stop()
            assert status == (0 if have_greeted else 1) and f"frames recorded in {place}/record: " in said, (status, said)
            assert content_of(f"{place}/record") == recorded(whole)


def test_one_of_several_peers_ends():
    """The others go on, and each LISTEN has one connection that is recorded."""
    whole = []
    with folder() as place, Relay(f"{place}/record", count=2) as relay:
        first, second = [Talk(*relay.connect(peer), whole).greet() for peer in (0, 1)]
        first.say(CAME_IN, messages.piece(0, 0, b"abd") + b"\x00\x00")
        wait_for(f"{place}/record", recorded(whole))
        other = Talk(*relay.connect(1)).greet()
        while "another connection is recorded" not in relay.heard():
            pass
        other.say(CAME_IN, messages.frame(b"\x00"))
        first.close()
        second.say(CAME_IN, b"\x00\x00\x00")
        second.say(WENT_OUT, messages.frame(b"\x02"))
        second.say(CAME_IN, b"\x01\x01" + messages.piece(0, 0, b"abc"))
        wait_for(f"{place}/record", recorded(whole))
        second.close()
        assert relay.heard() == f"record: frames recorded in {place}/record: 4"
        other.close()
        assert relay.ended() == (0, "")
        assert content_of(f"{place}/record") == recorded(whole)
        expect(run("replay", write(f"{place}/torrent", ABC), f"{place}/record"), 1,
               "1 refused P4 BadBlock\n2 sent\n3 skipped 1\n4 verified 0 0\nend\n")


def test_a_peer_that_is_never_reached():
    """Stopped, it has recorded one of two; nothing of the other has come."""
    with folder() as place, Relay(f"{place}/record", count=2) as relay:
        talk = Talk(*relay.connect()).greet()
        talk.say(CAME_IN, messages.KEEP_ALIVE)
        wait_for(f"{place}/record", talk.record())
        talk.close()
        liar = Talk(*relay.connect(1))
        liar.say(CAME_IN, b"no handshake")
        status, said = relay.stop()
        assert status == 1 and "is not recorded, only passed on" in said and said.endswith(": 1\n"), (status, said)
        assert content_of(f"{place}/record") == talk.record()


def test_much_at_once_in_both_directions():
    """Neither side waits for the other, and each reads slowly."""
    chance = random.Random(3)
    with folder() as place, Relay(f"{place}/record") as relay:
        ends = relay.connect()
        streams = [b"".join(messages.piece(at, 0, chance.randbytes(16384)) for at in range(200)) for _ in ends]
        got = [bytearray(), bytearray()]

        def send(at):
            ends[at].sendall(HANDSHAKE + streams[at])
            ends[at].shutdown(socket.SHUT_WR)

        def receive(at):
            while part := ends[at].recv(100000):
                got[at] += part
                time.sleep(0.001)

        threads = [threading.Thread(target=work, args=(at,)) for work in (send, receive) for at in (0, 1)]
        for thread in threads:
            thread.start()
        for thread in threads:
            thread.join(SECONDS)
        assert [bytes(text) for text in got] == [HANDSHAKE + streams[1], HANDSHAKE + streams[0]]
        assert relay.ended()[0] == 0
        record, ways = content_of(f"{place}/record"), {0: b"", 1: b""}
        at = len(FORM_2)
        while at < len(record):
            end = at + 5 + int.from_bytes(record[at + 1:at + 5], "big")
            ways[record[at]] += record[at + 1:end]
            at = end
        assert (ways[WENT_OUT], ways[CAME_IN]) == tuple(streams)


def test_a_frame_that_is_too_long():
    with folder() as place, Relay(f"{place}/record") as relay:
        talk = Talk(*relay.connect()).greet()
        talk.say(CAME_IN, messages.KEEP_ALIVE)
        kept = talk.record()
        talk.say(WENT_OUT, messages.frame(b"\x02") + b"\x7f\xff\xff\xff\x14")
        talk.say(WENT_OUT, bytes(100000))
        talk.say(CAME_IN, messages.KEEP_ALIVE)
        status, said = relay.stop()
        assert status == 1 and "is no longer recorded, only passed on: a frame of 2147483651 bytes" in said, said
        assert content_of(f"{place}/record") == kept + b"\x01" + messages.frame(b"\x02")


def test_out_that_cannot_be_written():
    with folder() as place:
        for out, why in [(f"{place}/none/record", "No such file or directory"), (place, "Is a directory"),
                         ("/dev/full", "No space left on device")]:
            expect(run("127.0.0.1:0", "127.0.0.1:1", out, program=RECORD), 2, "", f"record: cannot write {out}: {why}\n")

        def limit():
            resource.setrlimit(resource.RLIMIT_FSIZE, (100, 100))

        with Relay(f"{place}/record", preexec_fn=limit) as relay:
            talk = Talk(*relay.connect()).greet()
            talk.say(CAME_IN, messages.piece(0, 0, bytes(50)))
            wait_for(f"{place}/record", talk.record())
            kept = talk.record()
            talk.say(CAME_IN, messages.piece(0, 0, bytes(60)))
            talk.say(WENT_OUT, messages.KEEP_ALIVE)
            status, said = relay.stop()
            assert status == 2 and f"cannot write {place}/record: File too large" in said, said
            assert content_of(f"{place}/record") == kept


def test_out_is_a_pipe():
    with folder() as place:
        os.mkfifo(f"{place}/pipe")
        reader = os.open(f"{place}/pipe", os.O_RDONLY | os.O_NONBLOCK)
        with Relay(f"{place}/pipe") as relay:
            os.set_blocking(reader, True)
            assert os.read(reader, 100) == FORM_2
            talk = Talk(*relay.connect()).greet()
            for frame in (messages.KEEP_ALIVE, messages.frame(b"\x02")):
                talk.say(CAME_IN, frame)
                assert os.read(reader, 100) == b"\x00" + frame
            os.close(reader)
            talk.say(CAME_IN, messages.KEEP_ALIVE)
            talk.say(WENT_OUT, messages.KEEP_ALIVE)
            status, said = relay.stop()
            assert status == 2 and "cannot write" in said and "Broken pipe" in said, said


def test_verdicts_while_they_talk():
    with folder() as place, Relay("/dev/stdout", stdout=subprocess.PIPE) as relay:
        replay = [BTCHECK, "replay", write(f"{place}/torrent", ABC), "/dev/stdin"]
        with subprocess.Popen(replay, stdin=relay.program.stdout, stdout=subprocess.PIPE, bufsize=0) as program:
            relay.program.stdout.close()
            talk = Talk(*relay.connect()).greet()
            for way, frame, line in [(WENT_OUT, messages.frame(b"\x02"), b"1 sent\n"),
                                     (CAME_IN, messages.piece(0, 0, b"abd"), b"2 refused P4 BadBlock\n"),
                                     (CAME_IN, messages.piece(0, 0, b"abc"), b"3 verified 0 0\n")]:
                talk.say(way, frame)
                assert program.stdout.readline() == line
            for end in talk.ways[WENT_OUT]:
                end.close()
            assert program.stdout.read() == b"end\n" and relay.ended()[0] == 0


def test_a_target_that_is_not_there():
    with folder() as place, Relay(f"{place}/record") as relay:
        relay.door.close()
        with socket.create_connection(("127.0.0.1", relay.port), SECONDS) as ours:
            assert ours.recv(1) == b""
        line = relay.heard()
        assert "is closed: cannot connect to 127.0.0.1:" in line and line.endswith("Connection refused"), line
        assert relay.stop()[0] == 1


def test_addresses():
    with folder() as place:
        with Relay(f"{place}/record", "[::1]:0") as relay:
            with socket.create_connection(("::1", relay.port), SECONDS) as ours:
                theirs, _ = relay.door.accept()
                Talk(ours, theirs).greet().say(CAME_IN, messages.KEEP_ALIVE)
                theirs.close()
            status, said = relay.ended()
            assert status == 0 and "record: [::1]:" in said, said
        with socket.create_server(("127.0.0.1", 0)) as taken:
            where = f"127.0.0.1:{taken.getsockname()[1]}"
            expect(run(where, where, f"{place}/none", program=RECORD), 2, "",
                   f"record: cannot listen at {where}: Address already in use\n")
        assert not os.path.exists(f"{place}/none")
        for wrong in ("6881", "::1:6881", "localhost:", ":6881", "[::1]", "localhost:65536", "localhost:-1", "localhost:x"):
            done = run(wrong, "127.0.0.1:1", f"{place}/none", program=RECORD)
            assert done.returncode == 2 and wrong.encode() in done.stderr and not done.stdout, (wrong, done)
        assert not os.path.exists(f"{place}/none")


def test_pairs():
    with folder() as place:
        for words in ([], ["127.0.0.1:0"], ["127.0.0.1:0", "127.0.0.1:1"],
                      ["127.0.0.1:0", "127.0.0.1:1", "127.0.0.1:0", f"{place}/none"],
                      ["127.0.0.1:0", "127.0.0.1:1", f"{place}/none", f"{place}/none", f"{place}/none"]):
            done = run(*words, program=RECORD)
            assert done.returncode == 2 and not done.stdout, done
            assert words[3:] == [] or b"LISTEN" in done.stderr or b"is not HOST:PORT" in done.stderr, done
        assert not os.path.exists(f"{place}/none")
        with socket.create_server(("127.0.0.1", 0)) as taken:
            where = f"127.0.0.1:{taken.getsockname()[1]}"
            expect(run("127.0.0.1:0", where, where, where, f"{place}/none", program=RECORD), 2, "",
                   f"record: cannot listen at {where}: Address already in use\n")
        assert not os.path.exists(f"{place}/none")


def test_help():
    done = run("--help", program=RECORD)
    expect(done, 0, None)
    for word in (b"LISTEN", b"TARGET", b"OUT", b"our side", b"encryption", b"Exit status"):
        assert word in done.stdout, word
