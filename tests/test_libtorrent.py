"""What libtorrent says to libtorrent over loopback, recorded by tools/record and replayed."""
import collections
import json
import os
import random
import subprocess

import messages
import record_model
from record_model import CAME_IN, WENT_OUT
from session_model import Session
from support import TOP, expect, folder, made_by_libtorrent, python_with_libtorrent, run, write
from trees import BLOCK

# Names and lengths: whole blocks alone, and a last block that is shorter.
FILES = [("a", 600 * BLOCK + 5), ("b", 3 * BLOCK), ("c", 10), ("d", BLOCK)]
# So that there are many asks for hashes.
MANY = [("a", 1100 * BLOCK), *((f"b{count}", count * BLOCK) for count in range(2, 9)), ("c", BLOCK)]


class World:
    """A torrent that libtorrent makes of these files, in a folder."""

    def __init__(self, place, lengths, piece_length, hybrid, seed):
        chance = random.Random(seed)
        os.makedirs(f"{place}/content/t")
        self.place, self.torrent, self.piece_length = place, f"{place}/torrent", piece_length
        self.files = [(name, chance.randbytes(length)) for name, length in lengths]
        for name, content in self.files:
            write(f"{place}/content/t/{name}", content)
        made_by_libtorrent([{"content": f"{place}/content/t", "torrent": self.torrent, "piece_length": piece_length,
                             "hybrid": hybrid}])

    def record(self, info_only=True, lies=False, holders=1):
        """The record of its loading from `holders` others, whose loader is our side, and which of the frames that came in are
        lies. It is tried three times, since a session may give a connection up."""
        for number in range(3):
            os.makedirs(f"{self.place}/loaded{number}")
            order = {"content": f"{self.place}/content", "torrent": self.torrent, "loaded": f"{self.place}/loaded{number}",
                     "info_only": info_only, "record": f"{self.place}/record", "lies": lies, "holders": holders}
            done = subprocess.run([python_with_libtorrent(), f"{TOP}/tests/loopback.py"], input=json.dumps(order),
                                  stdout=subprocess.PIPE, stderr=subprocess.PIPE, text=True, timeout=300)
            if done.returncode == 0:
                break
        assert done.returncode == 0, done.stderr
        with open(f"{self.place}/record", "rb") as file:
            return file.read(), set(json.loads(done.stdout))

    def replayed(self, record):
        """The texts that `replay` prints of the frames of a record, if only the roots are known."""
        status, report = record_model.report(Session(self.files, self.piece_length, False), record)
        expect(run("replay", self.torrent, write(f"{self.place}/replayed", record), "--info-only"), status, report)
        *lines, last = report.decode().splitlines()
        assert last == "end", last
        return [line.split(" ", 1)[1] for line in lines]

    def line_of(self, way, frame):
        """The verdict on a frame, if the hashes of its block are known."""
        kind = frame[4] if len(frame) > 4 else None
        if way == WENT_OUT:
            return "sent request" if kind == 21 else "sent"
        if kind == 7:
            file, block, is_filled_up = self.place_of(frame)
            return "refused P2 BadSize" if is_filled_up else f"verified {file} {block}"
        return {None: "keep-alive", 22: "stored"}.get(kind, f"skipped {kind}")

    def place_of(self, frame):
        """The file and the block that a piece message of one block is of, and whether the holder filled it up with
        zeros, as libtorrent does with the last block of a file, unlike BEP 52."""
        place = number_at(frame, 5) * self.piece_length + number_at(frame, 9)
        for number, (_, content) in enumerate(self.files):
            if place < len(content):
                right = content[place:place + BLOCK]
                assert place % BLOCK == 0 and frame[13:] == right + bytes(BLOCK - len(right))
                return number, place // BLOCK, len(right) < BLOCK
            place -= -(-len(content) // self.piece_length) * self.piece_length
        raise AssertionError(f"no file at {place}")


def frames_of(record):
    """The frames of a record, each with its direction."""
    found, last = record_model.read(record)
    assert last == "end", last
    return [(way, messages.frame(body)) for way, body in found]


def of_kind(frames, ident, way=CAME_IN):
    return [frame for direction, frame in frames if direction == way and frame[4:5] == bytes([ident])]


def number_at(frame, at):
    return int.from_bytes(frame[at:at + 4], "big")


def joined(frames):
    """A record of form 2 of these frames."""
    return record_model.FORM_2 + b"".join(bytes([way]) + frame for way, frame in frames)


def without_count(line):
    return "stored" if line.startswith("stored ") else line


def hashes_first(frames):
    """The order in which each block comes behind its hashes. libtorrent may ask for blocks before it has them."""
    return sorted(range(len(frames)), key=lambda at: frames[at][1][4:5] not in (b"\x15", b"\x16"))


def test_what_libtorrent_takes_is_taken():
    compared = 0
    for hybrid in (False, True):
        with folder() as place:
            world = World(place, FILES, BLOCK, hybrid, 9)
            frames = frames_of(world.record()[0])
            hashes, requests = of_kind(frames, 22), of_kind(frames, 21, WENT_OUT)
            assert 0 < len(hashes) == len(requests), (len(hashes), len(requests))
            for frame, line in zip(frames, world.replayed(joined(frames)), strict=True):
                assert without_count(line) in (world.line_of(*frame), "refused P3 Unproved"), line
            ordered = [frames[at] for at in hashes_first(frames)]
            lines = [without_count(line) for line in world.replayed(joined(ordered))]
            assert lines == [world.line_of(*frame) for frame in ordered]
            whole = {line for line in lines if line.startswith("verified")}
            assert len(whole) == sum(length // BLOCK for _, length in FILES), len(whole)
            # what came in alone, as a record without directions
            came_in = [frame for way, frame in ordered if way == CAME_IN]
            assert list(map(without_count, world.replayed(b"".join(came_in)))) == [
                line for line in lines if not line.startswith("sent")]
            compared += len(frames)
    print(f"{compared} messages of libtorrent compared")


def answers_to(world, record):
    """The frames that `replay --answers` writes, by a session with the layers of the torrent."""
    out = f"{world.place}/out"
    done = run("replay", world.torrent, write(f"{world.place}/asked", record), "--answers", out)
    assert done.returncode == 0, done
    with open(out, "rb") as file:
        return [frame for _, frame in frames_of(file.read())]


def test_our_answers_are_those_of_libtorrent():
    """If the pieces have several blocks, libtorrent asks for hashes of pieces."""
    for piece_length, hybrid in [(BLOCK, False), (4 * BLOCK, False), (BLOCK, True)]:
        with folder() as place:
            world = World(place, FILES[:2], piece_length, hybrid, 10)
            frames = frames_of(world.record()[0])
            requests, theirs = of_kind(frames, 21, WENT_OUT), of_kind(frames, 22)
            assert 0 < len(requests) == len(theirs), (len(requests), len(theirs))
            assert sorted(answers_to(world, b"".join(requests))) == sorted(theirs)
            # the other side's record of the same
            swapped = joined([(1 - way, frame) for way, frame in frames])
            assert sorted(answers_to(world, swapped)) == sorted(theirs)


def test_pieces_of_several_blocks():
    """Their blocks are unproved, since libtorrent does not ask for the hashes of blocks; seeded from what was loaded,
    they are verified."""
    with folder() as place:
        world = World(place, FILES, 4 * BLOCK, False, 11)
        record, _ = world.record()
        session = Session(world.files, world.piece_length, False)
        seeds = session.seed(dict(world.files))
        status, report = record_model.report(session, record)
        report = "".join(f"{line}\n" for line in seeds).encode() + report
        assert report.count(b" verified ") == sum(length // BLOCK for _, length in FILES)
        assert report.count(b" refused ") == report.count(b" refused P2 BadSize") == 2
        seeding = ["--seed", f"{place}/content/t"]
        expect(run("replay", world.torrent, f"{place}/record", "--info-only", *seeding), status, report)
        lines = world.replayed(record)
        assert any(line.startswith("stored ") for line in lines)
        assert not any(line.startswith("refused H") for line in lines)


def test_a_liar_between_them():
    """Each lie is refused, and every other message is taken, but for blocks whose hashes were lies."""
    with folder() as place:
        world = World(place, MANY, BLOCK, False, 12)
        record, lies = world.record(lies=True)
        frames = frames_of(record)
        came_in = [at for at, (way, _) in enumerate(frames) if way == CAME_IN]
        lies = {came_in[number] for number in lies}
        order = hashes_first(frames)
        verdicts, lost = collections.Counter(), set()
        for at, line in zip(order, world.replayed(joined([frames[at] for at in order])), strict=True):
            if at in lies:
                assert line.startswith("refused "), line
                lost |= {line} if frames[at][1][4] == 22 else set()
            else:
                assert without_count(line) in (world.line_of(*frames[at]), "refused P3 Unproved"), line
            verdicts[line.rstrip("0123456789 ")] += 1
        assert lost == {"refused H6 Mismatch", "refused H8 Unasked"}, lost
        assert verdicts["verified"] > 100 and verdicts["refused P4 BadBlock"] > 5 and verdicts["refused P1 BadPlace"] > 5, verdicts


def test_padded_blocks_are_verified():
    """libtorrent asks for 16,384 bytes at each place, and sends as many, if fewer are left of the file too."""
    for hybrid, lengths, holders in ((False, FILES, 1), (True, FILES, 1), (False, [("a", 150 * BLOCK + 5), ("b", 10)], 2)):
        with folder() as place:
            world = World(place, lengths, BLOCK, hybrid, 13)
            record, _ = world.record(info_only=False, holders=holders)
            whole = {f"verified {file} {block}" for file, (_, length) in enumerate(lengths)
                     for block in range(-(-length // BLOCK))}
            for flags, status, lost in ((["--padded"], 0, 0), ([], 1, sum(length % BLOCK > 0 for _, length in lengths))):
                done = run("replay", world.torrent, write(f"{place}/replayed", record), *flags)
                lines = [line.split(" ", 1)[-1] for line in done.stdout.decode().splitlines()]
                assert done.returncode == status and len(whole - set(lines)) == lost, (done.returncode, whole - set(lines))
                assert lines[-1] == "end" and not any(line.startswith(("refused H", "refused P4")) for line in lines), lines
