"""What clients send, by pieces: records of libtorrent 2.0.8, and how the plain model of held blocks judges them.

`records/` has what tools/record wrote between two of its sessions, and their torrents: pieces of 16 KiB, 64 KiB and 1 MiB,
of version 2 alone (`v2`) and hybrid (`hy`), loaded from the torrent file or from a magnet link. In `turned` a relay turned a
bit of one block: of piece 1, or of piece 99, which is the torrent's second file; the second record is of the peer that the
client asked then. In `two` the client had two peers at once, one record of each."""
import lzma
import os
import random
import subprocess

import pieces_model
import record_model
from poison import Peers
from record_cases import replay, worlds
from record_model import CAME_IN, FORM_2
from session_model import Session
from support import TOP, expect, folder, run, write, written
from torrents import torrent_of

RECORDS = f"{TOP}/tests/records"

# Each record: its status, how many of its blocks are marked, how many there are, and its lines that say what is wrong.
KNOWN = {
    "v2-16k-file": (0, 13, 13, []),
    "v2-16k-magnet": (0, 13, 13, []),
    "hy-16k-magnet": (0, 13, 13, []),
    "v2-64k-file": (0, 26, 26, []),
    "v2-64k-magnet": (0, 26, 26, []),
    "hy-64k-file": (0, 26, 26, []),
    "v2-1m-magnet": (0, 203, 203, []),
    "v2-64k-turned1-1-file-1": (1, 5, 26, ["42 false 0 4 7", "held 3"]),
    "v2-64k-turned1-1-file-2": (0, 21, 26, []),
    "v2-16k-turned99-1-file-1": (1, 9, 13, ["31 refused P4 BadBlock"]),
    "v2-16k-turned99-1-file-2": (1, 0, 13, ["13 refused H2 BadRange"]),
    "v2-64k-two-1": (1, 5, 26, ["held 7"]),
    "v2-64k-two-2": (1, 9, 26, ["held 5"]),
    "hy-64k-two-1": (1, 18, 26, ["held 4"]),
    "hy-64k-two-2": (1, 1, 26, ["held 3"]),
    "v2-1m-two-1": (1, 11, 203, ["held 82"]),
    "v2-1m-two-2": (1, 0, 203, ["held 112"]),
}

# Records of one client that are joined.
JOINED = {"v2-64k-two": 26, "hy-64k-two": 26, "v2-1m-two": 203, "v2-64k-turned1-1-file": 26}


def record_of(name):
    with lzma.open(f"{RECORDS}/{name}.xz") as file:
        return file.read()


def torrent_of_record(name):
    """The torrent's file, and whether the client had its piece layers."""
    with open(f"{RECORDS}/{'-'.join(name.split('-')[:2])}.torrent", "rb") as file:
        return file.read(), "magnet" not in name


def joined(*records):
    """One record of form 2 of several."""
    return records[0] + b"".join(record.removeprefix(FORM_2) for record in records[1:])


class Judged:
    """What the model makes of a record."""

    def __init__(self, name, record, bound=pieces_model.BOUND):
        torrent, with_layers = torrent_of_record(name)
        holding = pieces_model.Holding(pieces_model.Opened(torrent, with_layers), bound)
        self.status, self.text = pieces_model.report(holding, record, padded=True)
        self.lines = self.text.decode().splitlines()
        self.count = sum(tree["whole"].leaf_count for tree in holding.session.trees.values())
        self.marked = {(root, block) for root, blocks in holding.marked.items() for block in blocks}
        self.wrong = [line for line in self.lines if line.startswith("held ")
                      or any(f" {word} " in line for word in ("refused", "false", "dropped"))]

    def known(self):
        return self.status, len(self.marked), self.count, self.wrong


def frames_of(record):
    """The frames of a record of form 2, each with its direction byte."""
    return [bytes([way]) + record_model.framed(body) for way, body in record_model.read(record)[0]]


def is_piece(frame):
    return frame[:1] == bytes([CAME_IN]) and frame[5:6] == b"\x07"


def turned(frame):
    """A block whose first byte has another bit."""
    return frame[:14] + bytes([frame[14] ^ 1]) + frame[15:]


def test_each_record():
    for name, known in KNOWN.items():
        assert Judged(name, record_of(name)).known() == known, (name, Judged(name, record_of(name)).known())


def test_joined_records():
    for name, count in JOINED.items():
        judged = Judged(name, joined(record_of(f"{name}-1"), record_of(f"{name}-2")))
        assert len(judged.marked) == judged.count == count, (name, judged.known())
        false = [line for line in judged.wrong if " false " in line]
        assert judged.wrong == false and len(false) == ("turned" in name), judged.wrong


def test_doubled_shuffled_and_cut():
    chance = random.Random(55)
    for name in ("v2-64k-file", "hy-64k-file", "v2-16k-file"):
        record = record_of(name)
        frames = frames_of(record)
        assert Judged(name, joined(record, record)).known()[:3] == KNOWN[name][:3]
        places = [at for at, frame in enumerate(frames) if is_piece(frame)]
        for _ in range(10):
            mixed = list(frames)
            for at, other in zip(places, chance.sample(places, len(places))):
                mixed[at] = frames[other]
            assert Judged(name, FORM_2 + b"".join(mixed)).known() == KNOWN[name]
        for end in range(0, len(frames), 5):
            judged = Judged(name, FORM_2 + b"".join(frames[:end]))
            assert judged.status == any(line.startswith("held ") for line in judged.lines), (name, end)


def test_one_block_turned():
    """Exactly its piece is false, or refused if it is one block, and the true record marks it afterwards."""
    for name in ("v2-64k-file", "v2-16k-file"):
        record = record_of(name)
        frames = frames_of(record)
        for at, frame in enumerate(frames):
            if not is_piece(frame):
                continue
            bent = FORM_2 + b"".join(frames[:at] + [turned(frame)] + frames[at + 1:])
            judged = Judged(name, bent)
            assert judged.status == 1 and len(judged.wrong) == 1, (at, judged.wrong)
            assert " false " in judged.wrong[0] or "refused P4" in judged.wrong[0], judged.wrong
            assert len(Judged(name, joined(bent, record)).marked) == judged.count


def test_the_recipe_that_joins_records():
    with open(f"{TOP}/docs/RECORDING.md", encoding="utf-8") as page:
        [recipe] = [line for line in page if "tail -c +9 " in line]
    first, second = record_of("v2-64k-two-1"), record_of("v2-64k-two-2")
    with folder() as place:
        write(f"{place}/first", first)
        write(f"{place}/second", second)
        subprocess.run(recipe, shell=True, cwd=place, check=True)
        with open(f"{place}/record", "rb") as file:
            assert file.read() == joined(first, second)


# ---- the program says the same


def judged_alike(place, name, record):
    """`replay --pieces --padded` of a real record, or one made of such, says what the model says; how many lines."""
    torrent, with_layers = torrent_of_record(name)
    judged = Judged(name, record)
    done = replay(place, torrent, record, "--pieces", "--padded", *([] if with_layers else ["--info-only"]))
    expect(done, judged.status, judged.text)
    return len(judged.lines)


def test_the_program_on_real_records():
    with folder() as place:
        count = sum(judged_alike(place, name, record_of(name)) for name in KNOWN)
        for name in JOINED:
            count += judged_alike(place, name, joined(record_of(f"{name}-1"), record_of(f"{name}-2")))
    print(f"{count} lines compared")


def test_the_program_on_records_out_of_order():
    """Doubled, shuffled, cut, and with one block turned."""
    chance, count = random.Random(56), 0
    with folder() as place:
        for name in ("v2-64k-file", "hy-64k-file", "v2-16k-file"):
            record = record_of(name)
            frames = frames_of(record)
            places = [at for at, frame in enumerate(frames) if is_piece(frame)]
            count += judged_alike(place, name, joined(record, record))
            for _ in range(3):
                mixed = list(frames)
                for at, other in zip(places, chance.sample(places, len(places))):
                    mixed[at] = frames[other]
                count += judged_alike(place, name, FORM_2 + b"".join(mixed))
                at = chance.choice(places)
                count += judged_alike(place, name, FORM_2 + b"".join(frames[:at] + [turned(frames[at])] + frames[at + 1:]))
                count += judged_alike(place, name, record[:chance.randrange(len(record))])
    print(f"{count} lines compared")


def test_the_program_on_random_records():
    """1,000 records of peers that send much that is false, with and without padding cut away, and without the option."""
    records = lines = 0
    with folder() as place:
        for files, piece_length in worlds():
            for with_layers in (True, False):
                for seed in range(125):
                    record = b"".join(Peers(files, piece_length, with_layers, seed).messages(40)[0])
                    padded = seed % 2 == 1
                    flags = ["--padded"] * padded + ["--info-only"] * (not with_layers)
                    holding = pieces_model.Holding(Session(files, piece_length, with_layers))
                    status, text = pieces_model.report(holding, record, padded)
                    expect(replay(place, torrent_of(files, piece_length), record, "--pieces", *flags), status, text)
                    records, lines = records + 1, lines + text.count(b"\n")
    print(f"{records} records, {lines} lines compared")


def test_answers_beside_held_blocks():
    """The answers of a replay that holds are those of one that does not, where no leaf is asked for that it proved."""
    with folder() as place:
        for name in ("v2-64k-file", "v2-16k-file"):
            torrent, _ = torrent_of_record(name)
            words = ["replay", write(f"{place}/t", torrent), write(f"{place}/r", record_of(name)), "--padded"]
            run(*words, "--answers", f"{place}/plain")
            done = run(*words, "--pieces")
            expect(run(*words, "--pieces", "-o", f"{place}/held"), done.returncode, done.stdout)
            assert written(f"{place}/held") == written(f"{place}/plain") and os.path.getsize(f"{place}/held") >= 0
