"""`btcheck convert RECORD OUT`: a record of form 1 becomes one of form 2."""
import itertools
import os
import random

import messages
import record_model
from poison import Peers
from record_cases import FRAMES, large, replay, started, worlds
from record_model import FORM_2
from support import expect, folder, run, write, written
from torrents import torrent_of


def convert(place, record):
    """The run, and what OUT holds behind it."""
    write(f"{place}/out", b"what was there before")
    done = run("convert", write(f"{place}/record", record), f"{place}/out")
    with open(f"{place}/out", "rb") as out:
        return done, out.read()


def test_conversions():
    _, tree, torrent, ask = large()
    answer = messages.hashes(*ask, given=tree.hashes(0, 512, 512, 1))
    with folder() as place:
        for record, size in [(b"", 8), (b"".join(FRAMES[:3]), 40), (answer, 16532),
                             (messages.frame(b"\x16" + bytes(48)), 8 + 54 + 54),
                             # of a wrong size, so nobody asked for it
                             (messages.frame(b"\x16" + bytes(47)), 8 + 53), (messages.frame(b"\x16" + bytes(49)), 8 + 55),
                             (messages.frame(b"\x16" + bytes(263248)), 8 + 263254),
                             (messages.frame(b"\x14" + bytes(1000000)) + bytes(4), 8 + 1000006 + 5)]:
            done, out = convert(place, record)
            expect(done, 0)
            assert out == record_model.converted(record) and len(out) == size, (len(out), size)
        _, out = convert(place, answer)
        expect(replay(place, torrent, out, "--info-only"), 0, "1 sent request\n2 stored 1024\nend\n")


def test_conversions_of_what_is_cut():
    """What went out begins with the conversion of the whole frames."""
    frames = [*FRAMES, messages.hashes(bytes(32), 0, 0, 2, 0, given=[bytes(32)] * 2), messages.KEEP_ALIVE]
    record = b"".join(frames)
    ends = [sum(map(len, frames[:count])) for count in range(len(frames) + 1)]
    with folder() as place:
        for count in range(len(record) + 1):
            done, out = convert(place, record[:count])
            if count in ends:
                expect(done, 0)
                assert out == record_model.converted(record[:count])
            else:
                expect(done, 2, "", f"fault: record is truncated: {place}/record\n")
                assert out.startswith(record_model.converted(record[:count])), (count, out)
        for count in range(1, 8):  # no header yet
            done, out = convert(place, FORM_2[:count])
            expect(done, 2, "", f"fault: record is truncated: {place}/record\n")
            assert out.startswith(FORM_2), out
        for record in (FORM_2, FORM_2 + bytes(5), FORM_2 + b"\x02", FORM_2 + b"\x00"):
            done, out = convert(place, record)
            expect(done, 1, "refused 3 AlreadyForm2\n")
            assert out == b""


def test_faults_of_conversions():
    with folder() as place:
        record, missing = write(f"{place}/record", b"".join(FRAMES)), f"{place}/missing"
        out = write(f"{place}/out", b"x")
        expect(run("convert", missing, out), 2, "", f"fault: cannot read {missing}\n")
        assert os.path.getsize(out) == 0  # OUT is opened first
        write(out, b"x")
        expect(run("convert", place, out), 2, "", f"fault: cannot read {place}\n")
        assert os.path.getsize(out) == 0
        expect(run("convert", record, f"{place}/none/out"), 2, "", f"fault: cannot write {place}/none/out\n")
        expect(run("convert", missing, f"{place}/none/out"), 2, "", f"fault: cannot write {place}/none/out\n")
        for text in (b"", b"".join(FRAMES), b"".join(FRAMES) * 10000):
            expect(run("convert", write(record, text), "/dev/full"), 2, "", "fault: cannot write /dev/full\n")
        expect(run("convert", write(record, FORM_2), "/dev/full"), 1, "refused 3 AlreadyForm2\n")


def test_the_record_is_not_overwritten():
    """By whatever path; and a record that is not there leaves OUT empty, as one of form 2 does."""
    text = b"".join(FRAMES)
    with folder() as place:
        record, link, soft = write(f"{place}/record", text), f"{place}/link", f"{place}/soft"
        os.link(record, link)
        os.symlink("link", soft)
        for one, other in itertools.product([record, link, soft], repeat=2):
            expect(run("convert", one, other), 2, "", f"fault: cannot write {other}\n")
        with open(record, "rb") as source, open(record, "ab") as out:
            expect(run("convert", "/dev/stdin", soft, stdin=source), 2, "", f"fault: cannot write {soft}\n")
            expect(run("convert", link, "/dev/stdout", stdout=out), 2, None, "fault: cannot write /dev/stdout\n")
        assert written(record) == text
        # devices are no files that could be lost
        expect(run("convert", "/dev/null", "/dev/null"), 0)
        # a copy is another file
        expect(run("convert", record, write(f"{place}/copy", text)), 0)
        assert (written(record), written(f"{place}/copy")) == (text, record_model.converted(text))


def test_conversions_through_pipes():
    record = b"".join(FRAMES * 30 + [messages.frame(b"\x14" + bytes(300000))] + FRAMES)
    for size in (1, 7, 64):
        with started("convert", "/dev/stdin", "/dev/stdout") as program:
            for at in range(0, 64 * size, size):
                program.stdin.write(record[at:at + size])
            out, _ = program.communicate(record[64 * size:], timeout=60)
        assert program.returncode == 0 and out == record_model.converted(record)


def incoming(report, record):
    """The texts of a report on the frames that came in."""
    ways = [way for way, _ in record_model.read(record)[0]]
    lines = [line.split(" ", 1) for line in report.splitlines()[:-1]]
    return [text for number, text in lines if ways[int(number) - 1] == record_model.CAME_IN]


def test_a_conversion_replays_as_before():
    chance = random.Random(23)
    with folder() as place:
        for files, piece_length in worlds():
            torrent = torrent_of(files, piece_length)
            for flags in ([], ["--info-only"]):
                frames, _ = Peers(files, piece_length, not flags, chance.random()).messages(200)
                record = b"".join(frames)
                done, converted = convert(place, record)
                expect(done, 0)
                assert converted == record_model.converted(record)
                before, after = (replay(place, torrent, text, *flags).stdout.decode() for text in (record, converted))
                assert incoming(before, record) == incoming(after, converted)
