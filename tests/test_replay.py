"""`btcheck replay TORRENT RECORD [--info-only]`, against a plain model of sessions with hashlib."""
import os
import random
import subprocess

from messages import KEEP_ALIVE, frame, hashes, piece, reject, request
from poison import Peers
from support import BTCHECK, expect, folder, run, write
from torrents import ABC, FIVE, info, torrent, torrent_of
from trees import BLOCK, Tree, blocks_of, sha256


def replay(place, torrent, record, *flags, **options):
    write(f"{place}/torrent", torrent)
    write(f"{place}/record", record)
    return run("replay", f"{place}/torrent", f"{place}/record", *flags, **options)


def lines(*texts):
    return "".join(f"{text}\n" for text in texts)


def test_worked_records():
    record = KEEP_ALIVE + piece(0, 0, b"abc") + frame(b"\x04" + bytes(4))
    poisoned = KEEP_ALIVE + piece(0, 0, b"abd") + frame(b"\x04" + bytes(4))
    with folder() as place:
        expect(replay(place, ABC, record + bytes(2)), 2,
               lines("1 keep-alive", "2 verified 0 0", "3 skipped 4", "fault Truncated"))
        expect(replay(place, ABC, poisoned), 1, lines("1 keep-alive", "2 refused P4 BadBlock", "3 skipped 4", "end"))
        expect(replay(place, ABC, b""), 0, lines("end"))
        for start in (b"\xff\xff\xff\xff\x04", b"\xff\xff\xff\xff\x07"):
            expect(replay(place, ABC, start), 2, lines("fault Truncated"))


def test_a_record_cut_anywhere():
    record = KEEP_ALIVE + piece(0, 0, b"abc") + frame(b"\x04" + bytes(4)) + bytes(2)
    assert len(record) == 31
    with folder() as place:
        for count in range(32):
            whole = [text for end, text in [(4, "1 keep-alive"), (20, "2 verified 0 0"), (29, "3 skipped 4")] if end <= count]
            ended = count in (0, 4, 20, 29)
            expect(replay(place, ABC, record[:count]), 0 if ended else 2, lines(*whole, "end" if ended else "fault Truncated"))


def test_frames_of_a_wrong_size():
    record = (frame(b"\x15\x00") + frame(b"\x07") + frame(b"\x16" + bytes(79)) + frame(b"\x07" + bytes(263217)))
    report = lines("1 bad frame 21 2", "2 bad frame 7 1", "3 bad frame 22 80", "4 bad frame 7 263218", "end")
    with folder() as place:
        expect(replay(place, ABC, record), 1, report)
        expect(replay(place, ABC, record, "--info-only"), 1, report)
        write(f"{place}/torrent", ABC)
        for size in (1, 7, 65536):
            expect(through_a_pipe(f"{place}/torrent", record[:400], size), 2,
                   lines("1 bad frame 21 2", "2 bad frame 7 1", "3 bad frame 22 80", "fault Truncated"))


def through_a_pipe(torrent, record, size, *flags):
    """Runs over a record that comes from a pipe in parts of this size."""
    program = subprocess.Popen([BTCHECK, "replay", torrent, "/dev/stdin", *flags],
                               stdin=subprocess.PIPE, stdout=subprocess.PIPE, stderr=subprocess.PIPE, bufsize=0)
    for at in range(0, len(record), size):
        program.stdin.write(record[at:at + size])
    out, err = program.communicate(timeout=600)
    return subprocess.CompletedProcess(program.args, program.returncode, out, err)


def test_lines_appear_as_frames_come():
    with folder() as place:
        write(f"{place}/torrent", ABC)
        program = subprocess.Popen([BTCHECK, "replay", f"{place}/torrent", "/dev/stdin"],
                                   stdin=subprocess.PIPE, stdout=subprocess.PIPE, bufsize=0)
        for part, line in [(KEEP_ALIVE, b"1 keep-alive\n"), (piece(0, 0, b"abd"), b"2 refused P4 BadBlock\n"),
                           (piece(0, 0, b"abc"), b"3 verified 0 0\n")]:
            program.stdin.write(part)
            assert program.stdout.readline() == line
        program.stdin.close()
        assert program.stdout.read() == b"end\n"
        assert program.wait(timeout=60) == 1
        program.stdout.close()


def test_five_blocks():
    tree = Tree.of(FIVE)
    torrent = torrent_of([("five", FIVE)], 32768)
    eight = hashes(tree.root, 0, 0, 8, 2, given=tree.hashes(0, 0, 8, 0))
    four = tree.hashes(0, 0, 4, 1)
    bent = four[:4] + [bytes([four[4][0] ^ 1]) + four[4][1:]]
    pad = tree.hashes(0, 0, 8, 0)
    pad[6] = tree.root
    blocks = blocks_of(FIVE)
    flipped = bytes([blocks[0][0] ^ 1]) + blocks[0][1:]
    with folder() as place:
        cases = [
            (eight, ["1 stored 14"]),
            (hashes(tree.root, 0, 0, 8, 2, given=pad), ["1 refused H4 BadPad"]),
            (hashes(tree.root, 0, 0, 4, 2, given=four), ["1 stored 8"]),
            (hashes(tree.root, 0, 0, 4, 2, given=bent), ["1 refused H6 Mismatch"]),
            (hashes(tree.root, 0, 4, 2, 2, given=tree.hashes(0, 4, 2, 2)), ["1 stored 6"]),
            (hashes(tree.root, 4294967295, 0, 2, 2, given=four[:2]), ["1 refused H2 BadRange"]),
            (hashes(tree.root, 0, 4294967294, 2, 2, given=four[:2]), ["1 refused H2 BadRange"]),
            (hashes(tree.root, 4294967295, 4294967294, 2, 2, given=four[:2]), ["1 refused H2 BadRange"]),
            (hashes(tree.root, 0, 4294967288, 8, 2, given=pad), ["1 refused H2 BadRange"]),
            (hashes(tree.root, 0, 0, 8, 4294967295, given=tree.hashes(0, 0, 8, 0)), ["1 stored 14"]),
            (hashes(sha256(b"none"), 0, 0, 3, 2, given=four), ["1 refused H1 UnknownRoot"]),
            (piece(1, 0, blocks[2]), ["1 refused P3 Unproved"]),
            (eight + piece(1, 0, blocks[2]) + piece(1, 0, blocks[2]), ["1 stored 14", "2 verified 0 2", "3 verified 0 2"]),
            (eight + piece(2, 0, blocks[4]), ["1 stored 14", "2 verified 0 4"]),
            (eight + piece(2, 0, blocks[4] + b"x"), ["1 stored 14", "2 refused P2 BadSize"]),
            (eight + piece(2, 0, blocks[4][:99]), ["1 stored 14", "2 refused P2 BadSize"]),
            (eight + piece(0, 1, blocks[0]), ["1 stored 14", "2 refused P1 BadPlace"]),
            (eight + piece(2, 16384, blocks[4]), ["1 stored 14", "2 refused P1 BadPlace"]),
            (eight + piece(0, 0, flipped), ["1 stored 14", "2 refused P4 BadBlock"]),
            (eight + reject(tree.root, 0, 0, 8, 2) + request(tree.root, 0, 0, 8, 2) + request(tree.root, 0, 0, 16, 2),
             ["1 stored 14", "2 reject noted", "3 answered", "4 rejected"]),
        ]
        for record, report in cases:
            status = 1 if any("refused" in line for line in report) else 0
            expect(replay(place, torrent, record, "--info-only"), status, lines(*report, "end"))
        expect(replay(place, torrent, eight), 0, lines("1 stored 8", "end"))


def test_several_blocks_in_a_message():
    tree, blocks = Tree.of(FIVE), blocks_of(FIVE)
    torrent = torrent_of([("five", FIVE)], 32768)
    eight = hashes(tree.root, 0, 0, 8, 2, given=tree.hashes(0, 0, 8, 0))
    two = hashes(tree.root, 0, 4, 2, 2, given=tree.hashes(0, 4, 2, 2))
    turned = FIVE[:BLOCK] + bytes([FIVE[BLOCK] ^ 1]) + FIVE[BLOCK + 1:3 * BLOCK]
    all_good = [f"2 verified 0 {at}" for at in range(5)]
    with folder() as place:
        for record, report in [
                (two + piece(1, 16384, blocks[3] + blocks[4]),
                 ["1 stored 6", "2 refused P3 Unproved 0 3", "2 verified 0 4"]),
                (eight + piece(0, 0, turned), ["1 stored 14", "2 verified 0 0", "2 refused P4 BadBlock 0 1", "2 verified 0 2"]),
                (eight + piece(0, 0, FIVE), ["1 stored 14", *all_good]),
                (eight + piece(0, 0, FIVE) + KEEP_ALIVE, ["1 stored 14", *all_good, "3 keep-alive"]),
                (eight + piece(0, 0, FIVE[:32769]), ["1 stored 14", "2 refused P2 BadSize"]),
                (eight + piece(0, 0, b""), ["1 stored 14", "2 refused P2 BadSize"]),
                (eight + piece(0, 0, FIVE + b"x"), ["1 stored 14", "2 refused P2 BadSize"]),
                (eight + piece(1, 0, FIVE[32768:]), ["1 stored 14", "2 verified 0 2", "2 verified 0 3", "2 verified 0 4"]),
                (eight + piece(0, 16384, FIVE[16384:49152]), ["1 stored 14", "2 verified 0 1", "2 verified 0 2"]),
                (eight + piece(2, 16384, FIVE), ["1 stored 14", "2 refused P1 BadPlace"]),
                (piece(0, 0, FIVE[:32768]), ["1 refused P3 Unproved 0 0", "1 refused P3 Unproved 0 1"])]:
            status = 1 if any("refused" in line for line in report) else 0
            expect(replay(place, torrent, record, "--info-only"), status, lines(*report, "end"))


def test_a_message_of_seventeen_blocks():
    content = random.Random(17).randbytes(263208)
    tree = Tree.of(content)
    known = hashes(tree.root, 0, 0, 32, 4, given=tree.hashes(0, 0, 32, 0))
    with folder() as place:
        torrent = torrent_of([("file", content)], 524288)
        expect(replay(place, torrent, known + piece(0, 0, content), "--info-only"), 0,
               lines("1 stored 62", *(f"2 verified 0 {at}" for at in range(17)), "end"))
        expect(replay(place, torrent, known + piece(0, 0, content + b"x"), "--info-only"), 1,
               lines("1 stored 62", "2 bad frame 7 263218", "end"))


def test_blocks_of_two_files():
    """A message never reaches over a file's end into the next file."""
    first, second = FIVE[:2 * BLOCK], FIVE[:BLOCK]
    torrent = torrent_of([("a", first), ("b", second)], 32768)
    tree = Tree.of(first)
    known = hashes(tree.root, 0, 0, 2, 0, given=tree.hashes(0, 0, 2, 0))
    with folder() as place:
        expect(replay(place, torrent, known + piece(0, 16384, first[BLOCK:] + second) + piece(0, 0, first), "--info-only"), 1,
               lines("1 stored 2", "2 refused P2 BadSize", "3 verified 0 0", "3 verified 0 1", "end"))


def test_the_greatest_length():
    tree = Tree([sha256(number.to_bytes(4, "big")) for number in range(32768)])
    entry = {b"": {"length": 32768 * BLOCK, "pieces root": tree.root}}
    one_piece = torrent(info({"a": entry}, 32768 * BLOCK), {})
    row = tree.hashes(0, 8192, 8192, 2)
    most = row + 30 * [bytes(32)]  # as many hashes as a frame may have
    cases = [
        (hashes(tree.root, 0, 8192, 8192, 14, given=row), "1 stored 16386"),
        (hashes(tree.root, 0, 8192, 8192, 14, given=row[:-1]), "1 refused H5 Unanchored"),
        (hashes(tree.root, 0, 8192, 8192, 32, given=most), "1 refused H3 BadCount"),
        (hashes(tree.root, 0, 8192, 8192, 32, given=most + [bytes(32)]), "1 bad frame 22 263249"),
        (hashes(tree.root, 0, 0, 16384, 1, given=row), "1 refused H2 BadRange"),
    ]
    with folder() as place:
        for record, line in cases:
            status = 0 if "stored" in line else 1
            expect(replay(place, one_piece, record, "--info-only"), status, lines(line, "end"))


def test_poison_between_true_answers():
    chance = random.Random(20)
    worlds = [
        [("a", chance.randbytes(16385)), ("b", b""), ("c", b"abc")],
        [("five", FIVE), ("same", FIVE), ("unit", b"1")],
        [("large", chance.randbytes(600 * BLOCK + 77)), ("nine", chance.randbytes(9 * BLOCK))],
    ]
    compared = 0
    with folder() as place:
        for files in worlds:
            for piece_length in (16384, 32768, 262144):
                torrent = torrent_of(files, piece_length)
                for flags in ([], ["--info-only"]):
                    record, report = Peers(files, piece_length, not flags, compared).messages(300)
                    status = 1 if any(" refused " in line or " bad frame " in line for line in report) else 0
                    done = replay(place, torrent, b"".join(record), *flags)
                    expect(done, status, lines(*report, "end"))
                    compared += len(report)
    print(f"{compared} messages compared")


def test_a_true_answer_after_poison():
    chance = random.Random(7)
    content = chance.randbytes(1024 * BLOCK)
    tree = Tree.of(content)
    torrent = torrent_of([("file", content)], len(content))
    upper = (tree.root, 0, 512, 512, 9)
    lower = (tree.root, 0, 0, 512, 9)
    record = (hashes(*upper, given=tree.hashes(0, 512, 512, 0)) + hashes(*upper, given=tree.hashes(0, 512, 512, 1))
              + hashes(*upper, given=tree.hashes(0, 512, 512, 1)) + hashes(*lower, given=[bytes(32)] * 513)
              + hashes(*lower, given=tree.hashes(0, 0, 512, 1))
              + b"".join(piece(0, at * BLOCK, block) for at, block in enumerate(blocks_of(content))))
    report = ["1 refused H5 Unanchored", "2 stored 1024", "3 stored 0", "4 refused H6 Mismatch", "5 stored 1022",
              *(f"{at + 6} verified 0 {at}" for at in range(1024))]
    with folder() as place:
        expect(replay(place, torrent, record), 1, lines(*report, "end"))
        write(f"{place}/torrent", torrent)
        expect(through_a_pipe(f"{place}/torrent", record, 70001), 1, lines(*report, "end"))


def test_faults_of_files():
    with folder() as place:
        torrent, record = write(f"{place}/torrent", ABC), write(f"{place}/record", b"")
        missing = f"{place}/missing"
        expect(run("replay", missing, record), 2, "", f"fault: cannot read {missing}\n")
        expect(run("replay", torrent, missing), 2, "", f"fault: cannot read {missing}\n")
        expect(run("replay", torrent, place), 2, "fault Read\n")
        expect(run("replay", torrent, f"{place}/new\nline"), 2, "", f"fault: cannot read {place}/new\\x0aline\n")
        expect(run("replay", place, record), 2, "", f"fault: cannot read {place}\n")
        # the torrent is refused first, whatever the record is
        bad = write(f"{place}/bad", torrent_of([("..", b"abc")], BLOCK))
        expect(run("replay", bad, missing), 1, "refused 8 Path\n")
        expect(run("replay", missing, missing), 2, "", f"fault: cannot read {missing}\n")
        short = write(f"{place}/short", ABC[:-1])
        expect(run("replay", short, record), 1, f"refused 2 NotBencode Truncated {len(ABC) - 1}\n")


def test_standard_output_that_fails():
    with folder() as place:
        torrent, record = write(f"{place}/torrent", ABC), write(f"{place}/record", KEEP_ALIVE)
        for words in ([torrent, record], [torrent, "/dev/null"]):
            with open("/dev/full", "wb") as full:
                done = run("replay", *words, stdout=full)
            assert (done.returncode, done.stderr) == (2, b"fault: cannot write -\n"), done


def test_records_that_come_from_pipes():
    record = KEEP_ALIVE + piece(0, 0, b"abc")
    with folder() as place:
        write(f"{place}/torrent", ABC)
        fifo = f"{place}/fifo"
        os.mkfifo(fifo)
        program = subprocess.Popen([BTCHECK, "replay", f"{place}/torrent", fifo], stdout=subprocess.PIPE)
        write(fifo, record)
        out, _ = program.communicate(timeout=60)
        assert (program.returncode, out) == (0, b"1 keep-alive\n2 verified 0 0\nend\n"), (program.returncode, out)
        expect(run("replay", f"{place}/torrent", "/dev/stdin", input=record), 0, lines("1 keep-alive", "2 verified 0 0", "end"))


def test_memory_is_that_of_the_session():
    """Records of 64 MiB, in 32 MiB of memory in all: nothing is kept of a frame once its line is written."""
    tree = Tree.of(FIVE)
    torrent = torrent_of([("five", FIVE)], 32768)
    leaves = hashes(tree.root, 0, 0, 8, 2, given=tree.hashes(0, 0, 8, 0))
    block = piece(0, 0, FIVE[:BLOCK])
    skipped = frame(b"\x05" + bytes((1 << 20) - 5))
    with folder() as place:
        for parts, count, last in [(KEEP_ALIVE, 1 << 18, b"%d keep-alive"), (skipped, 64, b"%d skipped 5"),
                                   (leaves + block * 4095, 1, b"%d verified 0 0"), (leaves, 1 << 17, b"%d stored 0"),
                                   (frame(b"\x16" + bytes((1 << 20) - 5)), 64, b"%d bad frame 22 1048572")]:
            done = replay(place, torrent, parts * count, "--info-only", memory=32 << 10)
            report_lines = done.stdout.split(b"\n")
            assert done.returncode in (0, 1), done.stderr
            assert report_lines[-3:] == [last % (len(report_lines) - 2), b"end", b""], report_lines[-3:]


def test_the_last_leaves_of_the_longest_file():
    """The last two leaves of a file of 2^46 bytes, in 32 MiB of memory: what is kept grows with what is known."""
    zeros = [bytes(32)]
    for _ in range(32):
        zeros.append(sha256(zeros[-1] * 2))
    value = info({"file": {"": {"length": 1 << 46, "pieces root": zeros[32]}}}, 1 << 30)
    far = hashes(zeros[32], 0, 2 ** 32 - 2, 2, 31, given=[zeros[0], *zeros[:32]])
    near = hashes(zeros[32], 31, 0, 2, 0, given=[zeros[31], zeros[31]])
    with folder() as place:
        done = replay(place, torrent(value, {zeros[32]: zeros[16] * 65536}), far + near + far, "--info-only",
                      memory=32 << 10)
        expect(done, 0, lines("1 stored 64", "2 stored 0", "3 stored 0", "end"))
