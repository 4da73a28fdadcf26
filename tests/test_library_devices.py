"""Devices that fail under calls of the libraries. The program of crates/device_tests makes each call that takes a device
over ones in memory that fail at their first call, their second, and so on, until a run meets no fault, whole and one
byte a call. It prints how many calls of its devices each call makes, and `wrong` where a fault is answered otherwise than
promised: what went out is a prefix of the text, one fault is counted, and later calls answer as promised. It also prints
`wrong` if at one byte a call there is a read more than one for each byte and one for the end, or a write of nothing."""
import hashlib
import re

import messages
from support import device_tests, folder, run, write
from torrents import TWO, entry, file, hybrid, info, pad, torrent
from trees import Tree

COUNT = re.compile(r"(.+): (\d+) of (.+)")

# The calls, with each device that they take.
CALLS = {
    ("write_all", "the sink"), ("write_escaped", "the sink"), ("write_path", "the sink"), ("write_line", "the sink"),
    ("flush_after", "the sink"), ("encode", "the sink"), ("write", "the sink"), ("root_line", "the sink"),
    ("show", "the sink"), ("refusal_line", "the sink"), ("fault_line", "the sink"), ("print_report", "the sink"),
    ("say_check_with_bad_pieces", "the sink"), ("say_part", "the sink"), ("check_part", "the shelf"), ("check_part", "a file"),
    ("say_check_part_with_bad_pieces", "the sink"), ("say_check_part_with_bad_pieces", "the shelf"),
    ("say_check_part_with_bad_pieces", "a file"), ("say_marked_report", "the sink"),
    ("seed", "the sink"), ("replay", "the sink"), ("replay with answers", "the sink"), ("finish", "the sink"),
    ("seed_onto", "the sink"), ("seed_onto", "the shelf"), ("seed_onto", "a file"), ("replay_onto", "the sink"),
    ("replay_onto with answers", "the sink"), ("replay_pieces", "the sink"), ("replay_onto", "the source"),
    ("replay_pieces", "the source"),
    ("convert", "the sink"), ("root_line", "the source"), ("take_all", "the source"),
    ("FrameReader::advance", "the source"), ("FrameReader::next", "the source"), ("RecordReader::advance", "the source"),
    ("RecordReader::next", "the source"), ("replay", "the source"), ("convert", "the source"), ("check", "the shelf"),
    ("check", "a file"), ("seed", "the shelf"), ("seed", "a file"), ("gather", "the shelf"), ("gather", "a file"),
}


def small_hybrid(a, c):
    """The info dictionary of a hybrid of the files `a` and `c` with these contents, of a piece each."""
    cuts = hashlib.sha1(a + bytes(16384 - len(a))).digest() + hashlib.sha1(c).digest()
    listed = [entry(len(a), "a"), pad(16384 - len(a)), entry(len(c), "c")]
    return info({"a": file(a), "c": file(c)}, files=listed, pieces=cuts)


def record_of(a):
    """Frames of each kind for a torrent whose first file has this content."""
    tree = Tree.of(a)
    return b"".join([messages.KEEP_ALIVE, messages.piece(0, 0, a[:16384]), messages.request(tree.root, 0, 0, 2, 0),
                     messages.piece(1, 0, b"abd"), messages.frame(b"\x04" + bytes(4)), messages.request(tree.root, 0, 0, 4, 0)])


def test_each_call_of_each_device():
    """Large files are read by parts, and small ones byte by byte."""
    for name, content, a, at_most in [("large", hybrid(), TWO, 4096), ("small", small_hybrid(b"a file", b"abc"), b"a file", 1)]:
        with folder() as place:
            done = run(write(f"{place}/torrent", torrent(content)), write(f"{place}/record", record_of(a)),
                       write(f"{place}/a", a), write(f"{place}/c", b"abc"), str(at_most), program=device_tests())
        assert done.returncode == 0 and not done.stderr, (name, done)
        lines = [COUNT.fullmatch(line) for line in done.stdout.decode().splitlines()]
        assert all(lines), (name, done.stdout)
        assert {(line[1], line[3]) for line in lines} == CALLS, (name, done.stdout)
        assert all(int(line[2]) > 0 for line in lines), (name, done.stdout)
        print(f"device calls failed in turn, {name} files: {', '.join(line[0] for line in lines)}")
