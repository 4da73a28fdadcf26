"""16,384 piece messages of one block each out of a file, beside the bare digests of the same blocks; and the same as
records of both forms."""
import os

from measuring import BARE, BLOCK, READERS, measured, build_bare, build_readers, missed_marks, report, see_answer

# What reading frames may cost at most, beside the digests of their blocks, and a record of form 2 beside one of form 1.
MARKS = [("bare digests", 0.1)]
FORM_2_MARKS = [("form 1", 1.02)]
COUNT = 16384
HEADER = bytes.fromhex("ffffffff42544832")
ROUNDS = 5  # for each round that was asked for, since records are read fast


def write_frames(folder):
    """Random blocks, the same blocks each in a piece message (BEP 3), and these as a record of form 2, all of which
    came in."""
    paths = [os.path.join(folder, name) for name in ("blocks", "frames", "form-2")]
    with open(paths[0], "wb") as bare, open(paths[1], "wb") as frames, open(paths[2], "wb") as record:
        record.write(HEADER)
        for index in range(COUNT):
            block = os.urandom(BLOCK)
            frame = (9 + BLOCK).to_bytes(4, "big") + b"\x07" + index.to_bytes(4, "big") + bytes(4) + block
            bare.write(block)
            frames.write(frame)
            record.write(b"\0" + frame)
    return paths


def run(folder, words):
    """Measures the reading of frames and of records, and gives the marks that they miss, in words."""
    build_bare()
    build_readers()
    blocks, frames, record = write_frames(folder)
    for kind, path in [("frames", frames), ("record", frames), ("record", record)]:
        see_answer([READERS, kind, path, "1"], COUNT * BLOCK)
    found = measured({
        "frames": [READERS, "frames", frames, "1"],
        "bare digests": [BARE, "digests", blocks],
        "reading alone": [BARE, "read", blocks],
    }, words.rounds)
    print(f"{COUNT} frames of one block: ", end="")
    report(found, COUNT * BLOCK >> 20, "frames")
    forms = measured({
        "form 2": [READERS, "record", record, "1"],
        "form 1": [READERS, "record", frames, "1"],
        "frames": [READERS, "frames", frames, "1"],
    }, words.rounds * ROUNDS)
    print("the same as records: ", end="")
    report(forms, COUNT * BLOCK >> 20, "form 2")
    return missed_marks(found, "frames", MARKS) + missed_marks(forms, "form 2", FORM_2_MARKS)
