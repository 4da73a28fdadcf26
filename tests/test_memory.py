"""Memory of a check and of a torrent that is made: hybrids whose pieces are long. The clauses on buffers and stores bound
each of them; none speaks of the memory of a whole run, nor of memory that is taken for a moment."""
import os
import sys

from support import BTCHECK, folder, run

# Runs a program, and then prints its largest resident set in KiB on standard error; that of this program, some 14 MiB, if
# that is larger, since it counts until the other one begins.
MEASURED = """import resource, subprocess, sys
status = subprocess.call(sys.argv[1:])
print(resource.getrusage(resource.RUSAGE_CHILDREN).ru_maxrss, file=sys.stderr)
sys.exit(status)"""
MIB = 1 << 20
# The piece length, the length of a file of zeros, and how many MiB `check` and `create` take at most. Eight pieces of 4 MiB
# have 32 MiB; what waits of pieces of 16 MiB has 58, and longer ones are hashed by themselves.
CASES = [
    (4 * MIB, 40 * MIB, 40),
    (16 * MIB, 80 * MIB + 5, 66),
    (32 * MIB, 160 * MIB, 24),
    (1 << 30, 5, 24),
    (1 << 30, (1 << 30) + 5, 24),
]


def measured(*words):
    """What a run of the program printed, and its largest resident set in KiB."""
    done = run("-c", MEASURED, BTCHECK, *words, program=sys.executable)
    assert done.returncode == 0, done
    return done.stdout, int(done.stderr)


def test_long_pieces_take_little_memory():
    for piece_length, length, most in CASES:
        with folder() as place:
            os.mkdir(f"{place}/all")
            with open(f"{place}/all/a", "wb") as out:
                out.truncate(length)
            _, made = measured("create", f"{place}/all", f"{place}/out", "--name", "a", "--piece-length", str(piece_length),
                               "--hybrid")
            said, checked = measured("check", f"{place}/out", f"{place}/all")
            assert said == b"good a\nv1 good\nyes\n", said
            print(f"pieces of {piece_length >> 20} MiB: create {made} KiB, check {checked} KiB")
            assert made <= most << 10 and checked <= most << 10, (piece_length, length, made, checked)


def test_a_root_takes_little_memory():
    with folder() as place:
        with open(f"{place}/a", "wb") as out:
            out.truncate(64 * MIB)
        _, resident = measured("root", f"{place}/a")
        assert resident <= 24 << 10, resident
