"""Canonical bencoding of three inputs, each at half its size and whole, so that a cost that is not proportional to the
bytes shows: a dictionary of 100,000 keys, one long byte string in a dictionary, and a list of many small integers.
Beside it stands reading the same file into memory and summing its bytes, as often."""
import os

from measuring import READERS, measured, build_readers, see_answer

# What a byte of a whole input may cost at most, beside a byte of its half.
MARK = 1.25


def write_keys(path, count):
    """A dictionary of `count` keys of six digits, which ascend, with an integer under each."""
    with open(path, "wb") as out:
        out.write(b"d" + b"".join(b"6:%06di1e" % key for key in range(count)) + b"e")


def write_string(path, count):
    """A dictionary with one byte string of `count` bytes."""
    with open(path, "wb") as out:
        out.write(b"d1:a%d:" % count + bytes(count) + b"e")


def write_items(path, count):
    """A list of integers, of `count` bytes."""
    with open(path, "wb") as out:
        out.write(b"l" + b"i1e" * (count // 3) + b"e")


def decode_inputs(folder, mib):
    """The inputs by name and share, each with its path, its size, and how often it is gone over, since what takes less
    than a hundredth of a second cannot be measured."""
    found = {}
    for name, write, size, times in (("keys", write_keys, 100_000, 50), ("string", write_string, mib << 20, 1),
                                     ("items", write_items, mib << 20, 1)):
        for share, count in (("half", size // 2), ("whole", size)):
            path = os.path.join(folder, f"{name}-{share}")
            write(path, count)
            found[name, share] = (path, os.path.getsize(path), times)
    return found


def run(folder, words):
    """Measures decoding, and gives the inputs whose cost is not proportional to their bytes, in words."""
    build_readers()
    inputs = decode_inputs(folder, words.part)
    for path, _, times in inputs.values():
        see_answer([READERS, "decode", path, str(times)], times)
    found = measured({(what, *key): [READERS, what, path, str(times)] for key, (path, _, times) in inputs.items()
                      for what in ("decode", "read")}, words.rounds)
    print("decode, best of interleaved rounds; nanoseconds of processor time a byte, with the reading of the file")
    print(f"{'':14} {'bytes':>9} {'times':>6} {'decode ns':>10} {'read ns':>8} {'decode takes':>13} {'peak KiB':>9}")
    cost = {}
    for (name, share), (_, size, times) in inputs.items():
        decoding = found["decode", name, share]
        cost[name, share] = decoding.processor / (size * times) * 1e9
        read = found["read", name, share].processor / (size * times) * 1e9
        print(f"{name + ', ' + share:14} {size:9} {times:6} {cost[name, share]:10.3f} {read:8.3f} "
              f"{cost[name, share] / read:11.2f} x {decoding.peak:9}")
    return [f"a byte of the whole of {name} takes more than {MARK} x a byte of its half"
            for name in ("keys", "string", "items") if cost[name, "whole"] > MARK * cost[name, "half"]]
