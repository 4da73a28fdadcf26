"""`btcheck check TORRENT DIR --bad`: the runs of bad pieces behind a file's line, beside a model that compares the contents
themselves, and that fetching these ranges alone makes the folder whole."""
import json
import os
import random
import re
import signal

from shim import shimmed
from support import escaped, expect, folder, need, run, write
from terminal import cut_off
from test_parts import instructions
from test_progress import torrent_of_zeros, zeros
from torrents import torrent_of

NAMED = re.compile(r"(?:bad [0-9]+|wrong length) (.*)")
RUN = re.compile(r"bad pieces (\d+) (\d+) bytes (\d+)-(\d+)")
PIECE = 16384


def piece_count(content, piece_length):
    return -(-len(content) // piece_length)


def bad_pieces(content, found, piece_length):
    """Which pieces of a file differ from what was found of them. One that was not found whole differs."""
    for at in range(0, len(content), piece_length):
        piece = content[at:at + piece_length]
        yield found[at:min(at + piece_length, len(content))] != piece


def runs_of(content, found, piece_length, first):
    """The lines of a file whose first piece is this one of the torrent."""
    lines, start = [], None
    flags = [*bad_pieces(content, found, piece_length), False]
    for number, is_bad in enumerate(flags):
        if is_bad and start is None:
            start = number
        if not is_bad and start is not None:
            end = min(number * piece_length, len(content)) - 1
            lines.append(f"bad pieces {first + start} {first + number - 1} bytes {start * piece_length}-{end}")
            start = None
    return lines


def report(contents, states, piece_length, hybrid=False):
    """What is to be printed: the lines of each file with its runs, and the status. The line on version 1 pieces is left out."""
    lines, first, good = [], 0, True
    for name, content in contents:
        found = states.get(name, content)
        if found is None:
            lines.append(f"missing {escaped(name)}")
        elif found == content:
            lines.append(f"good {escaped(name)}")
        else:
            runs = runs_of(content, found, piece_length, first)
            verdict = "wrong length" if len(found) != len(content) else "bad " + runs[0].split()[2]
            lines += [f"{verdict} {escaped(name)}", *runs]
        good = good and found == content
        first += piece_count(content, piece_length)
    return 0 if good else 1, [*lines, "yes" if good else "no"]


def laid_out(place, contents, states):
    """The folder of these files, with other contents for those of `states`."""
    os.makedirs(place, exist_ok=True)
    for name, content in contents:
        found = states.get(name, content)
        path = f"{place}/{name}"
        if os.path.exists(path):
            os.remove(path)
        if found is not None:
            write(path, found)
    return place


def without_v1(text):
    return [line for line in text.decode().split("\n")[:-1] if not line.startswith("v1 ")]


def owners(lines):
    """The path of the file that each line is of: a run of bad pieces stands behind the line of its file."""
    path = None
    for line in lines:
        named = NAMED.fullmatch(line)
        path = named[1] if named else path
        yield path


def expect_bad(torrent, place, contents, states, piece_length):
    """The program prints what the model does, and with --quiet and --json the same."""
    content = laid_out(f"{place}/content", contents, states)
    status, lines = report(contents, states, piece_length)
    done = run("check", torrent, content, "--bad")
    assert (done.returncode, done.stderr) == (status, b""), done
    assert without_v1(done.stdout) == lines, (lines, done.stdout)
    quiet = run("check", "--quiet", "--bad", torrent, content)
    assert quiet.returncode == status
    assert without_v1(quiet.stdout) == [line for line in lines if not line.startswith("good ")], quiet
    plain = run("check", torrent, content)
    assert plain.stdout.decode() == "".join(line + "\n" for line in done.stdout.decode().split("\n")[:-1] if not RUN.match(line))
    objects = run("check", "--bad", "--json", torrent, content)
    assert (objects.returncode, objects.stderr) == (status, b""), objects
    said = [json.loads(line) for line in objects.stdout.decode().split("\n")[:-1]]
    wanted = [dict(zip(["first", "last", "from", "to"], map(int, RUN.fullmatch(line).groups())), kind="bad pieces")
              for line in lines if RUN.match(line)]
    paths = [escaped(one.pop("path")) for one in said if one["kind"] == "bad pieces"]
    assert [one for one in said if one["kind"] == "bad pieces"] == wanted, objects
    assert paths == [owner for line, owner in zip(lines, owners(lines)) if RUN.match(line)], objects
    assert len(said) == done.stdout.count(b"\n")
    return lines


def flipped(content, *places):
    found = bytearray(content)
    for place in places:
        found[place] ^= 1
    return bytes(found)


FIVE = random.Random(51).randbytes(5 * PIECE - 100)

# What stands in the place of a file of five pieces, the last of which is cut, that begins at piece 2; and its lines.
TABLE = [
    (FIVE, []),
    (flipped(FIVE, 3 * PIECE), ["bad 5", "bad pieces 5 5 bytes 49152-65535"]),
    (flipped(FIVE, 0), ["bad 2", "bad pieces 2 2 bytes 0-16383"]),
    (flipped(FIVE, -1), ["bad 6", "bad pieces 6 6 bytes 65536-81819"]),
    (flipped(FIVE, 0, 2 * PIECE), ["bad 2", "bad pieces 2 2 bytes 0-16383", "bad pieces 4 4 bytes 32768-49151"]),
    (flipped(FIVE, PIECE, 3 * PIECE - 1), ["bad 3", "bad pieces 3 4 bytes 16384-49151"]),
    (flipped(FIVE, PIECE, -1), ["bad 3", "bad pieces 3 3 bytes 16384-32767", "bad pieces 6 6 bytes 65536-81819"]),
    (flipped(FIVE, *range(0, len(FIVE), PIECE)), ["bad 2", "bad pieces 2 6 bytes 0-81819"]),
    (bytes(len(FIVE)), ["bad 2", "bad pieces 2 6 bytes 0-81819"]),
    (FIVE[:2 * PIECE + 1], ["wrong length", "bad pieces 4 6 bytes 32768-81819"]),
    (FIVE[:2 * PIECE], ["wrong length", "bad pieces 4 6 bytes 32768-81819"]),
    (FIVE[:2 * PIECE - 1], ["wrong length", "bad pieces 3 6 bytes 16384-81819"]),
    (flipped(FIVE, 0)[:4 * PIECE], ["wrong length", "bad pieces 2 2 bytes 0-16383", "bad pieces 6 6 bytes 65536-81819"]),
    (FIVE[:-1], ["wrong length", "bad pieces 6 6 bytes 65536-81819"]),
    (b"", ["wrong length", "bad pieces 2 6 bytes 0-81819"]),
    (FIVE + b"\0", ["wrong length"]),
    (FIVE + FIVE, ["wrong length"]),
    (flipped(FIVE, PIECE) + b"more", ["wrong length", "bad pieces 3 3 bytes 16384-32767"]),
    (flipped(FIVE, -1) + bytes(PIECE), ["wrong length", "bad pieces 6 6 bytes 65536-81819"]),
    (None, ["missing"]),
]


def test_each_row():
    with folder() as place:
        contents = [("a", bytes(PIECE + 1)), ("b", FIVE), ("c", b"abc")]
        torrent = write(f"{place}/torrent", torrent_of(contents, PIECE))
        for found, wanted in TABLE:
            lines = expect_bad(torrent, place, contents, {"b": found}, PIECE)
            named = [f"{wanted[0]} b", *wanted[1:]] if wanted else ["good b"]
            assert lines[1:-2] == named, (lines, wanted)


def test_small_files():
    with folder() as place:
        for content in [b"a", b"abc", bytes(PIECE - 1), bytes(PIECE), bytes(PIECE + 1)]:
            contents = [("a", b""), ("b", content), ("c", b""), ("d", b"d")]
            torrent = write(f"{place}/torrent", torrent_of(contents, PIECE))
            for found in [content, b"", flipped(content, 0), flipped(content, -1), content[:-1], content + b"\0",
                          flipped(content, 0) + b"\0", content + bytes(3 * PIECE), None]:
                expect_bad(torrent, place, contents, {"b": found}, PIECE)
                for empty in [b"x", bytes(PIECE)]:
                    expect_bad(torrent, place, contents, {"a": empty, "b": found, "c": empty}, PIECE)


def test_a_listed_hash_of_zeros_is_no_piece():
    # past the end of a short file nothing is good, also where the piece there is zeros
    with folder() as place:
        contents = [("a", bytes(3 * PIECE)), ("b", bytes(2 * PIECE))]
        torrent = write(f"{place}/torrent", torrent_of(contents, PIECE))
        for length in [0, 1, PIECE, PIECE + 1, 2 * PIECE]:
            expect_bad(torrent, place, contents, {"a": bytes(length), "b": bytes(min(length, PIECE))}, PIECE)


def drawn_content(draw):
    length = draw.choice([0, 1, 3, 16383, 16384, 16385, 32768, 40000, 65636, 98304, draw.randrange(1, 300_000)])
    return draw.randbytes(length)


def drawn_damage(draw, content):
    kind = draw.randrange(10)
    found = bytearray(content)
    if kind == 0:
        return None
    if kind < 8 and content:
        for _ in range(draw.randrange(1, 7)):
            at = draw.randrange(len(found))
            found[at:at + draw.choice([1, 1, 5, 20000, 60000])] = bytes(len(found[at:at + 1]))
            found += bytes(max(0, len(content) - len(found)))
            found[at] ^= 1 << draw.randrange(8)
    if kind in (5, 8):
        del found[draw.randrange(len(found) + 1):]
    if kind in (6, 9):
        found += draw.randbytes(draw.choice([1, 100, 16384, 50000]))
    return bytes(found)


def test_random_damages_and_their_repair():
    draw = random.Random(5252)
    seen = set()
    for _ in range(120):
        with folder() as place:
            contents = [(name, drawn_content(draw)) for name in "abcd"]
            piece_length = draw.choice([16384, 32768, 65536])
            laid_out(f"{place}/whole", contents, {})
            kind = ["--hybrid"] if draw.randrange(2) else []
            torrent = f"{place}/torrent"
            made = run("create", f"{place}/whole", torrent, "--name", "x", "--piece-length", str(piece_length), *kind)
            if made.returncode:
                assert made.stdout.startswith(b"refused 12 "), made
                continue
            states = {name: drawn_damage(draw, content) for name, content in contents if draw.randrange(3)}
            lines = expect_bad(torrent, place, contents, states, piece_length)
            seen.add(max((sum(1 for _ in group) for group in grouped(lines)), default=0))
            repair(place, dict(contents), states, lines)
            expect(run("check", torrent, f"{place}/content"), 0, None)
    assert {0, 1, 2} <= seen, seen


def grouped(lines):
    """The lines of runs, file by file."""
    group = []
    for line in lines:
        if RUN.match(line):
            group.append(line)
        else:
            yield group
            group = []


def repair(place, contents, states, lines):
    """Fetches the listed ranges again, whole files that are missing, and cuts those that are too long."""
    at = None
    for line in lines:
        found = RUN.fullmatch(line)
        if found:
            start, last = int(found[3]), int(found[4])
            mode = "r+b" if os.path.exists(f"{place}/content/{at}") else "wb"
            with open(f"{place}/content/{at}", mode) as file:
                file.seek(start)
                file.write(contents[at][start:last + 1])
        elif line not in ("yes", "no"):
            at = line.split()[-1]
            if line.startswith("missing "):
                write(f"{place}/content/{at}", contents[at])
            if line.startswith("wrong length ") and len(states[at]) > len(contents[at]):
                os.truncate(f"{place}/content/{at}", len(contents[at]))


def test_unreadable_files_have_no_runs():
    with folder() as place:
        contents = [("a", FIVE), ("b", FIVE[1:]), ("c", b"abc")]
        torrent = write(f"{place}/torrent", torrent_of(contents, PIECE))
        content = laid_out(f"{place}/content", contents, {"c": b"abd"})
        os.remove(f"{content}/a")
        os.mkdir(f"{content}/a")
        os.remove(f"{content}/b")
        expect(run("check", "--bad", torrent, content), 1,
               "unreadable a\nmissing b\nbad 10 c\nbad pieces 10 10 bytes 0-2\nno\n")


def test_faults():
    with folder() as place:
        contents = [("a", FIVE)]
        torrent = write(f"{place}/torrent", torrent_of(contents, PIECE))
        content = laid_out(f"{place}/content", contents, {"a": flipped(FIVE, 0, -1)})
        with open("/dev/full", "wb") as full:
            expect(run("check", "--bad", torrent, content, stdout=full), 2, None, "fault: cannot write -\n")
        expect(run("check", "--bad", f"{place}/none", content), 2, "", f"fault: cannot read {place}/none\n")
        write(f"{place}/odd", b"d")
        expect(run("check", "--bad", f"{place}/odd", content), 1, "refused 2 NotBencode Truncated 1\n")


def test_reads_that_fail():
    """Each file is read once: one of which a read fails is unreadable and has no runs, and the other's lines stand."""
    with shimmed() as (place, shim):
        contents = [("a", FIVE), ("c", b"abc")]
        torrent = write(f"{place}/torrent", torrent_of(contents, PIECE))
        content = laid_out(f"{place}/content", contents, {"a": flipped(FIVE, 0, 2 * PIECE), "c": b"ab"})
        runs = shim.each("read", "check", "--bad", torrent, content)
        ample = next(runs)
        lines = ["bad 0 a", "bad pieces 0 0 bytes 0-16383", "bad pieces 2 2 bytes 32768-49151", "wrong length c",
                 "bad pieces 5 5 bytes 0-2", "no"]
        assert (ample.returncode, ample.stdout.decode().split("\n")[:-1]) == (1, lines), ample
        told = {"a": ["unreadable a", *lines[3:]], "c": [*lines[:3], "unreadable c", "no"]}
        seen = set()
        for done in runs:
            said = done.stdout.decode().split("\n")[:-1]
            if done.returncode == 1:
                assert done.stderr == b"" and said in told.values(), done
                seen.add(said[0])
            else:
                assert (done.returncode, done.stderr.decode(), said) == (2, f"fault: cannot read {torrent}\n", []), done
        assert seen == {"unreadable a", lines[0]}, seen


def test_a_check_that_is_cut_off():
    """A terminal has the lines of the first file and of its bad pieces while the second is read."""
    with folder() as place:
        sizes = {"a": PIECE, "b": 1 << 33}  # some seconds of reading
        path = write(f"{place}/torrent", torrent_of_zeros(sizes))
        zeros(place, "b", sizes["b"])
        write(f"{place}/a", flipped(bytes(PIECE), 5))
        lines = "bad 0 a\nbad pieces 0 0 bytes 0-16383\n"
        assert cut_off(2, "check", "--bad", path, place) == (-signal.SIGINT, lines)


def test_memory_does_not_grow_with_the_runs():
    with folder() as place:
        content = random.Random(7).randbytes(400 * PIECE)
        torrent = write(f"{place}/torrent", torrent_of([("a", content)], PIECE))
        laid_out(f"{place}/content", [("a", flipped(content, *range(0, len(content), 2 * PIECE)))], {})
        done = run("check", "--bad", torrent, f"{place}/content", memory=12000)
        assert done.returncode == 1 and done.stdout.count(b"bad pieces") == 200, done


def test_bad_pieces_cost_little():
    """Of a file with some bad pieces `--bad` takes hardly more instructions than `check` alone, however long the pieces are."""
    need("valgrind")
    with folder() as place:
        os.mkdir(f"{place}/files")
        content = random.Random(2).randbytes(1 << 23)
        for length in (1 << 14, 1 << 16, 1 << 20):
            write(f"{place}/files/content", content)
            expect(run("create", f"{place}/files", f"{place}/torrent", "--name", "x", "--piece-length", str(length)), 0)
            write(f"{place}/files/content", flipped(content, 5, 3 << 20, -1))
            plain, done = instructions("check", f"{place}/torrent", f"{place}/files")
            assert done.returncode == 1 and done.stdout == b"bad 0 content\nno\n", done
            told, done = instructions("check", "--bad", f"{place}/torrent", f"{place}/files")
            assert done.returncode == 1 and done.stdout.count(b"bad pieces ") == 3, done
            print(f"pieces of {length} bytes: instructions of --bad {told / plain:.3f} of those of check")
            assert told <= 1.1 * plain, (told, plain)
