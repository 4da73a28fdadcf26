"""The line on a terminal that shows how far a command has come. How long the files are follows from how fast the program
is, so that a line is drawn on every machine."""
import functools
import math
import os
import re
import signal
import time

import messages
import record_model
import torrents
from shim import shimmed
from support import folder, run, write
from terminal import NO_WRAP, WRAP, cut_off, drawn, on_terminal, screen, width_of
from trees import sha256

MIB, GIB = 1 << 20, 1 << 30
PIECE = 65536
SAMPLE = 64 * MIB
UNITS = ["B", "KiB", "MiB", "GiB", "TiB", "PiB", "EiB"]

AMOUNT = r"\d+ B|\d+\.\d (?:Ki|Mi|Gi|Ti|Pi|Ei)B"
OF_ALL = re.compile(rf"({AMOUNT}) of ({AMOUNT}), ({AMOUNT})/s, (\d+:\d\d(?::\d\d)?) left(: .*)?")
OF_ALL_SHORT = re.compile(rf"({AMOUNT}) of ({AMOUNT}), (\d+:\d\d(?::\d\d)?) left(: .*)?")
OF_SOME = re.compile(rf"({AMOUNT}), ({AMOUNT})/s(: .*)?")


def zeros(place, name, length):
    """A file of zeros that takes no room on the disk."""
    path = f"{place}/{name}"
    with open(path, "wb") as file:
        file.truncate(length)
    return path


def root_of_zeros(length):
    """The root of `length` zeros: a power of two of whole blocks."""
    node = sha256(bytes(16384))
    while length > 16384:
        node, length = sha256(node + node), length // 2
    return node


def torrent_of_zeros(lengths):
    """A torrent of files of zeros, each of whole pieces or shorter than one."""
    files = {name: {"": {"length": length, "pieces root": root_of_zeros(length)}} for name, length in lengths.items()}
    layers = {root_of_zeros(length): root_of_zeros(GIB) * (length // GIB) for length in lengths.values() if length > GIB}
    return torrents.torrent(torrents.info(files, piece_length=GIB), layers)


@functools.cache
def read_in(seconds, command="root", *behind):
    """A power of two of bytes. The fastest of three runs of this command would take `seconds` for them, and no more
    than twice as long."""
    with folder() as place:
        path, times = zeros(place, "sample", SAMPLE), []
        for _ in range(3):
            start = time.monotonic()
            assert run(command, path, *behind).returncode == 0
            times.append(time.monotonic() - start)
    return 1 << math.ceil(math.log2(SAMPLE * seconds / min(times)))


def read_slowly():
    """A number of bytes of which the program draws several lines."""
    return read_in(0.5)


def read_soon():
    """A number of bytes of which the program draws a line, and not many."""
    return read_in(0.25)


def slowly(parts, seconds):
    """Feeds parts of 64 KiB, and waits after each."""
    def feed(pipe):
        for _ in range(parts):
            pipe.write(bytes(PIECE))
            pipe.flush()
            time.sleep(seconds)
    return feed


def amount(text):
    number, unit = text.split()
    return float(number) * 1024 ** UNITS.index(unit)


def text_of(size):
    """The text of an amount that has no more than one digit behind the point."""
    power = int(math.log2(size)) // 10
    return f"{size / 1024 ** power:.1f} {UNITS[power]}"


def is_within(text, least, most):
    """Whether the amount of this text, which is rounded to a tenth of its unit, may lie between these two."""
    slack = amount("0.1 " + text.split()[1])
    return least - slack <= amount(text) <= most + slack


def test_a_pipe():
    """What comes from a pipe has no length, so the line has neither the whole nor the time left."""
    start = time.monotonic()
    status, out, sent = on_terminal("root", "/dev/stdin", feed=slowly(8, 0.15))
    took = time.monotonic() - start
    assert (status, out) == (0, run("root", "/dev/stdin", input=bytes(8 * PIECE)).stdout.decode())
    lines = drawn(sent)
    assert 2 <= len(lines) <= 10 * took + 1, (lines, took)
    found = [OF_SOME.fullmatch(line) for line in lines]
    assert all(found) and {match[3] for match in found} == {": /dev/stdin"}, lines
    done = [amount(match[1]) for match in found]
    assert done == sorted(done) and done[-1] <= 8 * PIECE and all(size % PIECE == 0 for size in done), done
    assert screen(sent) == [""], sent


def test_a_file_and_a_folder():
    whole, part = read_slowly(), read_soon()
    with folder() as place:
        long = zeros(place, "long", whole)
        status, out, sent = on_terminal("root", long, columns=500)
        assert (status, out) == (0, f"{whole} {root_of_zeros(whole).hex()}\n")
        checks = [OF_ALL.fullmatch(line) for line in drawn(sent)]
        assert checks and all(checks) and {match[2] for match in checks} == {text_of(whole)}, sent
        assert {match[5] for match in checks} == {f": {long}"} and screen(sent) == [""], sent
        # a folder in which one file of three is missing: its bytes count as done
        os.mkdir(f"{place}/all")
        for name in ["a", "c"]:
            zeros(f"{place}/all", name, part)
        path = write(f"{place}/torrent", torrent_of_zeros({"a": part, "b": 4 * part, "c": part}))
        status, out, sent = on_terminal("check", path, f"{place}/all", columns=500)
        assert (status, out) == (1, "good a\nmissing b\ngood c\nno\n")
        checks = [OF_ALL.fullmatch(line) for line in drawn(sent)]
        assert checks and all(checks) and {match[2] for match in checks} == {text_of(6 * part)}, sent
        for match in checks:
            before = {f": {place}/all/a": 0, f": {place}/all/c": 5 * part}[match[5]]
            assert is_within(match[1], before, before + part), match[0]
        assert screen(sent) == [""], sent


def test_standard_output_on_the_same_terminal():
    """The line is gone before the answer."""
    size = read_slowly()
    with folder() as place:
        long = zeros(place, "long", size)
        status, _, sent = on_terminal("root", long, both=True)
        assert status == 0 and drawn(sent), sent
        assert screen(sent) == [f"{size} {root_of_zeros(size).hex()}", ""], sent
        path = write(f"{place}/torrent", torrent_of_zeros({"long": size}))
        status, _, sent = on_terminal("check", path, place, both=True)
        assert status == 0 and len(drawn(sent)) > 1 and screen(sent) == ["good long", "yes", ""], sent


def test_a_check_that_is_cut_off():
    """A terminal has the line of the first file while the second is read."""
    with folder() as place:
        sizes = {"a": 16384, "b": 1 << 33}  # some seconds of reading
        path = write(f"{place}/torrent", torrent_of_zeros(sizes))
        for name, size in sizes.items():
            zeros(place, name, size)
        assert cut_off(1, "check", path, place) == (-signal.SIGINT, "good a\n")


def test_seeding():
    """The line goes before each line of a file, and comes back while the next one is read."""
    sizes = {"a": read_soon(), "b": 2 * read_soon()}
    with folder() as place:
        path = write(f"{place}/torrent", torrent_of_zeros(sizes))
        os.mkdir(f"{place}/all")
        for name, size in sizes.items():
            zeros(f"{place}/all", name, size)
        record = write(f"{place}/record", messages.KEEP_ALIVE)
        status, _, sent = on_terminal("replay", path, record, "--seed", f"{place}/all", both=True, columns=400)
        assert status == 0 and screen(sent) == ["seeded a", "seeded b", "1 keep-alive", "end", ""], sent
        for name in ["a", "b"]:
            assert any(line.endswith(f"/all/{name}") for line in drawn(sent)), (name, sent)


def test_create():
    """The bytes in all are those of the files that were listed."""
    part = read_soon()
    with folder() as place:
        os.mkdir(f"{place}/all")
        for name in ["a", "b"]:
            zeros(f"{place}/all", name, part)
        words = ["--name", "x", "--piece-length", str(GIB)]
        status, out, sent = on_terminal("create", f"{place}/all", f"{place}/out", *words, columns=500)
        assert (status, out) == (0, "") and screen(sent) == [""], (out, sent)
        checks = [OF_ALL.fullmatch(line) for line in drawn(sent)]
        assert checks and all(checks) and {match[2] for match in checks} == {text_of(2 * part)}, sent
        for match in checks:
            before = {f": {place}/all/a": 0, f": {place}/all/b": part}[match[5]]
            assert is_within(match[1], before, before + part), match[0]


def test_convert():
    """What goes out to a file leaves the line where it is, and what goes out to the terminal takes it away."""
    keep_alives = bytes(8 * PIECE)
    with folder() as place:
        status, out, sent = on_terminal("convert", "/dev/stdin", f"{place}/out", feed=slowly(8, 0.15))
        lines = drawn(sent)
        assert (status, out) == (0, "") and len(lines) >= 2 and screen(sent) == [""], (out, sent)
        assert {match[3] for match in map(OF_SOME.fullmatch, lines)} == {": /dev/stdin"}, lines
        with open(f"{place}/out", "rb") as file:
            assert file.read() == record_model.converted(keep_alives)
        status, out, sent = on_terminal("convert", "/dev/stdin", "/dev/stderr", feed=slowly(8, 0.15))
        assert (status, out) == (0, "") and sent.count("\r") >= 6, (out, sent.count("\r"))
        plain = re.sub("\r[^\r]*\r +\r", "", sent.replace(NO_WRAP, "").replace(WRAP, ""))
        assert plain.encode(errors="surrogateescape") == record_model.converted(keep_alives)
        # the line is gone before a fault, and before a refusal
        status, _, sent = on_terminal("convert", "/dev/stdin", f"{place}/out", both=True, feed=cut)
        assert status == 2 and len(drawn(sent)) > 1, sent
        assert screen(sent) == ["fault: record is truncated: /dev/stdin", ""], sent
        # the bytes in all are those of the record
        size = read_in(0.5, "convert", "/dev/null")
        long = zeros(place, "long", size)
        status, out, sent = on_terminal("convert", long, "/dev/null", columns=500)
        checks = [OF_ALL.fullmatch(line) for line in drawn(sent)]
        assert (status, out) == (0, "") and checks and all(checks) and screen(sent) == [""], (out, sent)
        assert {(match[2], match[5]) for match in checks} == {(text_of(size), f": {long}")}, sent
        done = run("convert", long, "/dev/null")
        assert (done.returncode, done.stdout, done.stderr) == (0, b"", b"")


def cut(pipe):
    """Feeds keep-alives slowly, and then a part of one."""
    slowly(8, 0.15)(pipe)
    pipe.write(bytes(3))


def test_no_line_without_a_terminal():
    """Nothing is sent to a terminal that is dumb, nor to what is none. The line goes to standard error alone: there is
    none if only standard output is a terminal."""
    size = read_soon()
    with folder() as place:
        long = zeros(place, "long", size)
        line = f"{size} {root_of_zeros(size).hex()}\n"
        assert on_terminal("root", long, term="dumb") == (0, line, "")
        assert on_terminal("root", long, output_alone=True) == (0, "", line)
        done = run("root", long)
        assert (done.returncode, done.stdout.decode(), done.stderr) == (0, line, b"")
        with open(f"{place}/error", "wb") as error:
            assert run("root", long, stderr=error).returncode == 0
        assert os.path.getsize(f"{place}/error") == 0


def test_widths():
    """No line is as wide as the terminal, whatever the name."""
    odd = [1, 2, 12, 48, 60, 61, 80, 140, 0, "", "wide", "-5", "1000000", "99999999999"]
    names = [("short", odd), ("l" * 200, [70, 140]), ("\u6f22\u5b57" * 40, [70, 71]),
             ("e\u0301\t\x1b[2J\x7f" + "x" * 90, [70, 400])]
    with folder() as place:
        for name, widths in names:
            path = zeros(place, name, read_soon())
            for columns in widths:
                status, _, sent = on_terminal("root", path, columns=columns)
                wide = int(columns) if str(columns).isdigit() and 0 < int(columns) < 10 ** 8 else 45
                assert status == 0 and screen(sent) == [""], (name, columns, sent)
                for line in drawn(sent):
                    assert sum(map(width_of, line)) < min(wide, 500), (columns, line)
                    assert not any(ord(letter) < 32 or letter == "\x7f" for letter in line), line
                assert wide < 12 or drawn(sent), (name, columns)
                if wide >= 80 and name == "short":
                    assert all(line.endswith("short") for line in drawn(sent)), sent
                elif wide >= 60:
                    assert all(OF_ALL.match(line) for line in drawn(sent)), sent
                elif wide >= 45:  # without the rate, if that does not fit
                    assert all(OF_ALL.match(line) or OF_ALL_SHORT.match(line) for line in drawn(sent)), sent


def test_narrow_terminals():
    """Nothing scrolls, though nobody says how narrow the terminal is."""
    with folder() as place:
        path = zeros(place, "long", read_soon())
        for columns in (1, 2, 20, 44, 45, 60, 80):
            status, _, sent = on_terminal("root", path)
            assert status == 0 and drawn(sent), (columns, sent)
            assert screen(sent, columns) == [""], (columns, sent)
            # each line that is drawn is one write of the program, from the one control sequence to the other
            assert re.fullmatch(f"(\r{re.escape(NO_WRAP)}[^\r]*{re.escape(WRAP)})+\r", sent), sent


def test_files_that_fail():
    """The line is gone when a fault is reported, and when a check goes on after one."""
    with shimmed() as (place, shim):
        os.mkdir(f"{place}/all")
        path = write(f"{place}/torrent", torrent_of_zeros({"a": read_slowly(), "b": read_soon()}))
        paths = [zeros(f"{place}/all", "a", read_slowly()), zeros(f"{place}/all", "b", read_soon())]
        late = shim.run("read", 0, "root", paths[0])[0] * 3 // 4

        def failing(at):
            with open(shim.counts, "wb") as file:
                file.write(bytes(16))
            return {"LD_PRELOAD": shim.library, "SHIM_COUNTS": shim.counts, "SHIM_KIND": "read", "SHIM_AT": str(at),
                    "SHIM_ERRNO": "5", "SHIM_ONWARD": "0", "SHIM_ONE_BYTE": "0"}
        status, out, sent = on_terminal("root", paths[0], both=True, **failing(late))
        assert status == 2 and len(drawn(sent)) > 1, sent
        assert screen(sent) == [f"fault: cannot read {paths[0]}", "reason: Input/output error (os error 5)", ""], sent
        status, out, sent = on_terminal("check", path, f"{place}/all", **failing(late))
        assert (status, out) == (1, "unreadable a\ngood b\nno\n") and drawn(sent), (out, sent)
        assert screen(sent) == [""], sent
        # standard output fails behind the line
        with open("/dev/full", "wb") as full:
            done = run("root", paths[0], stdout=full)
        assert (done.returncode, done.stderr) == (2, b"fault: cannot write -\n")
