"""`btcheck root FILE`."""
import os
import pty
import random
import threading

from support import expect, folder, run, write
from trees import root_line, root_of_file

A = "ba7816bf8f01cfea414140de5dae2223b00361a396177a9cb410ff61f20015ad"
Z1 = "f5a5fd42d16a20302798ef6ed309979b43003d2320d9f0e8ea9831a92759fb4b"
Z2 = "db56114e00fdd4c1f85c892bf35ac9a89289aaecb1ebd0a96cde606a748b5d71"

# Around the edges of blocks and of the program's buffer: 1 to 5 blocks, pads in each layer.
LENGTHS = [0, 1, 16383, 16384, 16385, 32768, 40000, 65535, 65536, 65537, 65636, 131072, 131073, 1000000]


def content_of(length, seed=1):
    return random.Random(seed * 1000003 + length).randbytes(length)


def test_worked_files():
    cases = [
        (b"", "0 -\n"),
        (b"abc", f"3 {A}\n"),
        (bytes(64), f"64 {Z1}\n"),
        (bytes.fromhex(Z1 + Z1), f"64 {Z2}\n"),
    ]
    with folder() as place:
        for content, line in cases:
            expect(run("root", write(f"{place}/file", content)), 0, line)


def test_an_empty_device():
    expect(run("root", "/dev/null"), 0, "0 -\n")


def test_lengths_against_hashlib():
    with folder() as place:
        for length in LENGTHS:
            content = content_of(length)
            expect(run("root", write(f"{place}/file", content)), 0, root_line(content))


def test_zeros_are_no_pads():
    with folder() as place:
        for length in [1, 16384, 40000, 49152, 65636]:
            content = bytes(length)
            expect(run("root", write(f"{place}/file", content)), 0, root_line(content))


def test_a_large_file():
    length = 300 * (1 << 20) + 12345
    part = content_of(1 << 20)
    with folder() as place:
        path = f"{place}/large"
        with open(path, "wb") as out:
            for number in range(300):
                out.write(number.to_bytes(8, "big") + part[8:])
            out.write(part[:12345])
        expect(run("root", path), 0, f"{length} {root_of_file(path).hex()}\n")


def test_a_pipe_that_gives_a_few_bytes_a_read():
    content = content_of(100001)
    read_end, write_end = os.pipe()

    def feed():
        with os.fdopen(write_end, "wb", buffering=0) as out:
            for start in range(0, len(content), 997):
                out.write(content[start:start + 997])

    feeder = threading.Thread(target=feed)
    feeder.start()
    try:
        expect(run("root", "/dev/stdin", stdin=read_end), 0, root_line(content))
    finally:
        os.close(read_end)
        feeder.join()


def test_a_terminal_ends_once():
    """The end that a terminal gives is read once: it takes one Ctrl-D."""
    ours, theirs = pty.openpty()
    try:
        os.write(ours, b"abc\n\x04")
        expect(run("root", "/dev/stdin", stdin=theirs, timeout=60), 0, root_line(b"abc\n"))
    finally:
        os.close(ours)
        os.close(theirs)


def test_names_of_files():
    with folder() as place:
        for name in ["with space", "-", "--", "-x", "ünïcode-文件", "back\\slash", "new\nline", "tab\t"]:
            write(f"{place}/{name}", b"abc")
            expect(run("root", f"{place}/{name}"), 0, f"3 {A}\n")
        for name in ["-", "ünïcode-文件"]:
            expect(run("root", name, cwd=place), 0, f"3 {A}\n")
        expect(run("root", "--", "-x", cwd=place), 0, f"3 {A}\n")


def test_what_cannot_be_read():
    with folder() as place:
        write(f"{place}/file", b"abc")
        os.symlink("nowhere", f"{place}/dangling")
        cases = [f"{place}/missing", place, f"{place}/file/below", f"{place}/dangling", "/proc/self/mem", ""]
        for path in cases:
            expect(run("root", path), 2, b"", f"fault: cannot read {path}\n")


def test_a_fault_escapes_the_path():
    expect(run("root", "/no/a\nb\\c\x7fd\x01é"), 2, b"", "fault: cannot read /no/a\\x0ab\\x5cc\\x7fd\\x01é\n")


def test_a_path_that_is_not_utf8():
    with folder() as place:
        write(os.fsencode(place) + b"/\xff\xfe", b"abc")
        expect(run(b"root", os.fsencode(place) + b"/\xff\xfe"), 2, b"", "fault: name is not UTF-8\n")


def test_standard_output_that_fails():
    with folder() as place:
        path = write(f"{place}/file", b"abc")
        with open("/dev/full", "wb") as full:
            expect(run("root", path, stdout=full), 2, None, "fault: cannot write -\n")
        closed = run("root", path, stdout=None, preexec_fn=lambda: os.close(1))
        expect(closed, 2, None, "fault: cannot write -\n")


def test_standard_error_that_is_closed():
    expect(run("root", "/no/file", preexec_fn=lambda: os.close(2)), 2, b"", None)
