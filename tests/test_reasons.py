"""The reason of a fault, which a terminal shows on a second line."""
import os

import torrents
from support import expect, folder, run, write
from terminal import on_terminal


def reasons(place):
    """Faults of files: the arguments, the line that names the fault, and the reason."""
    write(f"{place}/file", b"abc")
    write(f"{place}/torrent", torrents.torrent_of([("file", b"abc")], 16384))
    write(f"{place}/record", b"")
    os.mkdir(f"{place}/folder")
    os.symlink("loop", f"{place}/loop")
    missing, inside = f"{place}/missing", f"{place}/file/inside"
    new = ["--name", "n", "--piece-length", "16384"]
    return [
        (["root", missing], f"cannot read {missing}", "no such file or folder"),
        (["root", f"{place}/folder"], f"cannot read {place}/folder", "it is a folder"),
        (["root", inside], f"cannot read {inside}", "a part of the path is no folder"),
        (["show", missing], f"cannot read {missing}", "no such file or folder"),
        (["show", f"{place}/folder"], f"cannot read {place}/folder", "it is a folder"),
        (["check", missing, place], f"cannot read {missing}", "no such file or folder"),
        (["replay", f"{place}/torrent", missing], f"cannot read {missing}", "no such file or folder"),
        (["replay", f"{place}/torrent", f"{place}/record", "--answers", f"{place}/folder"], f"cannot write {place}/folder",
         "it is a folder"),
        (["replay", f"{place}/torrent", f"{place}/record", "--answers", f"{place}/record"], f"cannot write {place}/record",
         "it is an input"),
        (["create", missing, f"{place}/out", *new], f"cannot read {missing}", "no such file or folder"),
        (["create", f"{place}/folder", f"{missing}/out", *new], f"cannot write {missing}/out", "no such file or folder"),
        (["create", f"{place}/folder", f"{place}/folder", *new], f"cannot write {place}/folder", "it is a folder"),
        (["convert", missing, f"{place}/out"], f"cannot read {missing}", "no such file or folder"),
        (["convert", f"{place}/record", f"{place}/record"], f"cannot write {place}/record", "it is an input"),
        (["convert", f"{place}/record", "/dev/full"], "cannot write /dev/full", "the disk is full"),
    ]


def test_a_terminal_shows_the_reason():
    with folder() as place:
        for arguments, fault, reason in reasons(place):
            status, out, shown = on_terminal(*arguments)
            assert (status, out) == (2, ""), (arguments, status, out)
            assert shown == f"fault: {fault}\nreason: {reason}\n", (arguments, shown)


def test_nothing_else_shows_it_unless_asked():
    with folder() as place:
        for arguments, fault, reason in reasons(place):
            expect(run(*arguments), 2, b"", f"fault: {fault}\n")
            expect(run(*arguments, "--reasons"), 2, b"", f"fault: {fault}\nreason: {reason}\n")


def test_a_folder_that_may_not_be_read():
    """Nothing is hidden from the superuser."""
    if os.geteuid() == 0:
        return
    with folder() as place:
        hidden = write(f"{place}/hidden", b"abc")
        os.chmod(hidden, 0)
        status, _, shown = on_terminal("root", hidden)
        assert (status, shown) == (2, f"fault: cannot read {hidden}\nreason: permission denied\n")


def test_a_fault_without_a_reason():
    """What the system did not fail in has no second line."""
    with folder() as place:
        write(f"{place}/torrent", torrents.torrent_of([("file", b"abc")], 16384))
        os.mkfifo(f"{place}/pipe")
        new = ["--name", "n", "--piece-length", "16384"]
        assert on_terminal("create", place, f"{place}/out", *new) == (2, "", "fault: not a file or folder: pipe\n")
        record = write(f"{place}/record", b"\0\0")
        assert on_terminal("convert", record, f"{place}/out") == (2, "", f"fault: record is truncated: {record}\n")


def test_standard_output_that_is_full():
    with folder() as place:
        path = write(f"{place}/file", b"abc")
        with open("/dev/full", "wb") as full:
            expect(run("root", path, stdout=full), 2, None, "fault: cannot write -\n")
