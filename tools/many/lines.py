"""What btcheck prints, read: lines of checks, what `show` lists, and what a part of a torrent has in front."""
import contextlib
import itertools
import json
import os
import re

from many.ends import Fault
from many.texts import escaped, is_utf8, object_line, raw, unescaped

VERDICTS = ("good", "missing", "unreadable", "wrong length", "bad")
ALL_GOOD = ("good", "v1 good", "yes")
LAST = ("yes", "no", "refused")
KIND = re.compile(rb"(?:good|missing|unreadable|wrong length|bad pieces|bad|v1 bad|extra|refused)(?= )"
                  rb"|(?:v1 good|v1 not checked|yes|no)(?=\n|\Z)")
NAMED = re.compile(rb"(?:good|missing|unreadable|wrong length|bad [0-9]+) (.*)")
LENGTHS = re.compile(rb"reason: .*: it has [0-9]+ bytes, not [0-9]+\n?")
PART_LINE = b"btcheck part of a torrent 1\n"


def kind_of(line):
    """The kind of a line of a check, as text or as JSON."""
    if not line.startswith(b"{"):
        found = KIND.match(line)
        return found[0].decode() if found else ""
    with contextlib.suppress(ValueError, KeyError, TypeError):
        return json.loads(line)["kind"]
    return ""


def is_of_unread(line):
    """Whether a line of reasons says why a file was not read: neither which lengths it has, nor what may be meant."""
    return line.startswith(b"reason: ") and not LENGTHS.fullmatch(line)


def path_of(line):
    """The path that a line of a part of a check names, or None."""
    found = NAMED.fullmatch(line)
    return unescaped(found[1]) if found else None


def without_good(lines):
    """What --quiet leaves of the lines of a check: what is not good, and the last one."""
    return [line for line in lines[:-1] if kind_of(line) not in ALL_GOOD] + lines[-1:]


def last_line(path):
    """The last line of a file, or nothing if that is not whole."""
    with contextlib.suppress(OSError), open(path, "rb") as file:
        file.seek(max(0, os.fstat(file.fileno()).st_size - (1 << 20)))
        text = file.read()
        return text[:-1].rpartition(b"\n")[2] if text.endswith(b"\n") else b""
    return b""


def is_whole(report):
    """Whether a file is the whole report of a check."""
    return kind_of(last_line(report)) in LAST


def is_whole_part(report):
    """Whether a file is the whole report of a part of a check."""
    return last_line(report) in (b"part yes", b"part no")


def files_shown(text):
    """Of what `show` printed: the torrent's name, and the path and the length of each file."""
    head, _, rest = text.partition(b"\nfiles: ")
    lines = [line.split(b" ", 2) for line in rest.split(b"\n")[1:-1]]
    name = head.partition(b"\n")[0][len(b"name: "):]
    return unescaped(name), {unescaped(path): int(length) for length, _, path in lines}


def front_of(part):
    """What an open part of a torrent has in front: the listing, the same in all parts of one folder. Nothing if it is no part."""
    head = part.read(len(PART_LINE) + 24)
    if not head.startswith(PART_LINE) or len(head) < len(PART_LINE) + 24:
        return b""
    return part.read(min(int.from_bytes(head[-8:], "big"), 1 << 40))


def files_listed(front):
    """The path and the length of each file of a listing."""
    at = 16  # behind the piece length, and whether it is a hybrid

    def number():
        nonlocal at
        at += 8
        return int.from_bytes(front[at - 8:at], "big")

    def text():
        nonlocal at
        end = number() + at
        start, at = at, end
        return os.fsdecode(front[start:end])

    text()
    files = {}
    for _ in range(number()):
        length = number()
        files["/".join([text() for _ in range(number())])] = length
    return files


def extra_lines(folder, named, as_json):
    """The lines of `check --extra`: what lies below a folder and leads to no file that the torrent names."""
    if not os.path.isdir(folder):
        return []
    known = {path for each in named for path in itertools.accumulate(each.split("/"), "{}/{}".format)}
    found = []
    for at, folders, names in os.walk(folder, onerror=lambda _: cannot_read(folder)):
        if not all(map(is_utf8, folders + names)):
            raise Fault("name is not UTF-8")
        below = "" if at == folder else os.path.relpath(at, folder) + "/"
        found += [below + name for name in names + [name for name in folders if os.path.islink(f"{at}/{name}")]]
    found = sorted(set(found) - known, key=lambda path: [raw(name) for name in path.split("/")])
    return [object_line({"kind": "extra", "path": path}) if as_json else b"extra %s\n" % escaped(path) for path in found]


def cannot_read(path):
    """What cannot be read is a fault."""
    raise Fault(f"cannot read {path}")
