"""Texts that are printed, and names as they are in texts. A name may have any bytes: as a text it has what `os.fsdecode` gives."""
import json
import os
import re
import sys

from many.ends import Fault

MOST_NAMES = 10  # in one message


def raw(name):
    """The bytes of a name."""
    return os.fsencode(name)


def say(text):
    """Writes a line on standard error that is no fault."""
    tell(raw(f"btcheck-many: {text}\n"))


def tell(text):
    """Writes to standard error."""
    sys.stderr.buffer.write(text)
    sys.stderr.buffer.flush()


def put(text):
    """Writes to standard output."""
    try:
        sys.stdout.buffer.write(text)
        sys.stdout.buffer.flush()
    except OSError as why:
        raise Fault("cannot write -") from why


def reason(why):
    """The line behind a fault that says why the system refused something."""
    return f"\nreason: {os.strerror(why.errno).lower()}"


def on_one_line(name):
    """A name without what controls a terminal."""
    return re.sub(r"[\x00-\x1f\x7f]", "?", name)


def some(names):
    """The first of these names, and how many there are besides."""
    names = sorted(names)
    more = f" and {len(names) - MOST_NAMES} more" if len(names) > MOST_NAMES else ""
    return ", ".join(map(on_one_line, names[:MOST_NAMES])) + more


def counted(count, what):
    """How many there are of something."""
    return f"{count} {what}" if count == 1 else f"{count} {what}s"


def size_text(size):
    """A number of bytes in the largest unit of which there is one, as btcheck writes it."""
    unit = min(max(int(size).bit_length() - 1, 0) // 10, 6)
    if not unit:
        return f"{int(size)} B"
    tenths = int(size) * 10 >> 10 * unit
    return f"{tenths // 10}.{tenths % 10} {'KMGTPE'[unit - 1]}iB"


def escaped(name):
    """A path or a name as btcheck prints it."""
    return re.sub(rb"[\x00-\x1f\x7f\\]", lambda found: b"\\x%02x" % ord(found[0]), raw(name))


def unescaped(text):
    """The path or the name that btcheck printed so."""
    if b"\\" in text:
        text = re.sub(rb"\\x([0-9a-f]{2})", lambda found: bytes([int(found[1], 16)]), text)
    return os.fsdecode(text)


def is_utf8(name):
    """Whether btcheck takes a name as an argument."""
    try:
        raw(name).decode()
    except UnicodeDecodeError:
        return False
    return True


def object_line(value):
    """A line of JSON, as btcheck writes it."""
    return json.dumps(value, ensure_ascii=False, separators=(",", ":"), sort_keys=True).encode() + b"\n"
