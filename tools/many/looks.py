"""How files stand, so that it is seen whether one has changed since it was judged; and small calls on files."""
import contextlib
import os
import time

# A file can change twice within one tick of the clock of files: one that changed so shortly before counts as changing.
TICK = 10_000_000  # nanoseconds


def look(path):
    """What tells one file from another, and from itself changed: its size, its times and its inode; or why it is not seen."""
    try:
        it = os.stat(path)
    except (OSError, ValueError) as why:
        return [getattr(why, "errno", 0)]
    seen = [it.st_size, it.st_mtime_ns, it.st_ctime_ns, it.st_ino]
    return seen if it.st_ctime_ns + TICK < time.time_ns() else [*seen, time.time_ns()]


def looks_below(folder, paths):
    """How the files at these paths below a folder stand."""
    return {path: look(f"{folder}/{path}") for path in paths}


def changed(before, now):
    """The paths of what does not stand as before."""
    return {path for path in before.keys() | now.keys() if before.get(path) != now.get(path)}


def size_of(seen):
    """The bytes of a file that stands so."""
    return seen[0] if len(seen) > 1 else 0


def is_within(path, folder):
    """Whether a path leads into a folder, or is the folder."""
    path, folder = os.path.realpath(path), os.path.realpath(folder)
    return os.path.commonpath([path, folder]) == folder


def write(path, text):
    """Makes a file of this text."""
    with open(path, "wb") as file:
        file.write(text)


def remove(path):
    """Removes a file, if it is there."""
    with contextlib.suppress(FileNotFoundError):
        os.remove(path)


def begins(path, text):
    """Whether a file begins so."""
    with contextlib.suppress(OSError), open(path, "rb") as file:
        return file.read(len(text)) == text
    return False
