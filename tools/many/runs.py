"""The folder of a run: what the run is of, what is done of it, and the lock that keeps other runs out."""
import contextlib
import fcntl
import hashlib
import json
import os
import shutil

from many.ends import Fault
from many.looks import is_within, remove, write
from many.texts import reason, say

# What is in such a folder, also in one of version 1.0.0. What is there besides is somebody else's.
OWN = {"lock", "run", "about", "looks", "list", "links", "parts", "errors", "torrent", "torrents", "folder", "content", "reports",
       "submit", "report", ".report", "options", "refused", "error", "list.begun"}
OWN_BEGIN = ("begun.", ".part.", ".one.")

# What runs on each machine, as `Crew.keep` does here. BEGUN is a folder that is gone once files have changed: then what comes
# late, of a run before, gets no name.
RUN = r"""#!/bin/sh
# run REPORT REASONS ERROR WORD..: runs btcheck with these words. What it prints gets its name when it is whole.
report=$1 reasons=$2 error=$3
shift 3
begun=BEGUN/$$.$(uname -n)
trap 'rm -f "$begun" "$begun.error"; exit 143' INT TERM HUP
TERM=dumb btcheck "$@" >"$begun" 2>"$begun.error"
status=$?
if [ "$status" -gt 1 ]; then
    rm -f "$begun"
    [ -s "$begun.error" ] || printf 'fault: btcheck ended with status %s\n' "$status" >"$begun.error"
    mv "$begun.error" "$error"
    exit "$status"
fi
if [ -s "$begun.error" ]; then mv "$begun.error" "$reasons" || exit 2; else rm -f "$begun.error"; fi
rm -f "$error"
mv "$begun" "$report" || exit 2
"""


def digest(value):
    """A short name for a value."""
    return hashlib.sha256(json.dumps(value, sort_keys=True).encode()).hexdigest()[:12]


class Run:
    """The folder, entered: from here on it is the place of the crew."""

    def __init__(self, place, crew):
        self.place = place
        try:
            os.makedirs(place, exist_ok=True)
            others = [name for name in os.listdir(place) if not is_own(name)]
        except OSError as why:
            raise Fault(f"cannot make the folder of the run{reason(why)}") from why
        if others:
            raise Fault(f"the folder of the run has what is of no run: {self.path(min(others))}")
        self.lock()
        crew.place, crew.locks = os.path.abspath(place), [self.locked]

    def lock(self):
        """Keeps other runs out. One that has just ended removed its lock: then there is another one to take."""
        try:
            while True:
                self.locked = os.open(self.path("lock"), os.O_RDWR | os.O_CREAT, 0o666)
                fcntl.flock(self.locked, fcntl.LOCK_EX | fcntl.LOCK_NB)
                with contextlib.suppress(FileNotFoundError):
                    if os.path.samestat(os.fstat(self.locked), os.stat(self.path("lock"))):
                        return
                os.close(self.locked)
        except BlockingIOError as why:
            raise Fault("another run is at work there") from why
        except OSError as why:
            raise Fault(f"cannot write to the folder of the run{reason(why)}") from why

    def path(self, name):
        """The path of what is in the folder."""
        return f"{self.place}/{name}"

    def known(self, name):
        """What is noted under a name; nothing if that is not whole."""
        with contextlib.suppress(OSError, ValueError), open(self.path(name), encoding="ascii") as file:
            value = json.load(file)
            return value if isinstance(value, dict) else {}
        return {}

    def note(self, name, value):
        """Notes a value under a name."""
        write(self.path(f"begun.{name}"), json.dumps(value).encode())
        os.replace(self.path(f"begun.{name}"), self.path(name))

    def goes_on(self, about, anew):
        """Whether a run of the same was stopped here, and goes on. What another one left is removed."""
        left = os.listdir(self.place) != ["lock"]
        if left and not anew and self.known("about") == about:
            return True
        if left:
            say("begins anew" if anew else "begins anew: what was stopped here had other arguments, options or folders")
            self.clear()
        self.note("about", about)
        return False

    def begin(self, now):
        """A folder for what is begun. It is another one if a run before began with other files, which `now` tells."""
        begun = f"begun.{digest(now)}"
        for name in os.listdir(self.place):
            if name.startswith(OWN_BEGIN) and name != begun:
                self.remove(name)
        os.makedirs(self.path(begun), exist_ok=True)
        self.script("run", RUN.replace("BEGUN", begun))
        return self.path(begun)

    def script(self, name, text):
        """Makes a program of this text."""
        write(self.path(name), text.encode())
        os.chmod(self.path(name), 0o755)

    def link(self, name, to):
        """Makes a link. Through it btcheck reaches what has a name that it does not take."""
        remove(self.path(name))
        os.symlink(os.path.abspath(to), self.path(name))

    def clear(self, but=("lock",)):
        """Removes all that is a run's."""
        for name in os.listdir(self.place):
            if is_own(name) and name not in but:
                self.remove(name)

    def remove(self, name):
        """Removes a file or a folder."""
        path = self.path(name)
        if os.path.isdir(path) and not os.path.islink(path):
            shutil.rmtree(path)
        else:
            remove(path)

    def leave(self):
        """The run is done: its folder goes."""
        self.clear(but=())
        with contextlib.suppress(OSError):
            os.rmdir(self.place)


def is_own(name):
    """Whether what has this name in the folder of a run is the run's."""
    return name in OWN or name.startswith(OWN_BEGIN)


def place_of(words, about, beside):
    """Where the folder of a run in parts is: never in the folder that is checked or listed. Beside one file it may lie."""
    folder = words.folder()
    is_free = [lambda place: not is_within(place, folder), lambda _: True]["file" in words]
    if "keep" in words:
        if not is_free(words["keep"]):
            raise Fault(f"the folder of the run would lie in {folder}: {words['keep']}")
        return words["keep"]
    for place in (".", os.path.dirname(beside) or ".", os.path.dirname(os.path.realpath(folder))):
        if is_free(place) and os.access(place, os.W_OK | os.X_OK):
            return os.path.normpath(f"{place}/.btcheck-many.{digest(about)}")
    raise Fault("there is no place for the folder of the run: --keep gives one")
