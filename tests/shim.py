"""Runs of the program in which one of its calls of the system fails (shim.c)."""
import contextlib
import errno
import os
import subprocess

from support import BTCHECK, TOP, LeftOut, folder, need, run, write


class Shim:
    """A compiled shim in a folder."""

    def __init__(self, place):
        need("gcc")
        self.library, self.counts = f"{place}/shim.so", f"{place}/shim.counts"
        subprocess.run(["gcc", "-shared", "-fPIC", "-O1", "-Wall", "-o", self.library, f"{TOP}/tests/shim.c"], check=True)

    def run(self, kind, at, *arguments, onward=False, error=errno.EIO, change=None, one_byte=False, out=None, **options):
        """Runs the program; call `at` of this kind fails, and with `onward` all later ones too; 0 fails none. With a
        `change`, a path and a length, that file gets this length instead. A file `out` holds `before` at the start.
        Gives how many calls there were, and how the run ended."""
        if out:
            write(out, b"before")
        with open(self.counts, "wb") as file:
            file.write(bytes(16))
        path, length = change or ("", 0)
        environment = {"LD_PRELOAD": self.library, "SHIM_COUNTS": self.counts, "SHIM_KIND": kind, "SHIM_AT": str(at),
                       "SHIM_ERRNO": str(int(error)), "SHIM_ONWARD": str(int(onward)),
                       "SHIM_ONE_BYTE": str(int(one_byte))}
        if change:
            environment |= {"SHIM_PATH": path, "SHIM_LENGTH": str(length)}
        done = run(*arguments, env={**os.environ, **environment}, timeout=60, **options)
        with open(self.counts, "rb") as file:
            calls, self.failed = (int.from_bytes(file.read(8), "little") for _ in range(2))
        return calls, done

    def each(self, kind, *arguments, **more):
        """The runs in which call 1, 2, and so on of this kind fails, until one meets no failure: the ample run
        first."""
        yield self.run(kind, 0, *arguments, **more)[1]
        at = 1
        while True:
            _, done = self.run(kind, at, *arguments, **more)
            if not self.failed:
                return
            yield done
            at += 1


def has_c_library_inside(program):
    """Whether nothing can stand before this program's C library."""
    with open(program, "rb") as file:
        return b"/ld-linux" not in file.read()


@contextlib.contextmanager
def shimmed(program=BTCHECK):
    """A folder, and a shim in it for this program. A test of one with the C library inside is left out."""
    if has_c_library_inside(program):
        raise LeftOut("the program has the C library inside")
    with folder() as place:
        yield place, Shim(place)
