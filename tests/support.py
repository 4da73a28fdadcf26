"""What the tests share: runs of the program, folders, and torrents that libtorrent makes."""
import json
import os
import shutil
import subprocess
import sys
import tempfile

TOP = os.path.dirname(os.path.dirname(os.path.abspath(__file__)))
INCLUDES = [f"-I{TOP}/bindings/{place}" for place in ("c", "cpp")]
BTCHECK = os.path.abspath(os.environ.get("BTCHECK", os.path.join(TOP, "build", "btcheck")))


class LeftOut(Exception):
    """A test, or the rest of one, needs what is not here; the text says what."""


def need(*commands):
    """A test that uses these commands is left out without them."""
    for command in commands:
        if not shutil.which(command):
            raise LeftOut(f"there is no {command} here")


def memory_tests():
    """The program that makes the libraries' calls with memory refused; a test is left out where it is not built."""
    return program_of_tests("memory_tests")


def device_tests():
    """The program that makes the libraries' calls over devices that fail; a test is left out where it is not built."""
    return program_of_tests("device_tests")


def piece_tests():
    """The program that replays a record beside held blocks with any bound; a test is left out where it is not built."""
    return program_of_tests("piece_tests")


def program_of_tests(name):
    path = os.path.join(TOP, "build", name)
    if not os.path.exists(path):
        raise LeftOut(f"build/{name} is not built: make test builds it")
    return path


def run(*arguments, **options):
    """Runs the program, or another one, with these arguments, bytes or text. A shell limits it to `memory` KiB of
    memory and `stack` KiB of stack, since to copy this process for that takes longer. All other options are those of
    subprocess.run."""
    words = [options.pop("program", BTCHECK), *arguments]
    for limit, letter in (("memory", "v"), ("stack", "s")):
        most = options.pop(limit, None)
        if most:
            words = ["sh", "-c", f'ulimit -{letter} "$0" && exec "$@"', str(most), *words]
    options.setdefault("stdout", subprocess.PIPE)
    options.setdefault("stderr", subprocess.PIPE)
    options.setdefault("timeout", 600)
    if "input" not in options:
        options.setdefault("stdin", subprocess.DEVNULL)
    return subprocess.run(words, **options)


def expect(done, status, stdout=b"", stderr=b""):
    """The run ended so. Text is taken as UTF-8; None for a stream leaves it open."""
    wanted = [text.encode() if isinstance(text, str) else text for text in (stdout, stderr)]
    seen = (done.returncode, done.stdout, done.stderr)
    assert done.returncode == status, f"status {status} is wanted: {seen}"
    for stream, want, got in (("output", wanted[0], done.stdout), ("error", wanted[1], done.stderr)):
        assert want is None or got == want, f"on standard {stream}: {first_difference(want, got)}"


def first_difference(wanted, seen):
    """The first line in which two texts differ, and the line of each."""
    texts = [text.split(b"\n") for text in (wanted, seen)]
    number = next((at for at, (one, other) in enumerate(zip(*texts)) if one != other), min(map(len, texts)) - 1)
    return f"line {number + 1}, wanted {texts[0][number:number + 1]}, seen {texts[1][number:number + 1]}"


def folder(at=None):
    """A temporary folder, for a `with`; in the folder `at`, if that is given and there."""
    return tempfile.TemporaryDirectory(prefix="btcheck-test-", dir=at if at and os.path.isdir(at) else None)


def write(path, content):
    with open(path, "wb") as out:
        out.write(content)
    return path


def written(path):
    """What a file holds."""
    with open(path, "rb") as file:
        return file.read()


def escaped(text):
    """A name or a path as it is printed."""
    return "".join(f"\\x{ord(c):02x}" if ord(c) < 0x20 or c in "\x7f\\" else c for c in text)


def python_with_libtorrent():
    """A Python that has libtorrent; a test that needs it is left out where none has it."""
    for python in [sys.executable, "/usr/bin/python3"]:
        if subprocess.run([python, "-c", "import libtorrent"], stderr=subprocess.DEVNULL).returncode == 0:
            return python
    raise LeftOut("no Python here has libtorrent: the Debian package is python3-libtorrent")


def made_by_libtorrent(orders):
    """What libtorrent says of the torrents that it makes by these orders (maker.py)."""
    maker = os.path.join(os.path.dirname(os.path.abspath(__file__)), "maker.py")
    done = subprocess.run([python_with_libtorrent(), maker], input=json.dumps(orders), stdout=subprocess.PIPE, text=True, check=True)
    return json.loads(done.stdout)
