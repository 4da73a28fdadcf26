"""`btcheck-many` as a person meets it: its options in each form, what is wrong once, one line of progress; and its functions."""
import ast
import glob
import json
import os
import pty
import re
import signal
import io
import subprocess
import sys
import threading
import time

from support import BTCHECK, TOP, folder, need, write, written
from terminal import drawn, screen
from test_many_anew import MANY, Place, damage

sys.path.insert(1, f"{TOP}/tools")
from many import checks, lines, runs, texts  # noqa: E402

WRONG = [
    ["create", "files", "out", "--name", "n"],
    ["create", "files", "out", "--piece-length", "16384"],
    ["create", "files", "out", "--name", "n", "--piece-length", "1q"],
    ["create", "files", "out", "--name", "n", "--piece-length", "16384", "--exclude", "["],
    ["create", "files", "out", "--name", "n", "--name", "m", "--piece-length", "16384"],
    ["create", "files", "out", "--name", "n", "--piece-length", "16384", "--submit"],
    ["create", "nowhere", "out", "--name", "n", "--piece-length", "16384"],
    ["create", "files", "out", "--name", "n", "--piece-length", "16384", "--keep", "files/below"],
    ["create", "files", "out", "--name", "n", "--piece-length", "16384", "--keep", "t"],
    ["check", "files.torrent", "files", "--hybrid"],
    ["check", "files.torrent", "files", "--bad=yes"],
    ["check", "files.torrent", "files", "-x"],
    ["check", "files.torrent", "files", "-j", "0"],
    ["check", "files.torrent", "files", "--keep", "files"],
    ["check", "files.torrent", "files", "--keep", "."],
    ["check", "gone.torrent", "files"],
    ["check", "files.torrent", "files", "--hosts", "gone"],
    ["archive", "t", "nowhere", "reports"],
    ["archive", "t", "content", "reports", "--parts", "3"],
]


def test_what_is_wrong_is_said_once_and_leaves_nothing():
    with folder() as place:
        there = Place(place)
        for words in WRONG:
            status, out, error = there.run(*words)
            lines = [line for line in error.splitlines() if line]
            assert (status, out) == (2, "") and len(lines) == len(set(lines)) < 9, (words, status, out, error)
            assert "the same line goes on" not in error and "Traceback" not in error, (words, error)
            assert there.ran() == [] and there.left() == set() and len(os.listdir(f"{place}/files")) == 3, (words, there.left())


# Words that are the same: what `check` prints, with its status.
SAME = [
    ["check", "-j", "2", "--parts", "5", "files.torrent", "files", "--bad"],
    ["check", "files.torrent", "-j2", "files", "--parts=5", "--bad"],
    ["check", "--bad", "-j=2", "--jobs", "3", "--", "files.torrent", "files"],
]


def plain(place, *words):
    done = subprocess.run([BTCHECK, *words], cwd=place, stdout=subprocess.PIPE, stderr=subprocess.PIPE, text=True, check=False)
    return done.returncode, done.stdout


def test_options_in_each_form():
    with folder() as place:
        there = Place(place)
        damage(f"{place}/files/b")
        for words in SAME:
            assert there.run(*words) == (*plain(place, "check", "files.torrent", "files", "--bad"), ""), words
        for more in (["--name=n"], ["--name", "n"]):
            assert there.run("create", *more, "files", "--piece-length=16K", "out", "-j4")[:2] == (0, "")
            subprocess.run([BTCHECK, "create", "files", "whole", "--name", "n", "--piece-length", "16384"], cwd=place, check=True)
            assert written(f"{place}/out") == written(f"{place}/whole")
        # OUT that is there stays
        write(f"{place}/out", b"kept")
        words = ["create", "files", "out", "--name=n", "--piece-length=16K", "--no-clobber"]
        assert there.run(*words) == (2, "", "fault: cannot write out\nreason: it is there already\n")
        assert written(f"{place}/out") == b"kept" and there.ran() == []
        os.remove(f"{place}/out")
        assert there.run(*words) == (0, "", "") and written(f"{place}/out") == written(f"{place}/whole")
        # in the folder itself, which nothing is left in
        assert there.run("create", ".", "../out", *words[3:5], cwd=f"{place}/files")[:2] == (0, "")
        assert written(f"{place}/out") == written(f"{place}/whole") and len(os.listdir(f"{place}/files")) == 3
        assert there.left() == {"out", "whole"}, there.left()


def odd_files(place):
    """Puts files beside those of the torrent that it does not name."""
    os.makedirs(f"{place}/files/x/y")
    os.mkdir(f"{place}/files/empty")
    for name in ("x/y/z", "line\nfeed", ".hidden", "back\\slash", "b c2", "x.txt", "x/\x7f"):
        write(f"{place}/files/{name}", b"")
    os.symlink("nowhere", f"{place}/files/x/link")
    os.symlink("x", f"{place}/files/to folder")
    os.mkfifo(f"{place}/files/pipe")


def test_a_check_with_the_options_of_btcheck():
    """It prints the same, whatever the options."""
    with folder() as place:
        there = Place(place)
        odd_files(place)
        for change in (lambda: None, lambda: damage(f"{place}/files/b"), lambda: os.remove(f"{place}/files/c")):
            change()
            for options in (["--quiet"], ["--extra", "--json"], ["--bad", "-q"], ["--bad", "--json", "--quiet", "--extra"]):
                assert there.run("check", "--parts", "4", *options, "files.torrent", "files") == (
                    *plain(place, "check", *options, "files.torrent", "files"), ""), options
        status, out, error = there.run("check", "files.torrent", "files", "--summary", "-q")
        assert (status, out) == plain(place, "check", "-q", "files.torrent", "files")
        assert re.fullmatch(r"summary: 1 good, 1 missing, 0 unreadable, 0 wrong length, 1 bad\n"
                            r"summary: 300000 bytes of files in \d+\.\d{3} s, \d+\.\d [KMG]iB/s\n", error), error
        os.rename(f"{place}/files/x.txt", os.fsencode(f"{place}/files/") + b"\xff")
        assert there.run("check", "files.torrent", "files", "--extra") == (2, "", "fault: name is not UTF-8\n")
        assert there.run("check", "files.torrent", "nowhere", "--extra") == (*plain(place, "check", "files.torrent", "nowhere"), "")
        write(f"{place}/none.torrent", b"x")
        for options in ([], ["--json"]):
            assert there.run("check", *options, "none.torrent", "files") == (*plain(place, "check", *options, "none.torrent", "files"), "")


def test_an_archive_with_the_options_of_btcheck():
    """Each report is what `btcheck check` prints with them, and printed is what is not good of it."""
    with folder() as place:
        there = Place(place)
        damage(f"{place}/content/2/f")
        write(f"{place}/content/3/more", b"")
        os.remove(f"{place}/t/5.torrent")
        os.symlink("nothing", f"{place}/t/5.torrent")
        for options in ([], ["--bad"], ["--json"], ["--extra"], ["--bad", "--json", "--extra"]):
            status, out, error = there.run("archive", *options, "t", "content", "reports")
            assert (status, error) == (2, "4 torrents, 3 good".replace("4", "5") + ", 1 not good, 1 with a fault\n"), error
            lines = []
            for number in range(1, 5):
                report = plain(place, "check", *options, f"t/{number}.torrent", f"content/{number}")[1]
                assert there.reports()[f"{number}.report"].decode() == report, (options, number)
                lines += [(number, line) for line in report.splitlines(True) if number == 2 or line.startswith(("extra", '{"kind":"extra"'))]
            if "--json" not in options:
                faults = "5: fault: cannot read torrents/5.torrent\n5: reason: no such file or folder\n"
                assert out == "".join(f"{number}: {line}" for number, line in lines) + faults, out
            else:
                faults = [{"kind": "fault", "text": "cannot read torrents/5.torrent", "torrent": "5"},
                          {"kind": "reason", "text": "no such file or folder", "torrent": "5"}]
                assert [json.loads(line) for line in out.splitlines()] == [json.loads(line) | {"torrent": str(number)} for number, line in lines] + faults
        assert there.run("archive", "--quiet", "t", "content", "reports")[2] == ""
        error = there.run("archive", "--summary", "-q", "t", "content", "reports")[2]
        assert error.startswith("summary: 3 good, 0 missing, 0 unreadable, 0 wrong length, 1 bad\nsummary: 200000 bytes of files"), error


def test_what_is_kept_and_not_printed():
    """Hints, and the lengths of files that are of a wrong one; what is kept goes with the next round."""
    with folder() as place:
        there = Place(place)
        write(f"{place}/content/1/f", b"")
        os.rename(f"{place}/content/2", f"{place}/content/2 more")
        os.rename(f"{place}/content/3/f", f"{place}/content/3/g")
        os.mkdir(f"{place}/content/3/f")
        status, out, _ = there.run("archive", "t", "content", "reports")
        assert (status, out) == (1, "1: wrong length f\n1: no\n2: missing f\n2: no\n3: unreadable f\n3: no\n"
                                 "3: reason: content/3/f: it is no regular file\n"), out
        kept = {name: text for name, text in there.reports().items() if name.endswith(".reasons")}
        assert kept == {"1.reasons": b"reason: content/1/f: it has 0 bytes, not 50000\n", "3.reasons": b"reason: content/3/f: it is no regular file\n"}, kept
        write(f"{place}/reports/2.reasons", b"hint: there is no folder content/2\n")
        assert there.run("archive", "t", "content", "reports")[:2] == (1, out)
        assert {name for name in there.reports() if name.endswith(".reasons")} == {"1.reasons", "3.reasons"}


def test_hints_name_the_arguments():
    """What the parts tell, on a terminal, once, and with the paths that the line has."""
    with folder() as place:
        there = Place(place)
        os.mkdir(f"{place}/up")
        os.rename(f"{place}/files", f"{place}/up/x")
        missing = (1, "missing a\nmissing b\nmissing c\nno\n")
        for dir_, hint in [("up", "try check files.torrent up/x"), ("up/x/", None), ("gone", "there is no folder gone"),
                           ("up/x/a", "it is no folder: up/x/a")]:
            status, text, out = on_terminal(there, ["check", "-j", "2", "--parts", "3", "files.torrent", dir_])
            told = [line for line in screen(text) if line.startswith("hint")]
            assert told == ([f"hint: {hint}"] if hint else []), (dir_, text)
            assert dir_ == "up/x/a" or (status, out) == (missing if hint else (0, "good a\ngood b\ngood c\nyes\n")), (dir_, out)


def on_terminal(there, words, stop=False):
    """The status of a run with a terminal for standard error, what the terminal was sent, and standard output."""
    ours, theirs = pty.openpty()
    sent = []

    def collect():
        try:
            while part := os.read(ours, 65536):
                sent.append(part)
        except OSError:
            pass

    there.environment["TERM"] = "xterm"
    reader = threading.Thread(target=collect)
    program = there.start(words, stderr=theirs)
    os.close(theirs)
    reader.start()
    if stop:
        while not sent:
            time.sleep(0.01)
        program.send_signal(signal.SIGINT)
    out, _ = program.communicate(timeout=60)
    reader.join(timeout=20)
    os.close(ours)
    return program.returncode, b"".join(sent).decode(), out.decode()


def go_on(place, count):
    """Lets the parts go on, some time after these have ended and others wait."""
    while written(f"{place}/ended").count(b"\n") < count:
        time.sleep(0.01)
    time.sleep(0.8)
    os.remove(f"{place}/halt")


PROGRESS = re.compile(r"\d of 4 parts, (\d of )?3 files, \d+(\.\d)? (B|KiB) of 292.9 KiB, \d+(\.\d)? [KM]?i?B/s(, \d+:\d\d left)?")


def test_one_line_of_progress():
    """The parts draw none, and a run that is stopped leaves none."""
    with folder() as place:
        there = Place(place)
        for name in ("ran", "ended"):
            write(f"{place}/{name}", b"")
        write(f"{place}/halt", b"2")
        threading.Thread(target=go_on, args=(place, 2)).start()
        status, text, out = on_terminal(there, ["check", "-j", "2", "--parts", "4", "files.torrent", "files"])
        assert (status, out) == plain(place, "check", "files.torrent", "files")
        lines = drawn(text)
        assert lines and all(map(PROGRESS.fullmatch, lines)) and screen(text) == [""], text
        # (a part that was past the halt when the second one ended goes on)
        assert any(re.match("[23] of 4 parts", line) for line in lines), lines
        write(f"{place}/halt", b"0")
        status, text, out = on_terminal(there, ["check", "-j", "2", "--parts", "4", "files.torrent", "files"], stop=True)
        assert (status, out) == (-signal.SIGINT, "") and screen(text) == [""], (status, text, out)
        os.remove(f"{place}/halt")
        status, text, out = on_terminal(there, ["archive", "t", "content", "reports"])
        assert status == 0 and screen(text) == ["5 torrents, 5 good", ""] and out == "", (status, text, out)


def test_what_runs_on_other_machines():
    need("shellcheck")
    for script in (runs.RUN, checks.SUBMIT):
        subprocess.run(["shellcheck", "-s", "sh", "-e", "SC2016", "-"], input=script.encode(), check=True)


def test_functions_are_small_and_say_what_they_do():
    """And the program needs the standard library alone."""
    for path in [MANY, *glob.glob(f"{TOP}/tools/many/*.py")]:
        text = written(path).decode()
        assert text.count("\n") < 250 and max(map(len, text.splitlines())) <= 140, path
        for it in ast.walk(ast.parse(text)):
            if isinstance(it, (ast.FunctionDef, ast.ClassDef)):
                count = it.end_lineno - it.lineno + 1
                assert count <= 40 or isinstance(it, ast.ClassDef), (path, it.name, count)
                assert ast.get_docstring(it) or it.name in ("__init__", "serve", "number", "text"), (path, it.name)
            if isinstance(it, (ast.Import, ast.ImportFrom)):
                names = [it.module] if isinstance(it, ast.ImportFrom) else [name.name for name in it.names]
                assert {name.split(".")[0] for name in names} <= {*sys.stdlib_module_names, "many"}, (path, names)


def test_lines():
    """The kinds of lines, as text and as JSON, and the paths that the lines of a part name."""
    for line, kind, path in [("good a b", "good", "a b"), ("bad 7 a", "bad", "a"), ("bad pieces 1 2 bytes 3-4", "bad pieces", None),
                             ("wrong length no", "wrong length", "no"), ("missing x\\x0a\\x5c", "missing", "x\n\\"), ("yes", "yes", None),
                             ("no", "no", None), ("noble", "", None), ("v1 not checked", "v1 not checked", None), ("v1 bad 3", "v1 bad", None),
                             ("refused 3 Missing info", "refused", None), ("extra yes", "extra", None), ("part yes", "", None),
                             ('{"kind":"good","path":"a"}', "good", None), ('{"kind":', "", None), ("{}", "", None), ("", "", None)]:
        assert (lines.kind_of(line.encode()), lines.path_of(line.encode())) == (kind, path), line
    for name in ("a", "line\n", "\\x0a", "\x7f\x00", "ü", os.fsdecode(b"\xff\\")):
        assert texts.unescaped(texts.escaped(name)) == name


def test_sizes():
    for size, text in [(0, "0 B"), (1023, "1023 B"), (1024, "1.0 KiB"), (1 << 20, "1.0 MiB"), ((1 << 30) - 1, "1023.9 MiB"), (1 << 62, "4.0 EiB")]:
        assert texts.size_text(size) == text, size


def test_a_listing_is_read_as_it_is_written():
    """What `create --part` writes in front, which is short where there is no part."""
    with folder() as place:
        for at, path in enumerate(["a", "b/c d", "b/\u00fc", "line\nfeed"]):
            os.makedirs(os.path.dirname(f"{place}/d/{path}"), exist_ok=True)
            write(f"{place}/d/{path}", bytes(at * 70_000))
        for name, kind in (("n", []), ("a longer name", ["--hybrid"])):
            for part in ("1/18446744073709551615", "2/3"):
                words = ["create", "d", "part", "--name", name, "--piece-length", "16384", *kind, "--part", part]
                subprocess.run([BTCHECK, *words], cwd=place, check=True)
                with open(f"{place}/part", "rb") as file:
                    front = lines.front_of(file)
                    assert len(file.read()) == 0 or part == "2/3"
                assert lines.files_listed(front) == {"a": 0, "b/c d": 70_000, "b/\u00fc": 140_000, "line\nfeed": 210_000}, front
    for text in (b"", b"x" * 100, lines.PART_LINE, lines.PART_LINE + b"\xff" * 24):
        assert lines.front_of(io.BytesIO(text)) == b""
