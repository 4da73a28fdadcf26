"""What `btcheck create` reads: one file, what links lead to, what is left out and is then not touched; and faults that say where."""
import os
import shutil
import socket

from create_model import torrent_of
from support import BTCHECK, expect, folder, run, write, written
from test_create import make_folder
from test_many_anew import Place

NEW = ["--name", "x", "--piece-length", "16384"]


def made(place, *words, out="out"):
    """What `create` writes of these words, which ends well and says nothing."""
    path = f"{place}/{out}"
    expect(run("create", *words, path, *NEW), 0)
    return written(path)


def test_one_file():
    """It gives what a folder of it alone gives, however its path is written, whole and in parts."""
    with folder() as place:
        content = bytes(range(256)) * 700
        make_folder(f"{place}/alone", {"movie.mkv": content})
        write(f"{place}/alone and others", b"")
        for name in ("other", "movie.mkv.txt"):
            write(f"{place}/{name}", b"x")
        os.mkdir(f"{place}/beside")
        for path in ("beside/movie.mkv", "movie.mkv"):
            write(f"{place}/{path}", content)
        write(f"{place}/beside/more", b"more")
        os.symlink("../movie.mkv", f"{place}/alone.lnk")
        os.mkdir(f"{place}/links")
        os.symlink("../movie.mkv", f"{place}/links/movie.mkv")
        for more in ([], ["--hybrid"], ["--exclude", "*.txt"], ["--follow-symlinks", "--skip-special"]):
            wanted = made(place, f"{place}/alone", *[it for it in more if it != "--follow-symlinks"])
            assert wanted == torrent_of({"movie.mkv": content}, "x", 16384, "--hybrid" in more)
            for path in ("beside/movie.mkv", "movie.mkv", "./movie.mkv", "beside/../beside//movie.mkv", "links/movie.mkv",
                         f"{place}/beside/movie.mkv"):
                expect(run("create", "--file", path, f"{place}/out", *NEW, *more, cwd=place), 0)
                assert written(f"{place}/out") == wanted, (path, more)
            parts = [f"{place}/part{number}" for number in (1, 2, 3)]
            for number, part in enumerate(parts, 1):
                expect(run("create", part, "--file=movie.mkv", *NEW, *more, "--part", f"{number}/3", cwd=place), 0)
            expect(run("assemble", f"{place}/assembled", *parts), 0)
            assert written(f"{place}/assembled") == wanted, more
        expect(run("create", "--file", "movie.mkv", "out", "--name", "x", "--piece-length", "auto", cwd=place), 0)
        assert written(f"{place}/out") == torrent_of({"movie.mkv": content}, "x", 16384, False)
        expect(run("check", f"{place}/out", f"{place}/beside"), 0, "good movie.mkv\nyes\n")


def test_what_is_no_file():
    """The fault names it as it was given, and OUT stays as it was."""
    with folder() as place:
        make_folder(f"{place}/d", {"f": b"abc"})
        os.symlink("nowhere", f"{place}/dangling")
        os.symlink("round", f"{place}/round")
        os.mkfifo(f"{place}/pipe")
        for path, why in [("missing", "no such file or folder"), ("d", "it is a folder"), ("d/", "it is a folder"), (".", "it is a folder"),
                          ("d/f/", "a part of the path is no folder"), ("d/f/g", "a part of the path is no folder"),
                          ("dangling", "no such file or folder"), ("pipe", "it is no regular file"), ("/dev/null", "it is no regular file"),
                          ("/", "it is a folder"), ("round", None)]:
            for more in ([], ["--part", "1/1"], ["--exclude", "f"]):
                write(f"{place}/out", b"before")
                done = run("create", "--file", path, "out", *NEW, *more, "--reasons", cwd=place)
                expect(done, 2, b"", None if why is None else f"fault: cannot read {path}\nreason: {why}\n")
                assert done.stderr.startswith(f"fault: cannot read {path}\nreason: ".encode()), done
                assert written(f"{place}/out") == b"before"
        for more in ([], ["--part", "1/1"]):
            expect(run("create", "--file", "d/f", "d/f", *NEW, *more, cwd=place), 2, b"", "fault: cannot write d/f\n")
            assert written(f"{place}/d/f") == b"abc"
            expect(run("create", "--file", "d/f", "out", *NEW, *more, "--exclude", "f", cwd=place), 1, "refused 13 NoFiles\n")
            assert written(f"{place}/out") == b"before"


def test_a_file_or_a_folder():
    """Not both, and none without OUT; nothing is written."""
    with folder() as place:
        make_folder(f"{place}/d", {"f": b"abc"})
        for words, said in [(["d", "out", "--file", "d/f"], b"'--file <FILE>' cannot be used with a folder"), (["d"], b"<OUT>"),
                            (["--file", "d/f"], b"<DIR>"), (["d", "out", "--file"], b"'--file <FILE>'")]:
            done = run("create", *words, *NEW, cwd=place)
            expect(done, 2, b"", None)
            assert said in done.stderr and os.listdir(place) == ["d"], done


def odd_folder(place):
    """A folder with links of all kinds, a pipe and a socket beside its files; what is neither file nor folder, if links are followed and
    if they are not; and its files with links."""
    content = make_folder(f"{place}/d", {"f": b"abc", "a/g": b"xyz", "a/b/h": b""})
    make_folder(f"{place}/far", {"i": b"far", "j/k": b"farther"})
    links = {"to file": "f", "to folder": "a/b", "a/outside": "../../far", "a/file": f"{place}/far/i"}
    nowhere = {"dangling": "nowhere", "itself": "itself", "a/up": "..", "a/b/here": ".", "through": "f/x"}
    for path, target in {**links, **nowhere}.items():
        os.symlink(target, f"{content}/{path}")
    os.mkfifo(f"{content}/a/pipe")
    with socket.socket(socket.AF_UNIX) as it:
        it.bind(f"{content}/socket")
    special = {"a/pipe", "socket"}
    files = {"f": b"abc", "a/g": b"xyz", "a/b/h": b""}
    followed = {**files, "to file": b"abc", "to folder/h": b"", "a/outside/i": b"far", "a/outside/j/k": b"farther", "a/file": b"far"}
    return content, {*special, *nowhere, "to folder/here"}, {*special, *links, *nowhere}, files, followed


def test_links_and_what_is_special():
    """Links are followed, what is neither file nor folder is left out and said, or a fault; and all parts see the same."""
    with folder() as place:
        content, odd_ends, odd, files, followed = odd_folder(place)
        for options, special, wanted in [(["--skip-special"], odd, files), (["--skip-special", "--follow-symlinks"], odd_ends, followed)]:
            said = sorted(f"left out: {path}" for path in special)
            done = run("create", content, f"{place}/out", *NEW, *options)
            expect(done, 0, b"", None)
            assert sorted(done.stderr.decode().splitlines()) == said, done
            assert written(f"{place}/out") == torrent_of(wanted, "x", 16384, False)
            done = run("create", content, f"{place}/out", *NEW[:3], "auto", *options)
            assert sorted(done.stderr.decode().splitlines()) == said, done
            parts = [f"{place}/part{number}" for number in (1, 2, 3)]
            for number, part in enumerate(parts, 1):
                done = run("create", content, part, *NEW, *options, "--part", f"{number}/3")
                expect(done, 0, b"", None)
                assert sorted(done.stderr.decode().splitlines()) == said, done
            expect(run("assemble", f"{place}/assembled", *parts), 0)
            assert written(f"{place}/assembled") == torrent_of(wanted, "x", 16384, False)
        for path in odd_ends:
            globs = [f"--exclude=/{other}" for other in odd_ends - {path}]
            done = run("create", content, f"{place}/new", *NEW, *globs, "--follow-symlinks", "--reasons")
            expect(done, 2, b"", None)
            fault, *reason = done.stderr.decode().splitlines()
            assert fault == f"fault: not a file or folder: {path}" and not os.path.exists(f"{place}/new"), done
            wanted = {"dangling": "no such file or folder", "through": "a part of the path is no folder"}.get(path)
            if path in ("a/pipe", "socket"):
                assert not reason, done
            elif path == "itself":
                assert len(reason) == 1, done
            else:
                assert reason == [f"reason: {wanted or 'it leads to a folder that it is in'}"], done
        expect(run("create", content, f"{place}/new", *NEW, *[f"--exclude=/{path}" for path in odd_ends], "--follow-symlinks"), 0)
        assert written(f"{place}/new") == torrent_of(followed, "x", 16384, False)
        # without the options, what is there first is a fault
        expect(run("create", content, f"{place}/new", *NEW, *[f"--exclude=/{path}" for path in odd - {"a/pipe"}]), 2, b"",
               "fault: not a file or folder: a/pipe\n")


def test_loops_through_what_is_above():
    """A link to a folder above DIR leads to DIR again, which is found the first time."""
    with folder() as place:
        content = make_folder(f"{place}/top/d", {"f": b"abc", "s/g": b"x"})
        write(f"{place}/top/beside", b"beside")
        os.symlink("../..", f"{content}/s/up")
        done = run("create", content, f"{place}/out", *NEW, "--follow-symlinks", "--reasons", timeout=20)
        expect(done, 2, b"", "fault: not a file or folder: s/up/d\nreason: it leads to a folder that it is in\n")
        done = run("create", content, f"{place}/out", *NEW, "--follow-symlinks", "--skip-special", timeout=20)
        expect(done, 0, b"", "left out: s/up/d\n")
        assert written(f"{place}/out") == torrent_of({"f": b"abc", "s/g": b"x", "s/up/beside": b"beside"}, "x", 16384, False)
        os.symlink("d", f"{place}/top/dir")
        wanted = written(f"{place}/out")
        globs = ["--exclude", "s/up/dir", "--exclude", "s/up/d"]
        expect(run("create", f"{place}/top/dir", f"{place}/out", *NEW, "--follow-symlinks", *globs), 0)
        assert written(f"{place}/out") == wanted


def test_nothing_but_what_is_left_out():
    """OUT stays as it was where the options left nothing; of an empty folder it is empty."""
    with folder() as place:
        os.mkdir(f"{place}/d")
        write(f"{place}/out", b"before")
        os.mkfifo(f"{place}/d/pipe")
        for more in ([], ["--part", "2/3"]):
            done = run("create", f"{place}/d", f"{place}/out", *NEW, "--skip-special", *more)
            expect(done, 1, "refused 13 NoFiles\n", "left out: pipe\n")
            expect(run("create", f"{place}/d", f"{place}/out", *NEW, "--exclude", "*", *more), 1, "refused 13 NoFiles\n")
            assert written(f"{place}/out") == b"before"
        os.remove(f"{place}/d/pipe")
        expect(run("create", f"{place}/d", f"{place}/out", *NEW), 1, "refused 13 NoFiles\n")
        assert written(f"{place}/out") == b""


def as_nobody(place):
    """How a program runs that may not read everything: the superuser runs a copy of it as `nobody`, who may reach it there."""
    if os.geteuid():
        return {}
    return {"executable": shutil.copy(BTCHECK, f"{place}/program"), "preexec_fn": lambda: os.setuid(65534)}


def closed_folder(place):
    """A folder that nobody may read stands in another one, and two names that are not UTF-8."""
    content = make_folder(f"{place}/d", {"f": b"abc", "s/g": b"x", "s/lost+found/h": b"x"})
    for path in (place, content, f"{content}/s"):
        os.chmod(path, 0o755)
    for path in ("f", "s/g"):
        os.chmod(f"{content}/{path}", 0o644)
    os.chmod(f"{content}/s/lost+found", 0)
    for path in (b"/s/caf\xe9.txt", b"/\xff\xfe"):
        write(content.encode() + path, b"odd")
    return content


def test_what_is_left_out_is_not_touched():
    """A folder that cannot be listed, a link, a pipe, and names that are not UTF-8."""
    with folder() as place:
        content, nobody = closed_folder(place), as_nobody(place)
        os.symlink("f", f"{content}/link")
        os.mkfifo(f"{content}/s/pipe")
        out = f"{place}/out"
        write(out, b"before")
        os.chmod(out, 0o666)
        all_of_them = ["s/lost+found/", "link", "pipe", "caf?.txt", "/??"]
        for globs, wanted in [(all_of_them, {"f": b"abc", "s/g": b"x"}), (["s", "link", "*\ufffd"], {"f": b"abc"})]:
            expect(run("create", content, out, *NEW, *[f"--exclude={glob}" for glob in globs], **nobody), 0)
            assert written(out) == torrent_of(wanted, "x", 16384, False), globs
        for missing, fault in [(0, f"fault: cannot read {content}\n"), (1, "fault: not a file or folder: link\n"),
                               (2, "fault: not a file or folder: s/pipe\n"), (3, "fault: name is not UTF-8\n"),
                               (4, "fault: name is not UTF-8\n")]:
            globs = [glob for at, glob in enumerate(all_of_them) if at != missing]
            for more in ([], ["--part", "1/2"]):
                done = run("create", content, out, *NEW, *more, *[f"--exclude={glob}" for glob in globs], **nobody)
                expect(done, 2, b"", fault)
        os.chmod(f"{content}/s/lost+found", 0o700)


def test_faults_say_where():
    """The reason names the folder that cannot be listed, and the name that is not UTF-8."""
    with folder() as place:
        content, nobody = closed_folder(place), as_nobody(place)
        write(f"{place}/out", b"before")
        os.chmod(f"{place}/out", 0o666)
        torrent = f"{place}/torrent"
        write(torrent, torrent_of({"f": b"abc"}, "x", 16384, False))
        os.chmod(torrent, 0o644)
        for globs, fault, reason in [
                (["caf*", "??"], f"cannot read {content}", f"{content}/s/lost+found: permission denied"),
                (["lost+found", "??"], "name is not UTF-8", f"{content}/s/caf\\xe9.txt: the name is not UTF-8"),
                (["s"], "name is not UTF-8", f"{content}/\\xff\\xfe: the name is not UTF-8")]:
            words = ["create", content, f"{place}/out", *NEW, *[f"--exclude={glob}" for glob in globs]]
            for more in ([], ["--part", "1/2"], ["--piece-length=auto"]):
                used = [it for it in words if more != ["--piece-length=auto"] or it not in NEW[2:]]
                expect(run(*used, *more, **nobody), 2, b"", f"fault: {fault}\n")
                expect(run(*used, *more, "--reasons", **nobody), 2, b"", f"fault: {fault}\nreason: {reason}\n")
        os.remove(content.encode() + b"/\xff\xfe")
        os.remove(content.encode() + b"/s/caf\xe9.txt")
        expect(run("check", torrent, content, "--extra", "--reasons", **nobody), 2, b"",
               f"fault: cannot read {content}\nreason: {content}/s/lost+found: permission denied\n")
        os.chmod(f"{content}/s/lost+found", 0o700)
        os.mkdir(f"{content}/line\nfeed \\")
        write(f"{content}/line\nfeed \\/".encode() + b"\xc3\xa9\xe9\x01", b"")
        expect(run("check", torrent, content, "--extra", "--reasons"), 2, b"", "fault: name is not UTF-8\nreason: "
               f"{content}/line\\x0afeed \\x5c/\u00e9\\xe9\\x01: the name is not UTF-8\n")


def test_many_leave_out_the_same():
    """`btcheck-many create` hands the options on, says once what is left out, and leaves OUT as it is where nothing is left."""
    with folder() as place:
        there = Place(place)
        content, odd_ends, _, _, followed = odd_folder(place)
        words = ["create", "-j", "2", "--parts", "4", "d", "out", *NEW]
        status, out, error = there.run(*words, "--follow-symlinks", "--skip-special")
        assert (status, out, sorted(error.splitlines())) == (0, "", sorted(f"left out: {path}" for path in odd_ends)), (status, out, error)
        assert written(f"{place}/out") == torrent_of(followed, "x", 16384, False)
        before = written(f"{place}/out")
        assert there.run(*words, "--exclude", "*") == (1, "refused 13 NoFiles\n", "")
        status, out, error = there.run(*words)
        assert (status, out) == (2, "") and "fault: not a file or folder: " in error, error
        assert written(f"{place}/out") == before and there.left() == {"d", "far", "out"}, there.left()


def test_many_make_one_file():
    """`btcheck-many create --file` makes what `btcheck create --file` makes, however the file is named, also beside the run; it
    goes on where it was stopped, unless the file changed, and is of no other file."""
    with folder() as place:
        there = Place(place)
        content = bytes(range(256)) * 900
        make_folder(f"{place}/d", {"movie.mkv": content, "other": b"x"})
        words = ["create", "-j", "2", "--parts", "5", "out", *NEW]
        before = there.left()
        for path in ("d/movie.mkv", f"{place}/d/movie.mkv", "movie.mkv"):
            if "/" not in path:
                os.rename(f"{place}/d/movie.mkv", f"{place}/movie.mkv")
            for more in ([], ["--hybrid"]):
                assert there.run(*words, "--file", path, *more) == (0, "", ""), (path, more)
                assert written(f"{place}/out") == torrent_of({"movie.mkv": content}, "x", 16384, bool(more)), (path, more)
        assert there.left() == before | {"out", "movie.mkv"}, there.left()
        for path, why in (("none", "cannot read none"), ("d", "cannot read d")):
            status, out, error = there.run(*words, f"--file={path}")
            assert (status, out) == (2, "") and f"fault: {why}" in error.replace("./", ""), (path, status, out, error)
        for wrong in (["d", "--file", "movie.mkv"], ["--file"]):
            status, out, error = there.run(*words, *wrong)
            assert (status, out) == (2, "") and "Try btcheck-many --help." in error, (wrong, error)
        assert there.left() == before | {"out", "movie.mkv"}, there.left()


def test_many_go_on_with_one_file():
    """What was stopped goes on for that file alone, as it was."""
    with folder() as place:
        there = Place(place)
        make_folder(f"{place}/d", {"a": bytes(200000), "b": bytes(200001)})
        words = ["create", "-j", "1", "--parts", "4", "--keep", "kept", "out", *NEW]
        there.stop(2, [*words, "--file", "d/a"], "kept/parts")
        status, out, error = there.run(*words, "--file", "d/a")
        assert (status, out) == (0, "") and "2 of 4 parts" in error, (status, out, error)
        assert written(f"{place}/out") == torrent_of({"a": bytes(200000)}, "x", 16384, False)
        there.stop(2, [*words, "--file", "d/a"], "kept/parts")
        status, out, error = there.run(*words, "--file", "d/b")
        assert (status, out) == (0, "") and "begins anew" in error, (status, out, error)
        assert written(f"{place}/out") == torrent_of({"b": bytes(200001)}, "x", 16384, False)
