"""`btcheck create --exclude GLOB`, on random globs beside a model, and on long ones."""
import os
import random

from create_model import torrent_of
from glob_model import first_that_is_none, left_out, some_glob, some_paths
from support import expect, folder, run, write, written

NEW = ["--name", "x", "--piece-length", "16384"]


def files_of(place, paths):
    """A folder with a file at each of these paths, each of them its own contents."""
    for path in paths:
        os.makedirs(os.path.dirname(f"{place}/{path}"), exist_ok=True)
        write(f"{place}/{path}", path.encode())
    return place


def excluding(globs):
    return [f"--exclude={glob}" for glob in globs]


def test_random_globs():
    """What they leave out is what the model says, and the first text that is none is refused, wherever it stands."""
    draw, ends = random.Random(76), {"refused": 0, "some": 0, "all": 0, "none": 0}
    for _ in range(20):
        with folder() as place:
            paths, out = some_paths(draw, 20), f"{place}/out"
            content = files_of(f"{place}/content", paths)
            for _ in range(30):
                globs = [some_glob(draw, paths) for _ in range(draw.choice([1, 1, 2, 3]))]
                write(out, b"before")
                done, refused = run("create", content, out, *NEW, *excluding(globs)), first_that_is_none(globs)
                if refused is not None:
                    expect(done, 2, b"", None)
                    assert done.stderr.startswith(b"error: invalid value ") and written(out) == b"before", (globs, done)
                    ends["refused"] += 1
                    continue
                gone = left_out(globs, paths)
                kept = {path: path.encode() for path in paths if path not in gone}
                expect(done, 0 if kept else 1, "" if kept else "refused 13 NoFiles\n")
                if kept:
                    assert written(out) == torrent_of(kept, "x", 16384, False), (globs, paths)
                ends["some" if gone and kept else "all" if gone else "none"] += 1
    assert all(count >= 20 for count in ends.values()), ends


def test_the_first_text_that_is_no_glob_is_named():
    """Whatever stands before it and behind it."""
    for globs, named in [(["["], "["), (["a", "b[", "c"], "b["), (["a", "c\\", "[b-a]"], "c\\\\"), (["**", ""], ""), (["a", "/"], "/"),
                         (["[!"], "[!"), (["*", "a[]"], "a[]")]:
        done = run("create", "missing", "missing/out", *NEW, *excluding(globs))
        wanted = f"error: invalid value \"{named}\" for '--exclude <GLOB>': it is no glob\n\nFor more information, try '--help'.\n"
        expect(done, 2, b"", wanted)


# Globs that one who tries one way after the other never gets through: with one text behind them they match a path of many
# `a`, and with the other they do not.
LONG = [("a*" * 200, "", "b"), ("**a" * 2500, "**", "b"), ("/" + "**/" * 20000 + "*", "", "b"), ("[a-z]*" * 200, "", "b"),
        ("[" + "bc" * 20000, "a]*", "d]*")]


def test_long_globs():
    """They end, as fast as their length and that of the path allow."""
    with folder() as place:
        paths = ["/".join(["a" * 240] * 12) + f"/{name}" for name in ("a" * 200, "c")]
        content = files_of(f"{place}/content", paths)
        for front, match, other in LONG:
            assert left_out_of(place, content, front + match) and not left_out_of(place, content, front + other), front[:20]


def left_out_of(place, content, glob):
    """Whether a glob leaves out all that is there."""
    done = run("create", content, f"{place}/out", *NEW, f"--exclude={glob}", timeout=60)
    assert (done.returncode, done.stdout) in [(0, b""), (1, b"refused 13 NoFiles\n")], done
    return done.returncode == 1
