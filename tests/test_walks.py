"""Through how many files a reader goes who follows one file of a torrent through a command, and how some files are named."""
import glob
import os
import re

from support import TOP
from walks import WALKS, crates_of, files_of

# The most files of each walk, and the most crates.
MOST = {"check": (48, 11), "check --part, join": (49, 11)}


def test_walks_are_short():
    for walk in WALKS:
        found = files_of(walk)
        files, crates = len(found), len(crates_of(found))
        print(f"{walk}: {files} files of {crates} crates")
        most_files, most_crates = MOST[walk]
        assert files <= most_files and crates <= most_crates, (walk, files, crates, found)


def test_a_check_is_one_thing():
    """Bad pieces are told of by the same check, so no file of it is named for them, and few functions are named for a check."""
    assert not glob.glob(f"{TOP}/crates/parts/src/bad_*")
    named = []
    for path in glob.glob(f"{TOP}/crates/*/src/**/*.rt", recursive=True):
        if "_tests/" not in path:
            with open(path, encoding="utf-8") as file:
                named += [f"{os.path.relpath(path, TOP)}: {name}" for name in re.findall(r"\bfn (check\w*)", file.read())]
    assert len(named) <= 12, named
