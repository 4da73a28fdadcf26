"""The wrong bodies that the prover has to refuse, in crates/*/must-fail: each can be applied, and changes code alone."""
import glob
import os

import contracts
from support import TOP

# The merge gate tries each of them, and has to end in time.
MOST = 500


def changes(path):
    """What an edit changes: for each change the file, the text that stands there, and the one in its place."""
    file = old = None
    for line in contracts.text_of(path).splitlines():
        kind, _, text = line.partition(": ")
        if kind == "file":
            file = text
        elif kind == "old":
            old = text
        else:
            assert kind == "new" and file and old, (path, line)
            yield file, old, text


def fault_of(path):
    """Why an edit cannot be applied, or nothing."""
    crate, found = os.path.dirname(os.path.dirname(path)), {}
    for file, old, new in changes(path):
        if not file.startswith("src/") or not os.path.exists(f"{crate}/{file}"):
            return f"there is no {file}"
        text = found.setdefault(file, contracts.text_of(crate, file))
        if text.count(old) != 1:
            return f"{old!r} is in {file} {text.count(old)} times"
        if old == new:
            return f"{old!r} stays"
        found[file] = text.replace(old, new)
    return None if found else "it changes nothing"


def test_each_wrong_body_can_be_made():
    """What is replaced stands exactly once in its file, behind the changes before it."""
    edits = sorted(glob.glob(f"{TOP}/crates/*/must-fail/*"))
    faults = {os.path.relpath(path, TOP): fault for path in edits if (fault := fault_of(path))}
    assert edits and not faults, faults
    assert all(path.endswith(".edit") for path in edits), edits


def test_there_is_time_for_each_wrong_body():
    edits = glob.glob(f"{TOP}/crates/*/must-fail/*.edit")
    assert len(edits) <= MOST, len(edits)
