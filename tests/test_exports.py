"""The contracts of the C library's exports: what a call may write through its pointers, and when."""
import glob
import re

from support import TOP

# Pointers through which a call writes at each status, and the clause that says what.
ALWAYS = {("btcheck_session_open_explained", "more"): "none", ("btcheck_request_frame", "frame"): "", ("btcheck_reject_frame", "frame"): ""}


def exports():
    """Each export: its name, its parameters with their types, and its clauses by label."""
    for path in sorted(glob.glob(f"{TOP}/crates/btcheck_c/src/*.rt")):
        with open(path, encoding="utf-8") as file:
            text = file.read()
        for name, given, clauses in re.findall(r'^pub extern "C" fn (\w+)\((.*?)\)(?: -> u32)?\n(.*?)^\{', text, re.M | re.S):
            parameters = dict(re.findall(r"(\w+): ([^,]+)", given))
            yield name, parameters, dict(re.findall(r"    ensures (\w* ?)\{(.*?)\}\n(?=    ensures|\Z)", clauses, re.S))


def test_what_refused_calls_leave():
    """Each pointer that a call may write through, but for handles, has a clause that it is as before at the statuses that the
    clause leaves: every one but 0, and those at which the header says that it is written."""
    found = 0
    for name, parameters, clauses in exports():
        kept = {label.strip(): " ".join(text.split()) for label, text in clauses.items()}
        for pointer, kind in parameters.items():
            if not kind.startswith("&mut") or kind == "&mut Handle":
                continue
            found += 1
            if (name, pointer) in ALWAYS:
                assert ALWAYS[name, pointer] in (None, *kept), (name, pointer, kept)
                continue
            stays = [text for label, text in kept.items() if label in ("unwritten", "kept") and f"{pointer}.new ≡ {pointer}.old" in text]
            assert len(stays) == 1 and stays[0].startswith("result ≢ "), (name, pointer, kept)
            assert "result ≢ 1 " not in stays[0] and "result ≢ 2 " not in stays[0], (name, pointer, stays)
    assert found >= 40, found
