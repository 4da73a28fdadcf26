"""Hostile input from a fixed seed, compared with the plain models. `tests/fuzz` draws more, for as long as it is
asked to."""
from fuzzing import Fuzz, summary
from shim import has_c_library_inside
from support import BTCHECK, folder

CASES = {"torrent": 900, "record": 400, "conversion": 200, "folder": 300, "join": 200, "assembly": 150}

# What the cases have to meet. A torrent's refusals: all but that of one that is too large, which test_refused makes. Its
# faults: all but out of memory.
REFUSALS = ["Missing", "WrongType", "Version", "PieceLength", "Shape", "Path", "Symlink", "Length", "Root",
            "RootReused", "NoFiles", "TooManyPieces", "LayerMissing", "LayerSize", "LayerMismatch", "HybridFiles",
            "HybridAlign", "HybridPieces"]
FAULTS = ["Truncated", "BadStart", "BadInteger", "IntegerRange", "BadLength", "KeyOrder", "Trailing", "TooDeep"]

# Of a record, those of hashes and of blocks but out of memory.
H_REFUSALS = ["H1 UnknownRoot", "H2 BadRange", "H3 BadCount", "H4 BadPad", "H5 Unanchored", "H6 Mismatch", "H8 Unasked"]
P_REFUSALS = ["P1 BadPlace", "P2 BadSize", "P3 Unproved", "P4 BadBlock"]
TEXTS = ["keep-alive", "stored", "verified", "answered", "rejected", "reject", "skipped", "bad", "sent", "fault BadDirection",
         "fault Truncated", "end"]

# Of a folder.
VERDICTS = ["good", "missing", "unreadable", "wrong", "bad", "v1 good", "v1 bad", "v1 not", "yes", "no"]

# Cases a minute of one processor's time, at least; there are some thousand.
RATE = 1000


def compared(seed, cases):
    """This many cases of this seed, and how long they took."""
    with folder() as place:
        fuzz = Fuzz(place, seed)
        for kind, count in cases.items():
            for _ in range(count):
                fuzz.case(kind)
        print("\n".join(summary(fuzz)))
        assert fuzz.rate() >= RATE, fuzz.rate()
    return fuzz.answers


def test_hostile_input():
    """The program with the C library inside is the same but for that: it gets other cases, and fewer."""
    if has_c_library_inside(BTCHECK):
        compared("fixed, too", {kind: count // 4 for kind, count in CASES.items()})
        return
    met = compared("fixed", CASES)
    for number, name in enumerate(REFUSALS, 3):
        assert met["torrent"][f"refused {number} {name}"], name
    for kind in FAULTS:
        assert met["torrent"][f"refused 2 NotBencode {kind}"], kind
    for text in [*TEXTS, *(f"refused {name}" for name in H_REFUSALS + P_REFUSALS)]:
        assert met["record"][text], text
    for text in VERDICTS:
        assert met["folder"][text], text
    for text in ["yes", "no", "fault: part", "fault: no whole report of a part", "fault: a part of another torrent"]:
        assert met["join"][text], text
    for text in ["made", "fault: part"]:
        assert met["assembly"][text], (text, met["assembly"])
    assert met["torrent"]["name:"] > 100 and met["record"]["verified"] > 100 and met["folder"]["yes"] > 20
    for text in ("stored", "sent", "refused H8 Unasked", "refused H6 Mismatch", "fault BadDirection", "fault Truncated"):
        assert met["record"][text] > 5, text
    for text in ("converted", "refused 3 AlreadyForm2", "fault:"):
        assert met["conversion"][text] > 5, text
