"""The types of each call of the C library: those that Python and Rust declare are the header's. (C++ and Go read the header.)"""
import re

from test_names import text_of

# A parameter of the header without its name, and what it is in Python's and in Rust's declarations.
HANDLES = ("root", "session", "check", "holdings", "draft", "draft_file")
STRUCTS = {"ask": "Asked", "refusal": "RefusalInfo", "cursor": "CursorInfo", "file": "FileInfo", "piece": "PieceInfo", "piece_range": "RangeInfo", "blocks": "BlocksInfo", "held": "HeldInfo", "run": "RunInfo", "verdict": "VerdictInfo",
           "taken": "TakenInfo"}
TYPES = {
    "uint32_t": ("u32", "u32"), "uint64_t": ("u64", "u64"), "size_t": ("size", "usize"), "bool": ("c.c_bool", "bool"),
    "uint64_t *": ("_to_u64", "*mut u64"), "const uint8_t *": ("c.c_char_p", "*const u8"), "uint8_t *": ("c.c_char_p", "*mut u8"),
    "const uint8_t [32]": ("c.c_char_p", "*const [u8; 32]"), "uint8_t [32]": ("c.c_char_p", "*mut [u8; 32]"),
    "uint8_t [20]": ("c.c_char_p", "*mut [u8; 20]"), "uint8_t [53]": ("c.c_char_p", "*mut [u8; 53]"), "const uint8_t (*)[32]": ("c.c_char_p", "*const [u8; 32]"),
    "uint8_t (*)[32]": ("c.c_char_p", "*mut [u8; 32]"),
    **{f"{const}btcheck_{name} *": ("_handle", f"*mut btcheck_{name}") for name in HANDLES for const in ("", "const ")},
    **{f"btcheck_{name} *": (f"c.POINTER({kind})", f"*mut btcheck_{name}") for name, kind in STRUCTS.items()},
    "const btcheck_ask *": ("c.POINTER(Asked)", "*const btcheck_ask"),
}
RESULTS = {"btcheck_status": ("u32", "btcheck_status"), "void": ("None", None)}


def parameter(text):
    """A parameter without its name."""
    text = " ".join(text.split())
    for pattern in (r"(.*\(\*)\w+(\)\[32\])", r"(.*)\b\w+(\[\d+\])", r"(.*?)\w+()$"):
        if found := re.fullmatch(pattern, text):
            return (found[1] + found[2]).strip()
    raise AssertionError(text)


def prototypes():
    """The exports on handles: the result and the parameters of each."""
    text = text_of("bindings/c/btcheck.h")
    found = re.findall(r"^(btcheck_status|void) btcheck_(\w+)\(([^;]*?)\);", text, re.M | re.S)
    assert len(found) > 30, found
    return {name: (kind, [parameter(one) for one in given.split(",")]) for kind, name, given in found}


def test_types_of_python():
    """Each declared call has the header's types behind its handle, or behind the ask that it is on."""
    text = text_of("bindings/python/btcheck/_library.py")
    declared = {name: re.sub(r"\b_to_ask\b", "c.POINTER(Asked)", given).removeprefix(", ")
                for name, given in re.findall(r'= _call\("(\w+)"(.*)\)$', text, re.M)}
    wanted = {}
    for name, (kind, given) in prototypes().items():
        of_handle = given[0].removeprefix("const ").removeprefix("btcheck_").removesuffix(" *") in HANDLES
        types = [TYPES[one][0] for one in given[1:]]
        wanted[name] = ", ".join(types + (["result=None"] if kind == "void" else []) + ([] if of_handle else ["on=" + TYPES[given[0]][0]]))
    assert declared == wanted, [(name, declared.get(name), wanted.get(name)) for name in declared.keys() | wanted
                                if declared.get(name) != wanted.get(name)]


def test_types_of_rust():
    """Each declared call has the header's types."""
    text = text_of("bindings/rust/btcheck-sys/src/lib.rs")
    found = re.findall(r"pub fn btcheck_(\w+)\(\s*(.*?),?\s*\)(?:\s*-> (\w+))?;", text, re.S)
    declared = {name: (kind or None, re.findall(r"\w+: ([^,]+)", given)) for name, given, kind in found if name != "version"}
    wanted = {name: (RESULTS[kind][1], [TYPES[one][1] for one in given]) for name, (kind, given) in prototypes().items()}
    assert declared == wanted, [(name, declared.get(name), wanted.get(name)) for name in declared.keys() | wanted
                                if declared.get(name) != wanted.get(name)]


# A field of the header, and what it is in Rust's and in Python's structs.
FIELDS = {
    "bool": ("bool", "c.c_bool"), "void *": ("*mut c_void", "c.c_void_p"), "uint64_t": ("u64", "c.c_uint64"), "uint32_t": ("u32", "c.c_uint32"),
    "uint8_t [32]": ("[u8; 32]", "c.c_ubyte * 32"), "btcheck_status [17]": ("[btcheck_status; BTCHECK_MOST_BLOCKS]", "c.c_uint32 * 17"),
    "btcheck_blocks": ("btcheck_blocks", "BlocksInfo"), "btcheck_verdict": ("btcheck_verdict", "VerdictInfo"), "btcheck_ask": ("btcheck_ask", "Asked"),
    "btcheck_run [17]": ("[btcheck_run; BTCHECK_MOST_BLOCKS]", "RunInfo * 17"),
}


def structs():
    """The structs of the header: each field's name and type."""
    text = re.sub(r"/\*.*?\*/", "", text_of("bindings/c/btcheck.h"), flags=re.S)
    for name, body in re.findall(r"^typedef struct btcheck_(\w+) \{(.*?)\} btcheck_\1;", text, re.M | re.S):
        fields = []
        for statement in filter(None, (" ".join(one.split()) for one in body.split(";"))):
            kind, names = statement.split(" ", 1)
            for one in names.split(", "):
                star, word, count = re.fullmatch(r"(\*?)(\w+)(\[\d+\])?", one).groups()
                fields.append((word, " ".join(filter(None, (kind, star, count)))))
        yield name, fields


def test_fields_of_rust_and_python():
    """Each struct of the header has its fields, in their order and with their types, in both."""
    in_rust, in_python = text_of("bindings/rust/btcheck-sys/src/lib.rs"), text_of("bindings/python/btcheck/_library.py")
    found = list(structs())
    assert {name for name, _ in found} == {*HANDLES, *STRUCTS}, found
    for name, fields in found:
        rust = re.search(rf"pub struct btcheck_{name} \{{\n(.*?)\n\}}", in_rust, re.S)[1]
        assert re.findall(r"pub (\w+): (.*),", rust) == [(word, FIELDS[kind][0]) for word, kind in fields], (name, fields)
        python = re.search(rf"class {STRUCTS.get(name, 'Handle')}\(c\.Structure\):\n    _fields_ = \[(.*?)\]\n", in_python, re.S)[1]
        assert re.findall(r'\("(\w+)", (.*?)\)', python) == [(word, FIELDS[kind][1]) for word, kind in fields], (name, fields)
