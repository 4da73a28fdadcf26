"""Numbers and layouts of the C library: those of the proved crates are the header's, and those of Python and Rust. (Go and C++
take the header's own.)"""
import ctypes
import re
import subprocess

from support import INCLUDES, TOP, folder, need, write
from test_library_c import module

SIZES = {"u8": 1, "u32": 4, "u64": 8}
STRUCTS = {"Asked": "btcheck_ask", "FileInfo": "btcheck_file", "BlocksInfo": "btcheck_blocks", "VerdictInfo": "btcheck_verdict",
           "RunInfo": "btcheck_run", "HeldInfo": "btcheck_held", "RefusalInfo": "btcheck_refusal", "CursorInfo": "btcheck_cursor",
           "PieceInfo": "btcheck_piece", "RangeInfo": "btcheck_piece_range", "TakenInfo": "btcheck_taken"}


def text_of(path):
    with open(f"{TOP}/{path}", encoding="utf-8") as file:
        return file.read()


def proved_structs():
    """Each struct of crates/c_layouts: its fields with offset and size as C lays them out, and its own size."""
    found = {}
    for name, path in (("Asked", "asked"), ("FileInfo", "file_info"), ("BlocksInfo", "blocks_info"), ("VerdictInfo", "verdict_info"),
                       ("RunInfo", "held_info"), ("HeldInfo", "held_info"), ("RefusalInfo", "refusal_info"), ("CursorInfo", "cursor_info"),
                       ("PieceInfo", "piece_info"), ("RangeInfo", "range_info"), ("TakenInfo", "taken_info")):
        text = text_of(f"crates/c_layouts/src/{path}.rt")
        body = re.search(r"#\[repr\(C\)\]\n(?:#.*\n)*pub struct " + name + r" \{\n(.*?)\n\}", text, re.S)[1]
        fields, end, widest = {}, 0, 1
        for field, kind in re.findall(r"pub (\w+): (.+),", body):
            one = re.match(r"\[(\w+); (\w+)\]$", kind)
            item, count = (one[1], 17 if one[2] == "MOST_BLOCKS" else int(one[2])) if one else (kind, 1)
            size, align = (found[item]["size"], found[item]["align"]) if item in found else (SIZES[item], SIZES[item])
            end = -(-end // align) * align
            fields[field] = (end, size * count)
            end, widest = end + size * count, max(widest, align)
        found[name] = {"fields": fields, "size": -(-end // widest) * widest, "align": widest}
    return found


def proved_numbers():
    """The constants of crates/c_layouts, by the names that the header gives them."""
    numbers = {}
    for path in ("status", "verdict_info", "refusal_info"):
        for name, number in re.findall(r"^(?:pub(?:\(crate\))? )?const (\w+): u32 = (\d+);", text_of(f"crates/c_layouts/src/{path}.rt"), re.M):
            numbers[name] = int(number)
    return numbers


def header_numbers():
    return {name: int(number) for name, number in re.findall(r"^ +BTCHECK_(\w+) = (\d+)", text_of("bindings/c/btcheck.h"), re.M)}


def screaming(name):
    """HybridFiles as HYBRID_FILES."""
    return re.sub(r"(?<=[a-z0-9])(?=[A-Z])", "_", name).upper()


def refusals(path, after):
    """The numbers of an enum's variants, as its `number` gives them."""
    body = text_of(path).split(after)[1]
    body = body[:body.index("\n    }\n")]
    return {screaming(name): int(number) for name, number in re.findall(r"::(\w+)(?: ?\{ ?\.\. ?\})?(?:\([^)]*\))? => (\d+),", body)}


def test_numbers():
    """Statuses, kinds and refusals have one number each: in the proved crates, the header and Rust. (test_names.py has the
    other languages.)"""
    header, proved = header_numbers(), proved_numbers()
    wanted = {"OK": proved["DONE"], **{name: number for name, number in proved.items() if name.startswith(("FAULT_", "KEY_"))}, **{name: proved[name] for name in (
        "WRONG_HANDLE", "NO_MEMORY", "TOO_LONG", "NO_ROOT", "NO_SUCH", "NOTHING", "TOO_SMALL", "BAD_SIZE", "TOO_SHORT", "BAD_PIECE", "HELD",
        "STORED", "BLOCKS", "ANSWERED", "REJECTED", "REJECT_NOTED", "KEEP_ALIVE", "SKIPPED")}}
    torrent = refusals("crates/filetree/src/refusal.rt", "pub fn number")
    # 22 and 23 are of torrents that are made
    wanted.update({f"TORRENT_{name}": proved["TORRENT"] + number for name, number in torrent.items() if number < 23})
    for of, letter in (("HashRefusal", "H"), ("BlockRefusal", "P")):
        found = refusals("crates/partial_tree/src/refusal.rt", f"impl {of} {{")
        base = proved["HASHES" if letter == "H" else "BLOCK"]
        wanted.update({f"{letter}{number}_{name}": base + number for name, number in found.items()})
    assert header == wanted, set(header.items()) ^ set(wanted.items())
    rust = {name: int(number) for name, number in re.findall(r"pub const BTCHECK_(\w+): (?:btcheck_status|u32) = (\d+);", text_of("bindings/rust/btcheck-sys/src/lib.rs"))}
    for name, number in rust.items():
        assert number == {"TORRENT": 100, "H": 200, "P": 300}.get(name, wanted.get(name)), name


def test_layouts():
    """A C compiler lays the header's structs out as the proved crates' are, and so do Python and the declarations of Rust."""
    structs = proved_structs()
    lines = ["#include <btcheck.h>", "#include <stddef.h>"]
    for name, struct in structs.items():
        in_c = STRUCTS[name]
        lines.append(f'_Static_assert(sizeof({in_c}) == {struct["size"]}, "{in_c}");')
        for field, (offset, size) in struct["fields"].items():
            lines.append(f'_Static_assert(offsetof({in_c}, {field}) == {offset}, "{in_c}.{field}");')
            lines.append(f'_Static_assert(sizeof((({in_c} *)0)->{field}) == {size}, "{in_c}.{field}");')
    for handle in ("btcheck_root", "btcheck_session", "btcheck_check", "btcheck_holdings"):
        lines.append(f'_Static_assert(sizeof({handle}) == 16 && offsetof({handle}, full) == 0 && offsetof({handle}, at) == 8, "{handle}");')
    for name, number in header_numbers().items():
        lines.append(f'_Static_assert(BTCHECK_{name} == {number}, "{name}");')
    need("gcc")
    with folder() as place:
        source = write(f"{place}/layouts.c", "\n".join(lines).encode() + b"\n")
        subprocess.run(["gcc", "-std=c11", "-Wall", "-Werror", *INCLUDES, "-c", source, "-o", f"{place}/layouts.o"], check=True)
    in_rust = text_of("bindings/rust/btcheck-sys/src/lib.rs")
    for name, struct in structs.items():
        body = re.search(r"pub struct " + STRUCTS[name] + r" \{\n(.*?)\n\}", in_rust, re.S)[1]
        assert re.findall(r"pub (\w+):", body) == list(struct["fields"]), name


def test_layouts_of_python():
    for name, struct in proved_structs().items():
        kind = getattr(module()._library, name)
        fields = {field: (getattr(kind, field).offset, getattr(kind, field).size) for field, _ in kind._fields_}
        assert (fields, ctypes.sizeof(kind)) == (struct["fields"], struct["size"]), name
