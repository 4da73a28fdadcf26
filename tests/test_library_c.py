"""The C library: its header and symbols, each status through C and through Python, memory that is refused, and records through
a program in C beside `btcheck replay`. The tests build it by `make lib`, if that was not run before."""
import ctypes
import functools
import hashlib
import os
import random
import re
import shutil
import subprocess
import sys

import messages
from support import INCLUDES, TOP, LeftOut, folder, need, run, write
from torrents import bencoded, file, info, torrent, torrent_of
from trees import BLOCK, Tree, blocks_of, layer, root_of

LIB = f"{TOP}/build/lib"
V3 = f"{LIB}/glibc-hwcaps/x86-64-v3"
HEADER = f"{TOP}/bindings/c/btcheck.h"
SOURCES = f"{TOP}/tests/library"
PROGRAMS = ["each_call", "frames", "handles", "refused_memory", "replay", "threads"]
WARNINGS = ["-Wall", "-Wextra", "-pedantic", "-Werror"]
OF_MEMORY = ["-Wl,--wrap=malloc,--wrap=realloc"]

CONTENT = random.Random(7).randbytes(5 * BLOCK + 100)
SMALL = random.Random(8).randbytes(300)
TORRENT = torrent_of([("a", CONTENT), ("b", SMALL)], 2 * BLOCK)
TREE, ROOT = Tree.of(CONTENT), root_of(CONTENT)
LEAVES = TREE.layers[0]
BLOCKS = blocks_of(CONTENT)


@functools.cache
def made():
    """The library is made, or what that needs is not here."""
    need("gcc", "g++", "nm", "readelf", "objcopy", "make")
    archive = "crates/btcheck_c/out/libbtcheck_c.a"
    if shutil.which("rt"):
        there = ["-o", archive] if os.path.exists(f"{TOP}/{archive}") else []
        subprocess.run(["make", "-s", *there, "lib"], cwd=TOP, check=True, stdout=subprocess.DEVNULL)
    elif not os.path.exists(f"{LIB}/libbtcheck.so.1"):
        raise LeftOut("there is no kit here, and make lib was not run")


def compiled(place, name, *flags, compiler="gcc", standard="c99", library=None):
    """A program of tests/library."""
    made()
    program = f"{place}/{name}-{standard}"
    more = {"refused_memory": OF_MEMORY, "threads": ["-pthread"], "each_call": ["-pthread"]}.get(name, [])
    subprocess.run([compiler, f"-std={standard}", *WARNINGS, *flags, *INCLUDES, "-x", "c++" if "++" in standard else "c",
                    f"{SOURCES}/{name}.c", "-x", "none", library or f"{LIB}/libbtcheck.a", *more, "-o", program], check=True)
    return program


def arguments(place):
    """What each program but `replay` and `frames` is run on."""
    torrent = write(f"{place}/t.torrent", TORRENT)
    return {"handles": [torrent], "each_call": ["0", write(f"{place}/content", CONTENT), torrent], "refused_memory": [torrent, write(f"{place}/hashes", ROOT + b"".join(LEAVES))],
            "threads": [torrent, write(f"{place}/content", CONTENT)]}


def declared():
    with open(HEADER, encoding="utf-8") as file:
        return set(re.findall(r"^(?:btcheck_status|void|const char \*|uint32_t) ?(btcheck_\w+)\(", file.read(), re.M))


def test_the_header_compiles_everywhere():
    """Each program compiles without a word as C99, C17 and C++17, and runs."""
    with folder() as place:
        given = arguments(place)
        for compiler, standard in (("gcc", "c99"), ("gcc", "c17"), ("g++", "c++17")):
            for name in PROGRAMS:
                program = compiled(place, name, compiler=compiler, standard=standard)
                if name in given:
                    done = run(*given[name], program=program)
                    assert (done.returncode, done.stdout) == (0, b""), (name, standard, done)


def test_symbols():
    """All objects define exactly the calls of the header, and need the C library alone."""
    made()
    for path, flags in ((f"{place}/{name}", flags) for place in (LIB, V3) for name, flags in (("libbtcheck.so.1", ["-D"]), ("libbtcheck.a", ["-g"]))):
        printed = subprocess.run(["nm", *flags, "--defined-only", path], check=True, stdout=subprocess.PIPE, text=True).stdout
        names = set(re.findall(r"^[0-9a-f]+ \w (\w+)$", printed, re.M))
        assert names == declared(), (path, names ^ declared())
    for place in (LIB, V3):
        printed = subprocess.run(["readelf", "-d", f"{place}/libbtcheck.so.1"], check=True, stdout=subprocess.PIPE, text=True).stdout
        assert re.findall(r"NEEDED.*\[(.*)\]", printed) == ["libc.so.6"] and "SONAME" in printed, printed


ROOTS = """
import btcheck, random
source = random.Random(9)
for size in (1, 16383, 16384, 16385, 131072, 300000, 1048577):
    content = source.randbytes(size)
    for part in (1000, 16384, 131072, 1048576):
        with btcheck.Root() as root:
            for at in range(0, size, part):
                root.push(content[at:at + part])
            print(size, root.finish()[1].hex())
"""


def test_an_object_for_each_processor():
    """The loader picks the one for this processor, and the other one where it is told to. Both give the same roots."""
    made()
    need("python3")
    if run(program=f"{TOP}/tools/processor", text=True).stdout.strip() != "x86-64-v3":
        raise LeftOut("this processor has not all of x86-64-v3")
    with folder() as place:
        program = compiled(place, "handles", library=f"{LIB}/libbtcheck.so.1")
        for mask, wanted in (("x86-64-v3", V3), ("x86-64-v2", LIB)):
            done = run("--library-path", LIB, "--glibc-hwcaps-mask", mask, program, *arguments(place)["handles"],
                       program="/lib64/ld-linux-x86-64.so.2", env={**os.environ, "LD_DEBUG": "libs"}, text=True)
            assert (done.returncode, done.stdout) == (0, ""), done
            assert f"calling init: {wanted}/libbtcheck.so.1" in done.stderr, done.stderr
    told = [run("-c", ROOTS, program=sys.executable, check=True,
                env={**os.environ, "PYTHONPATH": f"{TOP}/bindings/python", "LIBBTCHECK": f"{it}/libbtcheck.so.1"}).stdout for it in (LIB, V3)]
    source, wanted = random.Random(9), []
    for size in (1, 16383, 16384, 16385, 131072, 300000, 1048577):
        wanted += 4 * [f"{size} {root_of(source.randbytes(size)).hex()}"]
    assert told[0] == told[1] == "".join(f"{line}\n" for line in wanted).encode(), told


def test_handles_and_memory_under_sanitizers():
    with folder() as place:
        for name, given in arguments(place).items():
            program = compiled(place, name, "-g", "-fsanitize=undefined" if name == "refused_memory" else "-fsanitize=address,undefined")
            done = run(*given, program=program)
            assert (done.returncode, done.stdout, done.stderr) == (0, b"", b""), (name, done)


def test_handles_move_between_threads():
    """No thread races with another one, as the thread sanitizer sees it."""
    with folder() as place:
        program = compiled(place, "threads", "-g", "-fsanitize=thread")
        done = run(*arguments(place)["threads"], program=program)
        assert (done.returncode, done.stdout, done.stderr) == (0, b"", b""), done


def test_a_call_needs_little_stack():
    """Each call on a stack of 64 KiB: for a common torrent, for one with 122 folders in one another, for lists that are as deep,
    and for one with many files."""
    tree = file(SMALL)
    for _ in range(122):
        tree = {"d": tree}
    deep = bencoded([]).replace(b"le", b"l" * 128 + b"e" * 128)
    many = {f"f{number:05}": file(b"") for number in range(4096)} | {"x": file(SMALL)}
    with folder() as place:
        given = [write(f"{place}/{number}.torrent", content) for number, content in enumerate(
            (TORRENT, torrent(info(tree)), b"d4:info" + deep + b"e", deep, torrent(info(many))))]
        done = run(str(64 * 1024), write(f"{place}/content", CONTENT), *given, program=compiled(place, "each_call", "-O1"))
        assert (done.returncode, done.stdout) == (0, b""), done


def test_a_large_torrent():
    """A torrent file above 100,000 bytes, and asks of 512 hashes and more, are no other than small ones."""
    many = torrent(info({**{f"f{number:05}": file(b"") for number in range(4096)}, "x": file(SMALL)}))
    assert len(many) > 100_000
    with module().Session(many) as session:
        assert (session.file_count(), session.tree_count()) == (4097, 1)
    long = random.Random(11).randbytes(2000 * BLOCK)
    tree, root = Tree.of(long), root_of(long)
    with module().Session(torrent_of([("a", long)], BLOCK)) as session:
        for length in (512, 1024, 2048):
            ask = (root, 0, 0, length, 0)
            assert outcome(session.note, ask) == (0, None)
            assert outcome(session.answer, ask) == (0, tree.hashes(0, 0, length, 0)), length


def test_handles_under_valgrind():
    need("valgrind")
    with folder() as place:
        for name in ("handles", "each_call"):
            program = compiled(place, name, "-g")
            done = run("-q", "--leak-check=full", "--errors-for-leak-kinds=all", "--error-exitcode=9", program,
                       *arguments(place)[name], program="valgrind")
            assert (done.returncode, done.stdout) == (0, b""), (name, done)


@functools.cache
def module():
    """The Python module over the library."""
    made()
    os.environ["LIBBTCHECK"] = f"{LIB}/libbtcheck.so.1"
    sys.path.insert(0, f"{TOP}/bindings/python")
    import btcheck
    return btcheck


def outcome(call, *given):
    """The status of a call, and what it gives."""
    try:
        return 0, call(*given)
    except module().Refused as refused:
        return refused.status, None


def expected(cases):
    for name, got, wanted in cases:
        assert got == wanted, (name, got, wanted)


def test_roots():
    with module().Root() as root:
        assert outcome(root.finish) == (4, None)
        for part in (CONTENT[:7], CONTENT[7:50000], CONTENT[50000:]):
            root.push(part)
        expected([
            ("the root", outcome(root.finish), (0, (len(CONTENT), ROOT))),
            ("it begins anew", outcome(root.finish), (4, None)),
            ("bytes", outcome(root.push, SMALL), (0, None)),
            ("another root", outcome(root.finish), (0, (300, root_of(SMALL)))),
            ("freed", root.close(), None),
            ("closed", outcome(root.push, b"a"), (1, None)),
            ("freed twice", root.close(), None),
        ])


def test_each_refusal_of_a_message():
    other = [LEAVES[1], LEAVES[0], *LEAVES[2:]]
    with module().Session(TORRENT, layers=False) as session:
        expected([
            ("at first", outcome(session.counts, 0), (0, (1, 0))),
            ("no tree", outcome(session.counts, 9), (5, None)),
            ("P1", outcome(session.take_block, 77, 0, BLOCKS[0]), (301, None)),
            ("P2", outcome(session.take_block, 0, 0, BLOCKS[0][:-1]), (302, None)),
            ("P3", outcome(session.take_block, 0, 0, BLOCKS[0]), (303, None)),
            ("H1", outcome(session.take_hashes, (bytes(32), 0, 0, 8, 0), LEAVES), (201, None)),
            ("H2", outcome(session.take_hashes, (ROOT, 0, 1, 4, 0), LEAVES), (202, None)),
            ("H3", outcome(session.take_hashes, (ROOT, 0, 0, 8, 0), LEAVES[:3]), (203, None)),
            ("H4", outcome(session.take_hashes, (ROOT, 0, 0, 8, 0), [*LEAVES[:-1], b"\1" * 32]), (204, None)),
            ("H5", outcome(session.take_hashes, (ROOT, 0, 0, 2, 0), LEAVES[:2]), (205, None)),
            ("H6", outcome(session.take_hashes, (ROOT, 0, 0, 8, 0), other), (206, None)),
            ("H8", outcome(session.take_answer, (ROOT, 0, 0, 8, 0), LEAVES), (208, None)),
            ("nothing changed", outcome(session.counts, 0), (0, (1, 0))),
            ("stored", outcome(session.take_hashes, (ROOT, 0, 0, 8, 0), LEAVES), (0, 14)),
            ("stored again", outcome(session.take_hashes, (ROOT, 0, 0, 8, 0), LEAVES), (0, 0)),
            *((f"block {n}", outcome(session.take_block, n // 2, n % 2 * BLOCK, block), (0, (0, n))) for n, block in enumerate(BLOCKS)),
            ("P4", outcome(session.take_block, 0, 0, BLOCKS[1]), (304, None)),
            ("at last", outcome(session.counts, 0), (0, (15, 6))),
        ])


def test_requests():
    ask, part = (ROOT, 0, 0, 8, 0), (ROOT, 0, 0, 2, 2)
    with module().Session(TORRENT, layers=False) as session:
        expected([
            ("nothing to answer with", outcome(session.answer, ask), (6, None)),
            ("noted", outcome(session.note, ask), (0, None)),
            ("noted again", outcome(session.note, ask), (0, None)),
            ("another one is not open", outcome(session.take_answer, (ROOT, 0, 0, 8, 1), LEAVES), (208, None)),
            ("a refusal leaves it open", outcome(session.take_answer, ask, LEAVES[:3]), (203, None)),
            ("answered", outcome(session.take_answer, ask, LEAVES), (0, 14)),
            ("closed", outcome(session.take_answer, ask, LEAVES), (208, None)),
            ("an answer", outcome(session.answer, ask), (0, LEAVES)),
            ("with uncles", outcome(session.answer, part), (0, TREE.hashes(0, 0, 2, 2))),
            ("no such range", outcome(session.answer, (ROOT, 0, 1, 2, 0)), (6, None)),
        ])
    assert outcome(session.note, ask) == (1, None)


def test_what_is_wanted():
    """What is wanted is learnt by its answer, and blocks are marked one by one."""
    ask = (ROOT, 0, 0, 8, 2)
    with module().Session(TORRENT, layers=False) as session:
        expected([
            ("no tree", outcome(session.want, 9, 0), (5, None)),
            ("no block", outcome(session.want, 0, len(BLOCKS)), (5, None)),
            ("all leaves", outcome(session.want, 0, 5), (0, module().Ask(*ask))),
            ("a leaf that is the root", outcome(session.want, 1, 0), (0, None)),
            ("not to be answered", outcome(session.can_answer, ask), (0, False)),
            ("of no tree", outcome(session.can_answer, (bytes(32), 0, 0, 8, 2)), (0, False)),
            ("taken", outcome(session.take_hashes, ask, LEAVES), (0, 14)),
            ("known", outcome(session.want, 0, 5), (0, None)),
            ("to be answered", outcome(session.can_answer, ask), (0, True)),
            ("not marked", outcome(session.is_marked, 0, 1), (0, False)),
            ("a block", outcome(session.take_block, 0, BLOCK, BLOCKS[1]), (0, (0, 1))),
            ("marked", outcome(session.is_marked, 0, 1), (0, True)),
            ("another block", outcome(session.is_marked, 0, 2), (0, False)),
            ("marks of no tree", outcome(session.is_marked, 9, 0), (5, None)),
            ("marks of no block", outcome(session.is_marked, 0, len(BLOCKS)), (5, None)),
        ])


def test_files():
    """Paths, lengths, first pieces, roots and info-hashes, an empty file among them."""
    dictionary = info({"d": {"e": {"f": file(CONTENT)}}, "empty": file(b""), "x": file(SMALL)}, 2 * BLOCK)
    spelling = bencoded(dictionary)
    with module().Session(torrent(dictionary, {ROOT: layer(CONTENT, 2)})) as session:
        expected([
            ("the counts", (session.file_count(), session.tree_count()), (3, 2)),
            ("all files", outcome(session.files), (0, [
                ("d/e/f", len(CONTENT), 0, 0, ROOT), ("empty", 0, 3, None, None), ("x", 300, 3, 1, root_of(SMALL))])),
            ("no file", outcome(session.file, 3), (5, None)),
            ("no path", outcome(session.path, 3), (5, None)),
            ("the info-hashes", outcome(session.info_hashes), (0, (hashlib.sha256(spelling).digest(), hashlib.sha1(spelling).digest()))),
        ])
    with module().Session(torrent(info({"p" * 255: {"q" * 255: file(SMALL)}}))) as session:
        assert session.path(0) == "p" * 255 + "/" + "q" * 255


def test_checks_of_files():
    """The bytes of a file of several pieces, of one piece, and of an empty one; good, bad in each piece, short and long."""
    dictionary = info({"a": file(CONTENT), "b": file(SMALL), "c": file(b"")}, 2 * BLOCK)
    kinds, pieces = module(), -(-len(CONTENT) // (2 * BLOCK))
    with kinds.Session(torrent(dictionary, {ROOT: layer(CONTENT, 2)})) as session:
        assert [outcome(kinds.Check, session, number)[0] for number in (2, 3)] == [4, 5]
        for number, content, bad in ((0, CONTENT, None), (1, SMALL, None), (1, SMALL[:-1] + b"?", 0),
                                     *((0, CONTENT[:at] + bytes([CONTENT[at] ^ 1]) + CONTENT[at + 1:], at // (2 * BLOCK))
                                       for at in (0, 2 * BLOCK - 1, 2 * BLOCK, 4 * BLOCK, len(CONTENT) - 1))):
            for size in (1 << 20, 1000, BLOCK):
                with kinds.Check(session, number) as check:
                    for at in range(0, len(content), size):
                        assert outcome(check.finish) == (9, None)
                        check.push(content[at:at + size])
                    assert outcome(check.push, b"x") == (3, None)
                    check.push(b"")
                    assert outcome(check.finish) == (0, bad), (number, bad, size)
                    assert outcome(check.finish) == (9, None)
        assert bad == pieces - 1
        two = kinds.Check(session, 0)
        two.push(CONTENT)
    assert outcome(two.finish) == (0, None)


def bits_of(content, whole, first, end, size=2 * BLOCK):
    """Of each piece of a row whether it stands in the content whole, and is that of the whole file."""
    return [content[n * size:(n + 1) * size] == whole[n * size:(n + 1) * size] for n in range(first, end)]


def test_checks_of_pieces():
    """Each row of pieces of a file, whole, cut at each edge and beside it, and with a bad byte in each piece: the first bad
    piece, and a bit for each. A file of one piece is a row too."""
    kinds = module()
    rows = [(0, CONTENT, first, end) for first in range(3) for end in range(first + 1, 4)] + [(1, SMALL, 0, 1)]
    dictionary = info({"a": file(CONTENT), "b": file(SMALL), "c": file(b"")}, 2 * BLOCK)
    with kinds.Session(torrent(dictionary, {ROOT: layer(CONTENT, 2)})) as session:
        for number, first, end, status in ((0, 1, 1, 5), (0, 2, 1, 5), (0, 0, 4, 5), (1, 0, 2, 5), (1, 1, 2, 5), (2, 0, 1, 4), (3, 0, 1, 5)):
            assert outcome(kinds.Pieces, session, number, first, end)[0] == status, (number, first, end)
        for number, content, first, end in rows:
            at, to = first * 2 * BLOCK, min(end * 2 * BLOCK, len(content))
            for turned in (None, at, (at + to) // 2, to - 1):
                read = bytearray(content)
                if turned is not None:
                    read[turned] ^= 1
                for stop in {to, to - 1, at, at + 1, *(n for n in range(at + 2 * BLOCK, to, 2 * BLOCK)), *(n + 1 for n in range(at + 2 * BLOCK, to, 2 * BLOCK))}:
                    if not at <= stop <= to:
                        continue
                    for size in (1 << 20, 1000 if stop < 3 * BLOCK else BLOCK):
                        with kinds.Pieces(session, number, first, end) as check:
                            for part in range(at, stop, size):
                                check.push(bytes(read[part:min(part + size, stop)]))
                            good = bits_of(bytes(read[:stop]), content, first, end)
                            bad = next((first + n for n, is_good in enumerate(good) if not is_good), None)
                            wanted = (0, bad) if stop == to else (9, None)
                            assert outcome(check.finish) == wanted, (number, first, end, stop, turned)
                            assert check.good() == good, (number, first, end, stop, turned, check.good(), good)


def test_bitmaps():
    """A bitmap that is too small or too large: bits that it has not are left out, and those past the last piece stay clear."""
    kinds = module()
    long = random.Random(10).randbytes(21 * BLOCK)
    with kinds.Session(torrent_of([("a", long)], BLOCK)) as session:
        for size, wanted in ((1, b"\xff"), (2, b"\xff\xff"), (3, b"\xff\xff\xf8"), (5, b"\xff\xff\xf8\0\0")):
            with kinds.Check(session, 0) as check:
                bits, piece = ctypes.create_string_buffer(size), ctypes.c_uint64(7)
                for at in range(0, len(long), 5000):
                    kinds._library.check_push_bits(check._handle, long[at:at + 5000], len(long[at:at + 5000]), bits, size)
                assert outcome(kinds._library.check_push_bits, check._handle, b"a", 1, bits, size)[0] == 3
                assert outcome(kinds._library.check_finish_bits, check._handle, piece, bits, size)[0] == 0
                assert (bits.raw, piece.value) == (wanted, 7)


def test_whole_pieces():
    """The bytes of each piece, in any order, with the layers and without; each refusal; blocks are marked."""
    pieces = [CONTENT[at:at + 2 * BLOCK] for at in range(0, len(CONTENT), 2 * BLOCK)]
    with module().Session(TORRENT) as session:
        expected([
            ("no such piece", outcome(session.take_piece, 4, pieces[0]), (301, None)),
            ("too short", outcome(session.take_piece, 0, pieces[0][1:]), (302, None)),
            ("too long", outcome(session.take_piece, 0, pieces[0] + b"a"), (302, None)),
            ("another piece", outcome(session.take_piece, 0, pieces[1]), (304, None)),
            ("nothing changed", outcome(session.counts, 0), (0, (7, 0))),
            ("the last one", outcome(session.take_piece, 2, pieces[2]), (0, (0, 4))),
            ("the second", outcome(session.take_piece, 1, pieces[1]), (0, (0, 2))),
            ("again", outcome(session.take_piece, 1, pieces[1]), (0, (0, 2))),
            ("its blocks", outcome(session.take_block, 1, BLOCK, BLOCKS[3]), (0, (0, 3))),
            ("marks", [outcome(session.is_marked, 0, block)[1] for block in range(6)], [False, False, True, True, True, True]),
            ("the first", outcome(session.take_piece, 0, pieces[0]), (0, (0, 0))),
            ("all", outcome(session.counts, 0)[1][1], 6),
            ("a file of one piece", outcome(session.take_piece, 3, SMALL), (0, (1, 0))),
        ])
    with module().Session(TORRENT, layers=False) as session:
        expected([
            ("unproved", outcome(session.take_piece, 0, pieces[0]), (303, None)),
            ("a file of one piece", outcome(session.take_piece, 3, SMALL), (0, (1, 0))),
        ])


def test_only_what_is_named_is_written():
    """Of a room only the places of the hashes; of a verdict only what its kind names; and statuses past the count are no 0."""
    kinds = module()
    with kinds.Session(TORRENT) as session:
        ask, count = kinds._library.laid_out((ROOT, 1, 0, 4, 0)), ctypes.c_uint64()
        room = ctypes.create_string_buffer(b"?" * (6 * 32), 6 * 32)
        assert outcome(kinds._library.session_answer, session._handle, ask, room, 6, count)[0] == 0
        assert (count.value, room.raw) == (4, b"".join(TREE.layers[1]) + b"?" * 64)
        for body, kind, kept in ((b"", 6, slice(4, None)), (bytes([4, 0]), 7, slice(8, None)),
                                 (messages.request(ROOT, 1, 0, 4, 0)[4:], 3, slice(4, None)),
                                 (messages.hashes(ROOT, 1, 0, 4, 0, given=TREE.layers[1])[4:], 1, slice(16, None))):
            verdict = kinds._library.VerdictInfo.from_buffer_copy(b"?" * ctypes.sizeof(kinds._library.VerdictInfo))
            kinds._library.session_frame(session._handle, body, len(body), verdict)
            assert verdict.kind == kind and set(bytes(verdict)[kept]) == {ord("?")}, (kind, bytes(verdict))
        blocks = kinds._library.BlocksInfo()
        kinds._library.session_take_blocks(session._handle, 0, 0, BLOCKS[0], BLOCK, blocks)
        assert list(blocks.statuses) == [303] + 16 * [5]


def test_rooms():
    """A room that is too small is left alone; in one that is large enough only the front is written."""
    with module().Session(torrent(info({"ab": {"c": file(SMALL)}}))) as session:
        for size in range(8):
            room, length = ctypes.create_string_buffer(b"........", 8), ctypes.c_uint64()
            status = 0 if size >= 4 else 7
            assert outcome(module()._library.session_path, session._handle, 0, room, size, length)[0] == status
            assert (length.value, room.raw) == (4, b"ab/c...." if size >= 4 else b"........"), (size, room.raw)


def test_messages_of_several_blocks():
    wrong = BLOCKS[0] + b"\0" * BLOCK + BLOCKS[2]
    with module().Session(TORRENT, layers=False) as session:
        def taken(*given):
            status, blocks = outcome(session.take_blocks, *given)
            return status, blocks and (blocks.file, blocks.first, [0 if one is None else one.status for one in blocks.outcomes])
        expected([
            ("P1", taken(77, 0, CONTENT), (301, None)),
            ("P2", taken(0, 0, CONTENT + b"a"), (302, None)),
            ("no bytes", taken(0, 0, b""), (302, None)),
            ("unproved", taken(0, BLOCK, CONTENT[BLOCK:]), (0, (0, 1, [303] * 5))),
            ("hashes", outcome(session.take_hashes, (ROOT, 0, 0, 8, 0), LEAVES), (0, 14)),
            ("one is bad", taken(0, 0, wrong), (0, (0, 0, [0, 304, 0]))),
            ("marks", [outcome(session.is_marked, 0, block)[1] for block in range(6)], [True, False, True, False, False, False]),
            ("all", taken(0, 0, CONTENT), (0, (0, 0, [0] * 6))),
        ])
    long = random.Random(9).randbytes(18 * BLOCK)
    with module().Session(torrent_of([("a", long)], BLOCK)) as session:
        status, blocks = outcome(session.take_blocks, 0, 0, long[:16 * BLOCK])
        assert (status, blocks) == (0, (0, 0, [None] * 16)), (status, blocks)
        assert outcome(session.take_blocks, 0, 0, long[:17 * BLOCK]) == (302, None)


def test_frames():
    """Each kind of body, as `replay` takes it; a body with false hashes is refused by its number."""
    def body(frame):
        return frame[4:]
    with module().Session(TORRENT, layers=False) as session:
        kinds = module()
        expected([
            ("nothing", outcome(session.frame, b""), (0, kinds.KeepAlive())),
            ("another id", outcome(session.frame, bytes([4, 0, 0])), (0, kinds.Skipped(4))),
            ("a bad piece", outcome(session.frame, bytes([7, 0])), (8, None)),
            ("a bad request", outcome(session.frame, bytes([21])), (8, None)),
            ("to be rejected", outcome(session.frame, body(messages.request(ROOT, 0, 0, 8, 0))), (0, kinds.Rejected())),
            ("H6", outcome(session.frame, body(messages.hashes(ROOT, 0, 0, 8, 0, given=LEAVES[1:2] + LEAVES[1:]))), (206, None)),
            ("stored", outcome(session.frame, body(messages.hashes(ROOT, 0, 0, 8, 0, given=LEAVES))), (0, kinds.Stored(14))),
            ("answered", outcome(session.frame, body(messages.request(ROOT, 0, 0, 8, 0))), (0, kinds.Answered())),
            ("a reject", outcome(session.frame, b"\x17" + body(messages.request(ROOT, 0, 0, 8, 0))[1:]), (0, kinds.RejectNoted())),
            ("P1", outcome(session.frame, body(messages.piece(77, 0, BLOCKS[0]))), (301, None)),
            ("blocks", outcome(session.frame, body(messages.piece(0, 0, CONTENT))), (0, kinds.Blocks(0, 0, [None] * 6))),
            ("at last", outcome(session.counts, 0), (0, (15, 6))),
        ])


def test_version():
    """The header, the module and the program have one version."""
    version = run("--version").stdout.decode().split()[1].removesuffix("~dev")
    with open(HEADER, encoding="utf-8") as file:
        number = int(re.search(r"#define BTCHECK_VERSION (\w+)", file.read())[1], 16)
    assert module().version() == version == f"{number >> 16}.{number >> 8 & 255}.{number & 255}", version


def test_refused_torrents():
    for wrong, status in ((b"abc", 102), (b"de", 103), (b"d4:infod12:meta versioni1eee", 105), (TORRENT[:-1], 102)):
        assert outcome(module().Session, wrong) == (status, None), wrong
    assert issubclass(module().TorrentNotBencode, module().TorrentRefused)


def a_record(draw):
    """Frames of which some are false."""
    record = b""
    for _ in range(40):
        kind = draw.randrange(9)
        if kind < 3:
            block = bytearray(draw.choice([*BLOCKS, SMALL]))
            if draw.random() < 0.2:
                block[draw.randrange(len(block))] ^= 1
            record += messages.piece(draw.randrange(5), draw.choice([0, BLOCK, 5]), bytes(block))
        elif kind < 6:
            length = draw.choice([1, 2, 3, 4, 8])
            index = draw.choice([0, 1, 2, 4, 8])
            given = TREE.hashes(0, index, length, 3 - (length.bit_length() - 1)) if index + length <= 8 and index % length == 0 else LEAVES[:2]
            if draw.random() < 0.4:
                given[draw.randrange(len(given))] = draw.choice([bytes(32), b"\2" * 32, LEAVES[0]])
            root = draw.choice([ROOT, ROOT, ROOT, root_of(SMALL), bytes(32)])
            record += messages.hashes(root, 0, index, length, 3, given=given)
        elif kind == 6:
            record += messages.request(ROOT, 0, draw.choice([0, 1, 2, 4]), draw.choice([2, 4, 8]), draw.randrange(4))
        elif kind == 7:
            record += messages.KEEP_ALIVE
        else:
            record += messages.frame(bytes([draw.choice([0, 1, 4, 5])]) + bytes(draw.randrange(7)))
    return record[:-3] if draw.random() < 0.2 else record


def test_records():
    """The program in C prints what `btcheck replay` prints."""
    with folder() as place:
        program, torrent = compiled(place, "replay"), write(f"{place}/t.torrent", TORRENT)
        lines, records = 0, int(os.environ.get("RECORDS", "30"))
        for seed in range(records):
            record = write(f"{place}/record", a_record(random.Random(seed)))
            for flags in ([], ["--info-only"]):
                ours, theirs = run(*flags, torrent, record, program=program), run("replay", torrent, record, *flags)
                assert (ours.returncode, ours.stdout) == (theirs.returncode, theirs.stdout), (seed, flags, ours, theirs)
                lines += ours.stdout.count(b"\n")
    assert lines > 50 * records, lines
    print(f"compared {lines} lines of the program in C with those of replay")


def test_installed():
    """What is installed is found by pkg-config and CMake, and a program that is compiled so runs."""
    made()
    need("pkg-config")
    with folder() as place:
        subprocess.run(["make", "-s", "install-lib", f"DESTDIR={place}", "PREFIX=/usr"], cwd=TOP, check=True, stdout=subprocess.DEVNULL)
        below = f"{place}/usr/lib"
        paths = {**os.environ, "PKG_CONFIG_PATH": f"{below}/pkgconfig", "LD_LIBRARY_PATH": below}
        flags = subprocess.run(["pkg-config", "--cflags", "--libs", "btcheck"], env=paths, check=True, stdout=subprocess.PIPE, text=True)
        subprocess.run(["gcc", f"{SOURCES}/handles.c", *flags.stdout.split(), "-o", f"{place}/handles"], check=True)
        done = run(*arguments(place)["handles"], program=f"{place}/handles", env=paths)
        assert (done.returncode, done.stdout) == (0, b""), done
