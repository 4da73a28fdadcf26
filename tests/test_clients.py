"""Clients of the C library in other languages: in C++, in Rust, in Go, and a program in C++ that stands between libtorrent and its
peers and keeps what is verified."""
import functools
import glob
import json
import os
import re
import subprocess

from support import INCLUDES, TOP, LeftOut, expect, folder, need, python_with_libtorrent, run, write, written
from test_library_c import LIB, made
from test_libtorrent import World
from trees import BLOCK


def quietly(command, **options):
    """Runs a command, and prints what it says only if it fails."""
    done = subprocess.run(command, stdout=subprocess.PIPE, stderr=subprocess.STDOUT, text=True, **options)
    assert done.returncode == 0, f"{command} ended with {done.returncode}:\n{done.stdout[-4000:]}"
    return done.stdout


def sizes_in_c():
    """The sizes of the header's structs."""
    structs = ["btcheck_" + it for it in ("root", "session", "ask", "file", "blocks", "verdict", "check", "holdings", "run", "held", "draft", "draft_file", "piece", "piece_range", "taken")]
    with folder() as place:
        said = ", ".join(f"sizeof({it})" for it in structs)
        shown = " ".join("%zu" for _ in structs)
        write(f"{place}/sizes.c", f'#include <btcheck.h>\n#include <stdio.h>\nint main(void) {{ printf("{shown}", {said}); }}'.encode())
        quietly(["gcc", *INCLUDES, f"{place}/sizes.c", "-o", f"{place}/sizes"])
        return quietly([f"{place}/sizes"])


def test_rust():
    """The crates are built with the shared object and with the static library, and their tests pass."""
    need("cargo", "gcc")
    made()
    sizes = sizes_in_c()
    tests = [written(path).count(b"#[test]") for path in glob.glob(f"{TOP}/bindings/rust/btcheck/tests/*.rs")]
    for static in ("0", "1"):
        env = {**os.environ, "BTCHECK_LIB_DIR": LIB, "BTCHECK_STATIC": static, "LD_LIBRARY_PATH": LIB,
               "CARGO_TARGET_DIR": f"{TOP}/build/rust", "RUSTFLAGS": "-D warnings", "BTCHECK_SIZES": sizes}
        told = quietly(["cargo", "test", "--offline", "--quiet"], cwd=f"{TOP}/bindings/rust", env=env)
        assert all(f"{count} passed; 0 failed" in told for count in tests) and "FAILED" not in told, told


def test_go():
    """The package is built by cgo as it is installed, and its tests pass."""
    need("go", "gcc", "pkg-config", "make")
    made()
    with folder() as place:
        quietly(["make", "-s", "install-lib", f"DESTDIR={place}", "PREFIX=/usr"], cwd=TOP)
        env = {**os.environ, "PKG_CONFIG_PATH": f"{place}/usr/lib/pkgconfig", "LD_LIBRARY_PATH": f"{place}/usr/lib",
               "GOCACHE": f"{place}/go", "GOPROXY": "off", "GOFLAGS": "-mod=mod", "CGO_ENABLED": "1"}
        for words in (["go", "vet", "./..."], ["go", "test", "-count=1", "./..."]):
            quietly(words, cwd=f"{TOP}/bindings/go", env=env)


def test_cpp():
    """The classes for C++: each call, what is thrown, and what was moved."""
    need("g++")
    made()
    with folder() as place:
        quietly(["g++", "-std=c++17", "-O1", "-Wall", "-Wextra", "-pedantic", "-Werror", "-fsanitize=address,undefined",
                 *INCLUDES, f"{TOP}/tests/clients/classes.cpp", f"{LIB}/libbtcheck.a", "-o", f"{place}/classes"])
        assert quietly([f"{place}/classes", f"{TOP}/examples/pair.torrent", f"{TOP}/examples/pair/a"]) == ""


def need_libtorrent():
    need("g++")
    python_with_libtorrent()


@functools.cache
def program(place):
    """The client in C++, with the static library."""
    made()
    sources = sorted(glob.glob(f"{TOP}/examples/keep/*.cpp"))
    quietly(["g++", "-std=c++17", "-O1", "-Wall", "-Wextra", "-pedantic", "-Werror", "-fsanitize=address,undefined",
             *INCLUDES, *sources, f"{LIB}/libbtcheck.a", "-o", f"{place}/keep"])
    return f"{place}/keep"


# Names and lengths: whole blocks alone, a last block that is shorter, a file of a few bytes, and an
# empty one.
FILES = [("a", 600 * BLOCK + 5), ("b", 3 * BLOCK), ("c", 10), ("d", BLOCK), ("e", 7 * BLOCK + 100), ("f", 0)]


def kept(world, keep, number, info_only, lies, hides, asks):
    """How the client ends between libtorrent and its peers, and the folder that it has written to."""
    place = f"{world.place}/{number}"
    os.makedirs(f"{place}/loaded")
    os.makedirs(f"{place}/loaded-again")
    order = {"content": f"{world.place}/content", "torrent": world.torrent, "loaded": f"{place}/loaded", "program": keep,
             "kept": f"{place}/kept", "info_only": info_only, "lies": lies, "hides": hides, "asks": asks}
    done = subprocess.run([python_with_libtorrent(), f"{TOP}/tests/keeping.py"], input=json.dumps(order), stdout=subprocess.PIPE,
                          stderr=subprocess.PIPE, text=True, timeout=300)
    return (json.loads(done.stdout) if done.returncode == 0 else None), f"{place}/kept", done.stderr


def see_nothing_false(world, folder):
    """Each block that was written is that of the content; what was not is a hole of zeros, or lies behind the end."""
    for name, content in world.files:
        seen = written(f"{folder}/{name}")
        assert len(seen) <= len(content), name
        for at in range(0, len(seen), BLOCK):
            block = seen[at:at + BLOCK]
            assert block == content[at:at + BLOCK] or not any(block), (name, at)


def refusals(said):
    """How often the client met each refusal, by the end of its last line."""
    return {name: int(count) for name, count in re.findall(r", ([HP][0-9]) ([0-9]+)", said)}


def see_all(world, keep, info_only, lies, hides=False, asks=False):
    """The client ends with all that is true, and without anything else. Tried three times, since libtorrent may give a
    connection up; nothing false is written each time."""
    for number in range(3):
        outcome, folder, fault = kept(world, keep, number, info_only, lies, hides, asks)
        see_nothing_false(world, folder)
        if outcome and outcome["status"] == 0:
            break
    assert outcome and outcome["status"] == 0, (outcome, fault)
    for name, content in world.files:
        assert written(f"{folder}/{name}") == content, name
    counts, blocks = refusals(outcome["said"]), sum(-(-length // BLOCK) for _, length in FILES)
    assert f"written {blocks} of {blocks}," in outcome["said"], outcome
    if lies:
        assert (counts.get("H6", 0) > 0 or not asks) and set(counts) <= {"H2", "H6", "P1", "P2", "P4"}, outcome
    else:
        assert not counts and ", false 0," in outcome["said"], outcome
    return outcome


def test_keep():
    """From a true peer, with and without the torrent's piece layers, of version 2 and of a hybrid; and from a liar too. Blocks
    are judged by their pieces, or one by one if the client asks peers for hashes."""
    need_libtorrent()
    ways = [(BLOCK, False, False, False), (4 * BLOCK, False, True, False), (4 * BLOCK, True, False, False),
            (2 * BLOCK, False, False, True), (4 * BLOCK, False, True, True), (4 * BLOCK, True, False, True)]
    lies = 0
    with folder() as place:
        keep = program(place)
        for number, (piece_length, hybrid, info_only, with_liar) in enumerate(ways):
            os.mkdir(f"{place}/{number}")
            world = World(f"{place}/{number}", FILES, piece_length, hybrid, number)
            outcome = see_all(world, keep, info_only, with_liar, asks=number % 2 == 1)
            lies += outcome["blocks"]
    assert lies > 0, "no block was false"


def test_keep_of_many_lies():
    """Half of all blocks are false, and libtorrent does not see it, so that the client alone keeps them out. It asks for hashes:
    by whole pieces a false block takes the good ones of its piece with it, and nobody would ask for these again."""
    need_libtorrent()
    with folder() as place:
        world = World(place, FILES, 4 * BLOCK, False, 20)
        outcome = see_all(world, program(place), False, True, True, asks=True)
        refused, false = refusals(outcome["said"]), int(re.search(r", false (\d+)", outcome["said"])[1])
        assert outcome["blocks"] > 250 and sum(refused.get(name, 0) for name in ("P1", "P2", "P4")) + false > 250, outcome


def test_keep_refuses():
    """A torrent that is refused, a file that is there already, and wrong words."""
    need("g++")
    with folder() as place:
        keep = program(place)
        pair, there = f"{TOP}/examples/pair.torrent", f"{place}/there"
        expect(run(program=keep), 2, b"", None)
        expect(run(f"{TOP}/examples/abc.txt", there, "1", "127.0.0.1:1", program=keep), 2, b"", "fault: refused: The bytes are not canonical bencoding: BadStart at byte 0.\n")
        done = run(pair, there, "0", "127.0.0.1:1", program=keep)
        assert done.returncode == 1 and b"written 0 of 3," in done.stdout and done.stderr == b"", done
        expect(run(pair, there, "0", "127.0.0.1:1", program=keep), 2, b"", f"fault: {there}/a: File exists\n")
