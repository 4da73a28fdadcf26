"""The small clients of tests/clients, two for each language. One loads a torrent from two peers, one of them a liar, block by
block in random order. It verifies every block and refuses each lie. The other one serves the hashes of files that it has, or
learns all leaves from one that does: Python talks with each of the other languages, both ways."""
import os
import random
import shutil
import socket
import struct
import subprocess
import sys
import threading

from session_model import RANGE
from support import INCLUDES, TOP, folder, need, run, write, written
from test_clients import quietly
from test_library_c import LIB, WARNINGS, made
from torrents import file, info, torrent, torrent_of
from trees import BLOCK, Tree, layer, root_of

SOURCES = f"{TOP}/tests/clients"
SIZES = [("a", 300 * BLOCK + 5), ("b", 3 * BLOCK), ("c", 10), ("d", 30 * BLOCK + 100), ("e", 0), ("f", 4 * BLOCK)]
PIECE = 4 * BLOCK
CONTENTS = [random.Random(name).randbytes(length) for name, length in SIZES]
BLOCKS = sum(-(-length // BLOCK) for _, length in SIZES)


def torrent_of_all():
    files = {name: file(content) for (name, _), content in zip(SIZES, CONTENTS)}
    layers = {root_of(content): layer(content, PIECE // BLOCK) for content in CONTENTS if len(content) > PIECE}
    return torrent(info(files, PIECE), layers)


class Peer(threading.Thread):
    """Answers requests for hashes and blocks of the torrent; a liar turns a bit of all hashes and of every second block, and
    counts these."""

    def __init__(self, seed=None):
        super().__init__(daemon=True)
        self.draw = random.Random(seed) if seed is not None else None
        self.trees = {root_of(content): Tree.of(content) for content in CONTENTS if content}
        self.pieces = {}
        for content in CONTENTS:
            for at in range(0, len(content), PIECE):
                self.pieces[len(self.pieces)] = content[at:at + PIECE]
        self.lies = {21: 0, 6: 0}
        self.count = 0
        self.listener = socket.create_server(("127.0.0.1", 0))
        self.port = self.listener.getsockname()[1]

    def run(self):
        stream = self.listener.accept()[0].makefile("rwb")
        greeting = stream.read(68)
        stream.write(greeting)
        stream.flush()
        while size := stream.read(4):
            answer = self.answer(stream.read(struct.unpack(">I", size)[0]))
            stream.write(struct.pack(">I", 0) + struct.pack(">I", len(answer)) + answer)  # a keep-alive before each
            stream.flush()

    def answer(self, body):
        if body[0] == 21:
            root, (base, index, length, proof) = body[1:33], struct.unpack(">4I", body[33:])
            tree = self.trees[root]
            uncles = max(0, proof - length.bit_length() + 2)
            return bytes([22]) + body[1:] + self.changed(21, b"".join(tree.hashes(base, index, length, uncles)))
        index, begin, size = struct.unpack(">3I", body[1:])
        return bytes([7]) + body[1:9] + self.changed(6, self.pieces[index][begin:begin + size])

    def changed(self, kind, content):
        self.count += kind == 6
        if self.draw is None or kind == 6 and self.count % 2:
            return content
        self.lies[kind] += 1
        at = self.draw.randrange(len(content))
        return content[:at] + bytes([content[at] ^ 1 << self.draw.randrange(8)]) + content[at + 1:]


def loads(program, *words, seed, env=None):
    """The client says how many lies it met, which are those that were told, and has all of the content."""
    with folder() as place:
        path, out = write(f"{place}/torrent", torrent_of_all()), f"{place}/out"
        peers = [Peer(), Peer(seed)]
        for peer in peers:
            peer.start()
        done = run(*words, path, out, str(seed), *(str(peer.port) for peer in peers), program=program, timeout=120, env=env)
        lies = peers[1].lies
        wanted = f"verified {BLOCKS} of {BLOCKS}, refused {lies[21]} hashes and {lies[6]} blocks\n"
        assert (done.returncode, done.stdout.decode(), done.stderr) == (0, wanted, b""), (done, wanted)
        assert lies[6] > 40 and written(out) == b"".join(CONTENTS)
        return lies[21]


def each_seed(*given, **options):
    """Three orders of the blocks; in one of them at least the liar was asked for hashes."""
    assert sum(loads(*given, seed=seed, **options) for seed in range(3)) > 0


def paths():
    return {**os.environ, "LD_LIBRARY_PATH": LIB, "PYTHONPATH": f"{TOP}/bindings/python", "LIBBTCHECK": f"{LIB}/libbtcheck.so.1"}


# ---- a program of each language


def paths():
    return {**os.environ, "LD_LIBRARY_PATH": LIB, "PYTHONPATH": f"{TOP}/bindings/python", "LIBBTCHECK": f"{LIB}/libbtcheck.so.1"}


def in_c(place, name):
    need("gcc")
    made()
    quietly(["gcc", "-std=gnu99", "-O1", *WARNINGS, "-fsanitize=address,undefined", *INCLUDES, f"{SOURCES}/{name}.c",
             f"{LIB}/libbtcheck.a", "-o", f"{place}/{name}"])
    return [f"{place}/{name}"], paths()


def in_cpp(place, name):
    need("g++")
    made()
    quietly(["g++", "-std=c++17", "-O1", *WARNINGS, "-fsanitize=address,undefined", *INCLUDES, f"{SOURCES}/{name}.cpp",
             f"{LIB}/libbtcheck.a", "-o", f"{place}/{name}"])
    return [f"{place}/{name}"], paths()


def in_python(_, name):
    made()
    return [sys.executable, f"{SOURCES}/{name}.py"], paths()


def in_rust(place, name):
    """Over the crate, by its path."""
    need("cargo", "gcc")
    made()
    os.makedirs(f"{place}/src")
    shutil.copy(f"{SOURCES}/{name}.rs", f"{place}/src/main.rs")
    write(f"{place}/Cargo.toml", f'[package]\nname = "{name}"\nversion = "0.0.0"\nedition = "2021"\n'
          f'[dependencies]\nbtcheck = {{ path = "{TOP}/bindings/rust/btcheck" }}\n'.encode())
    env = {**paths(), "BTCHECK_LIB_DIR": LIB, "CARGO_TARGET_DIR": f"{TOP}/build/rust", "RUSTFLAGS": "-D warnings"}
    quietly(["cargo", "build", "--offline", "--quiet"], cwd=place, env=env)
    return [f"{TOP}/build/rust/debug/{name}"], env


def in_go(place, name):
    """Over the package, by a `replace` line as bindings/go/README.md has it."""
    need("go", "gcc", "pkg-config", "make")
    made()
    quietly(["make", "-s", "install-lib", f"DESTDIR={place}", "PREFIX=/usr"], cwd=TOP)
    os.makedirs(f"{place}/{name}")
    shutil.copy(f"{SOURCES}/{name}.go", f"{place}/{name}/main.go")
    write(f"{place}/{name}/go.mod", f"module {name}\n\ngo 1.19\n\nrequire tanagernail.example/btcheck v0.0.0\nreplace tanagernail.example/btcheck => {TOP}/bindings/go\n".encode())
    env = {**paths(), "PKG_CONFIG_PATH": f"{place}/usr/lib/pkgconfig", "GOCACHE": f"{place}/go", "GOPROXY": "off", "CGO_ENABLED": "1"}
    quietly(["go", "build", "-o", f"{place}/run"], cwd=f"{place}/{name}", env=env)
    return [f"{place}/run"], env


def loads_in(language):
    with folder() as place:
        (program, *words), env = language(place, "client")
        each_seed(program, *words, env=env)


def test_client_in_c():
    loads_in(in_c)


def test_client_in_cpp():
    loads_in(in_cpp)


def test_client_in_python():
    loads_in(in_python)


def test_rust_client():
    loads_in(in_rust)


def test_go_client():
    loads_in(in_go)


# ---- hashes of files that a client has

# The sizes of the files of a torrent, in blocks, and its piece length: ends of files in, at and behind a range of 512.
WORLDS = [((1, 2, 3), 2 * BLOCK), ((5, 33), BLOCK), ((65, 9), 4 * BLOCK), ((513,), 4 * BLOCK), ((700, 100), 64 * BLOCK)]


def exchanged(server, learner, env):
    """The server takes all pieces, whole or block by block, and the learner asks it for each leaf: once for each range of a
    file of more than one block."""
    with folder() as place:
        for sizes, piece_length in WORLDS:
            files = [(f"f{at}", random.Random(size).randbytes((size - 1) * BLOCK + 5)) for at, size in enumerate(sizes)]
            path = write(f"{place}/torrent", torrent_of(files, piece_length))
            content = write(f"{place}/content", b"".join(content for _, content in files))
            asked = sum(-(-size // RANGE) for size in sizes if size > 1)
            for way in ("pieces", "blocks"):
                serving = subprocess.Popen([*server, "serve", path, content, way], stdin=subprocess.PIPE, stdout=subprocess.PIPE, env=env)
                learning = subprocess.Popen([*learner, "learn", path], stdin=serving.stdout, stdout=serving.stdin,
                                            stderr=subprocess.PIPE, env=env)
                serving.stdin.close()
                serving.stdout.close()
                _, said = learning.communicate(timeout=120)
                assert (learning.returncode, said.decode()) == (0, f"asked {asked}\n"), (sizes, way, said)
                assert serving.wait(timeout=120) == 0, (sizes, way)


def exchanges_with(language):
    with folder() as place:
        program, env = language(place, "exchange")
        python, _ = in_python(place, "exchange")
        exchanged(program, python, env)
        exchanged(python, program, env)


def test_exchange_with_c():
    exchanges_with(in_c)


def test_exchange_with_cpp():
    exchanges_with(in_cpp)


def test_exchange_with_rust():
    exchanges_with(in_rust)


def test_exchange_with_go():
    exchanges_with(in_go)
