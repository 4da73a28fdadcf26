"""The code of README.md and of docs/LIBRARY.md: compiled and run over the C library, on the torrents of the examples."""
import os
import re
import shutil
import subprocess
import sys

import messages
from support import INCLUDES, TOP, LeftOut, folder, need, run, write
from test_library_c import LIB, WARNINGS, made
from trees import Tree

sys.path.append(f"{TOP}/tools")

import kit  # noqa: E402

MAIN = r"""
#include <stdio.h>
static size_t all_of(const char *path, uint8_t *bytes, size_t room) {
  FILE *in = fopen(path, "rb");
  size_t len = in ? fread(bytes, 1, room, in) : 0;
  return in ? fclose(in), len : 0;
}
int main(void) {
  static uint8_t torrent[4096], piece[40000];
  size_t len = all_of("pair.torrent", torrent, sizeof torrent), size = all_of("pair/a", piece, sizeof piece);
  int is = is_piece(torrent, len, 0, piece, size);
  piece[0] ^= 1;
  return printf("%d %d %d\n", is, is_piece(torrent, len, 0, piece, size), is_piece(torrent, len, 1, piece, size)) < 0;
}
"""


def blocks(page, language):
    with open(f"{TOP}/{page}", encoding="utf-8") as file:
        return re.findall(rf"^```{language}\n(.*?)^```$", file.read(), re.M | re.S)


def is_piece_in(language):
    """The function `is_piece` of LIBRARY, which has it in C and in Rattle."""
    [found] = [it for it in blocks("docs/LIBRARY.md", language) if re.search(r"\bis_piece\(", it)]
    return found


MAIN_IN_RATTLE = """
use std::fs;
use std::io;

fn is_piece_of(alloc: Global, torrent: &[u8], index: u32, piece: &[u8]) -> Result<bool, NoMemory> {
    match Torrent::open(alloc, torrent) {
        Ok(torrent) => is_piece(alloc, &torrent, index, piece),
        Err(_) => Ok(false),
    }
}

fn main(rt: HostRuntime) -> io::Result<()> {
    let torrent = fs::read(&rt, "pair.torrent")?;
    let piece = fs::read(&rt, "pair/a")?;
    let own = is_piece_of(rt.alloc(), &torrent, 0, &piece)?;
    let another = is_piece_of(rt.alloc(), &torrent, 1, &piece)?;
    println!(rt; "{own} {another}")
}
"""


def test_the_code_in_rattle():
    """It is proved over the libraries that are proved here, compiled and run. Of those no program needs the facade `metainfo`,
    which re-exports `Torrent` from `opening`."""
    need(os.environ.get("RT", "rt"))
    with open(f"{TOP}/crates/metainfo/src/lib.rt", encoding="utf-8") as file:
        assert re.search(r"^pub use opening::\{[^}]*\bTorrent\b", file.read(), re.M)
    uses = {**kit.crates(), "piece": ["opening", "session"]}
    for library in kit.below("piece", uses):
        if not os.path.exists(f"{kit.rlib(library)}/format"):
            raise LeftOut(f"{library} is not proved here: make proves it")
    with folder() as place:
        program, text = f"{place}/piece", is_piece_in("rust").replace("use metainfo::Torrent;", "use opening::Torrent;")
        source = write(f"{place}/main.rt", ("#![tactic(auto)]\n\n" + text + MAIN_IN_RATTLE).encode())
        built = ["--jobs", "1", "--toolchain", f"{kit.KIT}/toolchain", "--cpu=x86-64-v2", "-o", f"{program}.o"]
        for words in (kit.command_over("piece", uses, source, *built), kit.linking(program)):
            done = run(*words[1:], program=words[0], cwd=place, stderr=subprocess.STDOUT)
            assert done.returncode == 0, done.stdout.decode()
        done = run(program=program, cwd=f"{TOP}/examples")
        assert (done.returncode, done.stdout) == (0, b"true false\n"), done


def test_the_code_in_c():
    need("gcc")
    made()
    with folder() as place:
        source = write(f"{place}/piece.c", (is_piece_in("c") + MAIN).encode())
        subprocess.run(["gcc", "-std=c99", *WARNINGS, *INCLUDES, source, f"{LIB}/libbtcheck.a", "-o", f"{place}/piece"],
                       check=True)
        done = run(program=f"{place}/piece", cwd=f"{TOP}/examples")
        assert (done.returncode, done.stdout) == (0, b"1 0 0\n"), done


def test_the_first_program_of_library():
    """It verifies a block, refuses another one, and says why a torrent is none. All other code in C of the page compiles."""
    need("gcc")
    made()
    first, *others = blocks("docs/LIBRARY.md", "c")
    with folder() as place:
        source = write(f"{place}/first.c", first.encode())
        subprocess.run(["gcc", "-std=c99", *WARNINGS, *INCLUDES, source, f"{LIB}/libbtcheck.a", "-o", f"{place}/first"], check=True)
        for other in others:
            source = write(f"{place}/other.c", b"#include <btcheck.h>\n#include <stdio.h>\n" + other.encode())
            subprocess.run(["gcc", "-std=c99", *WARNINGS, "-Wno-unused-function", *INCLUDES, "-fsyntax-only", source], check=True)
        for torrent, block, status, said in (("abc.torrent", b"abc", 0, b"block 0 of file 0\n"), ("abc.torrent", b"abd", 1, b"refused P4\n"),
                                             ("abc.txt", b"abc", 1, b"refused 102\n")):
            shutil.copy(f"{TOP}/examples/{torrent}", f"{place}/a.torrent")
            done = run(program=f"{place}/first", cwd=place, input=block)
            assert (done.returncode, done.stdout) == (status, said), (torrent, block, done)


MAIN_OF_FRAMES = r"""
int main(void) {
  static uint8_t torrent[4096], content[40000];
  btcheck_session session = BTCHECK_INIT;
  btcheck_ask wanted;
  uint64_t file, block;
  FILE *in = fopen("pair.torrent", "rb"), *of_a = fopen("pair/a", "rb");
  size_t len = fread(torrent, 1, sizeof torrent, in), size = fread(content, 1, sizeof content, of_a);
  if (btcheck_session_open(&session, torrent, len, true) != BTCHECK_OK) return 1;
  if (btcheck_session_want(&session, 0, 1, &wanted) != BTCHECK_OK) return 1;
  if (!ask(&session, 0, 1, stdout) || !reply(&session, &wanted, stdout)) return 1;
  if (btcheck_session_take_piece(&session, 0, content, size, &file, &block) != BTCHECK_OK) return 1;
  if (ask(&session, 0, 1, stdout) || !reply(&session, &wanted, stdout) || !bitfield(&session, stdout)) return 1;
  return where(&session, 0, 16384), where(&session, 0, 16385), 0;
}
"""


def test_the_frames_and_places_of_library():
    """What LIBRARY says of frames, places and the bitfield: run on the torrent of the examples, the bytes are a request, a
    reject, hashes and a bitfield."""
    need("gcc")
    made()
    found = [it for it in blocks("docs/LIBRARY.md", "c") if "int reply(" in it or "void where(" in it]
    with folder() as place:
        source = write(f"{place}/frames.c", ("#include <btcheck.h>\n#include <stdio.h>\n" + "".join(found) + MAIN_OF_FRAMES).encode())
        subprocess.run(["gcc", "-std=c99", *WARNINGS, *INCLUDES, source, f"{LIB}/libbtcheck.a", "-o", f"{place}/frames"], check=True)
        done = run(program=f"{place}/frames", cwd=f"{TOP}/examples")
    with open(f"{TOP}/examples/pair/a", "rb") as file:
        tree = Tree.of(file.read())
    asked = (tree.layers[-1][0], 0, 0, 2, 0)
    wanted = [messages.request(*asked), messages.reject(*asked), messages.hashes(*asked, given=tree.layers[0]), messages.frame(b"\5\x80"),
              b"piece 0 of 16385 bytes from byte 16384 on; 2 of 2 blocks\n"]
    assert (done.returncode, done.stdout) == (0, b"".join(wanted)), done


def test_the_code_in_cpp():
    need("g++")
    made()
    [code] = blocks("docs/LIBRARY.md", "cpp")
    main = """
#include <fstream>
#include <iterator>
int main() {
  std::ifstream in("abc.torrent", std::ios::binary);
  btcheck::Session session(std::string{std::istreambuf_iterator<char>(in), {}});
  tell(session, 0, 0, "abc"), tell(session, 0, 0, "abd");
}
"""
    with folder() as place:
        source = write(f"{place}/tell.cpp", (code + main).encode())
        subprocess.run(["g++", "-std=c++17", *WARNINGS, *INCLUDES, source, f"{LIB}/libbtcheck.a", "-o", f"{place}/tell"], check=True)
        done = run(program=f"{place}/tell", cwd=f"{TOP}/examples")
        assert (done.returncode, done.stdout) == (0, b"block 0 of file 0\nThe bytes are not that block or piece of the torrent.\n"), done


def test_the_code_in_python():
    made()
    [code] = blocks("README.md", "python")
    env = {**os.environ, "PYTHONPATH": f"{TOP}/bindings/python", "LIBBTCHECK": f"{LIB}/libbtcheck.so.1"}
    done = subprocess.run([sys.executable, "-c", code], cwd=f"{TOP}/examples", env=env, stdout=subprocess.PIPE, text=True)
    assert (done.returncode, done.stdout) == (0, "True\n"), done
