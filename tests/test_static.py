"""The programs for each kind of processor, with a static C library, and what packs them."""
import glob
import os
import re
import shutil
import subprocess
import sys

from support import BTCHECK, TOP, LeftOut, expect, folder, need, run, write, written
from trees import root_line

sys.path.append(f"{TOP}/bench")

from measuring import measure  # noqa: E402

KINDS = ["x86-64-v2", "x86-64-v3"]
PROGRAMS = [f"build/{kind}/btcheck" for kind in KINDS]
OBJECTS = [f"{program}.o" for program in PROGRAMS]
ARCHIVE = "crates/btcheck_c/out/libbtcheck_c.a"
STATIC, BOTH = f"{TOP}/build/static/btcheck", f"{TOP}/build/both/btcheck"

# How a test hides a feature of the processor from a program: a setting of glibc.
HIDDEN = "GLIBC_TUNABLES"
LESSER = {HIDDEN: "glibc.cpu.hwcaps=-AVX2"}

# What is installed beside the program, the manual and the completions.
DOCUMENTS = ["README.md", "CHANGELOG.md", "LICENSE-MIT", "LICENSE-APACHE", "docs/RECORDING.md", "examples/pair.torrent",
             "tools/record"]


def make(target):
    """Makes this target. It needs a C compiler, the kit, and what `make both lib` leaves."""
    need("make", "gcc", "ld", "objcopy")
    proved = [*OBJECTS, ARCHIVE]
    lacking = [it for it in proved if not os.path.exists(f"{TOP}/{it}")]
    if lacking or not shutil.which("rt"):
        raise LeftOut(f"there is no kit here, or no {' '.join(lacking)}")
    kept = [word for it in [*proved, *PROGRAMS, "build/btcheck"] for word in ("-o", it)]
    subprocess.run(["make", "-s", *kept, target], cwd=TOP, check=True, stdout=subprocess.DEVNULL)


def machine():
    """The kind of processor that is here."""
    return subprocess.run([f"{TOP}/tools/processor"], check=True, stdout=subprocess.PIPE, text=True).stdout.strip()


def test_static():
    """It asks for no library, and runs with nothing else there."""
    make("static")
    assert b"/ld-linux" not in written(STATIC)
    with folder() as place:
        path = write(f"{place}/content", bytes(40000))
        expect(run("root", path, program=STATIC, env={}, cwd="/"), 0, root_line(bytes(40000)))


def picker(place):
    """The start of the program that packs both, with two programs that say which they are in their place."""
    for number in (2, 3):
        write(f"{place}/v{number}.c", b'#include <stdio.h>\nint btcheck_v%d(void) { puts("v%d"); return %d; }' % ((number,) * 3))
    program = f"{place}/picker"
    subprocess.run(["gcc", "-Wall", "-Wextra", "-Werror", "-static", f"{TOP}/packaging/picker.c", f"{place}/v2.c", f"{place}/v3.c",
                    "-o", program], check=True)
    return program


def test_picker():
    """It takes the program for x86-64-v3 where all of that is there, and the other one where any of it is not; and it
    passes the status on."""
    need("gcc")
    with folder() as place:
        program = picker(place)
        if machine() == "x86-64-v3":
            expect(run(program=program, env={}), 3, "v3\n")
        expect(run(program=program, env=LESSER), 2, "v2\n")
        need("qemu-x86_64")
        without = [f"max,-{feature}" for feature in ("avx", "avx2", "bmi1", "bmi2", "f16c", "fma", "abm", "movbe")]
        for processor, number in [("max", 3), ("Nehalem", 2), ("SandyBridge", 2), *((it, 2) for it in without)]:
            expect(run("-cpu", processor, program, program="qemu-x86_64"), number, f"v{number}\n", None)


def test_processor():
    """`make` builds for x86-64-v3 exactly where the processor has AVX2; CPU= decides otherwise."""
    with open("/proc/cpuinfo", encoding="utf-8") as file:
        flags = next((line.split() for line in file if line.startswith("flags")), [])
    assert (machine() == "x86-64-v3") == ("avx2" in flags and "bmi2" in flags and "movbe" in flags)
    need("make")
    for words, env, kind in [([], {}, machine()), ([], LESSER, "x86-64-v2"), (["CPU=x86-64-v3"], LESSER, "x86-64-v3"),
                             (["CPU=x86-64-v2"], {}, "x86-64-v2"), (["CPU="], {}, machine())]:
        printed = subprocess.run(["make", "-n", *words, "-o", f"build/{kind}/alone/btcheck", "build/btcheck"], cwd=TOP,
                                 env={**os.environ, "CPU": "", **env}, check=True, stdout=subprocess.PIPE, text=True).stdout
        assert f"cmp -s build/{kind}/alone/btcheck " in printed, (words, env, printed)


# Calls of the program over the examples; OUT is a file that the call writes.
CALLS = [
    ["--version"], ["--help"], ["root", "abc.txt"], ["root", "pair/a"], ["root", "nothing"], ["show", "pair.torrent"],
    ["show", "--json", "pair.torrent"], ["show", "abc.txt"], ["check", "pair.torrent", "pair"], ["check", "pair.torrent", "."],
    ["check", "--json", "pair.torrent", "pair"], ["replay", "abc.torrent", "abc.record"], ["convert", "abc.record", "OUT"],
    ["create", "pair", "OUT", "--name", "pair", "--piece-length", "32768", "--hybrid"],
    ["replay", "--info-only", "abc.torrent", "abc.record", "--answers", "OUT"],
]


def outcomes(program, place, env):
    """What a program prints and writes in each of the calls."""
    for number, words in enumerate(CALLS):
        out = f"{place}/{number}"
        done = run(*[out if word == "OUT" else word for word in words], program=program, env=env, cwd=f"{TOP}/examples")
        yield words, done.returncode, done.stdout, done.stderr.replace(place.encode(), b""), "OUT" in words and written(out)


def large(program, env):
    """The root of more bytes than eight blocks, which eight blocks at a time are hashed of."""
    return run("root", "/dev/stdin", program=program, env=env, input=bytes(range(256)) * 5000 + b"end")


def test_alone():
    """What `make` builds has the C library inside, does the same to the byte, and takes less than 2 MiB of memory."""
    kind = "x86-64-v2"
    make(f"build/{kind}/alone/btcheck")
    program = f"{TOP}/build/{kind}/alone/btcheck"
    assert b"/ld-linux" not in written(program)
    with folder() as place:
        seen = []
        for way in (BTCHECK, program):
            os.mkdir(f"{place}/{len(seen)}")
            seen.append(list(outcomes(way, f"{place}/{len(seen)}", {})))
        assert seen[0] == seen[1], seen
        os.mkdir(f"{place}/files")
        large_file = f"{place}/files/zeros"
        with open(large_file, "wb") as file:
            file.truncate(256 << 20)
        expect(run("create", f"{place}/files", f"{place}/torrent", "--name", "x", "--piece-length", "1048576"), 0)
        for words in (["root", large_file], ["check", f"{place}/torrent", f"{place}/files"]):
            _, _, peak = measure([program, *words])
            assert 0 < peak < 2048, (words, peak)


def test_both():
    """The program that picks does what each of the two does, to the byte, and is no larger than the two."""
    make("both")
    ways = [(BTCHECK, {}), (BOTH, LESSER), (BOTH, {})]
    if machine() == "x86-64-v3":
        ways.append((f"{TOP}/build/x86-64-v3/btcheck", {}))
    with folder() as place:
        seen = []
        for number, (program, env) in enumerate(ways):
            os.mkdir(f"{place}/{number}")
            seen.append(list(outcomes(program, f"{place}/{number}", env)))
            expect(large(program, env), 0, root_line(bytes(range(256)) * 5000 + b"end"))
        for other in seen[1:]:
            for one, two in zip(seen[0], other):
                assert one == two, (one, two)
    assert b"/ld-linux" not in written(BOTH)
    sizes = {it: os.path.getsize(it) for it in [STATIC, BOTH, *[f"{TOP}/{it}" for it in OBJECTS]] if os.path.exists(it)}
    objects = sum(os.path.getsize(f"{TOP}/{it}") for it in OBJECTS)
    assert sizes[BOTH] < 2_000_000 + objects, sizes
    print("bytes:", ", ".join(f"{os.path.relpath(it, TOP)} {size}" for it, size in sizes.items()))


def test_no_path_in_programs():
    """What is built does not say where: two builds in two folders give the same bytes."""
    seen = 0
    for path in [BTCHECK, STATIC, BOTH, *(f"{TOP}/{it}" for it in OBJECTS), f"{TOP}/build/lib/libbtcheck.so.1"]:
        if os.path.exists(path):
            content, seen = written(path), seen + 1
            for place in (TOP, os.path.expanduser("~") + "/", os.path.dirname(os.path.realpath(shutil.which("rt") or "/rt/rt"))):
                assert os.fsencode(place) not in content, (path, place)
    assert seen > 0


# What a program says on a processor that lacks something.
LACKS = "this machine lacks a feature of {}, which this program was built for"


def refuses(done, kind):
    assert done.returncode == 127 and done.stdout == b"" and LACKS.format(kind).encode() in done.stderr, (kind, done)


def test_lesser_processors():
    """A program for a better processor says so; the one that packs both runs on both kinds."""
    make("both")
    better = f"{TOP}/build/x86-64-v3/btcheck"
    refuses(run("root", "/dev/null", program=better, env=LESSER), "x86-64-v3")
    need("qemu-x86_64")
    for processor in ("Nehalem", "SandyBridge"):
        done = run("-cpu", processor, better, "root", "/dev/null", program="qemu-x86_64")
        refuses(done, "x86-64-v3")
    for processor in ("Nehalem", "SandyBridge", "max"):
        expect(run("-cpu", processor, BOTH, "root", "/dev/null", program="qemu-x86_64"), 0, "0 -\n", None)
    refuses(run("-cpu", "core2duo", BOTH, "root", "/dev/null", program="qemu-x86_64"), "x86-64-v2")


def test_dist():
    """What is packed is whole by its own list, runs, and is the same when it is packed again."""
    make("dist")
    [archive] = glob.glob(f"{TOP}/build/dist/*.tar.gz")
    name = os.path.basename(archive).removesuffix(".tar.gz")
    assert re.fullmatch(r"btcheck-[0-9.]+(~dev)?-linux-x86_64", name), name
    first = written(archive)
    with folder() as place:
        subprocess.run(["tar", "-xzf", archive], cwd=place, check=True)
        below = f"{place}/{name}"
        subprocess.run(["sha256sum", "--check", "--quiet", "--strict", "SHA256SUMS"], cwd=below, check=True)
        listed = {line.split()[1] for line in open(f"{below}/SHA256SUMS", encoding="utf-8")}
        there = {f"{at.replace(below, '.', 1)}/{file}" for at, _, files in os.walk(below) for file in files}
        assert there - listed == {"./SHA256SUMS"} and listed < there, there ^ listed
        documents = {f"./share/doc/btcheck/{file}" for file in DOCUMENTS}
        assert documents | {"./bin/btcheck", "./bin/btcheck-many", "./share/man/man1/btcheck.1"} < listed, listed
        objects = {f"./lib/{it}libbtcheck.{kind}" for it in ("", "glibc-hwcaps/x86-64-v3/") for kind in ("a", "so.1")}
        assert objects | {"./include/btcheck.h", "./lib/pkgconfig/btcheck.pc"} < listed, listed
        for env in ({}, LESSER):
            expect(run("root", "/dev/null", program=f"{below}/bin/btcheck", env=env), 0, "0 -\n")
        for tool in ("share/doc/btcheck/tools/record", "bin/btcheck-many"):
            subprocess.run([f"{below}/{tool}", "--help"], stdout=subprocess.DEVNULL, check=True)
    make("dist")
    assert written(archive) == first


# What a package's folder of its own says is installed there already: all that any of them may depend on to be put in place.
THERE = b"""Package: python3
Status: install ok installed
Architecture: amd64
Maintainer: nobody <nobody@example.org>
Version: 3.11
Description: Python

"""


def installed(package, place):
    """Installs a Debian package in a folder of its own, beside Python; without the rights for that it is only unpacked there."""
    if os.getuid():
        subprocess.run(["dpkg-deb", "-x", package, place], check=True)
        return
    for kind in ("updates", "info"):
        os.makedirs(f"{place}/var/lib/dpkg/{kind}")
    write(f"{place}/var/lib/dpkg/status", THERE)
    subprocess.run(["dpkg", f"--root={place}", "--log=/dev/null", "-i", package], check=True, stdout=subprocess.DEVNULL)


def packages():
    """Each Debian package that is there, by its name, and its bytes."""
    return {os.path.basename(path).partition("_")[0]: written(path) for path in glob.glob(f"{TOP}/build/deb/*.deb")}


def path_of(package):
    [path] = glob.glob(f"{TOP}/build/deb/{package}_*.deb")
    return path


def files_of(package, place):
    """What a package puts in a folder of its own."""
    os.mkdir(f"{place}/{package}")
    installed(path_of(package), f"{place}/{package}")
    return {f"{at.replace(f'{place}/{package}', '', 1)}/{file}" for at, _, files in os.walk(f"{place}/{package}") for file in files}


def see_links(place):
    """Each link of the documents below this folder leads to a file that is there."""
    for page in glob.glob(f"{place}/**/*.md", recursive=True):
        for link in re.findall(r"\]\(([\w./-]+)(?:#[\w-]+)?\)", written(page).decode()):
            assert os.path.exists(os.path.join(os.path.dirname(page), link)), (page, link)


def see_program(place):
    there, below = files_of("btcheck", place), f"{place}/btcheck/usr"
    for env in ({}, LESSER):
        expect(run("root", "/dev/null", program=f"{below}/bin/btcheck", env=env), 0, "0 -\n")
    for tool in ("share/btcheck/record", "bin/btcheck-many"):
        subprocess.run([f"{below}/{tool}", "--help"], stdout=subprocess.DEVNULL, check=True)
    documents = {f"/usr/share/doc/btcheck/{file}" for file in
                 ("README.md", "copyright", "changelog.gz", "changelog.Debian.gz", "docs/RECORDING.md", "examples/pair.torrent")}
    assert documents | {"/usr/bin/btcheck-many", "/usr/share/man/man1/btcheck-many.1.gz",
                        "/usr/share/man/man1/btcheck.1.gz", "/usr/share/bash-completion/completions/btcheck",
                        "/usr/share/fish/vendor_completions.d/btcheck.fish",
                        "/usr/share/zsh/vendor-completions/_btcheck",
                        "/usr/share/zsh/vendor-completions/_btcheck-many"} <= there, there
    see_links(f"{below}/share/doc/btcheck")


def see_library(place):
    """A client is built with the one package and run with the other."""
    for package in ("libbtcheck1", "libbtcheck-dev"):
        subprocess.run(["dpkg-deb", "-x", path_of(package), f"{place}/library"], check=True)
    below, there = f"{place}/library/usr", f"{place}/library/usr/lib/x86_64-linux-gnu"
    packed = f"{below}/share/doc/libbtcheck-dev"
    for name in ("examples/keep/keeper.cpp", "bindings/go/btcheck.go", "bindings/rust/btcheck/src/lib.rs", "bindings/rust/btcheck-sys/build.rs",
                 "bindings/python/backend/wheels.py", "bindings/python/btcheck/__init__.py"):
        assert written(f"{packed}/{name}") == written(f"{TOP}/{name}"), name
    see_links(packed)
    write(f"{place}/client.c", b"""#include <btcheck.h>
        int main(void) { btcheck_root root = BTCHECK_INIT; btcheck_status status = btcheck_root_new(&root);
                         btcheck_root_free(&root); return status != BTCHECK_OK; }""")
    paths = {**os.environ, "PKG_CONFIG_PATH": f"{there}/pkgconfig", "LD_LIBRARY_PATH": there}
    flags = subprocess.run(["pkg-config", "--cflags", "--libs", "btcheck"], env=paths, check=True, stdout=subprocess.PIPE, text=True)
    subprocess.run(["gcc", f"{place}/client.c", *flags.stdout.split(), "-o", f"{place}/client"], check=True)
    expect(run(program=f"{place}/client", env=paths), 0)


def see_module(place):
    """The module finds the library that is unpacked beside it."""
    subprocess.run(["dpkg-deb", "-x", path_of("python3-btcheck"), f"{place}/library"], check=True)
    below = f"{place}/library/usr/lib"
    paths = {**os.environ, "PYTHONPATH": f"{below}/python3/dist-packages", "LD_LIBRARY_PATH": f"{below}/x86_64-linux-gnu"}
    done = run("-c", "import btcheck; print(btcheck.__file__, btcheck.__version__.removesuffix('.dev0') == btcheck.version())", program=sys.executable, env=paths)
    expect(done, 0, f"{below}/python3/dist-packages/btcheck/__init__.py True\n")


def test_deb():
    """The package is installed and runs on both kinds of processors, has what is installed elsewhere, and is the same when
    it is packed again; so are those of the library, with which a client is built, and of its Python module."""
    need("dpkg-deb", "strip", "gcc", "pkg-config")
    make("deb")
    first = packages()
    with folder() as place:
        see_program(place)
        see_library(place)
        see_module(place)
    make("deb")
    assert packages() == first
    need("lintian")
    for package in first:
        subprocess.run(["lintian", "--allow-root", "--fail-on", "error,warning", path_of(package)], check=True)
