"""The files that packages and manuals have beside the sources: the symbols of the library, and a page for each call."""
import os
import re
import shutil
import subprocess

from support import TOP, folder, need, written
from test_names import calls_of_the_header, text_of


def test_symbols():
    """The list for Debian has each call of the library, in order, with the version that brought it."""
    head, *rows = text_of("packaging/symbols").splitlines()
    assert head == "libbtcheck.so.1 libbtcheck1 #MINVER#"
    found = [re.fullmatch(r" btcheck_(\w+)@Base (1\.[0-9]+\.0)", row).groups() for row in rows]
    exports = re.findall(r"^(?:btcheck_status|void|uint32_t) btcheck_(\w+)\(", text_of("bindings/c/btcheck.h"), re.M)
    assert [name for name, _ in found] == sorted(exports), {name for name, _ in found} ^ set(exports)
    built = f"{TOP}/build/lib/libbtcheck.so.1"
    if shutil.which("nm") and os.path.exists(built):
        told = subprocess.run(["nm", "-D", "--defined-only", built], check=True, stdout=subprocess.PIPE, text=True).stdout
        assert set(re.findall(r" T btcheck_(\w+)$", told, re.M)) == set(exports), told


def test_each_call_has_a_page():
    """`make install-lib` makes one that leads to libbtcheck(3), in any folder of libraries; it is gone with the others."""
    need("make")
    with folder() as place:
        library = f"{place}/built/glibc-hwcaps/x86-64-v3"
        os.makedirs(library)
        for where in (library, f"{place}/built"):
            for name in ("libbtcheck.a", "libbtcheck.so.1"):
                with open(f"{where}/{name}", "wb"):
                    pass
        for below, up in (("lib", ".."), ("lib/x86_64-linux-gnu", "../..")):
            given = [f"DESTDIR={place}/a b", "PREFIX=/usr", f"LIBDIR={below}", f"LIB={place}/built"]
            subprocess.run(["make", "-s", "install-lib", *given], cwd=TOP, check=True)
            there = f"{place}/a b/usr"
            pages = {name for name in os.listdir(f"{there}/share/man/man3")}
            assert pages == {f"btcheck_{name}.3" for name in calls_of_the_header()} | {"libbtcheck.3"}, pages
            assert written(f"{there}/share/man/man3/btcheck_session_open.3") == written(f"{TOP}/man/libbtcheck.3")
            assert f"prefix=${{libdir}}/{up}\n" in written(f"{there}/{below}/pkgconfig/btcheck.pc").decode()
            assert os.path.samefile(f"{there}/{below}/{up}", there)
            subprocess.run(["make", "-s", "uninstall-lib", *given], cwd=TOP, check=True)
            assert [name for _, _, names in os.walk(there) for name in names] == []
