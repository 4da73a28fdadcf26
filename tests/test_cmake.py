"""The file for CMake: `find_package(btcheck)` where `make install` put it."""
import os
import shutil
import subprocess

from support import TOP, folder, need, write, written

PROJECT = b"""cmake_minimum_required(VERSION 3.13)
project(first C)
find_package(btcheck 0.1 REQUIRED)
add_executable(first first.c)
target_link_libraries(first btcheck::btcheck)
get_target_property(folders btcheck::btcheck INTERFACE_INCLUDE_DIRECTORIES)
file(WRITE ${CMAKE_BINARY_DIR}/told "${btcheck_VERSION} ${folders}")
"""


def test_find_package_where_lib_is_a_link():
    """Where /lib leads to /usr/lib, and CMake looks below / first, as with PATH=/bin:/usr/bin, it finds /usr/include."""
    need("cmake", "gcc", "make")
    with folder() as place:
        files = f"{place}/usr/lib/cmake/btcheck"
        os.makedirs(files)
        os.makedirs(f"{place}/usr/include")
        os.symlink("usr/lib", f"{place}/lib")
        shutil.copy(f"{TOP}/bindings/c/btcheck.h", f"{place}/usr/include")
        write(f"{files}/btcheck-config.cmake", written(f"{TOP}/bindings/c/btcheck-config.cmake.in").replace(b"@UP@", b".."))
        of_version = written(f"{TOP}/bindings/c/btcheck-config-version.cmake.in")
        write(f"{files}/btcheck-config-version.cmake", of_version.replace(b"@VERSION@", b"1.0.0"))
        os.mkdir(f"{place}/first")
        write(f"{place}/first/CMakeLists.txt", PROJECT)
        write(f"{place}/first/first.c", b"#include <btcheck.h>\nint main(void) { return 0; }\n")
        for below in (f"{place}/lib", f"{place}/usr/lib"):
            built = f"{place}/built{below.count('/')}"
            subprocess.run(["cmake", "-S", f"{place}/first", "-B", built, f"-Dbtcheck_DIR={below}/cmake/btcheck"],
                           check=True, stdout=subprocess.DEVNULL)
            assert written(f"{built}/told").decode() == f"1.0.0 {os.path.realpath(place)}/usr/include", written(f"{built}/told")
