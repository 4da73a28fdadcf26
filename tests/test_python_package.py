"""The Python module as a package: `pip install ./bindings/python` with no network, by the backend that lies beside it."""
import os
import re
import subprocess
import sys
import zipfile

from support import LeftOut, TOP, folder, need, write

BUILD = "import sys; sys.path.insert(0, 'backend'); import wheels; print(wheels.{}(sys.argv[1]))"


def built(kind, place):
    """The wheel or the source archive that the backend puts into a folder: its path."""
    os.makedirs(place)
    done = subprocess.run([sys.executable, "-c", BUILD.format(kind), place], cwd=f"{TOP}/bindings/python", capture_output=True,
                          text=True, check=True)
    return os.path.join(place, done.stdout.strip())


def content_of(path):
    with open(path, "rb") as file:
        return file.read()


def test_a_wheel_has_all_of_the_module():
    with folder() as place:
        first, second = built("build_wheel", f"{place}/1"), built("build_wheel", f"{place}/2")
        assert content_of(first) == content_of(second)
        with zipfile.ZipFile(first) as wheel:
            assert wheel.testzip() is None
            packed = {name: wheel.read(name) for name in wheel.namelist()}
        record = next(text for name, text in packed.items() if name.endswith("/RECORD"))
        listed = [line.split(",")[0] for line in record.decode().splitlines()]
        assert listed == list(packed), listed
        module = {name for name in os.listdir(f"{TOP}/bindings/python/btcheck") if not name.startswith("__pycache__")}
        if os.path.exists(f"{TOP}/build/lib/libbtcheck.so.1"):
            module.add("libbtcheck.so.1")
            assert packed["btcheck/libbtcheck.so.1"] == content_of(f"{TOP}/build/lib/libbtcheck.so.1")
        assert {name for name in packed if name.startswith("btcheck/")} == {f"btcheck/{name}" for name in module}


USE = """
import btcheck

with btcheck.Session(b"") as session, btcheck.Check(session, 0) as check:
    ask = session.want(0, 1)
    number: int = ask.index if ask else 0
    bad: int | None = check.finish()
    try:
        session.take_block(0, 0, bytearray(3))
    except btcheck.P4BadBlock as refused:
        number = refused.status
    session.take_block(0, 0, 5)
    session.take_block("0", 0, b"")
    number = session.want(0, 1)
    btcheck.P5
"""


def test_a_type_checker_sees_the_module():
    """mypy finds nothing in it, and in a program that uses it the four lines that are wrong."""
    need("mypy")
    with folder() as place:
        env = {**os.environ, "MYPYPATH": f"{TOP}/bindings/python", "MYPY_CACHE_DIR": f"{place}/cache"}
        done = subprocess.run(["mypy", "--strict", f"{TOP}/bindings/python/btcheck"], capture_output=True, text=True, env=env)
        assert done.returncode == 0, done.stdout
        done = subprocess.run(["mypy", "--strict", write(f"{place}/use.py", USE.encode())], capture_output=True, text=True, env=env)
        found = re.findall(r"use\.py:(\d+): error: .*\[([\w-]+)\]", done.stdout)
        assert found == [("12", "arg-type"), ("13", "arg-type"), ("14", "assignment"), ("15", "attr-defined")], done.stdout


def test_pip_installs_it_without_a_network():
    with folder() as place:
        made = subprocess.run([sys.executable, "-m", "venv", f"{place}/venv"], capture_output=True, text=True)
        if made.returncode:
            raise LeftOut("python3 -m venv")
        pip = [f"{place}/venv/bin/pip", "install", "--no-index", "--disable-pip-version-check", "-q"]
        for package in (f"{TOP}/bindings/python", built("build_sdist", f"{place}/source")):
            done = subprocess.run([*pip, "--force-reinstall", package], capture_output=True, text=True)
            assert done.returncode == 0, done.stderr
            found = subprocess.run([f"{place}/venv/bin/python", "-c",
                                    "import importlib.util as u; print(u.find_spec('btcheck').origin)"],
                                   capture_output=True, text=True, check=True).stdout
            assert found.startswith(place), found
