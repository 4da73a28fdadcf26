"""A build backend of the standard library alone (PEP 517), so that `pip install ./bindings/python` needs no network.

A wheel is the package's files and three lists (PEP 427). If the C library is built, by `make lib` or as the variable
LIBBTCHECK names it, a wheel has it beside them, for this kind of processor; else it is pure Python. Times are fixed, so
that the same files give the same wheel.
"""
import base64
import hashlib
import io
import os
import sysconfig
import tarfile
import zipfile

NAME = "btcheck"
FILES = [f"btcheck/{name}" for name in sorted(os.listdir("btcheck")) if name.endswith((".py", ".typed"))]
SOURCES = [*FILES, "README.md", "pyproject.toml", "backend/wheels.py"]
LIBRARY = os.environ.get("LIBBTCHECK") or "../../build/lib/libbtcheck.so.1"


def content_of(path):
    with open(path, "rb") as file:
        return file.read()


def field(key):
    """A text of the table [project]: the lines of pyproject.toml are simple, and Python 3.9 cannot read TOML."""
    for line in content_of("pyproject.toml").decode().splitlines():
        name, _, value = line.partition(" = ")
        if name == key:
            return value.strip('"')
    raise KeyError(key)


def metadata():
    lines = ["Metadata-Version: 2.1", f"Name: {NAME}", f"Version: {field('version')}", f"Summary: {field('description')}",
             f"Requires-Python: {field('requires-python')}", "Description-Content-Type: text/markdown"]
    return "\n".join(lines) + "\n\n" + content_of("README.md").decode()


def record(files):
    """The list of a wheel's files with their digests; its own line has none."""
    rows = []
    for path, content in files.items():
        digest = base64.urlsafe_b64encode(hashlib.sha256(content).digest()).rstrip(b"=").decode()
        rows.append(f"{path},sha256={digest},{len(content)}\n")
    return "".join(rows)


def build_wheel(wheel_directory, config_settings=None, metadata_directory=None):
    info = f"{NAME}-{field('version')}.dist-info"
    files = {path: content_of(path) for path in FILES}
    tag = "py3-none-any"
    if os.path.exists(LIBRARY):
        tag = "py3-none-" + sysconfig.get_platform().replace("-", "_").replace(".", "_")
        files[f"{NAME}/libbtcheck.so.1"] = content_of(LIBRARY)
    is_pure = "true" if tag.endswith("any") else "false"
    files[f"{info}/METADATA"] = metadata().encode()
    files[f"{info}/WHEEL"] = f"Wheel-Version: 1.0\nGenerator: btcheck\nRoot-Is-Purelib: {is_pure}\nTag: {tag}\n".encode()
    files[f"{info}/RECORD"] = (record(files) + f"{info}/RECORD,,\n").encode()
    name = f"{NAME}-{field('version')}-{tag}.whl"
    with zipfile.ZipFile(os.path.join(wheel_directory, name), "w", zipfile.ZIP_DEFLATED) as wheel:
        for path, content in files.items():
            entry = zipfile.ZipInfo(path)
            entry.external_attr = 0o100644 << 16
            wheel.writestr(entry, content, zipfile.ZIP_DEFLATED)
    return name


def build_sdist(sdist_directory, config_settings=None):
    top = f"{NAME}-{field('version')}"
    with tarfile.open(os.path.join(sdist_directory, f"{top}.tar.gz"), "w:gz", format=tarfile.PAX_FORMAT) as archive:
        files = {path: content_of(path) for path in SOURCES}
        files["PKG-INFO"] = metadata().encode()
        for path, content in files.items():
            entry = tarfile.TarInfo(f"{top}/{path}")
            entry.size, entry.mode = len(content), 0o644
            archive.addfile(entry, io.BytesIO(content))
    return f"{top}.tar.gz"
