#!/usr/bin/env python3
"""tests/promised.py [--write]: what docs/STABILITY.md promises, a line for each thing: commands, options, printed lines, exit
statuses, keys of JSON, the calls, numbers and structs of the C library, and the bytes of records.

Prints what tests/promised.txt lacks or has too much; the status is 1 if there is such a line. With --write it writes that
file anew. From version 1.0.0 on, what is in it stays in it, so that the test fails until the thing is back.
"""
import os
import re
import sys

from support import TOP
from test_manual import PRINTED, flags, part

LIST = f"{TOP}/tests/promised.txt"
HEADER = "bindings/c/btcheck.h"


def text_of(path):
    with open(f"{TOP}/{path}", encoding="utf-8") as file:
        return file.read()


def commands():
    """Each command with its arguments, and each of its options, as the manual page has them."""
    manual = text_of("man/btcheck.1")
    entries = "\n" + part(manual, "The commands are:", "The options are:")
    at_top = part(manual, "The options are:", ".Ss")
    yield from (f"option {option}" for option in flags("\n".join(re.findall(r"^\.It (Fl .*)$", at_top, re.M))) - {"--"})
    for entry in entries.split("\n.It Cm ")[1:]:
        name, head = re.match(r"(\w+)(.*)", entry).groups()
        needed = re.sub(r" Oo .*? Oc| Fl \S+ Ar \w+", "", head)
        yield " ".join(["command", name, *re.findall(r"[A-Z]{2,}(?: \.\.\.)?", needed)])
        options = flags("\n".join(re.findall(r"^\.It (Fl .*)$", entry, re.M)))
        yield from (f"option {name} {option}" for option in options)


def lines():
    for section, texts in PRINTED.items():
        yield from (f"line, {section}: {text}" for text in texts if text != "error: ...")


def statuses():
    """The rows of README's table."""
    _, heads, _, *rows, _ = re.search(r"\n(\| Status \|.*?)\n\n", text_of("README.md"), re.S)[0].split("\n") + [""]
    names = [re.findall(r"`(\w+)`", cell) for cell in heads.split("|")[2:-1]]
    for row in filter(None, rows):
        number, *meanings = [cell.strip() for cell in row.split("|")[1:-1]]
        yield from (f"status {number} of {name}: {meaning}" for some, meaning in zip(names, meanings) for name in some)


def keys():
    """The kinds of JSON objects, and their keys."""
    table = part(text_of("docs/FORMATS.md"), "\n| `kind` | Keys |\n|---|---|\n", "\n\n")
    for kinds, named in (row.split("|")[1:3] for row in table.split("\n")):
        for kind in re.findall(r"`([^`]*)`", kinds):
            yield f"object {kind}"
            yield from (f"key {kind}: {key}" for key in re.findall(r"`([a-z]+)`", named))


def c_library():
    """Prototypes, numbers, constants, and the fields of structs."""
    text = re.sub(r"/\*.*?\*/", "", text_of(HEADER), flags=re.S)
    text = re.sub(r"const (btcheck_(?:session|holdings|draft) \*)", r"\1", text)  # (what is only read may become const)
    for prototype in re.findall(r"^(?:static inline )?([\w ]+[ *]btcheck_\w+\([^;{]*\))(?: \{|;)", text, re.M):
        yield "call " + " ".join(prototype.split())
    yield from (f"number {name} = {value}" for name, value in re.findall(r"^  (BTCHECK_\w+) = (\d+)", text, re.M))
    yield from (f"constant {name} {value}" for name, value in re.findall(r"^#define (BTCHECK_\w+) (\d+)$", text, re.M))
    for name, body in re.findall(r"^typedef struct (\w+) \{(.*?)\} \1;", text, re.M | re.S):
        yield f"struct {name} " + "{ " + " ".join(body.split()) + " }"


def records():
    text = part(text_of("docs/FORMATS.md"), "\n## Records\n", "\n## ")
    yield "record of form 2 begins with " + re.search(r"eight bytes `(\w+)`", text)[1]
    yield from (f"direction {byte} {meaning}" for byte, meaning in re.findall(r"`(0[01])` if it (came in|went out)", text))


def found():
    """All of it, as the tree has it now."""
    parts = [commands(), lines(), statuses(), keys(), c_library(), records()]
    return [line for some in parts for line in sorted(set(some))]


def listed():
    with open(LIST, encoding="utf-8") as file:
        return file.read().splitlines()


def is_released():
    return not re.search(r'^version = "(?:0\.[0-9.]+|1\.0\.0-dev)"', text_of("bindings/rust/Cargo.toml"), re.M)


def main(arguments):
    now = found()
    if arguments == ["--write"]:
        gone = [line for line in listed() if line not in now] if is_released() and os.path.exists(LIST) else []
        with open(LIST, "w", encoding="utf-8") as out:
            out.write("".join(f"{line}\n" for line in [*now, *gone]))
    wrong = {*now} ^ {*listed()}
    for line in sorted(wrong):
        print(f"{'not listed' if line in now else 'gone'}: {line}")
    return 1 if wrong else 0


if __name__ == "__main__":
    sys.exit(main(sys.argv[1:]))
