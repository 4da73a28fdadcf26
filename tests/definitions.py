#!/usr/bin/env python3
"""tests/definitions.py [--write]: the definitions to which the rows of README's 'What is proved' and their clients unfold.

Prints of each row how many definitions, files and crates there are. With --write it writes what docs/DEFINITIONS.md has
below the line MARK anew: each definition with the comment above it and its form.
"""
import os
import re
import sys

import unfolding
from contracts import TOP, libraries, text_of

DOCUMENT = os.path.join(TOP, "docs", "DEFINITIONS.md")
MARK = "<!-- Below: written by tests/definitions.py --write -->\n"


def listed():
    """All these definitions: of each crate, lowest first, its files, and of each file its definitions."""
    found = {}
    rows = [places for _, places in unfolding.rows()] + [unfolding.of_client(name) for name in unfolding.clients()]
    for crate, module, name in set().union(*rows):
        found.setdefault((crate, module), set()).add(name)
    order = list(libraries()).index
    return sorted(found.items(), key=lambda it: (order(it[0][0]), it[0][1]))


def head_of(text):
    """The comment at the head of a file."""
    lines = text.split("\n")
    end = next((number for number, line in enumerate(lines) if not line.startswith("--")), len(lines))
    return " ".join(line.removeprefix("--").strip() for line in lines[:end])


def comment_above(lines, number):
    """The comment right above a line."""
    start = number
    while start > 0 and re.match(r" *-- ", lines[start - 1]) and not lines[start - 1].strip().startswith("-- ----"):
        start -= 1
    return lines[start:number]


def with_comment(text, form):
    """A definition as it stands in its file, with the comment above it."""
    lines = text.split("\n")
    return "\n".join([*comment_above(lines, lines.index(form.split("\n")[0])), form])


def sections():
    """The document below its mark, part by part."""
    crates = set()
    for (crate, module), names in listed():
        if crate not in crates:
            yield f"\n## `{crate}`\n"
            crates.add(crate)
        text, forms = text_of(unfolding.path_of(crate, module)), unfolding.definitions_in(crate, module)
        yield f"\n`{crate}/specs/{module.replace('.', '/')}.antt`: {head_of(text)}\n\n```antt\n"
        yield "\n\n".join(with_comment(text, form) for name, form in forms.items() if name in names)
        yield "\n```\n"


def main(arguments):
    if arguments == ["--write"]:
        text = text_of(DOCUMENT).split(MARK)[0] + MARK + "".join(sections())
        with open(DOCUMENT, "w", encoding="utf-8") as out:
            out.write(text)
    for call, found in unfolding.rows():
        print(call, "%d definitions, %d files, %d crates" % unfolding.sizes(found))
    return 0


if __name__ == "__main__":
    sys.exit(main(sys.argv[1:]))
