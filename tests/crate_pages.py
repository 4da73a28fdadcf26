#!/usr/bin/env python3
"""tests/crate_pages.py [--write]: what the page of each crate, crates/*/README.md, says of what the crate is for and of its types.

Both come from the comments of its sources. What follows on a page, the choices of the crate and why, is written by hand.
With --write it writes the first part of each page that is there anew.
"""
import glob
import os
import re
import sys

from contracts import TOP, text_of

CHOICES = "\n## Choices\n"


def pages():
    """The path of each page, by its crate."""
    return {path.split("/")[-2]: path for path in sorted(glob.glob(f"{TOP}/crates/*/README.md"))}


def sources(crate):
    """The text of each source of a crate."""
    return [text_of(path) for path in sorted(glob.glob(f"{TOP}/crates/{crate}/src/**/*.rt", recursive=True))]


def top_of(crate):
    """The text of the file in which a crate begins."""
    names = [name for name in ("lib.rt", "main.rt") if os.path.exists(f"{TOP}/crates/{crate}/src/{name}")]
    return text_of(f"{TOP}/crates/{crate}/src/{names[0]}")


def purpose(crate):
    """What a crate is for: the comment at its head."""
    return "\n".join(line.removeprefix("//!").removeprefix(" ") for line in top_of(crate).split("\n") if line.startswith("//!"))


def first_sentence(comment):
    text = " ".join(line.strip().removeprefix("///").strip() for line in comment.strip().split("\n"))
    return re.split(r"(?<=[.:]) (?=[A-Z`])", text.split("  ")[0])[0].rstrip(":.")


def types(crate):
    """The public types that a crate hands out, each with the first sentence of its comment."""
    told = set(re.findall(r"\w+", " ".join(re.findall(r"^pub (?:use [^;]*|(?:struct|enum|trait|type) \w+)", top_of(crate), re.M))))
    found = {}
    for text in sources(crate):
        for comment, name in re.findall(r"((?:^///.*\n)+)(?:^#.*\n)*^pub (?:struct|enum|trait|type) (\w+)", text, re.M):
            if name in told:
                found[name] = first_sentence(comment)
    return sorted(found.items())


def linked(text):
    """Links of a source lead to an item; a page has only their words."""
    return re.sub(r"\[(`[^`]+`)\](?!\()", r"\1", text)


def head_of(crate):
    """The first part of the page of a crate."""
    rows = "".join(f"- `{name}`: {said if said[1:2].isupper() else said[0].lower() + said[1:]}\n" for name, said in types(crate))
    return linked(f"# `{crate}`\n\n{purpose(crate)}\n" + (f"\n## Types\n\n{rows}" if rows else ""))


def main():
    for crate, path in pages().items():
        before, mark, choices = text_of(path).partition(CHOICES)
        assert mark, path
        if "--write" in sys.argv[1:]:
            with open(path, "w", encoding="utf-8") as file:
                file.write(head_of(crate) + mark + choices)
        elif before != head_of(crate):
            print(f"{path}: another head")


if __name__ == "__main__":
    main()
