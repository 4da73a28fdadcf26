"""Globs as `btcheck create --exclude` has them, over paths whose components `/` joins."""
from __future__ import annotations

import re
from collections.abc import Iterable

_AT_ANY_DEPTH, _AND_BELOW = "(?:.*/)?", "(?:/.*)?"


def pattern_of(globs: Iterable[str]) -> re.Pattern[str]:
    """What matches a path exactly if one of the globs matches it or a folder above it. Raises ValueError if one is no glob:
    it is empty, ends in a backslash or in an open bracket, or has a range that runs backwards."""
    return re.compile("|".join(map(_one, globs)) or "(?!)", re.DOTALL)


def _one(glob: str) -> str:
    rest = glob.removeprefix("/")
    if not rest:
        raise ValueError(f"no glob: {glob!r}")
    is_from_top = rest != glob or "/" in rest[:-1]
    try:
        found = ("" if is_from_top else _AT_ANY_DEPTH) + _parts(rest)
        re.compile(found)  # (a range that runs backwards)
        return found
    except (IndexError, re.error):
        raise ValueError(f"no glob: {glob!r}") from None


def _parts(glob: str) -> str:
    found, at, starts = "", 0, True
    while at < len(glob):
        if glob[at:] == "/":
            return found + "/.*"
        if glob[at] == "*":
            end = at + 1
            while glob[end:end + 1] == "*":
                end += 1
            in_folders = end - at > 1 and starts and glob[end:end + 1] == "/"
            found += _AT_ANY_DEPTH if in_folders else ".*" if end - at > 1 else "[^/]*"
            at, starts = end + in_folders, in_folders
            continue
        starts = glob[at] == "/"
        if glob[at] == "?":
            part, at = "[^/]", at + 1
        elif glob[at] == "[":
            part, at = _set(glob, at + 1)
        else:
            letter, at = _letter(glob, at)
            part = re.escape(letter)
        found += part
    return found + _AND_BELOW


def _letter(glob: str, at: int) -> tuple[str, int]:
    """The character at a place, or the one behind a backslash, and the place after it."""
    at += glob[at] == "\\"
    return glob[at], at + 1


def _set(glob: str, at: int) -> tuple[str, int]:
    """The characters in brackets, of which the `[` is passed. A `]` that comes first is one of them."""
    is_other = glob[at] in "!^"
    at += is_other
    members = ""
    while not members or glob[at] != "]":
        first, at = _letter(glob, at)
        members += re.escape(first)
        if glob[at] == "-" and glob[at + 1] != "]":
            last, at = _letter(glob, at + 1)
            members += "-" + re.escape(last)
    return (f"[^/{members}]" if is_other else f"(?!/)[{members}]"), at + 1
