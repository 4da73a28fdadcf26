"""What makes the proofs easy to read, as far as it can be counted. Each count may fall, and be written down lower here."""
import collections
import glob
import os
import re

import crate_pages
from contracts import text_of
from support import TOP

# Lines of answers that stand before, to the letter, in their own file.
REPEATED_LINES = 1200
# Functions outside of C's exports that take seven things or more.
MANY_PARAMETERS = 7
# Public types whose name another crate's public type has too. docs/DECISIONS.md says why these stay.
SHARED_TYPES = set("Asked Fault Hash Key Kind ListedFile Value".split())
# Names that two files of specs/ define.
SHARED_DEFINITIONS = 2


def files(pattern):
    return sorted(glob.glob(f"{TOP}/crates/*/{pattern}", recursive=True))


def crate_of(path):
    return os.path.relpath(path, f"{TOP}/crates").split("/")[0]


def shared(names):
    """The names that stand in two places, of pairs of a name and its place."""
    places = collections.defaultdict(set)
    for name, place in names:
        places[name].add(place)
    return {name: sorted(found) for name, found in places.items() if len(found) > 1}


def repeats_of(path):
    lines = [line.strip() for line in text_of(path).splitlines() if line.strip()]
    return len(lines) - len(set(lines))


def parameters_of(text):
    """The functions of a source, each with the number of things that it takes."""
    for found in re.finditer(r"\bfn\s+(\w+)\s*(?:<(?:[^<>(]|->|<[^<>]*>)*>)?\s*\(", text):
        taken, depth, angles, at = "", 1, 0, found.end()
        while depth:
            sign = text[at]
            depth += (sign in "([{") - (sign in ")]}")
            angles += (sign == "<") - (sign == ">" and text[at - 1] != "-")
            taken += "\0" if sign == "," and depth == 1 and not angles else sign if depth else ""
            at += 1
        yield found[1], sum(1 for part in taken.split("\0") if part.strip())


def types_of(path):
    return re.findall(r"^pub (?:struct|enum|trait|type) (\w+)", text_of(path), re.M)


def definitions_of(path):
    """What a file of specs/ defines: records, kinds, and functions by their signatures."""
    found = re.findall(r"^(?:(?:abbrev|pub|record|data|def|opaque) )*([A-Za-z][\w'-]*)(?= *[:({])", text_of(path), re.M)
    return set(found) - {"use", "module", "section", "mutual", "where"}


def test_answers_share_what_they_restate():
    repeats = {path: repeats_of(path) for path in files("proofs/**/Answers.antt")}
    worst = sorted(repeats.items(), key=lambda it: -it[1])[:10]
    print(f"lines of answers that stand before: {sum(repeats.values())}")
    assert sum(repeats.values()) <= REPEATED_LINES, worst


def test_functions_take_few_things():
    """A function of C takes what its prototype says; all others take their things together."""
    many = [(crate_of(path), name, count) for path in files("src/**/*.rt")
            for name, count in parameters_of(text_of(path)) if count >= 7 and not name.startswith("btcheck_")]
    assert len(many) <= MANY_PARAMETERS, many


def test_a_type_has_a_name_of_its_own():
    names = [(name, crate_of(path)) for path in files("src/**/*.rt") for name in types_of(path)]
    found = shared(names)
    assert set(found) <= SHARED_TYPES, found


def test_a_definition_has_a_name_of_its_own():
    found = shared((name, path) for path in files("specs/**/*.antt") for name in definitions_of(path))
    print(f"names that two files define: {len(found)}")
    assert len(found) <= SHARED_DEFINITIONS, sorted(found)


def test_the_page_of_a_crate_says_what_its_sources_say():
    """`tests/crate_pages.py --write` writes the first part of each page; what follows is by hand."""
    wrong = [crate for crate, path in crate_pages.pages().items()
             if text_of(path).partition(crate_pages.CHOICES)[0] != crate_pages.head_of(crate)]
    assert crate_pages.pages() and not wrong, wrong
