"""What a clause of a public call unfolds to: the definitions of specs/ that it names, those that these name, and so on.

Definitions of std and of the kit's crates, and the types of sources, are where this ends.
"""
import functools
import os
import re

import contracts
from contracts import CRATES, TOP, WORD, exported, libraries, public_contracts, sources, text_of

IMPORT = re.compile(r"(pub )?(?:ghost )?use Rattle\.(\w+)\.specs\.([\w.]+?)(?:\.\{([^}]*)\}| as (\w+))?;?$", re.M)
DEFINITION = re.compile(r"^( *)(?:(?:abbrev|unfoldable|function|record|data) pub|pub (?:abbrev|unfoldable|record|data)|pub) ([A-Za-z_]\w*'*)\b(?! use)")
CLAUSE = re.compile(r"^\s*(?:ensures|requires)\*? ?(\w*) ?\{", re.M)
NAME = re.compile(r"(?:[A-Za-z_]\w*'*\.)*[A-Za-z_]\w*'*")


def path_of(crate, module):
    return os.path.join(CRATES, crate, "specs", module.replace(".", "/") + ".antt")


@functools.cache
def own():
    return frozenset(libraries())


@functools.cache
def definitions_in(crate, module):
    """The definitions of a file, by name: each with the lines of its form, without the comment above it."""
    found, depth, name = {}, 0, None
    for line in text_of(path_of(crate, module)).split("\n"):
        head = DEFINITION.match(line)
        inside = name and (not line or line.startswith((" " * (depth + 1), " " * depth + name + " ")))
        if head and head[2] not in ("use", "mod") and not (inside and len(head[1]) > depth):
            depth, name = len(head[1]), head[2]
            found[name] = [line]
        elif inside:
            found[name].append(line)
        else:
            name = None
    return {key: "\n".join(lines).rstrip() for key, lines in found.items()}


@functools.cache
def imports_in(text):
    """Of a text the names that it brings in, each with its crate, module and name there, and the modules, by their short
    names."""
    names, modules = {}, {}
    for _, crate, module, words, alias in IMPORT.findall(text):
        if crate not in own() or ".TheVariants" in module or module.startswith("declared"):
            continue
        for word in words.split(","):
            name, _, local = word.strip().partition(" as ")
            if name:
                names[local or name] = (crate, module, name)
        if alias:
            modules[alias] = (crate, module)
    return names, modules


def home(place):
    """Where a definition stands, if its file only passes it on."""
    crate, module, name = place
    if not os.path.exists(path_of(crate, module)):
        for line in text_of(path_of(crate, "Lib")).split("\n"):
            passed = re.match(rf"pub use Rattle\.(\w+)\.specs\.{re.escape(module)}$", line)
            if passed:
                return home((passed[1], module, name))
        return None
    if name in definitions_in(crate, module):
        return place
    names, _ = imports_in(text_of(path_of(crate, module)))
    return home(names[name]) if name in names and names[name] != place else None


def named_in(text, names, modules):
    """The definitions of this repository that a text names, by what is brought in around it."""
    found = set()
    for word in NAME.findall(text):
        first, _, rest = word.partition(".")
        if first in names:
            found.add(home(names[first]))
        elif first in modules and rest:
            found.add(home((*modules[first], rest.split(".")[0])))
    return found - {None}


@functools.cache
def next_of(place):
    """The definitions that one names."""
    crate, module, name = place
    names, modules = imports_in(text_of(path_of(crate, module)))
    known = {**names, **{own_name: (crate, module, own_name) for own_name in definitions_in(crate, module)}}
    return frozenset(named_in(definitions_in(crate, module)[name], known, modules) - {place})


def unfolded(places):
    """These definitions, and all that they unfold to."""
    found, left = set(), list(places)
    while left:
        place = left.pop()
        if place not in found:
            found.add(place)
            left += next_of(place)
    return found


def clauses(contract):
    """The clauses of a contract by their labels, '' for one that has none."""
    heads = list(CLAUSE.finditer(contract))
    ends = [head.start() for head in heads[1:]] + [len(contract)]
    return [(head[1], contract[head.start():end]) for head, end in zip(heads, ends)]


def cited_by(crate, owner, call, labels):
    """The definitions that these clauses of a public call name."""
    names, modules = exported(crate)
    found = set()
    for module, text in sources(crate):
        for of, name, contract in public_contracts(text, names, module in modules):
            if name == call and owner in (None, of, of and of.removesuffix("Of")):
                known, aliases = imports_in(text)
                for label, clause in clauses(contract):
                    if label in labels:
                        found |= named_in(clause, known, aliases)
    return found


def rows():
    """The rows of README's 'What is proved': the call as it stands there, and the definitions to which its clauses
    unfold."""
    section, crate = contracts.text_of(TOP, "README.md").split("## What is proved")[1].split("\n## ")[0], None
    for line in section.split("\n"):
        cells = [cell.strip() for cell in line.split("|")[1:-1]]
        if len(cells) == 5 and "`" in cells[1]:
            crate = cells[0].strip("`") or crate
            owner, _, call = cells[1].strip("`").rpartition("::")
            labels = set(WORD.findall(cells[2])) or {""}
            found = set().union(*(cited_by(it, owner or None, call, labels) for it in crates_of(crate)))
            yield cells[1].strip("`"), unfolded(found)


def clients():
    """The clients that these rows name."""
    section = contracts.text_of(TOP, "README.md").split("## What is proved")[1].split("\n## ")[0]
    return re.findall(r"^\|.* \| `(\w+)` \|$", section, re.M)


def of_client(name):
    """The definitions to which the whole contract of a function of `uses` unfolds."""
    labels = {label for crate, _, call, found in contracts.promises() if (crate, call) == ("uses", name) for label in found}
    return unfolded(cited_by("uses", None, name, labels))


def crates_of(facade):
    """A crate, and those whose public items it passes on."""
    text = text_of(CRATES, facade, "src", "lib.rt")
    return [facade, *(it for it in re.findall(r"^pub use (\w+)::", text, re.M) if it in own())]


def sizes(found):
    """How many definitions, files and crates."""
    return len(found), len({place[:2] for place in found}), len({place[0] for place in found})


if __name__ == "__main__":
    for row, found in rows():
        print(row, *sizes(found))
