"""The public items of the libraries, and the clauses of their contracts, as the sources have them."""
import os
import re

TOP = os.path.dirname(os.path.dirname(os.path.abspath(__file__)))
CRATES = os.path.join(TOP, "crates")

WORD = re.compile(r"[A-Za-z_]\w*'*")
HEAD = re.compile(r"(?:pub )?(?P<kind>impl|trait)(?:<.*?>)? (?:(?P<of>[\w:<>', ]+) for )?(?P<name>\w+)")
FUNCTION = re.compile(r"(?P<indent> *)(?P<visible>pub )?(?:extern \"C\" )?(?:final )?fn (?P<name>\w+)")
FOR_C = re.compile(r"^#\[unsafe\(no_mangle\)\]\npub extern \"C\" fn (\w+)", re.M)
CLAUSE = re.compile(r"\s*(requires|ensures)\b")


def text_of(*path):
    with open(os.path.join(*path), encoding="utf-8") as file:
        return file.read()


def libraries():
    """The libraries in the order of crates.txt."""
    listed = re.findall(r"^(\w+).*:", text_of(TOP, "crates.txt"), re.M)
    return [name for name in listed if os.path.exists(f"{CRATES}/{name}/src/lib.rt")]


def sources(crate):
    """Each source file of a crate, with its module's name."""
    for folder, _, files in os.walk(f"{CRATES}/{crate}/src"):
        for name in sorted(files):
            if name.endswith(".rt"):
                yield name.removesuffix(".rt"), text_of(folder, name)


def exported(crate):
    """The names that a library and its public modules export, those for C among them, and those modules, which it exports
    whole."""
    root = text_of(CRATES, crate, "src", "lib.rt")
    modules = set(re.findall(r"^pub mod (\w+);", root, re.M))
    texts = [root, *(text_of(CRATES, crate, "src", f"{name}.rt") for name in modules)]
    listed = re.findall(r"^pub use (?:\w+::)*([^;]*);", "\n".join(texts), re.M)
    for_c = [name for _, text in sources(crate) for name in FOR_C.findall(text)]
    return {*WORD.findall(" ".join(listed)), *for_c}, modules


def public_contracts(text, names, is_exported):
    """The public functions of a source, free ones, those of types and those of traits: each as the type or trait that
    it belongs to, or None, its name, and its clauses."""
    head = None
    lines = text.split("\n")
    for number, line in enumerate(lines):
        if line and not line.startswith((" ", "}")):
            head = HEAD.match(line)
        function = FUNCTION.match(line)
        if not function:
            continue
        owner = head["name"] if function["indent"] and head else None
        if owner:
            public = bool(function["visible"]) or head["kind"] == "trait" or head["of"] is not None
        else:
            public = bool(function["visible"])
        if public and (is_exported or (owner or function["name"]) in names):
            yield owner, function["name"], contract_after(lines, number)


def contract_after(lines, number):
    """The clauses between a function's signature and its body."""
    found = []
    for line in lines[number:]:
        if CLAUSE.match(line) or found:
            if line.strip() in ("{", "{}"):
                break
            found.append(line)
            if line.endswith("};"):
                break
        elif line.endswith(("{", ";", "}")):
            break
    return "\n".join(found)


def promises():
    """Of each public function with an `ensures`: its library, its type or trait or None, its name, and the labels of
    its clauses, '' for one that has none."""
    for crate in libraries():
        names, modules = exported(crate)
        for module, text in sources(crate):
            for owner, name, contract in public_contracts(text, names, module in modules):
                labels = re.findall(r"^\s*ensures\*? ?(\w*) ?\{", contract, re.M)
                if labels:
                    yield crate, owner, name, labels


if __name__ == "__main__":
    for crate, owner, name, labels in promises():
        print(crate, f"{owner}::{name}" if owner else name, *(label or "-" for label in labels))
