"""The table of lines: what `docs/FORMATS.md` says of the objects of `--json` is what the crate `lines` proves of them."""
import re

from contracts import TOP, text_of


def definitions():
    """The equations of each definition of the table: what stands right of their sign."""
    found = {}
    for block in re.split(r"\n\n", text_of(TOP, "crates", "lines", "specs", "Table.antt")):
        for name, body in re.findall(r"^(\w+)(?: [^\n=]*)? =((?: .*)?(?:\n +.*)*)", block, re.M):
            found.setdefault(name, []).append(body)
    return found


def reached(body, found):
    """The text of this equation, and of all definitions that it names."""
    seen, left = {}, [body]
    while left:
        text = left.pop()
        for name in re.findall(r"\b\w+\b", text):
            if name in found and name not in seen:
                seen[name] = found[name]
                left += found[name]
    return [body, *(text for bodies in seen.values() for text in bodies)]


def kind_of(body, found):
    """The kind of the row that this equation gives."""
    said = re.search(r'\b(?:\w+_)?row \(codes "([^"]+)"\)', body)
    if said:
        return said[1]
    return next(kind_of(text, found) for name in re.findall(r"\b\w+_row\b", body) for text in found[name])


def rows_of(name, found):
    """The equations that each give a row of one kind."""
    for body in found[name]:
        below = re.match(r"\s*(\w+_row)\b", body)
        if below and len(found.get(below[1], [])) > 1:
            yield from rows_of(below[1], found)
        else:
            yield body


def table_of_proofs():
    """The keys of each kind, apart for lines of a frame and for others."""
    found, table = definitions(), {}
    for body in rows_of("row_of", found):
        texts = reached(body, found)
        keys = {key for text in texts for key in re.findall(r'\b(?:number|start|over|name|code|text|unprinted) \(codes "([^"]+)"\)', text)}
        table.setdefault((kind_of(body, found), "frame" in keys), set()).update(keys)
    # Of what is refused only `create` prints a path, and it prints no objects.
    table["refused", False].discard("path")
    return table


def table_of_formats():
    text = text_of(TOP, "docs", "FORMATS.md")
    rows = re.search(r"\n\| `kind` \| Keys \|\n\|---\|---\|\n(.*?)\n\n", text, re.S)[1]
    table = {}
    for kinds, named in (row.split("|")[1:3] for row in rows.split("\n")):
        keys = {key for key in re.findall(r"`(\w+)`", named) if not key[0].isupper()} - {"NotBencode"}
        # A row may name kinds and say whose they are, as `held` of a frame.
        for kind in re.findall(r"`([^`]*)`", kinds):
            table.setdefault((kind, "frame" in keys), set()).update(keys)
    return table


def test_each_kind_has_the_keys_that_formats_names():
    proofs, formats = table_of_proofs(), table_of_formats()
    assert proofs.keys() == formats.keys(), proofs.keys() ^ formats.keys()
    wrong = {kind: (sorted(proofs[kind]), sorted(formats[kind])) for kind in proofs if proofs[kind] != formats[kind]}
    assert not wrong, wrong
    assert len(proofs) > 30
