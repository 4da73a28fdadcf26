"""A plain model of torrents: what bytes spell (BEP 3), and what opens, with the tests in the order of
docs/FORMATS.md."""
import hashlib
import re

from support import escaped
from trees import BLOCK, sha256

LARGEST = 1 << 26
LONGEST = 1 << 46
DEEPEST = 128
MISSING = object()


class Fault(Exception):
    """Not canonical bencoding: the kind, and the offset of the item that fails."""

    def __init__(self, kind, offset):
        super().__init__(kind, offset)
        self.text = f"{kind} {offset}"


class Refused(Exception):
    """A torrent that does not open: what is printed of it."""

    def __init__(self, text):
        super().__init__(text)
        self.text = f"refused {text}"


def run_of_digits(data, start):
    return re.compile(rb"[0-9]*").match(data, start)[0]


def has_leading_zero(digits):
    return len(digits) > 1 and digits[:1] == b"0"


def integer(data, start):
    sign = data[start + 1:start + 2] == b"-"
    digits = run_of_digits(data, start + 1 + sign)
    end = start + 1 + sign + len(digits)
    if end == len(data):
        raise Fault("Truncated", start)
    if data[end:end + 1] != b"e" or not digits or has_leading_zero(digits) or (sign and digits == b"0"):
        raise Fault("BadInteger", start)
    value = int(digits) if len(digits) < 30 else 1 << 64
    value = -value if sign else value
    if not -(1 << 63) <= value < 1 << 63:
        raise Fault("IntegerRange", start)
    return value, end + 1


def byte_string(data, start):
    digits = run_of_digits(data, start)
    end = start + len(digits)
    if end == len(data):
        raise Fault("Truncated", start)
    if data[end:end + 1] != b":" or has_leading_zero(digits) or len(digits) > 10:
        raise Fault("BadLength", start)
    end += 1 + int(digits)
    if end > len(data):
        raise Fault("Truncated", start)
    return data[end - int(digits):end], end


def item(data, start, is_open, spans):
    """The value that starts here and where it ends; `is_open` lists and dictionaries are open around it. `spans` takes
    where the values of the dictionary stand."""
    first = data[start:start + 1]
    if not first:
        raise Fault("Truncated", start)
    if first == b"i":
        return integer(data, start)
    if first.isdigit():
        return byte_string(data, start)
    if first not in (b"l", b"d"):
        raise Fault("BadStart", start)
    if is_open == DEEPEST:
        raise Fault("TooDeep", start)
    return (items if first == b"l" else pairs)(data, start + 1, is_open + 1, spans)


def items(data, at, is_open, _):
    found = []
    while data[at:at + 1] != b"e":
        value, at = item(data, at, is_open, {})
        found.append(value)
    return found, at + 1


def pairs(data, at, is_open, spans):
    found, last = {}, None
    while data[at:at + 1] != b"e":
        start = at
        if start == len(data):
            raise Fault("Truncated", start)
        if not data[start:start + 1].isdigit():
            raise Fault("BadStart", start)
        key, at = byte_string(data, start)
        if last is not None and key <= last:
            raise Fault("KeyOrder", start)
        value_start, last = at, key
        found[key], at = item(data, at, is_open, {})
        spans[key] = data[value_start:at]
    return found, at + 1


def decoded(data):
    """The value that these bytes spell, and the bytes of each value of the top dictionary."""
    spans = {}
    value, end = item(data, 0, 0, spans)
    if end < len(data):
        raise Fault("Trailing", end)
    return value, spans


def is_text(value):
    try:
        return isinstance(value, bytes) and value.decode() is not None
    except UnicodeDecodeError:
        return False


def is_count(value):
    return isinstance(value, int) and 0 <= value <= LONGEST


def refuse_if(holds, text):
    if holds:
        raise Refused(text)


def need(dictionary, key, kind):
    """The value of a key that has to be there and of this type."""
    name = key.decode()
    refuse_if(key not in dictionary, f"3 Missing {name}")
    refuse_if(not isinstance(dictionary[key], kind), f"4 WrongType {name}")
    return dictionary[key]


def listed(folder, path=()):
    """The files below a folder as paths and dictionaries, all path components, and whether the shape is right."""
    found, components, right = [], [], True
    for name, value in folder.items():
        components.append(name)
        if not isinstance(value, dict):
            right = False
        elif b"" in value:
            right = right and len(value) == 1 and isinstance(value[b""], dict)
            found.append((path + (name,), value[b""]))
        else:
            below, more, shape = listed(value, path + (name,))
            found, components, right = found + below, components + more, right and shape
    return found, components, right


def is_bad_component(name):
    return name in (b".", b"..") or b"/" in name or b"\0" in name or not is_text(name)


def has_attribute(entry, letter):
    attributes = entry.get(b"attr")
    return isinstance(attributes, bytes) and letter in attributes


def pieces_of(length, piece_length):
    return -(-length // piece_length)


def root_over(layer, blocks_each, length):
    """The root over a piece layer, filled up with the hash of a subtree of zero leaves."""
    zero = bytes(32)
    for _ in range(blocks_each.bit_length() - 1):
        zero = sha256(zero + zero)
    width = 1
    while width * blocks_each * BLOCK < length:
        width *= 2
    nodes = [layer[at:at + 32] for at in range(0, len(layer), 32)]
    nodes += [zero] * (width - len(nodes))
    while len(nodes) > 1:
        nodes = [sha256(nodes[at] + nodes[at + 1]) for at in range(0, len(nodes), 2)]
    return nodes[0]


class Opened:
    """An opened torrent: its name, piece length, files as paths, lengths and roots, and info-hashes."""

    def __init__(self, data):
        """Opens it; the first test that fails refuses it."""
        refuse_if(len(data) > LARGEST, "1 TooLarge")
        try:
            top, spans = decoded(data)
        except Fault as fault:
            raise Refused(f"2 NotBencode {fault.text}") from None
        refuse_if(not isinstance(top, dict), "4 WrongType top")
        self.info = need(top, b"info", dict)
        self.spelled = spans[b"info"]
        refuse_if(need(self.info, b"meta version", int) != 2, "5 Version")
        self.keys(top)
        self.tree()
        self.lengths()
        self.layers_of = top.get(b"piece layers", {})
        self.layers(self.layers_of)
        self.is_hybrid = b"pieces" in self.info
        if self.is_hybrid:
            self.version_1()

    def keys(self, top):
        for key in (b"file tree", b"name", b"piece length"):
            refuse_if(key not in self.info, f"3 Missing {key.decode()}")
        need(self.info, b"file tree", dict)
        refuse_if(not is_text(self.info[b"name"]), "4 WrongType name")
        self.name = self.info[b"name"]
        self.piece_length = need(self.info, b"piece length", int)
        refuse_if(not isinstance(top.get(b"piece layers", {}), dict), "4 WrongType piece layers")
        refuse_if(self.piece_length not in [1 << power for power in range(14, 31)], "6 PieceLength")

    def tree(self):
        self.entries, components, right = listed(self.info[b"file tree"])
        refuse_if(b"" in self.info[b"file tree"] or not right, "7 Shape")
        refuse_if(any(map(is_bad_component, components)), "8 Path")
        refuse_if(any(has_attribute(entry, b"l") for _, entry in self.entries), "9 Symlink")

    def lengths(self):
        refuse_if(not all(is_count(entry.get(b"length")) for _, entry in self.entries), "10 Length")
        self.files = [(path, entry[b"length"], entry.get(b"pieces root")) for path, entry in self.entries]
        full = [(length, root) for _, length, root in self.files if length]
        refuse_if(not all(isinstance(root, bytes) and len(root) == 32 for _, root in full), "11 Root")
        self.lengths_of = {}
        for length, root in full:
            refuse_if(self.lengths_of.setdefault(root, length) != length, "12 RootReused")
        refuse_if(not self.files, "13 NoFiles")
        refuse_if(sum(pieces_of(length, self.piece_length) for length, _ in full) > (1 << 32) - 1, "14 TooManyPieces")

    def layers(self, layers):
        long = {root: length for root, length in self.lengths_of.items() if length > self.piece_length}
        refuse_if(any(root not in layers for root in long), "15 LayerMissing")
        sizes = {root: 32 * pieces_of(length, self.piece_length) for root, length in long.items()}
        refuse_if(any(not isinstance(layers[root], bytes) or len(layers[root]) != sizes[root] for root in long),
                  "16 LayerSize")
        blocks_each = self.piece_length // BLOCK
        refuse_if(any(root_over(layers[root], blocks_each, length) != root for root, length in long.items()),
                  "17 LayerMismatch")

    def version_1(self):
        parts = self.version_1_list()
        refuse_if(parts is None or [(path, length) for path, length in parts if path is not None] !=
                  [(list(path), length) for path, length, _ in self.files], "18 HybridFiles")
        total = sum(length for _, length in parts)
        refuse_if(not self.is_aligned(parts, total), "19 HybridAlign")
        pieces, size = self.info[b"pieces"], 20 * pieces_of(total, self.piece_length)
        refuse_if(not isinstance(pieces, bytes) or len(pieces) != size, "20 HybridPieces")

    def version_1_list(self):
        """The list as paths, None for a pad, and lengths; or None where it is none."""
        if (b"length" in self.info) == (b"files" in self.info):
            return None
        if b"length" in self.info:
            length = self.info[b"length"]
            return [([self.name], length)] if is_count(length) else None
        entries = self.info[b"files"]
        if not isinstance(entries, list) or not all(isinstance(entry, dict) for entry in entries):
            return None
        parts = []
        for entry in entries:
            path = None if has_attribute(entry, b"p") else entry.get(b"path", MISSING)
            is_path = isinstance(path, list) and path and all(isinstance(name, bytes) for name in path)
            if not is_count(entry.get(b"length")) or not (path is None or is_path):
                return None
            parts.append((path, entry[b"length"]))
        return parts

    def is_aligned(self, parts, total):
        """Each non-empty file starts in the stream where its first piece does, and at most a tail pad follows."""
        at, piece, end = 0, 0, 0
        for path, length in parts:
            if path is not None and length:
                if at != piece * self.piece_length:
                    return False
                piece += pieces_of(length, self.piece_length)
                end = at + length
            at += length
        return total <= pieces_of(end, self.piece_length) * self.piece_length

    def shown(self):
        """What `show` prints."""
        lines = [f"name: {escaped(self.name.decode())}", f"piece length: {self.piece_length}",
                 f"info hash v2: {hashlib.sha256(self.spelled).hexdigest()}"]
        if self.is_hybrid:
            lines.append(f"info hash v1: {hashlib.sha1(self.spelled).hexdigest()}")
        lines.append(f"files: {len(self.files)}")
        for path, length, root in self.files:
            lines.append(f"{length} {root.hex() if length else '-'} {escaped(b'/'.join(path).decode())}")
        return lines


def shown(data):
    """The status and the text of `show` of a torrent file of these bytes."""
    try:
        status, lines = 0, Opened(data).shown()
    except Refused as refused:
        status, lines = 1, [refused.text]
    return status, "".join(f"{line}\n" for line in lines).encode()
