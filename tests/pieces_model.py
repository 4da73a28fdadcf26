"""A plain model of `replay --pieces` and `--padded`: a session of session_model with the digests of the blocks that are
held, and the lines of a record. It follows docs/FORMATS.md, and no code of the program."""
import opening_model
import record_model
from session_model import Session, end_pads
from trees import BLOCK, sha256

BOUND = 1 << 20  # blocks that `replay` holds at most


class Shape:
    """A tree of which its root and the length of its files alone are known."""

    def __init__(self, root, length):
        self.root, self.leaf_count = root, -(-length // BLOCK)
        self.height = (self.leaf_count - 1).bit_length()
        self.zeros = [bytes(32)]
        while len(self.zeros) <= self.height:
            self.zeros.append(sha256(self.zeros[-1] * 2))
        self.layers = [Pads(zero) for zero in self.zeros]


class Pads:
    """A layer of a tree, as far as it lies past the file's end: zero hashes."""

    def __init__(self, zero):
        self.zero = zero

    def __getitem__(self, _):
        return self.zero


class Opened(Session):
    """A session of a torrent file, whose files' content is not known."""

    def __init__(self, torrent, with_layers):
        opened = opening_model.Opened(torrent)
        self.piece_length, self.files, self.trees, self.open, first = opened.piece_length, [], {}, set(), 0
        for number, (_, length, root) in enumerate(opened.files):
            if not length:
                continue
            whole = Shape(root, length)
            tree = self.trees.setdefault(root, {"whole": whole, "blocks": [], "known": {(whole.height, 0): root}})
            self.files.append((number, bytes(length), tree, first))
            first += -(-length // self.piece_length)
            if with_layers and length > self.piece_length:
                self.plant(tree, opened.layers_of[root])

    def plant(self, tree, layer):
        """The piece layer and all above it, its pads too."""
        whole, level = tree["whole"], (self.piece_length // BLOCK).bit_length() - 1
        row = [layer[at:at + 32] for at in range(0, len(layer), 32)]
        row += [whole.zeros[level]] * (2 ** (whole.height - level) - len(row))
        while True:
            tree["known"].update(((level, at), value) for at, value in enumerate(row))
            if len(row) == 1:
                return
            row, level = [sha256(row[at] + row[at + 1]) for at in range(0, len(row), 2)], level + 1


class Holding:
    """A session, and the digests of blocks that it could not verify when they came."""

    def __init__(self, session, bound=BOUND):
        self.session, self.held, self.times, self.clock, self.marked = session, {}, {}, 0, {}
        self.roots = {id(tree): root for root, tree in session.trees.items()}
        self.most = max(1, bound // self.blocks_each())  # pieces that are held at once: each has room for a whole one

    def blocks_each(self):
        return self.session.piece_length // BLOCK

    def span(self, tree):
        """The layer of the nodes that cover a piece each: that of the root, if the file is one piece."""
        return min(self.blocks_each().bit_length() - 1, tree["whole"].height)

    def blocks_of(self, tree, piece):
        first = piece * self.blocks_each()
        return range(first, min(first + self.blocks_each(), tree["whole"].leaf_count))

    def file_of(self, root, near=None):
        """The number of the file to print: the one at hand, if it has that tree, or the first that has it."""
        having = [number for number, _, tree, _ in self.session.files if self.roots[id(tree)] == root]
        return near if near in having else having[0]

    def count(self):
        return sum(map(len, self.held.values()))

    # ---- one block

    def hold(self, root, block, content, near):
        """The line of a piece that gives way, if one does, and that of the block."""
        lines, key = [], (root, block // self.blocks_each())
        if key not in self.held:
            if len(self.held) == self.most:
                oldest = min(self.times, key=self.times.get)
                lines.append(self.give_up("dropped", oldest, near))
            self.held[key] = {}
        self.clock += 1
        self.held[key][block] = sha256(content)
        self.times[key] = self.clock
        return [*lines, f"held {near} {block}"]

    def give_up(self, word, key, near):
        """All blocks that are held of a piece go; the line has the whole piece."""
        blocks = self.blocks_of(self.session.trees[key[0]], key[1])
        self.forget(key)
        return f"{word} {self.file_of(key[0], near)} {blocks[0]} {blocks[-1]}"

    def forget(self, key):
        del self.held[key], self.times[key]

    # ---- pieces that can be settled

    def settle(self, root, pieces, near=None):
        """The lines of all that is settled of these pieces of a tree, in the order of their numbers."""
        return [line for piece in sorted(pieces) if (root, piece) in self.held for line in self.settle_piece(root, piece, near)]

    def settle_piece(self, root, piece, near):
        tree, key = self.session.trees[root], (root, piece)
        known, held, file = tree["known"], self.held[key], self.file_of(root, near)
        judged = [(block, held[block] == known[0, block]) for block in sorted(held) if (0, block) in known]
        lines = []
        for block, is_true in judged:
            del held[block]
            if is_true:
                self.mark(root, [block])
                lines.append(["proved", block, block])
            else:
                lines.append(["false", block, block])
        lines = merged(lines)
        if not held:
            self.forget(key)
        elif self.is_complete(tree, piece, held):
            lines += self.tried(key, tree)
        return [f"{word} {file} {first} {last}" for word, first, last in lines]

    def is_complete(self, tree, piece, held):
        top = (self.span(tree), piece)
        return top in tree["known"] and all(block in held or (0, block) in tree["known"] for block in self.blocks_of(tree, piece))

    def tried(self, key, tree):
        """What becomes of a piece all of whose blocks are held or known."""
        blocks, known, held = self.blocks_of(tree, key[1]), tree["known"], self.held[key]
        span = self.span(tree)
        row = [held[block] if block in held else known[0, block] for block in blocks]
        row += [bytes(32)] * (2 ** span - len(row))
        claims, level, first = {}, 0, key[1] * 2 ** span
        while True:
            claims.update({(level, first + at): value for at, value in enumerate(row)})
            if len(row) == 1:
                break
            row, level, first = [sha256(row[at] + row[at + 1]) for at in range(0, len(row), 2)], level + 1, first // 2
        if any(known.get(place, value) != value for place, value in claims.items()):
            self.forget(key)
            return [["false", blocks[0], blocks[-1]]]
        known.update(claims)
        if blocks[-1] + 1 == tree["whole"].leaf_count:
            known.update(end_pads(tree["whole"]))
        self.mark(key[0], held)
        runs = merged([["proved", block, block] for block in sorted(held)])
        self.forget(key)
        return runs

    def mark(self, root, blocks):
        self.marked.setdefault(root, set()).update(blocks)

    # ---- one frame

    def of_piece(self, index, begin, carried, padded):
        """The lines of a piece message that came in."""
        if padded:
            carried = self.cut(index, begin, carried)
        verdicts = self.session.blocks(index, begin, carried)
        place = self.place(index, begin)
        if place is None or verdicts == ["refused P2 BadSize"]:
            return verdicts
        number, tree, first = place
        root, lines = self.roots[id(tree)], []
        for at, verdict in enumerate(verdicts):
            if verdict.startswith("refused P3"):
                lines += self.hold(root, first + at, carried[at * BLOCK:(at + 1) * BLOCK], number)
            else:
                lines.append(verdict)
                self.mark(root, [first + at] if verdict.startswith("verified") else [])
        touched = {(first + at) // self.blocks_each() for at in range(len(verdicts))}
        return lines + self.settle(root, touched, number)

    def place(self, index, begin):
        """The file, its tree and the block at a place."""
        for number, content, tree, first in self.session.files:
            at = (index - first) * self.session.piece_length + begin
            if at % BLOCK == 0 and 0 <= at < len(content):
                return number, tree, at // BLOCK
        return None

    def cut(self, index, begin, carried):
        """The bytes without the zeros behind the end of the file."""
        for _, content, _, first in self.session.files:
            at = (index - first) * self.session.piece_length + begin
            if at % BLOCK == 0 and 0 <= at < len(content):
                left = len(content) - at
                if left < len(carried) <= -(-left // BLOCK) * BLOCK and not any(carried[left:]):
                    return carried[:left]
        return carried

    def stored(self, line, root):
        """The lines of a hashes message that got this one."""
        if not line.startswith("stored"):
            return [line]
        return [line, *self.settle(root, {piece for tree, piece in self.held if tree == root})]


def merged(lines):
    """Proved blocks that follow each other become one run."""
    runs = []
    for word, first, last in lines:
        if runs and runs[-1][0] == word == "proved" and runs[-1][2] + 1 == first:
            runs[-1][2] = last
        else:
            runs.append([word, first, last])
    return runs


def report(holding, record, padded=False):
    """The status and the text of `replay --pieces`, or with `padded` of that with `--padded`."""
    found, last = record_model.read(record)
    session = holding.session
    take = session.take_answer if record.startswith(record_model.FORM_2) else session.take
    said = []
    for at, (way, body) in enumerate(found, 1):
        if way == record_model.WENT_OUT:
            lines = [record_model.sent_line(session, body)]
        elif body and body[0] == 7 and record_model.has_right_size(7, len(body)):
            lines = holding.of_piece(record_model.number(body, 1), record_model.number(body, 5), body[9:], padded)
        else:
            lines = record_model.lines(session, body, take)
            if body and body[0] == 22 and record_model.has_right_size(22, len(body)):
                lines = holding.stored(lines[0], record_model.ask_of(body)[0])
        said += [(at, line) for line in lines]
    held = holding.count()
    text = "".join(f"{at} {line}\n" for at, line in said) + (f"held {held}\n" if held else "") + f"{last}\n"
    bad = held or any(line.startswith(("refused", "bad frame", "false", "dropped")) for _, line in said)
    return (1 if bad else 0) if last == "end" else 2, text.encode()


def padded_report(session, record):
    """The status and the text of `replay --padded`, which holds nothing."""
    cutter = Holding(session)
    found, last = record_model.read(record)
    frames = []
    for way, body in found:
        if way == record_model.CAME_IN and body and body[0] == 7 and record_model.has_right_size(7, len(body)):
            body = body[:9] + cutter.cut(record_model.number(body, 1), record_model.number(body, 5), body[9:])
        frames.append((way, body))
    is_directed = record.startswith(record_model.FORM_2)
    joined = b"".join((bytes([way]) if is_directed else b"") + record_model.framed(body) for way, body in frames)
    status, text = record_model.report(session, (record_model.FORM_2 if is_directed else b"") + joined)
    if last != "end":
        status, text = 2, text.removesuffix(b"end\n") + f"{last}\n".encode()
    return status, text
