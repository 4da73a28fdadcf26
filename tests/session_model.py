"""A plain model of sessions: what is known of each tree is a map from places."""
import messages
from trees import BLOCK, Tree, blocks_of, sha256

RANGE = 512  # the places of a range that a session asks for at most


def end_pads(whole):
    """The pads beside a file's end: on each layer below the root those in one aligned range of 512 places with the node
    over the last block. They become known with the file's last piece."""
    pads = {}
    for level in range(whole.height):
        last = whole.leaf_count - 1 >> level
        end = min((last // RANGE + 1) * RANGE, 2 ** (whole.height - level))
        pads.update({(level, place): whole.layers[level][place] for place in range(last + 1, end)})
    return pads


class Session:
    """What is known of each tree, as a plain map from places; all checks are made on a copy."""

    def __init__(self, files, piece_length, with_layers):
        self.piece_length, self.all_files = piece_length, files
        self.files, self.trees, self.open, first = [], {}, set(), 0
        for number, (_, content) in enumerate(files):
            if content:
                whole = Tree.of(content)
                tree = self.trees.setdefault(whole.root, {"whole": whole, "blocks": blocks_of(content), "known": {}})
                self.files.append((number, content, tree, first))
                first += -(-len(content) // piece_length)
        for tree in self.trees.values():
            whole = tree["whole"]
            tree["known"][(whole.height, 0)] = whole.root
            if with_layers and sum(map(len, tree["blocks"])) > piece_length:
                for layer in range((piece_length // BLOCK).bit_length() - 1, whole.height):
                    for at, value in enumerate(whole.layers[layer]):
                        tree["known"][(layer, at)] = value

    def in_range(self, whole, base, index, length):
        return (2 <= length <= 8192 and length & (length - 1) == 0 and index % length == 0
                and base <= whole.height and index + length <= 2 ** (whole.height - base))

    def take(self, root, base, index, length, proof, given):
        tree = self.trees.get(root)
        if tree is None:
            return "refused H1 UnknownRoot"
        whole, known = tree["whole"], tree["known"]
        if not self.in_range(whole, base, index, length):
            return "refused H2 BadRange"
        span, uncles = length.bit_length() - 1, len(given) - length
        if uncles < 0 or uncles > proof or base + span + uncles > whole.height:
            return "refused H3 BadCount"
        claims = {(base, index + at): given[at] for at in range(length)}
        layer, at = base + span, index // length
        for value in given[length:]:
            claims[(layer, at ^ 1)] = value
            layer, at = layer + 1, at // 2
        for (level, place), value in claims.items():
            if place * 2 ** level >= whole.leaf_count and value != whole.layers[level][place]:
                return "refused H4 BadPad"
        if (layer, at) not in known:
            return "refused H5 Unanchored"
        for level in range(base, layer):
            for (row, place) in sorted(key for key in claims if key[0] == level and key[1] % 2 == 0):
                claims[(level + 1, place // 2)] = sha256(claims[(level, place)] + claims[(level, place + 1)])
        if any(known.get(key, value) != value for key, value in claims.items()):
            return "refused H6 Mismatch"
        gained = len(claims.keys() - known.keys())
        known.update(claims)
        return f"stored {gained}"

    def note(self, *ask):
        """A request of our own: its answer may come."""
        self.open.add(ask)

    def take_answer(self, *ask_and_given):
        """Takes hashes if our own side asked for them; what is stored closes the ask."""
        *ask, given = ask_and_given
        if tuple(ask) not in self.open:
            return "refused H8 Unasked"
        answer = self.take(*ask, given)
        if answer.startswith("stored"):
            self.open.remove(tuple(ask))
        return answer

    def blocks(self, index, begin, carried):
        """The lines of a piece message: one for each block that it carries, or one that refuses it whole."""
        for number, content, tree, first in self.files:
            at = index * self.piece_length + begin - first * self.piece_length
            if at % BLOCK == 0 and 0 <= at < len(content):
                ends = at + len(carried)
                if not carried or ends > len(content) or (ends % BLOCK and ends < len(content)):
                    return ["refused P2 BadSize"]
                cuts = [carried[cut:cut + BLOCK] for cut in range(0, len(carried), BLOCK)]
                return [self.block(tree, number, at // BLOCK + place, cut, len(cuts)) for place, cut in enumerate(cuts)]
        return ["refused P1 BadPlace"]

    def block(self, tree, number, place, cut, count):
        """The line of one block of a message that carries `count`."""
        behind = f" {number} {place}" if count > 1 else ""
        leaf = tree["known"].get((0, place))
        if leaf is None:
            return f"refused P3 Unproved{behind}"
        if sha256(cut) != leaf:
            return f"refused P4 BadBlock{behind}"
        return f"verified {number} {place}"

    def answer(self, root, base, index, length, proof):
        return "rejected" if self.hashes(root, base, index, length, proof) is None else "answered"

    def hashes(self, root, base, index, length, proof):
        """The hashes that answer an ask, or None if it is to be rejected."""
        tree = self.trees.get(root)
        if tree is None or not self.in_range(tree["whole"], base, index, length):
            return None
        known, height, span = tree["known"], tree["whole"].height, length.bit_length() - 1
        if any((base, index + at) not in known for at in range(length)):
            return None
        found = [known[base, index + at] for at in range(length)]
        layer, at = base + span, index // length
        for _ in range(min(max(0, proof - (span - 1)), height - base - span)):
            found.append(known[layer, at ^ 1])
            layer, at = layer + 1, at // 2
        return found

    def answer_frame(self, *ask):
        """The frame that answers a request."""
        found = self.hashes(*ask)
        return messages.reject(*ask) if found is None else messages.hashes(*ask, given=found)

    def want(self, root, block):
        """The ask for what shows a block's leaf, or None if it is known."""
        tree = self.trees[root]
        if (0, block) in tree["known"]:
            return None
        height = tree["whole"].height
        length = min(RANGE, 2 ** height)
        return root, 0, block // length * length, length, height - 1

    def gaps(self, root):
        """How many aligned ranges of leaves, as long as an ask of `want`, are not all known."""
        tree = self.trees[root]
        length = min(RANGE, 2 ** tree["whole"].height)
        return len({at // length for at in range(tree["whole"].leaf_count) if (0, at) not in tree["known"]})

    def seed(self, contents):
        """Fills the leaves of each file that a folder holds right, and gives a line for each file of the torrent."""
        lines = []
        for path, content in self.all_files:
            good = content and contents.get(path) == content
            if good:
                tree = self.trees[Tree.of(content).root]
                tree["known"].update(((layer, at), value) for layer, row in enumerate(tree["whole"].layers)
                                     for at, value in enumerate(row))
            lines.append(f"seeded {path}" if good else f"not seeded {path}")
        return lines
