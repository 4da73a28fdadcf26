"""BEP 52's hash trees, written out plainly with hashlib, each layer whole."""
import hashlib

BLOCK = 16384


def sha256(content):
    return hashlib.sha256(content).digest()


class Tree:
    """A whole tree over leaves: layers[0] are these filled up with zero hashes, the last layer is the root."""

    def __init__(self, leaves):
        leaves = list(leaves)
        self.leaf_count = len(leaves)
        while len(leaves) & (len(leaves) - 1):
            leaves.append(bytes(32))
        self.layers = [leaves]
        while len(self.layers[-1]) > 1:
            below = self.layers[-1]
            self.layers.append([sha256(below[at] + below[at + 1]) for at in range(0, len(below), 2)])
        self.height = len(self.layers) - 1
        self.root = self.layers[-1][0]

    @classmethod
    def of_blocks(cls, blocks):
        return cls(map(sha256, blocks))

    @classmethod
    def of(cls, content):
        return cls.of_blocks(blocks_of(content))

    def whole_layer(self, layer):
        """The layer without the hashes that cover only places past the file's end."""
        return self.layers[layer][:-(-self.leaf_count // 2 ** layer)]

    def hashes(self, base, index, length, uncles):
        """The hashes of a range and of `uncles` uncles, the one nearest the root last."""
        found = self.layers[base][index:index + length]
        layer, at = base + length.bit_length() - 1, index // length
        for _ in range(uncles):
            found.append(self.layers[layer][at ^ 1])
            layer, at = layer + 1, at // 2
        return found


def blocks_of(content):
    return [content[at:at + BLOCK] for at in range(0, len(content), BLOCK)]


def root_of(content):
    return Tree.of(content).root


def root_of_file(path):
    with open(path, "rb") as content:
        return Tree.of_blocks(iter(lambda: content.read(BLOCK), b"")).root


def root_line(content):
    """The line that `root` is to print for this content."""
    return f"{len(content)} {root_of(content).hex()}\n" if content else "0 -\n"


def layer(content, blocks):
    """The hashes that cover `blocks` blocks each, a power of two, joined."""
    return b"".join(Tree.of(content).whole_layer(blocks.bit_length() - 1))
