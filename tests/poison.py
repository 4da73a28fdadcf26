"""Peers that send true and false messages of every kind, and the line that the model gives each."""
import random

import messages
from session_model import Session
from trees import BLOCK

MOST_HASHES = 8224  # as many as a frame may carry
MOST_BYTES = 263208  # of blocks
OTHER_IDS = [0, 4, 5, 6, 8, 20, 24, 255]
WRONG_SIZES = [(7, 8), (7, 263218), (21, 50), (21, 1), (22, 48), (22, 80), (23, 48), (22, 263218)]


def numbered(verdicts):
    """The lines of a report that has these texts for each frame."""
    return [f"{number} {text}" for number, texts in enumerate(verdicts, 1) for text in texts]


class Peers:
    """Peers of a torrent of these files, whose draws a seed fixes."""

    def __init__(self, files, piece_length, with_layers, seed):
        self.chance = random.Random(seed)
        self.piece_length = piece_length
        self.model = Session(files, piece_length, with_layers)
        self.answers = []  # the frame that answers each request
        self.trees = [tree["whole"] for tree in self.model.trees.values()]

    def verdicts(self, count):
        """This many frames, and the verdict on each: a list of texts."""
        kinds = [self.hashes, self.hashes, self.hashes, self.piece, self.piece, self.request, self.reject, self.other,
                 self.wrong_size]
        frames = [self.chance.choice(kinds)() for _ in range(count)]
        return [frame for frame, _ in frames], [[text] if isinstance(text, str) else text for _, text in frames]

    def messages(self, count):
        """This many frames, and the lines of each."""
        frames, verdicts = self.verdicts(count)
        return frames, numbered(verdicts)

    def is_rare(self, rate):
        return self.chance.random() < rate

    def ask(self):
        """A tree, and the five fields of an ask for some of its hashes, seldom for what it does not have."""
        tree = self.chance.choice(self.trees)
        root = self.chance.randbytes(32) if self.is_rare(0.05) else tree.root
        base = self.chance.randint(0, max(0, tree.height - 1))
        length = 2 ** self.chance.randint(1, max(1, min(4, tree.height - base)))
        index = self.chance.randrange(max(1, 2 ** (tree.height - base) // length)) * length
        if self.is_rare(0.1):
            base, index, length = self.chance.choice([
                (tree.height + 1, index, length), (base, index + 1, length), (base, 2 ** tree.height, length),
                (base, index, length + 1), (base, 0, 1), (base, 0, 16384), (2 ** 32 - 1, 2 ** 32 - length, length)])
        return tree, (root, base, index, length, self.chance.choice([0, 1, tree.height, 40]))

    def hashes(self):
        tree, (root, base, index, length, _) = self.ask()
        room = max(0, tree.height - base - (length.bit_length() - 1))
        uncles = self.chance.randint(0, room) if self.is_rare(0.3) else room
        ask = (root, base, index, length, self.chance.choice([uncles, tree.height, 40, 2 ** 32 - 1, 0]))
        given = self.spoiled(self.given(tree, base, index, length, uncles))
        return messages.hashes(*ask, given=given), self.model.take(*ask, given)

    def given(self, tree, base, index, length, uncles):
        """The true hashes, or any if the tree has no such range."""
        try:
            return tree.hashes(base, index, length, uncles)
        except IndexError:
            return [self.chance.randbytes(32) for _ in range(length)]

    def spoiled(self, given):
        """The hashes, seldom one of them another, one too few or one too many."""
        given = [self.chance.choice([bytes(32), self.chance.randbytes(32), given[0]]) if self.is_rare(0.01) else one
                 for one in given]
        if self.is_rare(0.05):
            given = self.chance.choice([given[:-1], given + [self.chance.randbytes(32)]])
        return given[:MOST_HASHES]

    def piece(self):
        _, _, kept, first = self.chance.choice(self.model.files)
        at = self.chance.randrange(len(kept["blocks"]))
        count = self.chance.choice([1, 1, 1, 2, 3, 17])
        blocks = b"".join(self.block(block) for block in kept["blocks"][at:at + count])[:MOST_BYTES]
        place = self.place(first, at)
        return messages.piece(*place, blocks), self.model.blocks(*place, blocks)

    def place(self, first, at):
        """The index and begin of a block, in one of its forms; seldom of none."""
        if self.is_rare(0.05):
            return self.chance.randrange(2 ** 32), self.chance.randrange(2 ** 32)
        begin = at * BLOCK + self.is_rare(0.05)
        return self.chance.choice([(first, begin), (first + begin // self.piece_length, begin % self.piece_length)])

    def block(self, block):
        """The block, sometimes with a bit turned, a byte more or a byte less."""
        if self.is_rare(0.3):
            block = bytes([block[0] ^ 1]) + block[1:]
        if self.is_rare(0.1):
            block = self.chance.choice([block + b"x", block[:-1]])
        return block

    def request(self):
        _, ask = self.ask()
        self.answers.append(self.model.answer_frame(*ask))
        return messages.request(*ask), self.model.answer(*ask)

    def reject(self):
        _, ask = self.ask()
        return messages.reject(*ask), "reject noted"

    def other(self):
        if self.is_rare(0.2):
            return messages.KEEP_ALIVE, "keep-alive"
        ident = self.chance.choice(OTHER_IDS)
        return messages.frame(bytes([ident]) + bytes(self.chance.randint(0, 40))), f"skipped {ident}"

    def wrong_size(self):
        ident, size = self.chance.choice(WRONG_SIZES)
        return messages.frame(bytes([ident]) + bytes(size - 1)), f"bad frame {ident} {size}"
