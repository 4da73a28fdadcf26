"""A plain model of a check in parts: which places each part has, and so which lines it can print."""
from opening_model import pieces_of


def first_pieces(lengths, piece_length):
    """The first piece of each file, and how many pieces there are."""
    firsts, at = [], 0
    for length in lengths:
        firsts.append(at)
        at += pieces_of(length, piece_length)
    return firsts, at


def start(lengths, piece_length, part, parts):
    """The first place of a part: the piece that has the first of its bytes."""
    firsts, pieces = first_pieces(lengths, piece_length)
    if part in (0, parts):
        return 0 if part == 0 else pieces + 1
    byte = sum(lengths) // parts * part
    for first, length in zip(firsts, lengths):
        if byte < length:
            return first + byte // piece_length
        byte -= length
    return pieces + 1


def pieces_in(lengths, piece_length, part, parts):
    """For each file its pieces among the places of a part, or None if it has no place there; and all pieces there."""
    low, high = (start(lengths, piece_length, number, parts) for number in (part, part + 1))
    firsts, pieces = first_pieces(lengths, piece_length)
    held = []
    for first, length in zip(firsts, lengths):
        count = pieces_of(length, piece_length)
        there = range(max(low, first), min(high, first + max(count, 1)))
        held.append(range(max(low, first), min(high, first + count)) if there else None)
    return held, range(low, min(high, pieces))


class InPart:
    """What a part finds of one file: its verdict, and the runs of its bad pieces among the part's places."""

    def __init__(self, content, found, first, low, high, piece_length):
        self.content, self.found, self.first, self.piece_length = content, found, first, piece_length
        self.count = pieces_of(len(content), piece_length)
        self.last = first + max(self.count, 1) - 1
        self.there = max(low, first) < high and low <= self.last
        self.numbers = range(max(low, first), min(high, first + self.count))
        self.ends = low <= self.last < high

    def bounds(self, number):
        """The first byte of a piece of the file, by the torrent's number, and the one behind it."""
        at = (number - self.first) * self.piece_length
        return at, min(at + self.piece_length, len(self.content))

    def is_bad(self, number):
        start, end = self.bounds(number)
        return self.found[start:end] != self.content[start:end]

    def runs(self):
        """The runs of bad pieces, as their first and last piece by the torrent's numbers."""
        runs = []
        for number in self.numbers:
            if self.is_bad(number) and runs and runs[-1][1] == number - 1:
                runs[-1] = (runs[-1][0], number)
            elif self.is_bad(number):
                runs.append((number, number))
        return runs

    def is_of_a_wrong_length(self):
        cut = bool(self.numbers) and len(self.found) < self.bounds(self.numbers[-1])[1]
        return cut or self.ends and len(self.found) != len(self.content)

    def lines(self, name):
        """The file's line, and those of its runs."""
        if not self.there:
            return []
        if self.found is None:
            return [f"missing {name}"]
        runs = self.runs()
        told = [f"bad pieces {first} {last} bytes {self.bounds(first)[0]}-{self.bounds(last)[1] - 1}" for first, last in runs]
        if self.is_of_a_wrong_length():
            return [f"wrong length {name}", *told]
        return [f"bad {runs[0][0]} {name}", *told] if runs else [f"good {name}"]


def marked_lines(contents, states, piece_length, part, parts):
    """What a part prints with --bad of its files: contents are names and bytes, and what was found in place of some is in states. The
    first line, that on version 1 pieces and the last are left out."""
    lengths = [len(content) for _, content in contents]
    low, high = (start(lengths, piece_length, number, parts) for number in (part, part + 1))
    lines = []
    for (name, content), first in zip(contents, first_pieces(lengths, piece_length)[0]):
        lines += InPart(content, states.get(name, content), first, low, high, piece_length).lines(name)
    return lines
