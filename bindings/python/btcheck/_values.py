"""What the calls take and give."""
from __future__ import annotations

from collections.abc import Iterator
from dataclasses import astuple, dataclass
from typing import Any, NamedTuple, Union

from ._refusals import Refused


@dataclass(frozen=True)
class Ask:
    """The five fields of a hash request (BEP 52)."""

    root: bytes
    base: int
    index: int
    length: int
    proof: int

    def __iter__(self) -> Iterator[Any]:
        return iter(astuple(self))


class File(NamedTuple):
    """A file of a torrent. An empty one has no tree and no root, and the first piece of the next file."""

    path: str
    length: int
    first_piece: int
    tree: int | None
    root: bytes | None


class Piece(NamedTuple):
    """A piece of a torrent: its bytes, the file in which it lies, and its first block and its first byte there."""

    length: int
    file: int
    block: int
    offset: int


class PieceRange(NamedTuple):
    """Bytes of a file as a request has them: the piece, where they begin in it, and how many they are. They may go on in
    the pieces behind it."""

    piece: int
    begin: int
    length: int


class Stored(NamedTuple):
    """Hashes were taken, and `places` of the tree are newly known."""

    places: int


class Blocks(NamedTuple):
    """What is made of the blocks of one piece message: consecutive blocks of a file, from the first one on. An outcome
    is None if the block is verified, else the refusal."""

    file: int
    first: int
    outcomes: list[Refused | None]

    @property
    def statuses(self) -> list[Refused | None]:
        """The outcomes, by the name that they have in all languages."""
        return self.outcomes


class Run(NamedTuple):
    """The blocks of a tree from the first one to the last one."""

    tree: int
    first: int
    last: int


class HeldBlocks(NamedTuple):
    """As Blocks, but the outcome of a block that is held is Held, or NoMemory if its digest could not be; and of each
    block the run of a piece that gave way for it, or None."""

    file: int
    first: int
    outcomes: list[Refused | None]
    dropped: list[Run | None]

    @property
    def statuses(self) -> list[Refused | None]:
        """The outcomes, by the name that they have in all languages."""
        return self.outcomes


class Settled(NamedTuple):
    """Blocks that were held: they are proved and marked now, or false and given up."""

    is_proved: bool
    run: Run


class Answered(NamedTuple):
    """A hash request came that `answer` gives hashes for."""


class Rejected(NamedTuple):
    """A hash request came that has to be rejected."""


class RejectNoted(NamedTuple):
    """A peer rejected our request."""


class KeepAlive(NamedTuple):
    """An empty body came."""


class Skipped(NamedTuple):
    """A message of another kind came."""

    id: int


Verdict = Union[Stored, Blocks, Answered, Rejected, RejectNoted, KeepAlive, Skipped]


class Taken(NamedTuple):
    """What a whole frame was and what was made of it, and the five fields of hashes, of a hash request and of a reject."""

    verdict: Verdict | HeldBlocks
    ask: Ask | None
