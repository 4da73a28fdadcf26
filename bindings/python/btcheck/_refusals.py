"""The exceptions of the library: one for each status of btcheck.h, named after it."""
from __future__ import annotations


class Refused(Exception):
    """A call was refused, and nothing has changed."""

    status: int = 0
    """The number of btcheck.h."""

    def __init_subclass__(cls) -> None:
        if cls.__module__ == __name__:
            cls.__module__ = "btcheck"  # where users find it

    def __str__(self) -> str:
        return self.__doc__ or type(self).__name__


Refused.__module__ = "btcheck"


class TorrentRefused(Refused):
    """The bytes are no torrent that can be checked."""


class HashesRefused(Refused):
    """A hashes message was refused."""


class BlockRefused(Refused):
    """A block or a piece was refused."""


class WrongHandle(Refused):
    """The handle holds nothing, or something of another kind; or it is full where it should be empty."""

    status = 1


class NoMemory(Refused, MemoryError):
    """Memory was refused."""

    status = 2


class TooLong(Refused):
    """There are more than 2^46 bytes, more than the file, its pieces or the frame have, or 2^32 or more in a body."""

    status = 3


class NoRoot(Refused):
    """An empty file has no root."""

    status = 4


class NoSuch(Refused, LookupError):
    """The torrent has no such tree, block, file or piece."""

    status = 5


class Nothing(Refused):
    """There is nothing to ask for or to answer with, or the block is not marked."""

    status = 6


class TooSmall(Refused):
    """The room is too small."""

    status = 7


class BadSize(Refused):
    """A message of id 7, 21, 22 or 23 has a wrong size."""

    status = 8


class TooShort(Refused):
    """Bytes of the file, of its pieces or of the frame are still to come."""

    status = 9


class BadPiece(Refused):
    """A piece is not the torrent's."""

    status = 10


class Held(Refused):
    """The block is held until its hash is known."""

    status = 11


class TorrentTooLarge(TorrentRefused):
    """The torrent file has more than 67,108,864 bytes."""

    status = 101


def _with_key(sentence: str, key: str | None) -> str:
    return sentence if key is None else f"{sentence[:-1]}: {key}."


class TorrentNotBencode(TorrentRefused):
    """The bytes are not canonical bencoding."""

    status = 102

    fault: str | None = None
    """What the first fault is, by the name that `btcheck show` prints: `Trailing`, say."""
    offset: int | None = None
    """Where the item begins that has it, in bytes."""

    def __str__(self) -> str:
        sentence = super().__str__()
        return sentence if self.fault is None else f"{sentence[:-1]}: {self.fault} at byte {self.offset}."


class TorrentMissing(TorrentRefused):
    """A key of the torrent is missing."""

    status = 103

    key: str | None = None
    """Which key it is, as a torrent spells it; `top` is the top value itself."""

    def __str__(self) -> str:
        return _with_key(super().__str__(), self.key)


class TorrentWrongType(TorrentRefused):
    """A value of the torrent is of another kind."""

    status = 104

    key: str | None = None
    """Which key it is, as a torrent spells it; `top` is the top value itself."""

    def __str__(self) -> str:
        return _with_key(super().__str__(), self.key)


class TorrentVersion(TorrentRefused):
    """The meta version is not 2."""

    status = 105


class TorrentPieceLength(TorrentRefused):
    """The piece length is not a power of two from 16,384 to 2^30."""

    status = 106


class TorrentShape(TorrentRefused):
    """The file tree has a wrong shape."""

    status = 107


class TorrentPath(TorrentRefused):
    """A component of a path is ., .. or not UTF-8, or has a / or a zero byte."""

    status = 108


class TorrentSymlink(TorrentRefused):
    """A file is a symlink."""

    status = 109


class TorrentLength(TorrentRefused):
    """The length of a file is missing, no integer, below 0 or above 2^46."""

    status = 110


class TorrentRoot(TorrentRefused):
    """The root of a file is missing, or has not 32 bytes."""

    status = 111


class TorrentRootReused(TorrentRefused):
    """Two files have one root and different lengths."""

    status = 112


class TorrentNoFiles(TorrentRefused):
    """There is no file."""

    status = 113


class TorrentTooManyPieces(TorrentRefused):
    """The files have more than 2^32 - 1 pieces."""

    status = 114


class TorrentLayerMissing(TorrentRefused):
    """A file longer than a piece has no piece layer."""

    status = 115


class TorrentLayerSize(TorrentRefused):
    """A piece layer has not one hash for each piece."""

    status = 116


class TorrentLayerMismatch(TorrentRefused):
    """The tree over a piece layer has another root."""

    status = 117


class TorrentHybridFiles(TorrentRefused):
    """The version 1 list is malformed, or is not that of the file tree."""

    status = 118


class TorrentHybridAlign(TorrentRefused):
    """A file is not at its place in the version 1 stream."""

    status = 119


class TorrentHybridPieces(TorrentRefused):
    """The version 1 digests are not one for each piece of the stream."""

    status = 120


class TorrentNoMemory(TorrentRefused, MemoryError):
    """Memory for the torrent was refused."""

    status = 121


class TorrentPathClash(TorrentRefused):
    """The path is there already, or one of two paths is a prefix of the other."""

    status = 122


class H1UnknownRoot(HashesRefused):
    """No tree of the torrent has this root."""

    status = 201


class H2BadRange(HashesRefused):
    """The hashes are for no range of the tree."""

    status = 202


class H3BadCount(HashesRefused):
    """The number of hashes is wrong."""

    status = 203


class H4BadPad(HashesRefused):
    """A hash past the end of the file is not the one over pads."""

    status = 204


class H5Unanchored(HashesRefused):
    """The hashes lead to no known node."""

    status = 205


class H6Mismatch(HashesRefused):
    """A hash differs from a known one."""

    status = 206


class H7NoMemory(HashesRefused, MemoryError):
    """Memory for the hashes was refused."""

    status = 207


class H8Unasked(HashesRefused):
    """Nobody asked for the hashes."""

    status = 208


class P1BadPlace(BlockRefused):
    """No block or piece lies there."""

    status = 301


class P2BadSize(BlockRefused):
    """The bytes are not as many as the block or the piece has."""

    status = 302


class P3Unproved(BlockRefused):
    """The hash that covers the block or the piece is not known yet."""

    status = 303


class P4BadBlock(BlockRefused):
    """The bytes are not that block or piece of the torrent."""

    status = 304


_BY_STATUS: dict[int, type[Refused]] = {kind.status: kind for kind in (
    WrongHandle, NoMemory, TooLong, NoRoot, NoSuch, Nothing, TooSmall, BadSize, TooShort, BadPiece, Held,
    TorrentTooLarge, TorrentNotBencode, TorrentMissing, TorrentWrongType, TorrentVersion, TorrentPieceLength,
    TorrentShape, TorrentPath, TorrentSymlink, TorrentLength, TorrentRoot, TorrentRootReused, TorrentNoFiles,
    TorrentTooManyPieces, TorrentLayerMissing, TorrentLayerSize, TorrentLayerMismatch, TorrentHybridFiles,
    TorrentHybridAlign, TorrentHybridPieces, TorrentNoMemory, TorrentPathClash, H1UnknownRoot, H2BadRange, H3BadCount,
    H4BadPad, H5Unanchored, H6Mismatch, H7NoMemory, H8Unasked, P1BadPlace, P2BadSize, P3Unproved, P4BadBlock,
)}


def refusal(status: int) -> Refused:
    """The exception of a status. One that only a later library has is a plain Refused with its number."""
    if status in _BY_STATUS:
        return _BY_STATUS[status]()
    other = Refused()
    other.status = status
    return other


_FAULTS = (None, "Truncated", "BadStart", "BadInteger", "IntegerRange", "BadLength", "KeyOrder", "Trailing", "TooDeep")
_KEYS = (None, "top", "info", "meta version", "file tree", "name", "piece length", "piece layers")


def explain(refused: Refused, offset: int, fault: int, key: int) -> None:
    """Gives a refusal of a torrent what it has beside its number."""
    if isinstance(refused, TorrentNotBencode) and fault < len(_FAULTS):
        refused.fault, refused.offset = _FAULTS[fault], offset
    elif isinstance(refused, (TorrentMissing, TorrentWrongType)) and key < len(_KEYS):
        refused.key = _KEYS[key]
