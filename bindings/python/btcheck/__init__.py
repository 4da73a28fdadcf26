"""BitTorrent version 2 hash trees, checked by proved code: the C library `libbtcheck` from Python.

    with btcheck.Session(torrent_bytes) as session:
        file, block = session.take_block(index, begin, data)   # raises if the bytes are not that block

A call that is refused raises an exception that is named after the status in btcheck.h, and has changed nothing. What
has not the type that a call takes is refused with a TypeError. The library is found as `libbtcheck.so.1` by the
system, or where the variable LIBBTCHECK says. One object may be used by one thread at a time.
"""
from . import _library
from ._content import Check, Pieces, Root
from ._drafting import Draft, DraftFile, create
from ._refusals import (
    Refused, TorrentRefused, HashesRefused, BlockRefused, WrongHandle, NoMemory, TooLong, NoRoot, NoSuch, Nothing,
    TooSmall, BadSize, TooShort, BadPiece, Held, TorrentTooLarge, TorrentNotBencode, TorrentMissing, TorrentWrongType,
    TorrentVersion, TorrentPieceLength, TorrentShape, TorrentPath, TorrentSymlink, TorrentLength, TorrentRoot,
    TorrentRootReused, TorrentNoFiles, TorrentTooManyPieces, TorrentLayerMissing, TorrentLayerSize,
    TorrentLayerMismatch, TorrentHybridFiles, TorrentHybridAlign, TorrentHybridPieces, TorrentNoMemory,
    TorrentPathClash, H1UnknownRoot, H2BadRange, H3BadCount, H4BadPad, H5Unanchored, H6Mismatch, H7NoMemory, H8Unasked,
    P1BadPlace, P2BadSize, P3Unproved, P4BadBlock,
)
from ._session import Holdings, Session, reject_frame, request_frame
from ._values import (
    Answered, Ask, Blocks, File, HeldBlocks, KeepAlive, Piece, PieceRange, Rejected, RejectNoted, Run, Settled, Skipped, Stored,
    Taken, Verdict,
)

__version__ = "1.1.0.dev0"

__all__ = [
    "BLOCK", "HASH", "version", "create", "request_frame", "reject_frame", "Root", "Session", "Holdings", "Check", "Pieces", "Draft",
    "DraftFile", "Ask", "File", "Piece", "PieceRange", "Verdict", "Taken", "Stored", "Blocks", "HeldBlocks", "Run", "Settled",
    "Answered", "Rejected", "RejectNoted", "KeepAlive", "Skipped", "Refused", "TorrentRefused", "HashesRefused",
    "BlockRefused", "WrongHandle", "NoMemory", "TooLong", "NoRoot", "NoSuch", "Nothing", "TooSmall", "BadSize",
    "TooShort", "BadPiece", "Held", "TorrentTooLarge", "TorrentNotBencode", "TorrentMissing", "TorrentWrongType",
    "TorrentVersion", "TorrentPieceLength", "TorrentShape", "TorrentPath", "TorrentSymlink", "TorrentLength",
    "TorrentRoot", "TorrentRootReused", "TorrentNoFiles", "TorrentTooManyPieces", "TorrentLayerMissing",
    "TorrentLayerSize", "TorrentLayerMismatch", "TorrentHybridFiles", "TorrentHybridAlign", "TorrentHybridPieces",
    "TorrentNoMemory", "TorrentPathClash", "H1UnknownRoot", "H2BadRange", "H3BadCount", "H4BadPad", "H5Unanchored",
    "H6Mismatch", "H7NoMemory", "H8Unasked", "P1BadPlace", "P2BadSize", "P3Unproved", "P4BadBlock",
]

BLOCK = 16384
"""Bytes of a block that is not its file's last."""
HASH = 32
"""Bytes of a hash."""


def version() -> str:
    """The version of the library that is linked."""
    number = _library.library.btcheck_version()
    return f"{number >> 16}.{number >> 8 & 255}.{number & 255}"
