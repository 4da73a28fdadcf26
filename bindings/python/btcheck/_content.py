"""Roots and checks of files, whose bytes come in parts of any size."""
from __future__ import annotations

import ctypes as c
from collections.abc import Callable

from . import _library as lib
from ._library import Content, Owner, content_of, number, u64
from ._refusals import BadPiece
from ._session import Session


class Root(Owner):
    """The root of a file (BEP 52, "pieces root"), from its bytes in parts of any size."""

    _free = staticmethod(lib.root_free)

    def __init__(self) -> None:
        super().__init__()
        lib.root_new(self._handle)

    def push(self, part: Content) -> None:
        """The file's next bytes. Raises TooLong past 2^46 bytes, and then takes none."""
        part = content_of(part)
        lib.root_push(self._handle, part, len(part))

    @staticmethod
    def of(content: Content) -> tuple[int, bytes]:
        """Length and root of these bytes. Raises NoRoot if there are none."""
        with Root() as root:
            root.push(content)
            return root.finish()

    def finish(self) -> tuple[int, bytes]:
        """Length and root of what was pushed; the object begins anew. Raises NoRoot if nothing was pushed."""
        length, root = u64(), c.create_string_buffer(32)
        lib.root_finish(self._handle, length, root)
        return length.value, root.raw


def _torrent_of(session: Session) -> bytes:
    if not isinstance(session, Session):
        raise TypeError("a check is of a Session")
    return session._torrent


def _first_bad(finish: Callable[..., None], *arguments: object) -> int | None:
    piece = u64()
    try:
        finish(arguments[0], piece, *arguments[1:])
    except BadPiece:
        return piece.value
    return None


class Check(Owner):
    """The check of one file's bytes, or of those of some of its pieces in a row, in parts of any size, against a
    session's torrent. (`Pieces` keeps the bits itself.)"""

    _free = staticmethod(lib.check_free)

    def __init__(self, session: Session, file: int, pieces: range | None = None) -> None:
        """Begins the check of a file, by its number, or of these of its pieces, from 0 in the file. Raises NoRoot if it
        is empty, and NoSuch if there is no such file or it has not these pieces."""
        super().__init__()
        self._torrent = _torrent_of(session)  # lent to the library until close
        if pieces is None:
            lib.check_new(self._handle, session._handle, number(file, "file", 64))
            return
        if not isinstance(pieces, range) or pieces.step != 1:
            raise TypeError("pieces are a range in steps of one")
        ends = number(pieces.start, "pieces.start", 64), number(pieces.stop, "pieces.stop", 64)
        lib.check_new_pieces(self._handle, session._handle, number(file, "file", 64), *ends)

    def push(self, part: Content) -> None:
        """The next bytes. Raises TooLong if fewer are still to come, and then takes none."""
        part = content_of(part)
        lib.check_push(self._handle, part, len(part))

    def push_bits(self, part: Content, good: bytearray) -> None:
        """As `push`, and sets the bit of each piece that is complete and good, as a bitfield has it (BEP 3): bit 0, the
        highest of the first byte, is that of the first piece that is checked. The bits are clear at first, and the same
        at each call."""
        part = content_of(part)
        lib.check_push_bits(self._handle, part, len(part), _room(good), len(good))

    def finish(self) -> int | None:
        """The first piece that is not the torrent's, from 0 in the file; None if each is. The object begins anew.
        Raises TooShort if bytes are still to come, and then goes on."""
        return _first_bad(lib.check_finish, self._handle)

    def finish_bits(self, good: bytearray) -> int | None:
        """As `finish`, and sets the last piece's bit too. Raises TooShort if the content ends here: the bits tell which
        pieces are whole and good, and the object begins anew then too."""
        return _first_bad(lib.check_finish_bits, self._handle, _room(good), len(good))


def _room(good: bytearray) -> c.Array[c.c_char]:
    """The caller's bits as the library writes into them."""
    return (c.c_char * len(good)).from_buffer(good)


class Pieces(Owner):
    """The check of a file's pieces from one number up to another, in parts of any size, with a bit for each of them."""

    _free = staticmethod(lib.check_free)

    def __init__(self, session: Session, file: int, first: int, end: int) -> None:
        """Begins the check of the pieces from `first` up to `end` of a file. Raises NoRoot if that is empty, and NoSuch
        if there is no such file or it has not these pieces."""
        super().__init__()
        self._torrent = _torrent_of(session)  # lent to the library until close
        lib.check_new_pieces(self._handle, session._handle, number(file, "file", 64), number(first, "first", 64), number(end, "end", 64))
        self._count = end - first
        self._begin()

    def _begin(self) -> None:
        self._bits, self._ended = c.create_string_buffer(-(-self._count // 8)), False

    def push(self, part: Content) -> None:
        """The pieces' next bytes. Raises TooLong if they have fewer, and then takes none."""
        part = content_of(part)
        if self._ended:
            self._begin()
        lib.check_push_bits(self._handle, part, len(part), self._bits, len(self._bits))

    def finish(self) -> int | None:
        """The number in the file of the first piece that is not the torrent's; None if each is. Raises TooShort if the
        content ends before the pieces do. The object begins anew, and `good` tells of each piece until the next
        push."""
        if self._ended:
            self._begin()
        self._ended = True
        return _first_bad(lib.check_finish_bits, self._handle, self._bits, len(self._bits))

    def good(self) -> list[bool]:
        """Of each piece whether it is there whole and good; during the check, of those that are complete so far."""
        return [bool(self._bits.raw[k // 8] >> (7 - k % 8) & 1) for k in range(self._count)]
