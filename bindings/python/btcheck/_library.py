"""The calls of libbtcheck by ctypes: a function for each, which raises what its status says."""
from __future__ import annotations

import ctypes as c
import os
from collections.abc import Callable, Iterable, Sequence
from operator import index
from typing import Any, TypeVar, Union

from ._refusals import Nothing, TooSmall, refusal
from ._values import (Answered, Ask, Blocks, HeldBlocks, KeepAlive, Rejected, RejectNoted, Run, Skipped, Stored, Taken,
                      Verdict)

Content = Union[bytes, bytearray, memoryview]
AskLike = Union[Ask, Sequence[Any]]


class Handle(c.Structure):
    _fields_ = [("full", c.c_bool), ("at", c.c_void_p)]


class Asked(c.Structure):
    _fields_ = [("root", c.c_ubyte * 32), ("base", c.c_uint32), ("index", c.c_uint32), ("length", c.c_uint32),
                ("proof", c.c_uint32)]

    def read(self) -> Ask:
        return Ask(bytes(self.root), self.base, self.index, self.length, self.proof)


class RefusalInfo(c.Structure):
    _fields_ = [("offset", c.c_uint64), ("fault", c.c_uint32), ("key", c.c_uint32)]


class CursorInfo(c.Structure):
    _fields_ = [("tree", c.c_uint64), ("block", c.c_uint64)]


class FileInfo(c.Structure):
    _fields_ = [("length", c.c_uint64), ("first_piece", c.c_uint64), ("tree", c.c_uint64), ("root", c.c_ubyte * 32)]


class PieceInfo(c.Structure):
    _fields_ = [("length", c.c_uint64), ("file", c.c_uint64), ("block", c.c_uint64), ("offset", c.c_uint64)]


class RangeInfo(c.Structure):
    _fields_ = [("piece", c.c_uint64), ("begin", c.c_uint64), ("length", c.c_uint64)]


class BlocksInfo(c.Structure):
    _fields_ = [("file", c.c_uint64), ("first", c.c_uint64), ("count", c.c_uint64), ("statuses", c.c_uint32 * 17)]

    def read(self) -> Blocks:
        outcomes = [refusal(status) if status else None for status in self.statuses[:self.count]]
        return Blocks(self.file, self.first, outcomes)


class RunInfo(c.Structure):
    _fields_ = [("tree", c.c_uint64), ("first", c.c_uint64), ("last", c.c_uint64)]

    def read(self) -> Run | None:
        return None if self.tree == 2**64 - 1 else Run(self.tree, self.first, self.last)


class HeldInfo(c.Structure):
    _fields_ = [("blocks", BlocksInfo), ("dropped", RunInfo * 17)]

    def read(self) -> HeldBlocks:
        file, first, outcomes = self.blocks.read()
        return HeldBlocks(file, first, outcomes, [run.read() for run in self.dropped[:self.blocks.count]])


class VerdictInfo(c.Structure):
    _fields_ = [("kind", c.c_uint32), ("id", c.c_uint32), ("places", c.c_uint64), ("blocks", BlocksInfo)]

    def read(self) -> Verdict:
        without_more: dict[int, Verdict] = {3: Answered(), 4: Rejected(), 5: RejectNoted(), 6: KeepAlive()}
        if self.kind == 1:
            return Stored(self.places)
        if self.kind == 2:
            found: Blocks = self.blocks.read()
            return found
        return without_more.get(self.kind, Skipped(self.id))


class TakenInfo(c.Structure):
    _fields_ = [("verdict", VerdictInfo), ("ask", Asked), ("dropped", RunInfo * 17)]

    def read(self) -> Taken:
        verdict = self.verdict.read()
        return Taken(verdict, self.ask.read() if isinstance(verdict, (Stored, Answered, Rejected, RejectNoted)) else None)

    def read_held(self) -> Taken:
        """The same of a frame whose blocks may be held."""
        taken = self.read()
        is_held = isinstance(taken.verdict, Blocks)
        return Taken(HeldInfo(self.verdict.blocks, self.dropped).read(), None) if is_held else taken


def _opened() -> c.CDLL:
    """The library: what LIBBTCHECK names, else the one beside this module, else the system's."""
    beside = os.path.join(os.path.dirname(os.path.abspath(__file__)), NAME)
    found = os.environ.get("LIBBTCHECK") or (beside if os.path.exists(beside) else NAME)
    try:
        return c.CDLL(found)
    except OSError as error:
        raise OSError(f"{error}: btcheck needs the C library. Install the package libbtcheck1, or what `make lib install` of the "
                      f"sources makes, or let the variable LIBBTCHECK name the file {NAME}") from None


NAME = "libbtcheck.so.1"
library = _opened()
u32, u64, size = c.c_uint32, c.c_uint64, c.c_size_t
_handle, _to_u64, _to_ask = c.POINTER(Handle), c.POINTER(c.c_uint64), c.POINTER(Asked)
library.btcheck_version.argtypes, library.btcheck_version.restype = [], u32


def _call(name: str, *types: Any, result: Any = u32, on: Any = _handle) -> Callable[..., None]:
    """A call of the library on a handle."""
    function = getattr(library, "btcheck_" + name)
    function.argtypes, function.restype = [on, *types], result

    def checked(*arguments: Any) -> None:
        status = function(*arguments)
        if status:
            raise refusal(status)

    return checked


root_new = _call("root_new")
root_push = _call("root_push", c.c_char_p, size)
root_finish = _call("root_finish", _to_u64, c.c_char_p)
root_free = _call("root_free", result=None)
check_new = _call("check_new", _handle, size)
check_new_pieces = _call("check_new_pieces", _handle, size, u64, u64)
check_push = _call("check_push", c.c_char_p, size)
check_push_bits = _call("check_push_bits", c.c_char_p, size, c.c_char_p, size)
check_finish = _call("check_finish", _to_u64)
check_finish_bits = _call("check_finish_bits", _to_u64, c.c_char_p, size)
check_free = _call("check_free", result=None)
session_open = _call("session_open", c.c_char_p, size, c.c_bool)
session_open_explained = _call("session_open_explained", c.c_char_p, size, c.c_bool, c.POINTER(RefusalInfo))
session_free = _call("session_free", result=None)
session_files = _call("session_files", _to_u64, _to_u64)
session_file = _call("session_file", size, c.POINTER(FileInfo))
session_path = _call("session_path", size, c.c_char_p, size, _to_u64)
session_info_hashes = _call("session_info_hashes", c.c_char_p, c.c_char_p)
session_name = _call("session_name", c.c_char_p, size, _to_u64)
session_piece_length = _call("session_piece_length", _to_u64)
session_pieces = _call("session_pieces", _to_u64)
session_piece = _call("session_piece", u32, c.POINTER(PieceInfo))
session_file_pieces = _call("session_file_pieces", size, _to_u64, _to_u64)
session_map_file = _call("session_map_file", size, u64, u64, c.POINTER(RangeInfo))
session_file_counts = _call("session_file_counts", size, _to_u64, _to_u64)
session_bitfield = _call("session_bitfield", c.c_char_p, size, _to_u64)
session_is_hybrid = _call("session_is_hybrid")
session_counts = _call("session_counts", size, _to_u64, _to_u64)
session_is_marked = _call("session_is_marked", size, u64)
session_take_hashes = _call("session_take_hashes", c.c_char_p, u32, u32, u32, u32, c.c_char_p, size, _to_u64)
session_take_block = _call("session_take_block", u32, u32, c.c_char_p, size, _to_u64, _to_u64)
session_take_blocks = _call("session_take_blocks", u32, u32, c.c_char_p, size, c.POINTER(BlocksInfo))
session_take_piece = _call("session_take_piece", u32, c.c_char_p, size, _to_u64, _to_u64)
session_hold = _call("session_hold", _handle, u32, u32, c.c_char_p, size, c.POINTER(HeldInfo))
session_settle = _call("session_settle", _handle, c.POINTER(RunInfo))
session_held = _call("session_held", _to_u64)
holdings_new = _call("holdings_new", _handle, size)
holdings_look_at = _call("holdings_look_at", size)
holdings_free = _call("holdings_free", result=None)
session_frame = _call("session_frame", c.c_char_p, size, c.POINTER(VerdictInfo))
session_take_frame = _call("session_take_frame", c.c_char_p, size, c.c_bool, c.POINTER(TakenInfo))
session_hold_frame = _call("session_hold_frame", _handle, c.c_char_p, size, c.c_bool, c.POINTER(TakenInfo))
session_want = _call("session_want", size, u64, _to_ask)
session_note = _call("session_note", _to_ask)
session_take_answer = _call("session_take_answer", _to_ask, c.c_char_p, size, _to_u64)
session_answer = _call("session_answer", _to_ask, c.c_char_p, size, _to_u64)
session_can_answer = _call("session_can_answer", _to_ask)
session_answer_frame = _call("session_answer_frame", _to_ask, c.c_char_p, size, _to_u64)
request_frame = _call("request_frame", c.c_char_p, result=None, on=_to_ask)
reject_frame = _call("reject_frame", c.c_char_p, result=None, on=_to_ask)
session_export = _call("session_export", c.POINTER(CursorInfo), c.c_char_p, size, _to_u64)
session_fill = _call("session_fill", size, u32, c.c_char_p, size, _to_u64)
draft_new = _call("draft_new", c.c_char_p, size, u64, c.c_bool)
draft_file_new = _call("draft_file_new", _handle)
draft_file_push = _call("draft_file_push", c.c_char_p, size)
draft_add = _call("draft_add", _handle, c.c_char_p, size)
draft_finish = _call("draft_finish", c.c_char_p, size, _to_u64)
draft_file_free = _call("draft_file_free", result=None)
draft_free = _call("draft_free", result=None)


def content_of(given: Content) -> bytes:
    """Bytes as the library takes them. What has none is refused: `bytes(5)` would be five zero bytes."""
    if isinstance(given, bytes):
        return given
    with memoryview(given) as view:  # a TypeError for all but bytes and the like
        return view.tobytes()


class OutOfRange(ValueError, OverflowError):
    """A number that has no place in the bits of its parameter."""


def number(given: int, name: str, bits: int = 32) -> int:
    """The number, if it fits: ctypes would drop its higher bits. The name is its parameter's."""
    try:
        found = index(given)
    except TypeError:
        raise TypeError(f"{name} is a whole number, not {type(given).__name__}") from None
    if not 0 <= found < 1 << bits:
        raise OutOfRange(f"{name} is from 0 to 2**{bits} - 1, not {given}")
    return found


def digest(given: Content) -> bytes:
    found = content_of(given)
    if len(found) != 32:
        raise ValueError("a hash has 32 bytes")
    return found


def digests(given: Iterable[Content]) -> bytes:
    return b"".join(map(digest, given))


def fields(ask: AskLike) -> tuple[bytes, int, int, int, int]:
    """The five fields of a request, from an Ask or from a tuple of them."""
    root, base, first, length, proof = ask
    return digest(root), number(base, "base"), number(first, "index"), number(length, "length"), number(proof, "proof")


def laid_out(ask: AskLike) -> Asked:
    root, *numbers = fields(ask)
    return Asked((c.c_ubyte * 32)(*root), *numbers)


def holds(check: Callable[..., None], *arguments: Any) -> bool:
    """Whether a call answers 0, where Nothing means no."""
    try:
        check(*arguments)
    except Nothing:
        return False
    return True


def room_of(call: Callable[..., None], *arguments: Any) -> bytes:
    """What a call writes into a room, which is made larger as the call says."""
    count = 256
    while True:
        room, length = c.create_string_buffer(count), u64()
        try:
            call(*arguments, room, count, length)
        except TooSmall:
            count = length.value
            continue
        return room.raw[:length.value]


_Owner = TypeVar("_Owner", bound="Owner")


class Owner:
    """What owns a handle, and frees it."""

    _free = staticmethod(session_free)

    def __init__(self) -> None:
        self._handle = Handle()

    def close(self) -> None:
        """Frees what the object holds; later calls raise WrongHandle. May be called twice."""
        self._free(self._handle)

    def __enter__(self: _Owner) -> _Owner:
        return self

    def __exit__(self, *_: object) -> None:
        self.close()

    def __del__(self) -> None:
        if hasattr(self, "_handle"):
            self.close()
