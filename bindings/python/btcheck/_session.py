"""The session of a torrent."""
from __future__ import annotations

import ctypes as c
from collections.abc import Callable, Iterable, Iterator
from typing import Any

from . import _library as lib
from ._library import AskLike, Content, Owner, content_of, digests, fields, holds, laid_out, number, room_of, u64
from ._refusals import BadPiece, Nothing, TooSmall, TorrentRefused, explain
from ._values import Ask, Blocks, File, HeldBlocks, Piece, PieceRange, Run, Settled, Taken, Verdict

# The most bytes of one message of an export.
MOST_EXPORTED = 17461


class Session(Owner):
    """What a client knows of a torrent's hash trees, and what it makes of messages of peers."""

    def __init__(self, torrent: Content, layers: bool = True) -> None:
        """Opens a torrent file. With `layers` the session begins with its piece layers, else with the roots alone."""
        super().__init__()
        if not isinstance(layers, bool):
            raise TypeError("layers is True or False")
        self._torrent = content_of(torrent)  # lent to the library until close
        more = lib.RefusalInfo()
        try:
            lib.session_open_explained(self._handle, self._torrent, len(self._torrent), layers, more)
        except TorrentRefused as refused:
            explain(refused, more.offset, more.fault, more.key)
            raise

    def take_hashes(self, ask: AskLike, hashes: Iterable[Content]) -> int:
        """Takes a hashes message: its five fields and its hashes. Returns how many places are newly known."""
        given, places = digests(hashes), u64()
        lib.session_take_hashes(self._handle, *fields(ask), given, len(given) // 32, places)
        return places.value

    def take_block(self, index: int, begin: int, block: Content) -> tuple[int, int]:
        """Takes a block of a piece message. Returns the file and the block that it is, both from 0."""
        block, file, at = content_of(block), u64(), u64()
        lib.session_take_block(self._handle, number(index, "index"), number(begin, "begin"), block, len(block), file, at)
        return file.value, at.value

    def take_piece(self, index: int, data: Content) -> tuple[int, int]:
        """Takes the bytes of a whole piece, once all its blocks came: its leaves lead to its known node, and are known
        and marked then. Returns the file and its first block of the piece. Raises P3Unproved if that node is not known,
        and P4BadBlock if the bytes lead to another one."""
        data, file, at = content_of(data), u64(), u64()
        lib.session_take_piece(self._handle, number(index, "index"), data, len(data), file, at)
        return file.value, at.value

    def take_blocks(self, index: int, begin: int, data: Content) -> Blocks:
        """Takes all blocks of a piece message, at most 17, and says of each whether it is verified. Raises P1BadPlace
        or P2BadSize if the whole message is refused."""
        data, blocks = content_of(data), lib.BlocksInfo()
        lib.session_take_blocks(self._handle, number(index, "index"), number(begin, "begin"), data, len(data), blocks)
        return blocks.read()

    def hold(self, holdings: Holdings, index: int, begin: int, data: Content) -> HeldBlocks:
        """As `take_blocks`, but blocks that cannot be proved yet are held: their outcome is Held. Call `settle`
        afterwards until it gives None."""
        data, held = content_of(data), lib.HeldInfo()
        lib.session_hold(self._handle, _held_by(holdings), number(index, "index"), number(begin, "begin"), data, len(data), held)
        return held.read()

    def settle(self, holdings: Holdings) -> Settled | None:
        """What became of held blocks, a run of blocks at a time; None if there is nothing more. Raises NoMemory if
        memory was refused for a piece, which stays held."""
        run = lib.RunInfo()
        try:
            if not holds(lib.session_settle, self._handle, _held_by(holdings), run):
                return None
        except BadPiece:
            return Settled(False, Run(run.tree, run.first, run.last))
        return Settled(True, Run(run.tree, run.first, run.last))

    def frame(self, body: Content) -> Verdict:
        """Takes the body of one frame as it came, without the four bytes of its length. Raises the refusal of its
        hashes or of its blocks as a whole, or BadSize."""
        body, verdict = content_of(body), lib.VerdictInfo()
        lib.session_frame(self._handle, body, len(body), verdict)
        return verdict.read()

    def take_frame(self, frame: Content, asked: bool = False) -> Taken:
        """Takes one whole frame as it came, its four bytes of length and its body. If `asked`, hashes must answer a noted
        request, as by `take_answer`. Raises what `frame` raises; TooShort if bytes of it are still to come, and TooLong if
        bytes follow it."""
        frame, taken = content_of(frame), lib.TakenInfo()
        lib.session_take_frame(self._handle, frame, len(frame), _truth(asked), taken)
        return taken.read()

    def hold_frame(self, holdings: Holdings, frame: Content, asked: bool = False) -> Taken:
        """As `take_frame`, but blocks that cannot be proved yet are held, as by `hold`. Call `settle` afterwards until it
        gives None: it looks at the pieces of these blocks, or, after hashes that were joined, at all pieces of their
        tree."""
        frame, taken = content_of(frame), lib.TakenInfo()
        lib.session_hold_frame(self._handle, _held_by(holdings), frame, len(frame), _truth(asked), taken)
        return taken.read_held()

    def files(self) -> list[File]:
        """The files of the torrent, in its order."""
        return [self.file(at) for at in range(self.file_count())]

    def file_count(self) -> int:
        """How many files the torrent has."""
        return self._counts_of_all()[0]

    def tree_count(self) -> int:
        """How many trees the torrent has: its distinct roots."""
        return self._counts_of_all()[1]

    def _counts_of_all(self) -> tuple[int, int]:
        files, trees = u64(), u64()
        lib.session_files(self._handle, files, trees)
        return files.value, trees.value

    def file(self, file: int) -> File:
        """A file of the torrent, numbered from 0. Raises NoSuch if there are fewer."""
        info = lib.FileInfo()
        lib.session_file(self._handle, number(file, "file", 64), info)
        tree = None if info.tree == 2**64 - 1 else info.tree
        root = None if tree is None else bytes(info.root)
        return File(self.path(file), info.length, info.first_piece, tree, root)

    def path(self, file: int) -> str:
        """A file's path, its components joined by `/`. Raises NoSuch if there are fewer files."""
        return _text(lib.session_path, self._handle, number(file, "file", 64))

    def name(self) -> str:
        """The torrent's name."""
        return _text(lib.session_name, self._handle)

    def piece_length(self) -> int:
        """Bytes of a piece, but for a file's last one."""
        return self._number(lib.session_piece_length)

    def pieces(self) -> int:
        """How many pieces all files have together: they are numbered from 0 through all files."""
        return self._number(lib.session_pieces)

    def piece(self, index: int) -> Piece:
        """A piece, numbered from 0 through all files. Raises NoSuch if there are fewer."""
        info = lib.PieceInfo()
        lib.session_piece(self._handle, number(index, "index"), info)
        return Piece(info.length, info.file, info.block, info.offset)

    def file_pieces(self, file: int) -> range:
        """The numbers of a file's pieces; none if it is empty. Raises NoSuch if there are fewer files."""
        first, count = u64(), u64()
        lib.session_file_pieces(self._handle, number(file, "file", 64), first, count)
        return range(first.value, first.value + count.value)

    def map_file(self, file: int, offset: int, length: int) -> PieceRange:
        """Where bytes of a file lie, from an offset on: `length` of them, or fewer where the file ends. Raises NoSuch if there
        is no such file, or no byte at the offset."""
        info = lib.RangeInfo()
        lib.session_map_file(self._handle, number(file, "file", 64), number(offset, "offset", 64), number(length, "length", 64), info)
        return PieceRange(info.piece, info.begin, info.length)

    def _number(self, call: Callable[..., None]) -> int:
        found = u64()
        call(self._handle, found)
        return found.value

    def is_hybrid(self) -> bool:
        """Whether the torrent is one of version 1 too."""
        return holds(lib.session_is_hybrid, self._handle)

    def info_hashes(self) -> tuple[bytes, bytes]:
        """The info-hashes of version 2 and version 1: SHA-256 and SHA-1 of the info dictionary. A torrent that is no hybrid
        is known by the first one alone."""
        v2, v1 = c.create_string_buffer(32), c.create_string_buffer(20)
        lib.session_info_hashes(self._handle, v2, v1)
        return v2.raw, v1.raw

    def info_hash_v1(self) -> bytes | None:
        """The info-hash by which clients of version 1 know a hybrid; None of another torrent."""
        return self.info_hashes()[1] if self.is_hybrid() else None

    def counts(self, tree: int) -> tuple[int, int]:
        """How many places of a tree are known, and how many leaves are marked as verified."""
        known, marked = u64(), u64()
        lib.session_counts(self._handle, number(tree, "tree", 64), known, marked)
        return known.value, marked.value

    def is_marked(self, tree: int, block: int) -> bool:
        """Whether the leaf of a block of a tree is marked as verified. Raises NoSuch if there is no such block."""
        return holds(lib.session_is_marked, self._handle, number(tree, "tree", 64), number(block, "block", 64))

    def file_counts(self, file: int) -> tuple[int, int]:
        """How many blocks of a file are marked as verified, and how many it has. Files of one tree have their marks together.
        Raises NoSuch if there is no such file."""
        marked, blocks = u64(), u64()
        lib.session_file_counts(self._handle, number(file, "file", 64), marked, blocks)
        return marked.value, blocks.value

    def bitfield(self) -> bytes:
        """The bitfield of the pieces whose blocks are all marked as verified (BEP 3)."""
        return room_of(lib.session_bitfield, self._handle)

    def want(self, tree: int, block: int) -> Ask | None:
        """What to ask for next to learn the leaf of a block of a tree; None if it is known. Raises NoSuch if there is
        no such block."""
        ask = lib.Asked()
        return ask.read() if holds(lib.session_want, self._handle, number(tree, "tree", 64), number(block, "block", 64), ask) else None

    def note(self, ask: AskLike) -> None:
        """Notes that a request with these five fields was sent."""
        lib.session_note(self._handle, laid_out(ask))

    def take_answer(self, ask: AskLike, hashes: Iterable[Content]) -> int:
        """Takes hashes that answer a noted request. Returns how many places are newly known."""
        given, places = digests(hashes), u64()
        lib.session_take_answer(self._handle, laid_out(ask), given, len(given) // 32, places)
        return places.value

    def answer_or_none(self, ask: AskLike) -> list[bytes] | None:
        """The hashes that answer a peer's request; None if it has to be rejected."""
        try:
            return self.answer(ask)
        except Nothing:
            return None

    def answer(self, ask: AskLike) -> list[bytes]:
        """As `answer_or_none`, but raises Nothing if the request has to be rejected."""
        asked, count = laid_out(ask), u64()
        for room in (544, 8224):  # of one more than a range's length and 31 layers
            space = c.create_string_buffer(32 * room)
            try:
                lib.session_answer(self._handle, asked, space, room, count)
            except TooSmall:
                continue
            return [space.raw[at:at + 32] for at in range(0, 32 * count.value, 32)]
        raise TooSmall

    def answer_frame(self, ask: AskLike) -> bytes:
        """The whole frame that answers a peer's request, with the four bytes of its length: of the hashes, or of a reject if
        they are not known."""
        asked, length = laid_out(ask), u64()
        for size in (53 + 32 * 544, 53 + 32 * 8224):
            room = c.create_string_buffer(size)
            try:
                lib.session_answer_frame(self._handle, asked, room, size, length)
            except TooSmall:
                continue
            except Nothing:
                pass  # a reject is written too
            return room.raw[:length.value]
        raise TooSmall

    def export(self) -> Iterator[bytes]:
        """What is known beyond the torrent's own layers, as whole frames of hashes messages: each known leaf is in one
        of them, with the proof up to its root. The frames can be kept one after the other in a file; `take_frame` of
        any session of the torrent takes them. They prove themselves then, so a changed file does no harm."""
        cursor, room, length = lib.CursorInfo(), c.create_string_buffer(MOST_EXPORTED), u64()
        while True:
            try:
                lib.session_export(self._handle, cursor, room, len(room), length)
            except Nothing:
                return
            yield room.raw[:length.value]

    def fill(self, tree: int, layer: int, hashes: Iterable[Content]) -> int:
        """Takes a whole layer of a tree, 0 for the leaves, without the pads past the file's end. Returns how many places
        are newly known. Raises NoSuch if there is no such tree, and H2BadRange, H3BadCount, H6Mismatch or H7NoMemory if
        the layer is refused."""
        given, places = digests(hashes), u64()
        lib.session_fill(self._handle, number(tree, "tree", 64), number(layer, "layer"), given, len(given) // 32, places)
        return places.value

    def can_answer(self, ask: AskLike) -> bool:
        """Whether `answer` would give hashes for this request."""
        return holds(lib.session_can_answer, self._handle, laid_out(ask))


def request_frame(ask: AskLike) -> bytes:
    """The whole frame of a hash request, with the four bytes of its length: of what `Session.want` gives, say."""
    return _ask_frame(lib.request_frame, ask)


def reject_frame(ask: AskLike) -> bytes:
    """The whole frame of a hash reject, with the four bytes of its length: no hashes come for this request."""
    return _ask_frame(lib.reject_frame, ask)


def _ask_frame(call: Callable[..., None], ask: AskLike) -> bytes:
    frame = c.create_string_buffer(53)
    call(laid_out(ask), frame)
    return frame.raw


class Holdings(Owner):
    """The digests of blocks that cannot be proved yet, beside a session: at most `bound`, and no fewer than the longest
    piece has. The piece whose newest block came longest ago gives way."""

    _free = staticmethod(lib.holdings_free)

    def __init__(self, session: Session, bound: int) -> None:
        super().__init__()
        if not isinstance(session, Session):
            raise TypeError("holdings are of a Session")
        lib.holdings_new(self._handle, session._handle, number(bound, "bound", 64))

    def look_at(self, tree: int) -> None:
        """Hashes of this tree were taken: `Session.settle` looks at its held pieces."""
        lib.holdings_look_at(self._handle, number(tree, "tree", 64))

    def held(self) -> int:
        """How many blocks are held."""
        count = u64()
        lib.session_held(self._handle, count)
        return count.value


def _truth(asked: bool) -> bool:
    if not isinstance(asked, bool):
        raise TypeError("asked is True or False")
    return asked


def _held_by(holdings: Holdings) -> lib.Handle:
    if not isinstance(holdings, Holdings):
        raise TypeError("blocks are held by Holdings")
    return holdings._handle


def _text(call: Callable[..., None], *arguments: Any) -> str:
    """The text that a call writes into a room."""
    return room_of(call, *arguments).decode()
