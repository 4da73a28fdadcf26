"""Torrents that are made: drafts, to which files are added, and the torrent of a folder."""
from __future__ import annotations

import functools
import os
import stat
from collections.abc import Iterable, Iterator
from io import FileIO
from typing import Any

from . import _library as lib
from ._globs import pattern_of
from ._library import Content, Owner, content_of, number, room_of

# Bytes of one read. Eight pieces of a hybrid are hashed side by side.
_PART = 1 << 20


class Draft(Owner):
    """The draft of a torrent, to which files are added in any order."""

    _free = staticmethod(lib.draft_free)

    def __init__(self, name: str | Content, piece_length: int, hybrid: bool = False) -> None:
        """A draft without files. Raises TorrentPieceLength unless the piece length is a power of two from 16,384 to 2^30,
        and TorrentWrongType if the name is given as bytes that are not UTF-8."""
        super().__init__()
        if not isinstance(hybrid, bool):
            raise TypeError("hybrid is True or False")
        given = _text_of(name)
        lib.draft_new(self._handle, given, len(given), number(piece_length, "piece_length", 64), hybrid)

    def add(self, file: DraftFile, path: str | Content) -> None:
        """Adds the file under this path, its components joined by `/`. The file then begins anew. Raises TorrentPath,
        TorrentRootReused, TorrentTooManyPieces and TorrentPathClash: the draft is as before, and the file can be added
        under another path. Raises WrongHandle if the file is for drafts of another piece length or kind."""
        if not isinstance(file, DraftFile):
            raise TypeError("what is added is a DraftFile")
        given = _text_of(path)
        lib.draft_add(self._handle, file._handle, given, len(given))

    def finish(self) -> bytes:
        """The torrent file. More files can be added afterwards. Raises TorrentNoFiles if no file was added, and
        TorrentTooLarge above 67,108,864 bytes: longer pieces make it smaller."""
        return room_of(lib.draft_finish, self._handle)


class DraftFile(Owner):
    """A file for a draft, whose bytes come in parts of any size. An empty file needs no push. Different files may come in
    different threads at once."""

    _free = staticmethod(lib.draft_file_free)

    def __init__(self, draft: Draft) -> None:
        """A file of which nothing came yet, for this draft and others of its piece length and kind."""
        super().__init__()
        if not isinstance(draft, Draft):
            raise TypeError("a file is for a Draft")
        lib.draft_file_new(self._handle, draft._handle)

    def push(self, part: Content) -> None:
        """The file's next bytes. Raises TooLong past 2^46 bytes, or if a draft refused the file, and then takes none."""
        part = content_of(part)
        lib.draft_file_push(self._handle, part, len(part))


def create(folder: str | os.PathLike[str], name: str, piece_length: int | str = "auto", hybrid: bool = False,
           exclude: Iterable[str] = ()) -> bytes:
    """The torrent of all files below a folder, hidden ones too: the bytes that `btcheck create` writes. With "auto" it has
    the smallest piece length up to 2^24 that leaves at most 2,048 pieces. The files whose path, or that of a folder above
    them, matches a glob of `exclude` are left out. The folder itself may be a symlink; what else is neither a file nor a
    folder, a symlink too, is refused with a ValueError, and so are a name that is not UTF-8 and a glob that is none. Raises
    what Draft does, and OSError if something cannot be read."""
    if isinstance(exclude, str):
        raise TypeError("exclude is a list of globs")
    is_left_out = pattern_of(exclude).fullmatch
    found = functools.cache(lambda: [pair for pair in _listed(os.fspath(folder)) if not is_left_out(pair[0].decode())])
    chosen: Any = _chosen(found()) if piece_length == "auto" else piece_length
    with Draft(name, chosen, hybrid) as draft, DraftFile(draft) as file:
        for path, at in sorted(found(), key=lambda pair: pair[0].split(b"/")):
            with _opened(at) as content:
                for part in iter(lambda: content.read(_PART), b""):
                    file.push(part)
            draft.add(file, path)
        return draft.finish()


def _listed(folder: str | bytes, above: bytes = b"") -> Iterator[tuple[bytes, bytes]]:
    """The files below a folder: the path of each below the first folder, and where it is."""
    with os.scandir(os.fsencode(folder)) as entries:
        for entry in entries:
            path = above + entry.name
            if entry.is_dir(follow_symlinks=False):
                yield from _listed(entry.path, path + b"/")
            elif entry.is_file(follow_symlinks=False):
                yield _readable(path), entry.path
            else:
                raise ValueError(f"not a file or folder: {os.fsdecode(path)}")


def _chosen(files: list[tuple[bytes, bytes]]) -> int:
    """The piece length that `--piece-length auto` takes for these files."""
    total = sum(os.stat(at, follow_symlinks=False).st_size for _, at in files)
    return next((1 << power for power in range(14, 24) if total <= 2048 << power), 1 << 24)


def _readable(path: bytes) -> bytes:
    path.decode()  # a UnicodeDecodeError is a ValueError
    return path


def _opened(path: bytes) -> FileIO:
    """The file, if it is one still; a pipe that took its place is not waited for."""
    handle = os.open(path, os.O_RDONLY | os.O_NONBLOCK | os.O_NOFOLLOW)
    if not stat.S_ISREG(os.fstat(handle).st_mode):
        os.close(handle)
        raise ValueError(f"not a file or folder: {os.fsdecode(path)}")
    return open(handle, "rb", buffering=0)


def _text_of(given: str | Content) -> bytes:
    return given.encode() if isinstance(given, str) else content_of(given)
