use std::fmt;

use btcheck_sys as sys;

use crate::{BlockRefusal, HashRefusal, TorrentRefusal};

/// Why a call was refused. Nothing has changed then.
#[derive(Clone, Copy, Debug, PartialEq, Eq, Hash)]
#[non_exhaustive]
pub enum Error {
    /// The handle holds nothing, or something of another kind; or it is full where it should be empty.
    WrongHandle,
    /// Memory was refused.
    NoMemory,
    /// There are more than 2^46 bytes, more than the file, its pieces or the frame have, or 2^32 or more in a body.
    TooLong,
    /// An empty file has no root.
    NoRoot,
    /// The torrent has no such tree, block, file or piece.
    NoSuch,
    /// There is nothing to ask for or to answer with, or the block is not marked.
    Nothing,
    /// The room is too small.
    TooSmall,
    /// A message of id 7, 21, 22 or 23 has a wrong size.
    BadSize,
    /// Bytes of the file, of its pieces or of the frame are still to come.
    TooShort,
    /// A piece is not the torrent's.
    BadPiece,
    /// The block is held until its hash is known.
    Held,
    /// The torrent is refused.
    Torrent(TorrentRefusal),
    /// The hashes are refused.
    Hashes(HashRefusal),
    /// The block or the piece is refused.
    Block(BlockRefusal),
    /// A status that only a later library has.
    Other(u32),
}

impl Error {
    /// What a status of the library says.
    pub(crate) fn of(status: sys::btcheck_status) -> Result<(), Self> {
        Self::explained(status, &sys::btcheck_refusal::default())
    }

    /// What a status of the library says, and what a refusal of a torrent has beside it.
    pub(crate) fn explained(
        status: sys::btcheck_status,
        more: &sys::btcheck_refusal,
    ) -> Result<(), Self> {
        let other = Error::Other(status);
        Err(match status {
            sys::BTCHECK_OK => return Ok(()),
            sys::BTCHECK_WRONG_HANDLE => Error::WrongHandle,
            sys::BTCHECK_NO_MEMORY => Error::NoMemory,
            sys::BTCHECK_TOO_LONG => Error::TooLong,
            sys::BTCHECK_NO_ROOT => Error::NoRoot,
            sys::BTCHECK_NO_SUCH => Error::NoSuch,
            sys::BTCHECK_NOTHING => Error::Nothing,
            sys::BTCHECK_TOO_SMALL => Error::TooSmall,
            sys::BTCHECK_BAD_SIZE => Error::BadSize,
            sys::BTCHECK_TOO_SHORT => Error::TooShort,
            sys::BTCHECK_BAD_PIECE => Error::BadPiece,
            sys::BTCHECK_HELD => Error::Held,
            101..=199 => TorrentRefusal::of(status - 100, more).map_or(other, Error::Torrent),
            201..=299 => HashRefusal::of(status - 200, more).map_or(other, Error::Hashes),
            301..=399 => BlockRefusal::of(status - 300, more).map_or(other, Error::Block),
            _ => other,
        })
    }

    /// The number of btcheck.h.
    pub fn status(self) -> u32 {
        match self {
            Error::WrongHandle => sys::BTCHECK_WRONG_HANDLE,
            Error::NoMemory => sys::BTCHECK_NO_MEMORY,
            Error::TooLong => sys::BTCHECK_TOO_LONG,
            Error::NoRoot => sys::BTCHECK_NO_ROOT,
            Error::NoSuch => sys::BTCHECK_NO_SUCH,
            Error::Nothing => sys::BTCHECK_NOTHING,
            Error::TooSmall => sys::BTCHECK_TOO_SMALL,
            Error::BadSize => sys::BTCHECK_BAD_SIZE,
            Error::TooShort => sys::BTCHECK_TOO_SHORT,
            Error::BadPiece => sys::BTCHECK_BAD_PIECE,
            Error::Held => sys::BTCHECK_HELD,
            Error::Torrent(refusal) => 100 + refusal.number(),
            Error::Hashes(refusal) => 200 + refusal.number(),
            Error::Block(refusal) => 300 + refusal.number(),
            Error::Other(status) => status,
        }
    }
}

impl fmt::Display for Error {
    fn fmt(&self, f: &mut fmt::Formatter<'_>) -> fmt::Result {
        f.write_str(match self {
            Error::WrongHandle => {
                "The handle holds nothing, or something of another kind; or it is full where it should be empty."
            }
            Error::NoMemory => "Memory was refused.",
            Error::TooLong => {
                "There are more than 2^46 bytes, more than the file, its pieces or the frame have, or 2^32 or more in a body."
            }
            Error::NoRoot => "An empty file has no root.",
            Error::NoSuch => "The torrent has no such tree, block, file or piece.",
            Error::Nothing => {
                "There is nothing to ask for or to answer with, or the block is not marked."
            }
            Error::TooSmall => "The room is too small.",
            Error::BadSize => "A message of id 7, 21, 22 or 23 has a wrong size.",
            Error::TooShort => "Bytes of the file, of its pieces or of the frame are still to come.",
            Error::BadPiece => "A piece is not the torrent's.",
            Error::Held => "The block is held until its hash is known.",
            Error::Torrent(refusal) => return refusal.fmt(f),
            Error::Hashes(refusal) => return refusal.fmt(f),
            Error::Block(refusal) => return refusal.fmt(f),
            Error::Other(status) => return write!(f, "An unknown status: {status}."),
        })
    }
}

impl std::error::Error for Error {}
