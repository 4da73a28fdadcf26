use std::ops::Range;

use btcheck_sys as sys;

use crate::files::text_of;
use crate::{Error, Piece, PieceRange, Session};

/// How far a file is.
#[derive(Clone, Copy, Debug, PartialEq, Eq)]
pub struct FileCounts {
    /// Blocks of the file that are marked as verified.
    pub marked: u64,
    /// All blocks of the file.
    pub blocks: u64,
}

impl Session {
    /// A piece, numbered from 0 through all files: its bytes, its file, and its first block and its first byte there.
    /// `NoSuch`: there are fewer.
    pub fn piece(&self, index: u32) -> Result<Piece, Error> {
        let mut piece = Piece::default();
        // SAFETY: two places that do not overlap.
        Error::of(unsafe { sys::btcheck_session_piece(self.handle(), index, &mut piece) })?;
        Ok(piece)
    }

    /// The numbers of a file's pieces; none if it is empty. `NoSuch`: there is no such file.
    pub fn file_pieces(&self, number: usize) -> Result<Range<u64>, Error> {
        let (mut first, mut count) = (0, 0);
        // SAFETY: three places that do not overlap.
        Error::of(unsafe {
            sys::btcheck_session_file_pieces(self.handle(), number, &mut first, &mut count)
        })?;
        Ok(first..first + count)
    }

    /// Where bytes of a file lie, from an offset on: `length` of them, or fewer where the file ends. `NoSuch`: there is no
    /// such file, or it has no byte at the offset.
    pub fn map_file(&self, number: usize, offset: u64, length: u64) -> Result<PieceRange, Error> {
        let mut range = PieceRange::default();
        // SAFETY: two places that do not overlap.
        Error::of(unsafe {
            sys::btcheck_session_map_file(self.handle(), number, offset, length, &mut range)
        })?;
        Ok(range)
    }

    /// How many blocks of a file are marked as verified, and how many it has. Files of one tree have their marks together.
    /// `NoSuch`: there is no such file.
    pub fn file_counts(&self, number: usize) -> Result<FileCounts, Error> {
        let (mut marked, mut blocks) = (0, 0);
        // SAFETY: three places that do not overlap.
        Error::of(unsafe {
            sys::btcheck_session_file_counts(self.handle(), number, &mut marked, &mut blocks)
        })?;
        Ok(FileCounts { marked, blocks })
    }

    /// The bitfield of the pieces whose blocks are all marked as verified (BEP 3): bit 0, the highest of the first byte, is
    /// that of piece 0.
    pub fn bitfield(&self) -> Result<Vec<u8>, Error> {
        text_of(|room, size, length| {
            // SAFETY: `text_of` gives a room of this size; no two places overlap.
            unsafe { sys::btcheck_session_bitfield(self.handle(), room, size, length) }
        })
    }
}
