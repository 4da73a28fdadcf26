use std::ffi::OsString;
use std::ops::Range;
use std::os::unix::ffi::OsStringExt;
use std::path::PathBuf;

use btcheck_sys as sys;

use crate::session::yes_or_no;
use crate::{Error, Hash, Session};

/// A file of a torrent.
#[derive(Clone, Debug, PartialEq, Eq)]
pub struct File {
    /// Its path, which leads to no place outside the folder in which it is looked up.
    pub path: PathBuf,
    /// Bytes.
    pub length: u64,
    /// The piece at which it begins; that of the next file if it is empty.
    pub first_piece: u64,
    /// The number of its tree, and its root; `None` if it is empty.
    pub tree: Option<(usize, Hash)>,
}

/// The digests of the info dictionary.
#[derive(Clone, Copy, Debug, PartialEq, Eq)]
pub struct InfoHashes {
    /// SHA-256 (BEP 52).
    pub v2: Hash,
    /// SHA-1 (BEP 3).
    pub v1: [u8; 20],
}

/// The files of a torrent, one after the other.
#[derive(Debug)]
pub struct Files<'s> {
    session: &'s Session,
    numbers: Range<usize>,
}

impl Iterator for Files<'_> {
    type Item = Result<File, Error>;

    fn next(&mut self) -> Option<Self::Item> {
        Some(self.session.file(self.numbers.next()?))
    }

    fn size_hint(&self) -> (usize, Option<usize>) {
        self.numbers.size_hint()
    }
}

impl ExactSizeIterator for Files<'_> {}

impl Session {
    /// The files of the torrent, in its order.
    pub fn files(&self) -> Files<'_> {
        let numbers = 0..self.file_count().unwrap_or(0);
        Files {
            session: self,
            numbers,
        }
    }

    /// How many files the torrent has.
    pub fn file_count(&self) -> Result<usize, Error> {
        Ok(self.counts_of_all()?.0)
    }

    /// How many trees the torrent has, which are its distinct roots in the order of first use.
    pub fn tree_count(&self) -> Result<usize, Error> {
        Ok(self.counts_of_all()?.1)
    }

    fn counts_of_all(&self) -> Result<(usize, usize), Error> {
        let (mut files, mut trees) = (0, 0);
        // SAFETY: three places that do not overlap.
        Error::of(unsafe { sys::btcheck_session_files(self.handle(), &mut files, &mut trees) })?;
        Ok((files as usize, trees as usize))
    }

    /// A file, by its number from 0 on in the order of the torrent. `NoSuch`: there are fewer.
    pub fn file(&self, number: usize) -> Result<File, Error> {
        let mut file = sys::btcheck_file::default();
        // SAFETY: two places that do not overlap.
        Error::of(unsafe { sys::btcheck_session_file(self.handle(), number, &mut file) })?;
        let tree = (file.length > 0).then_some((file.tree as usize, file.root));
        Ok(File {
            path: self.path(number)?,
            length: file.length,
            first_piece: file.first_piece,
            tree,
        })
    }

    /// A file's path. It leads to no place outside the folder in which it is looked up.
    pub fn path(&self, number: usize) -> Result<PathBuf, Error> {
        let path = text_of(|room, size, length| {
            // SAFETY: `text_of` gives a room of this size; no two places overlap.
            unsafe { sys::btcheck_session_path(self.handle(), number, room, size, length) }
        })?;
        Ok(OsString::from_vec(path).into())
    }

    /// The torrent's name.
    pub fn name(&self) -> Result<String, Error> {
        let name = text_of(|room, size, length| {
            // SAFETY: as for `path`.
            unsafe { sys::btcheck_session_name(self.handle(), room, size, length) }
        })?;
        Ok(String::from_utf8_lossy(&name).into_owned())
    }

    /// Bytes of a piece, but for a file's last one.
    pub fn piece_length(&self) -> Result<u64, Error> {
        let mut length = 0;
        // SAFETY: two places that do not overlap.
        Error::of(unsafe { sys::btcheck_session_piece_length(self.handle(), &mut length) })?;
        Ok(length)
    }

    /// How many pieces all files have together: they are numbered from 0 through all files.
    pub fn pieces(&self) -> Result<u64, Error> {
        let mut pieces = 0;
        // SAFETY: two places that do not overlap.
        Error::of(unsafe { sys::btcheck_session_pieces(self.handle(), &mut pieces) })?;
        Ok(pieces)
    }

    /// Whether the torrent is one of version 1 too.
    pub fn is_hybrid(&self) -> Result<bool, Error> {
        // SAFETY: the handle is ours.
        yes_or_no(unsafe { sys::btcheck_session_is_hybrid(self.handle()) })
    }

    /// The info-hash by which clients of version 1 know a hybrid; `None` of another torrent.
    pub fn info_hash_v1(&self) -> Result<Option<[u8; 20]>, Error> {
        Ok(if self.is_hybrid()? {
            Some(self.info_hashes()?.v1)
        } else {
            None
        })
    }

    /// The digests of the info dictionary. A torrent that is no hybrid is known by that of version 2 alone.
    pub fn info_hashes(&self) -> Result<InfoHashes, Error> {
        let mut found = InfoHashes {
            v2: [0; 32],
            v1: [0; 20],
        };
        // SAFETY: three places that do not overlap.
        Error::of(unsafe {
            sys::btcheck_session_info_hashes(self.handle(), &mut found.v2, &mut found.v1)
        })?;
        Ok(found)
    }
}

/// What a call writes into a room, which is made larger as the call says.
pub(crate) fn text_of(
    mut call: impl FnMut(*mut u8, usize, &mut u64) -> sys::btcheck_status,
) -> Result<Vec<u8>, Error> {
    let mut room = vec![0; 256];
    loop {
        let mut length = 0;
        let status = call(room.as_mut_ptr(), room.len(), &mut length);
        if status == sys::BTCHECK_TOO_SMALL {
            room.resize(length as usize, 0);
            continue;
        }
        Error::of(status)?;
        room.truncate(length as usize);
        return Ok(room);
    }
}
