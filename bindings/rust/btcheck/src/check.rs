use std::ops::Range;
use std::ptr;
use std::sync::Arc;

use btcheck_sys as sys;

use crate::{Error, Session};

/// The check of a file's bytes, or of those of some of its pieces in a row, which come in parts of any size. It keeps the
/// torrent's bytes, and may outlive its session: several threads check one file, each with its own.
#[derive(Debug)]
pub struct Check {
    handle: sys::btcheck_check,
    // What the handle reads until it is freed.
    _torrent: Arc<[u8]>,
}

// SAFETY: it is proved that a handle may move; one handle is in one call at a time, since each takes `&mut self`.
unsafe impl Send for Check {}

impl Check {
    fn empty(session: &Session) -> Self {
        Check {
            handle: sys::btcheck_check {
                full: false,
                at: ptr::null_mut(),
            },
            _torrent: session.torrent.clone(),
        }
    }

    /// Begins the check of a file, by its number from 0. `NoRoot`: the file is empty. `NoSuch`: there is no such file.
    pub fn new(session: &Session, file: usize) -> Result<Self, Error> {
        let mut check = Check::empty(session);
        // SAFETY: the handle is empty and ours; the torrent's bytes stay as long as the check has them.
        Error::of(unsafe { sys::btcheck_check_new(&mut check.handle, session.handle(), file) })?;
        Ok(check)
    }

    /// Begins the check of a file's pieces from one number up to another, from 0 in the file. `NoSuch`: there is no such
    /// file, or it has not these pieces.
    pub fn new_pieces(session: &Session, file: usize, pieces: Range<u64>) -> Result<Self, Error> {
        let mut check = Check::empty(session);
        // SAFETY: as for `new`.
        Error::of(unsafe {
            sys::btcheck_check_new_pieces(
                &mut check.handle,
                session.handle(),
                file,
                pieces.start,
                pieces.end,
            )
        })?;
        Ok(check)
    }

    /// Takes the next bytes. `TooLong`: fewer are still to come, and nothing was taken.
    pub fn push(&mut self, bytes: &[u8]) -> Result<(), Error> {
        // SAFETY: a slice's pointer is not null and leads to its bytes, apart from the handle.
        Error::of(unsafe { sys::btcheck_check_push(&mut self.handle, bytes.as_ptr(), bytes.len()) })
    }

    /// As `push`, and sets the bit of each piece that is complete and good: bit 0, the highest of the first byte, is that of
    /// the first piece that is checked. The bits are clear at first, and the same at each call.
    pub fn push_bits(&mut self, bytes: &[u8], good: &mut [u8]) -> Result<(), Error> {
        // SAFETY: slices' pointers are not null and lead to their bytes, apart from each other and from the handle.
        Error::of(unsafe {
            sys::btcheck_check_push_bits(
                &mut self.handle,
                bytes.as_ptr(),
                bytes.len(),
                good.as_mut_ptr(),
                good.len(),
            )
        })
    }

    /// The first piece of the file that is not the torrent's, from 0, or `None` if each is. The check begins anew.
    /// `TooShort`: bytes are still to come, and the check goes on.
    pub fn finish(&mut self) -> Result<Option<u64>, Error> {
        let mut piece = 0;
        // SAFETY: two places that do not overlap.
        let status = unsafe { sys::btcheck_check_finish(&mut self.handle, &mut piece) };
        first_bad(status, piece)
    }

    /// As `finish`, and sets the last piece's bit too. `TooShort`: the content ends here; the bits tell which pieces are
    /// whole and good, and the check begins anew too.
    pub fn finish_bits(&mut self, good: &mut [u8]) -> Result<Option<u64>, Error> {
        let mut piece = 0;
        // SAFETY: places that do not overlap; the slice's pointer leads to its bytes.
        let status = unsafe {
            sys::btcheck_check_finish_bits(
                &mut self.handle,
                &mut piece,
                good.as_mut_ptr(),
                good.len(),
            )
        };
        first_bad(status, piece)
    }
}

fn first_bad(status: sys::btcheck_status, piece: u64) -> Result<Option<u64>, Error> {
    match Error::of(status) {
        Ok(()) => Ok(None),
        Err(Error::BadPiece) => Ok(Some(piece)),
        Err(error) => Err(error),
    }
}

impl Drop for Check {
    fn drop(&mut self) {
        // SAFETY: free takes every handle.
        unsafe { sys::btcheck_check_free(&mut self.handle) }
    }
}
