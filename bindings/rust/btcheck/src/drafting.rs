use std::io;
use std::ptr;

use btcheck_sys as sys;

use crate::files::text_of;
use crate::Error;

/// The draft of a torrent, to which files are added in any order.
#[derive(Debug)]
pub struct Draft {
    handle: sys::btcheck_draft,
}

// SAFETY: it is proved that a handle may move; one handle is in one call at a time, since each takes `&mut self`.
unsafe impl Send for Draft {}

impl Draft {
    /// A draft without files, with this piece length in bytes. `TorrentRefusal::PieceLength`: it is no power of two from
    /// 16,384 to 2^30.
    pub fn new(name: &str, piece_length: u64, hybrid: bool) -> Result<Self, Error> {
        let mut draft = Draft {
            handle: sys::btcheck_draft {
                full: false,
                at: ptr::null_mut(),
            },
        };
        // SAFETY: the handle is empty and ours; a text's pointer is not null and leads to its bytes.
        Error::of(unsafe {
            sys::btcheck_draft_new(
                &mut draft.handle,
                name.as_ptr(),
                name.len(),
                piece_length,
                hybrid,
            )
        })?;
        Ok(draft)
    }

    /// Adds the file under this path, its components joined by `/`. The file then begins anew. `TorrentRefusal::Path`,
    /// `RootReused`, `TooManyPieces` or `PathClash`: the draft is as before, and the file can be added under another path.
    /// `WrongHandle`: the file is for drafts of another piece length or kind.
    pub fn add(&mut self, file: &mut DraftFile, path: &str) -> Result<(), Error> {
        // SAFETY: two handles that do not overlap, and a text apart from them.
        Error::of(unsafe {
            sys::btcheck_draft_add(
                &mut self.handle,
                &mut file.handle,
                path.as_ptr(),
                path.len(),
            )
        })
    }

    /// The torrent file. More files can be added afterwards. `TorrentRefusal::NoFiles`: no file was added. `TooLarge`: it
    /// would have more than 67,108,864 bytes; longer pieces make it smaller.
    pub fn finish(&mut self) -> Result<Vec<u8>, Error> {
        // SAFETY: the room has as many bytes as it is said to have, and nothing overlaps.
        text_of(|room, size, length| unsafe {
            sys::btcheck_draft_finish(&mut self.handle, room, size, length)
        })
    }
}

impl Drop for Draft {
    fn drop(&mut self) {
        // SAFETY: free takes every handle.
        unsafe { sys::btcheck_draft_free(&mut self.handle) }
    }
}

/// A file for a draft, whose bytes come in parts of any size. An empty file needs no push. Different files may come in
/// different threads at once.
#[derive(Debug)]
pub struct DraftFile {
    handle: sys::btcheck_draft_file,
}

// SAFETY: as for `Draft`.
unsafe impl Send for DraftFile {}

impl DraftFile {
    /// A file of which nothing came yet, for this draft and others of its piece length and kind.
    pub fn new(draft: &mut Draft) -> Result<Self, Error> {
        let mut file = DraftFile {
            handle: sys::btcheck_draft_file {
                full: false,
                at: ptr::null_mut(),
            },
        };
        // SAFETY: two handles that do not overlap, of which the first is empty and ours.
        Error::of(unsafe { sys::btcheck_draft_file_new(&mut file.handle, &mut draft.handle) })?;
        Ok(file)
    }

    /// Takes the file's next bytes. `TooLong`: past 2^46 bytes, or a draft refused the file; nothing was taken.
    pub fn push(&mut self, bytes: &[u8]) -> Result<(), Error> {
        // SAFETY: a slice's pointer is not null and leads to its bytes, apart from the handle.
        Error::of(unsafe {
            sys::btcheck_draft_file_push(&mut self.handle, bytes.as_ptr(), bytes.len())
        })
    }
}

/// What is written is pushed. A refusal is an error of the kind `Other` that holds it.
impl io::Write for DraftFile {
    fn write(&mut self, bytes: &[u8]) -> io::Result<usize> {
        let pushed = self.push(bytes).map(|()| bytes.len());
        pushed.map_err(|error| io::Error::new(io::ErrorKind::Other, error))
    }

    fn flush(&mut self) -> io::Result<()> {
        Ok(())
    }
}

impl Drop for DraftFile {
    fn drop(&mut self) {
        // SAFETY: free takes every handle.
        unsafe { sys::btcheck_draft_file_free(&mut self.handle) }
    }
}
