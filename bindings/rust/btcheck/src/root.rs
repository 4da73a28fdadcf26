use std::io;
use std::ptr;

use btcheck_sys as sys;

use crate::{Error, Hash};

/// The builder of a file's root (BEP 52, "pieces root"): takes its bytes in parts of any size.
#[derive(Debug)]
pub struct Root {
    handle: sys::btcheck_root,
}

/// A file's length in bytes, and its root.
#[derive(Clone, Copy, Debug, PartialEq, Eq)]
pub struct FileRoot {
    /// Bytes.
    pub length: u64,
    /// The root of the file's tree.
    pub hash: Hash,
}

// SAFETY: it is proved that a handle may move; one handle is in one call at a time, since each takes `&mut self`.
unsafe impl Send for Root {}

impl Root {
    /// A builder that was given nothing.
    pub fn new() -> Result<Self, Error> {
        let mut root = Root {
            handle: sys::btcheck_root {
                full: false,
                at: ptr::null_mut(),
            },
        };
        // SAFETY: the handle is empty and ours.
        Error::of(unsafe { sys::btcheck_root_new(&mut root.handle) })?;
        Ok(root)
    }

    /// Takes the file's next bytes. `TooLong`: past 2^46 bytes, and nothing was taken.
    pub fn push(&mut self, bytes: &[u8]) -> Result<(), Error> {
        // SAFETY: a slice's pointer is not null and leads to its bytes, apart from the handle.
        Error::of(unsafe { sys::btcheck_root_push(&mut self.handle, bytes.as_ptr(), bytes.len()) })
    }

    /// Length and root of what was pushed; the builder begins anew. `NoRoot`: nothing was pushed.
    pub fn finish(&mut self) -> Result<FileRoot, Error> {
        let mut found = FileRoot {
            length: 0,
            hash: [0; 32],
        };
        // SAFETY: three places that do not overlap.
        Error::of(unsafe {
            sys::btcheck_root_finish(&mut self.handle, &mut found.length, &mut found.hash)
        })?;
        Ok(found)
    }

    /// The root of a whole content.
    pub fn of(bytes: &[u8]) -> Result<FileRoot, Error> {
        let mut root = Root::new()?;
        root.push(bytes)?;
        root.finish()
    }
}

/// What is written is pushed. A refusal is an error of the kind `Other` that holds it.
impl io::Write for Root {
    fn write(&mut self, bytes: &[u8]) -> io::Result<usize> {
        let pushed = self.push(bytes).map(|()| bytes.len());
        pushed.map_err(|error| io::Error::new(io::ErrorKind::Other, error))
    }

    fn flush(&mut self) -> io::Result<()> {
        Ok(())
    }
}

impl Drop for Root {
    fn drop(&mut self) {
        // SAFETY: free takes every handle.
        unsafe { sys::btcheck_root_free(&mut self.handle) }
    }
}
