use btcheck_sys as sys;

use crate::{Error, Hash, Session};

/// Where an export goes on. The default is the beginning.
#[derive(Clone, Copy, Debug, Default, PartialEq, Eq)]
pub struct Cursor(sys::btcheck_cursor);

impl Session {
    /// The leaves that are known first from the cursor on, as the whole frame of a hashes message with the proof up to the
    /// root, and moves the cursor behind them; `None` if no leaf is known from there on. `take_frame` of any session of
    /// the torrent takes it.
    pub fn export(&self, cursor: &mut Cursor) -> Result<Option<Vec<u8>>, Error> {
        let mut room = vec![0; sys::BTCHECK_MOST_EXPORTED];
        let mut length = 0;
        // SAFETY: the room has its bytes; four places that do not overlap.
        let status = unsafe {
            sys::btcheck_session_export(
                self.handle(),
                &mut cursor.0,
                room.as_mut_ptr(),
                room.len(),
                &mut length,
            )
        };
        match Error::of(status) {
            Ok(()) => {
                room.truncate(length as usize);
                Ok(Some(room))
            }
            Err(Error::Nothing) => Ok(None),
            Err(error) => Err(error),
        }
    }

    /// Takes a whole layer of a tree, 0 for the leaves, without the pads past the file's end, and gives how many places are
    /// newly known. `NoSuch`: there is no such tree.
    pub fn fill(&mut self, tree: usize, layer: u32, hashes: &[Hash]) -> Result<u64, Error> {
        let mut places = 0;
        // SAFETY: a slice's pointer is not null and leads to its hashes; three places that do not overlap.
        Error::of(unsafe {
            sys::btcheck_session_fill(
                self.handle(),
                tree,
                layer,
                hashes.as_ptr(),
                hashes.len(),
                &mut places,
            )
        })?;
        Ok(places)
    }
}
