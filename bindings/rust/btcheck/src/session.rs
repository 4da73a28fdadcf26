use std::cell::UnsafeCell;
use std::fmt;
use std::ptr;
use std::sync::Arc;

use btcheck_sys as sys;

use crate::{Ask, Error, Hash};

/// A session of a torrent: takes the hashes and the blocks that peers send, and says which blocks are the torrent's own.
///
/// It may move to another thread, but it is not shared:
///
/// ```
/// fn moves<T: Send>() {}
/// moves::<btcheck::Session>();
/// ```
/// ```compile_fail
/// fn is_shared<T: Sync>() {}
/// is_shared::<btcheck::Session>();
/// ```
pub struct Session {
    // In a cell, since calls that only read take the handle too; so a session is not `Sync`.
    handle: UnsafeCell<sys::btcheck_session>,
    // What the handle's session reads until it is freed.
    pub(crate) torrent: Arc<[u8]>,
}

/// A verified block: which file's, and which of its blocks, from 0.
#[derive(Clone, Copy, Debug, PartialEq, Eq)]
pub struct Place {
    /// The file, in the torrent's order.
    pub file: u64,
    /// The block of that file.
    pub block: u64,
}

/// What is known of a tree.
#[derive(Clone, Copy, Debug, PartialEq, Eq)]
pub struct Counts {
    /// Places of the tree whose hash is known.
    pub known: u64,
    /// Leaves whose block was verified.
    pub marked: u64,
}

// SAFETY: it is proved that a handle may move, and the torrent's bytes are the session's own.
unsafe impl Send for Session {}

impl Session {
    /// Opens a torrent file of version 2. With `layers` the session begins with the torrent's piece layers, else with the
    /// roots alone.
    pub fn open(torrent: impl Into<Arc<[u8]>>, layers: bool) -> Result<Self, Error> {
        let session = Session {
            handle: UnsafeCell::new(sys::btcheck_session {
                full: false,
                at: ptr::null_mut(),
            }),
            torrent: torrent.into(),
        };
        let bytes = &session.torrent;
        let mut more = sys::btcheck_refusal::default();
        // SAFETY: the handle is empty and ours; nothing writes to the bytes, and they stay until it is freed.
        let status = unsafe {
            sys::btcheck_session_open_explained(
                session.handle(),
                bytes.as_ptr(),
                bytes.len(),
                layers,
                &mut more,
            )
        };
        Error::explained(status, &more)?;
        Ok(session)
    }

    /// The handle for one call: a session is not `Sync`, so calls do not overlap, and no reference to the handle is kept.
    pub(crate) fn handle(&self) -> *mut sys::btcheck_session {
        self.handle.get()
    }

    /// The bytes of the torrent.
    pub fn torrent(&self) -> &[u8] {
        &self.torrent
    }

    /// How much is known of a tree. `NoSuch`: there is no such tree.
    pub fn counts(&self, tree: usize) -> Result<Counts, Error> {
        let mut found = Counts {
            known: 0,
            marked: 0,
        };
        // SAFETY: three places that do not overlap.
        Error::of(unsafe {
            sys::btcheck_session_counts(self.handle(), tree, &mut found.known, &mut found.marked)
        })?;
        Ok(found)
    }

    /// Takes one block of a piece message (BEP 3).
    pub fn take_block(&mut self, index: u32, begin: u32, bytes: &[u8]) -> Result<Place, Error> {
        let mut place = Place { file: 0, block: 0 };
        // SAFETY: a slice's pointer is not null and leads to its bytes; no two places overlap.
        Error::of(unsafe {
            sys::btcheck_session_take_block(
                self.handle(),
                index,
                begin,
                bytes.as_ptr(),
                bytes.len(),
                &mut place.file,
                &mut place.block,
            )
        })?;
        Ok(place)
    }

    /// Takes the bytes of a whole piece, once all its blocks came, and gives where it begins. Its leaves are known and
    /// marked then. `Unproved`: its node is not known. `BadBlock`: the bytes lead to another one.
    pub fn take_piece(&mut self, index: u32, bytes: &[u8]) -> Result<Place, Error> {
        let mut place = Place { file: 0, block: 0 };
        // SAFETY: as for `take_block`.
        Error::of(unsafe {
            sys::btcheck_session_take_piece(
                self.handle(),
                index,
                bytes.as_ptr(),
                bytes.len(),
                &mut place.file,
                &mut place.block,
            )
        })?;
        Ok(place)
    }

    /// Takes a hashes message (BEP 52), its uncles last, and gives how many places of the tree are newly known.
    pub fn take_hashes(&mut self, fields: &Ask, hashes: &[Hash]) -> Result<u64, Error> {
        let mut places = 0;
        // SAFETY: as for `take_block`.
        Error::of(unsafe {
            sys::btcheck_session_take_hashes(
                self.handle(),
                &fields.root,
                fields.base,
                fields.index,
                fields.length,
                fields.proof,
                hashes.as_ptr(),
                hashes.len(),
                &mut places,
            )
        })?;
        Ok(places)
    }

    /// What to ask for next to learn the leaf of a block of a tree: at most 512 leaves, with proof up to the root; `None` if the
    /// leaf is known. `NoSuch`: there is no such tree, or its files have no such block.
    pub fn want(&self, tree: usize, block: u64) -> Result<Option<Ask>, Error> {
        let mut ask = Ask::default();
        // SAFETY: two places that do not overlap.
        let status = unsafe { sys::btcheck_session_want(self.handle(), tree, block, &mut ask) };
        match Error::of(status) {
            Ok(()) => Ok(Some(ask)),
            Err(Error::Nothing) => Ok(None),
            Err(error) => Err(error),
        }
    }

    /// Whether `answer` would give hashes for this request.
    pub fn can_answer(&self, ask: &Ask) -> Result<bool, Error> {
        // SAFETY: two places that do not overlap.
        yes_or_no(unsafe { sys::btcheck_session_can_answer(self.handle(), ask) })
    }

    /// Whether a block of a tree was verified. `NoSuch`: there is no such tree, or its files have no such block.
    pub fn is_marked(&self, tree: usize, block: u64) -> Result<bool, Error> {
        // SAFETY: the handle is ours.
        yes_or_no(unsafe { sys::btcheck_session_is_marked(self.handle(), tree, block) })
    }

    /// Notes that a request with these fields was sent: it is open until hashes answer it.
    pub fn note(&mut self, ask: &Ask) -> Result<(), Error> {
        // SAFETY: two places that do not overlap.
        Error::of(unsafe { sys::btcheck_session_note(self.handle(), ask) })
    }

    /// As `take_hashes`, but the message must answer a noted request, which it then closes.
    pub fn take_answer(&mut self, ask: &Ask, hashes: &[Hash]) -> Result<u64, Error> {
        let mut places = 0;
        // SAFETY: as for `take_block`.
        Error::of(unsafe {
            sys::btcheck_session_take_answer(
                self.handle(),
                ask,
                hashes.as_ptr(),
                hashes.len(),
                &mut places,
            )
        })?;
        Ok(places)
    }

    /// The hashes that answer a peer's request. `Nothing`: reject it.
    pub fn answer(&self, ask: &Ask) -> Result<Vec<Hash>, Error> {
        let mut room = vec![[0; 32]; 1];
        loop {
            let mut count = 0;
            // SAFETY: the room has its places; as for `take_block`.
            let status = unsafe {
                sys::btcheck_session_answer(
                    self.handle(),
                    ask,
                    room.as_mut_ptr(),
                    room.len(),
                    &mut count,
                )
            };
            if status != sys::BTCHECK_TOO_SMALL {
                Error::of(status)?;
                room.truncate(count as usize);
                return Ok(room);
            }
            room.resize(count as usize, [0; 32]);
        }
    }
}

// A status that says no by `Nothing`.
pub(crate) fn yes_or_no(status: sys::btcheck_status) -> Result<bool, Error> {
    match Error::of(status) {
        Ok(()) => Ok(true),
        Err(Error::Nothing) => Ok(false),
        Err(error) => Err(error),
    }
}

impl fmt::Debug for Session {
    fn fmt(&self, f: &mut fmt::Formatter<'_>) -> fmt::Result {
        f.debug_struct("Session")
            .field("torrent", &self.torrent().len())
            .finish_non_exhaustive()
    }
}

impl Drop for Session {
    fn drop(&mut self) {
        // SAFETY: free takes every handle, and the bytes go after the session that reads them.
        unsafe { sys::btcheck_session_free(self.handle()) }
    }
}
