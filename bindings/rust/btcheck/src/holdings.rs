use std::ptr;

use btcheck_sys as sys;

use crate::{Blocks, Error, Session};

/// The digests of blocks that cannot be proved yet, beside a session. The piece whose newest block came longest ago gives
/// way to others.
#[derive(Debug)]
pub struct Holdings {
    pub(crate) handle: sys::btcheck_holdings,
}

/// Blocks of a tree, from the first one to the last one.
#[derive(Clone, Copy, Debug, PartialEq, Eq)]
pub struct Run {
    /// The tree's number.
    pub tree: u64,
    /// The first block.
    pub first: u64,
    /// The last block.
    pub last: u64,
}

/// The blocks of one piece message, of which some are held.
#[derive(Clone, Debug, PartialEq, Eq)]
pub struct HeldBlocks {
    /// As `take_blocks` gives them; one that is held is `Err(Held)`, or `Err(NoMemory)` if its digest could not be.
    pub blocks: Blocks,
    /// Of each block the piece that gave way for it, if one did.
    pub dropped: Vec<Option<Run>>,
}

/// What became of blocks that were held.
#[derive(Clone, Copy, Debug, PartialEq, Eq)]
pub enum Settled {
    /// They are proved, and marked.
    Proved(Run),
    /// They are false, and given up.
    False(Run),
}

// SAFETY: it is proved that a handle may move; one handle is in one call at a time, since each takes `&mut self`.
unsafe impl Send for Holdings {}

impl Holdings {
    /// Holds at most `bound` blocks of a session, and no fewer than its longest piece has.
    pub fn new(session: &Session, bound: usize) -> Result<Self, Error> {
        let mut holdings = Holdings {
            handle: sys::btcheck_holdings {
                full: false,
                at: ptr::null_mut(),
            },
        };
        // SAFETY: the handle is empty and ours.
        Error::of(unsafe {
            sys::btcheck_holdings_new(&mut holdings.handle, session.handle(), bound)
        })?;
        Ok(holdings)
    }

    /// Hashes of this tree were taken: `Session::settle` looks at its held pieces.
    pub fn look_at(&mut self, tree: usize) -> Result<(), Error> {
        // SAFETY: the handle is ours.
        Error::of(unsafe { sys::btcheck_holdings_look_at(&mut self.handle, tree) })
    }

    /// How many blocks are held.
    pub fn held(&mut self) -> Result<u64, Error> {
        let mut count = 0;
        // SAFETY: two places that do not overlap.
        Error::of(unsafe { sys::btcheck_session_held(&mut self.handle, &mut count) })?;
        Ok(count)
    }
}

impl Run {
    pub(crate) fn dropped(run: &sys::btcheck_run) -> Option<Self> {
        (run.tree != u64::MAX).then(|| Run::of(run))
    }

    fn of(run: &sys::btcheck_run) -> Self {
        Run {
            tree: run.tree,
            first: run.first,
            last: run.last,
        }
    }
}

impl Session {
    /// As `take_blocks`, but blocks that cannot be proved yet are held. Call `settle` afterwards until it gives `None`.
    pub fn hold(
        &mut self,
        holdings: &mut Holdings,
        index: u32,
        begin: u32,
        bytes: &[u8],
    ) -> Result<HeldBlocks, Error> {
        let mut held = sys::btcheck_held::default();
        // SAFETY: a slice's pointer is not null and leads to its bytes; no two places overlap.
        Error::of(unsafe {
            sys::btcheck_session_hold(
                self.handle(),
                &mut holdings.handle,
                index,
                begin,
                bytes.as_ptr(),
                bytes.len(),
                &mut held,
            )
        })?;
        let blocks = Blocks::of(&held.blocks);
        let dropped = held.dropped.iter().take(blocks.results.len());
        Ok(HeldBlocks {
            dropped: dropped.map(Run::dropped).collect(),
            blocks,
        })
    }

    /// What became of held blocks, a run at a time; `None` if there is nothing more. `NoMemory`: memory was refused for a
    /// piece, which stays held.
    pub fn settle(&mut self, holdings: &mut Holdings) -> Result<Option<Settled>, Error> {
        let mut run = sys::btcheck_run::default();
        // SAFETY: three places that do not overlap.
        let status =
            unsafe { sys::btcheck_session_settle(self.handle(), &mut holdings.handle, &mut run) };
        match Error::of(status) {
            Ok(()) => Ok(Some(Settled::Proved(Run::of(&run)))),
            Err(Error::BadPiece) => Ok(Some(Settled::False(Run::of(&run)))),
            Err(Error::Nothing) => Ok(None),
            Err(error) => Err(error),
        }
    }
}

impl Drop for Holdings {
    fn drop(&mut self) {
        // SAFETY: free takes every handle.
        unsafe { sys::btcheck_holdings_free(&mut self.handle) }
    }
}
