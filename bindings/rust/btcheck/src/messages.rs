use btcheck_sys as sys;

use crate::{Error, Session};

/// The blocks of one piece message: consecutive ones of a file.
#[derive(Clone, Debug, PartialEq, Eq)]
pub struct Blocks {
    /// The file, in the torrent's order.
    pub file: u64,
    /// Its block that comes first.
    pub first: u64,
    /// Of each block whether it is verified, or why not.
    pub results: Vec<Result<(), Error>>,
}

/// What a message was, and what was made of it.
#[derive(Clone, Debug, PartialEq, Eq)]
#[non_exhaustive]
pub enum Verdict {
    /// Hashes, which are joined to the tree, and how many places are newly known.
    Stored(u64),
    /// Blocks.
    Blocks(Blocks),
    /// A request that `answer` has hashes for.
    Answered,
    /// A request to be rejected.
    Rejected,
    /// A reject of our request.
    RejectNoted,
    /// An empty message.
    KeepAlive,
    /// A message with another id, which was passed over.
    Skipped(u32),
}

impl Blocks {
    /// The results, by the name that they have in all languages.
    pub fn statuses(&self) -> &[Result<(), Error>] {
        &self.results
    }

    pub(crate) fn of(blocks: &sys::btcheck_blocks) -> Self {
        let results = blocks.statuses.iter().take(blocks.count as usize);
        Blocks {
            file: blocks.file,
            first: blocks.first,
            results: results.map(|&it| Error::of(it)).collect(),
        }
    }
}

impl Verdict {
    pub(crate) fn of(verdict: &sys::btcheck_verdict) -> Self {
        match verdict.kind {
            sys::BTCHECK_STORED => Verdict::Stored(verdict.places),
            sys::BTCHECK_BLOCKS => Verdict::Blocks(Blocks::of(&verdict.blocks)),
            sys::BTCHECK_ANSWERED => Verdict::Answered,
            sys::BTCHECK_REJECTED => Verdict::Rejected,
            sys::BTCHECK_REJECT_NOTED => Verdict::RejectNoted,
            sys::BTCHECK_KEEP_ALIVE => Verdict::KeepAlive,
            _ => Verdict::Skipped(verdict.id),
        }
    }
}

impl Session {
    /// All blocks of a piece message (BEP 3). `BadPlace` or `BadSize` of a block: the whole message is refused.
    pub fn take_blocks(&mut self, index: u32, begin: u32, bytes: &[u8]) -> Result<Blocks, Error> {
        let mut blocks = sys::btcheck_blocks::default();
        // SAFETY: a slice's pointer is not null and leads to its bytes; no two places overlap.
        Error::of(unsafe {
            sys::btcheck_session_take_blocks(
                self.handle(),
                index,
                begin,
                bytes.as_ptr(),
                bytes.len(),
                &mut blocks,
            )
        })?;
        Ok(Blocks::of(&blocks))
    }

    /// The body of one frame of the peer protocol as it came, without its length: for clients that pass messages on.
    pub fn frame(&mut self, body: &[u8]) -> Result<Verdict, Error> {
        let mut verdict = sys::btcheck_verdict::default();
        // SAFETY: as for `take_blocks`.
        let status = unsafe {
            sys::btcheck_session_frame(self.handle(), body.as_ptr(), body.len(), &mut verdict)
        };
        Error::of(status)?;
        Ok(Verdict::of(&verdict))
    }
}
