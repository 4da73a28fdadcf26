use btcheck_sys as sys;

use crate::files::text_of;
use crate::{Ask, Error, Holdings, Run, Session, Verdict};

/// The whole frame of a hash request, with the four bytes of its length: of what `Session::want` gives, say.
pub fn request_frame(ask: &Ask) -> [u8; sys::BTCHECK_ASK_FRAME] {
    let mut frame = [0; sys::BTCHECK_ASK_FRAME];
    // SAFETY: two places that do not overlap.
    unsafe { sys::btcheck_request_frame(ask, &mut frame) };
    frame
}

/// The whole frame of a hash reject, with the four bytes of its length: no hashes come for this request.
pub fn reject_frame(ask: &Ask) -> [u8; sys::BTCHECK_ASK_FRAME] {
    let mut frame = [0; sys::BTCHECK_ASK_FRAME];
    // SAFETY: two places that do not overlap.
    unsafe { sys::btcheck_reject_frame(ask, &mut frame) };
    frame
}

/// What a whole frame was, and what was made of it.
#[derive(Clone, Debug, PartialEq, Eq)]
pub struct Taken {
    /// What it was. A block that is held is `Err(Held)`, or `Err(NoMemory)` if its digest could not be.
    pub verdict: Verdict,
    /// The five fields of hashes, of a hash request and of a reject.
    pub ask: Option<Ask>,
    /// Of each block the piece that gave way for it, if one did. Only `hold_frame` has them.
    pub dropped: Vec<Option<Run>>,
}

impl Taken {
    fn of(taken: &sys::btcheck_taken) -> Self {
        let verdict = Verdict::of(&taken.verdict);
        let has_ask = matches!(
            verdict,
            Verdict::Stored(_) | Verdict::Answered | Verdict::Rejected | Verdict::RejectNoted
        );
        Taken {
            verdict,
            ask: has_ask.then_some(taken.ask),
            dropped: Vec::new(),
        }
    }

    fn held(taken: &sys::btcheck_taken) -> Self {
        let mut found = Taken::of(taken);
        if let Verdict::Blocks(blocks) = &found.verdict {
            let dropped = taken.dropped.iter().take(blocks.results.len());
            found.dropped = dropped.map(Run::dropped).collect();
        }
        found
    }
}

impl Session {
    /// The whole frame that answers a peer's request, with the four bytes of its length: of the hashes, or of a reject if
    /// they are not known.
    pub fn answer_frame(&self, ask: &Ask) -> Result<Vec<u8>, Error> {
        text_of(|room, size, length| {
            // SAFETY: `text_of` gives a room of this size; no two places overlap.
            match unsafe {
                sys::btcheck_session_answer_frame(self.handle(), ask, room, size, length)
            } {
                sys::BTCHECK_NOTHING => sys::BTCHECK_OK,
                status => status,
            }
        })
    }

    /// One whole frame as it came, its four bytes of length and its body. If `asked`, hashes must answer a noted request, as
    /// by `take_answer`. `TooShort`: bytes of the frame are still to come. `TooLong`: bytes follow it.
    pub fn take_frame(&mut self, frame: &[u8], asked: bool) -> Result<Taken, Error> {
        let mut taken = sys::btcheck_taken::default();
        // SAFETY: a slice's pointer is not null and leads to its bytes; no two places overlap.
        Error::of(unsafe {
            sys::btcheck_session_take_frame(
                self.handle(),
                frame.as_ptr(),
                frame.len(),
                asked,
                &mut taken,
            )
        })?;
        Ok(Taken::of(&taken))
    }

    /// As `take_frame`, but blocks that cannot be proved yet are held. Call `settle` afterwards until it gives `None`: it looks
    /// at the pieces of these blocks, or, after hashes that were joined, at all pieces of their tree.
    pub fn hold_frame(
        &mut self,
        holdings: &mut Holdings,
        frame: &[u8],
        asked: bool,
    ) -> Result<Taken, Error> {
        let mut taken = sys::btcheck_taken::default();
        // SAFETY: as for `take_frame`.
        Error::of(unsafe {
            sys::btcheck_session_hold_frame(
                self.handle(),
                &mut holdings.handle,
                frame.as_ptr(),
                frame.len(),
                asked,
                &mut taken,
            )
        })?;
        Ok(Taken::held(&taken))
    }
}
