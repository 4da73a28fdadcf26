//! Whole frames as they came: held blocks, requests, and what is none.
mod common;

use btcheck::{Blocks, Cursor, Error, HashRefusal, Holdings, Run, Settled, Verdict, BLOCK};
use common::{file, opened};

fn frame(body: &[u8]) -> Vec<u8> {
    let length = body.len() as u32;
    [&length.to_be_bytes(), body].concat()
}

/// A piece message with a block of file `a`.
fn piece(begin: usize, block: &[u8]) -> Vec<u8> {
    let mut body = vec![7, 0, 0, 0, 0];
    body.extend_from_slice(&(begin as u32).to_be_bytes());
    body.extend_from_slice(block);
    frame(&body)
}

fn blocks(first: u64, result: Result<(), Error>) -> Verdict {
    Verdict::Blocks(Blocks {
        file: 0,
        first,
        results: vec![result],
    })
}

#[test]
fn blocks_of_frames_are_held_until_their_piece_is_whole() {
    let (mut session, content) = (opened(), file());
    let mut holdings = Holdings::new(&session, 0).unwrap();
    let (front, back) = content.split_at(BLOCK);
    let taken = session.hold_frame(&mut holdings, &piece(BLOCK, back), true);
    let taken = taken.unwrap();
    assert_eq!(taken.verdict, blocks(1, Err(Error::Held)));
    assert_eq!((taken.ask, taken.dropped), (None, vec![None]));
    assert_eq!(session.settle(&mut holdings), Ok(None));
    let taken = session.hold_frame(&mut holdings, &piece(0, front), true);
    assert_eq!(taken.unwrap().verdict, blocks(0, Err(Error::Held)));
    let run = Run {
        tree: 0,
        first: 0,
        last: 1,
    };
    let settled = session.settle(&mut holdings);
    assert_eq!(settled, Ok(Some(Settled::Proved(run))));
    let taken = session.take_frame(&piece(0, front), false).unwrap();
    assert_eq!(taken.verdict, blocks(0, Ok(())));
    assert_eq!(taken.dropped, vec![]);
}

#[test]
fn a_request_gives_its_fields() {
    let (mut session, content) = (opened(), file());
    session.take_piece(0, &content).unwrap();
    let message = session.export(&mut Cursor::default()).unwrap().unwrap();
    let request = frame(&[&[21], &message[5..53]].concat());
    let mut other = opened();
    let rejected = other.take_frame(&request, false).unwrap();
    assert_eq!(rejected.verdict, Verdict::Rejected);
    let unasked = other.take_frame(&message, true);
    assert_eq!(unasked, Err(Error::Hashes(HashRefusal::Unasked)));
    other.note(&rejected.ask.unwrap()).unwrap();
    let stored = other.take_frame(&message, true).unwrap();
    assert_eq!(stored.verdict, Verdict::Stored(2));
    assert_eq!(stored.ask, rejected.ask);
    let answered = other.take_frame(&request, false).unwrap();
    assert_eq!(answered.verdict, Verdict::Answered);
    let hashes = other.answer(&answered.ask.unwrap()).unwrap();
    assert_eq!(hashes.concat(), message[53..]);
}

#[test]
fn what_is_no_frame_is_refused() {
    let mut session = opened();
    for bytes in [&[][..], &[0, 0, 0], &[0, 0, 0, 1]] {
        assert_eq!(session.take_frame(bytes, false), Err(Error::TooShort));
    }
    assert_eq!(session.take_frame(&[0; 5], false), Err(Error::TooLong));
    assert_eq!(session.take_frame(&frame(&[7]), false), Err(Error::BadSize));
    let skipped = session.take_frame(&frame(&[4, 0, 0, 0, 0]), false).unwrap();
    assert_eq!((skipped.verdict, skipped.ask), (Verdict::Skipped(4), None));
    let nothing = session.take_frame(&frame(&[]), true).unwrap();
    assert_eq!(nothing.verdict, Verdict::KeepAlive);
}
