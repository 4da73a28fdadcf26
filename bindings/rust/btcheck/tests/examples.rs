//! The safe layer over the examples of the repository: sessions, what peers send, and what a torrent says.
mod common;

use btcheck::{
    Ask, BlockRefusal, Blocks, Counts, Cursor, Error, Fault, FaultKind, Hash, HashRefusal, Key,
    Place, Root, Session, TorrentRefusal, Verdict, BLOCK,
};
use common::{example, file, opened};
use std::thread;

/// A leaf is the root of a file of that block alone.
fn leaves(content: &[u8]) -> Vec<Hash> {
    content
        .chunks(BLOCK)
        .map(|block| Root::of(block).unwrap().hash)
        .collect()
}

fn ask_of(content: &[u8]) -> Ask {
    Ask {
        root: Root::of(content).unwrap().hash,
        base: 0,
        index: 0,
        length: 2,
        proof: 0,
    }
}

#[test]
fn a_torrent_that_is_none_is_refused() {
    let fault = |kind| Error::Torrent(TorrentRefusal::NotBencode(Fault { kind, offset: 0 }));
    assert_eq!(
        Session::open(example("abc.txt"), true).unwrap_err(),
        fault(FaultKind::BadStart)
    );
    let refused = Session::open(Vec::new(), true).unwrap_err();
    assert_eq!(refused, fault(FaultKind::Truncated));
    assert_eq!(
        refused.to_string(),
        "The bytes are not canonical bencoding: Truncated at byte 0."
    );
}

#[test]
fn a_refusal_names_the_key() {
    let refused = Session::open(&b"d4:infodee"[..], true).unwrap_err();
    assert_eq!(
        refused,
        Error::Torrent(TorrentRefusal::Missing(Key::MetaVersion))
    );
    assert_eq!(refused.status(), 103);
    assert_eq!(
        refused.to_string(),
        "A key of the torrent is missing: meta version."
    );
}

#[test]
fn names_that_all_languages_have() {
    let (mut session, content) = (opened(), file());
    let hashes = session.info_hashes().unwrap();
    assert_eq!(session.info_hash_v1(), Ok(Some(hashes.v1)));
    assert_eq!(btcheck::version_text(), "1.1.0");
    let blocks = session.take_blocks(0, 0, &content).unwrap();
    assert_eq!(blocks.statuses(), &blocks.results[..]);
}

#[test]
fn what_is_known_goes_to_another_session() {
    let (mut session, content) = (opened(), file());
    session
        .take_hashes(&ask_of(&content), &leaves(&content))
        .unwrap();
    let (mut other, mut cursor) = (opened(), Cursor::default());
    while let Some(frame) = session.export(&mut cursor).unwrap() {
        other.frame(&frame[4..]).unwrap();
    }
    assert_eq!(other.counts(0).unwrap(), session.counts(0).unwrap());
    let mut third = opened();
    assert!(third.fill(0, 0, &leaves(&content)).unwrap() > 0);
    assert_eq!(
        third.fill(0, 0, &[]).unwrap_err(),
        Error::Hashes(HashRefusal::BadCount)
    );
    assert_eq!(third.fill(99, 0, &[]).unwrap_err(), Error::NoSuch);
}

#[test]
fn blocks_are_verified_after_their_hashes() {
    let (mut session, content) = (opened(), file());
    let (ask, leaves) = (ask_of(&content), leaves(&content));
    let block = &content[..BLOCK];
    assert_eq!(
        session.take_block(0, 0, block),
        Err(Error::Block(BlockRefusal::Unproved))
    );
    let mut wrong = leaves.clone();
    wrong[1][7] ^= 1;
    assert_eq!(
        session.take_hashes(&ask, &wrong),
        Err(Error::Hashes(HashRefusal::Mismatch))
    );
    assert_eq!(
        session.take_hashes(&ask, &[]),
        Err(Error::Hashes(HashRefusal::BadCount))
    );
    assert_eq!(session.take_hashes(&ask, &leaves), Ok(2));
    assert_eq!(
        session.take_block(0, 0, block),
        Ok(Place { file: 0, block: 0 })
    );
    assert_eq!(
        session.take_block(0, BLOCK as u32, &content[BLOCK..]),
        Ok(Place { file: 0, block: 1 })
    );
    assert_eq!(
        session.take_block(0, 0, &[0; BLOCK]),
        Err(Error::Block(BlockRefusal::BadBlock))
    );
    assert_eq!(
        session.take_block(0, 0, b""),
        Err(Error::Block(BlockRefusal::BadSize))
    );
    assert_eq!(
        session.take_block(9, 0, block),
        Err(Error::Block(BlockRefusal::BadPlace))
    );
    assert_eq!(
        session.take_block(1, 0, b"abc"),
        Ok(Place { file: 1, block: 0 })
    );
    assert_eq!(
        session.counts(0),
        Ok(Counts {
            known: 3,
            marked: 2
        })
    );
    assert_eq!(session.counts(2), Err(Error::NoSuch));
}

#[test]
fn an_answer_is_that_to_a_noted_request() {
    let (mut session, content) = (opened(), file());
    let (ask, leaves) = (ask_of(&content), leaves(&content));
    assert_eq!(session.answer(&ask), Err(Error::Nothing));
    assert_eq!(
        session.take_answer(&ask, &leaves),
        Err(Error::Hashes(HashRefusal::Unasked))
    );
    session.note(&ask).unwrap();
    assert_eq!(session.take_answer(&ask, &leaves), Ok(2));
    assert_eq!(
        session.take_answer(&ask, &leaves),
        Err(Error::Hashes(HashRefusal::Unasked))
    );
    assert_eq!(session.answer(&ask), Ok(leaves));
}

#[test]
fn sessions_move_between_threads() {
    let made: Vec<_> = (0..8).map(|_| thread::spawn(opened)).collect();
    let taken: Vec<_> = made
        .into_iter()
        .map(|session| {
            let mut session = session.join().unwrap();
            thread::spawn(move || session.take_block(1, 0, b"abc").map(|_| session))
        })
        .collect();
    for session in taken {
        assert_eq!(
            session.join().unwrap().unwrap().counts(1).unwrap().marked,
            1
        );
    }
}

#[test]
fn refusals_have_numbers_and_sentences() {
    let bad = Error::Block(BlockRefusal::BadBlock);
    assert_eq!(bad.status(), 304);
    assert_eq!(BlockRefusal::BadBlock.number(), 4);
    assert!(bad.to_string().starts_with("The bytes are not that block"));
    assert_eq!(Error::NoMemory.to_string(), "Memory was refused.");
    let boxed: Box<dyn std::error::Error + Send + Sync> = bad.into();
    assert_eq!(boxed.downcast_ref::<Error>(), Some(&bad));
    assert!(format!("{:?}", opened()).starts_with("Session { torrent: "));
}

#[test]
fn files_are_those_of_the_torrent() {
    let (session, content) = (opened(), file());
    assert_eq!((session.file_count(), session.tree_count()), (Ok(2), Ok(2)));
    let files: Vec<_> = session.files().map(Result::unwrap).collect();
    assert_eq!(files.len(), session.files().len());
    assert_eq!((files[0].length, files[0].first_piece), (16385, 0));
    assert_eq!(files[0].tree, Some((0, Root::of(&content).unwrap().hash)));
    assert_eq!(files[1], session.file(1).unwrap());
    assert_eq!(
        (files[1].path.to_str(), files[1].first_piece),
        (Some("c"), 1)
    );
    assert_eq!(session.file(2), Err(Error::NoSuch));
    assert_eq!(session.path(2), Err(Error::NoSuch));
    let hashes = session.info_hashes().unwrap();
    assert_eq!(
        (hashes.v2[..2].to_vec(), hashes.v1[..2].to_vec()),
        (vec![0x4d, 0x9a], vec![0xf1, 0xa7])
    );
    assert_eq!(session.piece_length(), Ok(2 * BLOCK as u64));
    assert_eq!(session.pieces(), Ok(2));
    assert_eq!(session.is_hybrid(), Ok(true));
    assert_eq!(session.name(), Ok("pair".into()));
    assert_eq!(btcheck::version(), [1, 1, 0]);
}

#[test]
fn what_is_wanted_is_what_is_not_known() {
    let (mut session, content) = (opened(), file());
    let leaves = leaves(&content);
    let ask = session.want(0, 1).unwrap().unwrap();
    assert_eq!(ask, ask_of(&content));
    assert_eq!(session.can_answer(&ask), Ok(false));
    session.take_hashes(&ask, &leaves).unwrap();
    assert_eq!(session.can_answer(&ask), Ok(true));
    assert_eq!(session.want(0, 1), Ok(None));
    assert_eq!(session.want(0, 2), Err(Error::NoSuch));
    assert_eq!(session.is_marked(0, 1), Ok(false));
    session
        .take_block(0, BLOCK as u32, &content[BLOCK..])
        .unwrap();
    assert_eq!(session.is_marked(0, 1), Ok(true));
    assert_eq!(session.is_marked(9, 0), Err(Error::NoSuch));
}

/// A piece message of all of file `a`, with its first byte as it is or not.
fn piece(content: &[u8], change: u8) -> Vec<u8> {
    let mut body = vec![7, 0, 0, 0, 0, 0, 0, 0, 0];
    body.extend_from_slice(content);
    body[9] ^= change;
    body
}

#[test]
fn messages_are_taken_as_they_come() {
    let (mut session, content) = (opened(), file());
    let (ask, leaves) = (ask_of(&content), leaves(&content));
    assert_eq!(session.frame(&[]), Ok(Verdict::KeepAlive));
    assert_eq!(session.frame(&[4, 0, 0, 0, 0]), Ok(Verdict::Skipped(4)));
    assert_eq!(session.frame(&[7, 0]), Err(Error::BadSize));
    let unproved = Blocks {
        file: 0,
        first: 0,
        results: vec![Err(Error::Block(BlockRefusal::Unproved)); 2],
    };
    assert_eq!(
        session.frame(&piece(&content, 0)),
        Ok(Verdict::Blocks(unproved))
    );
    let mut body = vec![22];
    body.extend_from_slice(&ask.root);
    for field in [ask.base, ask.index, ask.length, ask.proof] {
        body.extend_from_slice(&field.to_be_bytes());
    }
    let request = [&[21], &body[1..]].concat();
    assert_eq!(session.frame(&request), Ok(Verdict::Rejected));
    body.extend_from_slice(&leaves.concat());
    assert_eq!(session.frame(&body), Ok(Verdict::Stored(2)));
    assert_eq!(session.frame(&request), Ok(Verdict::Answered));
    let half = Blocks {
        file: 0,
        first: 0,
        results: vec![Err(Error::Block(BlockRefusal::BadBlock)), Ok(())],
    };
    assert_eq!(
        session.take_blocks(0, 0, &piece(&content, 1)[9..]),
        Ok(half)
    );
    let whole = Blocks {
        file: 0,
        first: 0,
        results: vec![Ok(()), Ok(())],
    };
    assert_eq!(
        session.frame(&piece(&content, 0)),
        Ok(Verdict::Blocks(whole))
    );
    assert_eq!(
        session.take_blocks(9, 0, b"abc"),
        Err(Error::Block(BlockRefusal::BadPlace))
    );
}
