//! The safe layer over the examples of the repository: roots, checks, whole pieces and blocks that are held.
mod common;

use btcheck::{BlockRefusal, Check, Error, Holdings, Place, Root, Run, Settled, BLOCK};
use common::{file, opened};
use std::thread;

#[test]
fn a_root_is_that_of_the_content_however_it_is_cut() {
    let content = file();
    let whole = Root::of(&content).unwrap();
    assert_eq!(whole.length, 16385);
    assert_eq!(whole.hash[..4], [0x9d, 0x78, 0x87, 0xc6]);
    let mut root = Root::new().unwrap();
    for part in content.chunks(1000) {
        root.push(part).unwrap();
    }
    assert_eq!(root.finish(), Ok(whole));
    assert_eq!(root.finish(), Err(Error::NoRoot));
    assert_eq!(Root::of(b""), Err(Error::NoRoot));
}

#[test]
fn a_root_is_written_to() {
    let content = file();
    let mut root = Root::new().unwrap();
    std::io::copy(&mut &content[..], &mut root).unwrap();
    assert_eq!(root.finish(), Root::of(&content));
}

#[test]
fn a_check_finds_the_first_bad_piece() {
    let session = opened();
    assert_eq!(Check::new(&session, 1000).unwrap_err(), Error::NoSuch);
    let mut content = file();
    let mut check = Check::new(&session, 0).unwrap();
    drop(session);
    assert_eq!(check.finish(), Err(Error::TooShort));
    for part in content.chunks(1000) {
        check.push(part).unwrap();
    }
    assert_eq!(check.push(b"a"), Err(Error::TooLong));
    assert_eq!(check.finish(), Ok(None));
    content[0] ^= 1;
    check.push(&content).unwrap();
    assert_eq!(check.finish(), Ok(Some(0)));
    assert_eq!(check.finish(), Err(Error::TooShort));
}

#[test]
fn bits_tell_which_pieces_are_good() {
    let session = opened();
    for none in [0..0, 1..1, 0..2] {
        let check = Check::new_pieces(&session, 0, none);
        assert_eq!(check.unwrap_err(), Error::NoSuch);
    }
    let mut content = file();
    let mut bits = [0, 0];
    let mut check = Check::new_pieces(&session, 0, 0..1).unwrap();
    check.push_bits(&content, &mut bits).unwrap();
    assert_eq!(check.push_bits(b"a", &mut bits), Err(Error::TooLong));
    assert_eq!(check.finish_bits(&mut bits), Ok(None));
    assert_eq!(bits, [0x80, 0]);
    content[0] ^= 1;
    bits = [0, 0];
    check.push_bits(&content, &mut bits).unwrap();
    assert_eq!(check.finish_bits(&mut bits), Ok(Some(0)));
    assert_eq!(check.finish_bits(&mut bits), Err(Error::TooShort));
    assert_eq!(bits, [0, 0]);
}

#[test]
fn checks_of_one_session_run_side_by_side() {
    let (session, content) = (opened(), file());
    let checks: Vec<_> = (0..4).map(|_| Check::new(&session, 0).unwrap()).collect();
    let threads = checks.into_iter().map(|mut check| {
        let content = content.clone();
        thread::spawn(move || {
            check.push(&content).unwrap();
            check.finish()
        })
    });
    for thread in threads.collect::<Vec<_>>() {
        assert_eq!(thread.join().unwrap(), Ok(None));
    }
}

#[test]
fn a_whole_piece_is_taken_at_once() {
    let mut session = opened();
    let mut content = file();
    let place = Place { file: 0, block: 0 };
    assert_eq!(
        session.take_piece(9, &content),
        Err(Error::Block(BlockRefusal::BadPlace))
    );
    assert_eq!(
        session.take_piece(0, &content[1..]),
        Err(Error::Block(BlockRefusal::BadSize))
    );
    content[0] ^= 1;
    assert_eq!(
        session.take_piece(0, &content),
        Err(Error::Block(BlockRefusal::BadBlock))
    );
    content[0] ^= 1;
    assert_eq!(session.take_piece(0, &content), Ok(place));
    assert_eq!(session.is_marked(0, 1), Ok(true));
}

#[test]
fn blocks_are_held_until_their_piece_is_whole() {
    let (mut session, mut content) = (opened(), file());
    let mut holdings = Holdings::new(&session, 10).unwrap();
    let run = Run {
        tree: 0,
        first: 0,
        last: 1,
    };
    for (change, settled) in [(1, Settled::False(run)), (0, Settled::Proved(run))] {
        content[0] ^= change;
        for (begin, part) in [(BLOCK, &content[BLOCK..]), (0, &content[..BLOCK])] {
            assert_eq!(session.settle(&mut holdings), Ok(None));
            let held = session.hold(&mut holdings, 0, begin as u32, part).unwrap();
            assert_eq!(held.blocks.results, vec![Err(Error::Held)]);
            assert_eq!(held.dropped, vec![None]);
        }
        assert_eq!(holdings.held(), Ok(2));
        assert_eq!(session.settle(&mut holdings), Ok(Some(settled)));
        assert_eq!(session.settle(&mut holdings), Ok(None));
        assert_eq!(session.is_marked(0, 0), Ok(change == 0));
        content[0] ^= change;
    }
    assert_eq!(holdings.held(), Ok(0));
}
