//! The safe layer over the examples of the repository: torrents that are made.
mod common;

use btcheck::{create, Draft, DraftFile, Error, TorrentRefusal, BLOCK};
use common::{example, file, opened};
use std::io;

const PIECE: u64 = 2 * BLOCK as u64;

fn refused(refusal: TorrentRefusal) -> Error {
    Error::Torrent(refusal)
}

#[test]
fn the_torrent_of_a_folder_is_the_one_of_the_program() {
    let folder = concat!(env!("CARGO_MANIFEST_DIR"), "/../../../examples/pair");
    let made = create(folder, "pair", PIECE, true).unwrap();
    assert_eq!(&made[..], opened().torrent());
    let none = create(format!("{folder}/a"), "pair", PIECE, true).unwrap_err();
    assert_ne!(none.kind(), io::ErrorKind::Other);
    let wrong = create(folder, "pair", 1, true).unwrap_err();
    let inner = wrong
        .get_ref()
        .and_then(|error| error.downcast_ref::<Error>());
    assert_eq!(inner, Some(&refused(TorrentRefusal::PieceLength)));
}

#[test]
fn files_come_in_any_order_and_in_parts() {
    let mut draft = Draft::new("pair", PIECE, true).unwrap();
    let mut coming = DraftFile::new(&mut draft).unwrap();
    coming.push(&example("pair/c")).unwrap();
    draft.add(&mut coming, "c").unwrap();
    for part in file().chunks(1000) {
        coming.push(part).unwrap();
    }
    draft.add(&mut coming, "a").unwrap();
    assert_eq!(draft.finish().unwrap(), example("pair.torrent"));
}

#[test]
fn a_draft_refuses_by_the_names_of_a_torrent() {
    let mut draft = Draft::new("x", PIECE, false).unwrap();
    let mut other = Draft::new("x", PIECE, true).unwrap();
    let mut coming = DraftFile::new(&mut draft).unwrap();
    assert_eq!(draft.finish(), Err(refused(TorrentRefusal::NoFiles)));
    io::copy(&mut &file()[..], &mut coming).unwrap();
    assert_eq!(other.add(&mut coming, "a"), Err(Error::WrongHandle));
    for path in ["", "/", "a//b", "..", "a/\0"] {
        let added = draft.add(&mut coming, path);
        assert_eq!(added, Err(refused(TorrentRefusal::Path)), "{path}");
    }
    assert_eq!(coming.push(b"a"), Err(Error::TooLong));
    draft.add(&mut coming, "a").unwrap();
    let clash = draft.add(&mut coming, "a/b").unwrap_err();
    assert_eq!(clash, refused(TorrentRefusal::PathClash));
    assert_eq!(clash.status(), 122);
    draft.add(&mut coming, "b").unwrap();
    assert_eq!(draft.finish(), draft.finish());
}
