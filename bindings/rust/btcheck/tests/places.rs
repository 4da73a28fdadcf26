//! Where pieces and bytes lie, what is whole, and the frames of requests and answers.
mod common;

use btcheck::{reject_frame, request_frame, Ask, Error, FileCounts, Piece, PieceRange, BLOCK};
use common::{file, opened};

#[test]
fn pieces_and_bytes_have_places() {
    let session = opened();
    let piece = Piece {
        length: 3,
        file: 1,
        block: 0,
        offset: 0,
    };
    assert_eq!(session.piece(1), Ok(piece));
    assert_eq!(session.piece(2), Err(Error::NoSuch));
    assert_eq!(session.file_pieces(1), Ok(1..2));
    assert_eq!(session.file_pieces(2), Err(Error::NoSuch));
    let range = PieceRange {
        piece: 0,
        begin: BLOCK as u64,
        length: 1,
    };
    assert_eq!(session.map_file(0, BLOCK as u64, 9), Ok(range));
    assert_eq!(session.map_file(1, 3, 1), Err(Error::NoSuch));
}

#[test]
fn a_whole_piece_has_its_bit() {
    let mut session = opened();
    let counts = |marked| FileCounts { marked, blocks: 2 };
    assert_eq!(session.file_counts(0), Ok(counts(0)));
    assert_eq!(session.bitfield(), Ok(vec![0]));
    session.take_piece(0, &file()).unwrap();
    assert_eq!(session.file_counts(0), Ok(counts(2)));
    assert_eq!(session.bitfield(), Ok(vec![0x80]));
}

#[test]
fn an_answer_is_a_frame() {
    let mut session = opened();
    let ask: Ask = session.want(0, 0).unwrap().unwrap();
    let (request, reject) = (request_frame(&ask), reject_frame(&ask));
    assert_eq!(
        (&request[..5], &reject[..5]),
        (&[0, 0, 0, 49, 21][..], &[0, 0, 0, 49, 23][..])
    );
    assert_eq!(session.answer_frame(&ask), Ok(reject.to_vec()));
    session.take_piece(0, &file()).unwrap();
    let answer = session.answer_frame(&ask).unwrap();
    assert_eq!(
        (answer.len(), answer[4], &answer[5..53]),
        (53 + 64, 22, &request[5..])
    );
}
