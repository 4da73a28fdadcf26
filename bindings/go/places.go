package btcheck

/*
#include <btcheck.h>
*/
import "C"

// Piece is a piece of the torrent: its bytes, the file in which it lies, and its first block and its first byte there.
type Piece struct {
	Length        uint64
	File          int
	Block, Offset uint64
}

// PieceRange has bytes of a file as a request has them: the piece, where they begin in it, and how many they are. They may
// go on in the pieces behind it.
type PieceRange struct{ Piece, Begin, Length uint64 }

// Piece gives a piece, numbered from 0 through all files. NoSuch: there are fewer.
func (session *Session) Piece(index uint32) (Piece, error) {
	var found C.btcheck_piece
	err := asError(C.btcheck_session_piece(&session.handle, C.uint32_t(index), &found))
	if err != nil {
		return Piece{}, err
	}
	return Piece{uint64(found.length), int(found.file), uint64(found.block), uint64(found.offset)}, nil
}

// FilePieces gives the first piece of a file, and how many pieces it has; an empty file has none. NoSuch: there is no such
// file.
func (session *Session) FilePieces(number int) (first, count uint64, err error) {
	var from, pieces C.uint64_t
	err = asError(C.btcheck_session_file_pieces(&session.handle, C.size_t(number), &from, &pieces))
	return uint64(from), uint64(pieces), err
}

// MapFile tells where bytes of a file lie, from an offset on: length of them, or fewer where the file ends. NoSuch: there is
// no such file, or it has no byte at the offset.
func (session *Session) MapFile(number int, offset, length uint64) (PieceRange, error) {
	var found C.btcheck_piece_range
	err := asError(C.btcheck_session_map_file(&session.handle, C.size_t(number), C.uint64_t(offset), C.uint64_t(length), &found))
	if err != nil {
		return PieceRange{}, err
	}
	return PieceRange{uint64(found.piece), uint64(found.begin), uint64(found.length)}, nil
}

// FileCounts gives how many blocks of a file are marked as verified, and how many it has. Files of one tree have their marks
// together. NoSuch: there is no such file.
func (session *Session) FileCounts(number int) (marked, blocks uint64, err error) {
	var marks, all C.uint64_t
	err = asError(C.btcheck_session_file_counts(&session.handle, C.size_t(number), &marks, &all))
	return uint64(marks), uint64(all), err
}

// Bitfield gives the bitfield of the pieces whose blocks are all marked as verified (BEP 3): bit 0, the highest of the first
// byte, is that of piece 0.
func (session *Session) Bitfield() ([]byte, error) {
	bits, err := text(func(room *C.uint8_t, size C.size_t, length *C.uint64_t) C.btcheck_status {
		return C.btcheck_session_bitfield(&session.handle, room, size, length)
	})
	return []byte(bits), err
}
