package btcheck

/*
#include <btcheck.h>
*/
import "C"

import "unsafe"

// File is a file of the torrent. An empty one has no tree: Tree is -1.
type File struct {
	Path               string
	Length, FirstPiece uint64
	Tree               int
	Root               Hash
}

// Files gives the files of the torrent, in its order.
func (session *Session) Files() ([]File, error) {
	count, err := session.FileCount()
	if err != nil {
		return nil, err
	}
	files := make([]File, count)
	for number := range files {
		if files[number], err = session.File(number); err != nil {
			return nil, err
		}
	}
	return files, nil
}

// FileCount gives how many files the torrent has.
func (session *Session) FileCount() (int, error) {
	files, _, err := session.countsOfAll()
	return files, err
}

// TreeCount gives how many trees the torrent has, which are its distinct roots in the order of first use.
func (session *Session) TreeCount() (int, error) {
	_, trees, err := session.countsOfAll()
	return trees, err
}

func (session *Session) countsOfAll() (files, trees int, err error) {
	var ofFiles, ofTrees C.uint64_t
	err = asError(C.btcheck_session_files(&session.handle, &ofFiles, &ofTrees))
	return int(ofFiles), int(ofTrees), err
}

// File gives a file, by its number from 0 in the order of the torrent. NoSuch: there are fewer.
func (session *Session) File(number int) (File, error) {
	var found C.btcheck_file
	if err := asError(C.btcheck_session_file(&session.handle, C.size_t(number), &found)); err != nil {
		return File{}, err
	}
	path, err := session.Path(number)
	file := File{Path: path, Length: uint64(found.length), FirstPiece: uint64(found.first_piece), Tree: -1}
	if found.length > 0 {
		file.Tree = int(found.tree)
	}
	for at, each := range found.root {
		file.Root[at] = byte(each)
	}
	return file, err
}

// Path gives a file's path, its components joined by a slash. It leads to no place outside the folder in which it is looked
// up.
func (session *Session) Path(number int) (string, error) {
	return text(func(room *C.uint8_t, size C.size_t, length *C.uint64_t) C.btcheck_status {
		return C.btcheck_session_path(&session.handle, C.size_t(number), room, size, length)
	})
}

// What a call writes into a room, which is made larger as the call says.
func text(call func(*C.uint8_t, C.size_t, *C.uint64_t) C.btcheck_status) (string, error) {
	room := make([]byte, 256)
	for {
		var length C.uint64_t
		status := call(pointer(room), C.size_t(len(room)), &length)
		if status == C.BTCHECK_OK {
			return string(room[:length]), nil
		}
		if status != C.BTCHECK_TOO_SMALL {
			return "", asError(status)
		}
		room = make([]byte, length)
	}
}

// Name gives the torrent's name.
func (session *Session) Name() (string, error) {
	return text(func(room *C.uint8_t, size C.size_t, length *C.uint64_t) C.btcheck_status {
		return C.btcheck_session_name(&session.handle, room, size, length)
	})
}

// PieceLength gives the bytes of a piece, but for a file's last one.
func (session *Session) PieceLength() (uint64, error) {
	var length C.uint64_t
	err := asError(C.btcheck_session_piece_length(&session.handle, &length))
	return uint64(length), err
}

// Pieces gives how many pieces all files have together: they are numbered from 0 through all files.
func (session *Session) Pieces() (uint64, error) {
	var pieces C.uint64_t
	err := asError(C.btcheck_session_pieces(&session.handle, &pieces))
	return uint64(pieces), err
}

// IsHybrid tells whether the torrent is one of version 1 too.
func (session *Session) IsHybrid() (bool, error) {
	return yesOrNo(C.btcheck_session_is_hybrid(&session.handle))
}

// InfoHashV1 gives the info-hash by which clients of version 1 know a hybrid; has is false of another torrent.
func (session *Session) InfoHashV1() (v1 [20]byte, has bool, err error) {
	has, err = session.IsHybrid()
	if !has || err != nil {
		return v1, false, err
	}
	_, v1, err = session.InfoHashes()
	return v1, err == nil, err
}

// InfoHashes gives SHA-256 (BEP 52) and SHA-1 (BEP 3) of the info dictionary. A torrent that is no hybrid is known by the
// first one alone.
func (session *Session) InfoHashes() (v2 Hash, v1 [20]byte, err error) {
	err = asError(C.btcheck_session_info_hashes(&session.handle, (*C.uint8_t)(unsafe.Pointer(&v2[0])),
		(*C.uint8_t)(unsafe.Pointer(&v1[0]))))
	return v2, v1, err
}
