package btcheck

/*
#include <btcheck.h>
*/
import "C"

import (
	"fmt"
	"strings"
)

// Refused is the status of a call that was refused, by the numbers of btcheck.h. Its values are compared by errors.Is, also
// with TorrentRefused, HashesRefused and BlockRefused.
type Refused uint32

// The statuses of btcheck.h.
const (
	WrongHandle          Refused = C.BTCHECK_WRONG_HANDLE
	NoMemory             Refused = C.BTCHECK_NO_MEMORY
	TooLong              Refused = C.BTCHECK_TOO_LONG
	NoRoot               Refused = C.BTCHECK_NO_ROOT
	NoSuch               Refused = C.BTCHECK_NO_SUCH
	Nothing              Refused = C.BTCHECK_NOTHING
	TooSmall             Refused = C.BTCHECK_TOO_SMALL
	BadSize              Refused = C.BTCHECK_BAD_SIZE
	TooShort             Refused = C.BTCHECK_TOO_SHORT
	BadPiece             Refused = C.BTCHECK_BAD_PIECE
	Held                 Refused = C.BTCHECK_HELD
	TorrentTooLarge      Refused = C.BTCHECK_TORRENT_TOO_LARGE
	TorrentNotBencode    Refused = C.BTCHECK_TORRENT_NOT_BENCODE
	TorrentMissing       Refused = C.BTCHECK_TORRENT_MISSING
	TorrentWrongType     Refused = C.BTCHECK_TORRENT_WRONG_TYPE
	TorrentVersion       Refused = C.BTCHECK_TORRENT_VERSION
	TorrentPieceLength   Refused = C.BTCHECK_TORRENT_PIECE_LENGTH
	TorrentShape         Refused = C.BTCHECK_TORRENT_SHAPE
	TorrentPath          Refused = C.BTCHECK_TORRENT_PATH
	TorrentSymlink       Refused = C.BTCHECK_TORRENT_SYMLINK
	TorrentLength        Refused = C.BTCHECK_TORRENT_LENGTH
	TorrentRoot          Refused = C.BTCHECK_TORRENT_ROOT
	TorrentRootReused    Refused = C.BTCHECK_TORRENT_ROOT_REUSED
	TorrentNoFiles       Refused = C.BTCHECK_TORRENT_NO_FILES
	TorrentTooManyPieces Refused = C.BTCHECK_TORRENT_TOO_MANY_PIECES
	TorrentLayerMissing  Refused = C.BTCHECK_TORRENT_LAYER_MISSING
	TorrentLayerSize     Refused = C.BTCHECK_TORRENT_LAYER_SIZE
	TorrentLayerMismatch Refused = C.BTCHECK_TORRENT_LAYER_MISMATCH
	TorrentHybridFiles   Refused = C.BTCHECK_TORRENT_HYBRID_FILES
	TorrentHybridAlign   Refused = C.BTCHECK_TORRENT_HYBRID_ALIGN
	TorrentHybridPieces  Refused = C.BTCHECK_TORRENT_HYBRID_PIECES
	TorrentNoMemory      Refused = C.BTCHECK_TORRENT_NO_MEMORY
	TorrentPathClash     Refused = C.BTCHECK_TORRENT_PATH_CLASH
	H1UnknownRoot        Refused = C.BTCHECK_H1_UNKNOWN_ROOT
	H2BadRange           Refused = C.BTCHECK_H2_BAD_RANGE
	H3BadCount           Refused = C.BTCHECK_H3_BAD_COUNT
	H4BadPad             Refused = C.BTCHECK_H4_BAD_PAD
	H5Unanchored         Refused = C.BTCHECK_H5_UNANCHORED
	H6Mismatch           Refused = C.BTCHECK_H6_MISMATCH
	H7NoMemory           Refused = C.BTCHECK_H7_NO_MEMORY
	H8Unasked            Refused = C.BTCHECK_H8_UNASKED
	P1BadPlace           Refused = C.BTCHECK_P1_BAD_PLACE
	P2BadSize            Refused = C.BTCHECK_P2_BAD_SIZE
	P3Unproved           Refused = C.BTCHECK_P3_UNPROVED
	P4BadBlock           Refused = C.BTCHECK_P4_BAD_BLOCK
)

var sentences = map[Refused]string{
	WrongHandle:          "The handle holds nothing, or something of another kind; or it is full where it should be empty.",
	NoMemory:             "Memory was refused.",
	TooLong:              "There are more than 2^46 bytes, more than the file, its pieces or the frame have, or 2^32 or more in a body.",
	NoRoot:               "An empty file has no root.",
	NoSuch:               "The torrent has no such tree, block, file or piece.",
	Nothing:              "There is nothing to ask for or to answer with, or the block is not marked.",
	TooSmall:             "The room is too small.",
	BadSize:              "A message of id 7, 21, 22 or 23 has a wrong size.",
	TooShort:             "Bytes of the file, of its pieces or of the frame are still to come.",
	BadPiece:             "A piece is not the torrent's.",
	Held:                 "The block is held until its hash is known.",
	TorrentTooLarge:      "The torrent file has more than 67,108,864 bytes.",
	TorrentNotBencode:    "The bytes are not canonical bencoding.",
	TorrentMissing:       "A key of the torrent is missing.",
	TorrentWrongType:     "A value of the torrent is of another kind.",
	TorrentVersion:       "The meta version is not 2.",
	TorrentPieceLength:   "The piece length is not a power of two from 16,384 to 2^30.",
	TorrentShape:         "The file tree has a wrong shape.",
	TorrentPath:          "A component of a path is ., .. or not UTF-8, or has a / or a zero byte.",
	TorrentSymlink:       "A file is a symlink.",
	TorrentLength:        "The length of a file is missing, no integer, below 0 or above 2^46.",
	TorrentRoot:          "The root of a file is missing, or has not 32 bytes.",
	TorrentRootReused:    "Two files have one root and different lengths.",
	TorrentNoFiles:       "There is no file.",
	TorrentTooManyPieces: "The files have more than 2^32 - 1 pieces.",
	TorrentLayerMissing:  "A file longer than a piece has no piece layer.",
	TorrentLayerSize:     "A piece layer has not one hash for each piece.",
	TorrentLayerMismatch: "The tree over a piece layer has another root.",
	TorrentHybridFiles:   "The version 1 list is malformed, or is not that of the file tree.",
	TorrentHybridAlign:   "A file is not at its place in the version 1 stream.",
	TorrentHybridPieces:  "The version 1 digests are not one for each piece of the stream.",
	TorrentNoMemory:      "Memory for the torrent was refused.",
	TorrentPathClash:     "The path is there already, or one of two paths is a prefix of the other.",
	H1UnknownRoot:        "No tree of the torrent has this root.",
	H2BadRange:           "The hashes are for no range of the tree.",
	H3BadCount:           "The number of hashes is wrong.",
	H4BadPad:             "A hash past the end of the file is not the one over pads.",
	H5Unanchored:         "The hashes lead to no known node.",
	H6Mismatch:           "A hash differs from a known one.",
	H7NoMemory:           "Memory for the hashes was refused.",
	H8Unasked:            "Nobody asked for the hashes.",
	P1BadPlace:           "No block or piece lies there.",
	P2BadSize:            "The bytes are not as many as the block or the piece has.",
	P3Unproved:           "The hash that covers the block or the piece is not known yet.",
	P4BadBlock:           "The bytes are not that block or piece of the torrent.",
}

// A family is of the refusals of one kind of data.
type family struct {
	hundred  uint32
	sentence string
}

func (of *family) Error() string { return of.sentence }

// What errors.Is compares a refusal with to learn what was refused.
var (
	TorrentRefused error = &family{1, "The bytes are no torrent that can be checked."}
	HashesRefused  error = &family{2, "A hashes message was refused."}
	BlockRefused   error = &family{3, "A block or a piece was refused."}
)

// Is tells whether the refusal is of a family.
func (status Refused) Is(target error) bool {
	of, is := target.(*family)
	return is && uint32(status)/100 == of.hundred
}

func (status Refused) Error() string {
	if sentence, is := sentences[status]; is {
		return sentence
	}
	return fmt.Sprintf("An unknown status: %d.", uint32(status))
}

// NotTorrent says why bytes are no torrent that can be checked, where there is more to say than the status. errors.Is
// compares it as that status, and errors.As finds it.
type NotTorrent struct {
	Refused
	// Fault is what the first fault of bencoding is, as `btcheck show` prints it, and Offset where the item begins that has
	// it: of TorrentNotBencode alone.
	Fault  string
	Offset uint64
	// Key is the key, as a torrent spells it, and "top" for the top value: of TorrentMissing and TorrentWrongType alone.
	Key string
}

// Unwrap gives the status.
func (refused *NotTorrent) Unwrap() error { return refused.Refused }

func (refused *NotTorrent) Error() string {
	sentence := strings.TrimSuffix(refused.Refused.Error(), ".")
	if refused.Fault != "" {
		return fmt.Sprintf("%s: %s at byte %d.", sentence, refused.Fault, refused.Offset)
	}
	return fmt.Sprintf("%s: %s.", sentence, refused.Key)
}

// The error of a torrent that was not opened.
func notOpened(status C.btcheck_status, more *C.btcheck_refusal) error {
	refused := &NotTorrent{Refused: Refused(status), Offset: uint64(more.offset)}
	if more.fault != 0 {
		refused.Fault = C.GoString(C.btcheck_fault_text(more.fault))
		return refused
	}
	if more.key != 0 {
		refused.Key = C.GoString(C.btcheck_key_text(more.key))
		return refused
	}
	return asError(status)
}

func asError(status C.btcheck_status) error {
	if status == C.BTCHECK_OK {
		return nil
	}
	return Refused(status)
}

// A status that says no by Nothing.
func yesOrNo(status C.btcheck_status) (bool, error) {
	err := asError(status)
	if err == Nothing {
		return false, nil
	}
	return err == nil, err
}
