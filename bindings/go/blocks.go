package btcheck

/*
#include <btcheck.h>
*/
import "C"

// Blocks are those of one piece message: consecutive ones of a file, each with nil or why it is not verified.
type Blocks struct {
	File, First uint64
	Results     []error
}

// Statuses are the results, by the name that they have in all languages.
func (blocks Blocks) Statuses() []error {
	return blocks.Results
}

// TakeBlock takes one block of a piece message (BEP 3), and gives which file's and which of its blocks it is, from 0.
func (session *Session) TakeBlock(index, begin uint32, block []byte) (file, number uint64, err error) {
	var inFile, at C.uint64_t
	err = asError(C.btcheck_session_take_block(&session.handle, C.uint32_t(index), C.uint32_t(begin), pointer(block),
		C.size_t(len(block)), &inFile, &at))
	return uint64(inFile), uint64(at), err
}

// TakePiece takes the bytes of a whole piece, once all its blocks came, and gives where it begins. Its leaves are known and
// marked then. P3Unproved: its node is not known. P4BadBlock: the bytes lead to another one.
func (session *Session) TakePiece(index uint32, piece []byte) (file, number uint64, err error) {
	var inFile, at C.uint64_t
	err = asError(C.btcheck_session_take_piece(&session.handle, C.uint32_t(index), pointer(piece), C.size_t(len(piece)), &inFile, &at))
	return uint64(inFile), uint64(at), err
}

// TakeBlocks takes all blocks of a piece message (BEP 3).
func (session *Session) TakeBlocks(index, begin uint32, content []byte) (Blocks, error) {
	var blocks C.btcheck_blocks
	err := asError(C.btcheck_session_take_blocks(&session.handle, C.uint32_t(index), C.uint32_t(begin), pointer(content),
		C.size_t(len(content)), &blocks))
	if err != nil {
		return Blocks{}, err
	}
	return blocksOf(&blocks), nil
}

func blocksOf(blocks *C.btcheck_blocks) Blocks {
	found := Blocks{File: uint64(blocks.file), First: uint64(blocks.first)}
	for _, status := range blocks.statuses[:blocks.count] {
		found.Results = append(found.Results, asError(status))
	}
	return found
}
