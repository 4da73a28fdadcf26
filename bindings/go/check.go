package btcheck

/*
#include <btcheck.h>
*/
import "C"

import (
	"io"
	"runtime"
)

// Check is of a file's bytes, or of those of some of its pieces in a row, which come in parts of any size. It is an io.Writer.
// It may outlive its session: several goroutines check one file, each with its own.
type Check struct {
	handle  C.btcheck_check
	torrent *torrent
}

// NewCheck begins the check of a file, by its number from 0. NoRoot: it is empty. NoSuch: there is no such file. Close it
// when it is done with.
func NewCheck(session *Session, file int) (*Check, error) {
	check := &Check{}
	return check.begun(session, C.btcheck_check_new(&check.handle, &session.handle, C.size_t(file)))
}

// NewCheckPieces begins the check of a file's pieces from one number up to another, from 0 in the file. NoSuch: there is no
// such file, or it has not these pieces.
func NewCheckPieces(session *Session, file int, from, to uint64) (*Check, error) {
	check := &Check{}
	status := C.btcheck_check_new_pieces(&check.handle, &session.handle, C.size_t(file), C.uint64_t(from), C.uint64_t(to))
	return check.begun(session, status)
}

func (check *Check) begun(session *Session, status C.btcheck_status) (*Check, error) {
	if err := asError(status); err != nil {
		return nil, err
	}
	check.torrent = session.torrent.taken()
	runtime.SetFinalizer(check, (*Check).Close)
	return check, nil
}

// Close frees what the check has, and gives nil. Any later call but Close is refused.
func (check *Check) Close() error {
	C.btcheck_check_free(&check.handle)
	check.torrent.release()
	check.torrent = nil
	runtime.SetFinalizer(check, nil)
	return nil
}

// Push takes the next bytes. TooLong: fewer are still to come, and nothing was taken.
func (check *Check) Push(part []byte) error {
	return asError(C.btcheck_check_push(&check.handle, pointer(part), C.size_t(len(part))))
}

// Write is Push.
func (check *Check) Write(part []byte) (int, error) {
	if err := check.Push(part); err != nil {
		return 0, err
	}
	return len(part), nil
}

// ReadFrom pushes all that a reader gives, in parts of a MiB. io.Copy calls it.
func (check *Check) ReadFrom(reader io.Reader) (int64, error) {
	return pushAll(check.Push, reader)
}

// PushBits is Push, and sets the bit of each piece that is complete and good: bit 0, the highest of the first byte, is that
// of the first piece that is checked. The bits are clear at first, and the same at each call.
func (check *Check) PushBits(part, good []byte) error {
	return asError(C.btcheck_check_push_bits(&check.handle, pointer(part), C.size_t(len(part)), pointer(good), C.size_t(len(good))))
}

// Finish ends the check, which then begins anew. BadPiece: piece is the first in the file that is not the torrent's.
// TooShort: bytes are still to come, and the check goes on.
func (check *Check) Finish() (piece uint64, err error) {
	var bad C.uint64_t
	err = asError(C.btcheck_check_finish(&check.handle, &bad))
	return uint64(bad), err
}

// FinishBits is Finish, and sets the last piece's bit too. TooShort: the content ends here, the bits tell which pieces are
// whole and good, and the check begins anew too.
func (check *Check) FinishBits(good []byte) (piece uint64, err error) {
	var bad C.uint64_t
	err = asError(C.btcheck_check_finish_bits(&check.handle, &bad, pointer(good), C.size_t(len(good))))
	return uint64(bad), err
}
