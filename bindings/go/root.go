package btcheck

/*
#include <btcheck.h>
*/
import "C"

import (
	"io"
	"runtime"
	"unsafe"
)

// Root computes the root of a file (BEP 52, "pieces root") from its bytes, which come in parts of any size. It is an
// io.Writer.
type Root struct {
	handle C.btcheck_root
}

// NewRoot gives one that was given nothing. Close it when it is done with.
func NewRoot() (*Root, error) {
	root := &Root{}
	if err := asError(C.btcheck_root_new(&root.handle)); err != nil {
		return nil, err
	}
	runtime.SetFinalizer(root, (*Root).Close)
	return root, nil
}

// Push takes the file's next bytes. TooLong: past 2^46, and nothing was taken.
func (root *Root) Push(part []byte) error {
	return asError(C.btcheck_root_push(&root.handle, pointer(part), C.size_t(len(part))))
}

// Write is Push.
func (root *Root) Write(part []byte) (int, error) {
	if err := root.Push(part); err != nil {
		return 0, err
	}
	return len(part), nil
}

// ReadFrom pushes all that a reader gives, in parts of a MiB. io.Copy calls it.
func (root *Root) ReadFrom(reader io.Reader) (int64, error) {
	return pushAll(root.Push, reader)
}

func pushAll(push func([]byte) error, reader io.Reader) (int64, error) {
	part, total := make([]byte, 1<<20), int64(0)
	for {
		count, err := io.ReadFull(reader, part)
		if refused := push(part[:count]); refused != nil {
			return total, refused
		}
		total += int64(count)
		if err == io.EOF || err == io.ErrUnexpectedEOF {
			return total, nil
		}
		if err != nil {
			return total, err
		}
	}
}

// Finish gives length and root of what was pushed, and begins anew. NoRoot: nothing was pushed.
func (root *Root) Finish() (length uint64, hash Hash, err error) {
	var bytes C.uint64_t
	err = asError(C.btcheck_root_finish(&root.handle, &bytes, (*C.uint8_t)(unsafe.Pointer(&hash[0]))))
	return uint64(bytes), hash, err
}

// Close frees what it has, and gives nil. Any later call but Close is refused.
func (root *Root) Close() error {
	C.btcheck_root_free(&root.handle)
	runtime.SetFinalizer(root, nil)
	return nil
}

// LengthAndRootOf gives length and root of a whole content, as Finish does. NoRoot: it is empty.
func LengthAndRootOf(content []byte) (length uint64, hash Hash, err error) {
	hash, err = RootOf(content)
	if err != nil {
		return 0, Hash{}, err
	}
	return uint64(len(content)), hash, nil
}

// RootOf gives the root of a whole content. NoRoot: it is empty.
func RootOf(content []byte) (Hash, error) {
	root, err := NewRoot()
	if err != nil {
		return Hash{}, err
	}
	defer root.Close()
	if err := root.Push(content); err != nil {
		return Hash{}, err
	}
	_, hash, err := root.Finish()
	return hash, err
}
