// Package btcheck checks hashes and blocks of BitTorrent version 2 by the proved library libbtcheck.
//
// A call that is refused has changed nothing. A Session, a Root or a Check may be used by one goroutine at a time. Names are
// those of btcheck.h in Go's style.
package btcheck

/*
#cgo pkg-config: btcheck
#include <btcheck.h>
*/
import "C"

import (
	"fmt"
	"unsafe"
)

// BlockLength is the bytes of a block that is not its file's last.
const BlockLength = C.BTCHECK_BLOCK

// Hash is a digest of SHA-256.
type Hash [C.BTCHECK_HASH]byte

// Version gives the three numbers of the version of the library that is linked.
func Version() [3]byte {
	version := C.btcheck_version()
	return [3]byte{byte(version >> 16), byte(version >> 8), byte(version)}
}

// VersionText gives the same as text, "1.1.0" say.
func VersionText() string {
	version := Version()
	return fmt.Sprintf("%d.%d.%d", version[0], version[1], version[2])
}

// What an empty slice is passed as, since no pointer may be null.
var nothing [1]byte

func pointer(bytes []byte) *C.uint8_t {
	if len(bytes) == 0 {
		return (*C.uint8_t)(&nothing[0])
	}
	return (*C.uint8_t)(&bytes[0])
}

func rows(hashes []Hash) *[C.BTCHECK_HASH]C.uint8_t {
	if len(hashes) == 0 {
		return (*[C.BTCHECK_HASH]C.uint8_t)(unsafe.Pointer(&Hash{}))
	}
	return (*[C.BTCHECK_HASH]C.uint8_t)(unsafe.Pointer(&hashes[0]))
}
