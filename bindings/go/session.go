package btcheck

/*
#include <btcheck.h>
#include <stdlib.h>
*/
import "C"

import (
	"runtime"
	"sync/atomic"
	"unsafe"
)

// A torrent's bytes in memory of C, which handles read until all of them are freed.
type torrent struct {
	bytes unsafe.Pointer
	users int32
}

func (of *torrent) taken() *torrent {
	atomic.AddInt32(&of.users, 1)
	return of
}

func (of *torrent) release() {
	if of != nil && atomic.AddInt32(&of.users, -1) == 0 {
		C.free(of.bytes)
	}
}

// Session takes the hashes and the blocks that peers send, and says which blocks are the torrent's own.
type Session struct {
	handle  C.btcheck_session
	torrent *torrent
}

// Open opens a torrent file of version 2. With layers the session begins with the torrent's piece layers, else with the
// roots alone. Close it when it is done with. The error of bytes with a fault or with a wrong key is a *NotTorrent.
func Open(content []byte, layers bool) (*Session, error) {
	of := &torrent{bytes: C.CBytes(append(content[:len(content):len(content)], 0))}
	session := &Session{torrent: of.taken()}
	var more C.btcheck_refusal
	err := notOpened(C.btcheck_session_open_explained(&session.handle, (*C.uint8_t)(of.bytes), C.size_t(len(content)),
		C.bool(layers), &more), &more)
	if err != nil {
		of.release()
		return nil, err
	}
	runtime.SetFinalizer(session, (*Session).Close)
	return session, nil
}

// Close frees what the session has, and gives nil; its checks go on. Any later call but Close is refused.
func (session *Session) Close() error {
	C.btcheck_session_free(&session.handle)
	session.torrent.release()
	session.torrent = nil
	runtime.SetFinalizer(session, nil)
	return nil
}

// Counts gives how many places of a tree are known, and how many of its blocks are marked as verified.
func (session *Session) Counts(tree int) (known, marked uint64, err error) {
	var places, leaves C.uint64_t
	err = asError(C.btcheck_session_counts(&session.handle, C.size_t(tree), &places, &leaves))
	return uint64(places), uint64(leaves), err
}

// IsMarked tells whether a block of a tree is marked as verified. NoSuch: there is no such tree, or its files have no such
// block.
func (session *Session) IsMarked(tree int, block uint64) (bool, error) {
	return yesOrNo(C.btcheck_session_is_marked(&session.handle, C.size_t(tree), C.uint64_t(block)))
}
