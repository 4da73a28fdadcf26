package btcheck

/*
#include <btcheck.h>
*/
import "C"

// Ask has the fields of a hash request, and of the message that answers it (BEP 52).
type Ask struct {
	Root                       Hash
	Base, Index, Length, Proof uint32
}

func (ask *Ask) fields() *C.btcheck_ask {
	found := &C.btcheck_ask{base: C.uint32_t(ask.Base), index: C.uint32_t(ask.Index),
		length: C.uint32_t(ask.Length), proof: C.uint32_t(ask.Proof)}
	for at, each := range ask.Root {
		found.root[at] = C.uint8_t(each)
	}
	return found
}

func askOf(fields *C.btcheck_ask) Ask {
	ask := Ask{Base: uint32(fields.base), Index: uint32(fields.index), Length: uint32(fields.length), Proof: uint32(fields.proof)}
	for at, each := range fields.root {
		ask.Root[at] = byte(each)
	}
	return ask
}

// TakeHashes takes a hashes message, its uncles last, and gives how many places of the tree are newly known.
func (session *Session) TakeHashes(ask Ask, hashes []Hash) (uint64, error) {
	var places C.uint64_t
	fields := ask.fields()
	err := asError(C.btcheck_session_take_hashes(&session.handle, &fields.root[0], fields.base, fields.index, fields.length,
		fields.proof, rows(hashes), C.size_t(len(hashes)), &places))
	return uint64(places), err
}

// Note notes that a request was sent: it is open until hashes answer it.
func (session *Session) Note(ask Ask) error {
	return asError(C.btcheck_session_note(&session.handle, ask.fields()))
}

// TakeAnswer is TakeHashes for a message that must answer a noted request, which it then closes.
func (session *Session) TakeAnswer(ask Ask, hashes []Hash) (uint64, error) {
	var places C.uint64_t
	err := asError(C.btcheck_session_take_answer(&session.handle, ask.fields(), rows(hashes), C.size_t(len(hashes)), &places))
	return uint64(places), err
}

// Answer gives the hashes that answer a peer's request. Nothing: reject it.
func (session *Session) Answer(ask Ask) ([]Hash, error) {
	room := make([]Hash, 1)
	for {
		var count C.uint64_t
		status := C.btcheck_session_answer(&session.handle, ask.fields(), rows(room), C.size_t(len(room)), &count)
		if status != C.BTCHECK_TOO_SMALL {
			return room[:count], asError(status)
		}
		room = make([]Hash, count)
	}
}

// Want gives what to ask for next to learn the leaf of a block of a tree. Nothing: the leaf is known.
func (session *Session) Want(tree int, block uint64) (Ask, error) {
	var fields C.btcheck_ask
	if err := asError(C.btcheck_session_want(&session.handle, C.size_t(tree), C.uint64_t(block), &fields)); err != nil {
		return Ask{}, err
	}
	return askOf(&fields), nil
}

// WantNext is Want without an error where nothing is wanted: found is false if the leaf is known.
func (session *Session) WantNext(tree int, block uint64) (ask Ask, found bool, err error) {
	ask, err = session.Want(tree, block)
	return ask, err == nil, unlessNothing(err)
}

// AnswerNext is Answer without an error where a request has to be rejected: found is false then.
func (session *Session) AnswerNext(ask Ask) (hashes []Hash, found bool, err error) {
	hashes, err = session.Answer(ask)
	return hashes, err == nil, unlessNothing(err)
}

// ExportNext is Export without an error at the end: found is false if no leaf is known from the cursor on.
func (session *Session) ExportNext(cursor *Cursor) (frame []byte, found bool, err error) {
	frame, err = session.Export(cursor)
	return frame, err == nil, unlessNothing(err)
}

// The error, but nil for Nothing.
func unlessNothing(err error) error {
	if err == Nothing {
		return nil
	}
	return err
}

// CanAnswer tells whether Answer would give hashes for a request.
func (session *Session) CanAnswer(ask Ask) (bool, error) {
	return yesOrNo(C.btcheck_session_can_answer(&session.handle, ask.fields()))
}

// Cursor is where an export goes on. Its zero value is the beginning.
type Cursor struct{ tree, block uint64 }

// Export gives the leaves that are known first from the cursor on, as the whole frame of a hashes message with the proof up
// to the root, and moves the cursor behind them. Nothing: no leaf is known from there on. TakeFrame of any session of the
// torrent takes it.
func (session *Session) Export(cursor *Cursor) ([]byte, error) {
	at := C.btcheck_cursor{tree: C.uint64_t(cursor.tree), block: C.uint64_t(cursor.block)}
	room := make([]byte, C.BTCHECK_MOST_EXPORTED)
	var length C.uint64_t
	if err := asError(C.btcheck_session_export(&session.handle, &at, pointer(room), C.size_t(len(room)), &length)); err != nil {
		return nil, err
	}
	cursor.tree, cursor.block = uint64(at.tree), uint64(at.block)
	return room[:length], nil
}

// Fill takes a whole layer of a tree, 0 for the leaves, without the pads past the file's end, and gives how many places are
// newly known.
func (session *Session) Fill(tree int, layer uint32, hashes []Hash) (uint64, error) {
	var places C.uint64_t
	err := asError(C.btcheck_session_fill(&session.handle, C.size_t(tree), C.uint32_t(layer), rows(hashes),
		C.size_t(len(hashes)), &places))
	return uint64(places), err
}
