package btcheck

/*
#include <btcheck.h>
*/
import "C"

import "runtime"

// Holdings has the digests of blocks that cannot be proved yet, beside a session. The piece whose newest block came longest
// ago gives way to others.
type Holdings struct {
	handle C.btcheck_holdings
}

// Run is of blocks of a tree, from the first one to the last one.
type Run struct {
	Tree, First, Last uint64
}

// HeldBlocks are the blocks of one piece message: as those of TakeBlocks, but one that is held has Held for its result, or
// NoMemory if its digest could not be. Dropped has of each block the run of a piece that gave way for it, or nil.
type HeldBlocks struct {
	Blocks
	Dropped []*Run
}

// NewHoldings holds at most bound blocks of a session, and no fewer than its longest piece has. Close it when it is done
// with.
func NewHoldings(session *Session, bound int) (*Holdings, error) {
	holdings := &Holdings{}
	if err := asError(C.btcheck_holdings_new(&holdings.handle, &session.handle, C.size_t(bound))); err != nil {
		return nil, err
	}
	runtime.SetFinalizer(holdings, (*Holdings).Close)
	return holdings, nil
}

// Close frees what it has, and gives nil. Any later call but Close is refused.
func (holdings *Holdings) Close() error {
	C.btcheck_holdings_free(&holdings.handle)
	runtime.SetFinalizer(holdings, nil)
	return nil
}

// LookAt says that hashes of a tree were taken: Settle looks at its held pieces.
func (holdings *Holdings) LookAt(tree int) error {
	return asError(C.btcheck_holdings_look_at(&holdings.handle, C.size_t(tree)))
}

// Held gives how many blocks are held.
func (holdings *Holdings) Held() (uint64, error) {
	var count C.uint64_t
	err := asError(C.btcheck_session_held(&holdings.handle, &count))
	return uint64(count), err
}

// Hold is TakeBlocks, but blocks that cannot be proved yet are held. Call Settle afterwards until it answers Nothing.
func (session *Session) Hold(holdings *Holdings, index, begin uint32, content []byte) (HeldBlocks, error) {
	var held C.btcheck_held
	err := asError(C.btcheck_session_hold(&session.handle, &holdings.handle, C.uint32_t(index), C.uint32_t(begin), pointer(content),
		C.size_t(len(content)), &held))
	if err != nil {
		return HeldBlocks{}, err
	}
	return HeldBlocks{Blocks: blocksOf(&held.blocks), Dropped: droppedOf(held.dropped[:held.blocks.count])}, nil
}

func droppedOf(runs []C.btcheck_run) (found []*Run) {
	for _, run := range runs {
		var dropped *Run
		if run.tree != C.UINT64_MAX {
			dropped = &Run{uint64(run.tree), uint64(run.first), uint64(run.last)}
		}
		found = append(found, dropped)
	}
	return found
}

// Settled is a run of blocks that were held: they are proved and marked now, or false and given up.
type Settled struct {
	Run      Run
	IsProved bool
}

// SettleNext is Settle without errors for what is none: the run, whether it is proved, and whether there was one. NoMemory:
// memory was refused for a piece, which stays held.
func (session *Session) SettleNext(holdings *Holdings) (settled Settled, found bool, err error) {
	run, err := session.Settle(holdings)
	switch err {
	case nil, BadPiece:
		return Settled{Run: run, IsProved: err == nil}, true, nil
	case Nothing:
		return Settled{}, false, nil
	}
	return Settled{}, false, err
}

// Settle gives what became of held blocks, a run at a time: they are proved and marked, or, at BadPiece, false and given up.
// Nothing: there is nothing more. NoMemory: memory was refused for a piece, which stays held.
func (session *Session) Settle(holdings *Holdings) (Run, error) {
	var run C.btcheck_run
	err := asError(C.btcheck_session_settle(&session.handle, &holdings.handle, &run))
	return Run{uint64(run.tree), uint64(run.first), uint64(run.last)}, err
}
