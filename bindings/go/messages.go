package btcheck

/*
#include <btcheck.h>
*/
import "C"

// Kind is what a message was, and what was made of it.
type Kind uint32

// Kinds of messages: hashes that are joined, blocks, a request that can be answered and one to be rejected, a reject of our
// request, an empty message, and one of another kind.
const (
	KindStored      Kind = C.BTCHECK_STORED
	KindBlocks      Kind = C.BTCHECK_BLOCKS
	KindAnswered    Kind = C.BTCHECK_ANSWERED
	KindRejected    Kind = C.BTCHECK_REJECTED
	KindRejectNoted Kind = C.BTCHECK_REJECT_NOTED
	KindKeepAlive   Kind = C.BTCHECK_KEEP_ALIVE
	KindSkipped     Kind = C.BTCHECK_SKIPPED
)

// Verdict is of one message: Places of KindStored, Blocks of KindBlocks, ID of KindSkipped.
type Verdict struct {
	Kind   Kind
	ID     uint32
	Places uint64
	Blocks Blocks
}

// Frame takes the body of one frame of the peer protocol as it came, without its length: for clients that pass messages on.
func (session *Session) Frame(body []byte) (Verdict, error) {
	var seen C.btcheck_verdict
	if err := asError(C.btcheck_session_frame(&session.handle, pointer(body), C.size_t(len(body)), &seen)); err != nil {
		return Verdict{}, err
	}
	return verdictOf(&seen), nil
}

func verdictOf(seen *C.btcheck_verdict) Verdict {
	verdict := Verdict{Kind: Kind(seen.kind)}
	switch verdict.Kind {
	case KindStored:
		verdict.Places = uint64(seen.places)
	case KindBlocks:
		verdict.Blocks = blocksOf(&seen.blocks)
	case KindSkipped:
		verdict.ID = uint32(seen.id)
	}
	return verdict
}
