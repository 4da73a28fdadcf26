package btcheck

/*
#include <btcheck.h>
*/
import "C"

// RequestFrame gives the whole frame of a hash request, with the four bytes of its length: of what Session.Want gives, say.
func RequestFrame(ask Ask) []byte {
	frame := make([]byte, C.BTCHECK_ASK_FRAME)
	C.btcheck_request_frame(ask.fields(), pointer(frame))
	return frame
}

// RejectFrame gives the whole frame of a hash reject, with the four bytes of its length: no hashes come for this request.
func RejectFrame(ask Ask) []byte {
	frame := make([]byte, C.BTCHECK_ASK_FRAME)
	C.btcheck_reject_frame(ask.fields(), pointer(frame))
	return frame
}

// AnswerFrame gives the whole frame that answers a peer's request, with the four bytes of its length: of the hashes, or of a
// reject if they are not known.
func (session *Session) AnswerFrame(ask Ask) ([]byte, error) {
	frame, err := text(func(room *C.uint8_t, size C.size_t, length *C.uint64_t) C.btcheck_status {
		status := C.btcheck_session_answer_frame(&session.handle, ask.fields(), room, size, length)
		if status == C.BTCHECK_NOTHING {
			return C.BTCHECK_OK
		}
		return status
	})
	return []byte(frame), err
}

// Taken is what a whole frame was, and what was made of it: Ask of KindStored, KindAnswered, KindRejected and KindRejectNoted;
// Dropped of KindBlocks, by HoldFrame alone, has of each block the run of a piece that gave way for it, or nil.
type Taken struct {
	Verdict
	Ask     Ask
	Dropped []*Run
}

// TakeFrame takes one whole frame as it came, its four bytes of length and its body. If asked, hashes must answer a noted
// request, as those of TakeAnswer. TooShort: bytes of the frame are still to come. TooLong: bytes follow it.
func (session *Session) TakeFrame(frame []byte, asked bool) (Taken, error) {
	var seen C.btcheck_taken
	err := asError(C.btcheck_session_take_frame(&session.handle, pointer(frame), C.size_t(len(frame)), C.bool(asked), &seen))
	if err != nil {
		return Taken{}, err
	}
	return takenOf(&seen), nil
}

// HoldFrame is TakeFrame, but blocks that cannot be proved yet are held. Call Settle afterwards until it answers Nothing: it
// looks at the pieces of these blocks, or, after hashes that were joined, at all pieces of their tree.
func (session *Session) HoldFrame(holdings *Holdings, frame []byte, asked bool) (Taken, error) {
	var seen C.btcheck_taken
	err := asError(C.btcheck_session_hold_frame(&session.handle, &holdings.handle, pointer(frame), C.size_t(len(frame)), C.bool(asked),
		&seen))
	if err != nil {
		return Taken{}, err
	}
	taken := takenOf(&seen)
	if taken.Kind == KindBlocks {
		taken.Dropped = droppedOf(seen.dropped[:seen.verdict.blocks.count])
	}
	return taken, nil
}

func takenOf(seen *C.btcheck_taken) Taken {
	taken := Taken{Verdict: verdictOf(&seen.verdict)}
	switch taken.Kind {
	case KindStored, KindAnswered, KindRejected, KindRejectNoted:
		taken.Ask = askOf(&seen.ask)
	}
	return taken
}
