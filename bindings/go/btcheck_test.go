package btcheck

import (
	"bytes"
	"errors"
	"fmt"
	"io"
	"os"
	"testing"
)

func example(t *testing.T, name string) []byte {
	found, err := os.ReadFile("../../examples/" + name)
	if err != nil {
		t.Fatal(err)
	}
	return found
}

func opened(t *testing.T) *Session {
	session, err := Open(example(t, "pair.torrent"), true)
	if err != nil {
		t.Fatal(err)
	}
	return session
}

// What gives no more than is asked for, and knows no other way, so that io.Copy looks at where it goes.
func unbuffered(content []byte) io.Reader {
	return struct{ io.Reader }{bytes.NewReader(content)}
}

func rootOf(t *testing.T, content []byte) Hash {
	root, err := RootOf(content)
	if err != nil {
		t.Fatal(err)
	}
	return root
}

// The request for both leaves of file a, and these: a leaf is the root of a file of that block alone.
func leaves(t *testing.T, content []byte) (Ask, []Hash) {
	return Ask{Root: rootOf(t, content), Length: 2},
		[]Hash{rootOf(t, content[:BlockLength]), rootOf(t, content[BlockLength:])}
}

// Ends where what was seen is not what is wanted.
func see(t *testing.T, seen, wanted any) {
	t.Helper()
	if fmt.Sprint(seen) != fmt.Sprint(wanted) {
		t.Fatalf("wanted %v, seen %v", wanted, seen)
	}
}

func TestRoot(t *testing.T) {
	root := rootOf(t, example(t, "pair/a"))
	see(t, fmt.Sprintf("%x", root[:4]), "9d7887c6")
	_, err := RootOf(nil)
	see(t, err, NoRoot)
	parts, err := NewRoot()
	see(t, err, nil)
	defer parts.Close()
	for _, reader := range []io.Reader{bytes.NewReader(nil), unbuffered(example(t, "pair/a")[:9]), bytes.NewReader(example(t, "pair/a")[9:])} {
		_, err = io.Copy(parts, reader)
		see(t, err, nil)
	}
	length, again, err := parts.Finish()
	see(t, []any{length, again, err}, []any{16385, root, nil})
}

func TestRefusedTorrent(t *testing.T) {
	for _, torrent := range [][]byte{example(t, "abc.txt"), nil} {
		_, err := Open(torrent, true)
		see(t, errors.Is(err, TorrentNotBencode) && !errors.Is(err, TorrentMissing), true)
		see(t, errors.Is(err, TorrentRefused) && !errors.Is(err, BlockRefused), true)
	}
	var refused *NotTorrent
	_, err := Open([]byte("d4:infodee"), true)
	see(t, errors.As(err, &refused) && refused.Key == "meta version", true)
	see(t, err.Error(), "A key of the torrent is missing: meta version.")
	_, err = Open([]byte("d1:a1:be!"), true)
	see(t, errors.As(err, &refused) && refused.Fault == "Trailing" && refused.Offset == 8, true)
	see(t, err.Error(), "The bytes are not canonical bencoding: Trailing at byte 8.")
	_, err = Open([]byte("d4:infod12:meta versioni1eee"), true)
	see(t, err, TorrentVersion)
}

func TestKeeping(t *testing.T) {
	session, content := opened(t), example(t, "pair/a")
	defer session.Close()
	ask, right := leaves(t, content)
	_, err := session.TakeHashes(ask, right)
	see(t, err, nil)
	other, third := opened(t), opened(t)
	defer other.Close()
	defer third.Close()
	var cursor Cursor
	frame, err := session.Export(&cursor)
	see(t, []any{len(frame), err}, []any{4 + 49 + 64, nil})
	_, err = session.Export(&cursor)
	see(t, err, Nothing)
	_, err = other.Frame(frame[4:])
	see(t, err, nil)
	known, _, err := session.Counts(0)
	see(t, err, nil)
	found, _, err := other.Counts(0)
	see(t, []any{found, err}, []any{known, nil})
	places, err := third.Fill(0, 0, right)
	see(t, []any{places, err}, []any{known - 1, nil})
	_, err = third.Fill(99, 0, right)
	see(t, err, NoSuch)
}

func TestBlocks(t *testing.T) {
	session, content := opened(t), example(t, "pair/a")
	defer session.Close()
	ask, right := leaves(t, content)
	_, _, err := session.TakeBlock(0, 0, content[:BlockLength])
	see(t, err, P3Unproved)
	_, err = session.TakeHashes(ask, []Hash{right[0], right[0]})
	see(t, err, H6Mismatch)
	_, err = session.TakeHashes(ask, nil)
	see(t, err, H3BadCount)
	places, err := session.TakeHashes(ask, right)
	see(t, []any{places, err}, []any{2, nil})
	for block, part := range [][]byte{content[:BlockLength], content[BlockLength:]} {
		file, number, err := session.TakeBlock(0, uint32(block*BlockLength), part)
		see(t, []any{file, number, err}, []any{0, block, nil})
	}
	_, _, err = session.TakeBlock(0, 0, make([]byte, BlockLength))
	see(t, err, P4BadBlock)
	_, _, err = session.TakeBlock(0, 0, nil)
	see(t, err, P2BadSize)
	file, number, err := session.TakeBlock(1, 0, []byte("abc"))
	see(t, []any{file, number, err}, []any{1, 0, nil})
	known, marked, err := session.Counts(0)
	see(t, []any{known, marked, err}, []any{3, 2, nil})
	_, _, err = session.Counts(2)
	see(t, err, NoSuch)
}

func TestAnswers(t *testing.T) {
	session, content := opened(t), example(t, "pair/a")
	defer session.Close()
	ask, right := leaves(t, content)
	_, err := session.Answer(ask)
	see(t, err, Nothing)
	_, err = session.TakeAnswer(ask, right)
	see(t, err, H8Unasked)
	see(t, session.Note(ask), nil)
	places, err := session.TakeAnswer(ask, right)
	see(t, []any{places, err}, []any{2, nil})
	hashes, err := session.Answer(ask)
	see(t, []any{hashes, err}, []any{right, nil})
}

func TestClosed(t *testing.T) {
	session := opened(t)
	session.Close()
	session.Close()
	_, _, err := session.TakeBlock(1, 0, []byte("abc"))
	see(t, err, WrongHandle)
}

func TestGoroutines(t *testing.T) {
	done := make(chan error)
	for each := 0; each < 8; each++ {
		session := opened(t)
		go func() {
			_, _, err := session.TakeBlock(1, 0, []byte("abc"))
			session.Close()
			done <- err
		}()
	}
	for each := 0; each < 8; each++ {
		see(t, <-done, nil)
	}
}

func TestFiles(t *testing.T) {
	session, content := opened(t), example(t, "pair/a")
	defer session.Close()
	files, err := session.Files()
	see(t, []any{len(files), err}, []any{2, nil})
	see(t, files[0], File{Path: "a", Length: 16385, Tree: 0, Root: rootOf(t, content)})
	see(t, []any{files[1].Path, files[1].FirstPiece}, []any{"c", 1})
	v2, v1, err := session.InfoHashes()
	see(t, fmt.Sprintf("%x %x %v", v2[:2], v1[:2], err), "4d9a f1a7 <nil>")
	see(t, Version(), [3]byte{1, 1, 0})
	trees, err := session.TreeCount()
	see(t, []any{trees, err}, []any{2, nil})
	_, err = session.File(2)
	see(t, err, NoSuch)
	_, err = session.Path(2)
	see(t, err, NoSuch)
	length, err := session.PieceLength()
	see(t, []any{length, err}, []any{2 * BlockLength, nil})
	pieces, err := session.Pieces()
	see(t, []any{pieces, err}, []any{2, nil})
	name, err := session.Name()
	see(t, []any{name, err}, []any{"pair", nil})
	is, err := session.IsHybrid()
	see(t, []any{is, err}, []any{true, nil})
}

func TestWant(t *testing.T) {
	session, content := opened(t), example(t, "pair/a")
	defer session.Close()
	ask, right := leaves(t, content)
	wanted, err := session.Want(0, 1)
	see(t, []any{wanted, err}, []any{ask, nil})
	can, err := session.CanAnswer(ask)
	see(t, []any{can, err}, []any{false, nil})
	_, err = session.TakeHashes(ask, right)
	see(t, err, nil)
	_, err = session.Want(0, 1)
	see(t, err, Nothing)
	can, err = session.CanAnswer(ask)
	see(t, []any{can, err}, []any{true, nil})
	content[0] ^= 1
	blocks, err := session.TakeBlocks(0, 0, content)
	see(t, []any{blocks, err}, []any{Blocks{Results: []error{P4BadBlock, nil}}, nil})
	is, err := session.IsMarked(0, 0)
	see(t, []any{is, err}, []any{false, nil})
	is, err = session.IsMarked(0, 1)
	see(t, []any{is, err}, []any{true, nil})
	_, err = session.IsMarked(9, 0)
	see(t, err, NoSuch)
}

// Where pieces and bytes lie, what is whole, and the frames of requests and answers.
func TestPlaces(t *testing.T) {
	session, content := opened(t), example(t, "pair/a")
	defer session.Close()
	piece, err := session.Piece(1)
	see(t, []any{piece, err}, []any{Piece{Length: 3, File: 1}, nil})
	_, err = session.Piece(2)
	see(t, err, NoSuch)
	first, count, err := session.FilePieces(1)
	see(t, []any{first, count, err}, []any{1, 1, nil})
	found, err := session.MapFile(0, BlockLength, 9)
	see(t, []any{found, err}, []any{PieceRange{Begin: BlockLength, Length: 1}, nil})
	_, err = session.MapFile(1, 3, 1)
	see(t, err, NoSuch)
	ask, _ := leaves(t, content)
	request, reject := RequestFrame(ask), RejectFrame(ask)
	see(t, []any{len(request), request[:5], reject[:5]}, []any{53, []byte{0, 0, 0, 49, 21}, []byte{0, 0, 0, 49, 23}})
	answer, err := session.AnswerFrame(ask)
	see(t, []any{answer, err}, []any{reject, nil})
	_, _, err = session.TakePiece(0, content)
	see(t, err, nil)
	marked, blocks, err := session.FileCounts(0)
	see(t, []any{marked, blocks, err}, []any{2, 2, nil})
	bits, err := session.Bitfield()
	see(t, []any{bits, err}, []any{[]byte{0x80}, nil})
	answer, err = session.AnswerFrame(ask)
	see(t, []any{len(answer), answer[4], answer[5:53], err}, []any{53 + 64, 22, request[5:], nil})
}

// What ends a loop, and what says no, is a value; and each type is closed as io does.
func TestEnds(t *testing.T) {
	session, content := opened(t), example(t, "pair/a")
	holdings, err := NewHoldings(session, 10)
	see(t, err, nil)
	ask, found, err := session.WantNext(0, 1)
	see(t, []any{ask.Length, found, err}, []any{2, true, nil})
	_, found, err = session.AnswerNext(ask)
	see(t, []any{found, err}, []any{false, nil})
	var cursor Cursor
	_, found, err = session.ExportNext(&cursor)
	see(t, []any{found, err}, []any{false, nil})
	_, found, err = session.SettleNext(holdings)
	see(t, []any{found, err}, []any{false, nil})
	for _, isTrue := range []bool{false, true} {
		sent := append([]byte{}, content...)
		if !isTrue {
			sent[0] ^= 1
		}
		held, err := session.Hold(holdings, 0, 0, sent)
		see(t, []any{held.Statuses(), err}, []any{[]error{Held, Held}, nil})
		settled, found, err := session.SettleNext(holdings)
		see(t, []any{settled, found, err}, []any{Settled{Run{0, 0, 1}, isTrue}, true, nil})
	}
	_, found, err = session.WantNext(0, 1)
	see(t, []any{found, err}, []any{false, nil})
	_, _, err = session.WantNext(9, 1)
	see(t, err, NoSuch)
	hashes, found, err := session.AnswerNext(ask)
	see(t, []any{len(hashes), found, err}, []any{2, true, nil})
	frame, found, err := session.ExportNext(&cursor)
	see(t, []any{len(frame), found, err}, []any{4 + 49 + 64, true, nil})
	v1, has, err := session.InfoHashV1()
	see(t, []any{fmt.Sprintf("%x", v1[:2]), has, err}, []any{"f1a7", true, nil})
	length, root, err := LengthAndRootOf(content)
	see(t, []any{length, root, err}, []any{16385, rootOf(t, content), nil})
	_, _, err = LengthAndRootOf(nil)
	see(t, err, NoRoot)
	see(t, VersionText(), "1.1.0")
	for _, each := range []io.Closer{holdings, session, session} {
		see(t, each.Close(), nil)
	}
	_, _, err = session.SettleNext(holdings)
	see(t, err, WrongHandle)
	for _, each := range []io.Closer{&Root{}, &Check{}, &Draft{}, &DraftFile{}} {
		see(t, each.Close(), nil)
	}
}

func TestFrames(t *testing.T) {
	session := opened(t)
	defer session.Close()
	for _, each := range []struct {
		body    []byte
		verdict Verdict
		err     error
	}{
		{nil, Verdict{Kind: KindKeepAlive}, nil},
		{[]byte{4, 0, 0, 0, 0}, Verdict{Kind: KindSkipped, ID: 4}, nil},
		{[]byte{7, 0}, Verdict{}, BadSize},
		{append([]byte{7, 0, 0, 0, 1, 0, 0, 0, 0}, "abc"...), Verdict{Kind: KindBlocks, Blocks: Blocks{File: 1, Results: []error{nil}}}, nil},
		{append([]byte{21}, make([]byte, 48)...), Verdict{Kind: KindRejected}, nil},
		{append([]byte{22}, make([]byte, 80)...), Verdict{}, H1UnknownRoot},
	} {
		verdict, err := session.Frame(each.body)
		see(t, []any{verdict, err}, []any{each.verdict, each.err})
	}
}

// A frame: the length of its body, and that.
func framed(body ...[]byte) []byte {
	whole := bytes.Join(body, nil)
	return append([]byte{0, 0, byte(len(whole) >> 8), byte(len(whole))}, whole...)
}

func TestWholeFrames(t *testing.T) {
	session, other, content := opened(t), opened(t), example(t, "pair/a")
	defer session.Close()
	defer other.Close()
	holdings, err := NewHoldings(session, 0)
	see(t, err, nil)
	defer holdings.Close()
	front := framed([]byte{7, 0, 0, 0, 0, 0, 0, 0, 0}, content[:BlockLength])
	back := framed([]byte{7, 0, 0, 0, 0, 0, 0, 0x40, 0}, content[BlockLength:])
	taken, err := session.TakeFrame(back, false)
	see(t, []any{taken.Kind, taken.Blocks.Results, len(taken.Dropped), err}, []any{KindBlocks, []error{P3Unproved}, 0, nil})
	taken, err = session.HoldFrame(holdings, back, true)
	see(t, []any{taken.Blocks.First, taken.Blocks.Results, taken.Dropped, err}, []any{1, []error{Held}, []*Run{nil}, nil})
	_, found, err := session.SettleNext(holdings)
	see(t, []any{found, err}, []any{false, nil})
	_, err = session.HoldFrame(holdings, front, true)
	see(t, err, nil)
	settled, found, err := session.SettleNext(holdings)
	see(t, []any{settled, found, err}, []any{Settled{Run: Run{0, 0, 1}, IsProved: true}, true, nil})
	var cursor Cursor
	message, err := session.Export(&cursor)
	see(t, err, nil)
	request := framed([]byte{21}, message[5:53])
	taken, err = other.TakeFrame(request, false)
	see(t, []any{taken.Kind, taken.Ask.Length, err}, []any{KindRejected, 2, nil})
	_, err = other.TakeFrame(message, true)
	see(t, err, H8Unasked)
	see(t, other.Note(taken.Ask), nil)
	taken, err = other.TakeFrame(message, true)
	see(t, []any{taken.Kind, taken.Places, taken.Ask.Length, err}, []any{KindStored, 2, 2, nil})
	taken, err = other.TakeFrame(request, false)
	see(t, []any{taken.Kind, err}, []any{KindAnswered, nil})
	hashes, err := other.Answer(taken.Ask)
	see(t, []any{len(hashes), err}, []any{2, nil})
	for _, each := range []struct {
		frame []byte
		err   error
	}{{nil, TooShort}, {front[:len(front)-1], TooShort}, {append(front[:len(front):len(front)], 0), TooLong}, {framed([]byte{7}), BadSize}} {
		_, err = other.TakeFrame(each.frame, false)
		see(t, err, each.err)
	}
}

func TestChecks(t *testing.T) {
	session := opened(t)
	_, err := NewCheckPieces(session, 0, 0, 2)
	see(t, err, NoSuch)
	check, err := NewCheck(session, 0)
	see(t, err, nil)
	defer check.Close()
	row, err := NewCheckPieces(session, 0, 0, 1)
	see(t, err, nil)
	session.Close()
	content, bits := example(t, "pair/a"), []byte{0}
	count, err := io.Copy(check, unbuffered(content))
	see(t, []any{count, err}, []any{len(content), nil})
	_, err = io.Copy(check, unbuffered(content[:1]))
	see(t, err, TooLong)
	see(t, check.Push([]byte{0}), TooLong)
	_, err = check.Finish()
	see(t, err, nil)
	_, err = check.Finish()
	see(t, err, TooShort)
	see(t, row.PushBits(content, bits), nil)
	_, err = row.FinishBits(bits)
	see(t, []any{err, bits}, []any{nil, []byte{0x80}})
	content[0] ^= 1
	see(t, row.PushBits(content, nil), nil)
	bad, err := row.FinishBits(nil)
	see(t, []any{bad, errors.Is(err, BadPiece)}, []any{0, true})
	row.Close()
	see(t, row.Push(nil), WrongHandle)
}

func TestRefusals(t *testing.T) {
	see(t, P4BadBlock, "The bytes are not that block or piece of the torrent.")
	see(t, Refused(999), "An unknown status: 999.")
	for _, each := range []struct {
		err, of error
		is      bool
	}{{P4BadBlock, BlockRefused, true}, {H6Mismatch, HashesRefused, true}, {P4BadBlock, HashesRefused, false}, {NoRoot, BlockRefused, false}} {
		see(t, errors.Is(fmt.Errorf("a block: %w", each.err), each.of), each.is)
	}
}

func TestPieces(t *testing.T) {
	session := opened(t)
	defer session.Close()
	content := example(t, "pair/a")
	_, _, err := session.TakePiece(9, content)
	see(t, err, P1BadPlace)
	file, block, err := session.TakePiece(0, content)
	see(t, []any{file, block, err}, []any{uint64(0), uint64(0), nil})
	is, err := session.IsMarked(0, 1)
	see(t, []any{is, err}, []any{true, nil})
}

func TestHoldings(t *testing.T) {
	session := opened(t)
	defer session.Close()
	holdings, err := NewHoldings(session, 10)
	see(t, err, nil)
	defer holdings.Close()
	content := example(t, "pair/a")
	for _, change := range []byte{1, 0} {
		content[0] ^= change
		for _, begin := range []int{BlockLength, 0} {
			_, err = session.Settle(holdings)
			see(t, err, Nothing)
			part := content[begin:]
			if begin == 0 {
				part = content[:BlockLength]
			}
			held, err := session.Hold(holdings, 0, uint32(begin), part)
			see(t, []any{held.First, held.Results, held.Dropped, err}, []any{begin / BlockLength, []error{Held}, []*Run{nil}, nil})
		}
		run, err := session.Settle(holdings)
		see(t, []any{run, errors.Is(err, BadPiece)}, []any{Run{0, 0, 1}, change == 1})
		_, err = session.Settle(holdings)
		see(t, err, Nothing)
		is, err := session.IsMarked(0, 0)
		see(t, []any{is, err}, []any{change == 0, nil})
		content[0] ^= change
	}
	count, err := holdings.Held()
	see(t, []any{count, err}, []any{0, nil})
	see(t, holdings.LookAt(0), nil)
}
