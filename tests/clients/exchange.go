// exchange serve TORRENT CONTENT pieces|blocks, exchange learn TORRENT: as exchange.py, over the package btcheck.
package main

import (
	"encoding/binary"
	"errors"
	"fmt"
	"io"
	"os"

	"tanagernail.example/btcheck"
)

// Ends the program at a fault.
func must(err error) {
	if err != nil {
		fmt.Fprintln(os.Stderr, "fault:", err)
		os.Exit(2)
	}
}

// The next frame; nil at the end.
func next() []byte {
	size := make([]byte, 4)
	if _, err := io.ReadFull(os.Stdin, size); err != nil {
		return nil
	}
	body := make([]byte, binary.BigEndian.Uint32(size))
	_, err := io.ReadFull(os.Stdin, body)
	must(err)
	return body
}

func say(kind byte, ask btcheck.Ask, hashes []btcheck.Hash) {
	frame := binary.BigEndian.AppendUint32(nil, uint32(49+32*len(hashes)))
	frame = append(append(frame, kind), ask.Root[:]...)
	for _, number := range []uint32{ask.Base, ask.Index, ask.Length, ask.Proof} {
		frame = binary.BigEndian.AppendUint32(frame, number)
	}
	for _, hash := range hashes {
		frame = append(frame, hash[:]...)
	}
	_, err := os.Stdout.Write(frame)
	must(err)
}

// So many bytes of the content, or what is left of it.
func cut(content []byte, length uint64) []byte {
	if uint64(len(content)) < length {
		return content
	}
	return content[:length]
}

// A piece whose blocks come one by one: they are held, and then proved.
func hold(session *btcheck.Session, holdings *btcheck.Holdings, index uint32, piece []byte) {
	for begin := 0; begin < len(piece); begin += btcheck.BlockLength {
		_, err := session.Hold(holdings, index, uint32(begin), cut(piece[begin:], btcheck.BlockLength))
		must(err)
	}
	for {
		if _, err := session.Settle(holdings); errors.Is(err, btcheck.Nothing) {
			return
		} else {
			must(err)
		}
	}
}

func take(session *btcheck.Session, content []byte, byBlocks bool) {
	holdings, err := btcheck.NewHoldings(session, 0)
	must(err)
	defer holdings.Close()
	length, err := session.PieceLength()
	must(err)
	files, err := session.Files()
	must(err)
	for _, file := range files {
		for at := uint64(0); at < file.Length; at += length {
			index, piece := uint32(file.FirstPiece+at/length), cut(content[at:file.Length], length)
			if byBlocks {
				hold(session, holdings, index, piece)
				continue
			}
			_, _, err = session.TakePiece(index, piece)
			must(err)
		}
		content = content[file.Length:]
	}
}

func serve(session *btcheck.Session) {
	for body := next(); body != nil; body = next() {
		number := func(at int) uint32 { return binary.BigEndian.Uint32(body[at:]) }
		ask := btcheck.Ask{Base: number(33), Index: number(37), Length: number(41), Proof: number(45)}
		copy(ask.Root[:], body[1:33])
		if hashes, err := session.Answer(ask); err == nil {
			say(22, ask, hashes)
		} else {
			say(23, ask, nil)
		}
	}
}

func learn(session *btcheck.Session) {
	files, err := session.Files()
	must(err)
	asked := 0
	for _, file := range files {
		for left := (file.Length + btcheck.BlockLength - 1) / btcheck.BlockLength; left > 0; left-- {
			ask, err := session.Want(file.Tree, left-1)
			for ; err == nil; ask, err = session.Want(file.Tree, left-1) {
				say(21, ask, nil)
				verdict, err := session.Frame(next())
				must(err)
				if verdict.Kind != btcheck.KindStored {
					must(errors.New("no answer"))
				}
				asked++
			}
			if !errors.Is(err, btcheck.Nothing) {
				must(err)
			}
		}
	}
	fmt.Fprintln(os.Stderr, "asked", asked)
}

func main() {
	torrent, err := os.ReadFile(os.Args[2])
	must(err)
	session, err := btcheck.Open(torrent, os.Args[1] == "serve")
	must(err)
	defer session.Close()
	if os.Args[1] == "learn" {
		learn(session)
		return
	}
	content, err := os.ReadFile(os.Args[3])
	must(err)
	take(session, content, os.Args[4] == "blocks")
	serve(session)
}
