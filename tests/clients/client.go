// client TORRENT OUT SEED PORT PORT: as client.py, over the package btcheck.
package main

import (
	"bytes"
	"encoding/binary"
	"errors"
	"fmt"
	"io"
	"math/rand"
	"net"
	"os"
	"strconv"

	"tanagernail.example/btcheck"
)

// Ends the program at a fault of a file or of a connection.
func must(err error) {
	if err != nil {
		fmt.Fprintln(os.Stderr, "fault:", err)
		os.Exit(2)
	}
}

// A connection to a peer, after both handshakes.
type peer struct{ net.Conn }

func connected(port string, infoHash []byte) peer {
	conn, err := net.Dial("tcp", "127.0.0.1:"+port)
	must(err)
	greeting := append([]byte("\x13BitTorrent protocol"), make([]byte, 8)...)
	greeting = append(append(greeting, infoHash...), make([]byte, 20)...)
	_, err = conn.Write(greeting)
	must(err)
	theirs := make([]byte, 68)
	_, err = io.ReadFull(conn, theirs)
	must(err)
	if !bytes.Equal(theirs[28:48], infoHash) {
		must(errors.New("another torrent"))
	}
	return peer{conn}
}

// Sends a message, and waits for one of this kind.
func (it peer) answer(body []byte, kind byte) []byte {
	_, err := it.Write(append(binary.BigEndian.AppendUint32(nil, uint32(len(body))), body...))
	must(err)
	for {
		var size uint32
		must(binary.Read(it, binary.BigEndian, &size))
		found := make([]byte, size)
		_, err = io.ReadFull(it, found)
		must(err)
		if size > 0 && found[0] == kind {
			return found
		}
	}
}

func message(kind byte, root []byte, numbers ...uint32) []byte {
	body := append([]byte{kind}, root...)
	for _, number := range numbers {
		body = binary.BigEndian.AppendUint32(body, number)
	}
	return body
}

// A block: where it stands in OUT and in its file, its size, its file's first piece, and its tree.
type block struct {
	before, at, size, firstPiece uint64
	tree                         int
}

type client struct {
	session            *btcheck.Session
	peers              []peer
	ofHashes, ofBlocks int
}

// Learns the leaf of a block.
func (its *client) learn(from, tree int, number uint64) {
	for {
		ask, err := its.session.Want(tree, number)
		if errors.Is(err, btcheck.Nothing) {
			return
		}
		must(err)
		must(its.session.Note(ask))
		request := message(21, ask.Root[:], ask.Base, ask.Index, ask.Length, ask.Proof)
		body := its.peers[from].answer(request, 22)
		if !bytes.Equal(body[1:49], request[1:]) {
			must(errors.New("another answer"))
		}
		hashes := make([]btcheck.Hash, (len(body)-49)/32)
		for at := range hashes {
			copy(hashes[at][:], body[49+32*at:])
		}
		if _, err = its.session.TakeAnswer(ask, hashes); errors.Is(err, btcheck.HashesRefused) {
			its.ofHashes++
			from ^= 1
		}
	}
}

// Loads a block.
func (its *client) load(from int, index, begin, size uint32) []byte {
	for {
		content := its.peers[from].answer(message(6, nil, index, begin, size), 7)[9:]
		if _, _, err := its.session.TakeBlock(index, begin, content); !errors.Is(err, btcheck.BlockRefused) {
			must(err)
			return content
		}
		its.ofBlocks++
		from ^= 1
	}
}

func blocks(session *btcheck.Session) []block {
	files, err := session.Files()
	must(err)
	var found []block
	var before uint64
	for _, file := range files {
		for at := uint64(0); at < file.Length; at += btcheck.BlockLength {
			size := file.Length - at
			if size > btcheck.BlockLength {
				size = btcheck.BlockLength
			}
			found = append(found, block{before, at, size, file.FirstPiece, file.Tree})
		}
		before += file.Length
	}
	return found
}

func main() {
	torrent, err := os.ReadFile(os.Args[1])
	must(err)
	session, err := btcheck.Open(torrent, true)
	must(err)
	defer session.Close()
	v2, _, err := session.InfoHashes()
	must(err)
	its := &client{session: session}
	for _, port := range os.Args[4:] {
		its.peers = append(its.peers, connected(port, v2[:20]))
	}
	length, err := session.PieceLength()
	must(err)
	seed, err := strconv.ParseInt(os.Args[3], 10, 64)
	must(err)
	draw, order, verified := rand.New(rand.NewSource(seed)), blocks(session), 0
	draw.Shuffle(len(order), func(one, other int) { order[one], order[other] = order[other], order[one] })
	out, err := os.Create(os.Args[2])
	must(err)
	for _, it := range order {
		from, number := draw.Intn(2), it.at/btcheck.BlockLength
		its.learn(from, it.tree, number)
		content := its.load(from, uint32(it.firstPiece+it.at/length), uint32(it.at%length), uint32(it.size))
		if is, err := session.IsMarked(it.tree, number); err == nil && is {
			verified++
		}
		_, err = out.WriteAt(content, int64(it.before+it.at))
		must(err)
	}
	fmt.Printf("verified %d of %d, refused %d hashes and %d blocks\n", verified, len(order), its.ofHashes, its.ofBlocks)
}
