package btcheck

import (
	"bytes"
	"errors"
	"io"
	"os"
	"testing"
)

const piece = 2 * BlockLength

func TestCreate(t *testing.T) {
	made, err := Create("../../examples/pair", "pair", piece, true)
	see(t, []any{bytes.Equal(made, example(t, "pair.torrent")), err}, []any{true, nil})
	_, err = Create("../../examples/pair", "pair", 1, true)
	see(t, err, TorrentPieceLength)
	_, err = Create("../../examples/none", "pair", piece, true)
	see(t, errors.Is(err, os.ErrNotExist), true)
	folder := t.TempDir()
	_, err = Create(folder, "pair", piece, true)
	see(t, err, TorrentNoFiles)
	see(t, os.Symlink("a", folder+"/b"), nil)
	_, err = Create(folder, "pair", piece, true)
	see(t, err, "not a file or folder: b")
}

func TestOrderOfPaths(t *testing.T) {
	sorted := []string{"a", "a/b", "a/b/c", "a.b", "a0", "b"}
	for at, one := range sorted {
		for other, path := range sorted {
			see(t, isBefore(one, path), at < other)
		}
	}
}

func TestDrafts(t *testing.T) {
	draft, err := NewDraft("pair", piece, true)
	see(t, err, nil)
	defer draft.Close()
	file, err := NewDraftFile(draft)
	see(t, err, nil)
	defer file.Close()
	_, err = draft.Finish()
	see(t, err, TorrentNoFiles)
	see(t, file.Push(example(t, "pair/c")), nil)
	see(t, draft.Add(file, "../c"), TorrentPath)
	see(t, file.Push([]byte("a")), TooLong)
	see(t, draft.Add(file, "c"), nil)
	see(t, draft.Add(file, "c/d"), TorrentPathClash)
	_, err = NewDraft("\xff", piece, true)
	see(t, err, TorrentWrongType)
	other, err := NewDraft("other", BlockLength, true)
	see(t, err, nil)
	defer other.Close()
	see(t, other.Add(file, "c"), WrongHandle)
	again, err := NewDraftFile(draft)
	see(t, err, nil)
	defer again.Close()
	count, err := io.Copy(again, unbuffered(example(t, "pair/a")))
	see(t, []any{count, err}, []any{16385, nil})
	see(t, draft.Add(again, "a"), nil)
	made, err := draft.Finish()
	see(t, []any{bytes.Equal(made, example(t, "pair.torrent")), err}, []any{true, nil})
	file.Close()
	see(t, file.Push(nil), WrongHandle)
}
