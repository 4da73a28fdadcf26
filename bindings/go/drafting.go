package btcheck

/*
#include <btcheck.h>
*/
import "C"

import (
	"io"
	"runtime"
)

// Draft is of a torrent, to which files are added in any order.
type Draft struct {
	handle C.btcheck_draft
}

// NewDraft gives a draft without files, with this piece length in bytes. TorrentPieceLength: it is no power of two from
// 16,384 to 2^30. TorrentWrongType: the name is not UTF-8. Close it when it is done with.
func NewDraft(name string, pieceLength uint64, hybrid bool) (*Draft, error) {
	draft, text := &Draft{}, []byte(name)
	status := C.btcheck_draft_new(&draft.handle, pointer(text), C.size_t(len(text)), C.uint64_t(pieceLength), C.bool(hybrid))
	if err := asError(status); err != nil {
		return nil, err
	}
	runtime.SetFinalizer(draft, (*Draft).Close)
	return draft, nil
}

// Add adds the file under this path, its components joined by a slash. The file then begins anew. TorrentPath,
// TorrentRootReused, TorrentTooManyPieces, TorrentPathClash: the draft is as before, and the file can be added under another
// path. WrongHandle: the file is for drafts of another piece length or kind.
func (draft *Draft) Add(file *DraftFile, path string) error {
	text := []byte(path)
	return asError(C.btcheck_draft_add(&draft.handle, &file.handle, pointer(text), C.size_t(len(text))))
}

// Finish gives the torrent file. More files can be added afterwards. TorrentNoFiles: no file was added. TorrentTooLarge: it
// would have more than 67,108,864 bytes; longer pieces make it smaller.
func (draft *Draft) Finish() ([]byte, error) {
	torrent, err := text(func(room *C.uint8_t, size C.size_t, length *C.uint64_t) C.btcheck_status {
		return C.btcheck_draft_finish(&draft.handle, room, size, length)
	})
	return []byte(torrent), err
}

// Close frees what it has, and gives nil. Any later call but Close is refused.
func (draft *Draft) Close() error {
	C.btcheck_draft_free(&draft.handle)
	runtime.SetFinalizer(draft, nil)
	return nil
}

// DraftFile is a file for a draft, whose bytes come in parts of any size; an empty file needs none. It is an io.Writer.
// Different files may come in different goroutines at once.
type DraftFile struct {
	handle C.btcheck_draft_file
}

// NewDraftFile gives a file of which nothing came yet, for this draft and others of its piece length and kind. Close it when
// it is done with.
func NewDraftFile(draft *Draft) (*DraftFile, error) {
	file := &DraftFile{}
	if err := asError(C.btcheck_draft_file_new(&file.handle, &draft.handle)); err != nil {
		return nil, err
	}
	runtime.SetFinalizer(file, (*DraftFile).Close)
	return file, nil
}

// Push takes the file's next bytes. TooLong: past 2^46, or a draft refused the file; nothing was taken.
func (file *DraftFile) Push(part []byte) error {
	return asError(C.btcheck_draft_file_push(&file.handle, pointer(part), C.size_t(len(part))))
}

// Write is Push.
func (file *DraftFile) Write(part []byte) (int, error) {
	if err := file.Push(part); err != nil {
		return 0, err
	}
	return len(part), nil
}

// ReadFrom pushes all that a reader gives, in parts of a MiB. io.Copy calls it.
func (file *DraftFile) ReadFrom(reader io.Reader) (int64, error) {
	return pushAll(file.Push, reader)
}

// Close frees what it has, and gives nil. Any later call but Close is refused.
func (file *DraftFile) Close() error {
	C.btcheck_draft_file_free(&file.handle)
	runtime.SetFinalizer(file, nil)
	return nil
}
