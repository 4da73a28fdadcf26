package btcheck

import (
	"fmt"
	"io/fs"
	"os"
	"path/filepath"
	"sort"
	"unicode/utf8"
)

// Create gives the torrent of all files below a folder, hidden ones too: the bytes that `btcheck create` writes. The folder
// itself may be a symlink; what else is neither a file nor a folder, a symlink too, is refused, and so is a name that is not
// UTF-8. What a Draft refuses is its error.
func Create(folder, name string, pieceLength uint64, hybrid bool) ([]byte, error) {
	draft, err := NewDraft(name, pieceLength, hybrid)
	if err != nil {
		return nil, err
	}
	defer draft.Close()
	file, err := NewDraftFile(draft)
	if err != nil {
		return nil, err
	}
	defer file.Close()
	paths, err := listed(folder)
	if err != nil {
		return nil, err
	}
	for _, path := range paths {
		if err := pushFile(file, filepath.Join(folder, path)); err != nil {
			return nil, err
		}
		if err := draft.Add(file, path); err != nil {
			return nil, fmt.Errorf("%s: %w", path, err)
		}
	}
	return draft.Finish()
}

// The paths of all files below a folder, in the order of the file tree.
func listed(folder string) ([]string, error) {
	var paths []string
	err := fs.WalkDir(os.DirFS(folder), ".", func(path string, entry fs.DirEntry, err error) error {
		if err != nil || entry.IsDir() {
			return err
		}
		if !entry.Type().IsRegular() {
			return fmt.Errorf("not a file or folder: %s", path)
		}
		if !utf8.ValidString(path) {
			return fmt.Errorf("not UTF-8: %q", path)
		}
		paths = append(paths, path)
		return nil
	})
	sort.Slice(paths, func(i, j int) bool { return isBefore(paths[i], paths[j]) })
	return paths, err
}

// Whether a path stands before another, by their components: a slash is below all other bytes.
func isBefore(one, other string) bool {
	for at := 0; at < len(one) && at < len(other); at++ {
		if one[at] != other[at] {
			return one[at] == '/' || other[at] != '/' && one[at] < other[at]
		}
	}
	return len(one) < len(other)
}

func pushFile(file *DraftFile, path string) error {
	content, err := os.Open(path)
	if err != nil {
		return err
	}
	defer content.Close()
	_, err = file.ReadFrom(content)
	return err
}
