package folder

import (
	"fmt"
	"io"
	"os"
	"path/filepath"
	"strings"
	"time"

	"review-front/frame"
	"review-front/limits"
)

// setAside begins the name of a folder into which what stood in one was put.
const setAside = "before-"

// Newest opens the file of the newest snapshot, or gives none where there is none.
func (f *Folder) Newest() (*os.File, error) {
	serials, err := f.Snapshots()
	if err != nil || len(serials) == 0 {
		return nil, err
	}
	return os.Open(f.snapshot(serials[len(serials)-1]))
}

// SetAside puts journals and snapshots into a folder within this one, which then has none. It is for a folder of
// which nothing is open, and which Recover reads next.
func (f *Folder) SetAside() error {
	files, err := os.ReadDir(f.path)
	if err != nil {
		return fmt.Errorf("the folder of journals: %w", err)
	}
	aside := f.Path(setAside + time.Now().UTC().Format("20060102T150405.000000000"))
	for _, file := range files {
		name := file.Name()
		if !strings.HasPrefix(name, journalName) && !strings.HasPrefix(name, snapshotName) && name != spanName &&
			!strings.HasPrefix(name, ChangesName) && name != HeadsName {
			continue
		}
		err := os.MkdirAll(aside, 0o700)
		if err == nil {
			err = os.Rename(f.Path(name), filepath.Join(aside, name))
		}
		if err != nil {
			return fmt.Errorf("the folder of journals: %w", err)
		}
	}
	f.last, f.first, f.before, f.stream, f.limits = 0, 0, nil, "", limits.Limits{}
	f.chain, f.links = Chain{}, false
	return f.syncFolder()
}

// Adopt has the snapshot of another folder, of the same stream, be the beginning of this one, which has nothing.
// Recover reads it next.
func (f *Folder) Adopt(from io.Reader, stream string) (uint64, error) {
	snapshot, head, err := readSnapshot(frame.NewReader(from, "a snapshot of another front"))
	if err != nil {
		return 0, err
	}
	if head.Stream != stream {
		return 0, fmt.Errorf("the snapshot is of another stream: %q, and this is %q", head.Stream, stream)
	}
	f.last, f.chain, f.links = snapshot.Serial, head.Chain, true
	head.Older = nil
	if err := f.Begin(head); err != nil {
		return 0, err
	}
	err = f.Keep(snapshot)
	f.current.Close()
	f.current = nil
	return snapshot.Serial, err
}
