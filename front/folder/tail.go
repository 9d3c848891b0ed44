package folder

import (
	"errors"
	"fmt"
	"io"
	"math"
	"os"
	"path/filepath"

	"review-front/frame"
)

// Torn is what a crash left behind the last edit that was known to be on disk, and that was dropped.
type Torn struct {
	File  string
	Place int64  // where it began
	Bytes int64  // how many bytes of it were there
	What  string // what was there
}

// judge says whether what follows a journal's sound edits is what a crash left. It is damage where a byte behind its
// place was known to be on disk when something was written: here, in a record behind it, or in another file.
func (j *journal) judge(fault error, claimed int64) (*Torn, error) {
	var damage *frame.Damage
	torn := errors.Is(fault, frame.ErrTorn)
	if !torn && (!errors.As(fault, &damage) || !j.unread || j.head.Format < linkedFrom) {
		return nil, fault
	}
	what := "it ends within a record"
	if damage != nil {
		what = damage.What
	}
	rest, err := readFrom(j.name, j.size)
	if err != nil {
		return nil, err
	}
	synced := j.synced
	if claimed > synced {
		synced = claimed
	}
	frame.Find(rest, func(record []byte) {
		entries, err := readEntries(record)
		if err == nil && entries[0].Serial > j.last && entries[0].synced > synced {
			synced = entries[0].synced
		}
	})
	if synced > j.size {
		if again, _ := walk(filepath.Dir(j.name), j.number, math.MaxInt64, nil); again.last > j.last {
			return &Torn{File: j.name, Place: j.size, Bytes: int64(len(rest)), What: "it is being written"}, nil
		}
		return nil, j.damage("%s, and all up to byte %d was on disk", what, synced)
	}
	return &Torn{File: j.name, Place: j.size, Bytes: int64(len(rest)), What: what}, nil
}

// readFrom reads a file from a byte on.
func readFrom(name string, place int64) ([]byte, error) {
	file, err := os.Open(name)
	if err != nil {
		return nil, fmt.Errorf("a journal: %w", err)
	}
	defer file.Close()
	if _, err := file.Seek(place, io.SeekStart); err != nil {
		return nil, fmt.Errorf("a journal: %w", err)
	}
	rest, err := io.ReadAll(file)
	if err != nil {
		return nil, fmt.Errorf("a journal: %w", err)
	}
	return rest, nil
}

// drop takes away what stands from a place on.
func (f *Folder) drop(torn *Torn) error {
	file, err := os.OpenFile(torn.File, os.O_RDWR, 0)
	if err != nil {
		return fmt.Errorf("a journal: %w", err)
	}
	defer file.Close()
	if err := file.Truncate(torn.Place); err != nil {
		return fmt.Errorf("a journal that was cut off: %w", err)
	}
	if err := file.Sync(); err != nil {
		return fmt.Errorf("a journal that was cut off: %w", err)
	}
	return nil
}
