package folder

import (
	"errors"
	"fmt"
	"math"
	"os"
	"path/filepath"

	"review-front/frame"
)

// Found is what a look at a whole folder gave.
type Found struct {
	Faults []error // each with its file and place
	Tail   *Torn   // what a crash left, and the next start drops
	Begins uint64  // the serial before the first edit
	Ends   uint64  // that of the last one that a start has
	Files  int     // how many journals and snapshots there are
}

// Verify reads all that stands in a folder, and changes nothing. Another process may have the folder; what it writes
// just now may seem to be cut off.
func Verify(path string) (*Found, error) {
	s, err := look(path)
	if err != nil {
		return nil, err
	}
	found := &Found{Faults: s.faults, Files: len(s.journals) + len(s.snapshots)}
	if len(s.journals) > 0 {
		found.Begins = s.journals[0] - 1
	} else if err := s.lost(); err != nil {
		found.Faults = append(found.Faults, err)
	}
	found.Ends = found.Begins
	f := &Folder{path: path}
	for _, serial := range s.snapshots {
		if _, _, err := f.read(serial); err != nil && !errors.Is(err, os.ErrNotExist) {
			found.add(err)
		}
	}
	for i, number := range s.journals {
		found.journal(s, number, i+1 == len(s.journals))
	}
	if n := len(s.snapshots); n > 0 && s.snapshots[n-1] > found.Ends {
		if len(s.journals) > 0 && len(found.Faults) == 0 {
			what := fmt.Sprintf("the journal ends at serial %d, and the newest snapshot stands for %d", found.Ends, s.snapshots[n-1])
			found.add(&frame.Damage{File: f.journal(s.journals[len(s.journals)-1]), What: what})
		}
		found.Ends = s.snapshots[n-1]
	}
	if n := len(s.snapshots); found.Begins > 0 && (n == 0 || s.snapshots[n-1] < found.Begins) {
		what := fmt.Sprintf("no snapshot stands for serial %d, behind which the journals begin", found.Begins)
		found.add(&frame.Damage{File: filepath.Clean(path), What: what})
	}
	return found, nil
}

// add adds a fault, unless it was told.
func (v *Found) add(fault error) {
	for _, known := range v.Faults {
		if known.Error() == fault.Error() {
			return
		}
	}
	v.Faults = append(v.Faults, fault)
}

// journal reads a journal, of which the newest may have a tail.
func (v *Found) journal(s *survey, number uint64, newest bool) {
	if !newest {
		if err := s.older(number); err != nil && !errors.Is(err, os.ErrNotExist) {
			v.add(err)
		}
		return
	}
	j, err := s.walk(number, math.MaxInt64, nil)
	if err != nil {
		v.Tail, err = j.judge(err, s.claimed(number))
	}
	if err != nil {
		v.add(err)
	}
	v.Ends = j.last
}
