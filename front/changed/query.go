package changed

import (
	"errors"
	"os"
	"time"
)

// snapshot is the files as they are just now.
func (b *Book) files() []part {
	b.mutex.Lock()
	defer b.mutex.Unlock()
	all := make([]part, 0, len(b.parts))
	for _, p := range b.parts {
		all = append(all, *p)
	}
	return all
}

// Edits calls for each edit behind a serial and up to another one, in their order, and gives those in between of which
// nothing is kept. What can't be read is among these, and is made again from the journal where that has it.
func (b *Book) Edits(after, until uint64, call func(*Edit) error) (missing []Range, err error) {
	reached := after
	for _, p := range b.files() {
		if p.last <= after || p.after >= until {
			continue
		}
		if p.after > reached {
			missing = append(missing, Range{After: reached, Last: p.after})
			reached = p.after
		}
		var stopped error
		last, place, _, err := p.read(p.size, func(e *Edit) error {
			if e.Serial > until {
				return errEnough
			}
			if e.Serial <= after {
				return nil
			}
			stopped = call(e)
			return stopped
		})
		if stopped != nil {
			return missing, stopped
		}
		if err == nil && last.Serial < min(p.last, until) {
			err = errForm(p.name + " ends too soon")
		}
		if err != nil {
			b.lose(p, last, place, err)
		}
		if last.Serial > reached {
			reached = min(last.Serial, until)
		}
	}
	if reached < until {
		missing = append(missing, Range{After: reached, Last: until})
	}
	return missing, nil
}

func min[number int | uint64](a, b number) number {
	if a < b {
		return a
	}
	return b
}

// lose leaves of a file what is sound, so that the rest is made again. To the one that edits are added to that is done
// with the next start.
func (b *Book) lose(read part, last Edit, place int64, why error) {
	b.mutex.Lock()
	defer b.mutex.Unlock()
	for i, p := range b.parts {
		if p.name != read.name || p.size != read.size || !p.closed {
			continue
		}
		if !errors.Is(why, os.ErrNotExist) && last.Serial > p.after && p.end(last, place) == nil {
			return
		}
		_ = os.Remove(p.name)
		b.parts = append(b.parts[:i:i], b.parts[i+1:]...)
		return
	}
}

// Before is the serial of the last edit before the first that was made at a time or later, of those that are known. It
// is false where the first one that is known was made later.
func (b *Book) Before(at time.Time) (uint64, bool) {
	files := b.files()
	first := 0
	for first < len(files) && files[first].ends.Before(at) {
		first++
	}
	if first == len(files) {
		if first == 0 {
			return 0, false
		}
		return files[first-1].last, true
	}
	p := files[first]
	before := p.after
	_, _, _, _ = p.read(p.size, func(e *Edit) error {
		if !e.Time.Before(at) {
			return errEnough
		}
		before = e.Serial
		return nil
	})
	return before, before > p.after || first > 0 || p.after == 0
}

// Extent is the edits of which something is kept, from the first to the last.
func (b *Book) Extent() (Range, bool) {
	files := b.files()
	if len(files) == 0 {
		return Range{}, false
	}
	return Range{After: files[0].after, Last: files[len(files)-1].last}, true
}
