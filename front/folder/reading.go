package folder

import (
	"context"
	"errors"
	"fmt"
	"math"
	"os"

	"review-front/frame"
)

// Recover reads the heads of all files and the journals from that of a snapshot on, drops what a crash left behind the
// last edit, and says what. Other damage is an error. Nothing is written before it, and it needs no snapshot: `since` is
// the serial of that which will be read.
func (f *Folder) Recover(since uint64) (*Torn, error) {
	s, err := look(f.path)
	if err != nil {
		return nil, err
	}
	if len(s.faults) > 0 {
		return nil, s.faults[0]
	}
	f.last, f.chained = since, s.chains
	if s.span != nil {
		f.first = s.span.First
	}
	for _, number := range s.begun {
		if err := os.Remove(f.journal(number)); err != nil {
			return nil, fmt.Errorf("a journal that was being begun: %w", err)
		}
	}
	if len(s.journals) == 0 {
		if s.span == nil && s.lost() != nil {
			return nil, s.lost()
		}
		return nil, nil
	}
	return f.recover(s, since)
}

// recover reads the journals from that of a snapshot on.
func (f *Folder) recover(s *survey, since uint64) (*Torn, error) {
	newest := len(s.journals) - 1
	j, err := s.walk(s.journals[newest], math.MaxInt64, nil)
	var torn *Torn
	if err != nil {
		if torn, err = j.judge(err, s.claimed(j.number)); err != nil {
			return nil, err
		}
	}
	if j.last < since {
		return nil, j.damage("the journal ends at serial %d, and the newest snapshot stands for %d", j.last, since)
	}
	if torn != nil {
		if err := f.drop(torn); err != nil {
			return nil, err
		}
	}
	f.last, f.before, f.stream, f.limits = j.last, j.head.Before, j.head.Stream, j.head.Limits
	f.chain, f.links = j.chain, j.head.Format >= chainedFrom
	f.format, f.reviews = j.head.Format, j.head.hasCampaigns()
	if j.last >= j.number {
		f.before = j.part()
	}
	for f.checked = j.number; newest > 0 && f.checked > since+1; newest-- {
		f.checked = s.journals[newest-1]
		if err := s.older(f.checked); err != nil {
			return nil, err
		}
	}
	return torn, nil
}

// lost says that snapshots stand without a journal, where journals were listed.
func (s *survey) lost() error {
	for _, serial := range s.snapshots {
		name := named(s.path, snapshotName, serial)
		if head, err := headOf(name, "snapshot"); err == nil && head.Format >= linkedFrom {
			return &frame.Damage{File: s.path, What: name + " stands there without a journal"}
		}
	}
	return nil
}

// older reads a journal that isn't the newest.
func (s *survey) older(number uint64) error {
	j, err := s.walk(number, math.MaxInt64, nil)
	if errors.Is(err, frame.ErrTorn) {
		return j.damage("it ends within a record")
	}
	if err != nil {
		return err
	}
	for i, one := range s.journals {
		if one == number && i+1 < len(s.journals) && s.journals[i+1] != j.last+1 {
			return j.damage("it ends at serial %d, and the next one begins at %d", j.last, s.journals[i+1])
		}
	}
	return nil
}

// CheckOld reads what no start needed: older journals, and snapshots. It gives the first damage, or nil once the context
// is done. What was taken away meanwhile isn't missed.
func (f *Folder) CheckOld(ctx context.Context) error {
	s, err := look(f.path)
	if err != nil {
		return err
	}
	if len(s.faults) > 0 {
		return s.faults[0]
	}
	for _, number := range s.journals {
		if number >= f.checked || ctx.Err() != nil {
			break
		}
		if err := s.older(number); err != nil && !(errors.Is(err, os.ErrNotExist) && number < f.First()) {
			return err
		}
	}
	for _, serial := range s.snapshots {
		if ctx.Err() != nil {
			break
		}
		if _, _, err := f.read(serial); err != nil && !errors.Is(err, os.ErrNotExist) {
			return err
		}
	}
	return nil
}

// Each calls for each edit behind a serial, in their order, with its place. It ends at the last edit that is known
// to be on disk, also where more is being written.
func (f *Folder) Each(since uint64, call func(Entry, Place) error) error {
	numbers, err := numbered(f.path, journalName)
	if err != nil {
		return err
	}
	f.mutex.Lock()
	last := f.last
	f.mutex.Unlock()
	reached, first := since, true
	for i, number := range numbers {
		if i+1 < len(numbers) && numbers[i+1] <= since+1 {
			continue // all of it is before that serial
		}
		if number > reached+1 || !first && number != reached+1 {
			what := fmt.Sprintf("it should have the edits from serial %d on", reached+1)
			return &frame.Damage{File: f.journal(number), What: what}
		}
		j, err := walk(f.path, number, f.most(number), func(_ *journal, entry Entry, place Place) error {
			if entry.Serial <= since {
				return nil
			}
			return call(entry, place)
		})
		if errors.Is(err, frame.ErrTorn) {
			return j.damage("it ends within a record")
		}
		if err != nil {
			return err
		}
		if first = false; j.last > reached {
			reached = j.last
		}
	}
	if reached < last {
		return &frame.Damage{File: f.path, What: fmt.Sprintf("the journals end at serial %d, and were at %d", reached, last)}
	}
	return nil
}

// most is how many bytes of a journal are known to be on disk.
func (f *Folder) most(number uint64) int64 {
	f.mutex.Lock()
	defer f.mutex.Unlock()
	if f.current != nil && number == f.began {
		return f.size
	}
	return math.MaxInt64
}

// Before calls for each line of the first snapshot that the journals go on from, where they don't begin at the first
// edit, and gives its serial. It stands for less edits than a serial.
func Before(path string, serial uint64, call func(line []byte) error) (uint64, error) {
	s, err := look(path)
	if err != nil {
		return 0, err
	}
	if len(s.journals) == 0 || s.journals[0] == 1 {
		return 0, nil
	}
	f := &Folder{path: path}
	for _, one := range s.snapshots {
		if one+1 < s.journals[0] {
			continue
		}
		if one >= serial {
			break
		}
		snapshot, _, err := f.read(one)
		if err != nil {
			return 0, err
		}
		for _, line := range snapshot.Lines {
			if err := call(line); err != nil {
				return 0, err
			}
		}
		return one, nil
	}
	return 0, fmt.Errorf("no snapshot stands for what was before serial %d", serial)
}

// History calls for each edit behind a serial in the journals of a folder, which another process may have: a last
// record that isn't whole yet is passed over, as Recover would. It ends with the first damage.
func History(path string, since uint64, call func(Entry) error) error {
	s, err := look(path)
	if err != nil {
		return err
	}
	for i, number := range s.journals {
		if i+1 < len(s.journals) && s.journals[i+1] <= since+1 {
			continue
		}
		j, err := s.walk(number, math.MaxInt64, func(_ *journal, entry Entry, _ Place) error {
			if entry.Serial <= since {
				return nil
			}
			return call(entry)
		})
		switch {
		case err == nil && i+1 < len(s.journals) && s.journals[i+1] != j.last+1:
			return j.damage("it ends at serial %d, and the next one begins at %d", j.last, s.journals[i+1])
		case err == nil || errors.Is(err, os.ErrNotExist): // that one was as old as is kept
		case i+1 == len(s.journals):
			if _, err = j.judge(err, s.claimed(number)); err != nil {
				return err
			}
		default:
			return err
		}
	}
	if len(s.faults) > 0 {
		return s.faults[0]
	}
	return nil
}
