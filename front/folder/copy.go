package folder

import (
	"errors"
	"fmt"
	"math"
	"os"
	"path/filepath"
	"time"

	"review-front/frame"
)

// copied is how many edits of a copy come to the disk together.
const copied = 1000

// Until says where a copy ends: behind an edit, and before the first that is later than a time, if there is one.
type Until struct {
	Serial uint64
	Time   time.Time
}

// ends says whether a copy ends before an edit.
func (u Until) ends(entry Entry) bool {
	return entry.Serial > u.Serial || !u.Time.IsZero() && entry.Time.After(u.Time)
}

// Copied is what a copy has.
type Copied struct {
	Begins uint64 // the serial before its first edit
	Ends   uint64 // that of its last one
	Known  uint64 // that of the last one which there is a trace of
	Fault  error  // why it isn't all, if that is damage
}

// Copy makes a folder that has the edits of another one up to an end, and the newest snapshot for that. It is at its
// place once all of it is on disk, and what is there isn't changed. Where the other one is damaged a copy that mends
// ends before the damage, or begins behind it if that has the later state; any other isn't made.
func Copy(from, to string, until Until, mend bool) (*Copied, error) {
	if _, err := os.Lstat(to); !errors.Is(err, os.ErrNotExist) {
		return nil, fmt.Errorf("%s is there already", to)
	}
	s, err := look(from)
	if err != nil {
		return nil, err
	}
	if len(s.faults) > 0 && !mend {
		return nil, s.faults[0]
	}
	best, err := s.best(until, mend)
	if err != nil {
		return nil, err
	}
	aside, err := os.MkdirTemp(filepath.Dir(filepath.Clean(to)), filepath.Base(to)+asideName+"-")
	if err != nil {
		return nil, fmt.Errorf("a copy: %w", err)
	}
	if err = best.write(s, aside); err == nil {
		err = os.Rename(aside, to)
	}
	if err != nil {
		os.RemoveAll(aside)
		return nil, fmt.Errorf("a copy: %w", err)
	}
	if err := (&Folder{path: filepath.Dir(filepath.Clean(to))}).syncFolder(); err != nil {
		return nil, err
	}
	return &best.Copied, nil
}

// plan is a copy that can be made: edits, which begin in a journal, and a snapshot.
type plan struct {
	Copied
	journals []uint64 // those that have the edits
	head     Head     // that of the last of them with an edit, which may have larger limits, or of the snapshot
	base     *Snapshot
	baseHead Head
	until    Until
}

// best is the plan that has the latest state, and of those with the same that which has the most edits.
func (s *survey) best(until Until, mend bool) (*plan, error) {
	begins := []uint64{0}
	if len(s.journals) > 0 {
		begins[0] = s.journals[0] - 1
	}
	if mend {
		begins = append(begins, s.snapshots...)
	}
	var best *plan
	for _, begin := range begins {
		p := s.plan(begin, until)
		if p.Fault != nil && !mend {
			return nil, p.Fault
		}
		if s.addBase(p) && (best == nil || p.Ends > best.Ends) {
			best = p
		}
	}
	if best == nil {
		return nil, &frame.Damage{File: s.path, What: "no state can be had: the journals don't begin at the first edit, " +
			"and no snapshot is sound that they go on from"}
	}
	if len(s.faults) > 0 && best.Fault == nil {
		best.Fault = s.faults[0]
	}
	if !mend && (best.Ends > until.Serial || best.Ends == best.Begins && best.Begins > 0 && !until.Time.IsZero()) {
		return nil, fmt.Errorf("the folder doesn't go back so far: its first state is that of serial %d", best.Begins)
	}
	best.Known = s.known(best.Ends)
	return best, nil
}

// known is the serial of the last edit that there is a trace of, at least a given one.
func (s *survey) known(least uint64) uint64 {
	see := func(serial uint64) {
		if serial > least {
			least = serial
		}
	}
	for _, serial := range s.snapshots {
		see(serial)
	}
	for _, number := range s.journals {
		see(number - 1)
		rest, err := readFrom(named(s.path, journalName, number), 0)
		if err != nil {
			continue
		}
		frame.Find(rest, func(record []byte) {
			if entries, err := readEntries(record); err == nil {
				see(entries[len(entries)-1].Serial)
			}
		})
	}
	return least
}

// plan looks how far edits behind a serial can be had.
func (s *survey) plan(begin uint64, until Until) *plan {
	p := &plan{Copied: Copied{Begins: begin, Ends: begin}, until: until}
	for i, number := range s.journals {
		if i+1 < len(s.journals) && s.journals[i+1] <= begin+1 {
			continue // all of it is before that serial
		}
		if number > p.Ends+1 {
			p.Fault = &frame.Damage{File: named(s.path, journalName, p.Ends+1), What: "it isn't there"}
			return p
		}
		before := p.Ends
		j, err := s.walk(number, math.MaxInt64, func(_ *journal, entry Entry, _ Place) error {
			if entry.Serial > begin && until.ends(entry) {
				return errEnough
			}
			if entry.Serial > p.Ends {
				p.Ends = entry.Serial
			}
			return nil
		})
		if len(p.journals) == 0 || p.Ends > before {
			p.head = j.head
		}
		p.journals = append(p.journals, number)
		if err == nil {
			continue
		}
		if err != errEnough {
			p.Fault = s.faultOf(j, err, i+1 == len(s.journals))
		}
		return p
	}
	return p
}

// faultOf is what is wrong with a journal behind its sound edits, or nil where a start of the folder drops it.
func (s *survey) faultOf(j *journal, err error, newest bool) error {
	if newest {
		_, err = j.judge(err, s.claimed(j.number))
	}
	if errors.Is(err, frame.ErrTorn) {
		err = j.damage("it ends within a record")
	}
	return err
}

// addBase adds the newest snapshot that is sound, and is false where there is none and the edits don't begin at the
// first one.
func (s *survey) addBase(p *plan) bool {
	f := &Folder{path: s.path}
	for i := len(s.snapshots) - 1; i >= 0; i-- {
		serial := s.snapshots[i]
		if serial > p.Ends || serial < p.Begins {
			continue
		}
		if snapshot, head, err := f.read(serial); err == nil {
			p.base, p.baseHead = snapshot, head
			if len(p.journals) == 0 {
				p.head = head
			}
			return true
		}
	}
	return p.Begins == 0
}

// write writes the copy into a folder.
func (p *plan) write(s *survey, to string) error {
	f, err := Open(to)
	if err != nil {
		return err
	}
	defer f.Close()
	f.last, f.chain, f.links = p.Begins, s.chainBehind(p.Begins), true
	if err := f.Begin(Head{
		Program: p.head.Program, AttributeModules: p.head.AttributeModules, PolicyModules: p.head.PolicyModules,
		Limits: p.head.Limits, Stream: p.head.Stream,
	}); err != nil {
		return err
	}
	if err := p.edits(s, f); err != nil {
		return err
	}
	if err := f.copyCampaigns(s.path, p.Ends); err != nil {
		return err
	}
	if p.base == nil {
		return nil
	}
	f.head.AttributeModules, f.head.PolicyModules = p.baseHead.AttributeModules, p.baseHead.PolicyModules
	f.head.Limits = p.baseHead.Limits
	return f.Keep(p.base)
}

// edits writes the copy's edits into its folder.
func (p *plan) edits(s *survey, f *Folder) error {
	var batch []Entry
	for _, number := range p.journals {
		_, err := s.walk(number, math.MaxInt64, func(_ *journal, entry Entry, _ Place) error {
			if entry.Serial > p.Ends {
				return errEnough
			}
			if entry.Serial <= p.Begins {
				return nil
			}
			if f.head.Stream == "" {
				entry.Together = 0 // the end may stand between those that were made all together
			}
			var err error
			if len(batch) >= copied && batch[len(batch)-1].Serial < entry.Serial {
				err = f.Append(batch)
				batch = batch[:0]
			}
			batch = append(batch, entry)
			return err
		})
		if f.Broken() != nil {
			return err
		}
	}
	if len(batch) > 0 {
		if err := f.Append(batch); err != nil {
			return err
		}
	}
	if f.last != p.Ends {
		return fmt.Errorf("the folder was changed meanwhile: %d edits are there, and were %d", f.last, p.Ends)
	}
	return nil
}
