package folder

import (
	"errors"
	"fmt"
	"math"
	"os"
	"path/filepath"

	"review-front/frame"
)

// survey is what stands in a folder, as far as the heads of its files tell.
type survey struct {
	path      string
	span      *span
	journals  []uint64 // their numbers
	begun     []uint64 // those of journals behind the newest, which were begun without an edit when a crash came
	snapshots []uint64 // their serials
	// claims are, by journal, what other files say of its beginning.
	claims map[uint64][]claim
	faults []error
	chains bool // whether each journal has its predecessor's checksum
}

// claim is what a file says of the beginning of a journal.
type claim struct {
	Part
	by    string
	chain *Chain // what the chain is there, if it has one
}

// look reads the heads of all files of a folder. What is wrong with them are its faults, in no order.
func look(path string) (*survey, error) {
	for {
		before, fault := readSpan(path)
		s := &survey{path: path, span: before, claims: map[uint64][]claim{}, chains: true}
		var err error
		if s.journals, err = numbered(path, journalName); err != nil {
			return nil, err
		}
		if s.snapshots, err = numbered(path, snapshotName); err != nil {
			return nil, err
		}
		if fault != nil {
			s.faults = append(s.faults, fault)
		}
		s.pastNewest()
		s.chain()
		s.listed()
		s.made()
		if now, _ := readSpan(path); before.same(now) {
			return s, nil
		} // else a front began a journal meanwhile, or took one away
	}
}

// fault adds damage of a file.
func (s *survey) fault(file string, place int64, what string, about ...any) {
	s.faults = append(s.faults, &frame.Damage{File: file, Place: place, What: fmt.Sprintf(what, about...)})
}

// pastNewest leaves out journals behind the newest. An edit is only written to a journal that the list has.
func (s *survey) pastNewest() {
	for s.span != nil && len(s.journals) > 0 && s.journals[len(s.journals)-1] > s.span.Newest {
		last := len(s.journals) - 1
		s.begun = append(s.begun, s.journals[last])
		s.journals = s.journals[:last]
	}
	for _, number := range s.begun {
		if j, err := walk(s.path, number, math.MaxInt64, nil); err != nil || j.last >= number {
			s.fault(j.name, 0, "it isn't without edits, and the newest journal is that of serial %d", s.span.Newest)
		}
	}
}

// chain sees that each journal follows the one before it.
func (s *survey) chain() {
	for i, number := range s.journals {
		name := named(s.path, journalName, number)
		head, err := headOf(name, "journal")
		if errors.Is(err, os.ErrNotExist) {
			continue // it was as old as is kept
		}
		if err != nil {
			s.faults = append(s.faults, err)
			continue
		}
		if head.After != number-1 {
			s.fault(name, 0, "its head has another serial than its name")
			continue
		}
		s.chains = s.chains && head.Format >= linkedFrom
		if head.Format >= linkedFrom && s.span == nil && s.hasEdits(number) {
			s.fault(filepath.Join(s.path, spanName), 0, "it isn't there, and says which journals there are")
		}
		if before := head.Before; before != nil {
			s.claim(*before, name, head)
			if i > 0 && (s.journals[i-1] != before.Journal || before.Serial != number-1) {
				s.fault(name, 0, "it follows the journal of serial %d, and that of serial %d stands before it",
					before.Journal, s.journals[i-1])
			}
		} else if i > 0 && head.Format >= linkedFrom {
			s.fault(name, 0, "it follows no journal, and that of serial %d stands before it", s.journals[i-1])
		}
	}
}

// claim notes what the head of a file says of the beginning of a journal.
func (s *survey) claim(part Part, by string, head Head) {
	one := claim{Part: part, by: by}
	if head.Format >= chainedFrom && len(head.Older) == 0 {
		one.chain = &head.Chain
	}
	s.claims[part.Journal] = append(s.claims[part.Journal], one)
	for _, older := range head.Older {
		s.claims[older.Journal] = append(s.claims[older.Journal], claim{Part: older, by: by})
	}
}

// hasEdits says whether a journal has any.
func (s *survey) hasEdits(number uint64) bool {
	j, _ := walk(s.path, number, math.MaxInt64, func(*journal, Entry, Place) error { return errEnough })
	return j.last >= number
}

// listed sees that the journals stand that have to.
func (s *survey) listed() {
	if s.span == nil {
		return
	}
	there := map[uint64]bool{}
	for _, number := range s.journals {
		there[number] = true
	}
	for _, number := range []uint64{s.span.First, s.span.Newest} {
		if !there[number] {
			s.fault(named(s.path, journalName, number), 0, "it isn't there")
			there[number] = true
		}
	}
}

// made sees of which journal each snapshot was made.
func (s *survey) made() {
	for _, serial := range s.snapshots {
		name := named(s.path, snapshotName, serial)
		head, err := headOf(name, "snapshot")
		if errors.Is(err, os.ErrNotExist) {
			continue // nobody needed it any more
		}
		if err != nil {
			s.faults = append(s.faults, err)
			continue
		}
		if head.After != serial || head.Before != nil && head.Before.Serial != serial {
			s.fault(name, 0, "its head has another serial than its name")
		} else if head.Before != nil {
			s.claim(*head.Before, name, head)
		}
	}
}

// headOf reads the head of a file alone.
func headOf(name, kind string) (Head, error) {
	file, err := os.Open(name)
	if err != nil {
		return Head{}, fmt.Errorf("a %s: %w", kind, err)
	}
	defer file.Close()
	records := frame.NewReader(file, name)
	head, err := readHead(records, kind)
	var damage *frame.Damage
	if err != nil && !errors.As(err, &damage) {
		return Head{}, records.Damage("it ends within its head")
	}
	return head, err
}

// claimed is up to which byte a journal was on disk when another file was written.
func (s *survey) claimed(number uint64) int64 {
	most := int64(0)
	for _, c := range s.claims[number] {
		if c.Bytes > most {
			most = c.Bytes
		}
	}
	return most
}

// walk reads a journal, and sees that it is as other files say.
func (s *survey) walk(number uint64, most int64, call func(*journal, Entry, Place) error) (*journal, error) {
	due := map[uint64][]claim{}
	for _, c := range s.claims[number] {
		due[c.Serial] = append(due[c.Serial], c)
	}
	j, err := walk(s.path, number, most, func(j *journal, entry Entry, place Place) error {
		for _, c := range due[entry.Serial] {
			if part := j.part(); *part != c.Part {
				return &frame.Damage{File: j.name, Place: j.size, What: "it is another one than " + c.by + " says"}
			}
			if c.chain != nil && j.head.Format >= chainedFrom && *c.chain != j.chain {
				return &frame.Damage{File: j.name, Place: j.size, What: "its chain is another one than " + c.by + " says"}
			}
		}
		delete(due, entry.Serial)
		if call == nil {
			return nil
		}
		return call(j, entry, place)
	})
	if err != nil {
		return j, err
	}
	for _, missed := range due {
		return j, j.damage("it ends at serial %d, and %s says that it had serial %d", j.last, missed[0].by, missed[0].Serial)
	}
	return j, nil
}
