package folder

import (
	"math"
)

// Chains is what the chain is, in the journals of a folder, behind the edits of some serials.
type Chains struct {
	Begins uint64           // the serial before the first edit with a chain
	Ends   uint64           // that of the last one that is sound
	At     map[uint64]Chain // by serials, where there is such an edit, or the journals begin behind it
}

// ReadChains reads the chain behind the edits of some serials. Behind the first damage it knows of no more.
func ReadChains(path string, serials map[uint64]bool) (*Chains, error) {
	s, err := look(path)
	if err != nil {
		return nil, err
	}
	found := &Chains{At: map[uint64]Chain{}}
	first := true
	for _, number := range s.journals {
		note := func(serial uint64, chain Chain) {
			if serials[serial] {
				found.At[serial] = chain
			}
		}
		j, err := s.walk(number, math.MaxInt64, func(j *journal, entry Entry, _ Place) error {
			if j.head.Format >= chainedFrom {
				note(entry.Serial, j.chain)
			}
			return nil
		})
		if first && j.head.Format >= chainedFrom {
			first = false
			found.Begins = number - 1
			if len(j.head.Older) == 0 {
				note(number-1, j.head.Chain)
			}
		}
		found.Ends = j.last
		if err != nil {
			break // it is told by Verify
		}
	}
	if first {
		found.Begins = found.Ends
	}
	return found, nil
}
