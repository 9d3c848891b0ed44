package access

import (
	"sync"
	"time"
)

const (
	// freeAttempts is how many attempts of an address are answered at once.
	freeAttempts = 5
	// attemptPause is how long each further one waits behind the one before.
	attemptPause = time.Second
	// mostPause is how long one waits at most; of an address with more that wait none is answered.
	mostPause = 10 * time.Second
	// mostAddresses is of how many addresses attempts are remembered.
	mostAddresses = 10_000
)

// slowing remembers when the next attempt of each address is answered that was refused before.
type slowing struct {
	mutex sync.Mutex
	due   map[string]time.Time
}

func newSlowing() *slowing { return &slowing{due: map[string]time.Time{}} }

// next is how long an attempt waits that was made now. It is false where too many wait.
func (s *slowing) next(address string, now time.Time) (time.Duration, bool) {
	s.mutex.Lock()
	defer s.mutex.Unlock()
	if len(s.due) >= mostAddresses {
		s.forget(now)
	}
	due := s.due[address]
	if earliest := now.Add(-freeAttempts * attemptPause); due.Before(earliest) {
		due = earliest
	}
	due = due.Add(attemptPause)
	wait := due.Sub(now)
	if wait > mostPause {
		return mostPause, false
	}
	s.due[address] = due
	if wait < 0 {
		wait = 0
	}
	return wait, true
}

// forget forgets the addresses whose attempts are long ago, or all where there are none.
func (s *slowing) forget(now time.Time) {
	for address, due := range s.due {
		if now.Sub(due) >= freeAttempts*attemptPause {
			delete(s.due, address)
		}
	}
	if len(s.due) >= mostAddresses {
		s.due = map[string]time.Time{}
	}
}
