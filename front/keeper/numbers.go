package keeper

import (
	"sort"
	"sync"
)

// numbers says which serials stand for the edits that a program counts from its first line on. They go on together,
// but where a serial was passed over.
type numbers struct {
	own   uint64 // how many edits the program has accepted; the goroutine that reads replies may look at it
	mutex sync.Mutex
	steps []step // from where on they go on together; the first is that of the beginning
}

// step is an edit of a program and its serial.
type step struct{ own, serial uint64 }

// from are the numbers of a program that has accepted so many edits, behind which a serial stands.
func from(own, serial uint64) *numbers {
	return &numbers{own: own, steps: []step{{own, serial}}}
}

// add counts the next edit, which has a serial. It is for the goroutine that reads replies.
func (n *numbers) add(serial uint64) {
	n.mutex.Lock()
	defer n.mutex.Unlock()
	n.own++
	if n.at(n.own) != serial {
		n.steps = append(n.steps, step{n.own, serial})
	}
}

// of is the serial of so many edits of the program.
func (n *numbers) of(own uint64) uint64 {
	n.mutex.Lock()
	defer n.mutex.Unlock()
	return n.at(own)
}

// at is the same, for who has the mutex.
func (n *numbers) at(own uint64) uint64 {
	at := sort.Search(len(n.steps), func(i int) bool { return n.steps[i].own > own }) - 1
	if at < 0 {
		at = 0 // before the beginning nothing was passed over that is known
	}
	return n.steps[at].serial + own - n.steps[at].own
}

// ownOf is how many edits of the program stand up to a serial. It is false where that lies before the beginning, or behind
// the last edit that is known, unless none behind it is passed over, or it is a serial that stands on disk: behind the
// last edit campaigns may have had some.
func (n *numbers) ownOf(serial uint64, whole bool, last uint64) (own uint64, known bool) {
	n.mutex.Lock()
	defer n.mutex.Unlock()
	next := sort.Search(len(n.steps), func(i int) bool { return n.steps[i].serial > serial })
	if next == 0 {
		return 0, false
	}
	before := n.steps[next-1]
	own = before.own + serial - before.serial
	if next < len(n.steps) && own >= n.steps[next].own {
		own = n.steps[next].own - 1 // the serial was passed over
	}
	if own > n.own && serial <= last {
		own = n.own
	}
	return own, whole || own <= n.own
}

// isSame says whether each edit's number is its serial.
func (n *numbers) isSame() bool {
	n.mutex.Lock()
	defer n.mutex.Unlock()
	return len(n.steps) == 1 && n.steps[0].own == n.steps[0].serial
}
