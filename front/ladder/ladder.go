// Package ladder says where the program's sessions mark the table, so that what changed since any serial of clients can
// be asked: the program keeps what changed since the oldest of its marks. A mark stands where the table is, and can't
// be moved to an older serial, so several stand at a distance, and the oldest goes on as clients do.
package ladder

import (
	"sort"
	"sync"
	"time"

	"review-front/line"
)

// step is after how many edits another mark is made; it is made earlier where they changed or took much.
const step = 256

// parts is by how many marks what is kept is divided.
const parts = line.Sessions

// Spent is what all edits up to one changed and took.
type Spent struct {
	Changes uint64        `json:"changes"` // answers, and one more for each edit
	Took    time.Duration `json:"took"`
}

// Rung is a mark: where it stands, and when it was made.
type Rung struct {
	Serial uint64    `json:"serial"`
	Time   time.Time `json:"time"`
	Spent
}

// Bounds are how much is kept.
type Bounds struct {
	Changes uint64        // of answers and edits
	Took    time.Duration // how long a start may take for it; 0: any time
	Recent  time.Duration // who listens may come back to what was the table so long ago
}

// Ladder is the marks of one program.
type Ladder struct {
	bounds Bounds
	mutex  sync.Mutex
	rungs  [line.Sessions]*Rung
	due    [line.Sessions]bool // a mark is on its way
	serial uint64              // of the last edit
	spent  Spent
}

// New is a ladder without a rung.
func New(bounds Bounds) *Ladder { return &Ladder{bounds: bounds} }

// Accepted says that an edit was accepted, how many answers it changed and how long it took.
func (l *Ladder) Accepted(serial, changes uint64, took time.Duration) {
	l.mutex.Lock()
	defer l.mutex.Unlock()
	l.serial = serial
	l.spent.Changes += changes + 1
	l.spent.Took += took
}

// Due says in which sessions marks are to be made now: those whose marks nobody needs, and one more where the last is
// far behind. What changed since `need` is asked for.
func (l *Ladder) Due(need uint64) []int {
	l.mutex.Lock()
	defer l.mutex.Unlock()
	var sessions []int
	base := l.base(l.floor(need))
	for session, rung := range l.rungs {
		if rung != nil && !l.due[session] && base != nil && rung.Serial < base.Serial {
			sessions = append(sessions, session)
		}
	}
	if len(sessions) == 0 && l.far() {
		if session, ok := l.spare(base); ok {
			sessions = append(sessions, session)
		}
	}
	for _, session := range sessions {
		l.due[session] = true
	}
	return sessions
}

// Recent is a serial that was reached so long ago, or the oldest that is known.
func (l *Ladder) Recent(now time.Time) uint64 {
	l.mutex.Lock()
	defer l.mutex.Unlock()
	recent := l.serial
	for i, rung := range l.inOrder() {
		if i == 0 || now.Sub(rung.Time) >= l.bounds.Recent {
			recent = rung.Serial
		}
	}
	return recent
}

// Floor is since which serial is kept what changed, where `need` is asked for: since that, or since the first behind
// which no more changed than is kept.
func (l *Ladder) Floor(need uint64) uint64 {
	l.mutex.Lock()
	defer l.mutex.Unlock()
	return l.floor(need)
}

func (l *Ladder) floor(need uint64) uint64 {
	floor := l.serial
	rungs := l.inOrder()
	for i := len(rungs) - 1; i >= 0 && floor > need && l.spent.Changes-rungs[i].Changes <= l.bounds.Changes; i-- {
		floor = rungs[i].Serial
	}
	if floor < need && need <= l.serial {
		floor = need
	}
	return floor
}

// First is the oldest serial since which the program knows what changed.
func (l *Ladder) First() uint64 {
	l.mutex.Lock()
	defer l.mutex.Unlock()
	if rungs := l.inOrder(); len(rungs) > 0 {
		return rungs[0].Serial
	}
	return l.serial
}

// inOrder lists the rungs from the oldest on.
func (l *Ladder) inOrder() []*Rung {
	var rungs []*Rung
	for _, rung := range l.rungs {
		if rung != nil {
			rungs = append(rungs, rung)
		}
	}
	sort.Slice(rungs, func(i, j int) bool { return rungs[i].Serial < rungs[j].Serial })
	return rungs
}

// base is the oldest rung that is needed: the last one that isn't newer than what is kept, or else the first.
func (l *Ladder) base(floor uint64) *Rung {
	var base *Rung
	for _, rung := range l.inOrder() {
		if base == nil || rung.Serial <= floor {
			base = rung
		}
	}
	return base
}

// far says whether the last rung is far behind, and none is on its way.
func (l *Ladder) far() bool {
	for _, due := range l.due {
		if due {
			return false
		}
	}
	rungs := l.inOrder()
	if len(rungs) == 0 {
		return true
	}
	last := rungs[len(rungs)-1]
	return l.serial-last.Serial >= step || l.spent.Changes-last.Changes > l.bounds.Changes/parts ||
		l.serial > last.Serial && l.bounds.Took > 0 && l.spent.Took-last.Took > l.bounds.Took/parts
}

// spare is a session without a mark, or the one whose mark, behind the base, is missed least: the marks beside it are
// nearest to each other.
func (l *Ladder) spare(base *Rung) (int, bool) {
	for session, rung := range l.rungs {
		if rung == nil {
			return session, true
		}
	}
	rungs := l.inOrder()
	var least *Rung
	nearest := ^uint64(0)
	for i := 1; i+1 < len(rungs); i++ {
		if between := rungs[i+1].Serial - rungs[i-1].Serial; between < nearest && rungs[i] != base {
			least, nearest = rungs[i], between
		}
	}
	for session, rung := range l.rungs {
		if rung == least && least != nil {
			return session, true
		}
	}
	return 0, false
}

// Made says that a mark has its reply: a serial, or none.
func (l *Ladder) Made(session int, serial uint64, marked bool, now time.Time) (Rung, bool) {
	l.mutex.Lock()
	defer l.mutex.Unlock()
	l.due[session] = false
	if !marked {
		return Rung{}, false
	}
	l.rungs[session] = &Rung{Serial: serial, Time: now, Spent: l.spent}
	return *l.rungs[session], true
}

// Marks has the serials at which another program is to have marks, by session: those behind what is kept, and just
// there.
func (l *Ladder) Marks(need uint64) map[int]uint64 {
	l.mutex.Lock()
	defer l.mutex.Unlock()
	floor := l.floor(need)
	base := l.base(floor)
	marks := map[int]uint64{}
	for session, rung := range l.rungs {
		switch {
		case rung == nil:
		case rung == base:
			marks[session] = floor
		case rung.Serial > floor:
			marks[session] = rung.Serial
		}
	}
	return marks
}

// Rungs lists the rungs from the oldest on.
func (l *Ladder) Rungs() []Rung {
	l.mutex.Lock()
	defer l.mutex.Unlock()
	var rungs []Rung
	for _, rung := range l.inOrder() {
		rungs = append(rungs, *rung)
	}
	return rungs
}

// Anew says that the program is another one, which has these marks and no others.
func (l *Ladder) Anew(kept map[int]uint64) {
	l.mutex.Lock()
	defer l.mutex.Unlock()
	l.due = [line.Sessions]bool{}
	for session, rung := range l.rungs {
		if rung == nil {
			continue
		}
		if at, there := kept[session]; there {
			rung.Serial = at
		} else {
			l.rungs[session] = nil
		}
	}
}

// Resume has the rungs of before a start, up to the last edit, of which those are left that what is kept needs: since
// `need`, as far as a start has time for it. While nothing was served no time has passed for who comes back. It is
// called before the first program has a state.
func (l *Ladder) Resume(rungs []Rung, need, last uint64, now time.Time) {
	l.mutex.Lock()
	defer l.mutex.Unlock()
	sort.Slice(rungs, func(i, j int) bool { return rungs[i].Serial < rungs[j].Serial })
	for len(rungs) > 0 && rungs[len(rungs)-1].Serial > last {
		rungs = rungs[:len(rungs)-1]
	}
	l.serial = last
	if len(rungs) > 0 {
		newest := rungs[len(rungs)-1]
		l.spent = newest.Spent
		for i := range rungs {
			rungs[i].Time = rungs[i].Time.Add(now.Sub(newest.Time))
		}
	}
	from := 0
	for i, rung := range rungs {
		useless := need >= last || i+1 < len(rungs) && rungs[i+1].Serial <= need
		slow := l.bounds.Took > 0 && l.spent.Took-rung.Took > l.bounds.Took
		if useless || slow || l.spent.Changes-rung.Changes > l.bounds.Changes {
			from = i + 1
		}
	}
	rungs = rungs[from:]
	if len(rungs) == 0 {
		rungs = []Rung{{Serial: last, Time: now, Spent: l.spent}}
	}
	for len(rungs) > line.Sessions-1 {
		rungs = thinned(rungs)
	}
	for session := range rungs {
		l.rungs[session] = &rungs[session]
	}
}

// thinned is rungs without the one, but the first and the last, that is missed least.
func thinned(rungs []Rung) []Rung {
	least, nearest := 1, ^uint64(0)
	for i := 1; i+1 < len(rungs); i++ {
		if between := rungs[i+1].Serial - rungs[i-1].Serial; between < nearest {
			least, nearest = i, between
		}
	}
	return append(rungs[:least:least], rungs[least+1:]...)
}
