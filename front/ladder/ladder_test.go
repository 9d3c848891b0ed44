package ladder

import (
	"math"
	"math/rand"
	"testing"
	"time"
)

// model is a program with sixteen marks, over which a ladder stands.
type model struct {
	ladder *Ladder
	marks  map[int]uint64
	serial uint64
	now    time.Time
	change map[uint64]uint64 // how many answers each edit changed
}

func newModel(bounds Bounds) *model {
	return &model{ladder: New(bounds), marks: map[int]uint64{}, now: time.Now(), change: map[uint64]uint64{}}
}

// edit makes an edit.
func (m *model) edit(changes uint64, took time.Duration) {
	m.serial++
	m.now = m.now.Add(time.Second)
	m.change[m.serial] = changes
	m.ladder.Accepted(m.serial, changes, took)
}

// mark makes the marks that are due.
func (m *model) mark(need uint64) {
	for _, session := range m.ladder.Due(need) {
		m.marks[session] = m.serial
		m.ladder.Made(session, m.serial, true, m.now)
	}
}

// first is since when the program knows what changed.
func (m *model) first() uint64 {
	first := m.serial
	for _, at := range m.marks {
		if at < first {
			first = at
		}
	}
	return first
}

// kept is how many answers and edits the program keeps.
func (m *model) kept() uint64 {
	kept := uint64(0)
	for at := m.first() + 1; at <= m.serial; at++ {
		kept += m.change[at] + 1
	}
	return kept
}

// TestNeeded edits while a client marks now and then: what changed since his mark is always known, unless more changed
// than is kept, and what nobody needs goes.
func TestNeeded(t *testing.T) {
	const most = 20_000
	random := rand.New(rand.NewSource(1))
	m := newModel(Bounds{Changes: most})
	m.mark(math.MaxUint64)
	need, missed := uint64(0), 0
	for i := 0; i < 30_000; i++ {
		changes := uint64(random.Intn(5))
		if random.Intn(2_000) == 0 {
			changes = most / 4
		}
		m.edit(changes, 0)
		m.mark(need)
		if i%100 == 0 && m.kept() > most+most/2 {
			t.Fatalf("at serial %d the program keeps %d", m.serial, m.kept())
		}
		if need < m.first() {
			changed := uint64(0)
			for at := need + 1; at <= m.serial; at++ {
				changed += m.change[at] + 1
			}
			if changed < most-most/4 {
				t.Fatalf("since serial %d %d changed, and isn't known", need, changed)
			}
			missed++
			need = m.serial
		}
		if random.Intn(1_000) == 0 {
			need = m.serial
		}
		if random.Intn(5_000) == 0 {
			need = m.serial
			for j := 0; j < 2*step; j++ {
				m.edit(0, 0)
				m.mark(m.serial)
			}
			if m.serial-m.first() > 2*step {
				t.Fatalf("%d edits are kept that nobody needs", m.serial-m.first())
			}
			need = m.serial
		}
	}
	if missed == 0 {
		t.Error("no mark is too old")
	}
	if floor := m.ladder.Floor(math.MaxUint64); floor != m.serial {
		t.Errorf("what changed since serial %d is kept at serial %d, and nobody needs it", floor, m.serial)
	}
}

// TestRecent keeps what changed in the last while, for who comes back.
func TestRecent(t *testing.T) {
	m := newModel(Bounds{Changes: math.MaxUint64, Recent: 5000 * time.Second})
	m.mark(math.MaxUint64)
	for i := 0; i < 20_000; i++ {
		m.edit(0, 0)
		m.mark(m.ladder.Recent(m.now))
		if i > 5000 && m.serial-m.first() < 5000 {
			t.Fatalf("at serial %d the program knows what changed since %d", m.serial, m.first())
		}
	}
	if m.serial-m.first() > 7000 {
		t.Errorf("%d edits are kept", m.serial-m.first())
	}
}

// TestResume has the ladder of before a start: as much of it as is needed, as is recent, and as a start has time for.
func TestResume(t *testing.T) {
	now := time.Now()
	var rungs []Rung
	for i := uint64(1); i <= 40; i++ {
		ago := time.Duration(40-i) * time.Minute
		spent := Spent{Changes: 10 * i, Took: time.Duration(i) * time.Second}
		rungs = append(rungs, Rung{Serial: 100 * i, Time: now.Add(-ago), Spent: spent})
	}
	for name, one := range map[string]struct {
		bounds Bounds
		need   uint64
		last   uint64
		first  uint64
	}{
		"nobody":         {Bounds{Changes: 1000}, math.MaxUint64, 4050, 4050},
		"somebody":       {Bounds{Changes: 1000}, 1250, 4050, 1250},
		"too slow":       {Bounds{Changes: 1000, Took: 7 * time.Second}, 1250, 4050, 3300},
		"too much":       {Bounds{Changes: 95}, 1250, 4050, 3100},
		"a part is lost": {Bounds{Changes: 1000}, 1250, 2050, 1250},
		"all is lost":    {Bounds{Changes: 1000}, math.MaxUint64, 50, 50},
	} {
		l := New(one.bounds)
		l.Resume(append([]Rung(nil), rungs...), one.need, one.last, now.Add(time.Hour))
		if newest := l.Rungs()[len(l.Rungs())-1].Time; !newest.Equal(now.Add(time.Hour)) {
			t.Errorf("%s: the newest mark is of %s", name, newest)
		}
		first, count := uint64(math.MaxUint64), 0
		for _, at := range l.Marks(one.need) {
			if count++; at < first {
				first = at
			}
		}
		if first != one.first || count > 15 {
			t.Errorf("%s: %d marks, of which the first stands at %d and not at %d", name, count, first, one.first)
		}
	}
}

// TestProgram tells of another program: the marks that it has stay, the others don't.
func TestProgram(t *testing.T) {
	m := newModel(Bounds{Changes: math.MaxUint64})
	m.mark(0)
	for i := 0; i < 3*step; i++ {
		m.edit(0, 0)
		m.mark(0)
	}
	marks := m.ladder.Marks(0)
	if len(marks) < 3 {
		t.Fatalf("there are the marks %v", marks)
	}
	delete(marks, 0)
	m.ladder.Anew(marks)
	if got := m.ladder.Marks(0); len(got) != len(marks) || len(m.ladder.Rungs()) != len(marks) {
		t.Errorf("there are the marks %v, and not %v", got, marks)
	}
}
