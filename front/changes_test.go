package main

import (
	"fmt"
	"math/rand"
	"strconv"
	"strings"
	"sync"
	"sync/atomic"
	"testing"
	"time"

	"review-front/folder"
)

// marker is many sessions, each over a stream of its own, and beside them a program that has fifteen of their marks.
type marker struct {
	t       *testing.T
	streams []*stream
	twin    *twin
	tables  *tables
	serial  uint64
	marks   map[int]uint64
}

// twins is how many sessions have a mark in the program beside the front.
const twins = 15

// edit edits by a session, and tells the program beside the front.
func (m *marker) edit(i int, l string) {
	m.t.Helper()
	reply := m.streams[i].ask(m.t, l)
	if said := m.twin.ask(l); strings.HasPrefix(reply, `{"refused"`) || strings.HasPrefix(said, `{"refused"`) {
		if reply != said {
			m.t.Fatalf("%s is answered %s, and by the program %s", l, reply, said)
		}
		return
	}
	var ok bool
	if m.serial, ok = accepted(reply); !ok {
		m.t.Fatalf("%s is answered %s", l, reply)
	}
	m.tables.add(m.serial, m.twin.ask(`{"do":"table"}`))
	m.forget()
}

// forget leaves the tables that somebody has marked, and the last ones.
func (m *marker) forget() {
	if len(m.tables.known) < 200 {
		return
	}
	marked := map[uint64]bool{}
	for _, at := range m.marks {
		marked[at] = true
	}
	for serial := range m.tables.known {
		if !marked[serial] && serial+16 < m.serial {
			delete(m.tables.known, serial)
		}
	}
}

// mark marks for a session.
func (m *marker) mark(i int) {
	m.t.Helper()
	if reply := m.streams[i].ask(m.t, `{"do":"mark"}`); reply != fmt.Sprintf(`{"mark":%d}`, m.serial) {
		m.t.Fatalf("a mark at serial %d is answered %s", m.serial, reply)
	}
	m.marks[i] = m.serial
	if i < twins {
		m.twin.ask(fmt.Sprintf(`{"do":"mark","session":%d}`, i))
	}
}

// notices asks what changed since a session's mark.
func (m *marker) notices(i int) {
	m.t.Helper()
	want := unmarked
	if at, marked := m.marks[i]; marked {
		want = m.tables.between(at, m.serial)
	}
	reply := m.streams[i].ask(m.t, `{"do":"notices"}`)
	if reply != want {
		m.t.Fatalf("notices of session %d are\n%.2000s\nand not\n%.2000s", i, reply, want)
	}
	if i < twins {
		if said := m.twin.ask(fmt.Sprintf(`{"do":"notices","session":%d}`, i)); said != reply {
			m.t.Fatalf("notices of session %d are\n%.2000s\nand by the program\n%.2000s", i, reply, said)
		}
	}
}

// oldest is the serial of the oldest mark, or the present one.
func (m *marker) oldest() uint64 {
	oldest := m.serial
	for _, at := range m.marks {
		if at < oldest {
			oldest = at
		}
	}
	return oldest
}

// asChanges is the reply to `changes` at a serial that has these notices.
func asChanges(notices, serial string) string {
	list := strings.TrimSuffix(strings.TrimPrefix(notices, `{"notices":`), "}")
	return `{"changes":` + list + `,"serial":` + serial + "}"
}

// changes asks what changed since a serial of which the table is known, or one that isn't reached.
func (m *marker) changes(i int, random *rand.Rand) {
	m.t.Helper()
	since, want := m.serial+1+uint64(random.Intn(9)), unmarked
	for serial := range m.tables.known {
		if random.Intn(10) > 0 {
			since = serial
			want = asChanges(m.tables.between(since, m.serial), fmt.Sprint(m.serial))
		}
		break
	}
	reply := m.streams[i].ask(m.t, fmt.Sprintf(`{"do":"changes","since":%d}`, since))
	if reply == unmarked && since < m.oldest() {
		return // another program keeps no more than somebody marked
	}
	if reply != want {
		m.t.Fatalf("changes since serial %d are\n%.2000s\nand not\n%.2000s", since, reply, want)
	}
}

// TestMarksAreSerials has forty sessions edit, mark, and ask what changed: it is the difference of two tables, and what
// a program says that has the session's mark.
func TestMarksAreSerials(t *testing.T) {
	const sessions = 40
	f := begin(t, t.TempDir(), "--snapshot-every", "300")
	m := &marker{t: t, twin: newTwin(t), tables: newTables(t), marks: map[int]uint64{}}
	for i := 0; i < sessions; i++ {
		m.streams = append(m.streams, f.connect("/lines"))
	}
	m.tables.add(0, m.twin.ask(`{"do":"table"}`))
	for i, l := range clinic(t) {
		m.edit(i%sessions, l)
	}
	random := rand.New(rand.NewSource(3))
	lines := number("FRONT_LINES", 2_000)
	for count := 0; count < lines; count++ {
		i := random.Intn(sessions)
		switch random.Intn(12) {
		case 0, 1:
			m.edit(i, randomEdit(random, i%16))
		case 2, 3:
			m.mark(i)
		case 4, 5, 6:
			m.changes(i, random)
		default:
			m.notices(i)
		}
		if count%1_000 == 500 {
			before := len(f.programs())
			f.killProgram()
			f.another(before)
			eventually(t, "the program answers", func() bool { return f.metric("review_front_ready") == 1 })
		}
	}
	t.Logf("%d lines, %d edits", lines, m.serial)
}

// heardBehind is an event that a listener heard, of what changed between two serials.
type heardBehind struct {
	event
	from, to uint64
}

// returner listens, and comes back whenever the connection breaks.
type returner struct {
	heard []heardBehind
	last  string        // the id of the last event
	until atomic.Uint64 // the same as a number
}

// listen hears what there is to hear over one connection, of which each text is kept once for all.
func (r *returner) listen(f *front, first *sync.WaitGroup, texts *sync.Map) {
	heard, err := f.hear(r.last, "")
	if err != nil {
		time.Sleep(20 * time.Millisecond)
		return
	}
	defer heard.leave()
	for e := range heard.events {
		to, err := strconv.ParseUint(e.id, 10, 64)
		if err != nil {
			continue
		}
		if r.last == "" {
			first.Done()
		} else {
			text, _ := texts.LoadOrStore(e.data, e.data)
			e.data = text.(string)
			r.heard = append(r.heard, heardBehind{e, r.until.Load(), to})
		}
		r.last = e.id
		r.until.Store(to)
	}
}

// TestReturn has listeners come back through kills of the front and of the program, from whatever they heard last: each
// is told just what changed since, and none is told to read anew.
func TestReturn(t *testing.T) {
	path := t.TempDir()
	words := []string{"--snapshot-every", "100"}
	var now atomic.Pointer[front]
	now.Store(begin(t, path, words...))
	now.Load().accept(clinic(t)...)
	var all, first sync.WaitGroup
	var texts sync.Map
	var ended atomic.Bool
	listeners := make([]returner, number("FRONT_LISTENERS", 60))
	for i := range listeners {
		all.Add(1)
		first.Add(1)
		go func(r *returner) {
			defer all.Done()
			for !ended.Load() {
				r.listen(now.Load(), &first, &texts)
			}
		}(&listeners[i])
	}
	first.Wait()
	random := rand.New(rand.NewSource(4))
	for round := 0; round < number("FRONT_RETURNS", 6); round++ {
		f := now.Load()
		for i := 0; i < 10+random.Intn(20); i++ {
			f.lines(randomEdit(random, i%16))
		}
		if round%2 == 1 {
			f.kill()
			now.Store(begin(t, path, words...))
		} else {
			before := len(f.programs())
			f.killProgram()
			f.another(before)
			eventually(t, "the program answers", func() bool { return f.metric("review_front_ready") == 1 })
		}
	}
	f := now.Load()
	f.accept(`{"do":"day.set","day":"2027-01-01"}`)
	last := uint64(f.metric("review_front_serial"))
	eventually(t, "all hear the last edit", func() bool {
		for i := range listeners {
			if listeners[i].until.Load() < last {
				return false
			}
		}
		return true
	})
	ended.Store(true)
	f.stop()
	all.Wait()
	judgeReturns(t, path, listeners)
}

// judgeReturns compares what listeners heard with the differences of the tables that the journal gives.
func judgeReturns(t *testing.T, path string, listeners []returner) {
	t.Helper()
	seen := map[uint64]bool{}
	for i := range listeners {
		for _, e := range listeners[i].heard {
			seen[e.from], seen[e.to] = true, true
		}
	}
	w, known := newTwin(t), newTables(t)
	err := folder.History(path, 0, func(e folder.Entry) error {
		w.ask(string(e.Line))
		if seen[e.Serial] {
			known.add(e.Serial, w.ask(`{"do":"table"}`))
		}
		return nil
	})
	if err != nil {
		t.Fatal(err)
	}
	wants, events := map[[2]uint64]string{}, 0
	for i := range listeners {
		for _, e := range listeners[i].heard {
			if e.kind == "from" && e.from == e.to {
				continue
			}
			if e.kind != "notices" || e.to <= e.from {
				t.Fatalf("listener %d hears behind %d %s %d", i, e.from, e.kind, e.to)
			}
			between := [2]uint64{e.from, e.to}
			if wants[between] == "" {
				wants[between] = known.between(e.from, e.to)
			}
			if e.data != wants[between] {
				t.Fatalf("listener %d hears of %v\n%.1000s\nand not\n%.1000s", i, between, e.data, wants[between])
			}
			events++
		}
	}
	t.Logf("%d listeners heard %d events between %d pairs of tables", len(listeners), events, len(wants))
}
