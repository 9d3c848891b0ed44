package main

import (
	"fmt"
	"math/rand"
	"strings"
	"sync"
	"sync/atomic"
	"testing"
	"time"

	"review-front/folder"
)

const editors = 16

// acknowledged is every edit whose reply a client has read, by serial.
type acknowledged struct {
	mutex sync.Mutex
	edits map[uint64]string
}

func (a *acknowledged) add(t testing.TB, serial uint64, l string) {
	a.mutex.Lock()
	defer a.mutex.Unlock()
	if other, there := a.edits[serial]; there {
		t.Errorf("serial %d is told twice: %s and %s", serial, other, l)
	}
	a.edits[serial] = l
}

// in sees that each edit is in the journal, as it was sent, at its serial.
func (a *acknowledged) in(t testing.TB, journal map[uint64]folder.Entry) {
	t.Helper()
	a.mutex.Lock()
	defer a.mutex.Unlock()
	for serial, l := range a.edits {
		if entry, there := journal[serial]; !there || string(entry.Line) != l {
			t.Fatalf("edit %d was acknowledged as %s, and the journal has %s", serial, l, entry.Line)
		}
	}
}

// randomEdit is an edit of the clinic; some are refused.
func randomEdit(random *rand.Rand, client int) string {
	person := []string{"ada", "bruno", "chen", "dina", "elif", "farid", "gwen", "hana"}[random.Intn(8)]
	switch random.Intn(6) {
	case 0:
		return fmt.Sprintf(`{"do":"person.add","name":"extra-%d"}`, random.Intn(8))
	case 1:
		return fmt.Sprintf(`{"do":"person.drop","name":"extra-%d"}`, random.Intn(8))
	case 2:
		return fmt.Sprintf(`{"do":"day.set","day":"2026-0%d-1%d"}`, 1+random.Intn(9), random.Intn(10))
	case 3:
		return fmt.Sprintf(`{"session":%d,"do":"attr.set","category":"AccessSubject","entity":%q,"attribute":"role","type":"string","values":["doctor"]}`,
			client, person)
	case 4:
		return fmt.Sprintf(`{"do":"attr.set","category":"AccessSubject","entity":%q,"attribute":"role","type":"string","values":["nurse","%d"]}`,
			person, random.Intn(1000))
	}
	return fmt.Sprintf(`{"do": "attr.set", "category":"Resource","entity":"rota","attribute":"note-%d","type":"integer","values":[%d]}`,
		client, random.Intn(1<<30))
}

// editing edits over one stream, a few lines ahead, until the stream ends or the editors are stopped. What has its
// reply is acknowledged. It gives how many lines had none of the program.
func editing(t testing.TB, f *front, client int, seed int64, known *acknowledged, stop <-chan struct{}) (missed int64) {
	s, err := f.open("/lines")
	if err != nil {
		return 0
	}
	defer s.conn.Close()
	random := rand.New(rand.NewSource(seed))
	sent := make(chan string, 8)
	over := make(chan struct{})
	defer close(over)
	go func() {
		for {
			l := randomEdit(random, client)
			select {
			case sent <- l:
			case <-over:
				return
			case <-stop:
				_ = s.end()
				return
			}
			if s.send(l) != nil {
				return
			}
		}
	}()
	for {
		reply, err := s.receive()
		if err != nil {
			return missed
		}
		l := <-sent
		if serial, ok := accepted(reply); ok {
			known.add(t, serial, l)
		} else if strings.Contains(reply, `"status":503`) || strings.Contains(reply, `"status":422`) {
			missed++
		} else if !strings.HasPrefix(reply, `{"refused":`) {
			t.Errorf("%s is answered %s", l, reply)
		}
	}
}

// crowd lets editors edit until they are stopped or the front ends.
func crowd(t testing.TB, f *front, round int, known *acknowledged, stop <-chan struct{}) (missed int64) {
	var all sync.WaitGroup
	var sum atomic.Int64
	for client := 0; client < editors; client++ {
		all.Add(1)
		go func(client int) {
			defer all.Done()
			sum.Add(editing(t, f, client, int64(round*editors+client), known, stop))
		}(client)
	}
	all.Wait()
	return sum.Load()
}

// TestFrontKilled kills the front while sixteen clients edit. Each edit that was acknowledged is in the journal, in
// the order of serials, and the table is that of the journal's lines.
func TestFrontKilled(t *testing.T) {
	path := t.TempDir()
	f := begin(t, path, "--snapshot-every", "700")
	f.accept(clinic(t)...)
	known := &acknowledged{edits: map[uint64]string{}}
	journal := map[uint64]folder.Entry{}
	w := newTwin(t)
	random := rand.New(rand.NewSource(1))
	for round := 0; round < number("FRONT_KILLS", 8); round++ {
		timer := time.AfterFunc(time.Duration(random.Intn(250))*time.Millisecond, func() { f.kill() })
		crowd(t, f, round, known, nil)
		timer.Stop()
		f.kill()
		f = begin(t, path, "--snapshot-every", "700")
		w.follow(path, journal)
		known.in(t, journal)
		w.same(f)
	}
	t.Logf("%d edits are in the journal, %d of them acknowledged", len(journal), len(known.edits))
}

// TestProgramKilled kills the program while sixteen clients edit, and they stay connected.
func TestProgramKilled(t *testing.T) {
	path := t.TempDir()
	f := begin(t, path, "--snapshot-every", "700")
	f.accept(clinic(t)...)
	known := &acknowledged{edits: map[uint64]string{}}
	journal := map[uint64]folder.Entry{}
	w := newTwin(t)
	random := rand.New(rand.NewSource(2))
	missed := int64(0)
	kills := number("FRONT_KILLS", 8)
	for round := 0; round < kills; round++ {
		stop := make(chan struct{})
		ended := make(chan int64)
		go func() { ended <- crowd(t, f, round, known, stop) }()
		time.Sleep(time.Duration(random.Intn(250)) * time.Millisecond)
		before := len(f.programs())
		f.killProgram()
		f.another(before)
		time.Sleep(20 * time.Millisecond)
		close(stop)
		missed += <-ended
		w.follow(path, journal)
		known.in(t, journal)
		w.same(f)
	}
	if len(journal) != len(known.edits)+len(clinic(t)) {
		t.Logf("%d edits were kept without being acknowledged", len(journal)-len(known.edits)-len(clinic(t)))
	}
	t.Logf("%d edits are in the journal, %d acknowledged, %d lines had no reply", len(journal), len(known.edits), missed)
	if got := f.metric(`review_front_restarts_total{why="the program ended"}`); got < float64(kills) {
		t.Errorf("%v restarts are counted", got)
	}
}

// another waits for a program after so many.
func (f *front) another(before int) {
	f.t.Helper()
	for until := time.Now().Add(patient); len(f.programs()) <= before; time.Sleep(10 * time.Millisecond) {
		if time.Now().After(until) {
			f.t.Fatalf("there is no other program:\n%s", f.trace())
		}
	}
}
