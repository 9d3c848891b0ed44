package notices

import (
	"fmt"
	"io"
	"testing"
	"time"

	"review-front/spool"
)

// heard are the events that wait for a listener, and whether more may come.
func heard(l *Listener) (events []string, open bool) {
	for {
		select {
		case event, more := <-l.Events():
			if !more {
				return events, false
			}
			events = append(events, fmt.Sprintf("%s %d %s", event.Kind, event.Serial, event.Data))
		default:
			return events, true
		}
	}
}

// want sees that a listener has just these events, and may have more.
func want(t *testing.T, l *Listener, events ...string) {
	t.Helper()
	if got, open := heard(l); fmt.Sprint(got) != fmt.Sprint(events) || !open {
		t.Errorf("a listener has the events %q, %v, and not %q", got, open, events)
	}
}

// told tells what changed up to a serial, as one round.
func told(h *Hub, serial uint64, notices string) {
	h.Tell(h.Begin(), serial, []byte(notices))
}

// TestTell lets one listen from a serial on and another from a later one: each hears what changed behind his own.
func TestTell(t *testing.T) {
	h := NewHub(time.Minute)
	if h.Begin().Any {
		t.Error("somebody is there")
	}
	first := h.Listen()
	round := h.Begin()
	if !round.Any || round.All || len(round.joined) != 1 || h.Waits() {
		t.Fatalf("a round is %v", round)
	}
	second := h.Listen()
	if !h.Waits() {
		t.Error("nobody waits")
	}
	h.Tell(round, 3, []byte("a"))
	want(t, first, "from 3 ")
	want(t, second)
	round = h.Begin()
	if !round.All || round.Since != 3 {
		t.Errorf("a round is %v", round)
	}
	h.Fail(round)
	told(h, 5, "b")
	want(t, first, "notices 5 b")
	want(t, second, "from 5 ")
	told(h, 5, "nothing")
	want(t, first)
	h.Tell(h.Begin(), 6, nil)
	want(t, first, "anew 6 ")
	want(t, second, "anew 6 ")
	first.Leave()
	first.Leave()
	if _, open := heard(first); open || h.Count() != 1 {
		t.Errorf("%d listen behind one's leaving", h.Count())
	}
}

// TestMissed has listeners leave who were sent all, or not: somebody missed something only where one wasn't.
func TestMissed(t *testing.T) {
	h := NewHub(time.Minute)
	first := h.Listen()
	told(h, 5, "a")
	if h.Missed(6) || !h.Expects() {
		t.Error("who listens has missed something")
	}
	first.Took(<-first.Events())
	first.Leave()
	if h.Missed(5) || !h.Missed(6) || !h.Expects() {
		t.Error("who was sent all up to serial 5 has missed otherwise")
	}
	h.Return(3).Leave()
	h.Listen().Leave()
	if h.Missed(3) || !h.Missed(4) {
		t.Error("who came back behind serial 3 and was sent nothing has missed otherwise")
	}
	if h = NewHub(0); h.Expects() || h.Missed(9) {
		t.Error("somebody is expected who wasn't there")
	}
	if h = NewHub(time.Minute); h.Missed(9) {
		t.Error("nobody was there, and missed something")
	}
	if h.Expect(); !h.Missed(1) || !h.Expects() {
		t.Error("nobody is expected who was there before")
	}
}

// TestReturn has listeners come back: who has heard all goes on, others are told what changed since, or to read anew
// where that isn't known; one file is shared, and goes with the last who has it.
func TestReturn(t *testing.T) {
	h, s := NewHub(time.Minute), spool.New(t.TempDir(), 100)
	same, older, twin, lost := h.Return(7), h.Return(4), h.Return(4), h.Return(1)
	round := h.Begin()
	if len(round.Back) != 3 || round.All {
		t.Fatalf("a round is %v", round)
	}
	rest, err := s.File()
	if err != nil {
		t.Fatal(err)
	}
	if _, err := rest.Write([]byte("cd")); err != nil {
		t.Fatal(err)
	}
	*round.Back[4] = Event{Kind: Told, Data: []byte("ab"), Rest: rest}
	h.Tell(round, 7, nil)
	want(t, same, "from 7 ")
	want(t, lost, "anew 7 ")
	event := <-older.Events()
	content, err := io.ReadAll(event.Rest.Reader())
	if event.Kind != Told || event.Serial != 7 || string(content) != "cd" {
		t.Errorf("who comes back is told %v, %s, %v", event, content, err)
	}
	older.Took(event)
	if s.Used() != 2 {
		t.Errorf("%d bytes are kept while one hasn't read them", s.Used())
	}
	twin.Leave()
	if s.Used() != 0 {
		t.Errorf("%d bytes are kept for nobody", s.Used())
	}
	told(h, 8, "e")
	want(t, older, "notices 8 e")
}

// TestReturning has listeners come back from more serials than are asked for at a time: all are told, some later.
func TestReturning(t *testing.T) {
	h := NewHub(time.Minute)
	var all []*Listener
	for heard := uint64(0); heard < 3*returning; heard++ {
		all = append(all, h.Return(heard))
	}
	rounds := 0
	for ; h.Waits(); rounds++ {
		round := h.Begin()
		if len(round.Back) > returning {
			t.Fatalf("%d serials are asked for", len(round.Back))
		}
		told := round.Back
		for _, event := range told {
			event.Kind = Told
		}
		h.Tell(round, 1000, nil)
	}
	if rounds != 3 {
		t.Errorf("it takes %d rounds", rounds)
	}
	for _, l := range all {
		want(t, l, "notices 1000 ")
	}
}

// TestUnread lets go who doesn't read, and tells the others all the same; at the end it lets all go.
func TestUnread(t *testing.T) {
	h := NewHub(time.Minute)
	slow, quick := h.Listen(), h.Listen()
	told(h, 0, "")
	for serial := uint64(1); serial < Waiting+1; serial++ {
		heard(quick)
		told(h, serial, "a")
	}
	if events, open := heard(slow); len(events) != Waiting || open {
		t.Errorf("who doesn't read has %d events, %v", len(events), open)
	}
	want(t, quick, fmt.Sprintf("notices %d a", Waiting))
	h.Close()
	if _, open := heard(quick); open {
		t.Error("a listener isn't let go at the end")
	}
	if _, open := heard(h.Listen()); open {
		t.Error("one listens behind the end")
	}
}

// TestBytes lets go who doesn't read, as soon as much waits for him; one long event may wait.
func TestBytes(t *testing.T) {
	h := NewHub(time.Minute)
	slow, quick := h.Listen(), h.Listen()
	told(h, 1, "{}")
	<-slow.Events()
	<-quick.Events()
	long := make([]byte, WaitingBytes+1)
	for serial := uint64(2); serial <= 3; serial++ {
		h.Tell(h.Begin(), serial, long)
		event, open := <-quick.Events()
		if !open {
			t.Fatal("who reads is let go")
		}
		quick.Took(event)
	}
	if h.Count() != 1 {
		t.Errorf("%d listen", h.Count())
	}
}
