package main

import (
	"bufio"
	"fmt"
	"io"
	"net/http"
	"strings"
	"testing"
	"time"
)

// event is a server-sent event.
type event struct{ kind, id, data string }

// hearing is somebody who listens to notices.
type hearing struct {
	events chan event
	leave  func()
}

// listen listens to notices.
func (f *front) listen() *hearing {
	f.t.Helper()
	return f.listenBehind("")
}

// listenBehind listens to notices as one who comes back behind an event.
func (f *front) listenBehind(last string) *hearing {
	f.t.Helper()
	h, err := f.hear(last, "")
	if err != nil {
		f.t.Fatal(err)
	}
	f.t.Cleanup(h.leave)
	return h
}

// hear listens to notices, behind an event if one is named, and to those that a query tells, as whoever has a token.
func (f *front) hear(last, query string, tokens ...string) (*hearing, error) {
	request, err := http.NewRequest(http.MethodGet, f.url("/notices"+query), nil)
	if err != nil {
		return nil, err
	}
	if last != "" {
		request.Header.Set("Last-Event-ID", last)
	}
	for _, token := range tokens {
		request.Header.Add("Authorization", "Bearer "+token)
	}
	answer, err := http.DefaultClient.Do(request)
	if err != nil {
		return nil, err
	}
	h := &hearing{events: make(chan event, 1000), leave: func() { answer.Body.Close() }}
	if answer.StatusCode != http.StatusOK {
		h.leave()
		return nil, fmt.Errorf("GET /notices%s: %d", query, answer.StatusCode)
	}
	go h.read(answer.Body)
	return h, nil
}

// read reads events as they come. A beat, which says nothing, is none.
func (h *hearing) read(from io.Reader) {
	defer close(h.events)
	lines := bufio.NewReaderSize(from, 1<<20)
	var e event
	for {
		l, err := lines.ReadString('\n')
		if err != nil {
			return
		}
		key, value, _ := strings.Cut(strings.TrimSuffix(l, "\n"), ": ")
		switch key {
		case "event":
			e.kind = value
		case "id":
			e.id = value
		case "data":
			e.data = value
		case "":
			if e != (event{}) {
				h.events <- e
			}
			e = event{}
		}
	}
}

// next is the next event.
func (h *hearing) next(t testing.TB) event {
	t.Helper()
	select {
	case e, open := <-h.events:
		if !open {
			t.Fatal("nothing more is told")
		}
		return e
	case <-time.After(patient):
		t.Fatal("nothing is told")
	}
	return event{}
}

// TestWantedHears listens to some notices alone: who hears of none gets the serial, and comes back with it.
func TestWantedHears(t *testing.T) {
	f := begin(t, t.TempDir())
	f.accept(clinic(t)...)
	some, err := f.hear("", "?persons=extra-1&actions=read&actions=wr*")
	if err != nil {
		t.Fatal(err)
	}
	defer some.leave()
	none, err := f.hear("", "?persons=nobody")
	if err != nil {
		t.Fatal(err)
	}
	defer none.leave()
	some.next(t)
	none.next(t)
	for i := 0; i < 3; i++ {
		f.accept(fmt.Sprintf(`{"do":"person.add","name":"extra-%d"}`, i))
		id := fmt.Sprint(len(clinic(t)) + i + 1)
		if e := none.next(t); e.id != id || e.kind != "" || e.data != "" {
			t.Errorf("who wants to hear of nobody is told %v", e)
		}
		e := some.next(t)
		if heard := strings.Count(e.data, `"person":"extra-1"`); e.id != id || (i == 1) != (e.kind == "notices") || (i == 1) != (heard == 24) {
			t.Errorf("behind edit %s one hears %d of %v", id, heard, e)
		}
	}
	if status, body := f.get("/notices?person=ann"); status != http.StatusBadRequest {
		t.Errorf("another key is answered %d %s", status, body)
	}
}
