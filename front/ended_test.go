package main

import (
	"fmt"
	"net/http"
	"strings"
	"testing"
)

// TestSessionEnded asks of sessions that ended, by themselves or since they were told to: it is told that they did, and
// when, also by the next start; of others that there is none.
func TestSessionEnded(t *testing.T) {
	path := t.TempDir()
	f := begin(t, path, "--session-idle", "1s")
	left, told := f.session(), f.session()
	request, err := http.NewRequest(http.MethodDelete, f.url(told), nil)
	if err != nil {
		t.Fatal(err)
	}
	answer, err := http.DefaultClient.Do(request)
	if err != nil {
		t.Fatal(err)
	}
	if status, body := bodyOf(t, answer); status != http.StatusNoContent {
		t.Fatalf("the end of a session is answered %d %s", status, body)
	}
	eventually(t, "the session ends", func() bool { return f.metric("review_front_sessions") == 0 })
	see := func() {
		t.Helper()
		for _, session := range []string{left, told} {
			for _, what := range []string{"/notices", "/mark"} {
				ask := f.get
				if what == "/mark" {
					ask = func(path string) (int, string) { return f.post(path, "") }
				}
				if status, body := ask(session + what); status != http.StatusNotFound || !strings.Contains(body, "it ended at 20") {
					t.Errorf("of a session that ended it is said %d %s", status, body)
				}
			}
		}
		status, body := f.get("/sessions/none/notices")
		if status != http.StatusNotFound || !strings.Contains(body, "there never was one") {
			t.Errorf("of a session that there never was it is said %d %s", status, body)
		}
	}
	see()
	f.stop()
	f = begin(t, path)
	see()
}

// TestMarksOnDisk marks, and edits more than the program keeps: what changed since the mark, and since any serial, is
// told all the same, as the tables have it.
func TestMarksOnDisk(t *testing.T) {
	f, w, tables := begin(t, t.TempDir(), "--keep-changes", "300"), newTwin(t), newTables(t)
	both := func(lines ...string) {
		t.Helper()
		f.accept(lines...)
		for _, l := range lines {
			w.ask(l)
		}
	}
	both(clinic(t)...)
	s, session := f.connect("/lines"), f.session()
	s.ask(t, `{"do":"mark"}`)
	if status, body := f.post(session+"/mark", ""); status != http.StatusOK {
		t.Fatal(status, body)
	}
	tables.add(69, w.ask(`{"do":"table"}`))
	for i := 0; i < 12; i++ {
		both(`{"do":"person.add","name":"extra"}`, `{"do":"person.drop","name":"extra"}`,
			fmt.Sprintf(`{"do":"day.set","day":"2026-%02d-01"}`, i+1))
	}
	both(`{"do":"person.drop","name":"hana"}`)
	eventually(t, "the program knows no more of then", func() bool {
		both(`{"do":"day.set","day":"2027-01-01"}`)
		return f.oldest() > 80
	})
	serial := f.serial("/counts", nil)
	last := uint64(0)
	_, _ = fmt.Sscan(serial, &last)
	tables.add(last, w.ask(`{"do":"table"}`))
	want := tables.between(69, last)
	if got := s.ask(t, `{"do":"notices"}`); got != want {
		t.Errorf("notices of a stream are\n%.1000s\nand not\n%.1000s", got, want)
	}
	if got := f.must(session + "/notices"); got != want {
		t.Errorf("notices of a session are\n%.1000s\nand not\n%.1000s", got, want)
	}
	if got := s.ask(t, `{"do":"changes","since":69}`); got != asChanges(want, serial) {
		t.Errorf("changes are\n%.1000s\nand not\n%.1000s", got, asChanges(want, serial))
	}
}
