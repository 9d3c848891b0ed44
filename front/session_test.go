package main

import (
	"encoding/json"
	"fmt"
	"net/http"
	"net/http/httptest"
	"os"
	"path/filepath"
	"strings"
	"testing"
	"time"

	"review-front/folder"
	"review-front/keeper"
	"review-front/measure"
	"review-front/web"
)

const unmarked = `{"refused":12}`

// TestSessions gives many clients a session each, more than the program has.
func TestSessions(t *testing.T) {
	const clients = 40
	f := begin(t, t.TempDir())
	f.accept(clinic(t)...)
	var streams []*stream
	for i := 0; i < clients; i++ {
		s := f.connect("/lines")
		if reply := s.ask(t, `{"do":"notices","session":7}`); reply != unmarked {
			t.Fatalf("client %d: notices before a mark are %s", i, reply)
		}
		if reply := s.ask(t, `{"do":"mark","session":7}`); !strings.HasPrefix(reply, `{"mark":`) {
			t.Fatalf("client %d: a mark is answered %s", i, reply)
		}
		f.accept(fmt.Sprintf(`{"do":"person.add","name":"extra-%d"}`, i))
		streams = append(streams, s)
	}
	for i, s := range streams {
		if reply := s.ask(t, `{"do":"notices","session":7}`); strings.Count(reply, `"person":"extra-`) != 60*(clients-i) {
			t.Errorf("client %d hears of %d", i, strings.Count(reply, `"person":"extra-`))
		}
	}
	if got := f.metric("review_front_sessions"); got != clients {
		t.Errorf("%v sessions are counted", got)
	}
	streams[3].conn.Close()
	eventually(t, "a session ends with its stream", func() bool { return f.metric("review_front_sessions") == clients-1 })
	reply := f.lines(`{"do":"notices"}`, `{"do":"mark"}`, `{"do":"notices"}`)
	if reply[0] != unmarked || !strings.HasPrefix(reply[1], `{"mark":`) || reply[2] != `{"notices":[]}` {
		t.Errorf("a mark and notices together are answered %s", reply)
	}
}

// TestSessionsWait asks for a session before there is a state: it isn't opened, so that those of before aren't forgotten.
func TestSessionsWait(t *testing.T) {
	path := t.TempDir()
	held, err := folder.Open(path)
	if err != nil {
		t.Fatal(err)
	}
	defer held.Close()
	k := keeper.New(keeper.Options{Folder: held, Meter: measure.New(), Queue: 1, MostSessions: 9})
	site := web.New(web.Options{Keeper: k, Meter: measure.New(), SessionIdle: time.Minute})
	answer := httptest.NewRecorder()
	site.ServeHTTP(answer, httptest.NewRequest(http.MethodPost, "http://localhost/sessions", nil))
	if answer.Code != http.StatusServiceUnavailable {
		t.Errorf("it is answered %d %s", answer.Code, answer.Body)
	}
	if _, err := os.Stat(filepath.Join(path, "marks")); !os.IsNotExist(err) {
		t.Errorf("marks are written: %v", err)
	}
}

// TestMarksOutlive sees that marks outlive the program, also behind snapshots that are newer.
func TestMarksOutlive(t *testing.T) {
	f := begin(t, t.TempDir(), "--snapshot-every", "4")
	f.accept(clinic(t)...)
	first, second := f.connect("/lines"), f.connect("/lines")
	first.ask(t, `{"do":"mark"}`)
	for i := 0; i < 20; i++ {
		f.accept(fmt.Sprintf(`{"do":"person.add","name":"extra-%d"}`, i))
		if i == 9 {
			second.ask(t, `{"do":"mark","session":15}`)
		}
	}
	eventually(t, "snapshots", func() bool { return f.metric(`review_front_snapshots_total{outcome="kept"}`) > 1 })
	for round := 1; round < 4; round++ {
		f.killProgram()
		eventually(t, "another program", func() bool { return len(f.programs()) > round && f.metric("review_front_ready") == 1 })
		for i, s := range []*stream{first, second} {
			l := []string{`{"do":"notices"}`, `{"do":"notices","session":15}`}[i]
			if reply := s.ask(t, l); strings.Count(reply, `"person":"extra-`) != 1200/(i+1) {
				t.Fatalf("round %d: client %d hears of %d: %.200s", round, i, strings.Count(reply, `"person":"extra-`), reply)
			}
		}
		if reply := first.ask(t, `{"do":"notices","session":1}`); reply != unmarked {
			t.Fatalf("notices of another number are %s", reply)
		}
	}
}

// TestLeases uses a session over several requests.
func TestLeases(t *testing.T) {
	f := begin(t, t.TempDir())
	f.accept(clinic(t)...)
	path := f.session()
	if status, body := f.get(path + "/notices"); status != http.StatusConflict || !strings.Contains(body, `"refused":12`) {
		t.Errorf("notices before a mark are %d %s", status, body)
	}
	if status, body := f.post(path+"/mark", ""); status != http.StatusOK || body != fmt.Sprintf(`{"mark":%d}`, len(clinic(t))) {
		t.Errorf("a mark is %d %s", status, body)
	}
	f.accept(`{"do":"person.add","name":"extra"}`)
	if status, body := f.get(path + "/notices"); status != http.StatusOK || strings.Count(body, `"person":"extra"`) != 60 {
		t.Errorf("notices are %d %s", status, body)
	}
	if _, body := f.post(path+"/lines", `{"do":"notices"}`); strings.Count(body, `"person":"extra"`) != 60 {
		t.Errorf("notices by a line are %s", body)
	}
	f.end(path)
	if status, _ := f.get(path + "/notices"); status != http.StatusNotFound {
		t.Errorf("notices of a session that has ended are %d", status)
	}
}

// TestIdle gives back a session that nobody uses.
func TestIdle(t *testing.T) {
	f := begin(t, t.TempDir(), "--session-idle", "500ms")
	f.session()
	eventually(t, "the session ends when nobody uses it", func() bool { return f.metric("review_front_sessions") == 0 })
}

// session opens a session, and gives its path.
func (f *front) session() string {
	f.t.Helper()
	status, body := f.post("/sessions", "")
	var opened struct{ Session string }
	if err := json.Unmarshal([]byte(body), &opened); err != nil || status != http.StatusCreated {
		f.t.Fatalf("a session is %d %s", status, body)
	}
	return "/sessions/" + opened.Session
}

// end ends a session.
func (f *front) end(path string) {
	f.t.Helper()
	request, err := http.NewRequest(http.MethodDelete, f.url(path), nil)
	if err != nil {
		f.t.Fatal(err)
	}
	answer, err := http.DefaultClient.Do(request)
	if err != nil {
		f.t.Fatal(err)
	}
	if status, body := bodyOf(f.t, answer); status != http.StatusNoContent {
		f.t.Fatalf("a session is ended by %d %s", status, body)
	}
}
