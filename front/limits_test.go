package main

import (
	"encoding/json"
	"errors"
	"fmt"
	"net"
	"net/http"
	"os"
	"path/filepath"
	"strings"
	"testing"
	"time"
)

// TestUnread lets a client ask for tables and read none: he is let go, so that he can't send any more.
func TestUnread(t *testing.T) {
	f := begin(t, t.TempDir(), "--write-time", "300ms")
	f.accept(clinic(t)...)
	s := f.connect("/lines")
	_ = s.conn.SetDeadline(time.Now().Add(patient))
	var err error
	for err == nil {
		err = s.send(`{"do":"table"}` + strings.Repeat(" ", 1<<16))
	}
	var late net.Error
	if errors.As(err, &late) && late.Timeout() {
		t.Errorf("who reads nothing isn't let go: %v", err)
	}
}

// TestWindow stops the program while a client sends long lines: he sends what the front and the connection hold, and no
// more.
func TestWindow(t *testing.T) {
	f := begin(t, t.TempDir())
	goOn := f.halt()
	s := f.connect("/lines")
	long := `{"do":"work"}` + strings.Repeat(" ", 1<<20-20)
	_ = s.conn.SetDeadline(time.Now().Add(2 * time.Second))
	sent := 0
	for ; sent < 50 && s.send(long) == nil; sent++ {
	}
	if sent > 30 {
		t.Errorf("%d lines of 1 MiB were taken", sent)
	}
	goOn()
}

// TestPages sends what a browser says of a page of another site, and of one of the front's own.
func TestPages(t *testing.T) {
	f := begin(t, t.TempDir())
	for site, want := range map[string]int{"cross-site": 403, "same-origin": 200, "none": 200} {
		for path, body := range map[string]string{"/lines": `{"do":"counts"}`, "/authorize": `{"Request":{}}`} {
			if status, said := f.sentBy(http.Header{"Sec-Fetch-Site": {site}}, path, body); status != want {
				t.Errorf("%s from %s is answered %d %s", path, site, status, said)
			}
		}
	}
}

// TestComesBack listens again after an event: who heard all goes on, who missed something is told it, and of whom it
// isn't known what he heard reads anew.
func TestComesBack(t *testing.T) {
	f := begin(t, t.TempDir())
	f.accept(`{"do":"person.add","name":"ann"}`, `{"do":"person.add","name":"ben"}`, `{"do":"action.add","name":"read"}`)
	f.accept(`{"do":"resource.add","name":"plan"}`, `{"do":"person.drop","name":"ben"}`)
	for last, want := range map[string]string{
		"": "from", "5": "from", "4": "notices", "3": "notices", "9": "anew", "x": "anew",
	} {
		heard := f.listenBehind(last)
		e := heard.next(t)
		if e.kind != want || e.id != "5" {
			t.Errorf("who comes back behind %q is told %v", last, e)
		}
		if anns, bens := strings.Count(e.data, `"ann"`), strings.Count(e.data, `"ben"`); want == "notices" {
			if anns != map[string]int{"4": 0, "3": 1}[last] || bens != map[string]int{"4": 1, "3": 0}[last] {
				t.Errorf("who comes back behind %q is told of %d and %d: %s", last, anns, bens, e.data)
			}
		}
	}
}

// oldest is the serial of the program's oldest mark.
func (f *front) oldest() int {
	f.t.Helper()
	var told struct {
		State struct {
			Marks []struct{ Serial, Session int }
		}
	}
	if err := json.Unmarshal([]byte(f.must("/state")), &told); err != nil || len(told.State.Marks) == 0 {
		f.t.Fatalf("there is no mark: %v", told)
	}
	oldest := told.State.Marks[0].Serial
	for _, mark := range told.State.Marks {
		if mark.Serial < oldest {
			oldest = mark.Serial
		}
	}
	return oldest
}

// TestStale marks, and edits much: what changed since is kept while the mark counts, and goes then.
func TestStale(t *testing.T) {
	f := begin(t, t.TempDir(), "--session-idle", "1ms")
	s := f.connect("/lines")
	if reply := s.ask(t, `{"do":"mark"}`); reply != `{"mark":0}` {
		t.Fatalf("a mark is answered %s", reply)
	}
	edits := func() {
		var lines []string
		for i := 0; i < 600; i++ {
			lines = append(lines, fmt.Sprintf(`{"do":"day.set","day":"2026-03-%02d"}`, 1+i%28))
		}
		f.accept(lines...)
		f.accept(lines[1])
	}
	edits()
	if oldest := f.oldest(); oldest != 0 {
		t.Errorf("the program's oldest mark is at serial %d, and a client's at 0", oldest)
	}
	if reply := s.ask(t, `{"do":"notices"}`); reply != `{"notices":[]}` {
		t.Errorf("notices are %s", reply)
	}
	s.conn.Close()
	eventually(t, "the session ends", func() bool { return f.metric("review_front_sessions") == 0 })
	edits()
	eventually(t, "the program keeps no more than is needed", func() bool { return f.oldest() > 600 })
}

// TestTooOld marks and listens, and edits more than is kept, also on disk: the mark is too old, and who comes back
// reads anew.
func TestTooOld(t *testing.T) {
	f := begin(t, t.TempDir(), "--keep-changes", "300", "--keep-history", "-1s")
	f.accept(clinic(t)...)
	s := f.connect("/lines")
	mark := s.ask(t, `{"do":"mark"}`)
	for i := 0; i < 12; i++ {
		f.accept(`{"do":"person.add","name":"extra"}`, `{"do":"person.drop","name":"extra"}`)
	}
	eventually(t, "the mark is too old", func() bool { return s.ask(t, `{"do":"notices"}`) == unmarked })
	f.accept(`{"do":"day.set","day":"2027-01-01"}`)
	eventually(t, "nothing is kept for it", func() bool {
		f.accept(`{"do":"day.set","day":"2027-01-02"}`)
		return float64(f.oldest()) > f.metric("review_front_serial")-10
	})
	if e := f.listenBehind(strings.Trim(mark, `{"mark:}`)).next(t); e.kind != "anew" {
		t.Errorf("who comes back is told %v", e)
	}
	if reply := s.ask(t, `{"do":"mark"}`); !strings.HasPrefix(reply, `{"mark":`) {
		t.Errorf("a mark is answered %s", reply)
	}
	f.accept(`{"do":"person.add","name":"extra"}`)
	if reply := s.ask(t, `{"do":"notices"}`); strings.Count(reply, `"person":"extra"`) != 60 {
		t.Errorf("notices are %.300s", reply)
	}
}

// snapshots waits until there were so many snapshots.
func (f *front) snapshots(count int) {
	f.t.Helper()
	eventually(f.t, "a snapshot is made", func() bool {
		return f.metric(`review_front_snapshots_total{outcome="kept"}`) >= float64(count)
	})
}

// TestTrimmed makes snapshot after snapshot: two of them stay, and the journals behind the first of these.
func TestTrimmed(t *testing.T) {
	path := t.TempDir()
	f := begin(t, path, "--snapshot-every", "5", "--keep", "1ms")
	for i := 0; i < 8; i++ {
		for j := 0; j < 5; j++ {
			f.accept(fmt.Sprintf(`{"do":"day.set","day":"2026-03-%02d"}`, 1+(5*i+j)%28))
		}
		f.snapshots(i + 1)
		time.Sleep(2 * time.Millisecond)
	}
	count := func(kind string) int {
		files, err := filepath.Glob(filepath.Join(path, kind+"-*"))
		if err != nil {
			t.Fatal(err)
		}
		return len(files)
	}
	eventually(t, "the old snapshots go", func() bool { return count("snapshot") == 2 })
	eventually(t, "the old journals go", func() bool { return count("journal") <= 3 })
	dump := f.must("/dump")
	f.kill()
	if f = begin(t, path); f.must("/dump") != dump {
		t.Error("the dump is another one after a start")
	}
	if _, err := os.Stat(filepath.Join(path, "keys")); !errors.Is(err, os.ErrNotExist) {
		t.Errorf("there is a file of keys, and none was used: %v", err)
	}
}
