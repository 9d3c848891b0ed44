package main

import (
	"fmt"
	"net/http"
	"strings"
	"syscall"
	"testing"
	"time"
)

// halt stops the program that is served where it is, as if it hung, until what it gives is called.
func (f *front) halt() (goOn func()) {
	f.t.Helper()
	ids := f.programs()
	id := ids[len(ids)-1]
	if err := syscall.Kill(id, syscall.SIGSTOP); err != nil {
		f.t.Fatal(err)
	}
	// Whatever becomes of the front, it doesn't stay.
	f.t.Cleanup(func() { _ = syscall.Kill(id, syscall.SIGKILL) })
	return func() { _ = syscall.Kill(id, syscall.SIGCONT) }
}

const tooLong = `review_front_restarts_total{why="a line took too long"}`

// TestHung stops the program: lines that it had get 503, it is told that the front isn't ready, and another program
// takes its place with the same state and marks, also where nobody asks.
func TestHung(t *testing.T) {
	f := begin(t, t.TempDir(), "--reply-time", "2s")
	f.accept(clinic(t)...)
	s := f.connect("/lines")
	s.ask(t, `{"do":"mark"}`)
	f.accept(`{"do":"person.add","name":"extra"}`)
	table := f.must("/table")
	for round, lines := range [][]string{{`{"do":"person.add","name":"more"}`, `{"do":"table"}`, `{"do":"counts"}`}, nil} {
		f.halt()
		replies := make(chan string, len(lines))
		for _, l := range lines {
			go func(l string) {
				answer, err := http.Post(f.url("/lines"), "", strings.NewReader(l))
				if err != nil {
					replies <- err.Error()
					return
				}
				status, body := bodyOf(t, answer)
				replies <- fmt.Sprint(status, body)
			}(l)
			time.Sleep(50 * time.Millisecond)
		}
		eventually(t, "the front isn't ready", func() bool { status, _ := f.get("/readyz"); return status == 503 })
		for range lines {
			if reply := <-replies; !strings.HasPrefix(reply, "503") {
				t.Errorf("round %d: a line is answered %s", round, reply)
			}
		}
		eventually(t, "the front is ready", func() bool { status, _ := f.get("/readyz"); return status == 200 })
		if f.must("/table") != table {
			t.Errorf("round %d: the table is another one", round)
		}
		if got := f.metric(tooLong); got < float64(round+1) {
			t.Errorf("round %d: %v are counted", round, got)
		}
		if reply := s.ask(t, `{"do":"notices"}`); strings.Count(reply, `"person":"extra"`) != 60 {
			t.Errorf("round %d: notices are %.300s", round, reply)
		}
	}
}

// TestHungBehind stops the program over a question: an edit behind it wasn't sent yet, and the next program makes it.
func TestHungBehind(t *testing.T) {
	f := begin(t, t.TempDir(), "--reply-time", "2s")
	f.halt()
	replies := make(chan string, 2)
	for _, l := range []string{`{"do":"can","person":"eve"}`, `{"do":"person.add","name":"more"}`} {
		go func(l string) {
			answer, err := http.Post(f.url("/lines"), "", strings.NewReader(l))
			if err != nil {
				replies <- err.Error()
				return
			}
			_, body := bodyOf(t, answer)
			replies <- body
		}(l)
		time.Sleep(200 * time.Millisecond)
	}
	const made = `{"changes":0,"serial":1}`
	asked, edited := <-replies, <-replies
	if edited != made {
		asked, edited = edited, asked
	}
	if !strings.Contains(asked, "ask again") || edited != made {
		t.Errorf("a question and an edit behind it are answered %s and %s", asked, edited)
	}
}

// TestLoad has a program that works for a while on each edit, and holds replies back while there are lines behind: over
// none of its lines it hangs, though all together take longer than one may.
func TestLoad(t *testing.T) {
	theProgram(t)
	f := begin(t, t.TempDir(), "--reply-time", "1s", "--program", faked(t, "load"))
	lines := []string{`{"do":"can","person":"eve"}`, `{"do":"mark"}`}
	for i := 0; i < 60; i++ {
		lines = append(lines, fmt.Sprintf(`{"do":"person.add","name":"load-%d"}`, i))
	}
	lines = append(lines, `{"do":"counts"}`)
	for i, reply := range f.lines(lines...) {
		if _, made := accepted(reply); made != strings.Contains(lines[i], "load") || strings.Contains(reply, "status") {
			t.Errorf("%s is answered %s", lines[i], reply)
		}
	}
	if got := f.metric(tooLong); got != 0 {
		t.Errorf("%v programs were ended", got)
	}
}

// TestLoadHung has such a program work without end on a question behind an edit, whose reply it holds back: the question
// is ended in its time, and the edit stands.
func TestLoadHung(t *testing.T) {
	theProgram(t)
	f := begin(t, t.TempDir(), "--reply-time", "1s", "--program", faked(t, "load"))
	replies := f.lines(`{"do":"person.add","name":"load"}`, `{"do":"can","person":"endless"}`,
		`{"do":"person.add","name":"more"}`)
	if replies[0] != `{"changes":0,"serial":1}` || !strings.Contains(replies[1], "ask again") ||
		replies[2] != `{"changes":0,"serial":2}` {
		t.Errorf("the lines are answered %q", replies)
	}
}

// TestHalted stops the program, also where nobody asks, and lets it go on: meanwhile the front says that it isn't ready, and
// then the same program serves on. Where it was ended first it is given more time.
func TestHalted(t *testing.T) {
	for replyTime := 2 * time.Second; replyTime < patient/4; replyTime *= 2 {
		f := begin(t, t.TempDir(), "--reply-time", replyTime.String())
		f.accept(`{"do":"person.add","name":"extra"}`)
		goOn := f.halt()
		eventually(t, "the front isn't ready", func() bool { status, _ := f.get("/readyz"); return status == 503 })
		goOn()
		eventually(t, "the front is ready", func() bool { status, _ := f.get("/readyz"); return status == 200 })
		ended := len(f.programs()) > 1
		f.kill()
		if !ended {
			return
		}
	}
	t.Error("the front is ready until the program is ended")
}

// TestBusy lets the program work for long on an edit, which is waited for, and on a question, which isn't.
func TestBusy(t *testing.T) {
	theProgram(t)
	f := begin(t, t.TempDir(), "--reply-time", "2s", "--program", faked(t, "busy"))
	f.accept(`{"do":"person.add","name":"busy"}`)
	if status, body := f.get("/can/busy"); status != http.StatusServiceUnavailable {
		t.Errorf("a question that takes long is answered %d %s", status, body)
	}
	eventually(t, "another program", func() bool { return f.metric(tooLong) > 0 && f.metric("review_front_ready") == 1 })
	if dump := f.must("/dump"); !strings.Contains(dump, "busy") {
		t.Errorf("the edit isn't there: %s", dump)
	}
}

// TestHungEnds ends the front while the program hangs, with lines that wait for it and without: it ends in its time.
func TestHungEnds(t *testing.T) {
	for _, l := range []string{"", `{"do":"person.add","name":"more"}`} {
		f := begin(t, t.TempDir(), "--lame", "100ms", "--drain", "2s")
		f.accept(`{"do":"person.add","name":"extra"}`)
		f.halt()
		for i := 0; i < 10 && l != ""; i++ {
			s := f.connect("/lines")
			go func() {
				for s.send(l) == nil {
				}
			}()
		}
		time.Sleep(100 * time.Millisecond)
		// Behind its time and some grace it would end with another status.
		if status := f.stop(); status != 0 {
			t.Errorf("the front ends with %d:\n%s", status, f.log())
		}
	}
}
