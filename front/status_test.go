package main

import (
	"net/http"
	"strings"
	"testing"
	"time"
)

// TestNoneAccepted sends a mark for which there is no session and an edit behind it: the status is 503, so the edit
// isn't made, whether the body comes whole or as it is written.
func TestNoneAccepted(t *testing.T) {
	f := begin(t, t.TempDir(), "--sessions", "1")
	f.session()
	const edit = `{"do":"person.add","name":"ann"}`
	status, body := f.post("/lines", "{\"do\":\"mark\"}\n"+edit+"\n"+edit)
	if status != http.StatusServiceUnavailable || strings.Contains(body, `"changes"`) {
		t.Errorf("the lines are answered %d %s", status, body)
	}
	s := f.connect("/lines")
	for _, l := range []string{`{"do":"mark"}`, edit} {
		_ = s.send(l) // the answer may end before the second is read
	}
	reply, err := s.receive()
	if err != nil || s.answer.StatusCode != http.StatusServiceUnavailable || !strings.Contains(reply, `"status":503`) {
		t.Errorf("the first line is answered %d %s, %v", s.answer.StatusCode, reply, err)
	}
	if reply, err := s.receive(); err == nil {
		t.Errorf("another line is answered %s", reply)
	}
	if reply := f.lines(edit)[0]; reply != `{"changes":0,"serial":1}` {
		t.Errorf("the edit is answered %s: it was made before", reply)
	}
}

// TestSecondLine kills the program when it has the first line of a body alone, a long one. If the second was accepted
// by the next program the status is 200, and lines that come later are answered; else it is 503, and neither was.
func TestSecondLine(t *testing.T) {
	f := begin(t, t.TempDir())
	f.halt()
	s := f.connect("/lines")
	long := `{"do":"person.add","name":"ann"}`
	go func() {
		_ = s.send(long + strings.Repeat(" ", 1<<20-len(long)))
		_ = s.send(`{"do":"person.add","name":"ben"}`)
	}()
	// The front has the first line by then, on a busy machine too.
	time.Sleep(2 * time.Second)
	f.killProgram()
	first, err := s.receive()
	if err != nil || !strings.Contains(first, `"status":503`) {
		t.Fatalf("the first line is answered %s, %v", first, err)
	}
	second, err := s.receive()
	_, made := accepted(second)
	if made != (s.answer.StatusCode == http.StatusOK) {
		t.Fatalf("the status is %d, and the second line is answered %s, %v", s.answer.StatusCode, second, err)
	}
	if made {
		if reply := s.ask(t, `{"do":"person.add","name":"cal"}`); reply != `{"changes":0,"serial":2}` {
			t.Errorf("the third line is answered %s", reply)
		}
	} else if reply := f.lines(long)[0]; reply != `{"changes":0,"serial":1}` {
		t.Errorf("the edit is answered %s: one was made before", reply)
	}
}
