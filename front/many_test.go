package main

import (
	"encoding/json"
	"fmt"
	"net/http"
	"strconv"
	"strings"
	"sync"
	"testing"
	"time"
)

// openers is how many connections open sessions at a time.
const openers = 16

// openMany opens so many sessions, and gives their paths.
func openMany(t *testing.T, f *front, count int) []string {
	t.Helper()
	paths := make([]string, count)
	var all sync.WaitGroup
	for opener := 0; opener < openers; opener++ {
		all.Add(1)
		go func(opener int) {
			defer all.Done()
			client := &http.Client{Transport: &http.Transport{}}
			defer client.CloseIdleConnections()
			for i := opener; i < count; i += openers {
				answer, err := client.Post(f.url("/sessions"), "", nil)
				if err != nil {
					t.Error(err)
					return
				}
				_, body := bodyOf(t, answer)
				var opened struct{ Session string }
				if err := json.Unmarshal([]byte(body), &opened); err != nil || opened.Session == "" {
					t.Errorf("session %d is %d %s", i, answer.StatusCode, body)
					return
				}
				paths[i] = "/sessions/" + opened.Session
			}
		}(opener)
	}
	all.Wait()
	if t.Failed() {
		t.FailNow()
	}
	return paths
}

// TestManySessions opens as many sessions as there may be: some mark, hear what changed since, also over a start, and
// nobody gets one more.
func TestManySessions(t *testing.T) {
	count := number("FRONT_OPENED", 3000)
	folder := t.TempDir()
	words := []string{"--sessions", strconv.Itoa(count), "--session-idle", "1h"}
	f := begin(t, folder, words...)
	f.accept(clinic(t)...)
	began := time.Now()
	paths := openMany(t, f, count)
	t.Logf("%d sessions are opened in %v", count, time.Since(began))
	if status, body := f.post("/sessions", ""); status != http.StatusServiceUnavailable {
		t.Errorf("one more is %d %s", status, body)
	}
	const markers = 50
	for i := 0; i < markers; i++ {
		if status, body := f.post(paths[i*count/markers]+"/mark", ""); status != http.StatusOK {
			t.Fatalf("a mark is %d %s", status, body)
		}
		f.accept(fmt.Sprintf(`{"do":"person.add","name":"extra-%d"}`, i))
	}
	for round := 0; round < 2; round++ {
		began = time.Now()
		for i := 0; i < markers; i++ {
			status, body := f.get(paths[i*count/markers] + "/notices")
			if status != http.StatusOK || strings.Count(body, `"person":"extra-`) != 60*(markers-i) {
				t.Fatalf("round %d: notices of %d are %d %.200s", round, i, status, body)
			}
		}
		t.Logf("a use takes %v", time.Since(began)/markers)
		if got := f.metric("review_front_sessions"); got != float64(count) {
			t.Errorf("%v sessions are counted", got)
		}
		f.kill()
		f = begin(t, folder, words...)
	}
	f.end(paths[1])
	f.session()
}
