package main

import (
	"fmt"
	"math/rand"
	"net/http"
	"os"
	"os/exec"
	"path/filepath"
	"strings"
	"sync"
	"testing"
	"time"

	"review-front/folder"
)

// wholeBody is edits of an entity, as many as there are numbers below one.
func wholeBody(entity string, count int) string {
	var lines []string
	for i := 0; i < count; i++ {
		lines = append(lines, strings.Replace(noting(entity, i), `"attribute":"n"`, fmt.Sprintf(`"attribute":"n%d"`, i), 1))
	}
	return strings.Join(lines, "\n") + "\n"
}

// TestWhole makes bodies whole, with a spare program that stays and without one: all of their edits or none.
func TestWhole(t *testing.T) {
	for _, more := range [][]string{nil, {"--try-time", "1m"}} {
		path := t.TempDir()
		f := begin(t, path, more...)
		f.accept(clinic(t)...)
		serial := uint64(f.metric("review_front_serial"))
		if got := f.send(t, http.MethodPost, "/lines?whole=1", wholeBody("a", 3)); got.status != http.StatusOK || got.body !=
			fmt.Sprintf("{\"changes\":0,\"serial\":%d}\n{\"changes\":0,\"serial\":%d}\n{\"changes\":0,\"serial\":%d}", serial+1, serial+2, serial+3) {
			t.Errorf("a body is answered %+v", got)
		}
		dump := f.must("/dump")
		got := f.send(t, http.MethodPost, "/lines?whole=1", wholeBody("b", 3)+`{"do":"person.add","name":"ada"}`+"\n")
		if got.status != http.StatusConflict || !strings.Contains(got.body, `edit 4 of the body`) || !strings.Contains(got.body, `"refused":8`) {
			t.Errorf("a body with an edit that is refused is answered %+v", got)
		}
		for _, bad := range []string{"", `{"do":"table"}`, noting("b", 1) + "\n" + `{"do":"mark"}`} {
			if got := f.send(t, http.MethodPost, "/lines?whole=1", bad); got.status != http.StatusBadRequest {
				t.Errorf("a body of %s is answered %+v", bad, got)
			}
		}
		for _, query := range []string{"whole=true", "whole=1&dry=1", "all=1", "whole=1&whole=1"} {
			if got := f.send(t, http.MethodPost, "/lines?"+query, noting("b", 1)); got.status != http.StatusBadRequest {
				t.Errorf("a query of %s is answered %+v", query, got)
			}
		}
		if f.must("/dump") != dump {
			t.Error("a body that is refused changed something")
		}
		first := f.send(t, http.MethodPost, "/lines?whole=1", wholeBody("c", 4), "Idempotency-Key", "one")
		again := f.send(t, http.MethodPost, "/lines?whole=1", wholeBody("c", 4), "Idempotency-Key", "one")
		if first.status != http.StatusOK || again.body != first.body {
			t.Errorf("a body with a key is answered %+v, and then %+v", first, again)
		}
		f.accept(noting("d", 1))
		dump = f.must("/dump")
		f.kill()
		if f = begin(t, path); f.must("/dump") != dump {
			t.Error("the dump is another one")
		}
		w := newTwin(t)
		w.follow(path, map[uint64]folder.Entry{})
		w.same(f)
	}
}

// TestWholeKilled kills the front and its program while clients make bodies whole: of each body all edits are in the
// journal or none, and all of one that was acknowledged.
func TestWholeKilled(t *testing.T) {
	path := t.TempDir()
	random := rand.New(rand.NewSource(5))
	const count = 20
	known := map[string]bool{}
	var mutex sync.Mutex
	rounds := number("FRONT_KILLS", 6)
	acknowledged := func() int {
		mutex.Lock()
		defer mutex.Unlock()
		return len(known)
	}
	for round := 0; round < rounds; round++ {
		more := []string{"--snapshot-every", "200"}
		if round%3 != 0 {
			more = append(more, "--try-time", "1m")
		}
		f := begin(t, path, more...)
		stop := make(chan struct{})
		var all sync.WaitGroup
		for client := 0; client < 4; client++ {
			all.Add(1)
			go func(client int) {
				defer all.Done()
				for i := 0; ; i++ {
					select {
					case <-stop:
						return
					default:
					}
					entity := fmt.Sprintf("body-%d-%d-%d", round, client, i)
					answer, err := http.Post(f.url("/lines?whole=1"), "", strings.NewReader(wholeBody(entity, count)))
					if err != nil {
						return
					}
					status := answer.StatusCode
					answer.Body.Close()
					if status == http.StatusOK {
						mutex.Lock()
						known[entity] = true
						mutex.Unlock()
					} else if status != http.StatusServiceUnavailable && status != http.StatusUnprocessableEntity {
						t.Errorf("a body is answered %d", status)
						return
					}
				}
			}(client)
		}
		before := acknowledged()
		eventually(t, "a body is acknowledged", func() bool { return acknowledged() > before })
		time.Sleep(time.Duration(random.Intn(500)) * time.Millisecond)
		if round%2 == 1 {
			f.killProgram()
			time.Sleep(time.Duration(random.Intn(300)) * time.Millisecond)
		}
		f.kill()
		close(stop)
		all.Wait()
	}
	f := begin(t, path)
	journalled, w := map[uint64]folder.Entry{}, newTwin(t)
	w.follow(path, journalled)
	w.same(f)
	found := map[string]int{}
	for _, entry := range journalled {
		_, name, _ := strings.Cut(string(entry.Line), `"entity":"`)
		name, _, _ = strings.Cut(name, `"`)
		found[name]++
	}
	for name, edits := range found {
		if edits != count {
			t.Errorf("of %s there are %d edits", name, edits)
		}
	}
	for name := range known {
		if found[name] != count {
			t.Errorf("%s was acknowledged, and %d edits of it are there", name, found[name])
		}
	}
	t.Logf("%d bodies, of which %d were acknowledged", len(found), len(known))
}

// TestDry asks what lines would change: it is what `review compare` tells, and nothing changes.
func TestDry(t *testing.T) {
	f := begin(t, t.TempDir(), "--snapshot-every", "30")
	f.accept(clinic(t)...)
	state, moved := filepath.Join("..", "examples", "clinic", "clinic.jsonl"), filepath.Join("..", "examples", "clinic", "moved.jsonl")
	// It ends with status 1, since something differs.
	want, _ := exec.Command(theProgram(t), "compare", state, moved).Output()
	changes, err := os.ReadFile(moved)
	if err != nil || len(want) == 0 {
		t.Fatalf("the comparison is %s, %v", want, err)
	}
	dump, serial := f.must("/dump"), uint64(f.metric("review_front_serial"))
	if got := f.send(t, http.MethodPost, "/lines?dry=1", string(changes)); got.status != http.StatusOK || got.serial != serial ||
		got.body != strings.TrimSuffix(string(want), "\n") {
		t.Errorf("it is answered %.300s of %d, and not %.300s", got.body, got.serial, want)
	}
	got := f.send(t, http.MethodPost, "/lines?dry=1", noting("x", 1)+"\n"+`{"do":"person.add","name":"ada"}`+"\n")
	if got.status != http.StatusConflict || !strings.Contains(got.body, "line 2: ") || !strings.Contains(got.body, `"refused":8`) {
		t.Errorf("with a line that is refused it is answered %+v", got)
	}
	if got := f.send(t, http.MethodPost, "/lines?dry=true", noting("x", 1)); got.status != http.StatusBadRequest {
		t.Errorf("another query is answered %+v", got)
	}
	if f.must("/dump") != dump || uint64(f.metric("review_front_serial")) != serial {
		t.Error("something changed")
	}
}

// TestDryTime asks what lines would change that takes too long, and that of other modules.
func TestDryTime(t *testing.T) {
	f := begin(t, t.TempDir(), "--dry-time", "1ms")
	f.accept(clinic(t)...)
	if got := f.send(t, http.MethodPost, "/lines?dry=1", noting("x", 1)); got.status != http.StatusUnprocessableEntity {
		t.Errorf("in a millisecond it is answered %+v", got)
	}
	f = begin(t, t.TempDir(), "--policy-modules", "3")
	if got := f.send(t, http.MethodPost, "/lines?dry=1", noting("x", 1)); got.status != http.StatusNotImplemented {
		t.Errorf("with three modules it is answered %+v", got)
	}
}

// TestDryFirst sees that the system is told to end the program that compares before any other for want of memory.
func TestDryFirst(t *testing.T) {
	program := filepath.Join(t.TempDir(), "review")
	script := fmt.Sprintf(`#!/bin/sh
[ "$1" = compare ] || exec '%s' "$@"
for i in $(seq 1000); do
	[ "$(cat /proc/$$/oom_score_adj)" = 1000 ] && break
	sleep 0.01
done
cat <&3 >/dev/null
cat /proc/$$/oom_score_adj
`, theProgram(t))
	if err := os.WriteFile(program, []byte(script), 0o700); err != nil {
		t.Fatal(err)
	}
	f := begin(t, t.TempDir(), "--program", program)
	f.accept(clinic(t)...)
	got := f.send(t, http.MethodPost, "/lines?dry=1", noting("x", 1))
	if got.status != http.StatusOK || got.body != "1000" {
		t.Errorf("it is answered %+v", got)
	}
}
