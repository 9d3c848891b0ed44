package main

import (
	"fmt"
	"math/rand"
	"net/http"
	"path/filepath"
	"strings"
	"sync"
	"testing"
	"time"
)

// mixed is a body of edits of which some are refused: each fourth adds somebody, and the line behind it does so again.
func mixed(round, count int) (lines []string) {
	for i := 0; i < count; i++ {
		switch i % 4 {
		case 0, 1:
			lines = append(lines, fmt.Sprintf(`{"do":"person.add","name":"p-%d-%d"}`, round, i-i%4))
		case 2:
			lines = append(lines, uniqueEdit(100_000+round, i))
		default:
			lines = append(lines, fmt.Sprintf(`{"do":"person.drop","name":"p-%d-%d"}`, round, i-i%4))
		}
	}
	return lines
}

// mixedReplies sees that each reply to such a body is that to its own line: an edit that was accepted stands at its
// serial.
func (f *front) mixedReplies(t testing.TB, lines []string, told string) {
	t.Helper()
	replies := strings.Split(told, "\n")
	if len(replies) != len(lines) {
		t.Fatalf("%d lines are answered %s", len(lines), told)
	}
	made := historyOf(t, f.folder)
	for i, reply := range replies {
		serial, ok := accepted(reply)
		switch {
		case i%4 == 1:
			if reply != `{"refused":8}` {
				t.Fatalf("line %d, %s, is answered %s", i, lines[i], reply)
			}
		case !ok || string(made[serial].Line) != lines[i]:
			t.Fatalf("line %d, %s, is answered %s, and edit %d is %s", i, lines[i], reply, serial, made[serial].Line)
		}
	}
}

// sendKeyed sends a body with a key to a front that may end meanwhile.
func (f *front) sendKeyed(key string, lines []string) {
	ask, err := http.NewRequest(http.MethodPost, f.url("/lines"), strings.NewReader(strings.Join(lines, "\n")+"\n"))
	if err != nil {
		return
	}
	ask.Header.Set("Idempotency-Key", key)
	if answer, err := http.DefaultClient.Do(ask); err == nil {
		answer.Body.Close()
	}
}

// insist sends a body with a key until each line is answered, and gives what is answered.
func (f *front) insist(t *testing.T, key string, lines []string) (told string) {
	t.Helper()
	eventually(t, "each line of a body has its reply", func() bool {
		told = f.withKey(t, key, strings.Join(lines, "\n")+"\n")
		return !strings.Contains(told, `"status":50`)
	})
	return told
}

// keyedOver sends a body with a key, of which some lines are refused, to the first of two fronts, has something end
// midway in that and begin anew, and sends the body to the second twice, and to the first again: each line has its own
// reply, the same everywhere.
func keyedOver(t *testing.T, fronts []*front, round int, ends, begins func()) {
	t.Helper()
	lines, key := mixed(round, 64), fmt.Sprint("key ", round)
	var sent sync.WaitGroup
	sent.Add(1)
	go func(f *front) {
		defer sent.Done()
		f.sendKeyed(key, lines)
	}(fronts[0])
	time.Sleep(time.Duration(rand.Intn(150)) * time.Millisecond)
	ends()
	first := fronts[1].insist(t, key, lines)
	fronts[1].mixedReplies(t, lines, first)
	if again := fronts[1].insist(t, key, lines); again != first {
		t.Fatalf("round %d: the body is answered\n%s\nat first, and\n%s\nagain", round, first, again)
	}
	sent.Wait()
	begins()
	if again := fronts[0].insist(t, key, lines); again != first {
		t.Fatalf("round %d: the body is answered\n%s\nby one front, and\n%s\nby the other", round, first, again)
	}
	fronts[0], fronts[1] = fronts[1], fronts[0]
}

// TestLogKeyedKilled kills a front, or its program, midway in a body with a key.
func TestLogKeyedKilled(t *testing.T) {
	servers := natsServers(t, 1)
	fronts := replicas(t, servers, 2, "--snapshot-every", "300")
	for round := 0; round < number("FRONT_KEYED", 4); round++ {
		ends, begins := fronts[0].killProgram, func() {}
		if round%3 != 2 {
			ends, begins = fronts[0].kill, func() {
				fronts[0] = replica(t, fronts[0].folder, logOf(servers), "--snapshot-every", "300")
				fronts[0].await()
			}
		}
		keyedOver(t, fronts, round, ends, begins)
	}
	newFate().same(t, fronts)
}

// TestLogKeyedServers kills each of three servers in turn midway in a body with a key.
func TestLogKeyedServers(t *testing.T) {
	servers := natsServers(t, 3)
	fronts := replicas(t, servers, 2)
	for round := 0; round < 3*number("FRONT_SERVERS", 1); round++ {
		server := servers[round%len(servers)]
		keyedOver(t, fronts, round, server.kill, server.start)
	}
	newFate().same(t, fronts)
}

// TestLogKeyedRefused sends a body with a refused line to one front, and to another, and to one that begins by the
// snapshot of the first when the stream has no more what was before it: all answer alike. So does one that is made
// whole, and isn't.
func TestLogKeyedRefused(t *testing.T) {
	servers := natsServers(t, 1)
	fronts := replicas(t, servers, 2, "--snapshot-every", "20")
	add := func(name string) string { return fmt.Sprintf(`{"do":"person.add","name":%q}`, name) }
	bodies := map[string]string{
		"/lines":         add("a") + "\n" + add("a") + "\n" + add("b") + "\n",
		"/lines?whole=1": add("c") + "\n" + add("c") + "\n",
	}
	first := map[string]answer{}
	for path, body := range bodies {
		first[path] = fronts[0].send(t, http.MethodPost, path, body, "Idempotency-Key", path)
	}
	got := first["/lines"].body
	if strings.Count(got, `{"changes":0,"serial":`) != 2 || !strings.Contains(got, "\n{\"refused\":8}\n") {
		t.Fatalf("a body is answered %s", got)
	}
	whole := first["/lines?whole=1"]
	if whole.status != http.StatusConflict || !strings.Contains(whole.body, "edit 2 of the body") {
		t.Fatalf("a whole body is answered %+v", whole)
	}
	same := func(f *front) {
		t.Helper()
		for path, body := range bodies {
			if got := f.send(t, http.MethodPost, path, body, "Idempotency-Key", path); got != first[path] {
				t.Errorf("it is answered %+v at first, and then %+v", first[path], got)
			}
		}
	}
	same(fronts[1])
	fronts[0].accept(numbered(0, 60)...)
	fronts[0].snapshots(1)
	if said := servers[0].ask("$JS.API.STREAM.PURGE.edits", `{"seq":20}`); !strings.Contains(said, `"success":true`) {
		t.Fatal(said)
	}
	late := replica(t, t.TempDir(), logOf(servers), "--snapshot-from", fronts[0].url(""))
	late.await()
	if files, _ := filepath.Glob(filepath.Join(late.folder, "journal-00000000000000000001")); len(files) > 0 {
		t.Fatal("the front has all edits")
	}
	same(late)
	fronts[1].kill()
	fronts[1] = replica(t, fronts[1].folder, logOf(servers))
	fronts[1].await()
	same(fronts[1])
	newFate().same(t, append(fronts, late))
}

// TestLogKeyedOther sends two bodies with one key, to two fronts, behind each other and at once: one of them is made,
// and the other, of which nothing is, gets 422 everywhere.
func TestLogKeyedOther(t *testing.T) {
	fronts := replicas(t, natsServers(t, 1), 2)
	for round := 0; round < 20; round++ {
		key, told := fmt.Sprint("key ", round), make([]answer, 2)
		send := func(i int) {
			body := uniqueEdit(2*round+i, 0) + "\n" + uniqueEdit(2*round+i, 1) + "\n"
			told[i] = fronts[i].send(t, http.MethodPost, "/lines", body, "Idempotency-Key", key)
		}
		var both sync.WaitGroup
		for i := range fronts {
			both.Add(1)
			go func(i int) {
				defer both.Done()
				send(i)
			}(i)
			if round%2 == 0 {
				both.Wait()
			}
		}
		both.Wait()
		made := 0
		if told[1].status == http.StatusOK {
			made = 1
		}
		for i := 0; i < 2; i++ {
			send(i) // to be told the same again
			want := map[bool]int{true: http.StatusOK, false: http.StatusUnprocessableEntity}[i == made]
			if told[i].status != want {
				t.Errorf("round %d: body %d is answered %+v, where body %d is made", round, i, told[i], made)
			}
		}
		eventually(t, "one of two bodies is made", func() bool { return len(historyOf(t, fronts[0].folder)) == 2*(round+1) })
	}
	newFate().same(t, fronts)
}
