package main

import (
	"fmt"
	"math/rand"
	"net/http"
	"path/filepath"
	"strings"
	"sync"
	"testing"
	"time"

	"review-front/folder"
)

// keyed sends lines with a key, and gives the status and the replies.
func (f *front) keyed(key string, lines ...string) (int, string) {
	f.t.Helper()
	return f.sentBy(http.Header{"Idempotency-Key": {key}}, "/lines", strings.Join(lines, "\n"))
}

// edits are those of the journal of a folder.
func edits(t testing.TB, path string) (all []folder.Entry) {
	t.Helper()
	if err := folder.History(path, 0, func(e folder.Entry) error {
		e.Line = append([]byte(nil), e.Line...)
		all = append(all, e)
		return nil
	}); err != nil {
		t.Fatal(err)
	}
	return all
}

// TestKeyed sends bodies of edits again: each is answered as at first, also where it was refused then, over kills and
// starts from a snapshot, when the same lines would be answered otherwise.
func TestKeyed(t *testing.T) {
	path := t.TempDir()
	f := begin(t, path)
	add, drop := `{"do":"person.add","name":"ann"}`, `{"do":"person.drop","name":"ann"}`
	sent := map[string][]string{"one": {add}, `"two"`: {drop, drop, add}, "three": {`{"do":"person.add","name":""}`}}
	want := map[string]string{
		"one":   `{"changes":0,"serial":1}`,
		`"two"`: `{"changes":0,"serial":2}` + "\n" + `{"refused":7}` + "\n" + `{"changes":0,"serial":3}`,
		"three": `{"refused":11}`,
	}
	for _, key := range []string{"one", `"two"`, "three"} {
		if status, said := f.keyed(key, sent[key]...); status != http.StatusOK || said != want[key] {
			t.Fatalf("%s is answered %d %s", key, status, said)
		}
	}
	f.accept(drop)
	for round := 0; round < 4; round++ {
		for key, lines := range sent {
			if status, said := f.keyed(key, lines...); status != http.StatusOK || said != want[key] {
				t.Fatalf("round %d: %s is answered %d %s", round, key, status, said)
			}
		}
		if round%2 == 0 {
			f.kill()
		} else if status := f.stop(); status != 0 {
			t.Fatalf("the front ends with %d", status)
		}
		f = begin(t, path)
	}
	if files, err := filepath.Glob(filepath.Join(path, "snapshot-*")); err != nil || len(files) == 0 {
		t.Errorf("there is no snapshot")
	}
	if all := edits(t, path); len(all) != 4 {
		t.Errorf("%d edits were made", len(all))
	}
}

// TestKeyRefused sends what a key can't stand over: nothing of it is sent on.
func TestKeyRefused(t *testing.T) {
	path := t.TempDir()
	f := begin(t, path)
	const add = `{"do":"person.add","name":"ann"}`
	many := make([]string, 65)
	for i := range many {
		many[i] = add
	}
	for _, one := range []struct {
		status int
		keys   []string
		lines  []string
	}{
		{400, []string{""}, []string{add}},
		{400, []string{"a", "b"}, []string{add}},
		{400, []string{strings.Repeat("k", 256)}, []string{add}},
		{400, []string{"a"}, []string{add, `{"do":"table"}`}},
		{400, []string{"a"}, []string{add, `{"do":"mark"}`}},
		{400, []string{"a"}, []string{add, ""}},
		{400, []string{"a"}, nil},
		{400, []string{"a"}, many},
		{413, []string{"a"}, []string{add + strings.Repeat(" ", 1<<20)}},
	} {
		status, said := f.sentBy(http.Header{"Idempotency-Key": one.keys}, "/lines", strings.Join(one.lines, "\n")+"\n")
		if len(one.lines) == 0 {
			status, said = f.sentBy(http.Header{"Idempotency-Key": one.keys}, "/lines", "")
		}
		if status != one.status {
			t.Errorf("%.80q with %.80q is answered %d %s", one.lines, one.keys, status, said)
		}
	}
	if status, said := f.keyed("a", add); status != http.StatusOK || said != `{"changes":0,"serial":1}` {
		t.Errorf("the first edit is answered %d %s", status, said)
	}
	if status, said := f.keyed("a", add+" "); status != http.StatusUnprocessableEntity {
		t.Errorf("another body is answered %d %s", status, said)
	}
	if all := edits(t, path); len(all) != 1 {
		t.Errorf("%d edits were made", len(all))
	}
}

// TestKeyAtOnce sends a body with a key from many clients at once: the edit is made once, and each has its reply.
func TestKeyAtOnce(t *testing.T) {
	path := t.TempDir()
	f := begin(t, path)
	var all sync.WaitGroup
	for i := 0; i < 16; i++ {
		all.Add(1)
		go func() {
			defer all.Done()
			status, said := f.keyed("a", `{"do":"day.set","day":"2026-03-01"}`)
			if status != 200 || said != `{"changes":0,"serial":1}` {
				t.Errorf("the edit is answered %d %s", status, said)
			}
		}()
	}
	all.Wait()
	if all := edits(t, path); len(all) != 1 {
		t.Errorf("%d edits were made", len(all))
	}
}

// TestKeyUnanswered kills the program under a body of two edits: it is answered 503, and sent again it is made once.
func TestKeyUnanswered(t *testing.T) {
	f := begin(t, t.TempDir())
	f.halt()
	first := make(chan int)
	lines := []string{`{"do":"person.add","name":"ann"}`, `{"do":"person.add","name":"ben"}`}
	go func() {
		status, said := f.keyed("a", lines...)
		if strings.Contains(said, `"changes"`) || strings.Count(said, "\n") != 0 {
			t.Errorf("the lines are answered %d %s", status, said)
		}
		first <- status
	}()
	time.Sleep(300 * time.Millisecond)
	f.killProgram()
	if status := <-first; status != http.StatusServiceUnavailable {
		t.Errorf("the body is answered %d", status)
	}
	for round := 0; round < 2; round++ {
		status, said := f.keyed("a", lines...)
		if status != 200 || said != "{\"changes\":0,\"serial\":1}\n{\"changes\":0,\"serial\":2}" {
			t.Errorf("the body is answered %d %s", status, said)
		}
	}
}

// insisting sends bodies with keys of its own, each until it is answered, over ends of the front, and gives how many.
func insisting(t testing.TB, address func() string, client int, stop <-chan struct{}) int {
	for count := 0; ; count++ {
		var lines []string
		for i := 0; i < 1+count%3; i++ {
			lines = append(lines, insisted(client, count, i))
		}
		for done := false; !done; {
			done = answered(address(), fmt.Sprintf("%d-%d", client, count), lines)
			select {
			case <-stop:
				if !done {
					return count
				}
			default:
			}
		}
		select {
		case <-stop:
			return count + 1
		default:
		}
	}
}

// insisted is an edit that no other is like.
func insisted(client, count, i int) string {
	return fmt.Sprintf(`{"do":"attr.set","category":"Resource","entity":"rota","attribute":"note-%d","type":"integer",`+
		`"values":[%d]}`, client, 100*count+i)
}

// answered sends a body, and says whether each line has a reply of the program.
func answered(address, key string, lines []string) bool {
	body := strings.NewReader(strings.Join(lines, "\n"))
	request, err := http.NewRequest(http.MethodPost, "http://"+address+"/lines", body)
	if err != nil {
		return false
	}
	request.Header.Set("Idempotency-Key", key)
	answer, err := http.DefaultClient.Do(request)
	if err != nil {
		time.Sleep(5 * time.Millisecond)
		return false
	}
	defer answer.Body.Close()
	said := make([]byte, 4096)
	read := 0
	for err == nil {
		var n int
		n, err = answer.Body.Read(said[read:])
		read += n
	}
	return strings.Count(string(said[:read]), `{"changes":`) == len(lines)
}

// TestKeysKilled kills the front and the program while clients send bodies with keys until they are answered: each edit
// was made once, in the order of its body.
func TestKeysKilled(t *testing.T) {
	path := t.TempDir()
	words := []string{"--snapshot-every", "300"}
	var mutex sync.Mutex
	f := begin(t, path, words...)
	address := func() string {
		mutex.Lock()
		defer mutex.Unlock()
		return f.address
	}
	stop := make(chan struct{})
	counts := make([]int, 8)
	var all sync.WaitGroup
	for client := range counts {
		all.Add(1)
		go func(client int) {
			defer all.Done()
			counts[client] = insisting(t, address, client, stop)
		}(client)
	}
	random := rand.New(rand.NewSource(3))
	for round := 0; round < number("FRONT_KILLS", 8); round++ {
		time.Sleep(time.Duration(random.Intn(150)) * time.Millisecond)
		if round%4 == 3 {
			before := len(f.programs())
			f.killProgram()
			f.another(before)
			continue
		}
		f.kill()
		next := begin(t, path, words...)
		mutex.Lock()
		f = next
		mutex.Unlock()
	}
	close(stop)
	all.Wait()
	made := map[string]int{}
	for at, e := range edits(t, path) {
		if before, there := made[string(e.Line)]; there {
			t.Fatalf("edits %d and %d are both %s", before, at, e.Line)
		}
		made[string(e.Line)] = at
	}
	for client, count := range counts {
		if count == 0 {
			t.Errorf("client %d had no reply", client)
		}
		last := -1
		for body := 0; body < count; body++ {
			for i := 0; i < 1+body%3; i++ {
				at, there := made[insisted(client, body, i)]
				if !there || at < last {
					t.Fatalf("the edit %s is %d behind %d, %v", insisted(client, body, i), at, last, there)
				}
				last = at
			}
		}
	}
	t.Logf("%d edits were made, of the bodies %v", len(made), counts)
}
