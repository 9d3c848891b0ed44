package main

import (
	"encoding/json"
	"fmt"
	"io"
	"math/rand"
	"net/http"
	"strings"
	"sync"
	"testing"
	"time"

	"review-front/folder"
)

// fate is what became of edits each of which is sent once and is another than all others.
type fate struct {
	mutex sync.Mutex
	told  map[string]uint64 // those that were acknowledged, with their serials
	never map[string]bool   // those of which it was said that they aren't made
	maybe map[string]bool   // those of which nobody said anything, or that they may be applied
}

func newFate() *fate {
	return &fate{told: map[string]uint64{}, never: map[string]bool{}, maybe: map[string]bool{}}
}

// note notes the answer to an edit.
func (f *fate) note(t testing.TB, l string, status int, body string) {
	f.mutex.Lock()
	defer f.mutex.Unlock()
	serial, ok := accepted(body)
	switch {
	case status == http.StatusOK && ok:
		f.told[l] = serial
	case status == http.StatusServiceUnavailable:
		f.never[l] = true
	case status == http.StatusGatewayTimeout || status == 0:
		f.maybe[l] = true
	default:
		t.Errorf("%s is answered %d %s", l, status, body)
	}
}

// acknowledged is how many were.
func (f *fate) acknowledged() int {
	f.mutex.Lock()
	defer f.mutex.Unlock()
	return len(f.told)
}

// uniqueEdit is an edit that no other editor makes, nor this one again.
func uniqueEdit(editor, number int) string {
	return fmt.Sprintf(`{"category":"Resource","entity":"rota","attribute":"e-%d","type":"integer","values":[%d],"do":"attr.set"}`,
		editor, number)
}

// edit sends an edit once, and notes what is answered.
func (f *fate) edit(t testing.TB, at *front, l string) {
	answer, err := http.Post(at.url("/lines"), "", strings.NewReader(l+"\n"))
	if err != nil {
		f.note(t, l, 0, "")
		return
	}
	defer answer.Body.Close()
	body, err := io.ReadAll(answer.Body)
	if err != nil {
		f.note(t, l, 0, "")
		return
	}
	status := answer.StatusCode
	var told struct{ Status int }
	if json.Unmarshal(body, &told) == nil && told.Status != 0 {
		status = told.Status
	}
	f.note(t, l, status, strings.TrimSuffix(string(body), "\n"))
}

// editAt has so many editors edit at each front until they are stopped, and waits for them.
func (f *fate) editAt(t testing.TB, fronts []*front, each int, first *int, stop <-chan struct{}) {
	var all sync.WaitGroup
	for i := 0; i < len(fronts)*each; i++ {
		*first++
		all.Add(1)
		go func(at *front, editor int) {
			defer all.Done()
			for number := 0; ; number++ {
				select {
				case <-stop:
					return
				default:
					f.edit(t, at, uniqueEdit(editor, number))
				}
			}
		}(fronts[i%len(fronts)], *first)
	}
	all.Wait()
}

// same sees that all fronts come to the same state, byte by byte, and have the same edits, and that these are as was
// told: each that was acknowledged is there once and at its serial, and none of which it was said that it isn't.
func (f *fate) same(t testing.TB, fronts []*front) {
	t.Helper()
	// An edit of which nobody is sure may still come.
	for i, path := range []string{"/counts", "/dump", "/table"} {
		eventually(t, "all fronts tell the same "+path, func() bool {
			want, serial := fronts[0].told(path)
			for _, at := range fronts[1:] {
				if got, other := at.told(path); got != want || other != serial {
					return false
				}
			}
			return true
		})
		if i > 0 {
			continue
		}
		for _, at := range fronts {
			f.in(t, at.folder, fronts[0].folder)
		}
	}
	t.Logf("%d edits were acknowledged, of %d it was said that they aren't made, %d may be; %s sequences",
		len(f.told), len(f.never), len(f.maybe), fronts[0].serial("/counts", nil))
}

// told is what a path is answered, and of which serial.
func (f *front) told(path string) (string, string) {
	f.t.Helper()
	answer, err := http.Get(f.url(path))
	if err != nil {
		f.t.Fatal(err)
	}
	_, body := bodyOf(f.t, answer)
	return body, answer.Header.Get("Review-Serial")
}

// serial is the serial in the head of an answer.
func (f *front) serial(path string, head http.Header) string {
	f.t.Helper()
	ask, err := http.NewRequest(http.MethodGet, f.url(path), nil)
	if err != nil {
		f.t.Fatal(err)
	}
	if head != nil {
		ask.Header = head
	}
	answer, err := http.DefaultClient.Do(ask)
	if err != nil {
		f.t.Fatal(err)
	}
	_, _ = bodyOf(f.t, answer)
	return answer.Header.Get("Review-Serial")
}

// in sees that the journals of a front have the edits that were acknowledged, each once, and the same as another's.
func (f *fate) in(t testing.TB, path, other string) {
	t.Helper()
	edits, ours := map[string]uint64{}, historyOf(t, path)
	for serial, entry := range ours {
		if before, there := edits[string(entry.Line)]; there && strings.Contains(string(entry.Line), `"e-`) {
			t.Fatalf("%s is made twice, as %d and %d", entry.Line, before, serial)
		}
		edits[string(entry.Line)] = serial
	}
	for l, serial := range f.told {
		if edits[l] != serial {
			t.Fatalf("%s was acknowledged as %d, and is %d", l, serial, edits[l])
		}
	}
	for l := range f.never {
		if edits[l] != 0 {
			t.Fatalf("%s was refused with 503, and is made as %d", l, edits[l])
		}
	}
	if path == other {
		return
	}
	others := historyOf(t, other)
	for serial, entry := range ours {
		same, there := others[serial]
		if there && (string(same.Line) != string(entry.Line) || same.Changes != entry.Changes || !same.Time.Equal(entry.Time)) {
			t.Fatalf("two fronts have other edits at serial %d: %s and %s", serial, entry.Line, same.Line)
		}
	}
}

// historyOf has the edits of a folder by their serials.
func historyOf(t testing.TB, path string) map[uint64]folder.Entry {
	t.Helper()
	all := map[uint64]folder.Entry{}
	err := folder.History(path, 0, func(e folder.Entry) error {
		e.Line = append([]byte(nil), e.Line...)
		all[e.Serial] = e
		return nil
	})
	if err != nil {
		t.Fatal(err)
	}
	return all
}

// soon is closed after a second.
func soon() <-chan struct{} {
	stop := make(chan struct{})
	time.AfterFunc(time.Second, func() { close(stop) })
	return stop
}

// during runs something for a while beside editors of all fronts.
func (f *fate) during(t testing.TB, fronts []*front, each int, first *int, what func()) {
	t.Helper()
	stop, ended := make(chan struct{}), make(chan struct{})
	go func() {
		defer close(ended)
		f.editAt(t, fronts, each, first, stop)
	}()
	what()
	close(stop)
	<-ended
}

// TestLogOrder has editors at two fronts edit at once, of whom some are refused, and two count by If-Match.
func TestLogOrder(t *testing.T) {
	fronts := replicas(t, natsServers(t, 1), 2, "--snapshot-every", "200")
	fronts[0].accept(clinic(t)...)
	known := &acknowledged{edits: map[uint64]string{}}
	stop := make(chan struct{})
	var both sync.WaitGroup
	for i, f := range fronts {
		both.Add(1)
		go func(i int, f *front) {
			defer both.Done()
			crowd(t, f, i, known, stop)
		}(i, f)
	}
	time.Sleep(2 * time.Second)
	close(stop)
	both.Wait()
	for _, f := range fronts {
		eventually(t, "both know the same", func() bool {
			return f.serial("/counts", nil) == fronts[0].serial("/counts", nil)
		})
		known.in(t, historyOf(t, f.folder))
	}
	newFate().same(t, fronts)
	counting(t, fronts, 30)
	if status, body := fronts[1].post("/commands/person.add", `{"name":"ada"}`); status != http.StatusConflict {
		t.Errorf("a name that is there is answered %d %s", status, body)
	}
}

// TestLogKeyed sends a body with a key to two fronts: its edits are made once, and both answer alike, also when they
// began anew.
func TestLogKeyed(t *testing.T) {
	servers := natsServers(t, 1)
	fronts := replicas(t, servers, 2)
	body := strings.Join(numbered(0, 5), "\n") + "\n"
	first := fronts[0].withKey(t, "a key", body)
	for _, f := range fronts {
		if again := f.withKey(t, "a key", body); again != first {
			t.Errorf("it is answered %s at first and %s again", first, again)
		}
	}
	fronts[0].accept(numbered(5, 5)...)
	fronts[1].kill()
	fronts[1] = replica(t, t.TempDir(), logOf(servers))
	fronts[1].await()
	if again := fronts[1].withKey(t, "a key", body); again != first {
		t.Errorf("it is answered %s at first and %s by a front that began anew", first, again)
	}
	newFate().same(t, fronts)
}

// withKey sends a body with a key, and gives what is answered.
func (f *front) withKey(t *testing.T, key, body string) string {
	t.Helper()
	ask, err := http.NewRequest(http.MethodPost, f.url("/lines"), strings.NewReader(body))
	if err != nil {
		t.Fatal(err)
	}
	ask.Header.Set("Idempotency-Key", key)
	answer, err := http.DefaultClient.Do(ask)
	if err != nil {
		t.Fatal(err)
	}
	_, told := bodyOf(t, answer)
	return told
}

// counting has a client at each front count by If-Match, and sees that no number is lost.
func counting(t *testing.T, fronts []*front, each int) {
	t.Helper()
	var all sync.WaitGroup
	for _, f := range fronts {
		all.Add(1)
		go func(f *front) {
			defer all.Done()
			for made := 0; made < each; {
				now, serial := f.counter()
				if f.count(now+1, serial) {
					made++
				}
			}
		}(f)
	}
	all.Wait()
	for _, f := range fronts {
		eventually(t, "no number is lost", func() bool { now, _ := f.counter(); return now == each*len(fronts) })
	}
}

// counter is a number that is held, and the serial at which it was.
func (f *front) counter() (int, string) {
	answer, err := http.Get(f.url("/attributes?category=Resource&entity=count"))
	if err != nil {
		f.t.Error(err)
		return 0, ""
	}
	serial := answer.Header.Get("Review-Serial")
	_, body := bodyOf(f.t, answer)
	var read struct {
		Attributes []struct{ Values []int }
	}
	if err := json.Unmarshal([]byte(body), &read); err != nil || len(read.Attributes) == 0 {
		return 0, serial
	}
	return read.Attributes[0].Values[0], serial
}

// count sets it behind a serial, and is false where there was another edit.
func (f *front) count(to int, behind string) bool {
	body := fmt.Sprintf(`{"category":"Resource","entity":"count","attribute":"n","type":"integer","values":[%d]}`, to)
	ask, err := http.NewRequest(http.MethodPost, f.url("/commands/attr.set"), strings.NewReader(body))
	if err != nil {
		f.t.Fatal(err)
	}
	ask.Header.Set("If-Match", behind)
	answer, err := http.DefaultClient.Do(ask)
	if err != nil {
		f.t.Error(err)
		return false
	}
	status, told := bodyOf(f.t, answer)
	if status != http.StatusOK && status != http.StatusPreconditionFailed {
		f.t.Errorf("an edit behind serial %s is answered %d %s", behind, status, told)
	}
	return status == http.StatusOK
}

// TestLogCut cuts the connection of one of two fronts while both edit.
func TestLogCut(t *testing.T) {
	servers := natsServers(t, 1)
	way := cuttable(t, servers[0].address)
	fronts := []*front{
		replica(t, t.TempDir(), logOf(servers)), replica(t, t.TempDir(), "nats://"+way.listener.Addr().String()),
	}
	for _, f := range fronts {
		f.await()
	}
	fates, editors := newFate(), 0
	fates.during(t, fronts, 4, &editors, func() {
		stop := make(chan struct{})
		time.AfterFunc(5*time.Second, func() { close(stop) })
		t.Logf("the connection was cut %d times", way.cutting(time.Duration(50+rand.Intn(200))*time.Millisecond, stop))
	})
	fates.same(t, fronts)
}

// TestLogKilled kills fronts and their programs while others edit, and starts them again.
func TestLogKilled(t *testing.T) {
	servers := natsServers(t, 1)
	fronts := replicas(t, servers, 3, "--snapshot-every", "300")
	fronts[0].accept(clinic(t)...)
	fates, editors := newFate(), 0
	for round := 0; round < number("FRONT_STOPS", 4); round++ {
		fates.during(t, fronts, 3, &editors, func() {
			time.Sleep(time.Duration(rand.Intn(300)) * time.Millisecond)
			fronts[1].killProgram()
			fronts[2].kill()
			time.Sleep(200 * time.Millisecond)
		})
		fronts[2] = replica(t, fronts[2].folder, logOf(servers), "--snapshot-every", "300")
		fronts[2].await()
		fates.same(t, fronts)
	}
}
