//go:build nats

package main

import (
	"fmt"
	"io"
	"math/rand"
	"net/http"
	"path/filepath"
	"strings"
	"sync"
	"testing"
	"time"

	"github.com/nats-io/nats.go"

	"review-front/folder"
)

// TestLogWhole makes bodies whole at two fronts of one stream: all edits of one have one serial, or none is made; both
// tell the same, and their folders are read as others.
func TestLogWhole(t *testing.T) {
	servers := natsServers(t, 1)
	fronts := replicas(t, servers, 2, "--check-every", "4")
	fronts[0].accept(clinic(t)...)
	const made = 70
	want := strings.TrimSuffix(strings.Repeat(fmt.Sprintf("{\"changes\":0,\"serial\":%d}\n", made), 3), "\n")
	if got := fronts[0].send(t, http.MethodPost, "/lines?whole=1", wholeBody("a", 3)); got.status != http.StatusOK || got.body != want {
		t.Errorf("a body is answered %+v", got)
	}
	dump := fronts[0].must("/dump")
	refused := fronts[1].send(t, http.MethodPost, "/lines?whole=1", wholeBody("b", 3)+`{"do":"person.add","name":"ada"}`+"\n")
	if refused.status != http.StatusConflict || !strings.Contains(refused.body, "edit 4 of the body") {
		t.Errorf("a body with an edit that is refused is answered %+v", refused)
	}
	putWhole(t, servers, wholeBody("c", 2)+`{"do":"table"}`)
	if fronts[1].must("/dump") != dump {
		t.Error("a body that is refused changed something")
	}
	for i, body := range []string{wholeBody("d", 3), wholeBody("e", 3) + `{"do":"person.drop","name":"nobody"}` + "\n"} {
		key := fmt.Sprint("key ", i)
		first := fronts[0].send(t, http.MethodPost, "/lines?whole=1", body, "Idempotency-Key", key)
		again := fronts[1].send(t, http.MethodPost, "/lines?whole=1", body, "Idempotency-Key", key)
		if i == 0 && (first.status != http.StatusOK || again != first) || i == 1 && (first.status != http.StatusNotFound ||
			again.status != http.StatusConflict && again.status != http.StatusNotFound) {
			t.Errorf("a body with a key is answered %+v, and then %+v", first, again)
		}
	}
	for serial, status := range map[string]int{"1": http.StatusPreconditionFailed, fronts[0].serial("/counts", nil): http.StatusOK} {
		if got := fronts[0].send(t, http.MethodPost, "/lines?whole=1", wholeBody("f", 2), "If-Match", serial); got.status != status {
			t.Errorf("behind serial %s a body is answered %+v", serial, got)
		}
	}
	newFate().same(t, fronts)
	fronts[1].kill()
	wholeFolder(t, fronts[1].folder, made, dump)
	fronts[1] = replica(t, fronts[1].folder, logOf(servers))
	fronts[1].await()
	newFate().same(t, fronts)
}

// putWhole puts into the stream what is no body that is made whole.
func putWhole(t *testing.T, servers []*natsServer, lines string) {
	t.Helper()
	_, jet := connected(t, servers)
	message := nats.NewMsg("edits.edits")
	message.Data = []byte(lines)
	message.Header.Set("Review-Whole", "1")
	if _, err := jet.PublishMsg(message); err != nil {
		t.Fatal(err)
	}
}

// wholeFolder sees that a folder is sound in which several edits have one serial, at which there was a dump: a copy up to
// it has all of them, and they are taken back by as many lines.
func wholeFolder(t *testing.T, path string, serial int, dump string) {
	t.Helper()
	out := filepath.Join(t.TempDir(), "out")
	if status, said, faults := saying("restore", "--journal", path, "--to", fmt.Sprint(serial), out); status != 0 {
		t.Fatalf("restore ends with %d: %s%s", status, said, faults)
	}
	if status, said, _ := saying("verify", "--journal", out); status != 0 || !strings.Contains(said, fmt.Sprint("up to ", serial)) {
		t.Errorf("verify ends with %d: %s", status, said)
	}
	w := newTwin(t)
	for _, entry := range entriesOf(t, out) {
		w.ask(string(entry.Line))
	}
	if told := w.ask(`{"do":"dump"}`); told != dump {
		t.Errorf("the copy has the dump %.300s", told)
	}
	status, back, faults := saying("undo", "--journal", path, fmt.Sprint(serial))
	if status != 0 || strings.Count(back, "\n") != 3 || !strings.Contains(strings.Split(back, "\n")[0], `"n2"`) {
		t.Errorf("undo ends with %d: %s%s", status, back, faults)
	}
}

// entriesOf are all edits of a folder.
func entriesOf(t testing.TB, path string) (all []folder.Entry) {
	t.Helper()
	err := folder.History(path, 0, func(e folder.Entry) error {
		e.Line = append([]byte(nil), e.Line...)
		all = append(all, e)
		return nil
	})
	if err != nil {
		t.Fatal(err)
	}
	return all
}

// wholeAt sends bodies to a front until it is stopped, each of so many edits of an entity of its own.
func (f *fate) wholeAt(t testing.TB, at *front, first string, count int, stop <-chan struct{}) {
	for number := 0; ; number++ {
		select {
		case <-stop:
			return
		default:
		}
		entity := fmt.Sprint(first, "-", number)
		answer, err := http.Post(at.url("/lines?whole=1"), "", strings.NewReader(wholeBody(entity, count)))
		if err != nil {
			f.note(t, entity, 0, "")
			continue
		}
		body, err := io.ReadAll(answer.Body)
		answer.Body.Close()
		if err != nil {
			answer.StatusCode = 0
		}
		told, _, _ := strings.Cut(string(body), "\n")
		f.note(t, entity, answer.StatusCode, told)
	}
}

// wholeIn sees that of each body all edits are in a folder, with one serial, or none, and what was told of it.
func (f *fate) wholeIn(t testing.TB, path string, count int) {
	t.Helper()
	found, serials := map[string]int{}, map[string]uint64{}
	for _, entry := range entriesOf(t, path) {
		_, name, _ := strings.Cut(string(entry.Line), `"entity":"`)
		if name, _, _ = strings.Cut(name, `"`); !strings.HasPrefix(name, "body-") {
			continue
		}
		if found[name]++; found[name] > 1 && serials[name] != entry.Serial {
			t.Errorf("%s has edits at %d and %d", name, serials[name], entry.Serial)
		}
		serials[name] = entry.Serial
	}
	for name, edits := range found {
		if edits != count || f.never[name] {
			t.Errorf("of %s there are %d edits; none is to be made: %v", name, edits, f.never[name])
		}
	}
	for name, serial := range f.told {
		if serials[name] != serial {
			t.Errorf("%s was acknowledged as %d, and is %d", name, serial, serials[name])
		}
	}
}

// TestLogWholeKilled has clients make bodies whole at three fronts, and others edit, while a front and the program of
// another one are killed: of each body all edits are made everywhere, or none.
func TestLogWholeKilled(t *testing.T) {
	servers := natsServers(t, 1)
	fronts := replicas(t, servers, 3, "--snapshot-every", "300", "--check-every", "50")
	fates, bodies, editors := newFate(), newFate(), 0
	const count = 10
	for round := 0; round < number("FRONT_STOPS", 4); round++ {
		stop := make(chan struct{})
		var all sync.WaitGroup
		for i, f := range fronts {
			all.Add(1)
			go func(i int, f *front) {
				defer all.Done()
				bodies.wholeAt(t, f, fmt.Sprintf("body-%d-%d", round, i), count, stop)
			}(i, f)
		}
		fates.during(t, fronts, 1, &editors, func() {
			before := bodies.acknowledged()
			eventually(t, "a body is acknowledged", func() bool { return bodies.acknowledged() > before })
			time.Sleep(time.Duration(rand.Intn(500)) * time.Millisecond)
			fronts[1].killProgram()
			fronts[2].kill()
			time.Sleep(200 * time.Millisecond)
		})
		close(stop)
		all.Wait()
		fronts[2] = replica(t, fronts[2].folder, logOf(servers), "--snapshot-every", "300", "--check-every", "50")
		fronts[2].await()
		fates.same(t, fronts)
		for _, f := range fronts {
			bodies.wholeIn(t, f.folder, count)
		}
	}
	t.Logf("%d bodies were acknowledged, of %d it was said that they aren't made, %d may be",
		len(bodies.told), len(bodies.never), len(bodies.maybe))
}
