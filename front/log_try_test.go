package main

import (
	"fmt"
	"net/http"
	"strings"
	"sync"
	"testing"
)

// TestLogTried edits by a line that takes very long at one of two fronts: it isn't appended, and edits behind it are made.
func TestLogTried(t *testing.T) {
	servers := natsServers(t, 1)
	fronts := []*front{
		replica(t, t.TempDir(), logOf(servers), "--try-time", "1s", "--patience", "1m", "--program", faked(t, "busy")),
		replica(t, t.TempDir(), logOf(servers)),
	}
	for _, f := range fronts {
		f.await()
	}
	fronts[1].accept(clinic(t)...)
	got := fronts[0].send(t, http.MethodPost, "/lines", noting("busy", 1)+"\n"+noting("rota", 2)+"\n")
	if replies := strings.Split(got.body, "\n"); len(replies) != 2 || !strings.Contains(replies[0], `"status":422`) ||
		!strings.HasPrefix(replies[1], `{"changes":`) {
		t.Errorf("it is answered %+v", got)
	}
	for _, query := range []string{"/lines?whole=1", "/commands/attr.set"} {
		if got := fronts[0].send(t, http.MethodPost, query, noting("busy", 1)); got.status != http.StatusUnprocessableEntity {
			t.Errorf("by %s it is answered %+v", query, got)
		}
	}
	body := wholeBody("a", 2) + `{"do":"person.add","name":"ada"}` + "\n"
	if got := fronts[0].send(t, http.MethodPost, "/lines?whole=1", body); got.status != http.StatusConflict {
		t.Errorf("a body with an edit that is refused is answered %+v", got)
	}
	if got := fronts[0].send(t, http.MethodPost, "/lines?whole=1", wholeBody("a", 2)); got.status != http.StatusOK {
		t.Errorf("a whole body is answered %+v", got)
	}
	newFate().same(t, fronts)
	if last := fronts[1].serial("/counts", nil); last != "71" || strings.Contains(fronts[1].must("/dump"), "busy") {
		t.Errorf("the stream has %s edits, and the dump is %s", last, fronts[1].must("/dump"))
	}
	if len(fronts[0].programs()) != 1 {
		t.Errorf("there were the programs %v", fronts[0].programs())
	}
}

// TestLogTriedBoth edits at two fronts that try edits: where none is refused in the order of the stream the spare programs
// stay, and else others are made; both fronts come to the same.
func TestLogTriedBoth(t *testing.T) {
	fronts := replicas(t, natsServers(t, 1), 2, "--try-time", "1m", "--patience", "1m")
	fates, editors := newFate(), 0
	fates.during(t, fronts, 3, &editors, func() {
		eventually(t, "edits are made", func() bool { return fates.acknowledged() > 300 })
	})
	fates.same(t, fronts)
	for i, f := range fronts {
		f.accept(fmt.Sprintf(`{"do":"person.add","name":"of-%d"}`, i), uniqueEdit(2_000+i, 1))
		f.accept(uniqueEdit(2_000+i, 2))
	}
	for _, f := range fronts {
		if len(f.spares()) != 1 {
			t.Errorf("there were the spare programs %v", f.spares())
		}
	}
	counting(t, fronts, 20)
	var both sync.WaitGroup
	for i, f := range fronts {
		both.Add(1)
		go func(i int, f *front) {
			defer both.Done()
			for number := 0; number < 40; number++ {
				do := []string{"person.add", "person.drop"}[(i+number)%2]
				_, _ = f.post("/lines", fmt.Sprintf(`{"do":%q,"name":"somebody"}`, do)+"\n"+wholeBody(fmt.Sprint("body-", i), 2))
			}
		}(i, f)
	}
	both.Wait()
	newFate().same(t, fronts)
	for i, f := range fronts {
		f.accept(uniqueEdit(1_000+i, 1))
	}
	newFate().same(t, fronts)
	t.Logf("there were %d and %d spare programs", len(fronts[0].spares()), len(fronts[1].spares()))
}
