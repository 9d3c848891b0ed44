package main

import (
	"encoding/json"
	"fmt"
	"math/rand"
	"net/http"
	"strings"
	"testing"

	"review-front/folder"
)

// headed is as much of a head as is compared.
type headed struct {
	Serial uint64
	Chain  string
}

// chainHead is the head of a front's journal.
func (f *front) chainHead() (h headed) {
	f.t.Helper()
	if err := json.Unmarshal([]byte(f.must("/head")), &h); err != nil {
		f.t.Fatal(err)
	}
	return h
}

// TestLogPast edits at two fronts of one stream, also by bodies that are made whole and by edits that are refused, and
// kills one: both tell the same edits with what they changed, which is what the tables have, and have the same chain.
func TestLogPast(t *testing.T) {
	servers := natsServers(t, 1)
	fronts := replicas(t, servers, 2)
	fronts[0].accept(clinic(t)...)
	random := rand.New(rand.NewSource(9))
	for i := 0; i < 60; i++ {
		fronts[i%2].lines(randomEdit(random, i%16))
		if i%20 == 10 {
			body := strings.Join([]string{
				fmt.Sprintf(`{"do":"person.add","name":"whole-%d"}`, i),
				fmt.Sprintf(`{"do":"day.set","day":"2026-02-%02d"}`, i/2+1),
			}, "\n") + "\n"
			if got := fronts[i%2].send(t, http.MethodPost, "/lines?whole=1", body); got.status != http.StatusOK {
				t.Fatalf("a body is answered %+v", got)
			}
		}
		if i == 30 {
			fronts[1].kill()
			fronts[1] = replica(t, fronts[1].folder, logOf(servers))
			fronts[1].await()
		}
	}
	eventually(t, "both have all", func() bool { return fronts[0].chainHead() == fronts[1].chainHead() })
	var told [2]string
	for i, f := range fronts {
		eventually(t, "it is known what edits changed", func() bool {
			told[i] = f.must("/edits?count=1000")
			return strings.HasSuffix(told[i], `,"unknown":[]}`)
		})
	}
	if told[0] != told[1] {
		t.Errorf("two fronts tell\n%.3000s\nand\n%.3000s", told[0], told[1])
	}
	var page struct{ Edits []toldEdit }
	if err := json.Unmarshal([]byte(told[0]), &page); err != nil {
		t.Fatal(err)
	}
	w, tables := newTwin(t), newTables(t)
	tables.add(0, w.ask(`{"do":"table"}`))
	made := uint64(0)
	err := folder.History(fronts[1].folder, 0, func(e folder.Entry) error {
		w.ask(string(e.Line))
		one := page.Edits[made]
		made++
		tables.add(made, w.ask(`{"do":"table"}`))
		changed, err := json.Marshal(append([]json.RawMessage{}, one.Changed...))
		if got := fmt.Sprintf(`{"notices":%s}`, changed); err != nil || one.Serial != e.Serial ||
			string(one.Line) != string(e.Line) || got != tables.between(made-1, made) {
			return fmt.Errorf("edit %d, %s, is told as %d, %s: %.500s", e.Serial, e.Line, one.Serial, one.Line, got)
		}
		return nil
	})
	if err != nil || made != uint64(len(page.Edits)) {
		t.Errorf("%d edits of %d: %v", made, len(page.Edits), err)
	}
}
