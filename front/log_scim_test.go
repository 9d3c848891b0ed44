package main

import (
	"fmt"
	"math/rand"
	"net/http"
	"path/filepath"
	"strings"
	"sync"
	"testing"
)

// TestLogScim provisions by both fronts of one stream, kills one of them again and again, and begins a third with the
// snapshot of another: all tell the same, which is what models have, and each edit of a front that died is made by
// another.
func TestLogScim(t *testing.T) {
	servers := natsServers(t, 1)
	words := []string{"--scim", scimFile(t, scimMapping), "--snapshot-every", "150"}
	fronts := replicas(t, servers, 2, words...)
	var mutex sync.Mutex
	at := func(i int) func() *front {
		return func() *front {
			mutex.Lock()
			defer mutex.Unlock()
			return fronts[i]
		}
	}
	var models []*scimModel
	for client := 0; client < 2; client++ {
		models = append(models, &scimModel{
			t: t, client: client, random: rand.New(rand.NewSource(int64(client + 60))), front: at(client),
			users: map[string]scimUser{}, groups: map[string]scimGroup{}, counts: map[int]int{},
		})
	}
	steps := number("FRONT_SCIM_LOG", 150)
	for phase := 0; phase < 2; phase++ {
		var all sync.WaitGroup
		for _, m := range models {
			all.Add(1)
			go func(m *scimModel) {
				defer all.Done()
				for i := 0; i < steps && !t.Failed(); i++ {
					m.step()
				}
			}(m)
		}
		if phase == 1 {
			fronts[1].kill()
			other := replica(t, fronts[1].folder, logOf(servers), words...)
			other.await()
			mutex.Lock()
			fronts[1] = other
			mutex.Unlock()
		}
		all.Wait()
	}
	// What a front that dies had no time to do the other does.
	last := models[1].anyUser("")
	last.name, last.active = "last", "true"
	got := fronts[1].scim(t, "POST", "/Users", last.body())
	if got.status != http.StatusCreated {
		t.Fatal(got.text)
	}
	last.id, _ = got.body["id"].(string)
	models[1].users[last.id] = last
	fronts[1].kill()
	fronts[1] = replica(t, fronts[1].folder, logOf(servers), words...)
	fronts[1].await()
	fronts[0].stop()
	fronts[0] = replica(t, fronts[0].folder, logOf(servers), words...)
	fronts[0].await()
	newest, err := filepath.Glob(filepath.Join(fronts[0].folder, "snapshot-*[0-9]"))
	if err != nil || len(newest) == 0 {
		t.Fatal("there is no snapshot", err)
	}
	serial := strings.TrimLeft(strings.TrimPrefix(filepath.Base(newest[len(newest)-1]), "snapshot-"), "0")
	if said := servers[0].ask("$JS.API.STREAM.PURGE.edits", fmt.Sprintf(`{"seq":%s}`, serial)); !strings.Contains(said,
		`"success":true`) {
		t.Fatal(said)
	}
	third := replica(t, t.TempDir(), logOf(servers), append(words, "--snapshot-from", fronts[0].url(""))...)
	third.await()
	for i, f := range append(fronts, third) {
		eventually(t, "a front has all", func() bool {
			got := f.scim(t, "GET", "/Users?count=0", "")
			return got.body["totalResults"] == float64(len(models[0].users)+len(models[1].users))
		})
		sameAll(t, f, models)
		if t.Failed() {
			t.Fatalf("front %d tells otherwise", i)
		}
	}
}
