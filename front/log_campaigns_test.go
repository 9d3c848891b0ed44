package main

import (
	"fmt"
	"math/rand"
	"net/http"
	"os"
	"path/filepath"
	"strings"
	"sync"
	"testing"
)

// TestLogCampaigns has somebody sign at both fronts of one stream while others edit at both, kills one of them, and
// begins a third with the snapshot of another: all take the same acts, and tell the same sign-offs, which are those of
// a model.
func TestLogCampaigns(t *testing.T) {
	servers := natsServers(t, 1)
	file := reviewing(t)
	fronts := replicas(t, servers, 2, "--access", file)
	fronts[0].as(t, "boss", http.MethodPost, "/lines", strings.Join(clinic(t), "\n")+"\n")
	random := rand.New(rand.NewSource(int64(number("FRONT_SEED", 4))))
	s := &signsFor{random: random, made: map[uint64]string{}, counts: map[int]int{}, held: map[string]groupsOf{}}
	for i, name := range []string{"c0", "c1"} {
		more := ""
		if i == 1 {
			more = `,"on":"decision","after":"c0"`
		}
		if got := fronts[i].as(t, "boss", http.MethodPost, "/campaigns", opening(name, "rita", more)); got.status != 200 {
			t.Fatal(got)
		}
	}
	edits, acts := number("FRONT_CAMPAIGN_EDITS", 60), number("FRONT_CAMPAIGN_ACTS", 60)
	var all sync.WaitGroup
	for at := range fronts {
		all.Add(1)
		go func(f *front, editor *rand.Rand) {
			defer all.Done()
			for i := 0; i < edits/2; i++ {
				f.tries("editor", http.MethodPost, "/lines", changingEdit(editor))
			}
		}(fronts[at], rand.New(rand.NewSource(int64(at))))
	}
	for i := 0; i < acts; i++ {
		if i == acts/2 {
			fronts[1].kill()
			fronts[1] = replica(t, fronts[1].folder, logOf(servers), "--access", file)
			fronts[1].await()
		}
		s.act(fronts[i%2], []string{"c0", "c1"})
	}
	all.Wait()
	fronts = append(fronts, joined(t, servers, fronts, file, s))
	for i := 0; i < acts/2; i++ {
		s.act(fronts[i%3], []string{"c0", "c1"})
		fronts[i%3].tries("editor", http.MethodPost, "/lines", changingEdit(random))
	}
	eventually(t, "all have all", func() bool {
		var chains [3]string
		for i, f := range fronts {
			chains[i] = chainIn(f.as(t, "auditor", http.MethodGet, "/head", "").body)
		}
		return chains[0] != "" && chains[0] == chains[1] && chains[1] == chains[2]
	})
	fronts[2].stop()
	fronts[2] = replica(t, fronts[2].folder, logOf(servers), "--access", file)
	fronts[2].await()
	for i, f := range fronts {
		m := newReviewed(t)
		m.follow(fronts[i%2].folder) // the third has no journal of before
		m.same(f)
		for serial, begins := range s.made {
			if !strings.HasPrefix(m.records[serial], begins) {
				t.Errorf("serial %d was answered as %s, and is %q", serial, begins, m.records[serial])
			}
		}
		t.Logf("%d edits, %d acts: %v", m.own, len(m.records), s.counts)
	}
	if s.counts[http.StatusOK] == 0 {
		t.Errorf("acts were answered %v", s.counts)
	}
}

// chainIn is the value of the chain in a head.
func chainIn(head string) string {
	_, chain, _ := strings.Cut(head, `"chain":"`)
	chain, _, _ = strings.Cut(chain, `"`)
	return fmt.Sprint(chain)
}

// joined is a front that begins with the snapshot of others, which the stream has no more what is before.
func joined(t *testing.T, servers []*natsServer, fronts []*front, access string, s *signsFor) *front {
	t.Helper()
	eventually(t, "both have all", func() bool {
		one, other := fronts[0].as(t, "auditor", http.MethodGet, "/head", ""), fronts[1].as(t, "auditor",
			http.MethodGet, "/head", "")
		return one.status == 200 && chainIn(one.body) == chainIn(other.body)
	})
	fronts[0].stop()
	fronts[0] = replica(t, fronts[0].folder, logOf(servers), "--access", access)
	fronts[0].await()
	newest, err := filepath.Glob(filepath.Join(fronts[0].folder, "snapshot-*[0-9]"))
	if err != nil || len(newest) == 0 {
		t.Fatal("there is no snapshot", err)
	}
	for i := 0; i < 10; i++ { // these are behind the snapshot, and known already when the third begins
		s.act(fronts[i%2], []string{"c0", "c1"})
		fronts[0].tries("editor", http.MethodPost, "/lines", changingEdit(s.random))
	}
	serial := strings.TrimLeft(strings.TrimPrefix(filepath.Base(newest[len(newest)-1]), "snapshot-"), "0")
	if said := servers[0].ask("$JS.API.STREAM.PURGE.edits", fmt.Sprintf(`{"seq":%s}`,
		serial)); !strings.Contains(said, `"success":true`) {
		t.Fatal(said)
	}
	token := filepath.Join(t.TempDir(), "token")
	if err := os.WriteFile(token, []byte(tokenOf("boss")), 0o600); err != nil {
		t.Fatal(err)
	}
	f := replica(t, t.TempDir(), logOf(servers), "--access", access, "--snapshot-from", fronts[0].url(""),
		"--snapshot-token", token)
	f.await()
	return f
}
