package main

import (
	"fmt"
	"path/filepath"
	"strings"
	"testing"
)

// numbered is edits each of which is another.
func numbered(from, count int) []string {
	var edits []string
	for i := from; i < from+count; i++ {
		edits = append(edits, uniqueEdit(0, i))
	}
	return edits
}

// TestLogJoins begins a front by the snapshot of another, when the stream has no more what was before it; also one
// that was away since before.
func TestLogJoins(t *testing.T) {
	servers := natsServers(t, 1)
	fronts := replicas(t, servers, 2, "--snapshot-every", "100")
	fronts[0].accept(clinic(t)...)
	fronts[0].accept(numbered(0, 20)...)
	eventually(t, "both have the edits", func() bool { return fronts[1].serial("/counts", nil) == "89" })
	fronts[1].kill()
	for i := 0; i < 10; i++ {
		fronts[0].accept(numbered(20+30*i, 30)...)
	}
	fronts[0].snapshots(1)
	newest, err := filepath.Glob(filepath.Join(fronts[0].folder, "snapshot-*[0-9]"))
	if err != nil || len(newest) == 0 {
		t.Fatal("there is no snapshot", err)
	}
	serial := strings.TrimLeft(strings.TrimPrefix(filepath.Base(newest[len(newest)-1]), "snapshot-"), "0")
	said := servers[0].ask("$JS.API.STREAM.PURGE.edits", fmt.Sprintf(`{"seq":%s}`, serial))
	if !strings.Contains(said, `"success":true`) {
		t.Fatal(said)
	}
	alone := replica(t, t.TempDir(), logOf(servers))
	if status := alone.status(); status != 1 || !strings.Contains(alone.log(), "--snapshot-from") {
		t.Fatalf("a front that lacks edits ends with %d:\n%s", status, alone.log())
	}
	from := []string{"--snapshot-from", "http://127.0.0.1:1", "--snapshot-from", fronts[0].url("")}
	fronts[1] = replica(t, fronts[1].folder, logOf(servers), from...)
	fronts = append(fronts, replica(t, t.TempDir(), logOf(servers), from...))
	fronts[1].await()
	fronts[2].await()
	fates, editors := newFate(), 0
	fates.editAt(t, fronts, 1, &editors, soon())
	fates.same(t, fronts)
	if aside, _ := filepath.Glob(filepath.Join(fronts[1].folder, "before-*", "journal-*")); len(aside) == 0 {
		t.Error("what a front had before isn't there")
	}
	fronts[2].stop()
	fronts[2] = replica(t, fronts[2].folder, logOf(servers))
	fronts[2].await()
	fates.same(t, fronts)
}

// TestLogStrange puts what is no edit of a front into the stream: each front passes over it, and serials go on.
func TestLogStrange(t *testing.T) {
	servers := natsServers(t, 1)
	fronts := replicas(t, servers, 2)
	fronts[0].accept(clinic(t)...)
	for _, content := range []string{"", "{", `{"do":"mark","session":3}`, `{"do":"person.add","name":"x"}` + "\n" + `{"do":"dump"}`,
		strings.Repeat(" ", 1<<20+1), `{"do":"person.add","name":"outside"}`} {
		if said := servers[0].ask("edits.edits", content); !strings.Contains(said, `"seq":`) {
			t.Fatal(said)
		}
	}
	fronts[1].accept(`{"do":"person.add","name":"inside"}`)
	for _, f := range fronts {
		eventually(t, "serials go on", func() bool { return f.serial("/counts", nil) == "76" })
	}
	newFate().same(t, fronts)
	if entry := historyOf(t, fronts[0].folder)[75]; !strings.Contains(string(entry.Line), "outside") {
		t.Errorf("edit 75 is %s", entry.Line)
	}
}
