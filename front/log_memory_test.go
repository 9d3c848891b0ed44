package main

import (
	"fmt"
	"net/http"
	"os"
	"path/filepath"
	"regexp"
	"strings"
	"testing"

	"review-front/folder"
)

// TestLogMemory has the program of one of two fronts be short of memory now and then: no edit is refused for that,
// and it comes to the same state.
func TestLogMemory(t *testing.T) {
	servers := natsServers(t, 1)
	file := filepath.Join(t.TempDir(), "scarce")
	t.Setenv(scarce, file)
	fronts := []*front{
		replica(t, t.TempDir(), logOf(servers)),
		replica(t, t.TempDir(), logOf(servers), "--program", faked(t, "short"), "--keep-history", "-1s"),
	}
	for _, f := range fronts {
		f.await()
	}
	fates, editors := newFate(), 0
	fates.during(t, fronts, 2, &editors, func() {
		for i, want := range []int{http.StatusGatewayTimeout, http.StatusOK, http.StatusGatewayTimeout, http.StatusOK} {
			before := len(fronts[1].programs())
			if err := os.WriteFile(file, nil, 0o600); err != nil {
				t.Error(err)
			}
			body := fmt.Sprintf(`{"category":"Resource","entity":"scarce","attribute":"n","type":"integer","values":[%d]}`, i)
			if status, told := fronts[1-i%2].post("/commands/attr.set", body); status != want {
				t.Errorf("an edit is answered %d %s, and not %d", status, told, want)
			}
			fronts[1].another(before)
			fronts[1].await()
			eventually(t, "the edit is applied", func() bool {
				_, body := fronts[1].get("/attributes?category=Resource&entity=scarce")
				return strings.Contains(body, fmt.Sprintf(`"values":[%d]`, i))
			})
		}
	})
	if lacks := strings.Count(fronts[1].log(), "no memory"); lacks < 4 {
		t.Errorf("%d times the program had no memory", lacks)
	}
	fates.same(t, fronts)
}

// limited is a program that may have so many KiB of memory.
func limited(t *testing.T, kibibytes int) string {
	t.Helper()
	path := filepath.Join(t.TempDir(), "review")
	script := fmt.Sprintf("#!/bin/sh\nulimit -v %d\nexec '%s' \"$@\"\n", kibibytes, theProgram(t))
	if err := os.WriteFile(path, []byte(script), 0o700); err != nil {
		t.Fatal(err)
	}
	return path
}

// TestLogLimited has a front whose program may have less memory than the state needs: it stops answering and refuses
// no edit, the other serves on, and with more memory it comes to the same state.
func TestLogLimited(t *testing.T) {
	if os.Getenv("FRONT_ALL") == "" {
		t.Skip("it takes long, and is run with all")
	}
	servers := natsServers(t, 1)
	fronts := []*front{
		replica(t, t.TempDir(), logOf(servers)),
		replica(t, t.TempDir(), logOf(servers), "--program", limited(t, 12_000), "--patience", "300ms"),
	}
	for _, f := range fronts {
		f.await()
	}
	long := strings.Repeat("x", 1<<17)
	short := func() bool { return strings.Contains(fronts[1].log(), "no memory") }
	for i := 0; i < 400 && !short(); i++ {
		fronts[i%2].large(t, i, long)
	}
	if !short() {
		t.Fatalf("the program has enough memory:\n%s", fronts[1].log())
	}
	for i := 400; i < 403; i++ {
		if status := fronts[0].large(t, i, long); status != http.StatusOK {
			t.Errorf("the other front answers %d", status)
		}
		fronts[1].large(t, -i, long)
	}
	fronts[1].kill()
	fronts[1] = replica(t, fronts[1].folder, logOf(servers))
	fronts[1].await()
	newFate().same(t, fronts)
}

// large sends an edit that takes memory. It is accepted, or isn't answered by the program at all.
func (f *front) large(t *testing.T, number int, text string) int {
	t.Helper()
	status, body := f.post("/commands/attr.set",
		fmt.Sprintf(`{"category":"Resource","entity":"large-%d","attribute":"n","type":"string","values":[%q]}`, number, text))
	if status != http.StatusOK && status != http.StatusServiceUnavailable && status != http.StatusGatewayTimeout {
		t.Errorf("an edit is answered %d %.200s", status, body)
	}
	return status
}

// TestLogAstray has the program of one of two fronts go astray: it stops when they compare their states, and tells
// why; of its edits another program has the right state.
func TestLogAstray(t *testing.T) {
	servers := natsServers(t, 1)
	file := filepath.Join(t.TempDir(), "astray")
	t.Setenv(scarce, file)
	fronts := []*front{
		replica(t, t.TempDir(), logOf(servers), "--check-every", "10"),
		replica(t, t.TempDir(), logOf(servers), "--check-every", "10", "--program", faked(t, "astray"), "--keep-history", "-1s"),
	}
	for _, f := range fronts {
		f.await()
	}
	fronts[0].accept(numbered(0, 25)...)
	if err := os.WriteFile(file, nil, 0o600); err != nil {
		t.Fatal(err)
	}
	fronts[1].accept(`{"do":"attr.set","category":"Resource","entity":"astray","attribute":"n","type":"integer","values":[1]}`)
	fronts[0].accept(numbered(25, 10)...)
	if status := fronts[1].status(); status != 1 || !strings.Contains(fronts[1].log(), "isn't that which the edits") {
		t.Fatalf("a front that is wrong ends with %d:\n%s", status, fronts[1].log())
	}
	eventually(t, "the other one tells it", func() bool { return strings.Contains(fronts[0].log(), "another front is wrong") })
	if strings.Contains(fronts[0].log(), `"sequence":20`) {
		t.Errorf("states are told to differ before they do:\n%s", fronts[0].log())
	}
	fronts[1] = replica(t, fronts[1].folder, logOf(servers), "--check-every", "10")
	fronts[1].await()
	fronts[1].accept(numbered(35, 20)...)
	newFate().same(t, fronts)
	for _, f := range fronts {
		if strings.Count(f.log(), "another front has another state") > 1 {
			t.Errorf("a front that is right is told to be wrong:\n%s", f.log())
		}
	}
}

// TestLogStray begins a front with a folder in which one edit isn't that of the stream: it stops when the fronts compare
// their states, and says at which sequence.
func TestLogStray(t *testing.T) {
	servers := natsServers(t, 1)
	fronts := replicas(t, servers, 2, "--check-every", "10")
	fronts[0].accept(numbered(0, 15)...)
	eventually(t, "both have the edits", func() bool { return fronts[1].serial("/counts", nil) == "15" })
	fronts[1].stop()
	fronts[1] = replica(t, strayed(t, fronts[1].folder, 7), logOf(servers), "--check-every", "10")
	fronts[1].await()
	fronts[0].accept(numbered(15, 10)...)
	if status := fronts[1].status(); status != 1 || !strings.Contains(fronts[1].log(), "sequence 7: the folder has another") {
		t.Fatalf("a front with another edit ends with %d:\n%s", status, fronts[1].log())
	}
	fronts[1] = replica(t, t.TempDir(), logOf(servers), "--check-every", "10")
	fronts[1].await()
	newFate().same(t, fronts)
}

// strayed is a folder with the edits of another one, of which one is changed.
func strayed(t *testing.T, path string, serial uint64) string {
	t.Helper()
	names, err := filepath.Glob(filepath.Join(path, "journal-*"))
	if err != nil || len(names) == 0 {
		t.Fatal("there is no journal", err)
	}
	content, err := os.ReadFile(names[0])
	if err != nil {
		t.Fatal(err)
	}
	stream := regexp.MustCompile(`"stream":"([^"]*)"`).FindSubmatch(content)
	to, err := folder.Open(t.TempDir())
	if err != nil {
		t.Fatal(err)
	}
	defer to.Close()
	err = to.Begin(folder.Head{Program: "a test", AttributeModules: 2, PolicyModules: 2, Stream: string(stream[1])})
	for at := uint64(1); err == nil && at <= 15; at++ {
		entry := historyOf(t, path)[at]
		if at == serial {
			entry.Line = []byte(uniqueEdit(1, 0))
		}
		err = to.Append([]folder.Entry{entry})
	}
	if err != nil {
		t.Fatal(err)
	}
	return filepath.Dir(to.Path("journals"))
}
