package main

import (
	"bytes"
	"encoding/json"
	"fmt"
	"net/http"
	"os"
	"path/filepath"
	"sort"
	"strings"
	"sync"
	"testing"
	"time"
)

// written is a decision as it is written down.
type written struct {
	Time, By, Path, Traceparent string
	Serial                      uint64
	Request, Response           json.RawMessage
}

// book reads what is in a folder of decisions: all lines but one that was cut off at the end of a file.
func book(t testing.TB, folder string, most int64) []written {
	t.Helper()
	files, err := filepath.Glob(filepath.Join(folder, "*.jsonl"))
	if err != nil {
		t.Fatal(err)
	}
	var all []written
	for _, file := range files {
		content, err := os.ReadFile(file)
		if err != nil {
			t.Fatal(err)
		}
		if int64(len(content)) > most && bytes.Count(content, []byte("\n")) > 1 {
			t.Errorf("%s has %d bytes", file, len(content))
		}
		lines := bytes.Split(content, []byte("\n"))
		for _, l := range lines[:len(lines)-1] {
			var one written
			if err := json.Unmarshal(l, &one); err != nil {
				t.Fatalf("%s: %s: %v", file, l, err)
			}
			if !strings.HasPrefix(filepath.Base(file), one.Time[:len("2006-01-02")]+".") {
				t.Errorf("%s is in %s", one.Time, file)
			}
			all = append(all, one)
		}
	}
	return all
}

const parent = "00-0af7651916cd43dd8448eb211c80319c-b7ad6b7169203331-01"

// traced sends a body with a traceparent.
func (f *front) traced(path, kind, body string) (int, string) {
	f.t.Helper()
	asked, err := http.NewRequest("POST", f.url(path), strings.NewReader(body))
	if err != nil {
		f.t.Fatal(err)
	}
	asked.Header.Set("traceparent", parent)
	asked.Header.Set("Content-Type", kind)
	answer, err := http.DefaultClient.Do(asked)
	if err != nil {
		f.t.Fatal(err)
	}
	return bodyOf(f.t, answer)
}

// TestDecisions asks on each way, and sees that what was decided is written down, and nothing else.
func TestDecisions(t *testing.T) {
	folder := t.TempDir()
	f := todo(t, "--decisions", folder)
	ben := `{"subject":{"type":"user","id":"ben"},"action":{"name":"can_read_todos"},"resource":{"type":"todo","id":"milk"}}`
	ask := `{"do":"ask","request":{"Request":{"XPathVersion":"a<b"}}}`
	f.traced("/authorize", "application/json", `{"Request":{}}`)
	f.post("/authorize", `{"Request":{"Action":[{},{}]}}`)
	f.asXML(requestBegins + noWishes + `<Attributes Category="urn:own"/></Request>`)
	f.traced("/access/v1/evaluation", "application/json", ben)
	f.post("/access/v1/evaluations", `{"evaluations":[`+ben+`,{},`+ben+`]}`)
	f.post("/access/v1/search/action", ben)
	f.lines(ask, `{"do":"work"}`, `{"do":"ask","request":{}}`, ask, `{"do":"counts"}`)
	f.post("/commands/ask", `{"request":{"Request":{}}}`)
	f.post("/authorize", `{"Request":{"x":1}}`)
	want := []string{
		"/authorize " + parent + ` {"Request":{}}`,
		`/authorize  {"Request":{"Category":[{"CategoryId":"` + actionCategory + `","Attribute":[]}]}}`,
		`/authorize  {"Request":{"Category":[{"CategoryId":"` + actionCategory + `","Attribute":[]}]}}`,
		`/authorize  {"Request":{"Category":[{"CategoryId":"urn:own","Attribute":[]}]}}`,
		"/access/v1/evaluation " + parent, "/access/v1/evaluations", "/access/v1/evaluations",
		"/access/v1/search/action  " + ben, `/lines  {"Request":{"XPathVersion":"a\u003cb"}}`, `/lines `, `/commands/ask  {"Request":{}}`,
	}
	if status := f.stop(); status != 0 {
		t.Fatalf("the front ends by %d: %s", status, f.log())
	}
	all := book(t, folder, 1<<20)
	if len(all) != len(want) {
		t.Fatalf("%d decisions are kept, of %d", len(all), len(want))
	}
	for i, one := range all {
		if got := fmt.Sprintf("%s %s %s", one.Path, one.Traceparent, one.Request); !strings.HasPrefix(got, want[i]) {
			t.Errorf("decision %d is %s, and not %s", i, got, want[i])
		}
		if one.By != "127.0.0.1" || one.Serial != 28 || !strings.HasPrefix(string(one.Response), `{"`) {
			t.Errorf("decision %d is %v", i, one)
		}
	}
}

// TestDecisionsKilled kills the front while clients ask: what is lost was answered within a second, nothing is kept twice,
// and files are of their size. Another front goes on beside them.
func TestDecisionsKilled(t *testing.T) {
	folder, journal := t.TempDir(), t.TempDir()
	const most = 50_000
	before := 0
	for round := 0; round < 2; round++ {
		f := begin(t, journal, "--decisions", folder, "--decisions-size", fmt.Sprint(most))
		told := f.asksBy(4, 1500*time.Millisecond)
		f.kill()
		kept := map[string]int{}
		all := book(t, folder, most)
		for _, one := range all[before:] {
			var read struct {
				Request struct{ XPathVersion string }
			}
			if err := json.Unmarshal(one.Request, &read); err != nil {
				t.Fatal(err)
			}
			kept[read.Request.XPathVersion]++
		}
		var lost []time.Time
		for name, at := range told() {
			if kept[name] > 1 {
				t.Errorf("%s is kept %d times", name, kept[name])
			}
			if kept[name] == 0 {
				lost = append(lost, at)
			}
		}
		sort.Slice(lost, func(i, j int) bool { return lost[i].Before(lost[j]) })
		// An answer is sent a while after its decision was kept.
		if len(lost) > 0 && lost[len(lost)-1].Sub(lost[0]) > 2*time.Second {
			t.Errorf("what is lost was answered within %v", lost[len(lost)-1].Sub(lost[0]))
		}
		if len(kept) == 0 {
			t.Error("none is kept")
		}
		t.Logf("%d are kept, %d lost", len(kept), len(lost))
		before = len(all)
	}
}

// asksBy asks by so many clients for a while, each request with a text of its own. What it gives waits for the clients,
// and says when each request was answered.
func (f *front) asksBy(clients int, while time.Duration) func() map[string]time.Time {
	var mutex sync.Mutex
	var all sync.WaitGroup
	told := map[string]time.Time{}
	for client := 0; client < clients; client++ {
		all.Add(1)
		go func(client int) {
			defer all.Done()
			for i := 0; ; i++ {
				name := fmt.Sprintf("%d-%d", client, i)
				answer, err := http.Post(f.url("/authorize"), "", strings.NewReader(`{"Request":{"XPathVersion":"`+name+`"}}`))
				if err != nil {
					return
				}
				answer.Body.Close()
				mutex.Lock()
				told[name] = time.Now()
				mutex.Unlock()
			}
		}(client)
	}
	time.Sleep(while)
	return func() map[string]time.Time {
		all.Wait()
		return told
	}
}

// TestDecisionsUnwritten takes the folder away: answers go on, and what is lost is counted and told; with the folder
// there again, decisions are kept.
func TestDecisionsUnwritten(t *testing.T) {
	folder := filepath.Join(t.TempDir(), "decisions")
	f := begin(t, t.TempDir(), "--decisions", folder, "--decisions-size", "300")
	ask := func() {
		if status, body := f.post("/authorize", `{"Request":{}}`); status != http.StatusOK {
			t.Fatalf("a request is answered %d %s", status, body)
		}
	}
	ask()
	eventually(t, "a decision is kept", func() bool { return f.metric("review_front_decisions_kept") == 1 })
	if err := os.RemoveAll(folder); err != nil {
		t.Fatal(err)
	}
	ask()
	ask()
	eventually(t, "decisions are lost", func() bool { return f.metric("review_front_decisions_lost") > 0 })
	if strings.Count(f.log(), "decisions can't be written") != 1 {
		t.Errorf("it is told otherwise than once:\n%s", f.log())
	}
	if err := os.Mkdir(folder, 0o700); err != nil {
		t.Fatal(err)
	}
	before := f.metric("review_front_decisions_kept")
	ask()
	eventually(t, "decisions are kept again", func() bool { return f.metric("review_front_decisions_kept") > before })
	if len(book(t, folder, 300)) == 0 || !strings.Contains(f.log(), "can be written again") {
		t.Error("nothing is kept again, or it isn't told")
	}
}

// TestTraced sees that what has no answer is logged with its traceparent.
func TestTraced(t *testing.T) {
	f := begin(t, t.TempDir(), "--lame", "1h", "--drain", "2h")
	_ = f.process.Process.Signal(os.Interrupt)
	eventually(t, "it isn't ready", func() bool {
		asked, _ := http.NewRequest("GET", f.url("/readyz"), nil)
		asked.Header.Set("traceparent", parent)
		answer, err := http.DefaultClient.Do(asked)
		if err != nil {
			t.Fatal(err)
		}
		answer.Body.Close()
		return answer.StatusCode == http.StatusServiceUnavailable
	})
	line := `"path":"/readyz","status":503,"traceparent":"` + parent + `"`
	eventually(t, "it is logged", func() bool { return strings.Contains(f.log(), line) })
}
