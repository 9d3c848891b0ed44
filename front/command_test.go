package main

import (
	"net/http"
	"os/exec"
	"strings"
	"testing"
)

// TestCommands sends commands that paths name: what is refused isn't answered by 200.
func TestCommands(t *testing.T) {
	f := begin(t, t.TempDir())
	for _, one := range []struct {
		do, body string
		status   int
		want     string
	}{
		{"person.add", `{"name":"ann"}`, 200, `{"changes":0,"serial":1}`},
		{"day.set", "{\n\"day\": \"2026-03-01\"\n}\n", 200, `{"changes":0,"serial":2}`},
		{"day.set", `{"day":"2026-02-30"}`, 400, `"refused":11`},
		{"day.set", `{"do":"person.add","day":"2026-03-02"}`, 200, `{"changes":0,"serial":3}`},
		{"person.add", `{"name":"ann"}`, 409, `"refused":8`},
		{"person.drop", `{"name":"ben"}`, 404, `"refused":7`},
		{"person.drop", `{}`, 400, `"refused":3`},
		{"nothing", "", 404, `"refused":4`},
		{"counts", "", 200, `{"counts":`},
		{"mark", "", 200, `{"mark":3}`},
		{"notices", "", 409, `"refused":12`},
		{"person.add", `[]`, 400, `one JSON object`},
		{"person.add", "{\"name\":\"a\nb\"}", 400, `one JSON object`},
		{"person.add", `{"name":"` + strings.Repeat("x", 1<<20) + `"}`, 413, `"refused":1`},
	} {
		if status, body := f.post("/commands/"+one.do, one.body); status != one.status || !strings.Contains(body, one.want) {
			t.Errorf("%s of %.80s is answered %d %s", one.do, one.body, status, body)
		}
	}
	if status, _ := f.get("/commands/counts"); status != http.StatusMethodNotAllowed {
		t.Errorf("a command by GET is answered %d", status)
	}
}

// TestTimer sends the day as a timer does, which fails where it is refused.
func TestTimer(t *testing.T) {
	if _, err := exec.LookPath("curl"); err != nil {
		t.Skip("there is no curl")
	}
	f := begin(t, t.TempDir())
	for day, fails := range map[string]bool{"2026-03-01": false, "the first of March": true} {
		sent := exec.Command("curl", "-sf", "--data-binary", `{"day":"`+day+`"}`, f.url("/commands/day.set"))
		if out, err := sent.CombinedOutput(); (err != nil) != fails {
			t.Errorf("%s is answered %s, %v", day, out, err)
		}
	}
}

// TestSemicolons asks for names that have them, which separate nothing, and sees that nothing is logged for it.
func TestSemicolons(t *testing.T) {
	f := begin(t, t.TempDir())
	f.accept(`{"do":"person.add","name":"ann"}`, `{"do":"action.add","name":"a;b"}`, `{"do":"resource.add","name":"c"}`)
	f.must("/who?action=a;b&resource=c")
	f.must("/who?resource=c&action=a%3Bb")
	if status, _ := f.get("/who?action=a;resource=c"); status != http.StatusBadRequest {
		t.Errorf("a query without a resource is answered %d", status)
	}
	if strings.Contains(f.log(), "semicolon") {
		t.Errorf("it is logged:\n%s", f.log())
	}
}
