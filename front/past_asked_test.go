package main

import (
	"encoding/json"
	"fmt"
	"net/http"
	"net/url"
	"os"
	"path/filepath"
	"strings"
	"testing"
	"time"

	"review-front/folder"
)

// TestEditsAsked asks of edits by whom, what and when they were made, and in parts.
func TestEditsAsked(t *testing.T) {
	f := begin(t, t.TempDir(), "--by-header", "X-User")
	f.editBy("eve", `{"do":"person.add","name":"ann"}`)
	f.editBy("max", `{ "do" : "action.add", "name":"read" }`)
	f.editBy("eve", `{"do":"resource.add","name":"plan"}`)
	f.editBy("eve", `{"do":"attr.set","category":"AccessSubject","entity":"ann","attribute":"role","type":"string",`+
		`"values":["it"]}`)
	f.editBy("max", `{"do":"policy.add","document":{"Policy":{"PolicyId":"p","Version":"1","RuleCombiningAlgId":`+
		`"urn:oasis:names:tc:xacml:3.0:rule-combining-algorithm:deny-unless-permit"}}}`)
	f.editBy("max", `{"do":"root.set","reference":{"PolicyIdReference":{"Id":"p"}}}`)
	serials := func(query string) string {
		t.Helper()
		var page struct {
			Edits []toldEdit
			More  bool
		}
		if err := json.Unmarshal([]byte(f.must("/edits?"+query)), &page); err != nil {
			t.Fatal(err)
		}
		said := ""
		for _, e := range page.Edits {
			said += fmt.Sprint(e.Serial, " ")
		}
		return fmt.Sprint(said, page.More)
	}
	times := map[uint64]string{}
	var all struct{ Edits []toldEdit }
	if err := json.Unmarshal([]byte(f.must("/edits")), &all); err != nil {
		t.Fatal(err)
	}
	for _, e := range all.Edits {
		times[e.Serial] = url.QueryEscape(e.Time)
	}
	for query, want := range map[string]string{
		"":                        "1 2 3 4 5 6 false",
		"since=2&until=4":         "3 4 false",
		"by=eve":                  "1 3 4 false",
		"by=e*&by=m*":             "1 2 3 4 5 6 false",
		"kind=person.add":         "1 false",
		"kind=*.add":              "false",
		"kind=p*":                 "1 5 false",
		"entity=ann":              "1 4 false",
		"entity=p":                "5 6 false",
		"from=1&count=2":          "2 3 true",
		"from=4&count=2":          "5 6 false",
		"since=" + times[3]:       "3 4 5 6 false",
		"until=" + times[3]:       "1 2 false",
		"since=2026-01-01&by=max": "2 5 6 false",
		"until=2026-01-01":        "false",
	} {
		if got := serials(query); got != want {
			t.Errorf("%s: %s, and not %s", query, got, want)
		}
	}
	for _, query := range []string{
		"since=x", "since=1&since=2", "count=1001", "until=2026-13-01", "x=1", "from=-1", "since=7",
	} {
		if status, body := f.get("/edits?" + query); status != http.StatusBadRequest {
			t.Errorf("%s is answered %d %s", query, status, body)
		}
	}
}

// TestForgotten keeps nothing, or what edits changed no more than for a while: it is told so.
func TestForgotten(t *testing.T) {
	path := t.TempDir()
	f := begin(t, path, "--keep-history", "-1s")
	f.accept(clinic(t)...)
	if status, body := f.get("/edits"); status != http.StatusNotImplemented {
		t.Errorf("edits are told where nothing is kept: %d %s", status, body)
	}
	f.stop()
	f = begin(t, path, "--keep-history", "1us")
	f.accept(`{"do":"person.add","name":"ivan"}`)
	eventually(t, "nothing is kept", func() bool {
		return f.must("/edits?kind=none") == `{"edits":[],"more":false,"serial":70,"unknown":[{"since":0,"until":70}]}`
	})
	if status, body := f.get("/changes?since=0&until=70"); status != http.StatusGone {
		t.Errorf("what changed is told where nothing is kept: %d %s", status, body)
	}
	f.stop()
	f = begin(t, path)
	eventually(t, "it is made again", func() bool {
		return f.must("/edits?kind=none") == `{"edits":[],"more":false,"serial":70,"unknown":[]}`
	})
}

// TestThen asks of a time, of what isn't a time or a state, and for changes with names and decisions.
func TestThen(t *testing.T) {
	f := begin(t, t.TempDir())
	lines := clinic(t)
	f.accept(lines[:68]...)
	var page struct{ Edits []toldEdit }
	if err := json.Unmarshal([]byte(f.must("/edits?since=67&until=68")), &page); err != nil || len(page.Edits) != 1 {
		t.Fatal(page, err)
	}
	then := f.must("/counts")
	f.accept(lines[68:]...)
	if serial := f.serial("/counts?at="+url.QueryEscape(page.Edits[0].Time), nil); serial != "68" {
		t.Errorf("at the time of edit 68 it is the state of %s", serial)
	}
	for at, status := range map[string]int{
		url.QueryEscape(page.Edits[0].Time): 200, "68": 200, "70": 400, "x": 400, "2026-13-01": 400, "1&at=2": 400, "-1": 400,
	} {
		got, body := f.get("/counts?at=" + at)
		if got != status || status == 200 && body != then {
			t.Errorf("at %s it is %d %s", at, got, body)
		}
	}
	none := `{"counts":{"Deny":0,"Indeterminate":0,"NotApplicable":0,"Permit":0}}`
	if got := f.must("/counts?at=2026-01-01"); got != none {
		t.Errorf("before the first edit the counts are %s", got)
	}
	if got := f.must("/cells?person=hana&decisions=Permit&at=68"); got != `{"cells":[]}` {
		t.Errorf("cells of then are %s", got)
	}
	request := `{"Request":{"AccessSubject":{"Attribute":{"AttributeId":"urn:oasis:names:tc:xacml:1.0:subject:subject-id",` +
		`"Value":"ada"}},"Action":{"Attribute":{"AttributeId":"urn:oasis:names:tc:xacml:1.0:action:action-id","Value":"write"}},` +
		`"Resource":{"Attribute":{"AttributeId":"urn:oasis:names:tc:xacml:1.0:resource:resource-id","Value":"record-moss"}}}}`
	for path, want := range map[string]string{"/authorize": "Permit", "/authorize?at=68": "NotApplicable", "/authorize?at=69": "Permit"} {
		got := f.send(t, http.MethodPost, path, request, "Content-Type", "application/json")
		if got.status != http.StatusOK || !strings.Contains(got.body, `"Decision":"`+want+`"`) {
			t.Errorf("%s is answered %+v", path, got)
		}
	}
	if status, body := f.get("/changes?since=1&at=2"); status != http.StatusBadRequest {
		t.Errorf("changes at a serial are answered %d %s", status, body)
	}
	count := func(query string) int {
		t.Helper()
		return strings.Count(f.must("/changes?since=68&"+query), `{"action":`)
	}
	for query, want := range map[string]int{
		"gained=Permit": 92, "gained=Deny": 37, "lost=NotApplicable": 131, "lost=Permit": 0, "gained=Permit&lost=Permit": 92,
		"gained=Permit&persons=hana": 14, "persons=h*&actions=write&by=edit": 10, "by=edit": 131, "by=edit&count=5": 5,
		"by=edit&from=130": 1, "gained=Permit&from=90&count=5": 2, "until=68": 0,
	} {
		if got := count(query); got != want {
			t.Errorf("%s: %d changes, and not %d", query, got, want)
		}
	}
	for _, query := range []string{"gained=x", "by=x", "lost=Permit&lost=Deny", "until=x", "count=100001&by=edit"} {
		if status, body := f.get("/changes?since=68&" + query); status != http.StatusBadRequest {
			t.Errorf("%s is answered %d %s", query, status, body)
		}
	}
}

// TestUnlearned has a program that has no memory to tell what an edit changed: that it isn't known is told, and all else.
func TestUnlearned(t *testing.T) {
	path := t.TempDir()
	f := begin(t, path, "--program", faked(t, "untold"))
	f.accept(clinic(t)...)
	p := &past{front: f}
	p.learned()
	var page struct{ Edits []toldEdit }
	if err := json.Unmarshal([]byte(f.must("/edits?since=68")), &page); err != nil || len(page.Edits) != 1 ||
		page.Edits[0].Changed != nil || page.Edits[0].Changes != 131 {
		t.Errorf("an edit of which it isn't known what it changed is told as %v: %v", page, err)
	}
	if got := f.must("/changes?since=67&by=edit"); got != `{"changes":[],"more":false,"serial":69,"unknown":[{"since":68,"until":69}]}` {
		t.Errorf("changes are %s", got)
	}
	for _, path := range []string{"/changes?since=67&until=69", "/changes?since=67&gained=Permit"} {
		if status, body := f.get(path); status != http.StatusGone || !strings.Contains(body, "69 to 69") {
			t.Errorf("%s is answered %d %s", path, status, body)
		}
	}
	if got := f.must("/changes?since=67&until=68"); got != `{"changes":[],"serial":68}` {
		t.Errorf("changes before it are %s", got)
	}
}

// TestKeptLonger takes journals away, and keeps what their edits changed, over a start: their lines are known no more,
// and a head of before is compared with that which was left.
func TestKeptLonger(t *testing.T) {
	path := t.TempDir()
	words := []string{"--keep", "1us", "--snapshot-every", "20", "--keep-changes", "1"}
	f := begin(t, path, words...)
	lines := clinic(t)
	f.accept(lines[:30]...)
	head := filepath.Join(t.TempDir(), "head")
	if err := os.WriteFile(head, []byte(f.must("/head")), 0o600); err != nil {
		t.Fatal(err)
	}
	f.snapshots(1)
	f.stop()
	f = begin(t, path, words...)
	f.accept(lines[30:60]...)
	f.snapshots(1)
	f.stop()
	f = begin(t, path, words...)
	f.accept(lines[60:]...)
	p := &past{front: f}
	p.learned()
	f.stop()
	f = begin(t, path, words...)
	var page struct{ Edits []toldEdit }
	if err := json.Unmarshal([]byte(f.must("/edits?count=100")), &page); err != nil || len(page.Edits) != 69 {
		t.Fatalf("%d edits are told: %v", len(page.Edits), err)
	}
	first, last := page.Edits[0], page.Edits[68]
	if string(first.Line) != "null" || first.Serial != 1 || first.Kind == "" || string(last.Line) == "null" || len(last.Changed) != 131 {
		t.Errorf("the first edit is told as %+v, and the last as of %s", first, last.Line)
	}
	if status, body := f.get("/table?at=10"); status != http.StatusGone {
		t.Errorf("what was so before all that is kept is told: %d %.200s", status, body)
	}
	f.stop()
	said, sound := verified(path, "--head", head)
	if !sound || !strings.Contains(said, "1 heads are as the journals are, the last of serial 30") {
		t.Errorf("a head of before what is kept: %v %s", sound, said)
	}
	content, err := os.ReadFile(filepath.Join(path, "heads"))
	if err != nil || !strings.Contains(string(content), `"why":"kept"`) {
		t.Errorf("journals that were taken away leave the heads %s: %v", content, err)
	}
}

// TestOtherJournal puts another journal in the place of one, in which the last edit was made at another time: what
// edits changed is made again.
func TestOtherJournal(t *testing.T) {
	path := t.TempDir()
	f := begin(t, path)
	f.accept(clinic(t)...)
	(&past{front: f}).learned()
	f.stop()
	forged := readForged(t, path)
	forged.anew = true
	for i := range forged.records {
		forged.records[i].rest = strings.Replace(forged.records[i].rest, `"time":"20`, `"time":"19`, 1)
	}
	forged.write()
	p := &past{front: begin(t, path)}
	p.learned()
	var page struct{ Edits []toldEdit }
	if err := json.Unmarshal([]byte(p.must("/edits?count=1000")), &page); err != nil {
		t.Fatal(err)
	}
	err := folder.History(path, 0, func(e folder.Entry) error {
		told := page.Edits[e.Serial-1]
		if told.Time != e.Time.Format(time.RFC3339Nano) || string(told.Line) != string(e.Line) {
			return fmt.Errorf("edit %d is told as of %s, %s", e.Serial, told.Time, told.Line)
		}
		return nil
	})
	if err != nil {
		t.Error(err)
	}
}

// TestOtherProgram asks of an earlier state of a journal that has another number of changes for an edit, as a program
// of another version would give: that is told.
func TestOtherProgram(t *testing.T) {
	path := t.TempDir()
	f := begin(t, path)
	f.accept(clinic(t)...)
	f.stop()
	forged := readForged(t, path)
	forged.anew = true
	one := &forged.records[forged.at(30)]
	one.rest = strings.Replace(one.rest, `"changes":`, `"changes":1`, 1)
	forged.write()
	f = begin(t, path)
	if status, body := f.get("/counts?at=29"); status != http.StatusOK {
		t.Errorf("before that edit it is %d %s", status, body)
	}
	status, body := f.get("/counts?at=40")
	if status != http.StatusConflict || !strings.Contains(body, "changes at first") {
		t.Errorf("behind that edit it is %d %s", status, body)
	}
}
