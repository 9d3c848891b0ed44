package main

import (
	"bytes"
	"encoding/csv"
	"net/http"
	"os"
	"path/filepath"
	"regexp"
	"strings"
	"testing"
)

// checkedEvidence is what `verify` says of evidence, and whether it finds that it is.
func checkedEvidence(t *testing.T, content string, words ...string) (string, bool) {
	t.Helper()
	path := filepath.Join(t.TempDir(), "evidence")
	if err := os.WriteFile(path, []byte(content), 0o600); err != nil {
		t.Fatal(err)
	}
	var to, faults bytes.Buffer
	status := verify(append([]string{"--evidence", path}, words...), &to, &faults)
	return to.String() + faults.String(), status == 0
}

// setRole is an edit of somebody's role.
func setRole(person, role string) string {
	return `{"do":"attr.set","category":"AccessSubject","entity":"` + person +
		`","attribute":"role","type":"string","values":["` + role + `"]}`
}

// signAll signs each group of a query, the last one to be revoked.
func (f *front) signAll(t testing.TB, as, campaign, query string) {
	t.Helper()
	told := f.items(t, as, campaign, query)
	for i := range told.Groups {
		do, more := "keep", ""
		if i+1 == len(told.Groups) {
			do, more = "revoke", `,"why":"no need"`
		}
		if got := f.as(t, as, http.MethodPost, "/campaigns/"+campaign+"/"+do, actOn(i, told, more)); got.status != 200 {
			t.Fatal(got)
		}
	}
}

// TestEvidence signs two campaigns one behind the other, of which the second takes over what stands in the first,
// while answers change and come back: what is given as evidence is what the journal says by a head from elsewhere,
// and nothing of it can be changed unseen.
func TestEvidence(t *testing.T) {
	key, public := signing(t)
	f, _ := campaignsOpened(t, reviewing(t), "", "--sign-key", key)
	f.signAll(t, "rita", "q4", "state=open")
	edit := func(l string) {
		if got := f.as(t, "editor", http.MethodPost, "/lines", l); got.status != 200 || strings.Contains(got.body,
			"refused") {
			t.Fatal(got)
		}
	}
	edit(setRole("emil", "reception"))
	edit(setRole("emil", "nurse"))
	edit(setRole("bruno", "nurse"))
	if got := f.as(t, "boss", http.MethodPost, "/campaigns", opening("q1", "rita", `,"after":"q4"`)); got.status != 200 {
		t.Fatal(got)
	}
	f.signAll(t, "rita", "q1", "state=open&state=fell&count=3")
	edit(setRole("ada", "nurse"))
	head := filepath.Join(t.TempDir(), "head")
	now := f.as(t, "auditor", http.MethodGet, "/head", "")
	if err := os.WriteFile(head, []byte(now.body+"\n"), 0o600); err != nil {
		t.Fatal(err)
	}
	for _, name := range []string{"q4", "q1"} {
		got := f.as(t, "boss", http.MethodGet, "/campaigns/"+name+"/evidence", "")
		for _, words := range [][]string{{"--key", public}, {"--head", head}, {"--key", public, "--head", head}} {
			if said, sound := checkedEvidence(t, got.body, words...); got.status != 200 || !sound {
				t.Fatalf("%s by %v: %s", name, words, said)
			}
		}
		if said, sound := checkedEvidence(t, got.body); sound || !strings.Contains(said, "neither --key nor --head") {
			t.Errorf("without a head: %s", said)
		}
		changeEvidence(t, got.body, name, "--key", public, "--head", head)
	}
	table := f.as(t, "boss", http.MethodGet, "/campaigns/q4/evidence?form=csv", "")
	rows, err := csv.NewReader(strings.NewReader(table.body)).ReadAll()
	if err != nil || len(rows) != 93 || rows[0][9] != "signed_by" || rows[1][9] != "rita" {
		t.Errorf("a table of %d rows: %v %.500s", len(rows), err, table.body)
	}
}

// changeEvidence changes evidence in each way that is to be seen.
func changeEvidence(t *testing.T, content, name string, words ...string) {
	t.Helper()
	lines := strings.Split(content, "\n")
	at := func(begins, has string) int {
		for i, l := range lines {
			if strings.HasPrefix(l, begins) && strings.Contains(l, has) {
				return i
			}
		}
		t.Fatalf("%s has no line %s with %s", name, begins, has)
		return -1
	}
	without := func(at int) string {
		return strings.Join(append(append([]string(nil), lines[:at]...), lines[at+1:]...), "\n")
	}
	with := func(at int, was, is string) string {
		changed := append([]string(nil), lines...)
		changed[at] = regexp.MustCompile(was).ReplaceAllString(changed[at], is)
		if changed[at] == lines[at] {
			t.Errorf("%s: nothing is changed by %s", name, was)
		}
		return strings.Join(changed, "\n")
	}
	beside := func(was, is string) string { // in all but the records
		changed := append([]string(nil), lines...)
		for i, l := range changed {
			if !strings.HasPrefix(l, `{"record"`) {
				changed[i] = strings.ReplaceAll(l, was, is)
			}
		}
		return strings.Join(changed, "\n")
	}
	item := at(`{"item"`, `"signed"`)
	for what, changed := range map[string]string{
		"a record is dropped":         without(at(`{"record"`, `"do":"campaign.keep"`)),
		"an edit is dropped":          without(at(`{"record"`, `"do":"attr.set"`)),
		"a record's author":           with(at(`{"record"`, `"do":"campaign.keep"`), `"by":"rita"`, `"by":"boss"`),
		"a fall is dropped":           without(at(`{"fall"`, ``)),
		"a fall's author":             with(at(`{"fall"`, ``), `"by":"editor"`, `"by":"boss"`),
		"who signed":                  with(item, `"by":"rita","time"`, `"by":"boss","time"`),
		"by which serial":             with(item, `("signed":\{.*"serial":)\d+`, `${1}71000`),
		"the answer that was signed":  with(item, `("seen":.*"decision":)"Permit"`, `${1}"Deny"`),
		"a state":                     with(at(`{"item"`, `"state":"kept"`), `"state":"kept"`, `"state":"open"`),
		"what fell stands":            with(at(`{"item"`, `"by":{"serial"`), `"state":"\w+"`, `"state":"kept"`),
		"a sign-off is dropped":       with(item, `,"signed":\{[^}]*\}`, ``),
		"an act's cells":              with(at(`{"act"`, `"hana"`), `"hana"`, `"ada"`),
		"an act's cells and items":    beside(`"hana"`, `"hanna"`),
		"cells that tell no names":    beside(`"dina"`, `"dinah"`),
		"an act is dropped":           without(at(`{"act"`, ``)),
		"items are exchanged":         with(item, `"item":(\d+),`, `"item":1$1,`),
		"the head is another's":       with(at(`{"head"`, ``), `"chain":"..`, `"chain":"00`),
		"the end is cut off":          without(at(`{"head"`, ``)),
		"the beginning of the chain":  with(0, `"before":"...`, `"before":"000`),
		"another campaign is said":    with(0, `"campaign":"[^"]*"`, `"campaign":"x"`),
		"an item of it is left out":   without(at(`{"item"`, `"item":1,`)),
		"up to another serial":        with(0, `"until":\d+`, `"until":99999`),
		"the record that opens it":    without(at(`{"record"`, `"do":"campaign.open","campaign":"`+name+`"`)),
		"something else stands there": content + "{}\n",
	} {
		if said, sound := checkedEvidence(t, changed, words...); sound {
			t.Errorf("%s: %s is seen by nobody: %s", name, what, said)
		}
	}
}
