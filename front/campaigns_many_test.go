package main

import (
	"fmt"
	"net/http"
	"os"
	"strings"
	"testing"
	"time"
)

// manyLines are a table of people by actions and resources in which one policy permits everything, and a line that
// exchanges its root for another one by which everything is permitted for another reason, or nothing is.
func manyLines(people, actions, resources int) []string {
	var lines []string
	for _, list := range []struct {
		word  string
		count int
	}{{"person", people}, {"action", actions}, {"resource", resources}} {
		for i := 0; i < list.count; i++ {
			lines = append(lines, fmt.Sprintf(`{"do":"%s.add","name":"%s-%05d"}`, list.word, list.word[:1], i))
		}
	}
	policy := `{"do":"policy.add","document":{"Policy":{"PolicyId":%q,"Version":"1","RuleCombiningAlgId":` +
		`"urn:oasis:names:tc:xacml:3.0:rule-combining-algorithm:deny-unless-permit","Rule":[{"RuleId":"all","Effect":"Permit"}]}}}`
	return append(lines, fmt.Sprintf(policy, "one"), fmt.Sprintf(policy, "other"), rootOf("one"))
}

// rootOf has a policy be the root.
func rootOf(policy string) string {
	return fmt.Sprintf(`{"do":"root.set","reference":{"PolicyIdReference":{"Id":%q}}}`, policy)
}

// TestCampaignMany opens a campaign over many cells, lists, signs, and has all fall by a new root. FRONT_MANY says how
// many people there are, each with a hundred cells; the times are logged.
func TestCampaignMany(t *testing.T) {
	people := number("FRONT_MANY", 20)
	limits := []string{"--people", fmt.Sprint(people + 1), "--cells", fmt.Sprint(people*100 + 100), "--patience", "60s",
		"--reply-time", "300s", "--actions", "32", "--resources", "256"}
	if people <= 200 {
		limits = limits[:0]
	}
	f := begin(t, t.TempDir(), append(limits, "--access", reviewing(t))...)
	timed := func(what string, do func()) time.Duration {
		began := time.Now()
		do()
		took := time.Since(began)
		t.Logf("%s: %v", what, took.Round(time.Millisecond/10))
		return took
	}
	send := func(as, path, body string) {
		t.Helper()
		if got := f.as(t, as, http.MethodPost, path, body); got.status != http.StatusOK || strings.Contains(got.body,
			`"refused"`) {
			t.Fatalf("%s: %.300s", path, got.body)
		}
	}
	send("boss", "/lines", strings.Join(manyLines(people, 4, 25), "\n")+"\n")
	if os.Getenv("FRONT_MANY") != "" {
		for i := 0; i < 2; i++ {
			timed("a new root without a campaign", func() { send("boss", "/lines", rootOf([]string{"other", "one"}[i])) })
			f.asBoss(t, "/edits?since=0&count=1")
		}
	}
	timed("opening", func() { send("boss", "/campaigns", opening("q4", "rita", "")) })
	if got := f.progress(t, "boss", "q4"); got.Items != people*100 {
		t.Fatalf("%d items", got.Items)
	}
	var told groupsOf
	timed("a list", func() { told = f.items(t, "rita", "q4", "count=100") })
	timed("a list", func() { told = f.items(t, "rita", "q4", "count=100") })
	timed("an act", func() { send("rita", "/campaigns/q4/keep", actOn(0, told, "")) })
	for i := 0; i < len(told.Groups); i++ {
		if i == 1 {
			timed("an act", func() { send("rita", "/campaigns/q4/keep", actOn(i, told, "")) })
		} else {
			send("rita", "/campaigns/q4/keep", actOn(i, told, ""))
		}
	}
	for {
		if told = f.items(t, "rita", "q4", "state=open&count=1000"); len(told.Groups) == 0 {
			break
		}
		var all []string
		for i := range told.Groups {
			all = append(all, actOn(i, told, ""))
		}
		for _, one := range all {
			send("rita", "/campaigns/q4/keep", one)
		}
	}
	if got := f.progress(t, "boss", "q4"); got.States["kept"] != people*100 {
		t.Fatalf("%v", got.States)
	}
	timed("an edit of one signed cell's row, until its fall is told", func() {
		send("boss", "/lines", `{"do":"person.drop","name":"p-00001"}`)
		f.progress(t, "boss", "q4")
	})
	for i := 0; i < 2; i++ {
		timed("a new root", func() { send("boss", "/lines", rootOf([]string{"other", "one"}[i])) })
		timed("until its falls are told", func() { f.progress(t, "boss", "q4") })
	}
	if got := f.progress(t, "boss", "q4"); got.States["fell"] != people*100-100 || got.States["gone"] != 100 {
		t.Fatalf("%v", got.States)
	}
	timed("a list of what fell", func() { told = f.items(t, "rita", "q4", "count=100") })
}

// asBoss asks as whoever opens campaigns.
func (f *front) asBoss(t testing.TB, path string) {
	t.Helper()
	if got := f.as(t, "boss", http.MethodGet, path, ""); got.status != http.StatusOK {
		t.Fatal(got)
	}
}
