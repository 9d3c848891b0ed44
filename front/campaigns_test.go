package main

import (
	"encoding/json"
	"fmt"
	"net/http"
	"strings"
	"testing"
)

// reviewing is who may do what in tests of campaigns.
func reviewing(t testing.TB, more ...string) string {
	t.Helper()
	return accessFile(t, append([]string{
		entry("boss", "campaign", "read", "audit", "edit", "operate"), entry("auditor", "read", "audit"),
		person("rita", "", "review", "read"), person("hana-login", "hana", "review"), entry("editor", "edit", "read"),
	}, more...)...)
}

// person is the line of a user with a token, who is a listed person.
func person(name, listed string, roles ...string) string {
	l := entry(name, roles...)
	if listed == "" {
		return l
	}
	return strings.TrimSuffix(l, "}") + fmt.Sprintf(`,"person":%q}`, listed)
}

// groupsOf are items of a campaign as a front tells them.
type groupsOf struct {
	Called map[string]string
	Groups []struct {
		Person, State, Reviewer, Digest string
		Items                           []struct {
			Item                       uint32
			Action, Resource, Decision string
			Back                       bool
			Last                       string
			Signed                     *struct {
				As, By, Why, From string
				Serial            uint64
			}
			By *struct {
				Serial           uint64
				By, Kind, Entity string
			}
		}
	}
	More   bool
	Serial uint64
}

// items asks for items of a campaign.
func (f *front) items(t testing.TB, as, campaign, query string) groupsOf {
	t.Helper()
	got := f.as(t, as, http.MethodGet, "/campaigns/"+campaign+"/items?"+query, "")
	if got.status != http.StatusOK {
		t.Fatalf("items of %s for %s: %+v", campaign, as, got)
	}
	var told groupsOf
	if err := json.Unmarshal([]byte(got.body), &told); err != nil {
		t.Fatal(err)
	}
	return told
}

// progressOf is what a front tells of a campaign.
type progressOf struct {
	Items     int
	States    map[string]int
	Reviewers map[string]map[string]int
	Taken     int
	Asked     map[string]int
	Fell      []struct {
		Serial   uint64
		By, Kind string
		Items    int
	}
	Ended *struct{ By string }
}

// progress asks how far a campaign is.
func (f *front) progress(t testing.TB, as, campaign string) progressOf {
	t.Helper()
	got := f.as(t, as, http.MethodGet, "/campaigns/"+campaign, "")
	var told progressOf
	if err := json.Unmarshal([]byte(got.body), &told); err != nil || got.status != http.StatusOK {
		t.Fatalf("%s: %+v", campaign, got)
	}
	return told
}

// actOn is the body of an act on a group.
func actOn(group int, of groupsOf, more string) string {
	var items []string
	for _, item := range of.Groups[group].Items {
		items = append(items, fmt.Sprint(item.Item))
	}
	return fmt.Sprintf(`{"items":[%s],"digest":%q,"serial":%d%s}`, strings.Join(items, ","), of.Groups[group].Digest,
		of.Serial, more)
}

// opening is a campaign over all Permits, which one reviewer reviews.
func opening(name, reviewer, more string) string {
	return fmt.Sprintf(`{"name":%q,"scope":{},"reviewers":[{"name":%q}]%s}`, name, reviewer, more)
}

// TestCampaign opens a campaign over the clinic, signs, and sees that a sign-off falls with the edit that changes its
// answer, and stays so when a later one brings it back, also over a start.
func TestCampaign(t *testing.T) {
	file := reviewing(t)
	folder := t.TempDir()
	f := begin(t, folder, "--access", file)
	if got := f.as(t, "boss", http.MethodPost, "/lines", strings.Join(clinic(t), "\n")+"\n"); got.status != 200 {
		t.Fatal(got)
	}
	if got := f.as(t, "boss", http.MethodPost, "/campaigns", opening("q4", "rita", "")); got.status != 200 ||
		got.body != `{"campaign":"q4","items":92,"serial":70}` {
		t.Fatal(got)
	}
	told := f.items(t, "rita", "q4", "")
	if len(told.Groups) == 0 || f.progress(t, "boss", "q4").States["open"] != 92 {
		t.Fatalf("%+v", told)
	}
	at := -1
	for i, group := range told.Groups {
		if group.Person == "hana" {
			at = i
		}
	}
	if got := f.as(t, "rita", http.MethodPost, "/campaigns/q4/keep", actOn(at, told, "")); got.status != 200 {
		t.Fatal(got)
	}
	count := len(told.Groups[at].Items)
	if got := f.progress(t, "boss", "q4").States; got["kept"] != count || got["open"] != 92-count {
		t.Fatalf("%v", got)
	}
	edit := func(known, role string) answer {
		t.Helper()
		return f.as(t, "editor", http.MethodPost, "/commands/attr.set", strings.Replace(setRole("hana", role),
			`"do":"attr.set",`, "", 1), "If-Match", known)
	}
	// What a campaign has behind the last edit isn't counted, and other edits are.
	if got := edit("69", "nobody"); got.status != 200 {
		t.Fatal(got)
	}
	if got := edit("69", "doctor"); got.status != http.StatusPreconditionFailed {
		t.Fatal(got)
	}
	if got := f.as(t, "rita", http.MethodPost, "/campaigns/q4/keep", actOn(at, told, "")); got.status != 409 ||
		!strings.Contains(got.body, `"changed":[{"item":`) || !strings.Contains(got.body, `"by":"editor"`) {
		t.Fatal(got)
	}
	fell := f.progress(t, "boss", "q4")
	if len(fell.Fell) != 1 || fell.Fell[0].By != "editor" || fell.Fell[0].Items != count {
		t.Fatalf("%+v", fell)
	}
}

// TestCampaignBeside signs and edits while an asker answers and each edit is tried on a spare program: neither is told
// what isn't an edit, and neither has to be made anew.
func TestCampaignBeside(t *testing.T) {
	access := reviewing(t, entry("gateway", "ask"))
	f, told := campaignsOpened(t, access, "", "--askers", "1", "--try-time", "60s")
	for i := range told.Groups {
		if got := f.as(t, "rita", http.MethodPost, "/campaigns/q4/keep", actOn(i, told, "")); got.status != 200 {
			t.Fatal(got)
		}
		edited := f.as(t, "editor", http.MethodPost, "/commands/day.set", fmt.Sprintf(`{"day":"2026-01-%02d"}`, i+1))
		if serial, ok := accepted(edited.body); !ok || serial != uint64(72+2*i) {
			t.Fatalf("an edit is answered %+v", edited)
		}
		got := f.as(t, "gateway", http.MethodPost, "/authorize", requestOf("ada", "read", "rota"), "Content-Type",
			"application/xacml+json", "Review-At-Least", edited.body[strings.LastIndex(edited.body, ":")+1:len(edited.body)-1])
		if got.status != 200 || !strings.Contains(got.body, `"Decision":"Permit"`) {
			t.Fatalf("a request is answered %+v", got)
		}
		told = f.items(t, "rita", "q4", "")
		if i == 8 {
			break
		}
	}
	if log := f.log(); strings.Count(log, "a spare program has the state") > 1 || strings.Count(log,
		"an asker has its state") > 1 {
		t.Errorf("programs are made anew: %s", log)
	}
}
