package main

import (
	"fmt"
	"net/http"
	"strings"
	"testing"
)

// campaignsOpened is a front with the clinic and a campaign, reviewed by rita, and what is hers.
func campaignsOpened(t *testing.T, access string, more string, words ...string) (*front, groupsOf) {
	t.Helper()
	f := begin(t, t.TempDir(), append([]string{"--access", access}, words...)...)
	if got := f.as(t, "boss", http.MethodPost, "/lines", strings.Join(clinic(t), "\n")+"\n"); got.status != 200 {
		t.Fatal(got)
	}
	if got := f.as(t, "boss", http.MethodPost, "/campaigns", opening("q4", "rita", more)); got.status != 200 {
		t.Fatal(got)
	}
	return f, f.items(t, "boss", "q4", "reviewer=rita")
}

// TestCampaignRoles has users of several roles ask each path of campaigns: those who have no role with it get 403.
func TestCampaignRoles(t *testing.T) {
	f, told := campaignsOpened(t, reviewing(t, entry("both", "campaign", "audit"), entry("nobody")), "")
	act, close := actOn(0, told, ""), "" // whoever isn't the reviewer gets 403 all the same
	for path, of := range map[string]struct{ method, body, may string }{
		"/campaigns":             {http.MethodGet, "", "rita boss both"},
		"/campaigns/q4":          {http.MethodGet, "", "rita boss both"},
		"/campaigns/q4/items":    {http.MethodGet, "", "rita boss both"},
		"/campaigns/q4/items/0":  {http.MethodGet, "", "rita boss both"},
		"/campaigns/q4/tasks":    {http.MethodGet, "", "boss both"},
		"/campaigns/q4/evidence": {http.MethodGet, "", "boss both"},
		"/campaigns/q4/keep":     {http.MethodPost, act, "rita"},
		"/campaigns/q4/undo":     {http.MethodPost, act, "rita"},
		"/campaigns/q4/revoke":   {http.MethodPost, strings.TrimSuffix(act, "}") + `,"why":"no need"}`, "rita"},
		"/campaigns/q4/pass":     {http.MethodPost, strings.TrimSuffix(act, "}") + `,"to":"rita"}`, "rita"},
	} {
		for _, name := range []string{"rita", "boss", "auditor", "editor", "both", "nobody"} {
			got := f.as(t, name, of.method, path, of.body)
			if path == "/campaigns/q4/undo" && got.status == http.StatusConflict {
				got.status = http.StatusOK // nothing was signed yet: it was looked at
			}
			if isIn := strings.Contains(" "+of.may+" ", " "+name+" "); (got.status == http.StatusForbidden) == isIn {
				t.Errorf("%s sends %s %s, and is answered %+.300v", name, of.method, path, got)
			}
		}
	}
	for _, name := range []string{"rita", "auditor", "editor", "nobody", "both", "boss"} {
		opened := f.as(t, name, http.MethodPost, "/campaigns", opening("of-"+name, "rita", ""))
		ended := f.as(t, name, http.MethodPost, "/campaigns/q4/close", close)
		want := http.StatusForbidden
		if name == "both" {
			want = http.StatusOK
		} else if name == "boss" {
			want = http.StatusConflict // both ended it
		}
		if (opened.status == http.StatusOK) != (want != http.StatusForbidden) || ended.status != want {
			t.Errorf("%s opens and ends a campaign: %+v %+v", name, opened, ended)
		}
	}
}

// TestCampaignOthers has reviewers try what isn't theirs: another's items, their own access, also where a field names
// somebody else.
func TestCampaignOthers(t *testing.T) {
	access := reviewing(t, person("other", "", "review"), person("hana", "", "review"))
	f := begin(t, t.TempDir(), "--access", access, "--by-header", "X-User")
	f.as(t, "boss", http.MethodPost, "/lines", strings.Join(clinic(t), "\n")+"\n")
	scope := `{"name":%q,"scope":{"people":{"names":["hana","ada"]}},"reviewers":[{"name":"hana"}],"self":%v}`
	f.as(t, "boss", http.MethodPost, "/campaigns", fmt.Sprintf(scope, "q4", false))
	f.as(t, "boss", http.MethodPost, "/campaigns", fmt.Sprintf(scope, "self", true))
	all := f.items(t, "boss", "q4", "")
	own, others := -1, -1
	for i, group := range all.Groups {
		if group.Person == "hana" {
			own = i
		} else {
			others = i
		}
	}
	try := func(who, campaign string, group int, fields ...string) answer {
		return f.as(t, who, http.MethodPost, "/campaigns/"+campaign+"/keep", actOn(group, all, ""), fields...)
	}
	for _, one := range []struct {
		got    answer
		status int
		why    string
	}{
		{try("other", "q4", others), 403, "is reviewed by hana"},
		{try("hana-login", "q4", own), 403, "nobody signs for herself"},
		{try("hana", "q4", own), 403, "nobody signs for herself"},
		{try("hana", "q4", own, "X-User", "other"), 403, "shows no certificate"},
		{try("other", "q4", others, "X-User", "hana"), 403, "shows no certificate"},
		{try("hana-login", "q4", others), 200, `"serial":`},
		{try("hana", "self", own), 200, `"serial":`},
	} {
		if one.got.status != one.status || !strings.Contains(one.got.body, one.why) {
			t.Errorf("an act is answered %+v, and not %d, %s", one.got, one.status, one.why)
		}
	}
	if got := f.as(t, "other", http.MethodGet, "/campaigns/q4/items?reviewer=hana", ""); got.status != 403 {
		t.Errorf("another's items: %+v", got)
	}
	for _, one := range []struct {
		who, item string
		status    int
		says      string
	}{
		{"hana", "0", 200, `"rule":"care-team"`}, {"boss", "0", 200, `"facts":[{`},
		{"hana-login", "0", 200, `"reviewer":"hana"`}, {"other", "0", 404, "no item 0 that other reviews"},
		{"boss", "100000", 404, "no item 100000"}, {"hana", "first", 400, "by its number"},
	} {
		got := f.as(t, one.who, http.MethodGet, "/campaigns/q4/items/"+one.item, "")
		if got.status != one.status || !strings.Contains(got.body, one.says) {
			t.Errorf("%s asks for item %s, and is answered %+.300v", one.who, one.item, got)
		}
	}
	if got := f.items(t, "hana-login", "q4", ""); len(got.Groups) != len(all.Groups) {
		t.Errorf("hana is told %d groups of %d", len(got.Groups), len(all.Groups))
	}
	pass := strings.TrimSuffix(actOn(own, all, ""), "}")
	if got := f.as(t, "hana", http.MethodPost, "/campaigns/q4/pass", pass+`,"to":"someone"}`); got.status != 422 {
		t.Errorf("items are passed to nobody: %+v", got)
	}
	if got := f.as(t, "hana", http.MethodPost, "/campaigns/q4/pass", pass+`,"to":"other"}`); got.status != 200 {
		t.Errorf("items are passed: %+v", got)
	}
	if got := try("other", "q4", own); got.status != 200 {
		t.Errorf("who has them now signs: %+v", got)
	}
}
