package main

import (
	"fmt"
	"net/http"
	"os"
	"path/filepath"
	"strings"
	"testing"
	"time"
)

// checked is a file as proxies of tests ask by it: ann may read what is public, and account 1.
const checked = `{
	"request": {"method": "X-Forwarded-Method", "uri": "X-Forwarded-Uri"},
	"subject": {"header": "X-User"},
	"actions": {"GET": "read", "HEAD": "read", "POST": "write", "PUT": "write", "DELETE": "write"},
	"paths": [
		{"path": "/public/**", "resource": "public"},
		{"path": "/accounts/{id}", "resource": "account:{id}"},
		{"path": "/accounts/{id}/**", "resource": "account:{id}"},
		{"path": "/admin/**", "resource": "admin"},
		{"path": "/told/{id}", "resource": "told"},
		{"path": "/shredded/{id}", "resource": "shredded"}
	],
	"obligations": {"log": {"header": "X-Duty", "values": {"level": "Privacy-Record"}}}
}`

// resourceCategory is that of resources.
const resourceCategory = "urn:oasis:names:tc:xacml:3.0:attribute-category:resource"

// names are conditions that a request has one of some names.
func named(category, attribute string, names ...string) string {
	var all []string
	for _, one := range names {
		all = append(all, isGiven(category, attribute, "string", fmt.Sprintf("%q", one)))
	}
	return `{"Apply":{"FunctionId":"urn:oasis:names:tc:xacml:1.0:function:or","Arguments":[` + strings.Join(all, ",") + `]}}`
}

// ruleFor permits somebody to read some resources, with an obligation if there is one.
func ruleFor(id, who, obligation string, resources ...string) string {
	duty := ""
	if obligation != "" {
		duty = `,"ObligationExpressions":[{"ObligationId":"` + obligation + `","FulfillOn":"Permit",` +
			`"AttributeAssignmentExpression":[{"AttributeId":"level","Expression":` +
			`{"AttributeValue":{"DataType":"integer","Value":3}}}]}]`
	}
	return `{"RuleId":"` + id + `","Effect":"Permit","Condition":{"Apply":{"FunctionId":` +
		`"urn:oasis:names:tc:xacml:1.0:function:and","Arguments":[` +
		named(subjectCategory, "urn:oasis:names:tc:xacml:1.0:subject:subject-id", who) + "," +
		named(actionCategory, "urn:oasis:names:tc:xacml:1.0:action:action-id", "read") + "," +
		named(resourceCategory, "urn:oasis:names:tc:xacml:1.0:resource:resource-id", resources...) + `]}}` + duty + `}`
}

// checkedState are the lines of what ann may.
func checkedState() []string {
	rules := []string{
		ruleFor("plain", "ann", "", "public", "account:1"), ruleFor("told", "ann", "log", "told"),
		ruleFor("shredded", "ann", "shred", "shredded"),
	}
	return []string{
		`{"do":"policy.add","document":{"Policy":{"PolicyId":"p","Version":"1","RuleCombiningAlgId":` +
			`"urn:oasis:names:tc:xacml:3.0:rule-combining-algorithm:deny-unless-permit","Rule":[` + strings.Join(rules, ",") + `]}}}`,
		`{"do":"root.set","reference":{"PolicyIdReference":{"Id":"p"}}}`,
	}
}

// checkFile writes a file by which proxies ask.
func checkFile(t testing.TB, content string) string {
	t.Helper()
	file := filepath.Join(t.TempDir(), "check.json")
	if err := os.WriteFile(file, []byte(content), 0o600); err != nil {
		t.Fatal(err)
	}
	return file
}

// checks asks as a proxy, and gives the answer.
func (f *front) checks(method, uri string, fields ...string) *http.Response {
	f.t.Helper()
	asked, err := http.NewRequest(http.MethodGet, f.url("/check"), nil)
	if err != nil {
		f.t.Fatal(err)
	}
	asked.Header.Set("X-Forwarded-Method", method)
	asked.Header.Set("X-Forwarded-Uri", uri)
	for i := 0; i+1 < len(fields); i += 2 {
		asked.Header.Add(fields[i], fields[i+1])
	}
	answer, err := http.DefaultClient.Do(asked)
	if err != nil {
		f.t.Fatal(err)
	}
	answer.Body.Close()
	return answer
}

// TestCheck asks as a proxy: the status says whether a request is passed on, a field why, and others hand obligations
// over.
func TestCheck(t *testing.T) {
	file := checkFile(t, checked)
	f := begin(t, t.TempDir(), "--check", file)
	f.accept(checkedState()...)
	for _, one := range []struct {
		method, uri, user string
		status            int
		reason, level     string
	}{
		{"GET", "/public/a", "ann", 204, "", ""},
		{"HEAD", "/accounts/1/notes", "ann", 204, "", ""},
		{"GET", "/told/7", "ann", 204, "", "3"},
		{"GET", "/shredded/7", "ann", 403, "the obligation shred isn't known", ""},
		{"POST", "/public/a", "ann", 403, "Deny", ""},
		{"GET", "/accounts/2", "ann", 403, "Deny", ""},
		{"GET", "/public/a", "bob", 403, "Deny", ""},
		{"GET", "/public/../admin/x", "ann", 403, "a part of the path is of dots, or ends with one", ""},
		{"GET", "/nothing", "ann", 403, "no pattern covers the path", ""},
		{"GET", "/public/a", "", 401, "nothing says who asks", ""},
	} {
		got := f.checks(one.method, one.uri, "X-User", one.user)
		if got.StatusCode != one.status || got.Header.Get("Reason") != one.reason ||
			got.Header.Get("Privacy-Record") != one.level {
			t.Errorf("%v is answered %d %v", one, got.StatusCode, got.Header)
		}
		if got.Header.Get("Cache-Control") != "no-store" {
			t.Errorf("%v may be kept: %v", one, got.Header)
		}
	}
	link := f.checks("GET", "/public/a", "X-User", "ann", "Sec-Fetch-Site", "cross-site", "Origin", "https://x")
	if link.StatusCode != http.StatusNoContent {
		t.Errorf("a link of another site leads to %d %v", link.StatusCode, link.Header)
	}
	if status, _ := f.post("/check", ""); status != http.StatusMethodNotAllowed {
		t.Errorf("POST is answered %d", status)
	}
	if told := f.must("/openapi.json"); !strings.Contains(told, `"/check"`) {
		t.Error("the document hasn't the path")
	}
	changed := strings.Replace(checked, `{"log"`, `{"shred": {"values": {"level": "X-Shred"}}, "log"`, 1)
	for i, content := range []string{"{", changed} {
		if err := os.WriteFile(file, []byte(content), 0o600); err != nil {
			t.Fatal(err)
		}
		f.hangUp([]string{"how proxies ask can't be read again", "how proxies ask was read again"}[i])
		if got := f.checks("GET", "/shredded/7", "X-User", "ann").StatusCode; got != []int{403, 204}[i] {
			t.Errorf("behind change %d it is answered %d", i, got)
		}
	}
}

// TestCheckClinic asks about each record of the clinic as the example's file has it, and sees that what is passed on is
// what the table permits, that the one obligation is handed over, and that each decision is kept.
func TestCheckClinic(t *testing.T) {
	kept := t.TempDir()
	f := begin(t, t.TempDir(), "--check", filepath.Join("..", "examples", "proxies", "check.json"), "--decisions", kept)
	f.accept(clinic(t)...)
	asked := map[string][2]string{
		"read": {"GET", ""}, "write": {"PUT", ""}, "discharge": {"DELETE", ""}, "break-glass": {"GET", "/emergency"},
	}
	permits, handed, count := 0, 0, 0
	for _, one := range f.table() {
		how, there := asked[one.Action]
		patient := strings.TrimPrefix(one.Resource, "record-")
		if !there || patient == one.Resource {
			continue
		}
		count++
		got := f.checks(how[0], "/records/"+patient+how[1], "X-User", one.Person)
		if (got.StatusCode == http.StatusNoContent) != (one.Decision == "Permit") {
			t.Errorf("%v is answered %d %v", one, got.StatusCode, got.Header)
		}
		if got.StatusCode == http.StatusNoContent {
			permits++
		}
		if got.Header.Get("Privacy-Who") == one.Person && got.Header.Get("Privacy-Record") == one.Resource {
			handed++
		}
	}
	if permits == 0 || handed == 0 {
		t.Errorf("%d requests are passed on, of which %d have the obligation", permits, handed)
	}
	f.stop()
	files, err := filepath.Glob(filepath.Join(kept, "*"))
	if err != nil || len(files) != 1 {
		t.Fatal(files, err)
	}
	written, err := os.ReadFile(files[0])
	if got := strings.Count(string(written), `"path":"/check"`); err != nil || got != count {
		t.Errorf("of %d decisions %d are kept, %v", count, got, err)
	}
}

// TestCheckTokens has the token of an issuer say who asks: whoever has none, or one of somebody else's, gets 401 and
// how he may show who he is; who has no role may not ask.
func TestCheckTokens(t *testing.T) {
	s, folder := newSigner(t), t.TempDir()
	page := enforcing(t)
	subject := `{"token": "Authorization", "claims": ` + inline(t, page, `{"groups":`) + `}`
	file := checkFile(t, strings.Replace(checked, `{"header": "X-User"}`, subject, 1))
	before := begin(t, folder)
	before.accept(checkedState()...)
	before.stop()
	access := accessFile(t, inline(t, page, `{"claim":{"scope":"app"}`), `{"claim":{"scope":"none"},"roles":[]}`)
	f := begin(t, folder, append(s.options(), "--check", file, "--access", access)...)
	token := func(of *signer, who, scope string, ends time.Duration) string {
		claims := map[string]any{"scope": scope, "groups": []string{"ward"}}
		return "Bearer " + of.token(t, who, time.Now().Add(ends), nil, claims)
	}
	for _, one := range []struct {
		token  string
		status int
	}{
		{token(s, "ann", "app", time.Hour), 204}, {token(s, "bob", "app", time.Hour), 403},
		{token(s, "ann", "none", time.Hour), 403}, {token(s, "ann", "app", -time.Hour), 401},
		{token(newSigner(t), "ann", "app", time.Hour), 401}, {"", 401},
	} {
		got := f.checks("GET", "/public/a", "Authorization", one.token)
		if got.StatusCode != one.status || (got.Header.Get("Reason") == "") != (one.status == 204) ||
			(got.Header.Get("Www-Authenticate") == "Bearer") != (one.status == 401) {
			t.Errorf("%s is answered %d %v", one.token, got.StatusCode, got.Header)
		}
	}
	lone := launch(t, t.TempDir(), "--check", file)
	if status := lone.status(); status != 1 || !strings.Contains(lone.log(), "which needs --issuer") {
		t.Errorf("without an issuer the front ends with %d", status)
	}
}
