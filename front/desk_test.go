package main

import (
	"crypto/sha256"
	"encoding/base64"
	"encoding/json"
	"fmt"
	"net/http"
	"reflect"
	"regexp"
	"strings"
	"testing"

	"review-front/desk"
)

// inPage is what a page may not have in itself, since its browser runs nothing of it.
var inPage = regexp.MustCompile(`(?i)<script(?:[^>]*)>[^<]|<style|\sstyle=|\son\w+=|javascript:`)

// leadsTo finds which files of the desk a page or a script names.
var leadsTo = regexp.MustCompile(`(?:href|src)="desk/([^"]+)"|(?:from|import\()\s*'\./([^']+)'`)

// fetched is an answer with its head.
type fetched struct {
	status int
	head   http.Header
	body   string
}

// fetch asks for a path as one who says some fields, by turns their names and what they say.
func (f *front) fetch(t testing.TB, path string, fields ...string) fetched {
	t.Helper()
	request, err := http.NewRequest(http.MethodGet, f.url(path), nil)
	if err != nil {
		t.Fatal(err)
	}
	for i := 0; i+1 < len(fields); i += 2 {
		request.Header.Set(fields[i], fields[i+1])
	}
	got, err := http.DefaultClient.Do(request)
	if err != nil {
		t.Fatal(err)
	}
	status, body := bodyOf(t, got)
	return fetched{status, got.Header, body}
}

// TestDesk asks for the page as a browser does, and as others do; and for each of its files.
func TestDesk(t *testing.T) {
	f := begin(t, t.TempDir())
	for accepted, isPage := range map[string]bool{
		"text/html,application/xhtml+xml,application/xml;q=0.9,*/*;q=0.8": true, "*/*": false, "application/json": false,
		"application/json, text/html;q=0": false, "text/html;q=0.5": true, "text/html; q=0.0": false,
	} {
		told := f.fetch(t, "/", "Accept", accepted)
		got := strings.HasPrefix(told.head.Get("Content-Type"), "text/html")
		if told.status != http.StatusOK || got != isPage {
			t.Errorf("with %s it is %d %s", accepted, told.status, told.head.Get("Content-Type"))
		}
		if isPage && told.head.Get("Content-Security-Policy") != desk.Policy {
			t.Errorf("a page has the policy %s", told.head.Get("Content-Security-Policy"))
		}
	}
	if strings.Contains(desk.Policy, "unsafe") || !strings.HasPrefix(desk.Policy, "default-src 'none';") {
		t.Errorf("a browser lets the page do: %s", desk.Policy)
	}
	there := map[string]bool{}
	for _, name := range desk.Names() {
		there[name] = true
	}
	for name := range there {
		told := f.fetch(t, "/desk/"+name)
		if told.status != http.StatusOK || told.head.Get("Content-Type") == "" || told.head.Get("ETag") == "" {
			t.Errorf("%s is answered %d, %v", name, told.status, told.head)
		}
		again := f.fetch(t, "/desk/"+name, "If-None-Match", told.head.Get("ETag"))
		if again.status != http.StatusNotModified {
			t.Errorf("%s is sent again: %d", name, again.status)
		}
		for _, found := range leadsTo.FindAllStringSubmatch(told.body, -1) {
			if other := found[1] + found[2]; !there[other] {
				t.Errorf("%s names %s, which isn't there", name, other)
			}
		}
		if found := inPage.FindString(told.body); strings.HasSuffix(name, ".html") && found != "" {
			t.Errorf("%s has %s", name, found)
		}
	}
	for _, path := range []string{"/desk/other.js", "/desk/..%2Fdesk.go", "/desk/"} {
		if status, _ := f.get(path); status != http.StatusNotFound {
			t.Errorf("%s is answered %d", path, status)
		}
	}
}

// TestDeskFromElsewhere follows a link to the desk from a page of another site, which may ask for nothing else.
func TestDeskFromElsewhere(t *testing.T) {
	f := begin(t, t.TempDir())
	for path, status := range map[string]int{"/": 200, "/desk/main.js": 200, "/whoami": 403} {
		told := f.fetch(t, path, "Accept", "text/html", "Sec-Fetch-Site", "cross-site")
		if told.status != status {
			t.Errorf("a page of another site gets %d at %s", told.status, path)
		}
	}
}

// himself is what somebody is told of himself.
type himself struct {
	Name     string
	Roles    []string
	Commands []string
}

// TestWhoami asks who one is: with a token, without, and where everybody may everything. The desk's files need none.
func TestWhoami(t *testing.T) {
	known := accessFile(t, `{"role":"few","commands":["who","names"]}`, entry("ann", "few", "metrics"), entry("nobody"))
	f := begin(t, t.TempDir(), "--access", known)
	for path, status := range map[string]int{"/": 200, "/desk/main.js": 200, "/whoami": 401} {
		if told := f.fetch(t, path, "Accept", "text/html"); told.status != status {
			t.Errorf("nobody gets %d at %s", told.status, path)
		}
	}
	if told := f.fetch(t, "/", "Accept", "application/json"); told.status != http.StatusUnauthorized {
		t.Errorf("nobody gets %d for the list of paths", told.status)
	}
	for name, want := range map[string]himself{
		"ann":    {"ann", []string{"few", "metrics"}, []string{"metrics", "names", "who"}},
		"nobody": {"nobody", []string{}, []string{}},
	} {
		var told himself
		err := json.Unmarshal([]byte(f.as(t, name, http.MethodGet, "/whoami", "").body), &told)
		if err != nil || !reflect.DeepEqual(told, want) {
			t.Errorf("%s is told %v, %v", name, told, err)
		}
	}
	open := begin(t, t.TempDir())
	var told himself
	err := json.Unmarshal([]byte(open.must("/whoami")), &told)
	if err != nil || told.Name != "127.0.0.1" || len(told.Roles) > 0 {
		t.Errorf("where everybody may everything one is %v, %v", told, err)
	}
	if !strings.Contains(strings.Join(told.Commands, " "), "attr.set") {
		t.Errorf("and has %v", told.Commands)
	}
}

// TestDigest compares the digest that answers have with that of their bodies, also of one that waits in a file.
func TestDigest(t *testing.T) {
	f := begin(t, t.TempDir())
	f.accept(clinic(t)...)
	for n := 0; n < 30; n++ {
		f.accept(fmt.Sprintf(`{"do":"person.add","name":"one-%d"}`, n))
	}
	for _, path := range []string{
		"/counts", "/table", "/cells/ada/read/rota", "/edits?since=60", "/changes?since=60", "/counts?at=60",
	} {
		told := f.fetch(t, path)
		sum := sha256.Sum256([]byte(told.body + "\n"))
		if want := "sha-256=" + base64.StdEncoding.EncodeToString(sum[:]); told.head.Get("Digest") != want {
			t.Errorf("%s of %d bytes has %q, and is %s", path, len(told.body), told.head.Get("Digest"), want)
		}
		if path == "/table" && len(told.body) < 256<<10 {
			t.Errorf("the table doesn't wait in a file: %d bytes", len(told.body))
		}
	}
}

// TestDocumentCheck has texts of policies checked: what is wrong is told at its line, and what is right isn't.
func TestDocumentCheck(t *testing.T) {
	f := begin(t, t.TempDir())
	const joins = "urn:oasis:names:tc:xacml:3.0:rule-combining-algorithm:deny-unless-permit"
	fit := `{"Policy":{"PolicyId":"p","Version":"1","RuleCombiningAlgId":"` + joins + "\",\n\"Rule\":[\n" +
		"{\"RuleId\":\"r\",\"Effect\":\"Permit\"}\n]}}"
	for text, line := range map[string]int{
		fit: 0, strings.Replace(fit, `"Permit"`, `"Permti"`, 1): 3, strings.Replace(fit, "]}}", "]}", 1): 4,
		"no": 1, `{"Policy":5}`: 1,
	} {
		_, told := f.post("/documents/check", text)
		var read struct{ Faults []struct{ Line int } }
		if err := json.Unmarshal([]byte(told), &read); err != nil || (line == 0) != (len(read.Faults) == 0) {
			t.Errorf("%s: %s", text, told)
		} else if line > 0 && read.Faults[0].Line != line {
			t.Errorf("%s: at another line than %d: %s", text, line, told)
		}
	}
}
