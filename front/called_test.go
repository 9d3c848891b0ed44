package main

import (
	"net/http"
	"strings"
	"testing"
)

// mostPeople is of how many people it may be asked at once what they are called.
const mostPeople = 200

// calling is the line that says what somebody is called, with keys beside.
func calling(person, values, more string) string {
	return `{"do":"attr.set","category":"AccessSubject","entity":"` + person + `","attribute":"displayName",` + more +
		`"values":` + values + `}`
}

// TestCalled has a front tell what people are called, to who may see their values, and to who reviews them: as the
// state has it, and as edits change it.
func TestCalled(t *testing.T) {
	path, access := t.TempDir(), reviewing(t, entry("reader", "read"), entry("signer", "review"))
	f := begin(t, path, "--access", access, "--people-called", "displayName")
	edit := func(lines ...string) {
		t.Helper()
		got := f.as(t, "boss", http.MethodPost, "/lines", strings.Join(lines, "\n")+"\n")
		if got.status != http.StatusOK || strings.Contains(got.body, "refused") {
			t.Fatal(got)
		}
	}
	edit(append(clinic(t), calling("ada", `["A"]`, `"type":"string","module":1,`))...)
	if got := f.as(t, "boss", http.MethodPost, "/campaigns", opening("q4", "rita", "")); got.status != http.StatusOK {
		t.Fatal(got)
	}
	tells := func(want string) {
		t.Helper()
		got := f.as(t, "reader", http.MethodGet, "/called?person=ada&person=bruno&person=emil&person=nobody", "")
		if got.status != http.StatusOK || got.body != `{"called":{`+want+`}}` {
			t.Errorf("people are called %s, and not %s", got.body, want)
		}
	}
	tells(`"ada":"A"`)
	edit(calling("ada", `["Ada <Moss>","B"]`, `"type":"string",`), calling("emil", `[1]`, `"type":"integer",`),
		calling("bruno", `["Bruno"]`, `"type":"string","issuer":"hr",`), calling("bruno", `["B"]`, `"type":"string","module":1,`))
	tells(`"ada":"Ada <Moss>","bruno":"Bruno"`)
	if got := f.items(t, "rita", "q4", ""); len(got.Called) != 2 || got.Called["ada"] != "Ada <Moss>" {
		t.Errorf("who reviews is told that people are called %v", got.Called)
	}
	f.kill()
	f = begin(t, path, "--access", access, "--people-called", "displayName")
	tells(`"ada":"Ada <Moss>","bruno":"Bruno"`)
	edit(calling("ada", `[]`, `"type":"string",`), calling("bruno", `[]`, `"type":"string","issuer":"hr",`))
	tells(`"ada":"A","bruno":"B"`)
	for _, one := range []struct {
		who, path string
		status    int
		says      string
	}{
		{"reader", "/called", 200, `{"called":{}}`}, {"reader", "/whoami", 200, `"called":"displayName"`},
		{"reader", "/called?person=ada" + strings.Repeat("&person=x", mostPeople), 400, "at most 200 people"},
		{"reader", "/called?name=ada", 400, "isn't known here"},
		{"signer", "/called?person=ada", 403, "no role with attributes"},
	} {
		got := f.as(t, one.who, http.MethodGet, one.path, "")
		if got.status != one.status || !strings.Contains(got.body, one.says) {
			t.Errorf("%s asks for %.60s, and is answered %d %.300s", one.who, one.path, got.status, got.body)
		}
	}
}
