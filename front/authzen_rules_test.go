package main

import (
	"encoding/json"
	"net/http"
	"os"
	"path/filepath"
	"strings"
	"testing"
)

// TestAuthzenSeconds asks a policy for the time of the context, in each way in which gateways write a time.
func TestAuthzenSeconds(t *testing.T) {
	file := filepath.Join(t.TempDir(), "authzen.json")
	content := `{"subject":{"user":{}},"resource":{"thing":{}},"context":{"properties":{` +
		`"time":{"attribute":"now","type":"dateTime"},"clock":{"attribute":"clock","type":"time"},` +
		`"text":{"attribute":"text"},"zone":{"attribute":"now","type":"http://www.w3.org/2001/XMLSchema#dateTime"}}}}`
	if err := os.WriteFile(file, []byte(content), 0o600); err != nil {
		t.Fatal(err)
	}
	f := begin(t, t.TempDir(), "--authzen", file)
	f.accept(oneRule(isGiven(environment, "now", "dateTime", `"2024-10-26T01:22:00Z"`))...)
	whole := `{"subject":{"type":"user","id":"a"},"action":{"name":"b"},"resource":{"type":"thing","id":"c"},"context":{`
	for context, want := range map[string]string{
		`"time":"2024-10-26T01:22:00Z"`:                            `{"decision":true`,
		`"time":"2024-10-26T01:22:00.123Z"`:                        `{"decision":true`,
		`"time":"2024-10-26T01:22:00.999999999Z"`:                  `{"decision":true`,
		`"time":"2024-10-26T01:22Z"`:                               `{"decision":true`,
		`"time":"2024-10-25T18:22-07:00"`:                          `{"decision":true`,
		`"time":"2024-10-26T03:22:00.5+02:00"`:                     `{"decision":true`,
		`"time":["1985-10-26T01:22-07:00","2024-10-26T01:22:00Z"]`: `{"decision":true`,
		`"zone":"2024-10-26T01:22:00.123Z"`:                        `{"decision":true`,
		`"time":"1985-10-26T01:22-07:00"`:                          `{"decision":false`,
		`"time":"2024-10-26T01:22:01.000Z"`:                        `{"decision":false`,
		`"time":"2024-10-26T01:21:59.999Z"`:                        `{"decision":false`,
		`"clock":"01:22"`:                                          `{"decision":false`,
		`"clock":["01:22:00.5","01:22Z"]`:                          `{"decision":false`,
		`"text":"2024-10-26T01:22:00.123Z"`:                        `{"decision":false`,
		`"time":"2024-10-26T01:22.5Z"`:                             `"/context/time: it is no dateTime`,
		`"time":"2024-10-26T01:22:00.Z"`:                           `"/context/time: it is no dateTime`,
		`"time":"2024-10-26"`:                                      `"/context/time: it is no dateTime`,
		`"time":"2024-10-26T24:00Z"`:                               `"/context/time: it is no dateTime`,
		`"time":"2024-10-26T01:22:60.5Z"`:                          `"/context/time: it is no dateTime`,
		`"time":"2024-10-26T01:22-15:00"`:                          `"/context/time: an offset is at most 14:00`,
		`"time":"01:22"`:                                           `"/context/time: it is no dateTime`,
		`"clock":"2024-10-26T01:22Z"`:                              `"/context/clock: it is no time`,
		`"clock":"01:22+01:00"`:                                    `"/context/clock: an offset of a time isn't here`,
		`"time":["2024-10-26T01:22Z",7]`:                           `"/context/time/1: a number is of type integer`,
	} {
		if _, body := f.post("/access/v1/evaluation", whole+context+"}}"); !strings.HasPrefix(body, want) {
			t.Errorf("with %s it is answered %s, and not %s", context, body, want)
		}
	}
	if told := f.must("/openapi.json"); strings.Count(told, "a fraction of a second is cut") != 5 {
		t.Errorf("that fractions are cut is told %d times", strings.Count(told, "a fraction of a second is cut"))
	}
}

// TestAuthzenRules has what is wrong be told by AuthZEN's rules whatever it is: as one text, by a status of its own, with
// the id of the request.
func TestAuthzenRules(t *testing.T) {
	gives := `,"gives":{"AccessSubject":["*"],"Action":["*"],"Resource":["urn:oasis:names:tc:xacml:1.0:resource:resource-id"]}}`
	f := begin(t, t.TempDir(), "--authzen", filepath.Join(todoFolder, "authzen.json"), "--access", accessFile(t,
		entry("all", "ask", "read"), entry("none"), strings.TrimSuffix(entry("pep", "ask"), "}")+gives))
	owned := strings.Replace(todoQuestion, `"id":"milk"`, `"id":"milk","properties":{"ownerID":"x"}`, 1)
	for _, one := range []struct {
		who, method, path, body string
		fields                  []string
		status                  int
		want                    string // how the text begins
	}{
		{"nobody", "POST", "evaluation", todoQuestion, nil, 401, "the token isn't known"},
		{"nobody", "POST", "search/action", todoQuestion, nil, 401, "the token isn't known"},
		{"none", "POST", "evaluation", todoQuestion, nil, 403, "none has no role with ask"},
		{"none", "POST", "evaluations", `{"evaluations":[` + todoQuestion + `]}`, nil, 403, "none has no role with ask"},
		{"none", "POST", "search/subject", todoQuestion, nil, 403, "none has no role with cells"},
		{"pep", "POST", "evaluation", owned, nil, 403, `a request may not give "owner" of`},
		{"all", "POST", "evaluation", todoQuestion + strings.Repeat(" ", 1<<20), nil, 413, "a line has at most 1,048,576 bytes"},
		{"all", "POST", "search/subject", strings.Repeat(" ", 1<<20+1), nil, 413, "a line has at most 1,048,576 bytes"},
		{"all", "GET", "evaluation", "", nil, 405, "no such method"},
		{"all", "POST", "nothing", todoQuestion, nil, 404, "GET / lists the paths"},
		{"all", "POST", "evaluation", todoQuestion, []string{"Origin", "https://other.example"}, 403, "a page of another site asks"},
		{"all", "POST", "evaluation", todoQuestion, []string{"Host", "other.example"}, 421, "the front isn't asked as this host"},
		{"all", "POST", "evaluation", todoQuestion, []string{"Content-Type", "text/plain"}, 415, "a request is application/json"},
		{"all", "POST", "evaluation", todoQuestion, []string{"Review-At-Least", "x"}, 400, "Review-At-Least is one serial"},
		{"all", "POST", "evaluation", `7`, nil, 400, "the body isn't an object"},
		{"all", "POST", "evaluation", `{`, nil, 400, "it isn't JSON"},
		{"all", "POST", "search/subject", `[]`, nil, 400, "the body isn't an object"},
		{"all", "POST", "evaluations", `{"evaluations":7}`, nil, 400, "/evaluations: it isn't a list"},
	} {
		asked, err := http.NewRequest(one.method, f.url("/access/v1/"+one.path), strings.NewReader(one.body))
		if err != nil {
			t.Fatal(err)
		}
		asked.Header.Set("Content-Type", "application/json")
		asked.Header.Set("X-Request-ID", "bfe9eb29")
		asked.Header.Set("Authorization", "Bearer "+tokenOf(one.who))
		for i := 0; i < len(one.fields); i += 2 {
			if one.fields[i] == "Host" {
				asked.Host = one.fields[i+1]
			}
			asked.Header.Set(one.fields[i], one.fields[i+1])
		}
		answer, err := http.DefaultClient.Do(asked)
		if err != nil {
			t.Fatal(err)
		}
		status, body := bodyOf(t, answer)
		var text string
		if err := json.Unmarshal([]byte(body), &text); err != nil || status != one.status || !strings.HasPrefix(text, one.want) {
			t.Errorf("%s, %s of %s: %d %s, and not %d %s", one.who, one.path, beginning(one.body), status, body, one.status, one.want)
		}
		if answer.Header.Get("X-Request-ID") != "bfe9eb29" || answer.Header.Get("Content-Type") != "application/json" ||
			status == 401 && answer.Header.Get("WWW-Authenticate") != "Bearer" {
			t.Errorf("%s of %s: the head is %v", one.path, beginning(one.body), answer.Header)
		}
	}
	if got := f.as(t, "none", http.MethodGet, "/counts", ""); !strings.Contains(got.body, `"title":"not allowed"`) {
		t.Errorf("at another path it is %+v", got)
	}
}

// beginning is the beginning of a body.
func beginning(body string) string {
	if len(body) > 90 {
		return body[:90]
	}
	return body
}
