package check

import (
	"encoding/json"
	"errors"
	"net/http"
	"net/http/httptest"
	"strings"
	"testing"
)

// accounts is a file as tests use it.
const accounts = `{
	"request": {"method": "X-Method", "uri": "X-Uri"},
	"subject": {"header": "X-User", "prefix": "user:"},
	"actions": {"GET": "read", "HEAD": "read", "POST": "create"},
	"paths": [
		{"path": "/"},
		{"path": "/files/{name}/raw/", "resource": "file:{name}"},
		{"path": "/accounts/{id}/**", "resource": "account:{id}", "parts": {"id": {"attribute": "number", "type": "integer"}}},
		{"path": "/accounts/{id}", "resource": "account:{id}", "actions": {"DELETE": "close"}, "parts": {"id": null}},
		{"path": "/pairs/{a}/{b}", "resource": "{a}:{b}"},
		{"path": "/public/**"},
		{"path": "/any/*/end"}
	],
	"obligations": {"log": {"header": "X-Log", "values": {"level": "X-Level", "who": "X-Who"}}, "tell": {"header": "X-Tell"}}
}`

// mapped reads a file that can be read.
func mapped(t *testing.T, content string) *Mapping {
	t.Helper()
	m, err := Read([]byte(content), "")
	if err != nil {
		t.Fatal(err)
	}
	return m
}

// told asks as a proxy, and is what is asked, or the reason.
func told(m *Mapping, method, uri string, fields ...string) string {
	r := httptest.NewRequest("GET", "/check", nil)
	r.RequestURI = "/check"
	for name, value := range map[string]string{"X-Method": method, "X-Uri": uri} {
		r.Header.Set(name, value)
	}
	for i := 0; i+1 < len(fields); i += 2 {
		r.Header[fields[i]] = append(r.Header[fields[i]], fields[i+1])
	}
	request, no := m.Asked(r, Known{})
	if no != nil {
		return http.StatusText(no.Status) + ": " + no.Reason
	}
	return brief(request)
}

// brief has the values of a request, by their ids.
func brief(request []byte) string {
	var read struct {
		Request struct {
			Category []struct {
				Attribute []struct {
					AttributeId, DataType string
					Value                 []any
				}
			}
		}
	}
	if err := json.Unmarshal(request, &read); err != nil {
		return err.Error()
	}
	var words []string
	for _, category := range read.Request.Category {
		for _, one := range category.Attribute {
			id := one.AttributeId[strings.LastIndex(one.AttributeId, ":")+1:]
			written, _ := json.Marshal(one.Value)
			words = append(words, id+"="+string(written))
		}
	}
	return strings.Join(words, " ")
}

// TestAsked asks as a proxy, and sees what is asked of the program.
func TestAsked(t *testing.T) {
	m := mapped(t, accounts)
	for _, one := range [][3]string{
		{"GET", "/accounts/7/notes/3", `action-id=["read"] resource-id=["account:7"] number=["7"] rest=["notes/3"]`},
		{"DELETE", "/accounts/7", `action-id=["close"] resource-id=["account:7"]`},
		{"POST", "/files/a%20b/raw/?x=1&y=%2f", `action-id=["create"] resource-id=["file:a b"] name=["a b"]`},
		{"GET", "/", `action-id=["read"] resource-id=["/"]`},
		{"GET", "/?a=b", `action-id=["read"] resource-id=["/"]`},
		{"GET", "/public/%C3%A4/b@c", `action-id=["read"] resource-id=["/public/ä/b@c"] rest=["ä/b@c"]`},
		{"GET", "/public/b%40c", `action-id=["read"] resource-id=["/public/b@c"] rest=["b@c"]`},
		{"GET", "/any/7/end", `action-id=["read"] resource-id=["/any/7/end"]`},
		{"GET", "/pairs/x/y", `action-id=["read"] resource-id=["x:y"] a=["x"] b=["y"]`},
	} {
		if got, want := told(m, one[0], one[1], "X-User", "ann"), `subject-id=["user:ann"] `+one[2]; got != want {
			t.Errorf("%s %s is asked as %s, and not %s", one[0], one[1], got, want)
		}
	}
}

// TestRefused asks what isn't asked of the program.
func TestRefused(t *testing.T) {
	m := mapped(t, accounts)
	for _, one := range [][3]string{
		{"GET", "/other", "no pattern covers the path"},
		{"GET", "/accounts/7/", "no pattern covers the path"},
		{"GET", "/accounts/7/notes/", "no pattern covers the path"},
		{"GET", "/accounts/x/notes", "a part of the path: id: it is no whole number"},
		{"GET", "/Accounts/7/notes", "no pattern covers the path"},
		{"GET", "/public", "no pattern covers the path"},
		{"GET", "/any/7/8/end", "no pattern covers the path"},
		{"GET", "/accounts/7", "the method isn't known for this path"},
		{"PUT", "/accounts/7/a", "the method isn't known for this path"},
		{"get", "/accounts/7/a", "the method isn't known for this path"},
		{"GET", "/pairs/x:y/z", "a part of the path has what divides the resource's name"},
		{"GET", "/public/" + strings.Repeat("x", 300), "the resource's name is longer than 256 bytes"},
		{"GET", "//public/a", "the path has two slashes in a row"},
		{"GET", "/public//a", "the path has two slashes in a row"},
		{"GET", "/public/../a", "a part of the path is of dots, or ends with one"},
		{"GET", "/public/./a", "a part of the path is of dots, or ends with one"},
		{"GET", "/public/...", "a part of the path is of dots, or ends with one"},
		{"GET", "/public/a.", "a part of the path is of dots, or ends with one"},
		{"GET", "/public/%2e%2e/a", "the path has an escape of a sign that divides paths, or needs none"},
		{"GET", "/public/%2E./a", "the path has an escape of a sign that divides paths, or needs none"},
		{"GET", "/public%2fa", "the path has an escape of a sign that divides paths, or needs none"},
		{"GET", "/public/a%5cb", "the path has an escape of a sign that divides paths, or needs none"},
		{"GET", "/public/a%3bb", "the path has an escape of a sign that divides paths, or needs none"},
		{"GET", "/public/a%3fb", "the path has an escape of a sign that divides paths, or needs none"},
		{"GET", "/public/a%23b", "the path has an escape of a sign that divides paths, or needs none"},
		{"GET", "/public/a%00b", "the path has an escape of a sign that divides paths, or needs none"},
		{"GET", "/public/%252e", "the path has an escape of a sign that divides paths, or needs none"},
		{"GET", "/public/%61", "the path has an escape of a sign that divides paths, or needs none"},
		{"GET", "/public/%0a", "the path has an escape of a sign that divides paths, or needs none"},
		{"GET", "/public/%u002f", "the path has an escape that is none"},
		{"GET", "/public/%2", "the path has an escape that is none"},
		{"GET", "/public/%", "the path has an escape that is none"},
		{"GET", "/public/a;b", "the path has a sign that has to be an escape"},
		{"GET", "/public/a+b", "the path has a sign that has to be an escape"},
		{"GET", "/public/a\\b", "the path has a sign that has to be an escape"},
		{"GET", "/public/a#b", "the path has a sign that has to be an escape"},
		{"GET", "/public/a b", "the path has a sign that has to be an escape"},
		{"GET", "/public/\u00e4", "the path has a sign that has to be an escape"},
		{"GET", "/public/%C0%AE", "the path isn't UTF-8"},
		{"GET", "/public/%EF%BC%8F", "the path has a sign that isn't seen, or looks like another"},
		{"GET", "/public/a%E2%80%8B", "the path has a sign that isn't seen, or looks like another"},
		{"GET", "/public/a%20", "a part of the path begins or ends with a blank"},
		{"GET", "http://host/public/a", "the path doesn't begin with a slash"},
		{"OPTIONS", "*", "the path doesn't begin with a slash"},
		{"GET", "/public/a?_method=DELETE", "the query names another method"},
		{"GET", "/public/a?b=c&%5Fmethod=DELETE", "the query names another method"},
		{"GET", "/public/a?b=c;_METHOD=DELETE", "the query names another method"},
		{"GET", "/public/a?%zz", "the query has an escape that is none"},
	} {
		if got, want := told(m, one[0], one[1], "X-User", "ann"), "Forbidden: "+one[2]; got != want {
			t.Errorf("%s %s: %s, and not %s", one[0], one[1], got, want)
		}
	}
	for want, fields := range map[string][]string{
		"Unauthorized: nothing says who asks":                               nil,
		"Unauthorized: the name is too long, or has signs that aren't seen": {"X-User", "an\u200bn"},
		"Forbidden: the field X-User stands twice":                          {"X-User", "ann", "X-User", "bob"},
		"Forbidden: the field X-Uri stands twice":                           {"X-User", "ann", "X-Uri", "/public/b"},
		"Forbidden: the field X-Method stands twice":                        {"X-User", "ann", "X_method", "GET"},
		"Forbidden: the field X-Http-Method-Override names another request": {"X-User", "ann", "X-Http-Method-Override", "PUT"},
		"Forbidden: the field X-Original-Url names another request":         {"X-User", "ann", "X-Original-Url", "/admin"},
	} {
		if got := told(m, "GET", "/public/a", fields...); got != want {
			t.Errorf("with %v: %s, and not %s", fields, got, want)
		}
	}
	if got := told(m, "", "/public/a", "X-User", "ann"); got != "Forbidden: the proxy says no X-Method" {
		t.Error(got)
	}
}

// TestCase has a server that takes upper and lower case for the same.
func TestCase(t *testing.T) {
	m := mapped(t, strings.Replace(accounts, `"subject"`, `"case": "same", "subject"`, 1))
	want := `subject-id=["user:Ann"] action-id=["read"] resource-id=["/public/a"] rest=["a"]`
	if got := told(m, "GET", "/PUBLIC/A", "X-User", "Ann"); got != want {
		t.Error(got)
	}
	for uri, doubtful := range map[string]bool{
		"/public/%C3%A4": false, "/public/%C3%84": true, "/public/%E2%84%AA": true, "/public/%C5%BF": true, "/public/%C4%B1": true,
	} {
		got := told(m, "GET", uri, "X-User", "Ann")
		if got == "Forbidden: the path has a sign whose case servers take in several ways" != doubtful {
			t.Errorf("%s: %s", uri, got)
		}
	}
}

// TestBehind has the request itself tell what is asked.
func TestBehind(t *testing.T) {
	m := mapped(t, strings.Replace(accounts, `"request": {"method": "X-Method", "uri": "X-Uri"},`, "", 1))
	for target, want := range map[string]string{
		"/check/public/a?b=c": `subject-id=["user:ann"] action-id=["create"] resource-id=["/public/a"] rest=["a"]`,
		"/check//public/a":    "the path has two slashes in a row",
		"/check":              "the path doesn't begin with a slash",
	} {
		r := httptest.NewRequest("POST", "/", nil)
		r.RequestURI = target
		r.Header.Set("X-User", "ann")
		request, no := m.Asked(r, Known{})
		if no != nil && no.Reason != want || no == nil && brief(request) != want {
			t.Errorf("%s: %s %v", target, brief(request), no)
		}
	}
}

// TestTokens has the claims of a token say who asks.
func TestTokens(t *testing.T) {
	m := mapped(t, strings.Replace(accounts, `{"header": "X-User", "prefix": "user:"}`,
		`{"token": "Authorization", "claims": {"groups": {"attribute": "group"}, "age": {"attribute": "age", "type": "integer"}}}`, 1))
	known := Known{Claims: func(token string) (map[string][]string, error) {
		switch token {
		case "a.b.c":
			return map[string][]string{"sub": {"ann"}, "groups": {"desk", "ward"}}, nil
		case "two":
			return map[string][]string{"sub": {"ann", "bob"}}, nil
		}
		return nil, errors.New("it isn't signed")
	}}
	for written, want := range map[string]string{
		"Bearer a.b.c": `subject-id=["ann"] group=["desk","ward"] action-id=["read"] resource-id=["/public/a"] rest=["a"]`,
		"bearer a.b.c": `subject-id=["ann"] group=["desk","ward"] action-id=["read"] resource-id=["/public/a"] rest=["a"]`,
		"Bearer d.e.f": "it isn't signed",
		"Bearer two":   "the token has no such claim, or several",
		"Basic YTpi":   "the field Authorization has no bearer token",
		"a.b.c":        "the field Authorization has no bearer token",
		"":             "nothing says who asks",
	} {
		r := httptest.NewRequest("GET", "/check", nil)
		for name, value := range map[string]string{"X-Method": "GET", "X-Uri": "/public/a", "Authorization": written} {
			r.Header.Set(name, value)
		}
		request, no := m.Asked(r, known)
		if no != nil && (no.Reason != want || no.Status != 401 || no.Challenge != "Bearer") || no == nil && brief(request) != want {
			t.Errorf("%q: %s %v", written, brief(request), no)
		}
	}
}

// TestOutcome sees what is passed on by a response, and what is handed over.
func TestOutcome(t *testing.T) {
	m := mapped(t, accounts)
	response := func(decision, duties string) string {
		return `{"Response":[{"Decision":"` + decision + `","Status":{"StatusCode":{"Value":"s"}},"Obligations":[` + duties + `]}]}`
	}
	level := `{"Id":"log","AttributeAssignment":[{"AttributeId":"level","Value":3},{"AttributeId":"who","Value":["a, b","ä% "]}]}`
	for _, one := range []struct {
		response, reason string
		status           int
		fields           string
	}{
		{response("Permit", ""), "Permit", 204, "{}"},
		{response("Permit", level), "Permit", 204, `{"X-Level":"3","X-Log":"log","X-Who":"a%2C b, %C3%A4%25%20"}`},
		{response("Permit", level+","+level), "Permit", 204, `{"X-Level":"3","X-Log":"log","X-Who":"a%2C b, %C3%A4%25%20"}`},
		{response("Permit", level+","+strings.Replace(level, "3", "4", 1)), "the obligation log comes twice", 403, "null"},
		{response("Permit", `{"Id":"tell"}`), "Permit", 204, `{"X-Tell":"tell"}`},
		{response("Permit", `{"Id":"shred"}`), "the obligation shred isn't known", 403, "null"},
		{response("Permit", `{"Id":"shred"},`+level), "the obligation shred isn't known", 403, "null"},
		{response("Permit", strings.Replace(level, "level", "depth", 1)), "depth of the obligation log isn't known", 403, "null"},
		{response("Deny", `{"Id":"tell"},{"Id":"shred"}`), "Deny", 403, `{"X-Tell":"tell"}`},
		{response("NotApplicable", ""), "NotApplicable", 403, "{}"},
		{response("Indeterminate", ""), "Indeterminate: s", 403, "{}"},
		{`{"Response":[]}`, "the response can't be read", 403, "null"},
		{`{"refused":14}`, "the response can't be read", 403, "null"},
	} {
		got := m.Outcome([]byte(one.response))
		fields, _ := json.Marshal(got.Fields)
		if got.Status != one.status || got.Reason != one.reason || string(fields) != one.fields {
			t.Errorf("%s: %+v %s", one.response, got, fields)
		}
	}
}

// TestFaults reads files that can't be meant, and sees that it is told where.
func TestFaults(t *testing.T) {
	for _, one := range [][3]string{
		{`"request"`, `"requests"`, "/requests: the key requests isn't known here"},
		{`"subject"`, `"case": "any", "subject"`, "/case: it is exact or same"},
		{`"subject"`, `"permit": 201, "subject"`, "/permit: it is 200 or 204"},
		{`"X-Uri"}`, `"X-Uri", "uri": "X-Uri"}`, `line 2: the key "uri" stands twice`},
		{`"X-Uri"}`, `"X-Uri"`, "line "},
		{`"X-Uri"}`, `"X-Method"}`, "a field has two meanings"},
		{`"X-Uri"}`, `"X Uri"}`, "/request/uri: a field's name has letters, digits and dashes"},
		{`"X-User"`, `"X-Uri"`, "a field has two meanings"},
		{`"header": "X-User"`, `"header": "X-User", "token": "Authorization"`, "/subject: one of header, token and certificate"},
		{`"header": "X-User"`, `"certificate": "X-Cert"`, "/subject: certificate and authority go together"},
		{`"header": "X-User"`, `"header": "X-User", "claims": {"a": {"attribute": "b"}}`, "/subject: claims are those of a token"},
		{`"GET"`, `"get"`, `/actions: the method "get" isn't in upper case`},
		{`"/public/**"`, `"public/**"`, "/paths/5: a path begins with a slash"},
		{`"/public/**"`, `"/**/a"`, "/paths/5: ** stands at the end alone"},
		{`"/public/**"`, `"/a//b"`, `/paths/5: the part "" stands in no path`},
		{`"/public/**"`, `"/a/../b"`, `/paths/5: the part ".." stands in no path`},
		{`"/public/**"`, `"/a%20b"`, `/paths/5: the part "a%20b" is neither a text`},
		{`"/public/**"`, `"/{a}/{a}"`, "/paths/5: the part {a} has no name of its own"},
		{`"/public/**"`, `"/a{b}"`, `/paths/5: the part "a{b}" is neither a text`},
		{`"/public/**"`, `"/"`, "/paths/5: the path / stands above already"},
		{`"{a}:{b}"`, `"{a}{b}"`, "/paths/4: the resource: nothing stands between two names"},
		{`"{a}:{b}"`, `"{a}:{c}"`, "/paths/4: the resource: the path has no part {c}"},
		{`{"id": null}`, `{"no": null}`, "/paths/3/parts/no: the path has no part {no}"},
		{`"type": "integer"`, `"type": "double"`, `/paths/2/parts/id: the type "double" isn't here`},
		{`"X-Level"`, `"X-Log"`, "/obligations/log/values/level: the field X-Log has another meaning"},
		{`"X-Tell"`, `"Reason"`, "/obligations/tell/header: the field Reason has another meaning"},
		{`{"header": "X-Tell"}`, `{}`, "/obligations/tell: no field hands it over"},
	} {
		changed := strings.Replace(accounts, one[0], one[1], 1)
		if _, err := Read([]byte(changed), ""); err == nil || !strings.HasPrefix(err.Error(), one[2]) {
			t.Errorf("with %s it is told %v, and not %s", one[1], err, one[2])
		}
	}
}
