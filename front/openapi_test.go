package main

import (
	"encoding/json"
	"net/http"
	"path/filepath"
	"strconv"
	"strings"
	"testing"
)

// document is as much of an OpenAPI document as is compared.
type document struct {
	OpenAPI string
	Paths   map[string]map[string]struct {
		Summary    string
		Parameters []struct {
			Name, In string
			Required bool
		}
		RequestBody struct{ Content map[string]any }
		Responses   map[string]struct {
			Content map[string]struct {
				Schema struct{ Required []string }
			}
		}
	}
}

// sent has, of each path and method that takes a body or isn't read by GET, where it is asked, and what is sent.
var sent = map[string][2]string{
	"POST /authorize":                        {"/authorize", `{"Request":{}}`},
	"POST /lines":                            {"/lines", `{"do":"counts"}`},
	"POST /commands/{command}":               {"/commands/counts", ""},
	"POST /k8s/authorize":                    {"/k8s/authorize", podsReview},
	"POST /sessions":                         {"/sessions", ""},
	"POST /sessions/{session}/lines":         {"{session}/lines", `{"do":"counts"}`},
	"POST /sessions/{session}/mark":          {"{session}/mark", ""},
	"GET /sessions/{session}/notices":        {"{session}/notices", ""},
	"DELETE /sessions/{session}":             {"{session}", ""},
	"POST /access/v1/evaluation":             {"/access/v1/evaluation", todoQuestion},
	"POST /access/v1/evaluations":            {"/access/v1/evaluations", todoQuestion},
	"POST /access/v1/search/subject":         {"/access/v1/search/subject", todoQuestion},
	"POST /access/v1/search/action":          {"/access/v1/search/action", todoQuestion},
	"POST /access/v1/search/resource":        {"/access/v1/search/resource", todoQuestion},
	"GET /.well-known/authzen-configuration": {"/.well-known/authzen-configuration", ""},
	"GET /notices":                           {"/notices", ""},
	"GET /desk/{file}":                       {"/desk/main.js", ""},
	"GET /whoami":                            {"/whoami", ""},
	"POST /documents/check":                  {"/documents/check", "{}"},
	"GET /campaigns/{campaign}/events":       {"/campaigns/q4/events", ""},
	"POST /campaigns":                        {"/campaigns", `{"name":"q4","scope":{},"reviewers":[{"name":"rita"}]}`},
	"POST /campaigns/{campaign}/keep":        {"/campaigns/q4/keep", `{"items":[0],"digest":"no"}`},
	"POST /campaigns/{campaign}/revoke":      {"/campaigns/q4/revoke", `{"items":[0],"digest":"no","why":"she left"}`},
	"POST /campaigns/{campaign}/pass":        {"/campaigns/q4/pass", `{"items":[0],"to":"ada"}`},
	"POST /campaigns/{campaign}/undo":        {"/campaigns/q4/undo", `{"items":[0]}`},
	"POST /campaigns/{campaign}/close":       {"/campaigns/q4/close", ""},
	"POST /scim/v2/Users":                    {"/scim/v2/Users", `{"userName":"ann"}`},
	"POST /scim/v2/Groups":                   {"/scim/v2/Groups", `{"displayName":"nurses"}`},
	"POST /scim/v2/Users/.search":            {"/scim/v2/Users/.search", `{"filter":"userName pr"}`},
	"POST /scim/v2/Groups/.search":           {"/scim/v2/Groups/.search", `{}`},
	"POST /scim/v2/.search":                  {"/scim/v2/.search", `{}`},
	"POST /scim/v2/Bulk":                     {"/scim/v2/Bulk", `{}`},
	"GET /scim/v2/Users":                     {"/scim/v2/Users", ""},
	"GET /scim/v2/Groups":                    {"/scim/v2/Groups", ""},
	"GET /scim/v2/Users/{id}":                {"/scim/v2/Users/none", ""},
	"GET /scim/v2/Groups/{id}":               {"/scim/v2/Groups/none", ""},
	"PUT /scim/v2/Users/{id}":                {"/scim/v2/Users/none", `{"userName":"bob"}`},
	"PUT /scim/v2/Groups/{id}":               {"/scim/v2/Groups/none", `{"displayName":"x"}`},
	"PATCH /scim/v2/Users/{id}":              {"/scim/v2/Users/none", `{"Operations":[]}`},
	"PATCH /scim/v2/Groups/{id}":             {"/scim/v2/Groups/none", `{"Operations":[]}`},
	"DELETE /scim/v2/Users/{id}":             {"/scim/v2/Users/none", ""},
	"DELETE /scim/v2/Groups/{id}":            {"/scim/v2/Groups/none", ""},
	"GET /scim/v2/Me":                        {"/scim/v2/Me", ""},
	"POST /scim/v2/Me":                       {"/scim/v2/Me", "{}"},
	"PUT /scim/v2/Me":                        {"/scim/v2/Me", "{}"},
	"PATCH /scim/v2/Me":                      {"/scim/v2/Me", "{}"},
	"DELETE /scim/v2/Me":                     {"/scim/v2/Me", ""},
	"GET /scim/v2/ServiceProviderConfig":     {"/scim/v2/ServiceProviderConfig", ""},
	"GET /scim/v2/Schemas":                   {"/scim/v2/Schemas", ""},
	"GET /scim/v2/Schemas/{schema}":          {"/scim/v2/Schemas/urn:ietf:params:scim:schemas:core:2.0:User", ""},
	"GET /scim/v2/ResourceTypes":             {"/scim/v2/ResourceTypes", ""},
	"GET /scim/v2/ResourceTypes/{name}":      {"/scim/v2/ResourceTypes/Group", ""},
	"GET /scim/hold":                         {"/scim/hold", ""},
	"POST /scim/hold":                        {"/scim/hold", `{"why":"we look at it"}`},
	"DELETE /scim/hold":                      {"/scim/hold", ""},
}

const todoQuestion = `{"subject":{"type":"user","id":"ben"},"action":{"name":"can_read_todos"},"resource":{"type":"todo","id":"milk"}}`

// TestOpenAPI asks each path by each method, and compares the answer with the document; and its paths with those that
// are listed.
func TestOpenAPI(t *testing.T) {
	f := begin(t, t.TempDir(), "--authzen", filepath.Join(todoFolder, "authzen.json"), "--scim", scimFile(t, scimMapping))
	f.accept(clinic(t)...)
	var told document
	if err := json.Unmarshal([]byte(f.must("/openapi.json")), &told); err != nil || told.OpenAPI != "3.0.3" {
		t.Fatal(told.OpenAPI, err)
	}
	var listed struct{ Paths []string }
	if err := json.Unmarshal([]byte(f.must("/")), &listed); err != nil {
		t.Fatal(err)
	}
	served := map[string]bool{"POST /authorize": true}
	for _, one := range listed.Paths {
		served[one] = true
	}
	_, opened := f.post("/sessions", "")
	var session struct{ Session string }
	if err := json.Unmarshal([]byte(opened), &session); err != nil {
		t.Fatal(err)
	}
	ask := func(method, path, body string) *http.Response {
		asked, err := http.NewRequest(method, f.url(strings.Replace(path, "{session}", "/sessions/"+session.Session, 1)), strings.NewReader(body))
		if err != nil {
			t.Fatal(err)
		}
		answer, err := http.DefaultClient.Do(asked)
		if err != nil {
			t.Fatal(err)
		}
		return answer
	}
	count := 0
	for _, method := range []string{"GET", "POST", "PUT", "PATCH", "DELETE"} {
		for path, methods := range told.Paths {
			operation, there := methods[strings.ToLower(method)]
			if there != served[method+" "+path] {
				t.Errorf("%s %s is told: %v", method, path, there)
			}
			if !there {
				answer := ask(method, strings.NewReplacer("/sessions/{session}", "{session}", "{command}", "x", "{person}", "x", "{action}", "x",
					"{resource}", "x").Replace(path), "")
				answer.Body.Close()
				if answer.StatusCode != http.StatusMethodNotAllowed {
					t.Errorf("%s %s isn't told, and answered %d", method, path, answer.StatusCode)
				}
				continue
			}
			count++
			sample, there := sent[method+" "+path]
			if !there {
				sample = [2]string{samples[path][0], ""}
			}
			if sample[0] == "" {
				t.Errorf("%s %s isn't asked", method, path)
				continue
			}
			answer := ask(method, sample[0], sample[1])
			compare(t, method+" "+path, told, answer)
			for _, parameter := range operation.Parameters {
				if parameter.In == "query" && parameter.Required {
					answer := ask(method, strings.Replace(sample[0], parameter.Name+"=", "x=", 1), sample[1])
					compare(t, method+" "+path, told, answer)
					if answer.StatusCode != http.StatusBadRequest {
						t.Errorf("%s without %s is answered %d", path, parameter.Name, answer.StatusCode)
					}
				}
			}
		}
	}
	if count != len(served) {
		t.Errorf("%d are asked of %d", count, len(served))
	}
}

// compare compares an answer with what is told of its path.
func compare(t *testing.T, of string, told document, answer *http.Response) {
	t.Helper()
	method, path, _ := strings.Cut(of, " ")
	operation := told.Paths[path][strings.ToLower(method)]
	response, isDone := operation.Responses[strconv.Itoa(answer.StatusCode)]
	if !isDone {
		response = operation.Responses["default"]
	}
	if operation.Summary == "" || isDone != (answer.StatusCode < 300) {
		t.Errorf("%s is answered %s, and told: %v", of, answer.Status, isDone)
	}
	kind, _, _ := strings.Cut(answer.Header.Get("Content-Type"), ";")
	content, there := response.Content[kind]
	if !there && !(len(response.Content) == 0 && kind == "") {
		t.Errorf("%s is answered %s by %q", of, answer.Status, kind)
	}
	if kind == "text/event-stream" {
		answer.Body.Close()
		return
	}
	_, body := bodyOf(t, answer)
	for _, key := range content.Schema.Required {
		var read map[string]json.RawMessage
		if err := json.Unmarshal([]byte(body), &read); err != nil || read[key] == nil {
			t.Errorf("%s is answered %.200s, without %s", of, body, key)
		}
	}
	if answer.StatusCode >= 300 && strings.HasPrefix(kind, "application/problem") && !strings.Contains(body, `"status":`) {
		t.Errorf("%s is answered %s", of, body)
	}
}
